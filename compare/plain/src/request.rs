//! The server: a request as bytes, answered on the meter (02, A9, whose words the
//! quotations are).

use crate::access_result::{OBJECT_UNDEFINED, READ_WRITE_DENIED, TYPE_UNMATCHED};
use crate::apdu::{Data, Request, Response, Service};
use crate::letter::Letter;
use crate::meter::{CONNECTED, DISCONNECT, Machine};
use crate::table::Table;
use crate::{fault, refusal};

/// "21, answer buffer under 32 bytes"
pub const ANSWER_BUFFER: usize = 32;

/// An answered request: the bytes that the answer takes in the buffer, and the
/// letter of the move that was made, or none.
#[derive(Clone, Copy, Debug, PartialEq, Eq)]
pub struct Answered {
    pub length: usize,
    pub letter: Option<Letter>,
}

/// The attributes of the objects that are covered.
#[derive(Clone, Copy, Debug, PartialEq, Eq)]
enum Attribute {
    OutputState,
    ControlState,
    ControlMode,
    ThresholdNormal,
    MinOverThresholdDuration,
    MinUnderThresholdDuration,
    Errors,
    Alarms,
    AlarmFilter,
}

/// The methods that are covered.
#[derive(Clone, Copy, Debug, PartialEq, Eq)]
enum Method {
    RemoteDisconnect,
    RemoteReconnect,
}

// Kinds of calls that a request can name.
const REMOTE_DISCONNECT: u32 = 2;
const REMOTE_RECONNECT: u32 = 3;
const SET_MODE: u32 = 6;
const SET_LIMITER: u32 = 7;
const SET_ALARM_FILTER: u32 = 10;
const SET_ERROR_FILTER: u32 = 11;
const CLEAR_ALARMS: u32 = 12;
const CLEAR_ERRORS: u32 = 13;

/// A call by its kind and numbers.
type Call = (u32, [u32; 5]);

/// The letter of an access with success, or the result of another.
type Access = Result<Option<Letter>, u8>;

impl<const FAULT: u8, const VECTORS: bool> Machine<FAULT, VECTORS> {
    /// Answers a request: "the order is 21, 12, 20". A refusal leaves record and
    /// buffer; "a GET and any other answer" than success leaves the record.
    pub fn request(
        &mut self,
        table: &Table,
        request: &[u8],
        answer: &mut [u8],
    ) -> Result<Answered, u8> {
        demand_room::<FAULT>(answer)?;
        self.demand_sound(table)?;
        let (answered, _) = self.answer(table, request, answer)?;
        Ok(answered)
    }

    /// The same on the meter of a page, 9, 10 and 11 in 12's place. The page is
    /// written after a success of a SET or an ACTION alone. The table is the one that
    /// the page is judged under.
    pub fn request_on_page(
        page: &mut [u8],
        table: &Table,
        request: &[u8],
        answer: &mut [u8],
    ) -> Result<Answered, u8> {
        let table = match FAULT {
            fault::JUDGES_PAGE_BY_BUILT_IN => &Table::BuiltIn,
            _ => table,
        };
        match FAULT {
            fault::READS_PAGE_FIRST => {
                Self::read_page(page, table)?;
            }
            fault::READS_REQUEST_FIRST if answer.len() >= ANSWER_BUFFER => {
                Request::read::<FAULT>(request).ok_or(refusal::REQUEST)?;
            }
            _ => {}
        }
        demand_room::<FAULT>(answer)?;
        let mut meter = Self::read_page(page, table)?;
        let (answered, moved) = meter.answer(table, request, answer)?;
        if moved {
            meter.write_page(table, page)?;
        }
        Ok(answered)
    }

    /// "Each whole request is answered"; also whether the record may have changed.
    fn answer(
        &mut self,
        table: &Table,
        request: &[u8],
        answer: &mut [u8],
    ) -> Result<(Answered, bool), u8> {
        let request = Request::read::<FAULT>(request).ok_or(refusal::REQUEST)?;
        // The letter, none too, of a success that may have changed the record.
        let (response, called) = match request.service {
            Service::Get => (Response::Get(self.get(&request)), None),
            Service::Set(data) => {
                let access = self.set(table, &request, data);
                (Response::Set(access.map(|_| ())), access.ok())
            }
            Service::Action(data) => {
                let access = self.act(table, &request, data);
                (Response::Action(access.map(|_| ())), access.ok())
            }
        };
        let letter = match FAULT {
            fault::HANDS_ON_NO_LETTER => None,
            _ => called.flatten(),
        };
        let length = response.write::<FAULT>(request.invoke_id, answer);
        let moved = called.is_some() || FAULT == fault::MOVES_AFTER_DENIAL;
        Ok((Answered { length, letter }, moved))
    }

    fn get(&self, request: &Request) -> Result<Data, u8> {
        let undefined = match FAULT {
            fault::DENIES_UNDEFINED => READ_WRITE_DENIED,
            _ => OBJECT_UNDEFINED,
        };
        let attribute = Attribute::of::<FAULT>(request).ok_or(undefined)?;
        Ok(match attribute {
            Attribute::OutputState if FAULT == fault::OUTPUT_UNLESS_DISCONNECTED => {
                Data::Boolean(self.switch != 0)
            }
            Attribute::OutputState => Data::Boolean(self.switch == CONNECTED),
            Attribute::ControlState => Data::Enum(self.switch),
            Attribute::ControlMode => Data::Enum(self.mode),
            Attribute::ThresholdNormal if FAULT == fault::GETS_THRESHOLD_IN_FORCE => {
                Data::DoubleLong(self.threshold_in_force())
            }
            Attribute::ThresholdNormal => Data::DoubleLong(self.threshold),
            Attribute::MinOverThresholdDuration => Data::DoubleLongUnsigned(self.over),
            Attribute::MinUnderThresholdDuration => Data::DoubleLongUnsigned(self.under),
            Attribute::Errors => Data::DoubleLongUnsigned(self.errors),
            Attribute::Alarms if FAULT == fault::GETS_UNHIDDEN_ALARMS => {
                Data::DoubleLongUnsigned(self.alarms & !self.alarm_filter)
            }
            Attribute::Alarms => Data::DoubleLongUnsigned(self.alarms),
            Attribute::AlarmFilter => Data::DoubleLongUnsigned(self.alarm_filter),
        })
    }

    fn set(&mut self, table: &Table, request: &Request, data: Data) -> Access {
        let attribute = Attribute::of::<FAULT>(request).ok_or(OBJECT_UNDEFINED)?;
        let call = self.set_call(attribute, data)?;
        self.run_named(table, call)
    }

    fn act(&mut self, table: &Table, request: &Request, data: Option<Data>) -> Access {
        if FAULT == fault::TYPE_BEFORE_OBJECT && !matches!(data, Some(Data::Integer(_))) {
            return Err(TYPE_UNMATCHED);
        }
        let method = Method::of::<FAULT>(request).ok_or(OBJECT_UNDEFINED)?;
        // "a method takes an integer, its value ignored, and none at all is type-unmatched"
        match data {
            Some(Data::Enum(_)) if FAULT == fault::METHODS_TAKE_ENUM => {}
            Some(Data::Integer(_)) if FAULT == fault::METHODS_TAKE_ENUM => {
                return Err(TYPE_UNMATCHED);
            }
            Some(Data::Integer(0)) if FAULT == fault::METHODS_DEMAND_ONE => {
                return Err(READ_WRITE_DENIED);
            }
            None if FAULT == fault::METHODS_TAKE_NOTHING => {}
            Some(Data::Integer(_)) => {}
            _ => return Err(unmatched::<FAULT>()),
        }
        let kind = match method {
            Method::RemoteDisconnect => REMOTE_DISCONNECT,
            Method::RemoteReconnect => REMOTE_RECONNECT,
        };
        self.run_named(table, (kind, [0; 5]))
    }

    /// The call that a SET names: type-unmatched by the data, then
    /// read-write-denied where the attribute is "not writable".
    fn set_call(&self, attribute: Attribute, data: Data) -> Result<Call, u8> {
        let writable = !matches!(attribute, Attribute::OutputState | Attribute::ControlState);
        if FAULT == fault::DENIED_BEFORE_TYPE && !writable {
            return Err(READ_WRITE_DENIED);
        }
        Ok(match (attribute, data) {
            (Attribute::ControlState, Data::Enum(_)) if FAULT == fault::TAKES_UNWRITABLE => {
                (SET_MODE, [self.mode.into(), 0, 0, 0, 0])
            }
            (Attribute::OutputState, Data::Boolean(_))
            | (Attribute::ControlState, Data::Enum(_)) => return Err(READ_WRITE_DENIED),
            (Attribute::ControlMode, Data::Enum(mode)) => (SET_MODE, [mode.into(), 0, 0, 0, 0]),
            // "A SET in class 71 is call 7 with the other two kept"
            (Attribute::ThresholdNormal, Data::DoubleLong(threshold)) => {
                self.limiter(threshold.cast_unsigned(), self.over, self.under)
            }
            (Attribute::ThresholdNormal, Data::DoubleLongUnsigned(threshold))
                if FAULT == fault::TAKES_UNSIGNED_THRESHOLD =>
            {
                self.limiter(threshold, self.over, self.under)
            }
            (Attribute::MinOverThresholdDuration, Data::DoubleLongUnsigned(over)) => {
                self.limiter(self.threshold.cast_unsigned(), over, self.under)
            }
            (Attribute::MinUnderThresholdDuration, Data::DoubleLongUnsigned(under)) => {
                self.limiter(self.threshold.cast_unsigned(), self.over, under)
            }
            // "call 13 or 12, clearing the bits that are zero in the value"
            (Attribute::Errors, Data::DoubleLongUnsigned(value)) => {
                (CLEAR_ERRORS, [mask::<FAULT>(value), 0, 0, 0, 0])
            }
            (Attribute::Alarms, Data::DoubleLongUnsigned(value)) => {
                (CLEAR_ALARMS, [mask::<FAULT>(value), 0, 0, 0, 0])
            }
            (Attribute::AlarmFilter, Data::DoubleLongUnsigned(filter)) => {
                let kind = match FAULT {
                    fault::SETS_ERROR_FILTER => SET_ERROR_FILTER,
                    _ => SET_ALARM_FILTER,
                };
                (kind, [filter, 0, 0, 0, 0])
            }
            _ => return Err(unmatched::<FAULT>()),
        })
    }

    fn limiter(&self, threshold: u32, over: u32, under: u32) -> Call {
        let numbers = match FAULT {
            fault::EXCHANGES_OVER_AND_UNDER => [threshold, under, over, 0, 0],
            _ => [threshold, over, under, 0, 0],
        };
        (SET_LIMITER, numbers)
    }

    /// "The meter after a success is the meter after the call the frame names";
    /// "read-write-denied if ... 01's table refuses".
    fn run_named(&mut self, table: &Table, (kind, numbers): Call) -> Access {
        let called = self.command_sound(table, kind, numbers);
        if FAULT == fault::MOVES_AFTER_DENIAL && called.is_err() {
            self.run = 0;
            self.note(DISCONNECT, 67);
        }
        called.map_err(|_| READ_WRITE_DENIED)
    }
}

impl Attribute {
    /// "Cover class 70 at 0-0:96.3.10.255 (attributes 2 boolean, 3 and 4 enum, only
    /// 4 writable, ...), class 71 at 0-0:17.0.0.255 (attributes 4 as double-long, 6
    /// and 7 as double-long-unsigned) and attribute 2 of class 1 at
    /// 0-0:97.97.0.255 (errors), 0-0:97.98.0.255 (alarms) and 0-0:97.98.10.255
    /// (alarm filter), double-long-unsigned."
    fn of<const FAULT: u8>(request: &Request) -> Option<Attribute> {
        let class = match FAULT {
            fault::IGNORES_CLASS => class_of(request.name)?,
            _ => request.class,
        };
        Some(match (class, request.name, request.member) {
            (70, [0, 0, 96, 3, 10, 255], 2) => Attribute::OutputState,
            (70, [0, 0, 96, 3, 10, 255], 3) => Attribute::ControlState,
            (70, [0, 0, 96, 3, 10, 255], 4) => Attribute::ControlMode,
            (71, [0, 0, 17, 0, 0, 255], 4) => Attribute::ThresholdNormal,
            (71, [0, 0, 17, 0, 0, 255], 6) => Attribute::MinOverThresholdDuration,
            (71, [0, 0, 17, 0, 0, 255], 7) => Attribute::MinUnderThresholdDuration,
            (1, [0, 0, 97, 97, 0, 255], 2) if FAULT == fault::EXCHANGES_ERRORS_AND_ALARMS => {
                Attribute::Alarms
            }
            (1, [0, 0, 97, 98, 0, 255], 2) if FAULT == fault::EXCHANGES_ERRORS_AND_ALARMS => {
                Attribute::Errors
            }
            (1, [0, 0, 97, 97, 0, 255], 2) => Attribute::Errors,
            (1, [0, 0, 97, 98, 0, 255], 2) => Attribute::Alarms,
            (1, [0, 0, 97, 98, 10, 255], 2) => Attribute::AlarmFilter,
            _ => return None,
        })
    }
}

impl Method {
    /// "class 70 at 0-0:96.3.10.255 (..., methods 1, 2)": remote_disconnect and
    /// remote_reconnect in the Blue Book.
    fn of<const FAULT: u8>(request: &Request) -> Option<Method> {
        let member = match FAULT {
            fault::EXCHANGES_METHODS => 3_u8.wrapping_sub(request.member),
            _ => request.member,
        };
        match (request.class, request.name, member) {
            (70, [0, 0, 96, 3, 10, 255], 1) => Some(Method::RemoteDisconnect),
            (70, [0, 0, 96, 3, 10, 255], 2) => Some(Method::RemoteReconnect),
            _ => None,
        }
    }
}

fn demand_room<const FAULT: u8>(answer: &[u8]) -> Result<(), u8> {
    let room = match FAULT {
        fault::TAKES_31_BYTES => 31,
        _ => ANSWER_BUFFER,
    };
    if answer.len() < room {
        return Err(refusal::ANSWER_BUFFER);
    }
    Ok(())
}

/// "clearing the bits that are zero in the value"
fn mask<const FAULT: u8>(value: u32) -> u32 {
    match FAULT {
        fault::CLEARS_ONES => value,
        _ => !value,
    }
}

fn unmatched<const FAULT: u8>() -> u8 {
    match FAULT {
        fault::DENIES_UNMATCHED => READ_WRITE_DENIED,
        _ => TYPE_UNMATCHED,
    }
}

/// A blunder's class: that of the object with this name.
fn class_of(name: [u8; 6]) -> Option<u16> {
    match name {
        [0, 0, 96, ..] => Some(70),
        [0, 0, 17, ..] => Some(71),
        [0, 0, 97, ..] => Some(1),
        _ => None,
    }
}
