//! The xDLMS APDUs of the server, byte for byte: "GET, SET and ACTION normal
//! requests of the Green Book, unciphered, without selective access" (02, A9), and
//! the answers to them.

use crate::access_result::SUCCESS;
use crate::fault;

const GET_REQUEST: u8 = 0xc0;
const SET_REQUEST: u8 = 0xc1;
const ACTION_REQUEST: u8 = 0xc3;
const GET_RESPONSE: u8 = 0xc4;
const SET_RESPONSE: u8 = 0xc5;
const ACTION_RESPONSE: u8 = 0xc7;

/// The choice of a normal request, or of the answer to one.
const NORMAL: u8 = 1;

// The tags of data.
const BOOLEAN: u8 = 0x03;
const DOUBLE_LONG: u8 = 0x05;
const DOUBLE_LONG_UNSIGNED: u8 = 0x06;
const INTEGER: u8 = 0x0f;
const ENUM: u8 = 0x16;

/// The bytes down to the optional part's flag, which every request has.
const HEAD: usize = 13;

/// "Data is one boolean, enum, integer, double-long or double-long-unsigned,
/// else 20" (02, A9).
#[derive(Clone, Copy, Debug, PartialEq, Eq)]
pub(crate) enum Data {
    Boolean(bool),
    DoubleLong(i32),
    DoubleLongUnsigned(u32),
    Integer(i8),
    Enum(u8),
}

/// What a request asks of its attribute or method.
#[derive(Clone, Copy, Debug, PartialEq, Eq)]
pub(crate) enum Service {
    Get,
    Set(Data),
    Action(Option<Data>),
}

/// A whole request: `member` is an attribute, or an ACTION's method.
#[derive(Clone, Copy, Debug, PartialEq, Eq)]
pub(crate) struct Request {
    pub invoke_id: u8,
    pub class: u16,
    pub name: [u8; 6],
    pub member: u8,
    pub service: Service,
}

/// What a request is answered with: an error is a result of access.
#[derive(Clone, Copy, Debug, PartialEq, Eq)]
pub(crate) enum Response {
    Get(Result<Data, u8>),
    Set(Result<(), u8>),
    Action(Result<(), u8>),
}

impl Request {
    /// The request that these bytes are, whole and nothing behind it.
    pub(crate) fn read<const FAULT: u8>(bytes: &[u8]) -> Option<Request> {
        let (head, optional) = bytes.split_first_chunk::<HEAD>()?;
        let [tag, choice, invoke_id, high, low, name @ .., member, flag] = *head;
        if choice != NORMAL {
            return None;
        }
        let nothing = optional.is_empty() || FAULT == fault::TAKES_TRAILING_BYTES;
        // "An optional-part flag other than 0 or 1, or an access selection present, is 20"
        let service = match (tag, flag) {
            (GET_REQUEST, 0) if nothing => Service::Get,
            (GET_REQUEST, 1) if FAULT == fault::TAKES_SELECTION_FLAG && nothing => Service::Get,
            (SET_REQUEST, 0) => Service::Set(Data::read::<FAULT>(optional)?),
            (ACTION_REQUEST, 0) if nothing => Service::Action(None),
            (ACTION_REQUEST, 1) => Service::Action(Some(Data::read::<FAULT>(optional)?)),
            (ACTION_REQUEST, 2..) if FAULT == fault::TAKES_ANY_FLAG => {
                Service::Action(Some(Data::read::<FAULT>(optional)?))
            }
            _ => return None,
        };
        Some(Request {
            invoke_id,
            class: u16::from_be_bytes([high, low]),
            name,
            member,
            service,
        })
    }
}

impl Data {
    /// The data that these bytes are, whole and nothing behind it.
    fn read<const FAULT: u8>(bytes: &[u8]) -> Option<Data> {
        let (&tag, mut value) = bytes.split_first()?;
        if FAULT == fault::TAKES_TRAILING_BYTES {
            let width = if matches!(tag, DOUBLE_LONG | DOUBLE_LONG_UNSIGNED) {
                4
            } else {
                1
            };
            value = &value[..value.len().min(width)];
        }
        Some(match (tag, value) {
            (BOOLEAN, [2..=255]) if FAULT == fault::REFUSES_WIDE_BOOLEAN => return None,
            (BOOLEAN, &[byte]) => Data::Boolean(byte != 0),
            (DOUBLE_LONG, &[a, b, c, d]) => Data::DoubleLong(i32::from_be_bytes([a, b, c, d])),
            (DOUBLE_LONG_UNSIGNED, &[a, b, c, d]) => {
                Data::DoubleLongUnsigned(u32::from_be_bytes([a, b, c, d]))
            }
            (INTEGER, &[byte]) => Data::Integer(byte.cast_signed()),
            (ENUM, &[byte]) => Data::Enum(byte),
            _ => return None,
        })
    }
}

impl Response {
    /// Writes the answer before the buffer's old bytes, which stay, and answers
    /// its length. "The invoke-id byte" is the request's, whole.
    pub(crate) fn write<const FAULT: u8>(self, invoke_id: u8, buffer: &mut [u8]) -> usize {
        let invoke_id = match FAULT {
            fault::CONSTANT_INVOKE_ID => 0xc1,
            fault::DROPS_PRIORITY => invoke_id & 0x7f,
            _ => invoke_id,
        };
        let mut length = 0;
        let mut put = |bytes: &[u8]| {
            buffer[length..][..bytes.len()].copy_from_slice(bytes);
            length += bytes.len();
        };
        match self {
            Response::Get(Ok(data)) => {
                put(&[GET_RESPONSE, NORMAL, invoke_id, 0]);
                match data {
                    // "A boolean true is written 1"
                    Data::Boolean(true) if FAULT == fault::WRITES_TRUE_AS_255 => {
                        put(&[BOOLEAN, 255]);
                    }
                    Data::Boolean(value) => put(&[BOOLEAN, value.into()]),
                    Data::DoubleLong(value) => {
                        put(&[DOUBLE_LONG]);
                        put(&value.to_be_bytes());
                    }
                    Data::DoubleLongUnsigned(value) => {
                        put(&[DOUBLE_LONG_UNSIGNED]);
                        put(&match FAULT {
                            fault::WRITES_LITTLE_ENDIAN => value.to_le_bytes(),
                            _ => value.to_be_bytes(),
                        });
                    }
                    Data::Integer(value) => put(&[INTEGER, value.cast_unsigned()]),
                    Data::Enum(value) => put(&[ENUM, value]),
                }
            }
            Response::Get(Err(result)) => put(&[GET_RESPONSE, NORMAL, invoke_id, 1, result]),
            Response::Set(done) => put(&[SET_RESPONSE, NORMAL, invoke_id, result_of(done)]),
            Response::Action(done) => {
                put(&[ACTION_RESPONSE, NORMAL, invoke_id, result_of(done)]);
                // "any action answer carries no return data"
                match FAULT {
                    fault::RETURNS_DATA => put(&[1, 0, 0]),
                    _ => put(&[0]),
                }
            }
        }
        if FAULT == fault::ZEROES_PAST_ANSWER {
            buffer[length..].fill(0);
        }
        length
    }
}

fn result_of(done: Result<(), u8>) -> u8 {
    done.err().unwrap_or(SUCCESS)
}
