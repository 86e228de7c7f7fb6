//! The switching core of the pillar meter, written from document 01 and requests
//! A1, A2, A3, A5, A6, A8 and A9 of document 02, but for one thing: they give the
//! faults of a list no numbers, so those of [`Machine::replay`], 100 to 102, and the
//! order of its refusals are the C interface's (`pillar.h`).
//!
//! [`Meter`] is the record with its seventeen calls. Every call works in place
//! and answers the [`Letter`] of the move that it made, or none, or the number
//! of its refusal; a refused call leaves the record as it was. Whatever tests the
//! record is lent its [`Table`] of events. [`Vectorised`] is the same with a test
//! of the logs that is tuned for speed. The quotations in the comments are
//! document 01's, but for those marked (02, A1) to (02, A9).
//! [`Machine::request`] answers a request as DLMS bytes (02, A9).
//! [`three_phase`] is the meter with three powers a second (02, A13), which has all
//! but the limiter and the emergency profile from here.

pub mod access_result;
mod apdu;
mod emergency;
mod events;
#[cfg(feature = "faults")]
pub mod fault;
#[cfg(not(feature = "faults"))]
mod fault;
mod letter;
mod list;
mod log;
mod meter;
mod page;
pub mod refusal;
mod request;
mod table;
pub mod three_phase;

// Requests A10, A11 and A12, which stand apart from the meter.
pub mod berths;
pub mod energy;
pub mod tariff;

pub use emergency::{
    ACTIVE, EmergencyProfile, GROUPS, Groups, LONGEST_EMERGENCY, NO_PROFILE, WAITING,
};
pub use letter::Letter;
pub use list::RECORD;
pub use log::{LINES, Log};
pub use meter::{
    Answer, CONNECTED, DISCONNECT, DISCONNECTED, FRAUD, Faultless, LONGEST, Machine, Meter, READY,
    STANDARD, Vectorised,
};
pub use page::{PAGE, PAIRS};
pub use request::{ANSWER_BUFFER, Answered};
pub use table::{NO_BIT, OwnTable, TABLE_LINE, TABLE_LINES, Table};
