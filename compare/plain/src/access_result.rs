//! The Green Book's results of access that a request is answered with
//! (Data-Access-Result of a GET or SET, Action-Result of an ACTION).

pub const SUCCESS: u8 = 0;
/// "read-write-denied if not writable or 01's table refuses" (02, A9)
pub const READ_WRITE_DENIED: u8 = 3;
/// "object-undefined for anything else" (02, A9)
pub const OBJECT_UNDEFINED: u8 = 4;
pub const TYPE_UNMATCHED: u8 = 12;
