//! Those of the server of requests (02, A9), from 200 on.

/// A SET of errors or alarms clears the bits that are one in the value.
pub const CLEARS_ONES: u8 = 200;
/// The objects of errors and alarms are exchanged.
pub const EXCHANGES_ERRORS_AND_ALARMS: u8 = 201;
/// A SET in class 71 exchanges Over and Under in call 7.
pub const EXCHANGES_OVER_AND_UNDER: u8 = 202;
/// The output state is true unless Disconnected.
pub const OUTPUT_UNLESS_DISCONNECTED: u8 = 203;
/// Another type of data is read-write-denied.
pub const DENIES_UNMATCHED: u8 = 204;
/// An answer buffer of 31 bytes is taken.
pub const TAKES_31_BYTES: u8 = 205;
/// Every answer bears the same invoke id.
pub const CONSTANT_INVOKE_ID: u8 = 206;
/// An answer bears the invoke id without its bit of priority.
pub const DROPS_PRIORITY: u8 = 207;
/// Methods take an enum, and an integer is type-unmatched.
pub const METHODS_TAKE_ENUM: u8 = 208;
/// Methods run without data too.
pub const METHODS_TAKE_NOTHING: u8 = 209;
/// A method with the integer 0 is denied.
pub const METHODS_DEMAND_ONE: u8 = 210;
/// Bytes behind a whole request are ignored.
pub const TAKES_TRAILING_BYTES: u8 = 211;
/// A GET with the flag of access selection at 1 is taken.
pub const TAKES_SELECTION_FLAG: u8 = 212;
/// An ACTION takes data behind a flag above 1.
pub const TAKES_ANY_FLAG: u8 = 213;
/// A GET of the normal threshold reads the one in force.
pub const GETS_THRESHOLD_IN_FORCE: u8 = 214;
/// A call that the table refuses still sets Run 0 and writes line 67.
pub const MOVES_AFTER_DENIAL: u8 = 215;
/// A boolean above 1 is no data.
pub const REFUSES_WIDE_BOOLEAN: u8 = 216;
/// An ACTION is type-unmatched before its method is looked up.
pub const TYPE_BEFORE_OBJECT: u8 = 217;
/// An attribute that is not writable is denied before the data's type is judged.
pub const DENIED_BEFORE_TYPE: u8 = 218;
/// A SET of the control state is answered with success.
pub const TAKES_UNWRITABLE: u8 = 219;
/// The answer to an ACTION carries return data.
pub const RETURNS_DATA: u8 = 220;
/// The buffer's bytes past the answer are zeroed.
pub const ZEROES_PAST_ANSWER: u8 = 221;
/// A boolean true is written 255.
pub const WRITES_TRUE_AS_255: u8 = 222;
/// A double-long-unsigned is written with its low byte first.
pub const WRITES_LITTLE_ENDIAN: u8 = 223;
/// The page is judged before the answer buffer.
pub const READS_PAGE_FIRST: u8 = 224;
/// The request is judged before the page.
pub const READS_REQUEST_FIRST: u8 = 225;
/// The letter of a method's move is not handed on.
pub const HANDS_ON_NO_LETTER: u8 = 226;
/// A GET of anything else is read-write-denied.
pub const DENIES_UNDEFINED: u8 = 227;
/// A GET of the alarms leaves out those that the filter hides.
pub const GETS_UNHIDDEN_ALARMS: u8 = 228;
/// The threshold may be set as double-long-unsigned.
pub const TAKES_UNSIGNED_THRESHOLD: u8 = 229;
/// A SET of the alarm filter sets the error filter.
pub const SETS_ERROR_FILTER: u8 = 230;
/// Objects are found by their name, whatever the class.
pub const IGNORES_CLASS: u8 = 231;
/// Methods 1 and 2 are exchanged.
pub const EXCHANGES_METHODS: u8 = 232;
/// The page is judged by the built-in table, whatever table is given.
pub const JUDGES_PAGE_BY_BUILT_IN: u8 = 233;
