//! The paper's numbers: refusals 1 to 14 and stops 30 to 40.

/// "Load and start return 0 where they accept."
pub const ACCEPTED: u8 = 0;

/// "image of 0 or over 65,535 bytes"
pub const IMAGE_SIZE: u8 = 1;
/// "module count 0", or over [`crate::image::MOST_MODULES`]. A.10: "2 now begins at
/// 22."
pub const MODULE_COUNT: u8 = 2;
/// "image ends inside a part"
pub const IMAGE_ENDS: u8 = 3;
/// "bytes after the last module"
pub const BYTES_AFTER: u8 = 4;
/// "bit 3 to 7 of a bit map"
pub const BIT_MAP: u8 = 5;
/// "a field out of range"
pub const FIELD_RANGE: u8 = 6;
/// "map shorter than image"; since A.5 "7 counts entries"
pub const MAP_SHORT: u8 = 7;
/// "no depths fit"; since A.3 "that the code is whole and no depths fit"
pub const NO_DEPTHS: u8 = 8;
/// "W below Z + 36 or over 65,535"
pub const STORE_SIZE: u8 = 9;
/// "inputs or outputs not 16 words"
pub const CHANNEL_COUNT: u8 = 10;
/// "not a machine"
pub const NOT_A_MACHINE: u8 = 11;
/// "map does not fit"
pub const MAP_UNFIT: u8 = 12;
/// The code is not whole. A.3: "13, after 7 and before 8".
pub const NOT_WHOLE: u8 = 13;
/// A.11: "the output slice is shorter than the form, after load's refusals"
pub const OUTPUT_SHORT: u8 = 14;

/// "30 spent (all n steps done)"
pub const SPENT: u8 = 30;
/// "31 ended"
pub const ENDED: u8 = 31;
/// "32 address"
pub const ADDRESS: u8 = 32;
/// "33 stack limit"
pub const STACK_LIMIT: u8 = 33;
/// "34 return mark"
pub const RETURN_MARK: u8 = 34;
/// "35 process"
pub const PROCESS: u8 = 35;
/// "36 divisor"
pub const DIVISOR: u8 = 36;
/// "37 signed range", and A.6: "UADD, USUB and UMUL give trap 37": a result that
/// no word holds, signed outside −32,768 to 32,767 or unsigned outside 0 to 65,535
pub const RESULT_RANGE: u8 = 37;
/// "38 check"
pub const CHECK: u8 = 38;
/// "39 channel"
pub const CHANNEL: u8 = 39;
/// "40 program"
pub const PROGRAM: u8 = 40;
