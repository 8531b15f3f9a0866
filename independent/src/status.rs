//! The status bytes of answers.

pub const COMMAND_NUMBER: u8 = 0x04;
pub const PARAMETER: u8 = 0x05;
pub const ACK: u8 = 0x06;
pub const CHECKSUM: u8 = 0x07;
pub const VERIFY: u8 = 0x0F;
pub const PROTECTED: u8 = 0x10;
pub const NACK: u8 = 0x15;
pub const NOT_BLANK: u8 = 0x1B;
pub const WRITE: u8 = 0x1C;
pub const ID: u8 = 0x24;
