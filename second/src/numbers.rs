//! The numbered outcomes of document 01.

pub const DONE: u8 = 0;
/// FLASH not 65,536 or EEPROM not 1,024 bytes.
pub const MEMORY_LENGTH: u8 = 1;
/// UART while the pin says CAN only.
pub const PIN_CAN_ONLY: u8 = 2;
/// Error mode or waiting for restart.
pub const DEAF: u8 = 3;
/// Not 12 bytes, an upper flag, an identifier too large, not 8 data bytes, a wrong output.
pub const MALFORMED: u8 = 4;
/// Response flag set.
pub const RESPONSE: u8 = 5;
/// Type not handled in this mode.
pub const NOT_HANDLED: u8 = 6;
/// Not for this node.
pub const NOT_FOR_NODE: u8 = 7;
/// Illegal address or command.
pub const ILLEGAL: u8 = 8;
/// Data frame with nothing staged.
pub const NOTHING_STAGED: u8 = 9;
/// UART frame incomplete.
pub const INCOMPLETE: u8 = 10;
/// UART start, sum or stop wrong.
pub const BAD_WRAPPING: u8 = 11;

/// A number in words.
pub fn words(number: u8) -> &'static str {
    match number {
        DONE => "done",
        MEMORY_LENGTH => "FLASH or EEPROM of a wrong length",
        PIN_CAN_ONLY => "UART while pin says CAN only",
        DEAF => "error mode or waiting for restart",
        MALFORMED => "wrong length, upper flag or identifier",
        RESPONSE => "response flag set",
        NOT_HANDLED => "type not handled in this mode",
        NOT_FOR_NODE => "not for this node",
        ILLEGAL => "illegal address or command",
        NOTHING_STAGED => "nothing staged",
        INCOMPLETE => "UART frame incomplete",
        BAD_WRAPPING => "UART start, sum or stop wrong",
        _ => "no such number",
    }
}
