//! The rows that a session stream ought to reach.

use crate::numbers::*;
use crate::piece_coverage::PIECE_ROWS;
use crate::start_coverage;
use crate::uart_coverage::RUN_ROWS;
use crate::way_coverage;

/// The rims of the legal rows and blocks.
pub const RIMS: [u32; 9] =
    [0x000FF8, 0x001000, 0x00FFF8, 0x00FFC0, 0x00FFC8, 0x010000, 0xF00000, 0xF003F8, 0xF00400];

/// Rows that both ports ought to reach, UART in pieces too: refusals told apart, then what is done.
const PORT_ROWS: [&str; 43] = [
    "3 error",
    "3 waiting",
    "4 upper flag",
    "6 of the other mode",
    "6 of no mode",
    "7 group, D2 not 0x00",
    "7 group, D3 another",
    "7 group, D2 not 0x00 and D3 neither 0x00 nor own",
    "7 node",
    "7 programming",
    "8 drops nothing",
    "8 drops a staged command",
    "9 after an untidy record",
    "0x100",
    "0x101 D3 0x00",
    "0x101 own group",
    "0x102",
    "0x103 D3 0x00",
    "0x103 own group",
    "0x104",
    "0x105 D3 0x00",
    "0x105 own group",
    "0x105 not started",
    "0x106",
    "0x106 to 0x1F1",
    "0x106 to 0x1F1, sum a multiple of 65536",
    "0x10D D3 0x00",
    "0x10D own group",
    "0x10E",
    "0x10F D3 0x00",
    "0x10F own group",
    "0x111",
    "0x010",
    "0x020",
    "0x030",
    "0x040 Read FLASH",
    "0x040 Read EEPROM",
    "0x040 Write FLASH",
    "0x040 Write EEPROM",
    "0x040 Erase FLASH",
    "0x040 Write FLASH between cells not 0x00",
    "0x040 Write EEPROM between cells not 0x00",
    "0x040 Erase FLASH between cells not 0xFF",
];

/// Rows of one port, and of the calls without a port.
const OTHER_ROWS: [&str; 40] = [
    "begin with mixed memories",
    "CAN 4 length",
    "CAN 4 more than 20 bytes",
    "CAN 4 a multiple of 256 more than 12 bytes",
    "CAN 4 a wrapped frame",
    "CAN 0 with bytes held",
    "UART 10 held",
    "UART 10 skipped",
    "UART 0 with 0xAA inside",
    "restart 0 normal, started",
    "restart 0 normal, not started",
    "restart 0 normal, started, sum a multiple of 65536",
    "restart 0 normal, not started, sum a multiple of 65536",
    "restart 0 normal, not started, sums apart in the high byte alone",
    "restart 0 programming",
    "restart 0 error",
    "restart 0 BOOTFL 0x00",
    "restart 0 BOOTFL another",
    "restart 0 own numbers 00 00",
    "restart 0 own numbers FF FF",
    "restart 1",
    "identifier to frame 0",
    "identifier to frame 4",
    "frame to identifier 0",
    "frame to identifier 4",
    "wrap 0",
    "wrap 4",
    "unwrap 0",
    "unwrap 4",
    "unwrap 11",
    "show 0 FLASH",
    "show 0 EEPROM",
    "show 1",
    "show 8",
    "rule Read FLASH",
    "rule Write FLASH",
    "rule Erase FLASH",
    "rule Read EEPROM",
    "rule Write EEPROM",
    "rule illegal",
];

/// The calls that ask for the lengths of the memories, and what lengths may be.
const LENGTH_CALLS: [&str; 5] = ["CAN", "UART", "piece", "restart", "show"];
const LENGTH_ROWS: [&str; 7] = [
    "no FLASH",
    "no EEPROM",
    "exchanged",
    "one fewer beside one more",
    "one off",
    "FLASH twice as long",
    "far off",
];

/// The calls that tidy a record, and how it may be untidy.
const RECORD_CALLS: [&str; 4] = ["CAN", "UART", "piece", "restart"];
pub const RECORD_ROWS: [&str; 2] =
    ["after a count above 255 whose low byte would do", "after a fifteenth held byte not 0x00"];

/// Every row that a stream ought to reach, in the order of the printed table. CAN can't come to
/// 2, 10 and 11.
pub fn wanted() -> Vec<String> {
    let mut rows = Vec::new();
    for port in ["CAN", "UART", "piece"] {
        let uart_alone = [PIN_CAN_ONLY, INCOMPLETE, BAD_WRAPPING];
        let numbers = (0..=11).filter(|number| port != "CAN" || !uart_alone.contains(number));
        rows.extend(numbers.map(|number| format!("{port} outcome {number}")));
        rows.extend(PORT_ROWS.iter().map(|row| format!("{port} {row}")));
        rows.extend(RIMS.iter().map(|rim| format!("{port} 0x030 at the rim 0x{rim:06X}")));
    }
    rows.extend(OTHER_ROWS.iter().map(|row| row.to_string()));
    rows.extend(RUN_ROWS.iter().map(|row| format!("UART {row}")));
    rows.extend(PIECE_ROWS.iter().map(|row| format!("piece {row}")));
    for call in LENGTH_CALLS {
        rows.extend(LENGTH_ROWS.iter().map(|row| format!("{call} 1 {row}")));
    }
    for call in RECORD_CALLS {
        rows.extend(RECORD_ROWS.iter().map(|row| format!("{call} {row}")));
    }
    rows.extend(way_coverage::wanted());
    rows.extend(start_coverage::wanted());
    rows
}
