//! Request A5: its sentences and points 71 to 79 with small texts made by hand, the streams, and
//! what is counted of them.

use crate::hex::*;
use crate::hex_coverage::hex_coverage;
use crate::hex_faults::{examine, verdict};
use crate::hex_file;
use crate::hex_good::right_sum;
use crate::hex_line_rows::line_rows;
use crate::hex_stream::{self, HexTrial};
use crate::hex_texts::hex_texts;
use crate::memory::{BOOTFL, EEPROM_CELLS, FLASH_CELLS};
use crate::read_hex::{patterns, read_hex, wrong_recipe, wrong_refusal};
use crate::recipe::{items, plain_reading, translate};
use crate::samples::bytes;

const NUMBERS: [u8; 2] = [0x05, 0x0A];
const END_LINE: &str = ":00000001FF";
const TO_EEPROM: &str = ":0200000400F00A";
const TO_FLASH: &str = ":020000040000FA";
const EMPTY: &str = ":0000000000";

/// Reads a text for node 05, 0A with room for any recipe; the second opinion must be the same.
fn read(text: &[u8]) -> Result<Vec<u8>, (u8, usize)> {
    let [module, group] = NUMBERS;
    let result = super::hex::read(text, module, group, MOST_RECIPE);
    let result = result.map_err(|refusal| (refusal.number, refusal.line));
    assert_eq!(result.as_ref().err().copied(), verdict(&examine(text)), "{text:02X?}");
    result
}

/// A record's line from pairs of digits without the sum, which is put behind them.
fn rec(pairs: &str) -> String {
    let mut all = bytes(pairs);
    all.push(right_sum(&all));
    let digits: String = all.iter().map(|byte| format!("{byte:02X}")).collect();
    format!(":{digits}")
}

/// The text of some lines with LF behind each, an end record behind them.
fn ended(lines: &[&str]) -> Vec<u8> {
    let all = [lines, &[END_LINE]].concat();
    all.iter().map(|line| format!("{line}\n")).collect::<String>().into_bytes()
}

/// That these lines and an end record are refused so.
fn refused(lines: &[&str], number: u8, line: usize) {
    assert_eq!(read(&ended(lines)), Err((number, line)), "{lines:?}");
}

/// The recipe of these lines and an end record.
fn accepted(lines: &[&str]) -> Vec<u8> {
    read(&ended(lines)).unwrap_or_else(|refusal| panic!("{lines:?}: {refusal:?}"))
}

/// A Block with these cells, at these places of it, and 0xFF in the rest.
fn block(first: u32, cells: &[(usize, u8)]) -> Vec<u8> {
    item(0x02, first, 64, cells)
}

/// Such a Row.
fn row(first: u32, cells: &[(usize, u8)]) -> Vec<u8> {
    item(0x03, first, 8, cells)
}

/// Such an item.
fn item(kind: u8, first: u32, length: usize, cells: &[(usize, u8)]) -> Vec<u8> {
    let mut item = vec![kind];
    item.extend(&first.to_be_bytes()[1..]);
    item.resize(4 + length, 0xFF);
    cells.iter().for_each(|&(place, value)| item[4 + place] = value);
    item
}

/// Open with the numbers, these items, Leave.
fn recipe(items: &[Vec<u8>]) -> Vec<u8> {
    [&[0x01, 0x05, 0x0A], &items.concat()[..], &[0x0F]].concat()
}

/// A text of all legal cells in records of 16 bytes; each value is what `value` gives.
fn all_cells(value: impl Fn(u32) -> u8) -> Vec<u8> {
    let line = |first: u32| {
        let data: String =
            (first..first + 16).map(|cell| format!(" {:02X}", value(cell))).collect();
        rec(&format!("10 {:02X} {:02X} 00{data}", first >> 8 & 0xFF, first & 0xFF))
    };
    let mut lines: Vec<String> = (0x1000..0x10000).step_by(16).map(line).collect();
    lines.push(TO_EEPROM.to_string());
    lines.extend((0xF00000..0xF00400).step_by(16).map(line));
    let lines: Vec<&str> = lines.iter().map(|line| &line[..]).collect();
    ended(&lines)
}

/// "produce a recipe: Open with given numbers .. Leave": nothing between for a file without cells.
#[test]
fn no_cells() {
    assert_eq!(accepted(&[]), bytes("01 05 0A 0F"));
    assert_eq!(accepted(&[EMPTY, TO_EEPROM, EMPTY, TO_FLASH]), bytes("01 05 0A 0F"));
    assert_eq!(super::hex::read(b":00000001FF", 0x00, 0xFF, 4), Ok(bytes("01 00 FF 0F")));
}

/// "one Block per touched FLASH block upward, one Row per touched EEPROM row upward .. 0xFF in the
/// rest of a touched block or row", "EEPROM stands at linear 0x00F00000".
#[test]
fn blocks_and_rows_upward() {
    let one = [":01100000AB44"];
    assert_eq!(accepted(&one), recipe(&[block(0x1000, &[(0, 0xAB)])]));
    let one = [TO_EEPROM, ":0100260005D4"];
    assert_eq!(accepted(&one), recipe(&[row(0xF00020, &[(6, 0x05)])]));
    // Any order of records, EEPROM first, two records of one block with another between.
    let mixed = [
        TO_EEPROM,
        &rec("02 03 F7 00 A1 A2"),
        &rec("01 00 30 00 A3"),
        TO_FLASH,
        &rec("01 FF FF 00 B1"),
        &rec("01 20 05 00 B2"),
        &rec("02 1F FF 00 B3 B4"),
    ];
    let expected = [
        block(0x1FC0, &[(63, 0xB3)]),
        block(0x2000, &[(0, 0xB4), (5, 0xB2)]),
        block(0xFFC0, &[(63, 0xB1)]),
        row(0xF00030, &[(0, 0xA3)]),
        row(0xF003F0, &[(7, 0xA1)]),
        row(0xF003F8, &[(0, 0xA2)]),
    ];
    assert_eq!(accepted(&mixed), recipe(&expected));
}

/// A record of 255 bytes runs over five blocks, or over more than 31 rows.
#[test]
fn records_across_blocks() {
    let data: String = (0..255).map(|value| format!(" {value:02X}")).collect();
    let five = accepted(&[&rec(&format!("FF 20 3F 00{data}"))]);
    let cells = |at: u8| -> Vec<(usize, u8)> {
        (0..64).map(|i| (i, at.wrapping_add(i as u8))).take_while(|&(_, v)| v < 255).collect()
    };
    let mut expected = vec![block(0x2000, &[(63, 0)])];
    for (index, first) in [1u8, 65, 129, 193].into_iter().enumerate() {
        expected.push(block(0x2040 + 64 * index as u32, &cells(first)));
    }
    assert_eq!(five, recipe(&expected));
    let rows = accepted(&[TO_EEPROM, &rec(&format!("FF 00 04 00{data}"))]);
    assert_eq!(rows.len(), 4 + 12 * 33);
    assert_eq!(rows[3..15], row(0xF00000, &[(4, 0), (5, 1), (6, 2), (7, 3)]));
}

/// "digits of either case", also both in one record.
#[test]
fn either_case() {
    let expected = recipe(&[block(0x1A00, &[(0, 0xAB), (1, 0xCD)])]);
    for line in [":021A0000ABCD6C", ":021a0000abcd6c", ":021A0000aBCd6c"] {
        assert_eq!(accepted(&[line]), expected, "{line}");
    }
    // Each digit, as the low half of a cell's value.
    for (value, digit) in "0123456789ABCDEF".chars().enumerate() {
        for digit in [digit, digit.to_ascii_lowercase()] {
            let sum = 0u8.wrapping_sub(0x11 + value as u8);
            let line = format!(":01100000 0{digit}{sum:02X}").replace(' ', "");
            assert_eq!(accepted(&[&line]), recipe(&[block(0x1000, &[(0, value as u8)])]), "{line}");
        }
    }
}

/// "text lines ending in LF or CR LF (the last may lack it)", mixed too; point 73.
#[test]
fn endings() {
    let expected = recipe(&[block(0x1000, &[(0, 0xAB)])]);
    for (first, last) in
        [("\n", "\n"), ("\r\n", "\r\n"), ("\n", "\r\n"), ("\r\n", "\n"), ("\n", "")]
    {
        let text = format!(":01100000AB44{first}{EMPTY}\n{END_LINE}{last}");
        assert_eq!(read(text.as_bytes()), Ok(expected.clone()), "{text:?}");
    }
    // "Text ending in LF has no further empty line", but two LFs have one between.
    assert_eq!(read(format!("{END_LINE}\n\n").as_bytes()), Err((30, 2)));
    assert_eq!(read(format!("{END_LINE}\n\r\n").as_bytes()), Err((30, 2)));
    // "a lone CR is no ending", at the end of the text, as a line, before CR LF, between records.
    assert_eq!(read(format!("{END_LINE}\r").as_bytes()), Err((30, 1)));
    assert_eq!(read(format!("{END_LINE}\n\r").as_bytes()), Err((30, 2)));
    assert_eq!(read(format!("{END_LINE}\r\r\n").as_bytes()), Err((30, 1)));
    assert_eq!(read(format!("{EMPTY}\r{END_LINE}\n").as_bytes()), Err((30, 1)));
    assert_eq!(read(format!("\r{END_LINE}\n").as_bytes()), Err((30, 1)));
    assert_eq!(read(format!("{END_LINE}\n\r").as_bytes()), Err((30, 2)));
    // Other ends of lines are none.
    assert_eq!(read(format!("{EMPTY}\x0C{END_LINE}\n").as_bytes()), Err((30, 1)));
    assert_eq!(read(format!("{EMPTY}\n\r{END_LINE}\n").as_bytes()), Err((30, 2)));
}

/// "empty text has no lines (35 at line 1)"; LF alone, CR LF alone, CR alone is an empty or bad
/// line.
#[test]
fn next_to_no_text() {
    assert_eq!(read(b""), Err((35, 1)));
    assert_eq!(read(b"\n"), Err((30, 1)));
    assert_eq!(read(b"\r\n"), Err((30, 1)));
    assert_eq!(read(b"\r"), Err((30, 1)));
    assert_eq!(read(b"\0"), Err((30, 1)));
    assert_eq!(read(b":"), Err((30, 1)));
    assert_eq!(read(b"\n\n"), Err((30, 1)));
}

/// "Before a type 04 the upper half is 0"; a type 04 holds until the next, and may say the same.
#[test]
fn upper_half() {
    let cell = |value: u8| rec(&format!("01 10 00 00 {value:02X}"));
    let expected = recipe(&[block(0x1000, &[(0, 0x77)])]);
    assert_eq!(accepted(&[&cell(0x77)]), expected);
    assert_eq!(accepted(&[TO_FLASH, TO_FLASH, &cell(0x77)]), expected);
    assert_eq!(accepted(&[TO_EEPROM, TO_FLASH, &cell(0x77), TO_EEPROM]), expected);
    refused(&[TO_EEPROM, &cell(0x77)], 33, 2);
    refused(&[TO_EEPROM, EMPTY, &cell(0x77)], 33, 3);
    // Both bytes of it count.
    for upper in ["00 01", "01 00", "00 F1", "01 F0", "F0 00", "80 00", "00 EF"] {
        let upper = rec(&format!("02 00 00 04 {upper}"));
        refused(&[&upper, &cell(0x77)], 33, 2);
        refused(&[&upper, &rec("01 00 00 00 77")], 33, 2);
        assert_eq!(accepted(&[&upper, EMPTY, TO_FLASH, &cell(0x77)]), expected);
    }
}

/// Point 74: "Address field of 01 and 04 not looked at."
#[test]
fn addresses_not_looked_at() {
    let expected = recipe(&[row(0xF00000, &[(1, 0x42)])]);
    let cell = rec("01 00 01 00 42");
    for address in ["00 00", "00 01", "12 34", "FF FF"] {
        let upper = rec(&format!("02 {address} 04 00 F0"));
        let end = rec(&format!("00 {address} 01"));
        let text = format!("{upper}\n{cell}\n{end}\n");
        assert_eq!(read(text.as_bytes()), Ok(expected.clone()), "{text}");
    }
}

/// "a record runs on past 0xFFFF", and no sum overflows at 0xFFFFFFFF (point 75): all such cells
/// are outside.
#[test]
fn past_the_end() {
    assert_eq!(accepted(&[&rec("01 FF FF 00 01")]), recipe(&[block(0xFFC0, &[(63, 1)])]));
    refused(&[&rec("02 FF FF 00 01 02")], 33, 1);
    let upper = |pairs: &str| rec(&format!("02 00 00 04 {pairs}"));
    refused(&[&upper("FF FF"), &rec("01 FF FF 00 01")], 33, 2);
    refused(&[&upper("FF FF"), &rec("02 FF FF 00 01 02")], 33, 2);
    let long: String = (0..255).map(|_| " 00").collect();
    refused(&[&rec(&format!("FF FF FF 00{long}"))], 33, 1);
    refused(&[&rec(&format!("FF FF 02 00{long}"))], 33, 1);
    assert_eq!(accepted(&[&rec(&format!("FF FF 01 00{long}"))]).len(), 4 + 68 * 4);
    refused(&[&upper("FF FF"), &rec(&format!("FF FF FF 00{long}"))], 33, 2);
    // From 0xEFFFFF into EEPROM, and from the upper half before FLASH's end.
    refused(&[&upper("00 EF"), &rec("02 FF FF 00 01 02")], 33, 2);
}

/// The outermost legal cells and those beside them, alone and in one record.
#[test]
fn borders() {
    let at = |address: u32, data: &str| {
        let upper = rec(&format!("02 00 00 04 {:02X} {:02X}", address >> 24, address >> 16 & 0xFF));
        let count = data.split_whitespace().count();
        let [_, _, high, low] = address.to_be_bytes();
        [upper, rec(&format!("{count:02X} {high:02X} {low:02X} 00 {data}"))]
    };
    let good = |address, data| {
        let [upper, line] = at(address, data);
        accepted(&[&upper, &line])
    };
    let bad = |address, data| {
        let [upper, line] = at(address, data);
        refused(&[&upper, &line], 33, 2);
    };
    assert_eq!(good(0x001000, "11"), recipe(&[block(0x1000, &[(0, 0x11)])]));
    assert_eq!(good(0x00FFFF, "11"), recipe(&[block(0xFFC0, &[(63, 0x11)])]));
    assert_eq!(good(0x00FFFE, "11 22"), recipe(&[block(0xFFC0, &[(62, 0x11), (63, 0x22)])]));
    assert_eq!(good(0xF00000, "11"), recipe(&[row(0xF00000, &[(0, 0x11)])]));
    assert_eq!(good(0xF003FF, "11"), recipe(&[row(0xF003F8, &[(7, 0x11)])]));
    for address in [0x000000, 0x000FFF, 0x010000, 0xEFFFFF, 0xF00400, 0xF01000, 0x01001000] {
        bad(address, "11");
    }
    for address in [0x000FFF, 0x00FFFF, 0xEFFFFF, 0xF003FF, 0x01F00000, 0xFFFFFFFF] {
        bad(address, "11 22");
    }
    bad(0x000FFE, "11 22");
    bad(0x010000, "11 22");
}

/// "a cell given twice": the same value too (point 76), in any later record, at either end of one.
#[test]
fn twice() {
    let given = rec("04 20 3E 00 01 02 03 04");
    for again in [
        "04 20 3E 00 01 02 03 04",
        "04 20 3E 00 05 06 07 08",
        "01 20 3E 00 01",
        "01 20 41 00 FE",
        "02 20 3D 00 09 01",
        "02 20 41 00 04 09",
        "08 20 3C 00 01 02 03 04 05 06 07 08",
    ] {
        refused(&[&given, &rec(again)], 34, 2);
        refused(&[&given, EMPTY, &rec("01 50 00 00 01"), TO_EEPROM, TO_FLASH, &rec(again)], 34, 6);
    }
    // Beside it nothing is given, though the block is touched.
    assert_eq!(
        accepted(&[&given, &rec("01 20 3D 00 09"), &rec("01 20 42 00 0A")]),
        recipe(&[
            block(0x2000, &[(61, 9), (62, 1), (63, 2)]),
            block(0x2040, &[(0, 3), (1, 4), (2, 10)])
        ])
    );
    // 0xFF is a value as any, and what is 0xFF in the rest of a block isn't given.
    refused(&[&rec("01 10 00 00 FF"), &rec("01 10 00 00 FF")], 34, 2);
    refused(&[TO_EEPROM, &rec("01 00 00 00 FF"), &rec("01 00 00 00 00")], 34, 3);
    assert_eq!(accepted(&[&rec("01 10 00 00 FF")]), recipe(&[block(0x1000, &[])]));
    // The same address field under another upper half is another cell.
    refused(&[&rec("01 10 00 00 01"), TO_EEPROM, &rec("01 10 00 00 01")], 33, 3);
    // A record that was refused isn't there: the first bad line decides.
    refused(&[&rec("02 FF FF 00 01 02"), &rec("01 FF FF 00 01")], 33, 1);
}

/// "A record without data is fine" (point 76), wherever it stands, and gives nothing.
#[test]
fn records_without_data() {
    for address in ["00 00", "0F FF", "10 00", "FF FF"] {
        let empty = rec(&format!("00 {address} 00"));
        for upper in [TO_FLASH, TO_EEPROM, ":02000004FFFFFC"] {
            assert_eq!(accepted(&[upper, &empty, &empty]), bytes("01 05 0A 0F"));
        }
    }
}

/// A bad digit at each place of a record, each byte beside the digits, and others: 30.
#[test]
fn bad_digits() {
    let good = rec("02 1A 00 00 AB CD");
    for at in 1..good.len() {
        for byte in [
            b'/', b':', b'@', b'G', b'`', b'g', b' ', b'\t', b'\r', 0, 0x10, 0x7F, 0x80, 0xB0, 0xFF,
        ] {
            let mut line = good.clone().into_bytes();
            line[at] = byte;
            let text = [EMPTY.as_bytes(), b"\n", &line, b"\n", END_LINE.as_bytes()].concat();
            assert_eq!(read(&text), Err((30, 2)), "{byte:02X} at {at}");
        }
    }
    for colon in [b';', b'9', b'0', b' ', 0x00, 0xBA, b'\r'] {
        let mut text = ended(&[&good]);
        text[0] = colon;
        assert_eq!(read(&text), Err((30, 1)));
    }
}

/// "No colon, an empty line, a type 01 with data or a type 04 without exactly two bytes is a bad
/// length", and digits too few or too many: 30.
#[test]
fn bad_lengths() {
    let good = rec("02 1A 00 00 AB CD");
    let digits = &good[1..];
    for line in [
        "",
        ":",
        ":0",
        ":00",
        ":0000",
        ":00000000",
        ":000000000",
        digits,
        &format!(" {good}"),
        &format!("{good} "),
        &format!("{good}0"),
        &format!("{good}00"),
        &format!(":{good}"),
        &format!("{good}{good}"),
        &good[..good.len() - 1],
        &good[..good.len() - 2],
        &good.replace(":02", ":01"),
        &good.replace(":02", ":03"),
        &good.replace(":02", ":0"),
        &good.replace(":02", ":002"),
        &rec("01 1A 00 00 AB CD"),
        &rec("03 1A 00 00 AB CD"),
        &rec("01 00 00 01 00"),
        &rec("02 00 00 01 00 F0"),
        &rec("00 00 00 04"),
        &rec("01 00 00 04 F0"),
        &rec("03 00 00 04 00 F0 00"),
        &rec("00 00 00 01 00"),
        &rec("01 00 00 01"),
        &rec("00 00 00 04 00 F0"),
        &rec("02 00 00 04 F0"),
    ] {
        refused(&[line], 30, 1);
        refused(&[EMPTY, line, EMPTY], 30, 2);
        let last = [EMPTY, line].join("\n") + "\n";
        assert_eq!(read(last.as_bytes()), Err((30, 2)), "{last:?}");
    }
    // 256 bytes of data aren't the 0 that a length byte could say of them.
    let long: String = (0..256).map(|_| " 00").collect();
    refused(&[&rec(&format!("00 20 00 00{long}"))], 30, 1);
    let long: String = (0..255).map(|_| " 00").collect();
    assert_eq!(accepted(&[&rec(&format!("FF 20 00 00{long}"))]).len(), 4 + 68 * 4);
}

/// "bad record sum": each byte of a record is in it, the length and the type too.
#[test]
fn bad_sums() {
    let good = ":021A0000ABCD6C";
    accepted(&[good]);
    for sum in 0..=255u8 {
        let line = format!(":021A0000ABCD{sum:02X}");
        if sum != 0x6C {
            refused(&[&line], 31, 1);
        }
    }
    for line in
        [":011A0000AB3B", ":021A0000ABCD6E", ":021A0000ABCD94", ":0000000001", ":0000000100"]
    {
        refused(&[line], 31, 1);
    }
    refused(&[":0200000400F00B"], 31, 1);
    refused(&[":0200000400F010"], 31, 1);
    let text = format!("{EMPTY}\n:00000001FE");
    assert_eq!(read(text.as_bytes()), Err((31, 2)));
}

/// "other type"; point 74: "Types 02, 03, 05 with any consistent length: 32".
#[test]
fn other_types() {
    for kind in (0..=255u8).filter(|kind| ![0x00, 0x01, 0x04].contains(kind)) {
        for data in ["", "12", "12 34", "00 F0", "12 34 56 78"] {
            let count = data.split_whitespace().count();
            let line = rec(&format!("{count:02X} 10 00 {kind:02X} {data}"));
            refused(&[&line], 32, 1);
        }
    }
    refused(&["", &rec("02 00 00 02 10 00")], 30, 1);
    refused(&[&rec("01 00 00 02 10 00")], 30, 1);
}

/// Each number at the first, a middle and the last line; 34 has a line before it, and 35 at the
/// first line is an empty text.
#[test]
fn each_number_at_each_line() {
    let bad = [
        (30, ":0000000".to_string()),
        (31, ":0000000001".to_string()),
        (32, rec("02 00 00 02 10 00")),
        (33, rec("01 0F FF 00 01")),
        (34, rec("01 30 00 00 02")),
    ];
    let given = rec("01 30 00 00 01");
    for (number, line) in &bad {
        if *number != 34 {
            refused(&[line, &given], *number, 1);
            assert_eq!(read(line.as_bytes()), Err((*number, 1)));
        }
        refused(&[&given, EMPTY, line, EMPTY], *number, 3);
        let last = [&given, EMPTY, EMPTY, line].join("\r\n");
        assert_eq!(read(last.as_bytes()), Err((*number, 4)));
        assert_eq!(read((last + "\n").as_bytes()), Err((*number, 4)));
    }
    assert_eq!(read(b""), Err((35, 1)));
    refused(&[&given, END_LINE, EMPTY, EMPTY], 35, 3);
    refused(&[&given, EMPTY, EMPTY, END_LINE], 35, 5);
}

/// That these checks, and no others, fail at a line, and that the first of them decides.
fn failing(lines: &[&str], numbers: &[u8], line: usize) {
    assert_eq!(examine(&ended(lines))[line - 1].faults, numbers, "{lines:?}");
    refused(lines, numbers[0], line);
}

/// "Checks at a line are in that order": of those that fail at one line, the lowest number decides.
#[test]
fn order_at_a_line() {
    let given = rec("01 10 00 00 01");
    // 30 before 31: a type 01 with data, a type 04 of three bytes, a length, all with a bad sum
    // too.
    for line in [":0100000100FF", ":0300000400F0000A", ":031A0000ABCD6C"] {
        failing(&[line], &[30, 31], 1);
    }
    // 30 before 32: another type with a wrong length.
    failing(&[&rec("03 00 00 02 10 00")], &[30, 32], 1);
    failing(&[":0100000200FF00"], &[30, 31, 32], 1);
    // 31 before 32, 33 and 34.
    failing(&[":021000021000DB"], &[31, 32], 1);
    failing(&[":010FFF0001EF"], &[31, 33], 1);
    failing(&[&given, ":0110000001EF"], &[31, 34], 2);
    // 32 before 33 and 34: as data it would be outside, or given twice.
    failing(&[&rec("01 00 00 02 01")], &[32, 33], 1);
    failing(&[&given, &rec("01 10 00 05 01")], &[32, 34], 2);
    // 33 before 34, whichever cell comes first in the record (point 76).
    failing(&[&given, &rec("02 0F FF 00 01 02")], &[33, 34], 2);
    failing(&[&rec("01 FF FF 00 01"), &rec("02 FF FF 00 01 02")], &[33, 34], 2);
    failing(&[TO_EEPROM, &rec("01 03 FF 00 01"), &rec("02 03 FF 00 01 02")], &[33, 34], 3);
    // Point 71: a line behind an end record runs checks 30 to 34 first.
    failing(&[&given, END_LINE, ""], &[30, 35], 3);
    failing(&[&given, END_LINE, "junk"], &[30, 35], 3);
    failing(&[&given, END_LINE, &rec("01 00 00 01 00")], &[30, 35], 3);
    failing(&[&given, END_LINE, ":0000000001"], &[31, 35], 3);
    failing(&[&given, END_LINE, ":0000000100"], &[31, 35], 3);
    failing(&[&given, END_LINE, &rec("02 10 02 02 10 00")], &[32, 35], 3);
    failing(&[&given, END_LINE, &rec("01 0F FF 00 01")], &[33, 35], 3);
    failing(&[&given, TO_EEPROM, END_LINE, &rec("01 10 00 00 01")], &[33, 35], 4);
    failing(&[&given, END_LINE, &given], &[34, 35], 3);
    failing(&[&given, END_LINE, &rec("01 10 01 00 01")], &[35], 3);
}

/// "then the first bad line decides", whichever number a later line would give.
#[test]
fn first_bad_line() {
    let given = rec("01 10 00 00 01");
    let bad = [
        "x".to_string(),
        ":0000000001".to_string(),
        rec("00 00 00 03"),
        rec("01 00 00 00 01"),
        given.clone(),
    ];
    for (first, line) in bad.iter().enumerate() {
        for later in &bad {
            refused(&[&given, line, EMPTY, later], 30 + first as u8, 2);
            refused(&[&given, line, later, END_LINE, ""], 30 + first as u8, 2);
        }
        let without_end = format!("{given}\n{line}\n");
        assert_eq!(read(without_end.as_bytes()), Err((30 + first as u8, 2)));
    }
    // An early end is found at the line behind it, whatever stands further down.
    refused(&[END_LINE, EMPTY, "x"], 35, 2);
}

/// "a missing end names the line after the last, an early end the line behind it"; point 72.
#[test]
fn end_records() {
    let given = rec("01 10 00 00 01");
    for (text, line) in [
        (format!("{given}"), 2),
        (format!("{given}\n"), 2),
        (format!("{given}\r\n"), 2),
        (format!("{given}\n{TO_EEPROM}\n{EMPTY}"), 4),
        (format!("{given}\n{TO_EEPROM}\n{EMPTY}\n"), 4),
    ] {
        assert_eq!(read(text.as_bytes()), Err((35, line)), "{text:?}");
    }
    for behind in [END_LINE, EMPTY, TO_EEPROM, &rec("01 10 01 00 01")] {
        for ending in ["", "\n", "\r\n", "\n\n", "\njunk"] {
            let text = format!("{given}\n{END_LINE}\n{behind}{ending}");
            assert_eq!(read(text.as_bytes()), Err((35, 3)), "{text:?}");
        }
    }
    // Cut inside the end record: its length is bad.
    for cut in 1..END_LINE.len() {
        let text = format!("{given}\n{}", &END_LINE[..cut]);
        assert_eq!(read(text.as_bytes()), Err((30, 2)), "{text:?}");
    }
}

/// "Recipe refusal 26 comes last", with line 0 (point 78); success reports the length in bytes.
#[test]
fn room() {
    let text = ended(&[&rec("01 10 00 00 01"), TO_EEPROM, &rec("01 00 00 00 01")]);
    let needed = 3 + 68 + 12 + 1;
    let read_in = |text: &[u8], room| super::hex::read(text, 0x05, 0x0A, room);
    for room in [needed, needed + 1, 70_000] {
        assert_eq!(read_in(&text, room).map(|recipe| recipe.len()), Ok(needed));
    }
    for room in [0, 1, 3, 4, 83] {
        assert_eq!(read_in(&text, room), Err(Refusal { number: 26, line: 0 }));
        let bad = ended(&["x"]);
        assert_eq!(read_in(&bad, room), Err(Refusal { number: 30, line: 1 }));
        assert_eq!(read_in(b"", room), Err(Refusal { number: 35, line: 1 }));
        let behind = [&text[..], b":"].concat();
        assert_eq!(read_in(&behind, room), Err(Refusal { number: 30, line: 5 }));
    }
    assert_eq!(read_in(&ended(&[]), 3), Err(Refusal { number: 26, line: 0 }));
    assert_eq!(read_in(&ended(&[]), 4).map(|recipe| recipe.len()), Ok(4));
}

/// Point 79: at most 1,090 items, 66,820 bytes; the recipe translates.
#[test]
fn longest_recipe() {
    let value = |cell: u32| (cell * 3 + cell / 256) as u8;
    let text = all_cells(value);
    let recipe = read(&text).unwrap();
    assert_eq!((recipe.len(), MOST_RECIPE), (66_820, 66_820));
    assert_eq!(items(&recipe).map(|places| places.len()), Ok(1_090));
    assert_eq!(translate(&recipe, &mut vec![0; 12 * 36_829]), Ok(960 * 18 + 128 * 2 + 1));
    let [(mut flash, mut eeprom), _] = patterns();
    plain_reading(&recipe, &mut flash, &mut eeprom);
    assert!((0x1000..0x10000).all(|cell| flash[cell as usize] == value(cell)));
    assert!((1..0x400).all(|place| eeprom[place as usize] == value(0xF00000 + place)));
    assert_eq!(eeprom[BOOTFL], 0x00);
    assert_eq!(flash[..0x1000], patterns()[0].0[..0x1000]);
    let short = super::hex::read(&text, 0x05, 0x0A, 66_819);
    assert_eq!(short, Err(Refusal { number: 26, line: 0 }));
    // One cell more is given twice, at the last line but one.
    let lines = text.iter().filter(|&&byte| byte == b'\n').count();
    let end = text.len() - END_LINE.len() - 1;
    let more =
        [&text[..end], rec("01 03 FF 00 00").as_bytes(), b"\n", END_LINE.as_bytes()].concat();
    assert_eq!(read(&more), Err((34, lines)));
}

/// "Read plainly, the recipe gives every cell the file gives, 0xFF in the rest of a touched block
/// or row, and no other change, save BOOTFL, which ends 0x00."
#[test]
fn plain_reading_of_the_recipe() {
    let lines = [
        &rec("03 20 3E 00 A1 A2 A3"),
        TO_EEPROM,
        &rec("01 00 26 00 05"),
        &rec("02 00 00 00 77 78"),
        TO_FLASH,
        &rec("01 10 00 00 FF"),
    ];
    let recipe = accepted(&lines);
    for (before_flash, before_eeprom) in patterns() {
        let (mut flash, mut eeprom) = (before_flash.clone(), before_eeprom.clone());
        plain_reading(&recipe, &mut flash, &mut eeprom);
        for cell in 0..FLASH_CELLS {
            let expected = match cell {
                0x203E => 0xA1,
                0x203F => 0xA2,
                0x2040 => 0xA3,
                0x1000..=0x103F | 0x2000..=0x207F => 0xFF,
                _ => before_flash[cell],
            };
            assert_eq!(flash[cell], expected, "FLASH {cell:06X}");
        }
        for place in 0..EEPROM_CELLS {
            // Point 77: the module number alone wipes the group number beside it.
            let expected = match place {
                0x00 => 0x00,
                0x01 => 0x78,
                0x26 => 0x05,
                0x02..=0x07 | 0x20..=0x27 => 0xFF,
                _ => before_eeprom[place],
            };
            assert_eq!(eeprom[place], expected, "EEPROM {place:03X}");
        }
    }
    // BOOTFL ends 0x00 too where nothing is given, and its row stays.
    let (mut flash, mut eeprom) = (vec![0x5A; FLASH_CELLS], vec![0x5A; EEPROM_CELLS]);
    plain_reading(&accepted(&[]), &mut flash, &mut eeprom);
    assert_eq!((eeprom[BOOTFL], flash), (0x00, vec![0x5A; FLASH_CELLS]));
    assert!(eeprom[1..].iter().all(|&cell| cell == 0x5A));
}

/// What `read-hex` looks for in a recipe it finds: a wrong byte, a missing, a further or a doubled
/// item, items out of order, other numbers.
#[test]
fn wrong_recipes() {
    let text =
        ended(&[&rec("01 20 00 00 01"), &rec("01 30 00 00 02"), TO_EEPROM, &rec("01 00 08 00 FF")]);
    let trial = HexTrial { module: 0x05, group: 0x0A, room: 70_000, text };
    let (one, two) = (block(0x2000, &[(0, 1)]), block(0x3000, &[(0, 2)]));
    let third = row(0xF00008, &[]);
    let wrong = |recipe: &[u8]| wrong_recipe(&trial, recipe, &patterns()).is_some();
    let right = recipe(&[one.clone(), two.clone(), third.clone()]);
    assert!(!wrong(&right));
    for at in 0..right.len() {
        let mut other = right.clone();
        other[at] ^= 0x40;
        assert!(wrong(&other), "{at}");
    }
    for items in [
        vec![one.clone(), third.clone()],
        vec![two.clone(), one.clone(), third.clone()],
        vec![third.clone(), one.clone(), two.clone()],
        vec![one.clone(), one.clone(), two.clone(), third.clone()],
        vec![one.clone(), two.clone(), block(0x4000, &[]), third.clone()],
        vec![one.clone(), two.clone(), third.clone(), row(0xF00010, &[])],
    ] {
        assert!(wrong(&recipe(&items)));
    }
    // A text that ought to be refused.
    let bad = HexTrial { text: ended(&["x"]), ..trial.clone() };
    assert!(wrong_recipe(&bad, &recipe(&[]), &patterns()).is_some());
}

/// And what it looks for in a refusal: another number, another line, 26 with room enough.
#[test]
fn wrong_refusals() {
    let wrong = |lines: &[&str], room, number, line| {
        let trial = HexTrial { module: 0x05, group: 0x0A, room, text: ended(lines) };
        wrong_refusal(&trial, Refusal { number, line }).is_some()
    };
    let bad = [EMPTY, ":0000000001"];
    assert!(!wrong(&bad, 0, 31, 2));
    assert!(wrong(&bad, 0, 31, 1) && wrong(&bad, 0, 30, 2) && wrong(&bad, 0, 26, 0));
    let good = [&rec("02 20 3F 00 01 02"), TO_EEPROM, &rec("01 00 00 00 01")];
    let needed = 4 + 2 * 68 + 12;
    assert!(!wrong(&good, needed - 1, 26, 0) && !wrong(&good, 0, 26, 0));
    assert!(wrong(&good, needed, 26, 0) && wrong(&good, needed - 1, 26, 1));
    assert!(wrong(&good, needed, 35, 5));
}

/// The stream: a header of 64 bytes, the text, filled up with 0; a line for each text.
#[test]
fn stream() {
    let mut stream = Vec::new();
    let texts = [ended(&[]), vec![], vec![b'\n'; 64], ended(&[&rec("01 10 00 00 01")])];
    for (index, text) in texts.iter().enumerate() {
        let room = [4, 0, 65_536, 71][index];
        let trial = HexTrial { module: 0x05, group: 0x0A, room, text: text.clone() };
        trial.write(&mut stream).unwrap();
    }
    assert_eq!(stream.len(), 64 * 7);
    assert_eq!(stream[..11], bytes("30 05 0A 00 00 00 0C 00 00 00 04")[..]);
    assert!(stream[11..64].iter().chain(&stream[64 + 12..128]).all(|&byte| byte == 0));
    assert_eq!(stream[192..203], bytes("30 05 0A 00 00 00 40 00 01 00 00")[..]);
    let read: Vec<Vec<u8>> =
        hex_stream::read(&stream).into_iter().map(|trial| trial.text).collect();
    assert_eq!(read, texts);
    let mut printed = Vec::new();
    assert_eq!(read_hex(&stream, &mut printed).unwrap(), None);
    let printed = String::from_utf8(printed).unwrap();
    let lines: Vec<&str> = printed.lines().collect();
    // The digest of 01 05 0A 0F: ((2 * 31 + 6) * 31 + 11) * 31 + 16.
    assert_eq!(lines[0], "hex 1 number 0 value 4 output 65705");
    assert_eq!(lines[1], "hex 2 number 35 value 1 output 0");
    assert!(lines[2].starts_with("hex 3 number 30 value 1 output "));
    // 71 bytes of 0xEE, none touched.
    let digest = (0..71).fold(0u64, |digest, _| (digest * 31 + 0xEF) % 4_294_967_291);
    assert_eq!(lines[3], format!("hex 4 number 26 value 0 output {digest}"));
}

/// The same seed gives the same texts, which are read as the second opinion says, and every number
/// is among the answers.
#[test]
fn texts() {
    let (mut one, mut two, mut other) = (Vec::new(), Vec::new(), Vec::new());
    hex_texts(7, 600, &mut one).unwrap();
    hex_texts(7, 600, &mut two).unwrap();
    hex_texts(8, 600, &mut other).unwrap();
    assert!(one == two && one != other);
    let mut printed = Vec::new();
    assert_eq!(read_hex(&one, &mut printed).unwrap(), None);
    let printed = String::from_utf8(printed).unwrap();
    assert_eq!(printed.lines().count(), 600);
    for number in [0, 26, 30, 31, 32, 33, 34, 35] {
        assert!(printed.contains(&format!(" number {number} ")), "{number}");
    }
}

/// Rows are told from the texts: what a line is refused for, and that nothing is reached by
/// nothing.
#[test]
fn rows() {
    let row = |line: &str, row: &str| {
        let text = ended(&[EMPTY, line]);
        let lines = examine(&text);
        assert!(line_rows(&lines[1], 1).contains(&row.to_string()), "{line:?} {row}");
    };
    row("", "30 an empty line");
    row(&EMPTY[1..], "30 a record without its colon");
    row(":00000000G0", "30 a bad digit in the sum");
    row(":00000000G0", "30 a bad digit, the byte behind F");
    row(":0000-00000", "30 a bad digit in the address");
    row(":000000000", "30 one digit too few");
    row(":00000000000", "30 one digit too many");
    row(":01000000FF", "30 a length of one more, sum right");
    row(":0100000100FE", "30 type 01 with data, sum right");
    row(&rec("01 00 00 04 00"), "30 type 04 of one byte");
    row(":0000 000000", "30 a blank inside");
    row(":0000000001", "31 one more");
    row(&rec("00 00 00 05"), "32 type 05");
    row(&rec("02 0F FF 00 01 02"), "33 over the border at 0x001000, one cell outside");
    row(&rec("01 0F FF 00 01"), "33 one cell at 0x000FFF");
    let mut table = Vec::new();
    let missing = hex_coverage(&[], &mut table).unwrap();
    assert_eq!(missing.len() + 1, String::from_utf8(table).unwrap().lines().count());
    let mut stream = Vec::new();
    HexTrial { module: 0, group: 0, room: 4, text: ended(&[]) }.write(&mut stream).unwrap();
    let fewer = hex_coverage(&stream, &mut Vec::new()).unwrap();
    let reached: Vec<&String> = missing.iter().filter(|row| !fewer.contains(row)).collect();
    for row in ["one line", "2 items", "neither memory", "output exactly long enough"] {
        assert!(reached.contains(&&format!("accepted, {row}")), "{row}");
    }
    assert!(reached.iter().all(|row| row.starts_with("accepted, ")));
}

/// The command's numbers, its line of a refusal, and its longest text.
#[test]
fn command() {
    for (text, number) in
        [("0", Some(0)), ("255", Some(255)), ("0x0a", Some(10)), ("0xFF", Some(255))]
    {
        assert_eq!(hex_file::number(text), number);
    }
    for text in ["", "256", "-1", "+1", "0x", "0x100", "0x+1", "1 ", "ten"] {
        assert_eq!(hex_file::number(text), None, "{text:?}");
    }
    assert_eq!(hex_file::recipe(&ended(&[]), 5, 10), Ok(bytes("01 05 0A 0F")));
    assert_eq!(hex_file::recipe(&ended(&[EMPTY, ""]), 5, 10), Err("30 2".to_string()));
    let most = vec![b'\n'; hex_file::MOST_BYTES];
    assert_eq!(hex_file::recipe(&most, 5, 10), Err("30 1".to_string()));
    assert_eq!(hex_file::recipe(&[&most[..], b"\n"].concat(), 5, 10), Err("long".to_string()));
}
