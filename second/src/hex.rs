//! Request A5, "Intel HEX in": a text of records read into a recipe.

use crate::memory::{BLOCK, EEPROM_BASE, EEPROM_CELLS, FLASH_CELLS, ROW};
use crate::recipe::{BLOCK_ITEM, LEAVE, OPEN, ROW_ITEM};
use std::collections::BTreeMap;

/// Bad digit or length.
pub const BAD_FORM: u8 = 30;
/// Bad record sum.
pub const BAD_SUM: u8 = 31;
/// Other type than 00, 01 and 04.
pub const OTHER_TYPE: u8 = 32;
/// A cell outside the legal areas.
pub const OUTSIDE: u8 = 33;
/// A cell given twice.
pub const TWICE: u8 = 34;
/// Missing or early end record.
pub const END: u8 = 35;
/// Output shorter than needed; it comes last, with line 0.
pub const SHORT_OUTPUT: u8 = 26;

/// The types of records.
pub const DATA: u8 = 0x00;
pub const END_RECORD: u8 = 0x01;
pub const UPPER: u8 = 0x04;

/// The first legal FLASH cell.
pub const FLASH_FIRST: u64 = 0x001000;
/// The longest recipe: Open, 960 Blocks, 128 Rows, Leave.
pub const MOST_RECIPE: usize = 3 + 960 * (4 + BLOCK) + 128 * (4 + ROW) + 1;

/// Why and at which line a text is refused; lines count from 1.
#[derive(Clone, Copy, PartialEq, Eq, Debug)]
pub struct Refusal {
    pub number: u8,
    pub line: usize,
}

/// A line with good digits and good lengths.
struct Record {
    kind: u8,
    address: u16,
    data: Vec<u8>,
    sum_right: bool,
}

/// What the lines so far have come to.
#[derive(Default)]
struct File {
    /// The upper half of addresses: "Before a type 04 the upper half is 0".
    upper: u16,
    /// The cells given so far, by their linear addresses.
    cells: BTreeMap<u64, u8>,
    /// Whether an end record was there.
    ended: bool,
}

/// The lines of a text without their endings, LF or CR LF; the last may lack it. Behind a last LF
/// there is no further line, and an empty text has none.
fn lines(text: &[u8]) -> Vec<&[u8]> {
    let mut lines = Vec::new();
    let mut rest = text;
    while !rest.is_empty() {
        match rest.iter().position(|&byte| byte == b'\n') {
            Some(end) => {
                let line = &rest[..end];
                lines.push(line.strip_suffix(b"\r").unwrap_or(line));
                rest = &rest[end + 1..];
            }
            None => {
                lines.push(rest);
                rest = &[];
            }
        }
    }
    lines
}

/// The record of a line: a colon, then pairs of digits for length, address, type, data and sum.
/// None where a digit or a length is bad, also a type 01 with data and a type 04 without exactly
/// two bytes.
fn record(line: &[u8]) -> Option<Record> {
    let text = line.strip_prefix(b":")?;
    let digit = |&byte: &u8| (byte as char).to_digit(16).map(|digit| digit as u8);
    let digits: Vec<u8> = text.iter().map(digit).collect::<Option<_>>()?;
    if digits.len() % 2 != 0 {
        return None;
    }
    let bytes: Vec<u8> = digits.chunks_exact(2).map(|pair| pair[0] << 4 | pair[1]).collect();
    let [length, high, low, kind, data @ .., _] = &bytes[..] else {
        return None;
    };
    let right_length = match *kind {
        END_RECORD => data.is_empty(),
        UPPER => data.len() == 2,
        _ => true,
    };
    if data.len() != *length as usize || !right_length {
        return None;
    }
    let sum = bytes.iter().fold(0u8, |sum, &byte| sum.wrapping_add(byte));
    let address = u16::from_be_bytes([*high, *low]);
    Some(Record { kind: *kind, address, data: data.to_vec(), sum_right: sum == 0 })
}

/// Whether a linear address is a cell that a recipe may set.
pub fn legal(cell: u64) -> bool {
    let eeprom = EEPROM_BASE as u64;
    (FLASH_FIRST..FLASH_CELLS as u64).contains(&cell)
        || (eeprom..eeprom + EEPROM_CELLS as u64).contains(&cell)
}

impl File {
    /// Takes the next line, or gives the number of the first check that it fails.
    fn take(&mut self, line: &[u8]) -> Result<(), u8> {
        let Some(record) = record(line) else {
            return Err(BAD_FORM);
        };
        if !record.sum_right {
            return Err(BAD_SUM);
        }
        if ![DATA, END_RECORD, UPPER].contains(&record.kind) {
            return Err(OTHER_TYPE);
        }
        // A record runs on past 0xFFFF; a wide number, as it may run past 0xFFFFFFFF too.
        let first = (self.upper as u64) << 16 | record.address as u64;
        let given = if record.kind == DATA { &record.data[..] } else { &[] };
        let cells: Vec<(u64, u8)> = (first..).zip(given.iter().copied()).collect();
        if cells.iter().any(|(cell, _)| !legal(*cell)) {
            return Err(OUTSIDE);
        }
        if cells.iter().any(|(cell, _)| self.cells.contains_key(cell)) {
            return Err(TWICE);
        }
        if self.ended {
            return Err(END);
        }
        self.cells.extend(cells);
        match record.kind {
            END_RECORD => self.ended = true,
            UPPER => self.upper = u16::from_be_bytes([record.data[0], record.data[1]]),
            _ => {}
        }
        Ok(())
    }

    /// The recipe: Open, one Block per touched FLASH block upward, one Row per touched EEPROM row
    /// upward, Leave; 0xFF in the rest of a touched block or row.
    fn recipe(&self, module: u8, group: u8) -> Vec<u8> {
        let mut items: BTreeMap<u64, Vec<u8>> = BTreeMap::new();
        for (&cell, &value) in &self.cells {
            let length = if cell < EEPROM_BASE as u64 { BLOCK } else { ROW };
            let within = cell % length as u64;
            let data = items.entry(cell - within).or_insert_with(|| vec![0xFF; length]);
            data[within as usize] = value;
        }
        let mut recipe = vec![OPEN, module, group];
        for (first, data) in items {
            recipe.push(if data.len() == BLOCK { BLOCK_ITEM } else { ROW_ITEM });
            recipe.extend(&(first as u32).to_be_bytes()[1..]);
            recipe.extend(data);
        }
        recipe.push(LEAVE);
        recipe
    }
}

/// Reads a text into a recipe for a node with these numbers, in an output with so much room. The
/// first bad line decides, and at a line the checks are in the order of their numbers.
pub fn read(text: &[u8], module: u8, group: u8, room: usize) -> Result<Vec<u8>, Refusal> {
    let mut file = File::default();
    let lines = lines(text);
    for (index, line) in lines.iter().enumerate() {
        file.take(line).map_err(|number| Refusal { number, line: index + 1 })?;
    }
    if !file.ended {
        return Err(Refusal { number: END, line: lines.len() + 1 });
    }
    let recipe = file.recipe(module, group);
    if room < recipe.len() {
        return Err(Refusal { number: SHORT_OUTPUT, line: 0 });
    }
    Ok(recipe)
}
