//! Looks through all lines of a HEX text for all that is at fault there, whichever line decides:
//! for the table of rows, and as a second opinion on the reader (`hex`), of which it uses nothing
//! but the numbers.

use crate::hex::{BAD_FORM, BAD_SUM, DATA, END, END_RECORD, OTHER_TYPE, OUTSIDE, TWICE, UPPER};
use std::collections::HashMap;

/// The bytes of a record beside its data: length, address, type, sum.
pub const FRAME_BYTES: usize = 5;

/// How a line ends.
#[derive(Clone, Copy, PartialEq, Eq, Debug)]
pub enum Ending {
    Lf,
    CrLf,
    Nothing,
}

/// A cell of a line that an earlier line gave.
#[derive(Clone, Copy, PartialEq, Eq, Debug)]
pub struct Again {
    /// Its place in the line's data.
    pub at: usize,
    /// The index of the line that gave it before.
    pub line: usize,
    /// What it was given before.
    pub value: u8,
}

/// A line and what is at fault in it.
pub struct Line<'a> {
    pub content: &'a [u8],
    pub ending: Ending,
    /// What the pairs of digits behind the colon say, where the line is nothing else.
    pub bytes: Option<Vec<u8>>,
    /// The upper half at this line.
    pub upper: u16,
    /// Whether an end record stands before it.
    pub behind_end: bool,
    /// The numbers of all checks that fail, upward. Sum and type are looked at where there are
    /// bytes enough, and a record of another type is looked at as if its data were cells.
    pub faults: Vec<u8>,
    pub again: Vec<Again>,
}

impl Line<'_> {
    /// The type of a line in the form of a record.
    pub fn kind(&self) -> Option<u8> {
        self.bytes.as_ref().and_then(|bytes| bytes.get(3).copied())
    }

    /// The data of a line in the form of a record.
    pub fn data(&self) -> &[u8] {
        match &self.bytes {
            Some(bytes) if bytes.len() >= FRAME_BYTES => &bytes[4..bytes.len() - 1],
            _ => &[],
        }
    }

    /// The address field of a line in the form of a record.
    pub fn address(&self) -> u16 {
        match &self.bytes {
            Some(bytes) if bytes.len() >= FRAME_BYTES => bytes[1] as u16 * 256 + bytes[2] as u16,
            _ => 0,
        }
    }

    /// The linear address of the first cell.
    pub fn first(&self) -> u64 {
        self.upper as u64 * 0x1_0000 + self.address() as u64
    }

    /// The linear address behind the last cell.
    pub fn behind(&self) -> u64 {
        self.first() + self.data().len() as u64
    }

    /// Whether nothing is at fault and the line gives cells.
    pub fn gives(&self) -> bool {
        self.faults.is_empty() && self.kind() == Some(DATA) && !self.data().is_empty()
    }
}

/// The value of a digit of either case.
pub fn digit(byte: u8) -> Option<u8> {
    const DIGITS: &[u8; 16] = b"0123456789ABCDEF";
    let upper = byte.to_ascii_uppercase();
    DIGITS.iter().position(|&digit| digit == upper).map(|value| value as u8)
}

/// What stands behind a colon as pairs of digits.
fn pairs(content: &[u8]) -> Option<Vec<u8>> {
    let (colon, digits) = content.split_first()?;
    if *colon != b':' || digits.len() % 2 == 1 {
        return None;
    }
    digits.chunks(2).map(|pair| Some(digit(pair[0])? * 16 + digit(pair[1])?)).collect()
}

/// Whether so many bytes are what the length and the type say.
fn right_length(bytes: &[u8]) -> bool {
    if bytes.len() < FRAME_BYTES || bytes.len() - FRAME_BYTES != bytes[0] as usize {
        return false;
    }
    match bytes[3] {
        END_RECORD => bytes[0] == 0,
        UPPER => bytes[0] == 2,
        _ => true,
    }
}

/// Whether a line without its ending is a record, whatever its sum and type.
pub fn is_record(content: &[u8]) -> bool {
    pairs(content).is_some_and(|bytes| right_length(&bytes))
}

/// Whether a linear address is one of the legal areas: 0x001000 to 0x00FFFF, 0xF00000 to 0xF003FF.
pub fn inside(cell: u64) -> bool {
    matches!(cell, 0x001000..=0x00FFFF | 0xF00000..=0xF003FF)
}

/// All lines of a text, with all that is at fault in each. A line at fault changes nothing for
/// those behind it.
pub fn examine(text: &[u8]) -> Vec<Line<'_>> {
    let mut given: HashMap<u64, (usize, u8)> = HashMap::new();
    let (mut upper, mut ended) = (0, false);
    let mut lines = Vec::new();
    for (index, whole) in text.split_inclusive(|&byte| byte == b'\n').enumerate() {
        let (content, ending) = match whole {
            [content @ .., b'\r', b'\n'] => (content, Ending::CrLf),
            [content @ .., b'\n'] => (content, Ending::Lf),
            content => (content, Ending::Nothing),
        };
        let bytes = pairs(content);
        let (faults, again) = (vec![], vec![]);
        let mut line = Line { content, ending, bytes, upper, behind_end: ended, faults, again };
        let whole_record = is_record(content);
        let mut check = |number, fails: bool| line.faults.extend(fails.then_some(number));
        check(BAD_FORM, !whole_record);
        if let Some(bytes) = line.bytes.as_ref().filter(|bytes| bytes.len() >= FRAME_BYTES) {
            check(BAD_SUM, bytes.iter().map(|&byte| byte as u32).sum::<u32>() % 256 != 0);
            check(OTHER_TYPE, !matches!(bytes[3], DATA | END_RECORD | UPPER));
        }
        if whole_record && !matches!(line.kind(), Some(END_RECORD | UPPER)) {
            let (first, behind) = (line.first(), line.behind());
            let again = (first..behind).enumerate().filter_map(|(at, cell)| {
                given.get(&cell).map(|&(line, value)| Again { at, line, value })
            });
            line.again = again.collect();
            line.faults.extend((first..behind).any(|cell| !inside(cell)).then_some(OUTSIDE));
            line.faults.extend((!line.again.is_empty()).then_some(TWICE));
        }
        line.faults.extend(ended.then_some(END));
        if line.gives() {
            given.extend((line.first()..).zip(line.data().iter().map(|&value| (index, value))));
        }
        match (line.kind(), line.data()) {
            (Some(UPPER), &[high, low]) if line.faults.is_empty() => {
                upper = high as u16 * 256 + low as u16;
            }
            (Some(END_RECORD), _) if line.faults.is_empty() => ended = true,
            _ => {}
        }
        lines.push(line);
    }
    lines
}

/// The number and the line of the refusal that these lines come to, if any.
pub fn verdict(lines: &[Line]) -> Option<(u8, usize)> {
    let ended = lines.iter().any(|line| line.faults.is_empty() && line.kind() == Some(END_RECORD));
    let bad = lines.iter().position(|line| !line.faults.is_empty());
    match bad {
        Some(index) => Some((lines[index].faults[0], index + 1)),
        None if !ended => Some((END, lines.len() + 1)),
        None => None,
    }
}
