//! Damages HEX texts being made, in every way that a text can be refused for.

use crate::hex::{legal, DATA, END_RECORD, UPPER};
use crate::hex_good::*;
use crate::random::Random;
use std::collections::HashSet;

/// Where in a text a line is put.
#[derive(Clone, Copy, PartialEq, Eq)]
pub enum Place {
    /// In the place of all lines.
    Only,
    First,
    Middle,
    /// Before the line of this index.
    Before(usize),
    /// In the place of the end record, so that there is none.
    Last,
    /// Directly behind the end record, as the last line or with more behind it.
    BehindEnd,
    BehindEndWithMore,
}

pub const PLACES: [Place; 5] =
    [Place::First, Place::Middle, Place::Last, Place::BehindEnd, Place::BehindEndWithMore];

/// What a record that is put into a text says of cells.
#[derive(Clone, Copy, PartialEq, Eq)]
pub enum Cells {
    /// Nothing that is at fault.
    Fine,
    Outside,
    Twice,
    OutsideAndTwice,
}

/// What is at fault at one line, several things at once.
#[derive(Clone, Copy)]
pub struct Faults {
    /// The way in which digits or lengths are bad.
    pub form: Option<usize>,
    /// The way in which the sum is bad.
    pub sum: Option<usize>,
    pub other_type: bool,
    pub cells: Cells,
}

pub const NO_FAULTS: Faults =
    Faults { form: None, sum: None, other_type: false, cells: Cells::Fine };

/// How many ways `form_fault` and `sum_fault` know.
pub const FORMS: usize = 27;
pub const SUMS: usize = 6;
const CR_AT_END: usize = 15;

const OTHER_TYPES: [u8; 12] =
    [0x02, 0x03, 0x05, 0x06, 0xFF, 0x02, 0x03, 0x05, 0x10, 0x40, 0x07, 0x84];
/// Bytes beside the digits, then others that are none.
const NO_DIGITS: [u8; 26] = [
    b'/', b':', b'@', b'G', b'`', b'g', b'/', b':', b'@', b'G', b'`', b'g', b' ', b'\t', b'\r',
    0x00, 0x10, 0x19, 0x80, 0xB0, 0xC1, 0xE6, 0xFF, b'x', b'-', b'+',
];
/// The borders of the legal areas: the first cell inside or behind.
const BORDERS: [u32; 4] = [0x001000, 0x010000, 0xF00000, 0xF00400];

/// Puts a line at a place of a draft, under an upper half where that matters: with a type 04 record
/// before it where that is needed, and one behind it that takes it back.
fn put(random: &mut Random, draft: &mut Draft, place: Place, upper: Option<u16>, line: Line) {
    if place == Place::Only {
        draft.lines = vec![line];
        return;
    }
    if draft.lines.len() == 1 && place != Place::First {
        draft.lines.insert(0, Line::Record(empty_record(random)));
    }
    let end = draft.lines.len() - 1;
    let (at, place) = match place {
        Place::First if upper.unwrap_or(0) == 0 => (0, Place::First),
        Place::First | Place::Middle if end > 0 => (1 + random.below(end), Place::Middle),
        Place::First => (end, Place::Last),
        Place::Before(index) => (index, Place::Middle),
        place => (end, place),
    };
    let there = draft.upper_before(at);
    let changed = upper.filter(|&upper| upper != there);
    let mut lines: Vec<Line> = Vec::new();
    if let Some(upper) = changed {
        lines.push(Line::Record(upper_record(random, upper)));
    }
    match place {
        Place::First | Place::Middle | Place::Before(_) => {
            lines.push(line);
            if changed.is_some() {
                lines.push(Line::Record(upper_record(random, there)));
            }
            draft.lines.splice(at..at, lines);
        }
        Place::Only | Place::Last => {
            lines.push(line);
            draft.lines.splice(at.., lines);
        }
        Place::BehindEnd | Place::BehindEndWithMore => {
            lines.extend([draft.lines[end].clone(), line]);
            if place == Place::BehindEndWithMore {
                let more = [end_record(random), empty_record(random)];
                lines.extend(more.map(Line::Record));
                if random.chance(40) {
                    lines.push(Line::Raw(b"junk".to_vec()));
                }
            }
            draft.lines.splice(at.., lines);
        }
    }
}

/// Gives a cell somewhere before the last line of a draft.
fn give(random: &mut Random, draft: &mut Draft, cell: u32) {
    let record = Record { kind: DATA, address: cell as u16, data: vec![random.byte()] };
    put(random, draft, Place::Middle, Some((cell >> 16) as u16), Line::Record(record));
}

/// The cells that a draft gives.
fn given_cells(draft: &Draft) -> HashSet<u32> {
    let given = draft.given();
    given.iter().flat_map(|(_, first, data)| *first..*first + data.len() as u32).collect()
}

/// Some bytes.
fn some(random: &mut Random, length: usize) -> Vec<u8> {
    (0..length).map(|_| random.byte()).collect()
}

/// A record with nothing at fault, and its upper half where that matters.
fn fine_record(random: &mut Random, draft: &Draft) -> (Option<u16>, Record) {
    match random.below(10) {
        0 => (None, empty_record(random)),
        1 => {
            let upper = random.pick(&[0x0000, 0x00F0]);
            (None, upper_record(random, upper))
        }
        2 => (None, end_record(random)),
        _ => unused_record(random, draft),
    }
}

/// A data record of legal cells that aren't given, if some are found.
fn unused_record(random: &mut Random, draft: &Draft) -> (Option<u16>, Record) {
    let used = given_cells(draft);
    for _ in 0..20 {
        let length = random.pick(&[1, 2, 4, 16]);
        let flash = 0x1000 + random.below(0xF000) as u32;
        let eeprom = 0xF00000 + random.below(0x400) as u32;
        let first = random.pick(&[flash, flash, eeprom]);
        let mut cells = first..first + length as u32;
        if cells.all(|cell| legal(cell as u64) && !used.contains(&cell)) {
            let record = Record { kind: DATA, address: first as u16, data: some(random, length) };
            return (Some((first >> 16) as u16), record);
        }
    }
    (None, empty_record(random))
}

/// The first cell and the length of a record with cells outside the legal areas.
fn outside_cells(random: &mut Random, first_line: bool) -> (u32, usize) {
    let border = if first_line { 0x001000 } else { random.pick(&BORDERS) };
    let begins = border == 0x001000 || border == 0xF00000;
    let beside = if begins { border - 1 } else { border };
    let (before, behind) = (random.pick(&[1, 1, 2, 16]), random.pick(&[1, 1, 2, 16, 200]));
    let far = random.next() | 0x0002_0000;
    match random.below(if first_line { 4 } else { 12 }) {
        0 => (beside, 1),
        1..=2 => (border - before, (before + behind) as usize),
        3 if begins => (border - before, before as usize),
        3 => (border, behind as usize),
        4..=6 => (border - before, (before + behind) as usize),
        7 => (0xFFFF_FFFF, 1),
        8 => (0u32.wrapping_sub(before), (before + behind) as usize),
        9 => (random.pick(&[0x0001_1000, 0x00F1_0000, 0x00EF_1000, 0x00F0_1000]), behind as usize),
        10 => (random.pick(&[0x0100_1000, 0x01F0_0000, 0xFFF0_0000, 0xF000_1000]), behind as usize),
        _ => (random.pick(&[0x0000_0000, far]), behind as usize),
    }
}

/// A data record with cells outside the legal areas.
fn outside_record(random: &mut Random, first_line: bool) -> (Option<u16>, Record) {
    let (first, length) = outside_cells(random, first_line);
    let record = Record { kind: DATA, address: first as u16, data: some(random, length) };
    (Some((first >> 16) as u16), record)
}

/// A data record with a cell that is given twice: a record again, with the same bytes or others, a
/// cell of one alone, or one that overlaps another by one cell at either end. With it comes the
/// index of the line that gave the cell.
fn twice_record(random: &mut Random, draft: &mut Draft) -> (usize, Option<u16>, Record) {
    if draft.given().is_empty() {
        let cell = random.pick(&[0x1000, 0x2345, 0xFFFF, 0xF00000, 0xF00026, 0xF003FF]);
        give(random, draft, cell);
    }
    let given = draft.given();
    let used = given_cells(draft);
    let (index, first, data) = given[random.below(given.len())].clone();
    let last = first + data.len() as u32 - 1;
    let free = |cell: u32| legal(cell as u64) && !used.contains(&cell);
    let at = random.below(data.len());
    let length = 2 + random.below(12);
    let (again, bytes) = match random.below(9) {
        0 => (first, data.clone()),
        1 => (first, data.iter().map(|value| value ^ 0x01).collect()),
        2 => (first + at as u32, vec![data[at]]),
        3 => (first + at as u32, vec![!data[at]]),
        4 | 5 if free(last + 1) => {
            let length =
                (1..length as u32).find(|&more| !free(last + more)).unwrap_or(length as u32);
            (last, some(random, length as usize))
        }
        6 | 7 if free(first.wrapping_sub(1)) => {
            let before = (1..length as u32).find(|&less| !free(first - less));
            let before = before.unwrap_or(length as u32) - 1;
            (first - before, some(random, before as usize + 1))
        }
        _ => {
            // Both times 0xFF, which is also what the rest of a block becomes.
            if let Line::Record(record) = &mut draft.lines[index] {
                record.data[at] = 0xFF;
            }
            (first + at as u32, vec![0xFF])
        }
    };
    let record = Record { kind: DATA, address: again as u16, data: bytes };
    (index, Some((again >> 16) as u16), record)
}

/// A data record over a border of the legal areas, whose cell inside is given already.
fn outside_and_twice_record(random: &mut Random, draft: &mut Draft) -> (Option<u16>, Record) {
    let border = random.pick(&BORDERS);
    let inside = if legal(border as u64) { border } else { border - 1 };
    if !given_cells(draft).contains(&inside) {
        give(random, draft, inside);
    }
    let (before, behind) = (1 + random.below(3) as u32, 1 + random.below(3) as u32);
    let first = border - before;
    let data = some(random, (before + behind) as usize);
    (Some((first >> 16) as u16), Record { kind: DATA, address: first as u16, data })
}

/// The bytes of a record whose length says something else, with the right sum.
fn other_length(record: &Record, length: u8) -> Vec<u8> {
    let mut bytes = record.bytes();
    bytes.pop();
    bytes[0] = length;
    bytes.push(right_sum(&bytes));
    bytes
}

/// The line of a record with bad digits or lengths, in one of so many ways; with `wrong_sum` the
/// sum is bad too where there is one.
fn form_fault(
    random: &mut Random,
    draft: &Draft,
    record: &Record,
    way: usize,
    wrong_sum: bool,
) -> Vec<u8> {
    let mut record = record.clone();
    let length = record.data.len();
    match way {
        6 | 11 if length == 0 => record.data.push(0x5A),
        // A type 01 with data, a type 04 with another length than two.
        18 => {
            let length = 1 + random.below(3);
            (record.kind, record.data) = (END_RECORD, some(random, length));
        }
        19..=22 => {
            let length = [0, 1, 3, 4 + random.below(252)][way - 19];
            (record.kind, record.data) = (UPPER, some(random, length));
        }
        // 256 bytes, which a length byte of 0 doesn't say.
        23 => record.data = some(random, 256),
        _ => {}
    }
    let length = record.data.len() as u8;
    let mut bytes = match way {
        10 => other_length(&record, length.wrapping_add(1)),
        11 => other_length(&record, length.wrapping_sub(1)),
        // The length alone is changed, and the sum isn't.
        24 => {
            let mut bytes = record.bytes();
            bytes[0] = length.wrapping_add(random.pick(&[1, 255, 128]));
            bytes
        }
        _ => record.bytes(),
    };
    if wrong_sum {
        let last = bytes.len() - 1;
        bytes[last] = bytes[last].wrapping_add(random.pick(&[1, 255, 16]));
    }
    let mut line = digits(random, draft.case, &bytes);
    let sum = line.len() - 2;
    let inside = 1 + random.below(line.len() - 1);
    match way {
        0 => line.clear(),
        1 => drop(line.remove(0)),
        2 => line[0] = random.pick(&[b';', b' ', b'.', 0x00, 0xBA, b'0', b'S']),
        3 => line[1 + random.below(2)] = random.pick(&NO_DIGITS),
        4 => line[3 + random.below(4)] = random.pick(&NO_DIGITS),
        5 => line[7 + random.below(2)] = random.pick(&NO_DIGITS),
        6 => line[9 + random.below(sum - 9)] = random.pick(&NO_DIGITS),
        7 => line[sum + random.below(2)] = random.pick(&NO_DIGITS),
        8 => drop(line.remove(random.pick(&[inside, sum + 1]))),
        9 => line.insert(random.pick(&[inside, sum + 2]), random.pick(b"0123456789ABCDEFabcdef")),
        12 => line.truncate(random.pick(&[1, 2, 3, 8, 9, 10])),
        13 => line.insert(random.pick(&[0, inside, sum + 2]), random.pick(b"  \t")),
        14 => line.insert(random.pick(&[0, inside, inside]), b'\r'),
        CR_AT_END => line.push(b'\r'),
        16 => line.insert(random.pick(&[0, inside]), b':'),
        17 => line.extend(line.clone()),
        25 => line[inside] = random.pick(&[0x00, 0x80, 0xB0, 0xC1, 0xFF]),
        26 => line.insert(random.pick(&[0, inside, sum + 2]), random.pick(&[0x00, 0x80, 0xFF])),
        _ => {}
    }
    line
}

/// The bytes of a record with a bad sum, in one of so many ways.
fn sum_fault(random: &mut Random, record: &Record, way: usize) -> Vec<u8> {
    let mut bytes = record.bytes();
    let sum = bytes.pop().expect("a sum");
    let plain = sum.wrapping_neg();
    let bad = match way {
        0 => sum.wrapping_add(1),
        1 => sum.wrapping_sub(1),
        // Without the share of the length, of the type, or not taken from 0.
        2 => sum.wrapping_add(record.data.len() as u8),
        3 => plain,
        4 => sum ^ random.pick(&[0x10, 0x80, 0x0F, 0xF0]),
        _ => sum.wrapping_add(1 + random.below(255) as u8),
    };
    bytes.push(if bad == sum { sum.wrapping_add(1) } else { bad });
    bytes
}

/// Puts a line with these faults at a place of a draft.
pub fn put_faults(random: &mut Random, draft: &mut Draft, faults: Faults, place: Place) {
    let mut place = place;
    // An only line and a first one are under the upper half 0.
    let first_line = [Place::Only, Place::First].contains(&place);
    let (upper, mut record) = match faults.cells {
        Cells::Fine if faults.other_type => unused_record(random, draft),
        Cells::Fine => fine_record(random, draft),
        Cells::Outside => outside_record(random, first_line),
        Cells::Twice => {
            let (index, upper, record) = twice_record(random, draft);
            if place == Place::Middle && random.chance(50) {
                place = Place::Before(index + 1);
            }
            (upper, record)
        }
        Cells::OutsideAndTwice => outside_and_twice_record(random, draft),
    };
    // Before the first line no cell is given.
    if first_line && matches!(faults.cells, Cells::Twice | Cells::OutsideAndTwice) {
        place = Place::Last;
    }
    if faults.other_type {
        record.kind = random.pick(&OTHER_TYPES);
        if faults.cells == Cells::Fine {
            let length = random.pick(&[0, 1, 2, 2, 4, 4, record.data.len()]);
            record.data.truncate(length);
        }
    }
    let line = match (faults.form, faults.sum) {
        (Some(way), sum) => Line::Raw(form_fault(random, draft, &record, way, sum.is_some())),
        (None, Some(way)) => {
            let bytes = sum_fault(random, &record, way);
            Line::Raw(digits(random, draft.case, &bytes))
        }
        (None, None) => Line::Record(record),
    };
    put(random, draft, place, upper, line);
    let last = [Place::Only, Place::Last, Place::BehindEnd].contains(&place);
    if faults.form == Some(CR_AT_END) && last && random.chance(60) {
        draft.last = b"";
    }
}

/// Takes the end record away, puts it too early, or puts something behind it.
pub fn end_fault(random: &mut Random, draft: &mut Draft, way: usize) {
    let place = random.pick(&[Place::BehindEnd, Place::BehindEndWithMore]);
    match way {
        0 => drop(draft.lines.pop()),
        1 => draft.lines.clear(),
        2 => {
            let end = end_record(random);
            put(random, draft, place, None, Line::Record(end));
        }
        3 => {
            let (upper, record) = unused_record(random, draft);
            put(random, draft, place, upper, Line::Record(record));
        }
        4 => {
            let upper = random.pick(&[0x0000, 0x00F0, 0x0001]);
            let record = upper_record(random, upper);
            put(random, draft, place, None, Line::Record(record));
        }
        5 => {
            let record = empty_record(random);
            put(random, draft, place, None, Line::Record(record));
        }
        6 => put(random, draft, place, None, Line::Raw(vec![])),
        7 => {
            let length = 1 + random.below(12);
            let junk = some(random, length);
            put(random, draft, place, None, Line::Raw(junk));
        }
        _ => {
            let end = end_record(random);
            let place = random.pick(&[Place::First, Place::Middle]);
            put(random, draft, place, None, Line::Record(end));
        }
    }
}

/// How many ways `end_fault` knows.
pub const ENDS: usize = 9;

/// Changes one record and mends its sum: another address, another type, a byte of data more or
/// fewer. Any refusal, or none.
pub fn mended(random: &mut Random, draft: &mut Draft) {
    let at = random.below(draft.lines.len());
    if let Line::Record(record) = &mut draft.lines[at] {
        match random.below(6) {
            0 => record.address ^= 1 << random.below(16),
            1 => record.address = record.address.wrapping_add(random.pick(&[1, 8, 64, 0xFFFF])),
            2 => record.kind = random.pick(&[0x00, 0x01, 0x04, 0x02, 0x05]),
            3 => record.data.push(random.byte()),
            4 => drop(record.data.pop()),
            _ => record.data.iter_mut().take(1).for_each(|value| *value ^= 0x01),
        }
    }
}

/// Changes, inserts or removes one byte of a text, or cuts it off there: any refusal, or none.
pub fn mutated(random: &mut Random, mut text: Vec<u8>) -> Vec<u8> {
    let at = random.below(text.len().max(1));
    let digit = random.pick(b"0123456789ABCDEFabcdef");
    let byte = match random.below(10) {
        0..=5 => digit,
        6 => random.pick(b"\r\n:: "),
        7 => random.pick(&NO_DIGITS),
        _ => random.any(),
    };
    match random.below(10) {
        _ if text.is_empty() => text.push(byte),
        0..=4 => text[at] = byte,
        5..=6 => text.insert(at, byte),
        7..=8 => drop(text.remove(at)),
        _ => text.truncate(at),
    }
    text
}
