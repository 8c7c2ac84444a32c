//! Makes good HEX texts: drafts of records, and how they are written down.

use crate::hex::{legal, DATA, END_RECORD, UPPER};
use crate::random::Random;
use std::collections::HashSet;

/// A record being made.
#[derive(Clone)]
pub struct Record {
    pub kind: u8,
    pub address: u16,
    pub data: Vec<u8>,
}

impl Record {
    /// Its bytes, from the length to the right sum.
    pub fn bytes(&self) -> Vec<u8> {
        let mut bytes = vec![self.data.len() as u8];
        bytes.extend(self.address.to_be_bytes());
        bytes.push(self.kind);
        bytes.extend(&self.data);
        bytes.push(right_sum(&bytes));
        bytes
    }
}

/// The sum that makes a record of these bytes right.
pub fn right_sum(bytes: &[u8]) -> u8 {
    bytes.iter().fold(0u8, |sum, &byte| sum.wrapping_sub(byte))
}

/// A line being made: a record, or bytes that stay as they are.
#[derive(Clone)]
pub enum Line {
    Record(Record),
    Raw(Vec<u8>),
}

/// Of which case the letters of digits are.
#[derive(Clone, Copy)]
pub enum Case {
    Upper,
    Lower,
    Mixed,
}

/// A text being made.
pub struct Draft {
    pub lines: Vec<Line>,
    pub case: Case,
    /// How lines end, each one of these, and how the last does.
    pub endings: &'static [&'static [u8]],
    pub last: &'static [u8],
}

const LF: &[u8] = b"\n";
const CR_LF: &[u8] = b"\r\n";

/// A line of these bytes: a colon, then pairs of digits.
pub fn digits(random: &mut Random, case: Case, bytes: &[u8]) -> Vec<u8> {
    let mut line = vec![b':'];
    for byte in bytes {
        for half in [byte >> 4, byte & 15] {
            let lower = match case {
                Case::Upper => false,
                Case::Lower => true,
                Case::Mixed => random.chance(50),
            };
            let set = if lower { b"0123456789abcdef" } else { b"0123456789ABCDEF" };
            line.push(set[half as usize]);
        }
    }
    line
}

impl Draft {
    /// The text.
    pub fn written(&self, random: &mut Random) -> Vec<u8> {
        let mut text = Vec::new();
        for (index, line) in self.lines.iter().enumerate() {
            match line {
                Line::Record(record) => text.extend(digits(random, self.case, &record.bytes())),
                Line::Raw(bytes) => text.extend(bytes),
            }
            let last = index + 1 == self.lines.len();
            text.extend(if last { self.last } else { random.pick(self.endings) });
        }
        text
    }

    /// The upper half before the line of this index.
    pub fn upper_before(&self, index: usize) -> u16 {
        let upper = |line: &Line| match line {
            Line::Record(Record { kind: UPPER, data, .. }) => {
                Some(u16::from_be_bytes([data[0], data[1]]))
            }
            _ => None,
        };
        self.lines[..index].iter().rev().find_map(upper).unwrap_or(0)
    }

    /// The data records that give legal cells: index, first cell, data.
    pub fn given(&self) -> Vec<(usize, u32, Vec<u8>)> {
        let mut upper = 0;
        let mut given = Vec::new();
        for (index, line) in self.lines.iter().enumerate() {
            match line {
                Line::Record(Record { kind: UPPER, data, .. }) => {
                    upper = u32::from_be_bytes([data[0], data[1], 0, 0]);
                }
                Line::Record(Record { kind: DATA, address, data }) if !data.is_empty() => {
                    let first = upper + *address as u32;
                    let last = first as u64 + data.len() as u64 - 1;
                    if legal(first as u64) && legal(last) {
                        given.push((index, first, data.clone()));
                    }
                }
                _ => {}
            }
        }
        given
    }
}

/// A type 04 record.
pub fn upper_record(random: &mut Random, upper: u16) -> Record {
    let address = if random.chance(80) { 0 } else { random.next() as u16 };
    Record { kind: UPPER, address, data: upper.to_be_bytes().to_vec() }
}

/// An end record.
pub fn end_record(random: &mut Random) -> Record {
    let address = if random.chance(75) { 0 } else { random.next() as u16 };
    Record { kind: END_RECORD, address, data: vec![] }
}

/// A record without data, at any address.
pub fn empty_record(random: &mut Random) -> Record {
    Record { kind: DATA, address: random.pick(&[0x0000, 0x1000, 0xFFFF, 0x0400]), data: vec![] }
}

/// Runs of cells, none given twice.
#[derive(Default)]
struct Runs {
    used: HashSet<u32>,
    runs: Vec<(u32, Vec<u8>)>,
}

impl Runs {
    /// Adds a run, if all its cells are legal and unused.
    fn add(&mut self, random: &mut Random, first: u32, length: usize) {
        let cells = first..first + length as u32;
        if cells.clone().all(|cell| legal(cell as u64) && !self.used.contains(&cell)) {
            self.used.extend(cells);
            let blank = random.chance(5);
            let data = (0..length).map(|_| if blank { 0xFF } else { random.byte() });
            self.runs.push((first, data.collect()));
        }
    }
}

/// A cell alone at the edge of a block, of a row or of an area.
fn edge(random: &mut Random) -> u32 {
    let block = 0x1000 + 64 * random.below(960) as u32;
    let row = 0xF00000 + 8 * random.below(128) as u32;
    random.pick(&[0x1000, 0xFFFF, 0xF00000, 0xF003FF, block, block + 63, row, row + 7])
}

/// The first cell of a run of this length: near the favourite, anywhere, or at the edges of areas.
fn place(random: &mut Random, favourite: u32, length: u32) -> u32 {
    match random.below(9) {
        0..=2 => favourite + random.below(160) as u32,
        3 => 0x1000 + random.below(0xF000) as u32,
        4 => 0xF00000 + random.below(0x400) as u32,
        5 => 0xF00000,
        6 => random.pick(&[0x10000, 0xF00400]) - length,
        7 => 0x1000,
        _ => (0x1000 + random.below(0xF000) as u32) & !63,
    }
}

/// The runs of a text, and how long its records are at most.
fn runs(random: &mut Random) -> (Runs, usize) {
    let mut runs = Runs::default();
    let any = 0x1000 + 64 * random.below(960) as u32;
    let favourite = random.pick(&[any, any, 0x1000, 0xFFC0, 0xF00000, 0xF00020, 0xF003C0]);
    let plan = random.weighted(&[3, 14, 36, 16, 8, 10, 6]);
    let (count, most_cells) = match plan {
        0 => (0, 1),
        1 => (1, 1),
        2 => (1 + random.below(4), 40),
        3 => (5 + random.below(11), 12),
        4 => (1 + random.below(2), 255),
        5 => (1, 400),
        _ => (1 + random.below(3), 64),
    };
    for _ in 0..count {
        let length = match plan {
            4 => 255 - random.pick(&[0, 0, 1, 30, 55]),
            5 => 80 + random.below(most_cells - 80),
            6 => random.pick(&[8, 64, 16]),
            _ => 1 + random.below(most_cells),
        };
        let first = match plan {
            1 => edge(random),
            6 if random.chance(40) => 0xF00000 + 8 * random.below(120) as u32,
            _ => place(random, favourite, length as u32),
        };
        runs.add(random, first, length);
    }
    let most = match plan {
        4 => 255,
        5 => random.pick(&[16, 16, 32, 8]),
        6 => 64,
        _ => random.pick(&[1, 3, 8, 16, 16, 16, 20, 255]),
    };
    (runs, most)
}

/// All legal cells.
fn full_area(random: &mut Random) -> Runs {
    let mut runs = Runs::default();
    runs.add(random, 0x1000, 0xF000);
    runs.add(random, 0xF00000, 0x400);
    runs
}

/// One cell of each block and of each row.
fn one_in_each(random: &mut Random) -> Runs {
    let mut runs = Runs::default();
    for block in 0..960 {
        let cell = 0x1000 + 64 * block + random.below(64) as u32;
        runs.add(random, cell, 1);
    }
    for row in 0..128 {
        let cell = 0xF00000 + 8 * row + random.below(8) as u32;
        runs.add(random, cell, 1);
    }
    runs
}

/// Puts things into another order: upward, downward, shuffled, or as they are.
fn order<T: Ord>(random: &mut Random, things: &mut [T]) {
    match random.below(5) {
        0..=1 => things.sort(),
        2 => {
            things.sort();
            things.reverse();
        }
        3 => (1..things.len()).rev().for_each(|last| things.swap(last, random.below(last + 1))),
        _ => {}
    }
}

/// The lines of these runs in records of at most so many bytes, in any order, with type 04 records
/// where they are needed and elsewhere, records without data, and the end record.
fn lines(random: &mut Random, runs: Runs, most: usize) -> Vec<Line> {
    let mut records: Vec<(u32, Vec<u8>)> = Vec::new();
    for (first, data) in runs.runs {
        let parts = data.chunks(most).enumerate();
        records.extend(parts.map(|(at, part)| (first + (at * most) as u32, part.to_vec())));
    }
    order(random, &mut records);
    let mut lines = Vec::new();
    let mut upper = 0;
    // A type 04 record at the beginning says what is so anyway, or not.
    let first = records.first().map_or(0, |(first, _)| (first >> 16) as u16);
    if random.chance(30) {
        upper = random.pick(&[first, first, first, 0x0000, 0x00F0]);
        lines.push(upper_record(random, upper));
    }
    for (first, data) in records {
        let needed = (first >> 16) as u16;
        if random.chance(4) {
            lines.push(empty_record(random));
        }
        if random.chance(2) {
            // Another upper half, with no cell there.
            upper = random.pick(&[0x0001, 0x00EF, 0x1234, 0xFFFF]);
            lines.push(upper_record(random, upper));
            lines.push(empty_record(random));
        }
        if needed != upper || random.chance(4) {
            upper = needed;
            lines.push(upper_record(random, upper));
        }
        lines.push(Record { kind: DATA, address: first as u16, data });
    }
    if random.chance(6) {
        lines.push(empty_record(random));
    }
    lines.push(end_record(random));
    lines.into_iter().map(Line::Record).collect()
}

/// A draft of these lines, written down in any style.
fn styled(random: &mut Random, lines: Vec<Line>) -> Draft {
    let styles: [&[&[u8]]; 4] = [&[LF], &[LF], &[CR_LF], &[LF, CR_LF]];
    Draft {
        lines,
        case: random.pick(&[Case::Upper, Case::Upper, Case::Lower, Case::Mixed]),
        endings: random.pick(&styles),
        last: random.pick(&[LF, LF, CR_LF, b""]),
    }
}

/// A good text of a moderate length.
pub fn good(random: &mut Random) -> Draft {
    let (runs, most) = runs(random);
    let lines = lines(random, runs, most);
    styled(random, lines)
}

/// A text of all legal cells in records of so many bytes.
pub fn full(random: &mut Random, most: usize) -> Draft {
    let runs = full_area(random);
    let lines = lines(random, runs, most);
    styled(random, lines)
}

/// A text of one cell in each block and in each row: the longest recipe from a shorter text.
pub fn scattered(random: &mut Random) -> Draft {
    let runs = one_in_each(random);
    let lines = lines(random, runs, 1);
    styled(random, lines)
}

/// A text of so many records without data, then an end record.
pub fn many_lines(random: &mut Random, count: usize) -> Draft {
    let mut lines: Vec<Line> = (0..count).map(|_| Line::Record(empty_record(random))).collect();
    lines.push(Line::Record(end_record(random)));
    styled(random, lines)
}
