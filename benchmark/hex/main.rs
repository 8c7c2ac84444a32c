//! The program of main.rattle around plain Rust written for speed: one pass over the text, a table
//! for the digits, a bit for each cell given, nothing on the heap.
//!   hex in-place < stream

use std::io::{self, Read};

/// The most bytes of a text, and of an output.
const TEXT: usize = 262_144;
const OUTPUT: usize = 70_000;

/// The cells of FLASH, and with those of EEPROM behind them.
const FLASH: usize = 65_536;
const CELLS: usize = FLASH + 1_024;
/// The legal areas: places of FLASH, and of EEPROM.
const RIM: usize = 0x001000;
const EEPROM: usize = 0xF00000;
/// An item's cells, and the bytes it takes.
const BLOCK: usize = 64;
const ROW: usize = 8;
const HEAD: usize = 4;

/// What each character stands for as a digit; 0xFF for none.
const DIGITS: [u8; 256] = {
    let mut digits = [0xFF; 256];
    let mut d = 0;
    while d < 16 {
        digits[b"0123456789ABCDEF"[d] as usize] = d as u8;
        digits[b"0123456789abcdef"[d] as usize] = d as u8;
        d += 1;
    }
    digits
};

pub enum Converted {
    Made(usize),
    Refused { number: u8, line: usize },
}

/// The two digits of a byte, together above 0x0F where one of them is none, and the byte.
#[inline(always)]
fn pair(digits: &[u8]) -> (u8, u8) {
    let (high, low) = (DIGITS[digits[0] as usize], DIGITS[digits[1] as usize]);
    (high | low, high << 4 | low)
}

/// The cells' bytes, and which of them are given: a block is a word, and a row eight bits.
struct Table {
    bytes: [u8; CELLS],
    given: [u64; CELLS / BLOCK],
}

/// The index of the first of so many cells, where all of them are legal.
#[inline(always)]
fn index_of(start: usize, count: usize) -> Option<usize> {
    if start >= RIM && start + count <= FLASH {
        Some(start)
    } else if start >= EEPROM && start + count <= EEPROM + (CELLS - FLASH) {
        Some(start - EEPROM + FLASH)
    } else {
        None
    }
}

/// Marks so many cells from an index on; whether none of them was marked.
#[inline(always)]
fn mark(given: &mut [u64; CELLS / BLOCK], index: usize, count: usize) -> bool {
    let end = index + count;
    let mut at = index;
    let mut twice = 0;
    while at < end {
        let upto = end.min((at / BLOCK + 1) * BLOCK);
        let mask = !0 >> (BLOCK - (upto - at)) << (at % BLOCK);
        let word = &mut given[at / BLOCK];
        twice |= *word & mask;
        *word |= mask;
        at = upto;
    }
    twice == 0
}

/// Reads a text into a table: nothing, or the number and the line of a refusal.
#[inline(always)]
fn read(text: &[u8], table: &mut Table) -> Result<(), (u8, usize)> {
    let mut rest = text;
    let mut line = 1;
    let mut upper = 0;
    let mut ended = false;
    let mut unused = [0; 256];
    while !rest.is_empty() {
        if rest.len() < 11 || rest[0] != b':' {
            return Err((30, line));
        }
        let (mut digits, first) = pair(&rest[1..3]);
        let count = first as usize;
        let size = 11 + 2 * count;
        if digits > 0x0F || rest.len() < size {
            return Err((30, line));
        }
        let (record, behind) = rest.split_at(size);
        rest = match behind {
            [] => behind,
            [b'\n', next @ ..] | [b'\r', b'\n', next @ ..] => next,
            _ => return Err((30, line)),
        };
        let (high, low, kind, last) =
            (pair(&record[3..]), pair(&record[5..]), pair(&record[7..]), pair(&record[size - 2..]));
        digits |= high.0 | low.0 | kind.0 | last.0;
        let mut sum = [high.1, low.1, kind.1, last.1].iter().fold(first, |s, &b| s.wrapping_add(b));
        let start = upper << 16 | (high.1 as usize) << 8 | low.1 as usize;
        // The data goes to where it belongs: a refusal leaves the table of no more use.
        let index = index_of(start, count);
        let cells = match index {
            Some(index) if kind.1 == 0x00 => &mut table.bytes[index..index + count],
            _ => &mut unused[..count],
        };
        for (cell, digits_of) in cells.iter_mut().zip(record[9..].chunks_exact(2)) {
            let (both, byte) = pair(digits_of);
            digits |= both;
            sum = sum.wrapping_add(byte);
            *cell = byte;
        }
        if digits > 0x0F {
            return Err((30, line));
        }
        match kind.1 {
            0x01 if count != 0 => return Err((30, line)),
            0x04 if count != 2 => return Err((30, line)),
            _ if sum != 0 => return Err((31, line)),
            0x00 if count == 0 => {}
            0x00 => match index {
                None => return Err((33, line)),
                Some(index) if !mark(&mut table.given, index, count) => return Err((34, line)),
                _ => {}
            },
            0x01 => {}
            0x04 => upper = (cells[0] as usize) << 8 | cells[1] as usize,
            _ => return Err((32, line)),
        }
        if ended {
            return Err((35, line));
        }
        ended = kind.1 == 0x01;
        line += 1;
    }
    if ended {
        Ok(())
    } else {
        Err((35, line))
    }
}

/// Whether a row is touched.
#[inline(always)]
fn touched(given: &[u64; CELLS / BLOCK], row: usize) -> bool {
    given[row / 8] >> (row % 8 * ROW) & 0xFF != 0
}

/// Puts an item at the front of what is left of the output, and gives the rest.
#[inline(always)]
fn put<'a>(output: &'a mut [u8], kind: u8, address: usize, bytes: &[u8]) -> &'a mut [u8] {
    let (item, rest) = output.split_at_mut(HEAD + bytes.len());
    item[..HEAD].copy_from_slice(&(address as u32 | (kind as u32) << 24).to_be_bytes());
    item[HEAD..].copy_from_slice(bytes);
    rest
}

/// Puts the recipe of a table; its length, where there is room for it.
#[inline(always)]
fn print(table: &Table, module: u8, group: u8, output: &mut [u8]) -> Option<usize> {
    let blocks = table.given[..FLASH / BLOCK].iter().filter(|&&word| word != 0).count();
    let rows = (FLASH / ROW..CELLS / ROW).filter(|&row| touched(&table.given, row)).count();
    let size = 4 + blocks * (HEAD + BLOCK) + rows * (HEAD + ROW);
    let output = output.get_mut(..size)?;
    let (open, mut left) = output.split_at_mut(3);
    open.copy_from_slice(&[0x01, module, group]);
    for (at, bytes) in table.bytes[..FLASH].chunks_exact(BLOCK).enumerate() {
        if table.given[at] != 0 {
            left = put(left, 0x02, at * BLOCK, bytes);
        }
    }
    for (at, bytes) in table.bytes[FLASH..].chunks_exact(ROW).enumerate() {
        if touched(&table.given, FLASH / ROW + at) {
            left = put(left, 0x03, EEPROM + at * ROW, bytes);
        }
    }
    left[0] = 0x0F;
    Some(size)
}

/// Converts a text into the recipe of its cells. A refusal leaves the output as it was.
#[inline(never)]
pub fn convert(text: &[u8], module: u8, group: u8, output: &mut [u8]) -> Converted {
    let mut table = Table { bytes: [0xFF; CELLS], given: [0; CELLS / BLOCK] };
    match read(text, &mut table) {
        Err((number, line)) => Converted::Refused { number, line },
        Ok(()) => match print(&table, module, group, output) {
            None => Converted::Refused { number: 26, line: 0 },
            Some(size) => Converted::Made(size),
        },
    }
}

/// What goes into the check of an answer: its number and its line or length.
fn told(answer: Converted) -> u64 {
    match answer {
        Converted::Made(size) => size as u64,
        Converted::Refused { number, line } => 1_000_000 * number as u64 + line as u64,
    }
}

/// Takes bytes into a digest.
fn digest(bytes: &[u8]) -> u64 {
    bytes.iter().fold(0, |digest, &byte| (digest * 31 + byte as u64 + 1) % 4_294_967_291)
}

fn main() -> io::Result<()> {
    let mut head = [0; 7];
    let mut input = io::stdin().lock();
    input.read_exact(&mut head)?;
    let [high, low, r2, r1, r0, module, group] = head;
    let mut text = Vec::with_capacity(TEXT);
    input.read_to_end(&mut text)?;
    let mut output = [0xEE; OUTPUT];
    let room = u32::from_be_bytes([0, r2, r1, r0]) as usize;
    let mut check = 0;
    for _ in 0..u16::from_be_bytes([high, low]) {
        check += told(convert(&text, module, group, &mut output[..room]));
    }
    println!("check {check} output {}", digest(&output));
    Ok(())
}
