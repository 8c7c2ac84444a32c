//! What recipes to be made shorter are made of: an image, Blocks that stand in it and that don't,
//! Rows, and the order in which they come.

use crate::difference_stream::{Patch, MOST_PATCHED};
use crate::memory::{BLOCK, EEPROM_BASE, FLASH_CELLS, ROW};
use crate::random::Random;
use crate::recipe::{BLOCK_ITEM, LEAVE, OPEN, ROW_ITEM};
use crate::session::fill;

/// The Blocks of one address, in order: A has the cells of the image, B and C have others.
pub const LETTERS: [&str; 22] = [
    "A", "B", "AA", "AB", "BA", "BB", "BC", "AAB", "ABA", "ABB", "ABC", "BAA", "BAB", "BAC", "BBA",
    "BCA", "BCB", "ABAA", "ABAB", "ABCA", "BABA", "BCBC",
];
/// The first legal block and the last.
pub const FIRST_BLOCK: usize = 0x001000;
pub const LAST_BLOCK: usize = 0x00FFC0;
/// How many legal blocks there are.
pub const BLOCKS: usize = 960;

/// How cells differ from others.
#[derive(Clone, Copy, PartialEq, Eq, Debug)]
pub enum Off {
    /// By the cell of this place alone.
    Cell(usize),
    /// By one bit of the cell of this place.
    Bit(usize, u8),
    /// By any of the ways.
    Any,
}

/// A recipe to be, and its image.
pub struct Draft {
    pub fill: u8,
    pub step: u8,
    pub more: u8,
    pub patches: Vec<Patch>,
    pub image: Vec<u8>,
    /// The items between Open and Leave.
    pub items: Vec<Vec<u8>>,
}

/// An item with an address of three bytes.
fn item(kind: u8, address: u32, cells: &[u8]) -> Vec<u8> {
    let mut item = vec![kind];
    item.extend(&address.to_be_bytes()[1..]);
    item.extend(cells);
    item
}

/// A Block with these cells.
pub fn block(first: usize, cells: &[u8]) -> Vec<u8> {
    item(BLOCK_ITEM, first as u32, cells)
}

/// A Row with these cells.
pub fn row(place: usize, cells: &[u8]) -> Vec<u8> {
    item(ROW_ITEM, EEPROM_BASE + place as u32, cells)
}

/// The first cell of any legal block, now and then the first block or the last.
pub fn any_block(random: &mut Random) -> usize {
    let any = FIRST_BLOCK + BLOCK * random.below(BLOCKS);
    random.pick(&[any, any, any, any, any, any, FIRST_BLOCK, LAST_BLOCK])
}

/// Some Rows, often one again, at once or later, with the same cells or others; or its cells at
/// another place.
pub fn rows(random: &mut Random, count: usize) -> Vec<Vec<u8>> {
    let mut rows: Vec<Vec<u8>> = Vec::new();
    for _ in 0..count {
        let any = ROW * random.below(128);
        let place = random.pick(&[any, any, 0x00, 0x20, 0x30, 0x3F8]);
        let fresh = row(place, &random.bytes::<ROW>());
        let next = match rows.len() {
            0 => fresh,
            earlier => {
                let other = rows[random.below(earlier)].clone();
                match random.below(6) {
                    0 => rows[earlier - 1].clone(),
                    1 => other,
                    2 => [&other[..4], &fresh[4..]].concat(),
                    3 => [&fresh[..4], &other[4..]].concat(),
                    _ => fresh,
                }
            }
        };
        rows.push(next);
    }
    rows
}

impl Draft {
    /// A draft without items: the image has a pattern, or all its cells are equal.
    pub fn new(random: &mut Random) -> Draft {
        let pattern = random.chance(75);
        let mut draft = Draft {
            fill: random.byte(),
            step: if pattern { 1 | random.any() } else { 0 },
            more: if pattern { random.any() } else { 0 },
            patches: vec![],
            image: vec![0; FLASH_CELLS],
            items: vec![],
        };
        fill(&mut draft.image, draft.fill, draft.step, draft.more);
        draft
    }

    /// Puts cells into the image, in patches of at most 58.
    pub fn patch(&mut self, place: usize, cells: &[u8]) {
        for (index, cells) in cells.chunks(MOST_PATCHED).enumerate() {
            let patch = Patch { place: place + index * MOST_PATCHED, cells: cells.to_vec() };
            patch.put(&mut self.image);
            self.patches.push(patch);
        }
    }

    /// The cells of a block in the image.
    pub fn cells(&self, first: usize) -> &[u8] {
        &self.image[first..first + BLOCK]
    }

    /// Gives a block of the image cells of its own, or blank ones, or its neighbours' nearest cells
    /// other values, or some over one of its borders, or leaves all.
    pub fn prepare(&mut self, random: &mut Random, first: usize) {
        let just_before = (first - 1, random.any());
        let just_behind = ((first + BLOCK) % FLASH_CELLS, random.any());
        match random.below(10) {
            0..=2 => self.patch(first, &random.bytes::<BLOCK>()),
            3 => self.patch(first, &[0xFF; BLOCK]),
            4 => {
                let (place, value) = random.pick(&[just_before, just_behind]);
                self.patch(place, &[value]);
            }
            5 => {
                // One over another, and one that changes nothing.
                self.patch(first + random.below(32), &random.bytes::<32>());
                self.patch(first, &random.bytes::<8>());
                let behind = random.pick(&[FLASH_CELLS - 7, FLASH_CELLS, 0xFFFF_FFFF]);
                self.patch(behind, &random.bytes::<8>());
            }
            6 => {
                let border = random.pick(&[first, first + BLOCK]);
                self.patch(border - 1 - random.below(56), &random.bytes::<MOST_PATCHED>());
            }
            _ => {}
        }
    }

    /// The cells of a block with something else in them.
    fn any_off(&self, random: &mut Random, first: usize, cells: &[u8]) -> Vec<u8> {
        let mut other = cells.to_vec();
        let (one, two) = (random.below(BLOCK), random.below(BLOCK));
        match random.below(11) {
            0 => other[0] ^= 1 + random.below(255) as u8,
            1 => other[BLOCK - 1] ^= 1 + random.below(255) as u8,
            2 => other[one] ^= 1 << random.below(8),
            3 => other.fill(0xFF),
            4 => other.swap(one, two),
            5 => {
                other[one] = other[one].wrapping_add(1);
                other[two] = other[two].wrapping_sub(1);
            }
            6 => other.iter_mut().for_each(|cell| *cell &= random.byte()),
            7 => {
                let far = FIRST_BLOCK + BLOCK * random.below(BLOCKS);
                let behind = if first == LAST_BLOCK { far } else { first + BLOCK };
                other = self.cells(random.pick(&[first - BLOCK, behind, far])).to_vec();
            }
            _ => other = random.bytes::<BLOCK>().to_vec(),
        }
        other
    }

    /// Cells that differ so from those of a block, and from some others.
    fn off(&self, random: &mut Random, first: usize, off: Off, others: &[Vec<u8>]) -> Vec<u8> {
        let mut cells = self.cells(first).to_vec();
        match off {
            Off::Cell(place) => cells[place] ^= 1 + random.below(255) as u8,
            Off::Bit(place, bit) => cells[place] ^= 1 << bit,
            Off::Any => cells = self.any_off(random, first, &cells),
        }
        while others.contains(&cells) {
            cells = random.bytes::<BLOCK>().to_vec();
        }
        cells
    }

    /// The Blocks of these letters at one address; B differs so, and C in any way.
    pub fn blocks(&self, random: &mut Random, first: usize, letters: &str, b: Off) -> Vec<Vec<u8>> {
        let mut named = vec![self.cells(first).to_vec()];
        for off in [b, Off::Any] {
            named.push(self.off(random, first, off, &named));
        }
        letters.bytes().map(|letter| block(first, &named[(letter - b'A') as usize])).collect()
    }

    /// The whole recipe.
    pub fn recipe(&self, numbers: [u8; 2]) -> Vec<u8> {
        [&[OPEN, numbers[0], numbers[1]], &self.items.concat()[..], &[LEAVE]].concat()
    }
}

/// The items of some sequences, each sequence in its order: one behind the other, in turns, or
/// mixed.
pub fn joined(random: &mut Random, mut sequences: Vec<Vec<Vec<u8>>>) -> Vec<Vec<u8>> {
    sequences.retain(|sequence| !sequence.is_empty());
    let mut items = Vec::new();
    match random.below(4) {
        0 => return sequences.concat(),
        1 => {
            let most = sequences.iter().map(Vec::len).max().unwrap_or(0);
            for turn in 0..most {
                items.extend(sequences.iter().filter_map(|sequence| sequence.get(turn)).cloned());
            }
        }
        _ => {
            sequences.iter_mut().for_each(|sequence| sequence.reverse());
            while !sequences.is_empty() {
                let at = random.below(sequences.len());
                items.extend(sequences[at].pop());
                if sequences[at].is_empty() {
                    sequences.swap_remove(at);
                }
            }
        }
    }
    items
}
