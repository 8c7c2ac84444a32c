//! The recipe: its items, the translator to frames, and the plain reading.

use crate::frames::{self, Frame, FRAME};
use crate::memory::{rule, Address, Command, BLOCK, BOOTFL, EEPROM_BASE, ROW};

pub const OPEN: u8 = 0x01;
pub const BLOCK_ITEM: u8 = 0x02;
pub const ROW_ITEM: u8 = 0x03;
pub const LEAVE: u8 = 0x0F;
pub const MOST_ITEMS: usize = 2_048;
/// Unused frame bytes.
const UNUSED: u8 = 0xFF;

/// Why and where a recipe is refused.
#[derive(Clone, Copy, PartialEq, Eq, Debug)]
pub struct Refusal {
    pub number: u8,
    pub place: usize,
}

/// The body length that a kind fixes, none for an unknown kind.
pub fn body_length(kind: u8) -> Option<usize> {
    match kind {
        OPEN => Some(2),
        BLOCK_ITEM => Some(3 + BLOCK),
        ROW_ITEM => Some(3 + ROW),
        LEAVE => Some(0),
        _ => None,
    }
}

/// The address that begins a body.
fn address(body: &[u8]) -> u32 {
    u32::from_be_bytes([0, body[0], body[1], body[2]])
}

/// Whether a body, whole as far as its address, begins with an address that its kind forbids.
pub fn illegal(kind: u8, body: &[u8]) -> bool {
    match kind {
        BLOCK_ITEM if body.len() >= 3 => rule(address(body), Command::Erase).is_none(),
        ROW_ITEM if body.len() >= 3 => {
            !matches!(rule(address(body), Command::Write), Some(Address::Eeprom(_)))
        }
        _ => false,
    }
}

/// Checks a recipe and gives the starting bytes of its items.
pub fn items(recipe: &[u8]) -> Result<Vec<usize>, Refusal> {
    let mut places = Vec::new();
    let mut left = false;
    let mut place = 0;
    while place < recipe.len() {
        let refuse = |number| Err(Refusal { number, place });
        if places.len() == MOST_ITEMS {
            return refuse(25);
        }
        let kind = recipe[place];
        let Some(length) = body_length(kind) else {
            return refuse(21);
        };
        if left || (kind == OPEN) != places.is_empty() {
            return refuse(23);
        }
        let Some(body) = recipe[place + 1..].get(..length) else {
            return refuse(22);
        };
        if illegal(kind, body) {
            return refuse(24);
        }
        left = kind == LEAVE;
        places.push(place);
        place += 1 + length;
    }
    if left {
        Ok(places)
    } else {
        Err(Refusal { number: 20, place: recipe.len() })
    }
}

/// The frames of an address with a command, then of data.
fn two_frames(numbers: [u8; 2], address: u32, command: Command, data: [u8; ROW]) -> [Frame; 2] {
    let [module, group] = numbers;
    let [_, high, middle, low] = address.to_be_bytes();
    let staging = [high, middle, low, UNUSED, UNUSED, command.code(), UNUSED, UNUSED];
    [frames::frame(0x030, 0, module, group, staging), frames::frame(0x040, 0, module, group, data)]
}

/// The frames of one item.
fn item_frames(numbers: [u8; 2], item: &[u8]) -> Vec<Frame> {
    let [module, group] = numbers;
    match item[0] {
        OPEN => vec![],
        LEAVE => vec![frames::frame(0x020, 0, module, group, [UNUSED; 8])],
        kind => {
            let first = address(&item[1..]);
            let mut all = Vec::new();
            if kind == BLOCK_ITEM {
                all.extend(two_frames(numbers, first, Command::Erase, [UNUSED; ROW]));
            }
            for (index, row) in item[4..].chunks_exact(ROW).enumerate() {
                let row = row.try_into().expect("eight bytes");
                let upward = first + (index * ROW) as u32;
                all.extend(two_frames(numbers, upward, Command::Write, row));
            }
            all
        }
    }
}

/// Translates a recipe into frames of 12 bytes; gives the frame count or the refusal.
pub fn translate(recipe: &[u8], output: &mut [u8]) -> Result<usize, Refusal> {
    let places = items(recipe)?;
    let numbers = [recipe[1], recipe[2]];
    let mut all = Vec::new();
    for place in places {
        let length = body_length(recipe[place]).unwrap_or(0);
        all.extend(item_frames(numbers, &recipe[place..=place + length]));
    }
    let bytes = all.concat();
    if output.len() < bytes.len() {
        return Err(Refusal { number: 26, place: 0 });
    }
    output[..bytes.len()].copy_from_slice(&bytes);
    Ok(bytes.len() / FRAME)
}

/// Reads an accepted recipe plainly, byte by byte, without frames: Block and Row set their
/// cells in order, Leave sets BOOTFL to 0x00.
pub fn plain_reading(recipe: &[u8], flash: &mut [u8], eeprom: &mut [u8]) {
    let mut rest = recipe.iter().copied();
    while let Some(kind) = rest.next() {
        let mut take = || rest.next().expect("an accepted recipe");
        match kind {
            OPEN => {
                take();
                take();
            }
            LEAVE => eeprom[BOOTFL] = 0x00,
            _ => {
                let first = (take() as usize) << 16 | (take() as usize) << 8 | take() as usize;
                if kind == BLOCK_ITEM {
                    (first..first + BLOCK).for_each(|cell| flash[cell] = take());
                } else {
                    let place = first - EEPROM_BASE as usize;
                    (place..place + ROW).for_each(|cell| eeprom[cell] = take());
                }
            }
        }
    }
}
