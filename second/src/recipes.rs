//! Makes recipe streams: legal recipes, and recipes damaged in every way.

use crate::frames;
use crate::memory::{Address, Command, BLOCK, EEPROM_BASE, ROW};
use crate::node::{Staged, Way, HELD};
use crate::random::Random;
use crate::recipe::*;
use crate::recipe_stream::{Begin, Trial};
use std::io::{self, Write};

/// How many recipes at the head of a stream are special.
pub const SPECIAL: usize = 6;
/// Frame bytes of the largest recipe.
pub const MOST_OUTPUT: usize = 36_829 * 12;
const BAD_BLOCKS: [u32; 9] =
    [0x000FC0, 0x001008, 0x001020, 0x00FFC8, 0x00FFF8, 0x010000, 0xF00000, 0x000000, 0xFFFFC0];
const BAD_ROWS: [u32; 9] =
    [0x001000, 0x00FFF8, 0xF00004, 0xF00001, 0xF003FC, 0xF00400, 0xEFFFF8, 0x000000, 0xFFFFF8];

/// An address as the three bytes of a body.
fn three(address: u32) -> [u8; 3] {
    let [_, high, middle, low] = address.to_be_bytes();
    [high, middle, low]
}

/// A Block item with random data.
fn block(random: &mut Random, address: u32) -> Vec<u8> {
    let mut item = vec![BLOCK_ITEM];
    item.extend(three(address));
    item.extend(random.bytes::<BLOCK>());
    item
}

/// A Row item with random data.
fn row(random: &mut Random, address: u32) -> Vec<u8> {
    let mut item = vec![ROW_ITEM];
    item.extend(three(address));
    item.extend(random.bytes::<ROW>());
    item
}

/// A legal Block or Row; often at cells already used, at a rim, at BOOTFL or at the own numbers.
fn legal_item(random: &mut Random, favourite: u32) -> Vec<u8> {
    match random.below(12) {
        0..=2 => block(random, favourite),
        3 => {
            let rim = random.pick(&[0x001000, 0x00FFC0]);
            block(random, rim)
        }
        4..=6 => {
            let address = 0x001000 + 64 * random.below(960) as u32;
            block(random, address)
        }
        7 => row(random, 0xF00000),
        8 => row(random, 0xF00020),
        9 => {
            let rim = random.pick(&[0xF00030, 0xF00038, 0xF003F8]);
            row(random, rim)
        }
        _ => {
            let address = EEPROM_BASE + 8 * random.below(128) as u32;
            row(random, address)
        }
    }
}

/// The items of a legal recipe with so many Blocks and Rows.
fn legal_items(random: &mut Random, numbers: [u8; 2], count: usize) -> Vec<Vec<u8>> {
    let favourite = 0x001000 + 64 * random.below(960) as u32;
    let mut items = vec![vec![OPEN, numbers[0], numbers[1]]];
    items.extend((0..count).map(|_| legal_item(random, favourite)));
    items.push(vec![LEAVE]);
    items
}

/// A kind that no item has.
fn unknown_kind(random: &mut Random) -> u8 {
    random.pick(&[0x00, 0x04, 0x05, 0x0E, 0x10, 0x7F, 0x81, 0xF0, 0xFF])
}

/// An illegal Block or Row.
fn illegal_item(random: &mut Random) -> Vec<u8> {
    if random.chance(50) {
        let address = random.pick(&BAD_BLOCKS);
        block(random, address)
    } else {
        let address = random.pick(&BAD_ROWS);
        row(random, address)
    }
}

/// Puts an unknown kind at the first, a middle or the last item: 21. At the last item the
/// recipe ends with it, sometimes behind Leave.
fn with_unknown_kind(random: &mut Random, items: &mut Vec<Vec<u8>>) {
    let kind = unknown_kind(random);
    let last = items.len() - 1;
    match random.below(5) {
        0 => items[0][0] = kind,
        1 => items.insert(1 + random.below(last), vec![kind; 1 + random.below(20)]),
        2 => items[last] = vec![kind],
        3 => items.push(vec![kind]),
        _ => items.push(vec![kind, LEAVE]),
    }
}

/// Puts an item out of place at the first, a middle or the last item: 23.
fn out_of_place(random: &mut Random, items: &mut Vec<Vec<u8>>) {
    let last = items.len() - 1;
    let open = items[0].clone();
    match random.below(9) {
        0 => drop(items.remove(0)),
        1 => items.insert(0, vec![LEAVE]),
        2 => items.insert(0, row(random, 0xF00000)),
        3 => items.insert(1 + random.below(last), open),
        4 => items.insert(1 + random.below(last), vec![LEAVE]),
        5 => items[last] = vec![OPEN],
        6 => items.push(open),
        7 => items.push(row(random, 0x001000)),
        _ => items.push(vec![LEAVE]),
    }
}

/// Cuts the body of the first or the last item short: 22.
fn cut_short(random: &mut Random, items: &mut Vec<Vec<u8>>) {
    if random.chance(30) {
        items.truncate(1);
    } else {
        items.pop();
        let item =
            if random.chance(60) { legal_item(random, 0x001000) } else { illegal_item(random) };
        items.push(item);
    }
    let last = items.last_mut().expect("an item");
    last.truncate(1 + random.below(last.len() - 1));
}

/// Puts an illegal address at a middle item or at the last one: 24.
fn illegal_address(random: &mut Random, items: &mut Vec<Vec<u8>>) {
    let at = 1 + random.below(items.len() - 1);
    let item = illegal_item(random);
    items.insert(at, item);
    if random.chance(40) {
        items.truncate(at + 1);
    }
}

/// Cuts an item short that is out of place, too: a second Open, something before Open or behind
/// Leave. 23.
fn out_of_place_and_short(random: &mut Random, items: &mut Vec<Vec<u8>>) {
    let item = legal_item(random, 0x001000);
    match random.below(3) {
        0 => {
            items.pop();
            items.push(vec![OPEN]);
        }
        1 => *items = vec![item],
        _ => items.push(item),
    }
    let last = items.last_mut().expect("an item");
    last.truncate(1 + random.below(last.len().min(9)));
}

/// Ends with an item that is cut short behind its illegal address: 22.
fn illegal_and_short(random: &mut Random, items: &mut Vec<Vec<u8>>) {
    items.pop();
    let mut item = illegal_item(random);
    item.truncate(4 + random.below(item.len() - 4));
    items.push(item);
}

/// Takes Leave away: 20; now and then everything.
fn without_leave(random: &mut Random, items: &mut Vec<Vec<u8>>) {
    items.pop();
    if random.chance(20) {
        items.clear();
    }
}

/// Changes a byte, or cuts the recipe anywhere, or puts bytes in: any refusal, or none.
fn scrambled(random: &mut Random, mut recipe: Vec<u8>) -> Vec<u8> {
    for _ in 0..1 + random.below(2) {
        let at = random.below(recipe.len());
        match random.below(4) {
            0 => recipe.truncate(at + 1),
            1 => recipe.insert(at, random.byte()),
            _ => recipe[at] = random.pick(&[OPEN, BLOCK_ITEM, ROW_ITEM, LEAVE, 0x00, 0xF0]),
        }
    }
    recipe
}

/// A recipe of many small items: Open, so many Rows, Leave.
fn many_rows(random: &mut Random, numbers: [u8; 2], rows: usize) -> Vec<Vec<u8>> {
    let mut items = vec![vec![OPEN, numbers[0], numbers[1]]];
    for _ in 0..rows {
        let address = EEPROM_BASE + 8 * random.below(128) as u32;
        items.push(row(random, address));
    }
    items.push(vec![LEAVE]);
    items
}

/// The recipe of most frames: Open, 2,046 Blocks over all of the legal FLASH, Leave.
pub fn largest(random: &mut Random, numbers: [u8; 2]) -> Vec<Vec<u8>> {
    let mut items = vec![vec![OPEN, numbers[0], numbers[1]]];
    for index in 0..2_046 {
        let near = (index * 7 + random.below(3)) % 960;
        items.push(block(random, 0x001000 + 64 * near as u32));
    }
    items.push(vec![LEAVE]);
    items
}

/// The items of the first six recipes, those at the limits.
fn special_items(random: &mut Random, index: usize, numbers: [u8; 2]) -> Vec<Vec<u8>> {
    match index {
        0 => largest(random, numbers),
        // 2,049 items: the last is the only Leave.
        1 => many_rows(random, numbers, 2_047),
        // More than 2,049 items: the last an unknown kind, behind Leave or not, then more.
        2 => {
            let mut items = many_rows(random, numbers, 2_046);
            if random.chance(50) {
                items[2_047] = row(random, 0xF00010);
            }
            items.push(vec![unknown_kind(random), LEAVE, LEAVE]);
            items
        }
        // 2,048 items without Leave, and 2,048 with it.
        3 => {
            let mut items = many_rows(random, numbers, 2_047);
            items.pop();
            items
        }
        4 => many_rows(random, numbers, 2_046),
        // 2,049 items: something known behind Leave.
        _ => {
            let mut items = many_rows(random, numbers, 2_046);
            items.push(random.pick(&[&[OPEN, 0x00, 0x00][..], &[LEAVE]]).to_vec());
            items
        }
    }
}

/// The items of the recipe with this index.
pub fn items_of(random: &mut Random, index: usize, numbers: [u8; 2]) -> Vec<Vec<u8>> {
    if index < SPECIAL {
        return special_items(random, index, numbers);
    }
    let count = match random.below(20) {
        0 => 0,
        1..=14 => 1 + random.below(6),
        15..=18 => 7 + random.below(20),
        _ => 60 + random.below(60),
    };
    let mut items = legal_items(random, numbers, count);
    match index % 15 {
        0..=4 => {}
        5 => with_unknown_kind(random, &mut items),
        6 => out_of_place(random, &mut items),
        7 => cut_short(random, &mut items),
        8 => illegal_address(random, &mut items),
        9 => without_leave(random, &mut items),
        10 => {
            // Two faults: the first item at fault decides, and the order at one item.
            with_unknown_kind(random, &mut items);
            illegal_address(random, &mut items);
            if random.chance(50) {
                out_of_place(random, &mut items);
            }
        }
        11 => out_of_place_and_short(random, &mut items),
        12 => illegal_and_short(random, &mut items),
        13 => items.push(vec![unknown_kind(random), LEAVE]),
        _ => return vec![scrambled(random, items.concat())],
    }
    items
}

/// The length of the lent output for a recipe that gives so many bytes.
pub fn output_length(random: &mut Random, needed: usize) -> usize {
    let length = match random.below(20) {
        0..=7 => needed,
        8..=11 => needed + 1 + random.below(40),
        12 => needed + 12 * random.below(100),
        13..=15 => needed.saturating_sub(1),
        16 => needed.saturating_sub(12),
        17 => needed / 2,
        18 => 0,
        _ => random.below(4_000),
    };
    length.min(MOST_OUTPUT)
}

/// Something staged before the delivery: a legal command, one that counts as none, or nothing.
/// With `full` it is a legal one.
fn staged(random: &mut Random, full: bool) -> Option<Staged> {
    let command = random.pick(&[Command::Read, Command::Write, Command::Erase]);
    let flash = Address::Flash(0x001000 + 64 * random.below(960) as u32);
    let eeprom = Address::Eeprom(EEPROM_BASE + 8 * random.below(128) as u32);
    let (low, bare) = (random.pick(&BAD_BLOCKS), random.next());
    match random.below(9) {
        _ if full => Some(Staged { command, address: flash }),
        0..=1 => None,
        2..=5 => Some(Staged { command, address: flash }),
        6 if command == Command::Erase => Some(Staged { command, address: Address::Flash(low) }),
        6 => Some(Staged { command, address: eeprom }),
        _ => Some(Staged { command, address: Address::Flash(random.pick(&[low, bare])) }),
    }
}

/// What the record has when a delivery begins: mostly what a restart leaves, else something
/// staged, bytes held, or pin CAN only; with `full` all of these.
pub fn begin(random: &mut Random, numbers: [u8; 2], full: bool) -> Begin {
    let frame = frames::frame(0x040, 0, numbers[0], numbers[1], random.bytes());
    let mut held = [0; HELD];
    let held_count = match random.below(10) {
        _ if full => 1 + random.below(HELD) as u8,
        0..=3 => 0,
        4..=7 => 1 + random.below(HELD) as u8,
        _ => random.pick(&[15, 255, 3]),
    };
    if held_count > 0 {
        held.copy_from_slice(&frames::wrapped(&frame)[..HELD]);
        if !full && random.chance(20) {
            held[0] = 0x55;
        }
    }
    let can_and_uart = !full && random.chance(75);
    Begin { can_and_uart, staged: staged(random, full), held_count, held }
}

/// Writes a stream of so many recipes.
pub fn recipes(seed: u64, count: usize, out: &mut impl Write) -> io::Result<()> {
    let mut random = Random::new(seed ^ 0x5EC0_4D);
    for index in 0..count {
        let any = random.bytes();
        let numbers = random.pick(&[[0x00, 0x00], [0xFF, 0xFF], [0x05, 0x0A], any, any]);
        let recipe = items_of(&mut random, index, numbers).concat();
        let mut room = vec![0; MOST_OUTPUT];
        let needed = 12 * translate(&recipe, &mut room).unwrap_or(random.below(60));
        let [module, group] = match random.below(8) {
            0 if index >= SPECIAL => [numbers[0] ^ 1, numbers[1]],
            1 if index >= SPECIAL => [numbers[0], numbers[1].wrapping_add(1)],
            _ => numbers,
        };
        let long = index == 0 || index == 4;
        let full = index >= SPECIAL && index % 15 == 0;
        let pattern = full || random.chance(60);
        let trial = Trial {
            uart: !long && !full && random.chance(50),
            flash: random.byte(),
            eeprom: random.byte(),
            module,
            group,
            step: if pattern { 1 | random.any() } else { 0 },
            more: if pattern { random.any() } else { 0 },
            begin: begin(&mut random, [module, group], full),
            piece: 0,
            way_byte: 0,
            meant: Way::default(),
            output: if long { needed } else { output_length(&mut random, needed) },
            recipe,
        };
        trial.write(out)?;
    }
    Ok(())
}
