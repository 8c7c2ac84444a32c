//! Reads the HEX texts of a stream and prints a line for each, and looks whether an accepted text
//! and its recipe say the same, and whether a refused one is at fault there.

use crate::digest::Digest;
use crate::hex::{self, Refusal, SHORT_OUTPUT};
use crate::hex_faults::{examine, verdict};
use crate::hex_stream::{read, HexTrial};
use crate::memory::{BOOTFL, EEPROM_BASE, EEPROM_CELLS, FLASH_CELLS};
use crate::recipe::{items, plain_reading, BLOCK_ITEM, LEAVE, OPEN, ROW_ITEM};
use std::collections::HashSet;
use std::io::{self, Write};

/// FLASH and EEPROM.
type Memories = (Vec<u8>, Vec<u8>);

/// Memories with a pattern, and their opposites: a cell that is wrongly set shows in one of them.
pub fn patterns() -> [Memories; 2] {
    let pattern = |cells: usize| (0..cells).map(|cell| (cell * 7 + cell / 256 * 3 + 1) as u8);
    let opposite = |cells: usize| pattern(cells).map(|value| !value);
    [
        (pattern(FLASH_CELLS).collect(), pattern(EEPROM_CELLS).collect()),
        (opposite(FLASH_CELLS).collect(), opposite(EEPROM_CELLS).collect()),
    ]
}

/// The records of an accepted text as bytes, each from its length to its sum.
fn records(text: &str) -> Option<Vec<Vec<u8>>> {
    let bytes = |record: &str| {
        let digits = record.trim_end_matches(['\r', '\n']);
        let pair = |at: usize| u8::from_str_radix(digits.get(2 * at..2 * at + 2)?, 16).ok();
        (0..digits.len() / 2).map(pair).collect()
    };
    text.split(':').skip(1).map(bytes).collect()
}

/// The cells that an accepted text gives, in its order.
fn cells(text: &[u8]) -> Option<Vec<(usize, u8)>> {
    let mut cells = Vec::new();
    let mut base = 0;
    for record in records(std::str::from_utf8(text).ok()?)? {
        let (address, data) = (record[1] as usize * 256 + record[2] as usize, &record[4..]);
        match record[3] {
            0x00 => {
                let given = data[..data.len() - 1].iter().enumerate();
                cells.extend(given.map(|(index, &value)| (base + address + index, value)));
            }
            0x04 => base = (data[0] as usize * 256 + data[1] as usize) * 65_536,
            _ => {}
        }
    }
    Some(cells)
}

/// What the memories become by these cells: 0xFF around them, then each, and BOOTFL 0x00.
fn become_by(cells: &[(usize, u8)], (flash, eeprom): &mut Memories) {
    let base = EEPROM_BASE as usize;
    for &(cell, _) in cells {
        match cell.checked_sub(base) {
            None => flash[cell / 64 * 64..][..64].fill(0xFF),
            Some(place) => eeprom[place / 8 * 8..][..8].fill(0xFF),
        }
    }
    for &(cell, value) in cells {
        match cell.checked_sub(base) {
            None => flash[cell] = value,
            Some(place) => eeprom[place] = value,
        }
    }
    eeprom[BOOTFL] = 0x00;
}

/// The length of the recipe of these cells: Open and Leave, 68 bytes a block, 12 bytes a row.
fn needed(cells: &[(usize, u8)]) -> usize {
    let base = EEPROM_BASE as usize;
    let blocks = cells.iter().filter(|(cell, _)| *cell < base).map(|(cell, _)| cell / 64);
    let rows = cells.iter().filter(|(cell, _)| *cell >= base).map(|(cell, _)| cell / 8);
    4 + 68 * blocks.collect::<HashSet<_>>().len() + 12 * rows.collect::<HashSet<_>>().len()
}

/// Whether a recipe is one that translates: Open with these numbers, Blocks upward, Rows upward,
/// Leave.
fn right_shape(recipe: &[u8], module: u8, group: u8) -> bool {
    let Ok(places) = items(recipe) else { return false };
    let between = &places[1..places.len() - 1];
    let heads: Vec<&[u8]> = between.iter().map(|&place| &recipe[place..place + 4]).collect();
    recipe.starts_with(&[OPEN, module, group])
        && recipe.ends_with(&[LEAVE])
        && heads.iter().all(|head| [BLOCK_ITEM, ROW_ITEM].contains(&head[0]))
        && heads.windows(2).all(|pair| pair[0] < pair[1])
}

/// What is wrong with the recipe of an accepted text.
pub fn wrong_recipe(trial: &HexTrial, recipe: &[u8], patterns: &[Memories]) -> Option<String> {
    if let Some((number, line)) = verdict(&examine(&trial.text)) {
        return Some(format!("accepted, but {number} at line {line}"));
    }
    if !right_shape(recipe, trial.module, trial.group) {
        return Some("the recipe is out of shape".to_string());
    }
    let Some(cells) = cells(&trial.text) else {
        return Some("accepted, but no records".to_string());
    };
    for before in patterns {
        let (mut file, mut plain) = (before.clone(), before.clone());
        become_by(&cells, &mut file);
        plain_reading(recipe, &mut plain.0, &mut plain.1);
        if file != plain {
            return Some("the recipe read plainly gives other cells than the file".to_string());
        }
    }
    None
}

/// What is wrong with a refusal.
pub fn wrong_refusal(trial: &HexTrial, refusal: Refusal) -> Option<String> {
    let found = verdict(&examine(&trial.text));
    let right = match (refusal.number, refusal.line) {
        (SHORT_OUTPUT, 0) => {
            let short = |cells: Vec<_>| trial.room < needed(&cells);
            found.is_none() && cells(&trial.text).is_some_and(short)
        }
        told => found == Some(told),
    };
    (!right).then(|| format!("refused with {refusal:?}, but {found:?} is at fault"))
}

/// Reads one text; gives its line without the number in front, and what is wrong.
fn answer(trial: &HexTrial, patterns: &[Memories]) -> (String, Option<String>) {
    let mut output = vec![0xEE; trial.room];
    let result = hex::read(&trial.text, trial.module, trial.group, trial.room);
    let (number, value, wrong) = match &result {
        Ok(recipe) => {
            output[..recipe.len()].copy_from_slice(recipe);
            (0, recipe.len(), wrong_recipe(trial, recipe, patterns))
        }
        Err(refusal) => (refusal.number, refusal.line, wrong_refusal(trial, *refusal)),
    };
    (format!("number {number} value {value} output {}", Digest::of(&output)), wrong)
}

/// Reads all texts of a stream and prints a line for each; gives the first thing that is wrong.
pub fn read_hex(stream: &[u8], out: &mut impl Write) -> io::Result<Option<String>> {
    let mut first = None;
    let patterns = patterns();
    for (index, trial) in read(stream).iter().enumerate() {
        let (line, wrong) = answer(trial, &patterns);
        writeln!(out, "hex {} {line}", index + 1)?;
        if first.is_none() {
            first = wrong.map(|what| format!("hex {}: {what}", index + 1));
        }
    }
    Ok(first)
}
