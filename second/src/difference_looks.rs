//! A second look at recipes made shorter, item by item and by the plain reading: which Blocks stay,
//! what the memories become, and what the frames are.

use crate::differences::{self, Shorter, IMAGE_LENGTH, SHORT_OUTPUT};
use crate::frames::{data, kind, Frame, FRAME};
use crate::memory::{Lent, BOOTFL, EEPROM_CELLS, FLASH_CELLS, GROUP, MODULE};
use crate::node::{Node, Pin, Way};
use crate::recipe::{plain_reading, translate, Refusal};
use crate::recipes::MOST_OUTPUT;

/// Of recipes with more Blocks than this some are looked at: those at both ends, some between.
const ALL_BLOCKS: usize = 150;
const BETWEEN: usize = 20;

/// The starting bytes of an accepted recipe's items and the bytes behind them, by kinds alone.
fn walk(recipe: &[u8]) -> Vec<(usize, usize)> {
    let mut all = Vec::new();
    let mut place = 0;
    while place < recipe.len() {
        let behind = place
            + match recipe[place] {
                0x01 => 3,
                0x02 => 68,
                0x03 => 12,
                _ => 1,
            };
        all.push((place, behind));
        place = behind;
    }
    all
}

/// Whether a place is among some, which go upward.
fn has(places: &[usize], place: usize) -> bool {
    places.binary_search(&place).is_ok()
}

/// Whether the 64 bytes of the Block at this place stand in FLASH, as the plain reading of all
/// earlier items leaves the image.
fn stands(recipe: &[u8], place: usize, image: &[u8]) -> bool {
    let (mut flash, mut eeprom) = (image.to_vec(), vec![0; EEPROM_CELLS]);
    plain_reading(&recipe[..place], &mut flash, &mut eeprom);
    let first = recipe[place + 2] as usize * 256 + recipe[place + 3] as usize;
    (0..64).all(|index| flash[first + index] == recipe[place + 4 + index])
}

/// The starting bytes of the items that stay, each Block looked at for itself; where there are too
/// many, those that the program keeps, of which some are looked at. Else what is wrong.
fn stay(recipe: &[u8], image: &[u8]) -> Result<Vec<usize>, String> {
    let places: Vec<usize> = walk(recipe).iter().map(|&(place, _)| place).collect();
    let blocks: Vec<usize> =
        places.iter().copied().filter(|&place| recipe[place] == 0x02).collect();
    let ours = differences::kept(recipe, &places, image);
    let step = if blocks.len() > ALL_BLOCKS { blocks.len() / BETWEEN } else { 1 };
    for (index, &place) in blocks.iter().enumerate() {
        let looked_at = index % step == 0 || index < BETWEEN || index + BETWEEN > blocks.len();
        if looked_at && stands(recipe, place, image) == has(&ours, place) {
            return Err(format!("the Block at byte {place} is kept or dropped wrongly"));
        }
    }
    let rows_stay = places.iter().all(|&place| has(&blocks, place) || has(&ours, place));
    if rows_stay {
        Ok(ours)
    } else {
        Err("another item than a Block is dropped".to_string())
    }
}

/// The bytes of these items of a recipe.
fn bytes_of(recipe: &[u8], places: &[usize]) -> Vec<u8> {
    let all = walk(recipe).into_iter().filter(|&(place, _)| has(places, place));
    all.flat_map(|(place, behind)| recipe[place..behind].to_vec()).collect()
}

/// What is wrong with a refusal.
pub fn wrong_refusal(recipe: &[u8], image: &[u8], room: usize, refusal: Refusal) -> Option<String> {
    let right = match translate(recipe, &mut vec![0; MOST_OUTPUT]) {
        Err(fault) => Some(fault),
        Ok(_) if image.len() != FLASH_CELLS => Some(Refusal { number: IMAGE_LENGTH, place: 0 }),
        Ok(_) => match stay(recipe, image) {
            Err(wrong) => return Some(wrong),
            Ok(places) => (bytes_of(recipe, &places).len() > room)
                .then_some(Refusal { number: SHORT_OUTPUT, place: 0 }),
        },
    };
    (right != Some(refusal)).then(|| format!("refused with {refusal:?}, but {right:?} is right"))
}

/// Whether two recipes read plainly give the same memories over this FLASH.
fn same_memories(recipe: &[u8], shorter: &[u8], flash: &[u8]) -> bool {
    let read = |recipe: &[u8]| {
        let eeprom: Vec<u8> = (0..EEPROM_CELLS).map(|place| (place * 7 + 1) as u8).collect();
        let mut memories = (flash.to_vec(), eeprom);
        plain_reading(recipe, &mut memories.0, &mut memories.1);
        memories
    };
    read(recipe) == read(shorter)
}

/// A FLASH that equals the image on the cells that the recipe's Blocks name, and on no other.
fn equal_where_named(recipe: &[u8], image: &[u8]) -> Vec<u8> {
    let mut flash: Vec<u8> = image.iter().map(|cell| !cell).collect();
    for (place, _) in walk(recipe).into_iter().filter(|&(place, _)| recipe[place] == 0x02) {
        let first = recipe[place + 2] as usize * 256 + recipe[place + 3] as usize;
        flash[first..first + 64].copy_from_slice(&image[first..first + 64]);
    }
    flash
}

/// How many erase pairs are among the frames: 0x030 with command 0x03, then 0x040.
fn erase_pairs(frames: &[Frame]) -> usize {
    let erase = |pair: &&[Frame]| {
        kind(&pair[0]) == 0x030 && data(&pair[0])[5] == 0x03 && kind(&pair[1]) == 0x040
    };
    frames.windows(2).filter(erase).count()
}

/// Whether a node whose FLASH equals the image, handed these frames, ends with the memories of the
/// full recipe read plainly.
fn node_agrees(recipe: &[u8], frames: &[Frame], image: &[u8]) -> bool {
    let (mut flash, mut eeprom) = (image.to_vec(), vec![0x5A; EEPROM_CELLS]);
    eeprom[BOOTFL] = 0xFF;
    eeprom[MODULE] = recipe[1];
    eeprom[GROUP] = recipe[2];
    let (mut plain_flash, mut plain_eeprom) = (flash.clone(), eeprom.clone());
    plain_reading(recipe, &mut plain_flash, &mut plain_eeprom);
    let mut lent = Lent { flash: &mut flash, eeprom: &mut eeprom };
    let mut node = Node::fresh([0; 6]);
    node.restart(&lent, Pin::CanOnly, true, Way::default());
    let done = frames.iter().all(|frame| node.can_frame(&mut lent, frame).number == 0);
    done && flash == plain_flash && eeprom == plain_eeprom
}

/// What is wrong with a shorter recipe and what is reported of it.
pub fn wrong_recipe(recipe: &[u8], image: &[u8], shorter: &[u8], told: Shorter) -> Option<String> {
    let wrong = |what: &str| Some(what.to_string());
    let mut frames = vec![0; MOST_OUTPUT];
    if image.len() != FLASH_CELLS || translate(recipe, &mut frames).is_err() {
        return wrong("made, but to be refused");
    }
    match stay(recipe, image) {
        Err(what) => return Some(what),
        Ok(places) if bytes_of(recipe, &places) != shorter => {
            return wrong("the items written are not those kept");
        }
        Ok(_) => {}
    }
    let Ok(count) = translate(shorter, &mut frames) else {
        return wrong("the shorter recipe is refused by the translator");
    };
    let frames: Vec<Frame> = frames[..FRAME * count]
        .chunks_exact(FRAME)
        .map(|frame| frame.try_into().unwrap())
        .collect();
    let mut again = vec![0; shorter.len()];
    if told.length != shorter.len() {
        wrong("the length reported is not the shorter recipe's")
    } else if erase_pairs(&frames) != told.erases {
        wrong("the frames have another count of erases than is reported")
    } else if !same_memories(recipe, shorter, image) {
        wrong("the memories are not those of the full recipe")
    } else if !same_memories(recipe, shorter, &equal_where_named(recipe, image)) {
        wrong("where only the named cells are equal, the memories are not those of the full recipe")
    } else if !node_agrees(recipe, &frames, image) {
        wrong("a node's memories are not those of the full recipe")
    } else if differences::write(shorter, image, &mut again) != Ok(told) || again != shorter {
        wrong("made shorter again, it is another recipe")
    } else {
        None
    }
}
