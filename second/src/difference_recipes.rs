//! Makes streams of recipes and images: Blocks that stand and that don't, again and again at one
//! address, Rows; recipes and images at fault, and outputs of all lengths.

use crate::difference_drafts::*;
use crate::difference_stream::{DifferenceTrial, MOST_BYTES, MOST_IMAGE, MOST_ROOM};
use crate::differences;
use crate::memory::{BLOCK, FLASH_CELLS};
use crate::random::Random;
use crate::recipe::{illegal, items, BLOCK_ITEM, LEAVE, MOST_ITEMS};
use crate::recipes::items_of;
use std::io::{self, Write};

/// How many recipes at the head of a stream are special; and one of them comes again each so many.
const SPECIAL: usize = 19;
const AGAIN: usize = 200;
/// How many kinds of recipes come by turns.
const KINDS: usize = 18;

/// A draft with the Blocks of these letters at these addresses, B off so, and some Rows.
fn of_letters(random: &mut Random, places: &[(usize, &str)], off: Off, row_count: usize) -> Draft {
    let mut draft = Draft::new(random);
    for &(first, _) in places {
        draft.prepare(random, first);
    }
    let mut sequences = Vec::new();
    for &(first, letters) in places {
        sequences.push(draft.blocks(random, first, letters, off));
    }
    sequences.extend(rows(random, row_count).into_iter().map(|row| vec![row]));
    draft.items = joined(random, sequences);
    draft
}

/// So many different blocks: neighbours, or any.
fn some_blocks(random: &mut Random, count: usize) -> Vec<usize> {
    let start = random.below(BLOCKS);
    let stride = random.pick(&[1, 1, 7, 137]);
    (0..count).map(|index| FIRST_BLOCK + BLOCK * ((start + stride * index) % BLOCKS)).collect()
}

/// A draft of so many blocks, each with any of these letters.
fn of_some(random: &mut Random, count: usize, letters: &[&'static str], row_count: usize) -> Draft {
    let places = some_blocks(random, count);
    let places: Vec<_> = places.into_iter().map(|first| (first, random.pick(letters))).collect();
    of_letters(random, &places, Off::Any, row_count)
}

/// The Blocks of one address with something between them: a Row, another Block, its neighbour.
fn with_others_between(random: &mut Random, letters: &str) -> Draft {
    let first = any_block(random);
    let mut draft = of_letters(random, &[(first, letters)], Off::Any, 0);
    for at in (1..draft.items.len()).rev() {
        let next = if first == LAST_BLOCK { first - BLOCK } else { first + BLOCK };
        let far = FIRST_BLOCK + BLOCK * random.below(BLOCKS);
        let other = random.pick(&[next, far]);
        let between = match random.below(3) {
            _ if other == first => rows(random, 1),
            0 => rows(random, 1),
            1 => {
                let letter = random.pick(&["A", "B"]);
                draft.blocks(random, other, letter, Off::Any)
            }
            _ => [rows(random, 2), draft.blocks(random, other, "B", Off::Any)].concat(),
        };
        draft.items.splice(at..at, between);
    }
    draft
}

/// Neighbouring blocks of which some differ at the border alone.
fn borders(random: &mut Random, turn: usize) -> Draft {
    let count = 2 + random.below(3);
    let first = FIRST_BLOCK + BLOCK * random.below(BLOCKS - count);
    let mut draft = Draft::new(random);
    draft.prepare(random, first);
    let mut sequences = Vec::new();
    for index in 0..count {
        let (letters, off) = match turn % 4 {
            0 if index == 0 => ("B", Off::Cell(BLOCK - 1)),
            1 if index + 1 == count => ("B", Off::Cell(0)),
            2 if index == 0 => ("B", Off::Cell(BLOCK - 1)),
            2 if index + 1 == count => ("B", Off::Cell(0)),
            3 => {
                let place = random.pick(&[0, BLOCK - 1]);
                (random.pick(&["A", "B", "AB", "BA", "ABA"]), Off::Cell(place))
            }
            _ => ("A", Off::Any),
        };
        sequences.push(draft.blocks(random, first + BLOCK * index, letters, off));
    }
    draft.items = joined(random, sequences);
    draft
}

/// The first legal block and the last, one of them or both.
fn rims(random: &mut Random, turn: usize) -> Draft {
    let one = LETTERS[turn % LETTERS.len()];
    let two = random.pick(&LETTERS);
    let off = random.pick(&[Off::Any, Off::Cell(0), Off::Cell(BLOCK - 1)]);
    let places = match turn % 3 {
        0 => vec![(FIRST_BLOCK, one)],
        1 => vec![(LAST_BLOCK, one)],
        _ => vec![(FIRST_BLOCK, one), (LAST_BLOCK, two)],
    };
    let row_count = random.below(3);
    of_letters(random, &places, off, row_count)
}

/// As many Blocks as there may be, over all legal blocks, each with these letters; some with Rows
/// instead.
pub fn largest(random: &mut Random, letters: &[&'static str], row_count: usize) -> Draft {
    let mut draft = of_some(random, BLOCKS, letters, 0);
    draft.items.truncate(MOST_ITEMS - 2 - row_count);
    let row_count = MOST_ITEMS - 2 - draft.items.len();
    for row in rows(random, row_count) {
        let at = random.below(draft.items.len() + 1);
        draft.items.insert(at, row);
    }
    draft
}

/// A good draft of this kind; `turn` counts those of one kind.
fn good(random: &mut Random, kind: usize, turn: usize) -> Draft {
    let row_count = random.below(5);
    match kind {
        0 if turn % 3 == 0 => Draft::new(random),
        0 => {
            let count = 1 + random.below(9);
            of_letters(random, &[], Off::Any, count)
        }
        1 | 2 => {
            let place = (2 * turn + kind) % BLOCK;
            let bit = Off::Bit(place, random.below(8) as u8);
            let off = random.pick(&[Off::Cell(place), bit]);
            let letters = random.pick(&["B", "AB", "BA", "ABA", "BAB", "BB"]);
            let first = any_block(random);
            of_letters(random, &[(first, letters)], off, row_count / 3)
        }
        3 | 4 => {
            let first = any_block(random);
            let letters = LETTERS[(2 * turn + kind) % LETTERS.len()];
            of_letters(random, &[(first, letters)], Off::Any, 0)
        }
        5 | 6 => with_others_between(random, LETTERS[(2 * turn + kind) % LETTERS.len()]),
        7 => borders(random, turn),
        8 => rims(random, turn),
        9 => {
            let count = 1 + random.below(12);
            of_some(random, count, &["A", "A", "AA"], row_count)
        }
        10 => {
            let count = 1 + random.below(12);
            of_some(random, count, &["B", "B", "BC", "BCB"], row_count)
        }
        _ => {
            let few = 2 + random.below(6);
            let more = 8 + random.below(20);
            let count = random.pick(&[few, few, few, few, more, 100]);
            of_some(random, count, &LETTERS, row_count)
        }
    }
}

/// A draft for the items of a recipe that may be at fault: some of its Blocks stand.
fn around(random: &mut Random, items: &[Vec<u8>]) -> Draft {
    let mut draft = Draft::new(random);
    let percent = random.pick(&[0, 50, 100]);
    for item in items.iter().filter(|item| item.len() == 4 + BLOCK && item[0] == BLOCK_ITEM) {
        let first = item[2] as usize * 256 + item[3] as usize;
        if !illegal(BLOCK_ITEM, &item[1..]) && random.chance(percent) {
            draft.patch(first, &item[4..]);
        }
    }
    draft
}

/// The items of a recipe with this fault, 20 to 25, now and then with others.
pub fn at_fault(random: &mut Random, number: u8, numbers: [u8; 2]) -> Vec<Vec<u8>> {
    let ways: &[usize] = match number {
        20 => &[24],
        21 => &[20, 28],
        22 => &[22, 27],
        23 => &[21, 26],
        24 => &[23],
        _ => &[1, 2, 5],
    };
    let way = random.pick(ways);
    let mixed = random.pick(&[25, 29]);
    let way = if number < 25 && random.chance(10) { mixed } else { way };
    let mut items = items_of(random, way, numbers);
    if number == 25 {
        for _ in 0..random.below(4) {
            let at = 1 + random.below(2_000);
            items[at] = block(any_block(random), &random.bytes::<BLOCK>());
        }
    }
    items
}

/// The length of an image: mostly another one than 65,536 where it ought to be wrong.
fn image_length(random: &mut Random, wrong: bool) -> usize {
    let any = random.below(MOST_IMAGE + 1);
    match wrong {
        false => FLASH_CELLS,
        true => random.pick(&[0, 1, 1_024, 65_472, 65_535, 65_537, 131_072, MOST_IMAGE, any]),
    }
}

/// The length of the lent output for a recipe that is refused for itself or for its image: as long
/// as the recipe, more, less, almost nothing, nothing.
fn room_for_refused(random: &mut Random, whole: usize, turn: usize) -> usize {
    let length = match turn % 3 {
        0 => whole + random.pick(&[0, 0, 1, 68, MOST_ROOM]),
        1 => random.below(whole.max(2)).min(random.pick(&[3, 200, MOST_ROOM])),
        _ => 0,
    };
    length.min(MOST_ROOM)
}

/// The length of the lent output for a recipe of which so many bytes are kept.
fn room(random: &mut Random, whole: usize, kept: usize) -> usize {
    let length = match random.below(100) {
        0..=29 => kept,
        30..=34 => kept + 1,
        35..=39 => kept + 1 + random.below(40),
        40..=49 => kept + random.below(whole - kept + 1),
        50..=54 => whole.saturating_sub(1),
        55..=64 => whole,
        65..=69 => whole + 1 + random.below(100),
        70 => MOST_ROOM,
        71..=84 => kept - 1,
        85..=87 => kept.saturating_sub(BLOCK + 4),
        88..=90 => random.below(4),
        91..=95 => 0,
        _ => random.below(kept),
    };
    length.min(MOST_ROOM)
}

/// How many bytes of a recipe are kept over an image; none where it is refused.
fn kept_bytes(recipe: &[u8], image: &[u8]) -> Option<usize> {
    let places = items(recipe).ok().filter(|_| image.len() == FLASH_CELLS)?;
    let stay = differences::kept(recipe, &places, image);
    Some(stay.iter().map(|&place| differences::item(recipe, place).len()).sum())
}

/// A trial of this recipe over a draft's image of so many cells; the output comes later.
fn trial(draft: Draft, recipe: Vec<u8>, cells: usize) -> DifferenceTrial {
    let Draft { fill, step, more, patches, .. } = draft;
    DifferenceTrial { recipe, cells, room: 0, fill, step, more, patches }
}

/// The draft of one of the recipes at the limits.
fn special_draft(random: &mut Random, index: usize) -> Draft {
    let three = ["ABA", "BAB", "BCB", "BCA", "AAB", "BBA"];
    let mut draft = match index {
        0 | 1 | 5 | 12 | 14 | 16 => largest(random, &three, 0),
        2 | 6 | 18 => largest(random, &["AAA"], 0),
        3 | 7 | 13 => largest(random, &["BCB", "BAB"], 0),
        4 => largest(random, &["BAC", "ABA"], 500),
        8 => of_letters(random, &[], Off::Any, MOST_ITEMS - 2),
        9..=11 => largest(random, &three, 1),
        17 => largest(random, &["AB", "BA", "AA", "AA"], 0),
        // Each legal block once: all of them are kept.
        _ => of_some(random, BLOCKS, &["B"], 0),
    };
    if index == 9 || index == 11 || index == 14 {
        // With Open 2,048 items; Leave is one too many.
        draft.items.push(block(FIRST_BLOCK, &[0x5A; BLOCK]));
    }
    if index == 18 {
        // The last Block of 2,046 alone is kept.
        let last = draft.items.last_mut().expect("an item");
        last[4 + random.below(BLOCK)] ^= 1 << random.below(8);
    }
    draft
}

/// One of the recipes at the limits, with its image and its output.
fn special(random: &mut Random, index: usize, numbers: [u8; 2]) -> DifferenceTrial {
    let draft = special_draft(random, index);
    let mut recipe = draft.recipe(numbers);
    match index {
        // Without Leave; and with something behind it.
        9 => drop(recipe.pop()),
        10 => recipe.push(LEAVE),
        _ => {}
    }
    let wrong = (12..=14).contains(&index);
    let cells = if wrong { random.pick(&[0, 65_535, 65_537, MOST_IMAGE]) } else { FLASH_CELLS };
    let mut trial = trial(draft, recipe, cells);
    let whole = trial.recipe.len();
    trial.room = match (kept_bytes(&trial.recipe, &trial.image()), index) {
        (Some(kept), 1 | 6 | 7) => kept - 1,
        (Some(_), 4) => whole,
        (Some(kept), 5) => (kept + whole) / 2,
        (Some(_), 16) | (None, 13) => 0,
        (Some(kept), _) => kept,
        (None, _) => MOST_ROOM,
    };
    trial
}

/// The recipe of this index, with its image and its output.
fn any_trial(random: &mut Random, index: usize, numbers: [u8; 2]) -> DifferenceTrial {
    if index < SPECIAL {
        return special(random, index, numbers);
    }
    if index % AGAIN == 0 {
        return special(random, index / AGAIN % SPECIAL, numbers);
    }
    let (kind, turn) = (index % KINDS, index / KINDS);
    let (draft, recipe, wrong) = if kind < 12 {
        let draft = good(random, kind, turn);
        let recipe = draft.recipe(numbers);
        let percent = if draft.items.is_empty() { 30 } else { 12 };
        (draft, recipe, random.chance(percent))
    } else {
        let items = at_fault(random, 20 + (kind - 12) as u8, numbers);
        (around(random, &items), items.concat(), turn % 2 == 1)
    };
    let cells = image_length(random, wrong);
    let mut trial = trial(draft, recipe, cells);
    trial.recipe.truncate(MOST_BYTES);
    let whole = trial.recipe.len();
    trial.room = match kept_bytes(&trial.recipe, &trial.image()) {
        Some(kept) => room(random, whole, kept),
        None if kind < 12 => {
            let way = random.below(3);
            room_for_refused(random, whole, way)
        }
        None => room_for_refused(random, whole, turn / 2),
    };
    trial
}

/// Writes a stream of so many recipes.
pub fn difference_recipes(seed: u64, count: usize, out: &mut impl Write) -> io::Result<()> {
    let mut random = Random::new(seed ^ 0xD1FF_E4E5);
    for index in 0..count {
        let any = random.bytes();
        let numbers = random.pick(&[[0x00, 0x00], [0xFF, 0xFF], [0x05, 0x0A], any, any]);
        any_trial(&mut random, index, numbers).write(out)?;
    }
    Ok(())
}
