//! The rows of recipes that are made shorter: which of their Blocks stay and why, what their Rows
//! are, as recipe and image show.

use crate::difference_drafts::{FIRST_BLOCK, LAST_BLOCK, LETTERS};
use crate::differences::{block, item};
use crate::memory::{BLOCK, BOOTFL, FLASH_CELLS, MODULE, ROW};
use crate::recipe::{BLOCK_ITEM, MOST_ITEMS, ROW_ITEM};
use std::collections::{HashMap, HashSet};

/// What may be of a Block.
const OF_BLOCKS: [&str; 41] = [
    "dropped, the image has it, nothing earlier there",
    "dropped, the image has it, earlier Blocks there dropped too",
    "dropped, the image has it, changed and restored by earlier items",
    "dropped, the image lacks it, an earlier item left it",
    "dropped, a later Block there is kept",
    "kept, nothing earlier there",
    "kept, the image lacks it, an earlier Block there dropped",
    "kept, the image lacks it, an earlier Block there kept",
    "kept, the image has it, an earlier item changed it",
    "kept, an earlier item had it, another changed it",
    "kept, a later Block there is kept too",
    "kept, a later Block there is dropped",
    "kept, the first cell alone differs, by the image",
    "kept, the first cell alone differs, by an earlier item",
    "kept, the last cell alone differs, by the image",
    "kept, the last cell alone differs, by an earlier item",
    "kept, all cells differ",
    "kept, two cells exchanged",
    "kept, other cells of the same sum",
    "kept, bits are cleared alone",
    "kept, blank",
    "kept, over blank cells",
    "dropped, blank",
    "kept, its cells stand in the block before it",
    "kept, its cells stand in the block behind it",
    "kept, its cells stand in a block elsewhere",
    "dropped, the block before it kept for its last cell alone",
    "dropped, the block behind it kept for its first cell alone",
    "dropped, the blocks at both sides kept for their nearest cells alone",
    "dropped, named at neither side",
    "dropped, the first legal block",
    "dropped, the last legal block",
    "kept, the first legal block",
    "kept, the last legal block",
    "kept, the first legal block for its first cell alone",
    "kept, the last legal block for its last cell alone",
    "the next item is the next block, both kept",
    "the next item is the next block, both dropped",
    "the next item is the next block, the first alone kept",
    "the next item is the next block, the second alone kept",
    "the next item is the block before",
];
/// What may be of Rows, and of a recipe as a whole.
const OF_RECIPES: [&str; 43] = [
    "a Row again at once",
    "a Row again, others between",
    "a Row again, another Row of that place between",
    "a Row of the same place with other cells",
    "Rows of two places with the same cells",
    "a Row between two Blocks of one address",
    "a Row between Blocks, the one before it dropped",
    "a Row between Blocks, the one before it kept",
    "a Row at BOOTFL",
    "a Row at the own numbers",
    "a Row at the last place",
    "no items at all",
    "Rows alone, one",
    "Rows alone, several",
    "Rows alone, 2046",
    "Blocks alone",
    "Blocks and Rows",
    "one Block, kept",
    "one Block, dropped",
    "several Blocks, all kept",
    "several Blocks, none kept",
    "several Blocks, one kept",
    "several Blocks, one dropped",
    "several Blocks, the first alone kept",
    "several Blocks, the last alone kept",
    "2046 Blocks, all kept",
    "2046 Blocks, none kept",
    "2046 Blocks, one kept",
    "2046 Blocks, some kept",
    "2046 items, Blocks and Rows",
    "each legal block",
    "each legal block once, all kept",
    "no erases with Rows",
    "1 erase",
    "2 erases",
    "3 to 10 erases",
    "11 to 255 erases",
    "256 to 959 erases",
    "960 erases",
    "961 to 2045 erases",
    "2046 erases",
    "the image has some of the Blocks",
    "the image has none of the Blocks",
];

/// Every row of these.
pub fn wanted() -> Vec<String> {
    let mut rows: Vec<String> = OF_BLOCKS.iter().map(|row| row.to_string()).collect();
    rows.extend((0..BLOCK).map(|place| format!("kept, cell {place} alone differs")));
    rows.extend((0..8).map(|bit| format!("kept, bit {bit} of one cell alone differs")));
    rows.extend(LETTERS.map(|letters| format!("{letters} over A")));
    let several = LETTERS.iter().filter(|letters| letters.len() > 1);
    rows.extend(several.map(|letters| format!("{letters} over A, others between")));
    rows.extend(OF_RECIPES.iter().map(|row| row.to_string()));
    rows
}

/// A Block of a recipe, and what it finds.
struct Found<'a> {
    /// Which item it is, from 0 for Open.
    index: usize,
    first: usize,
    cells: &'a [u8],
    /// What stands there, as the earlier items leave the image.
    before: Vec<u8>,
    /// Whether the image has its cells.
    in_image: bool,
    /// The earlier Blocks at this address and whether they are kept.
    earlier: Vec<(&'a [u8], bool)>,
}

impl Found<'_> {
    /// Whether it stays.
    fn kept(&self) -> bool {
        self.before != self.cells
    }

    /// The places of the cells that differ.
    fn differing(&self) -> Vec<usize> {
        (0..BLOCK).filter(|&place| self.before[place] != self.cells[place]).collect()
    }

    /// Whether it stays for the cell of this place alone.
    fn kept_for(&self, place: usize) -> bool {
        self.differing() == [place]
    }
}

/// All Blocks of an accepted recipe, and what each finds.
fn blocks<'a>(recipe: &'a [u8], places: &[usize], image: &[u8]) -> Vec<Found<'a>> {
    let mut flash = image.to_vec();
    let mut earlier: HashMap<usize, Vec<(&[u8], bool)>> = HashMap::new();
    let mut all = Vec::new();
    for (index, &place) in places.iter().enumerate() {
        let Some((first, cells)) = block(item(recipe, place)) else { continue };
        let there = earlier.entry(first).or_default();
        let range = first..first + BLOCK;
        let found = Found {
            index,
            first,
            cells,
            before: flash[range.clone()].to_vec(),
            in_image: image[range.clone()] == *cells,
            earlier: there.clone(),
        };
        there.push((cells, found.kept()));
        flash[range].copy_from_slice(cells);
        all.push(found);
    }
    all
}

/// Why a Block stays or not.
fn why(found: &Found) -> &'static str {
    let earlier_kept = found.earlier.iter().any(|(_, kept)| *kept);
    let last_kept = found.earlier.last().is_some_and(|(_, kept)| *kept);
    match (found.kept(), found.in_image, found.earlier.is_empty()) {
        (false, true, true) => "dropped, the image has it, nothing earlier there",
        (false, true, false) if earlier_kept => {
            "dropped, the image has it, changed and restored by earlier items"
        }
        (false, true, false) => "dropped, the image has it, earlier Blocks there dropped too",
        (false, false, _) => "dropped, the image lacks it, an earlier item left it",
        (true, _, true) => "kept, nothing earlier there",
        (true, true, false) => "kept, the image has it, an earlier item changed it",
        (true, false, false) if last_kept => {
            "kept, the image lacks it, an earlier Block there kept"
        }
        (true, false, false) => "kept, the image lacks it, an earlier Block there dropped",
    }
}

/// The rows of a kept Block's cells beside those that stand there.
fn kept_rows(found: &Found, image: &[u8]) -> Vec<String> {
    let Found { first, cells, before, .. } = found;
    let differing = found.differing();
    let sum = |cells: &[u8]| cells.iter().map(|&cell| cell as usize).sum::<usize>();
    let exchanged = match differing[..] {
        [one, two] => cells[one] == before[two] && cells[two] == before[one],
        _ => false,
    };
    let by =
        if found.earlier.iter().any(|(_, kept)| *kept) { "an earlier item" } else { "the image" };
    let elsewhere = || {
        let mut all = image.chunks_exact(BLOCK).enumerate();
        all.any(|(at, there)| there == *cells && at.abs_diff(first / BLOCK) > 1)
    };
    let lacks = !found.in_image;
    let stands_at = |at: usize| image.get(at..at + BLOCK).is_some_and(|there| there == *cells);
    let mut rows = Vec::new();
    let mut told = |row: String, holds: bool| rows.extend(holds.then_some(row));
    if let [place] = differing[..] {
        told(format!("kept, cell {place} alone differs"), true);
        told(format!("kept, the first cell alone differs, by {by}"), place == 0);
        told(format!("kept, the last cell alone differs, by {by}"), place == BLOCK - 1);
        let bits = cells[place] ^ before[place];
        let bit = bits.trailing_zeros();
        told(format!("kept, bit {bit} of one cell alone differs"), bits.count_ones() == 1);
    }
    let had = found.earlier.iter().any(|(earlier, _)| earlier == cells);
    let all = [
        ("kept, an earlier item had it, another changed it", had),
        ("kept, all cells differ", differing.len() == BLOCK),
        ("kept, two cells exchanged", exchanged),
        ("kept, other cells of the same sum", sum(cells) == sum(before) && !exchanged),
        ("kept, bits are cleared alone", (0..BLOCK).all(|at| cells[at] & !before[at] == 0)),
        ("kept, blank", cells.iter().all(|&cell| cell == 0xFF)),
        ("kept, over blank cells", before.iter().all(|&cell| cell == 0xFF)),
        ("kept, its cells stand in the block before it", lacks && stands_at(first - BLOCK)),
        ("kept, its cells stand in the block behind it", lacks && stands_at(first + BLOCK)),
        ("kept, its cells stand in a block elsewhere", lacks && elsewhere()),
        ("kept, the first legal block", *first == FIRST_BLOCK),
        ("kept, the last legal block", *first == LAST_BLOCK),
        (
            "kept, the first legal block for its first cell alone",
            *first == FIRST_BLOCK && found.kept_for(0),
        ),
        (
            "kept, the last legal block for its last cell alone",
            *first == LAST_BLOCK && found.kept_for(BLOCK - 1),
        ),
    ];
    all.into_iter().for_each(|(row, holds)| told(row.to_string(), holds));
    rows
}

/// The rows of Blocks among each other: dropped ones, and neighbours.
fn neighbour_rows(all: &[Found]) -> Vec<String> {
    let named: HashSet<usize> = all.iter().map(|found| found.first).collect();
    let kept_for = |place: usize| -> HashSet<usize> {
        let kept = all.iter().filter(|found| found.kept_for(place));
        kept.map(|found| found.first).collect()
    };
    let (for_first, for_last) = (kept_for(0), kept_for(BLOCK - 1));
    let mut rows = Vec::new();
    for found in all.iter().filter(|found| !found.kept()) {
        let before = for_last.contains(&(found.first - BLOCK));
        let behind = for_first.contains(&(found.first + BLOCK));
        let at_side = [found.first - BLOCK, found.first + BLOCK].map(|at| named.contains(&at));
        let told = [
            ("dropped, the block before it kept for its last cell alone", before),
            ("dropped, the block behind it kept for its first cell alone", behind),
            (
                "dropped, the blocks at both sides kept for their nearest cells alone",
                before && behind,
            ),
            ("dropped, named at neither side", at_side == [false; 2]),
            ("dropped, blank", found.cells.iter().all(|&cell| cell == 0xFF)),
            ("dropped, the first legal block", found.first == FIRST_BLOCK),
            ("dropped, the last legal block", found.first == LAST_BLOCK),
        ];
        rows.extend(told.into_iter().filter(|(_, holds)| *holds).map(|(row, _)| row.to_string()));
    }
    for pair in all.windows(2).filter(|pair| pair[0].index + 1 == pair[1].index) {
        let upward = pair[0].first + BLOCK == pair[1].first;
        let which = match (pair[0].kept(), pair[1].kept()) {
            (true, true) => "both kept",
            (false, false) => "both dropped",
            (true, false) => "the first alone kept",
            (false, true) => "the second alone kept",
        };
        if upward {
            rows.push(format!("the next item is the next block, {which}"));
        }
        if pair[1].first + BLOCK == pair[0].first {
            rows.push("the next item is the block before".to_string());
        }
    }
    rows
}

/// The rows of the Blocks of one address: their letters, A for the image's cells, and whether a
/// later one stays.
fn address_rows(all: &[&Found], image: &[u8]) -> Vec<String> {
    let mut rows = Vec::new();
    let first = all[0].first;
    let mut named: Vec<&[u8]> = vec![&image[first..first + BLOCK]];
    let mut letters = String::new();
    for found in all {
        let at = named.iter().position(|cells| *cells == found.cells).unwrap_or_else(|| {
            named.push(found.cells);
            named.len() - 1
        });
        letters.push((b'A' + at.min(25) as u8) as char);
    }
    rows.push(format!("{letters} over A"));
    if all.windows(2).any(|pair| pair[0].index + 1 < pair[1].index) {
        rows.push(format!("{letters} over A, others between"));
    }
    for (index, found) in all.iter().enumerate() {
        let later = &all[index + 1..];
        let told = [
            (
                "dropped, a later Block there is kept",
                !found.kept() && later.iter().any(|found| found.kept()),
            ),
            (
                "kept, a later Block there is kept too",
                found.kept() && later.iter().any(|found| found.kept()),
            ),
            (
                "kept, a later Block there is dropped",
                found.kept() && later.iter().any(|found| !found.kept()),
            ),
        ];
        rows.extend(told.into_iter().filter(|(_, holds)| *holds).map(|(row, _)| row.to_string()));
    }
    rows
}

/// The rows of a recipe's Rows.
fn row_rows(items: &[&[u8]], all: &[Found]) -> Vec<String> {
    let mut rows = Vec::new();
    let mut told = |row: &str, holds: bool| rows.extend(holds.then(|| row.to_string()));
    let mut latest: HashMap<&[u8], &[u8]> = HashMap::new();
    let mut seen: HashSet<&[u8]> = HashSet::new();
    let mut places_of: HashMap<&[u8], &[u8]> = HashMap::new();
    let kept: HashMap<usize, bool> = all.iter().map(|found| (found.index, found.kept())).collect();
    for (index, item) in items.iter().enumerate().filter(|(_, item)| item[0] == ROW_ITEM) {
        let (head, cells) = item.split_at(4);
        let at_once = items[index - 1] == *item;
        let before = latest.insert(head, cells);
        let again = seen.contains(item) && !at_once;
        told("a Row again at once", at_once);
        told("a Row again, others between", again && before == Some(cells));
        told("a Row again, another Row of that place between", again && before != Some(cells));
        told(
            "a Row of the same place with other cells",
            before.is_some_and(|before| before != cells),
        );
        let place = places_of.insert(cells, head);
        told("Rows of two places with the same cells", place.is_some_and(|place| place != head));
        seen.insert(item);
        let (one, two) = (items[index - 1], items[index + 1]);
        if one[0] == BLOCK_ITEM && two[0] == BLOCK_ITEM {
            told("a Row between two Blocks of one address", one[..4] == two[..4]);
            told("a Row between Blocks, the one before it dropped", !kept[&(index - 1)]);
            told("a Row between Blocks, the one before it kept", kept[&(index - 1)]);
        }
        let place = head[2] as usize * 256 + head[3] as usize;
        told("a Row at BOOTFL", place == BOOTFL);
        told("a Row at the own numbers", place == MODULE / ROW * ROW);
        told("a Row at the last place", place == 0x3F8);
    }
    rows
}

/// The rows of a recipe as a whole.
fn recipe_rows(items: &[&[u8]], all: &[Found]) -> Vec<&'static str> {
    let between = items.len() - 2;
    let row_count = between - all.len();
    let kept: Vec<bool> = all.iter().map(Found::kept).collect();
    let erases = kept.iter().filter(|kept| **kept).count();
    let named: HashSet<usize> = all.iter().map(|found| found.first).collect();
    let (some, several) = (!all.is_empty(), all.len() > 1);
    let most = all.len() == MOST_ITEMS - 2;
    let every = named.len() == (FLASH_CELLS - FIRST_BLOCK) / BLOCK;
    let once = every && all.len() == named.len();
    let in_image = all.iter().filter(|found| found.in_image).count();
    let told = [
        ("no items at all", between == 0),
        ("Rows alone, one", between == 1 && row_count == 1),
        ("Rows alone, several", !some && row_count > 1),
        ("Rows alone, 2046", !some && row_count == MOST_ITEMS - 2),
        ("Blocks alone", some && row_count == 0),
        ("Blocks and Rows", some && row_count > 0),
        ("one Block, kept", kept == [true]),
        ("one Block, dropped", kept == [false]),
        ("several Blocks, all kept", several && erases == all.len()),
        ("several Blocks, none kept", several && erases == 0),
        ("several Blocks, one kept", several && erases == 1),
        ("several Blocks, one dropped", several && erases + 1 == all.len()),
        ("several Blocks, the first alone kept", several && erases == 1 && kept[0]),
        ("several Blocks, the last alone kept", several && erases == 1 && kept[all.len() - 1]),
        ("2046 Blocks, all kept", most && erases == all.len()),
        ("2046 Blocks, none kept", most && erases == 0),
        ("2046 Blocks, one kept", most && erases == 1),
        ("2046 Blocks, some kept", most && (1..all.len()).contains(&erases)),
        (
            "2046 items, Blocks and Rows",
            between == MOST_ITEMS - 2 && row_count > 0 && all.len() > 1_000,
        ),
        ("each legal block", every),
        ("each legal block once, all kept", once && erases == all.len()),
        ("no erases with Rows", some && erases == 0 && row_count > 0),
        ("1 erase", erases == 1),
        ("2 erases", erases == 2),
        ("3 to 10 erases", (3..=10).contains(&erases)),
        ("11 to 255 erases", (11..=255).contains(&erases)),
        ("256 to 959 erases", (256..=959).contains(&erases)),
        ("960 erases", erases == 960),
        ("961 to 2045 erases", (961..=2_045).contains(&erases)),
        ("2046 erases", erases == 2_046),
        ("the image has some of the Blocks", (1..all.len()).contains(&in_image)),
        ("the image has none of the Blocks", some && in_image == 0),
    ];
    told.into_iter().filter(|(_, holds)| *holds).map(|(row, _)| row).collect()
}

/// The rows of an accepted recipe over an image of 65,536 cells.
pub fn difference_rows(recipe: &[u8], places: &[usize], image: &[u8]) -> Vec<String> {
    let all = blocks(recipe, places, image);
    let items: Vec<&[u8]> = places.iter().map(|&place| item(recipe, place)).collect();
    let mut rows = Vec::new();
    let mut of_address: HashMap<usize, Vec<&Found>> = HashMap::new();
    for found in &all {
        rows.push(why(found).to_string());
        if found.kept() {
            rows.extend(kept_rows(found, image));
        }
        of_address.entry(found.first).or_default().push(found);
    }
    of_address.values().for_each(|found| rows.extend(address_rows(found, image)));
    rows.extend(neighbour_rows(&all));
    rows.extend(row_rows(&items, &all));
    rows.extend(recipe_rows(&items, &all).iter().map(|row| row.to_string()));
    rows
}
