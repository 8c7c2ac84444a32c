//! Counts what the recipes of a stream come to over their images, as recipe and image show.

use crate::difference_rows::{self, difference_rows};
use crate::difference_stream::{read, DifferenceTrial, Patch, MOST_ROOM};
use crate::differences::{self, block, item, BLOCK_BYTES, MOST_RECIPE};
use crate::memory::{BLOCK, FLASH_CELLS};
use crate::recipe::{items, BLOCK_ITEM, LEAVE, MOST_ITEMS};
use crate::row_counts;
use std::io::{self, Write};

/// The images and the outputs with which a recipe's own faults come.
const IMAGES: [&str; 2] = ["image right", "image wrong"];
const OUTPUTS: [&str; 3] = ["output as long as the recipe", "output shorter", "no output"];
/// Rows of refusals that the number, the image and the output don't tell.
const REFUSED: [&str; 35] = [
    "20 of an empty recipe, image right",
    "20 of an empty recipe, image wrong",
    "20 behind 2048 items",
    "25 for Leave behind 2047 Blocks and Rows",
    "25 of 2049 items, image wrong",
    "36 of an image of 0 cells",
    "36 of an image of one cell",
    "36 of an image of 65535 cells",
    "36 of an image of 65537 cells",
    "36 of an image of 131072 cells",
    "36 of an image of 131136 cells",
    "36 of a shorter image",
    "36 of a longer image",
    "36, output as long as the recipe",
    "36, output shorter than the recipe",
    "36, output too short for any kept recipe",
    "36, output one byte short for Open and Leave",
    "36, no output",
    "36, no items at all",
    "36, Rows alone",
    "36, all Blocks stand in the first 65536 cells",
    "36, 2046 Blocks, output as long as the recipe",
    "36, 2046 Blocks, no output",
    "26 one byte short, all kept",
    "26 one byte short, some kept",
    "26 one byte short, none kept",
    "26 one byte short, no items at all",
    "26 one byte short, Rows alone",
    "26 one byte short of 139132 bytes",
    "26 a Block short",
    "26 one to three bytes of output",
    "26 no output",
    "26 no output, 2046 items",
    "26 no output, none kept",
    "26 output longer than the recipe without its Blocks",
];
/// Rows of images and outputs where a shorter recipe is made.
const MADE: [&str; 22] = [
    "made, output exactly as long as the kept recipe, some dropped",
    "made, output exactly as long as the kept recipe, none dropped",
    "made, output exactly as long as the kept recipe, none kept",
    "made, output longer than the kept recipe, one byte short for the whole",
    "made, output longer than the kept recipe, shorter than the whole",
    "made, output one byte longer than the kept recipe",
    "made, output as long as the whole recipe, some dropped",
    "made, output longer than the whole recipe, some dropped",
    "made, output longer than the whole recipe, none dropped",
    "made, output of 139264 bytes",
    "made, 2046 Blocks, output as long as the kept recipe, some dropped",
    "made, 139132 bytes",
    "made, 4 bytes of 139132",
    "made, image filled with one value",
    "made, image with a pattern",
    "made, image of 0xFF with patches",
    "made, image without patches",
    "made, a patch over another",
    "made, a patch over the image's end",
    "made, a patch far behind the image's end",
    "made, a patch over the border of a block that stands",
    "made, a patch of one cell",
];

/// Every row that a stream ought to reach.
fn wanted() -> Vec<String> {
    let mut rows = Vec::new();
    for number in 20..=25 {
        for image in IMAGES {
            rows.extend(OUTPUTS.map(|output| format!("{number}, {image}, {output}")));
        }
        rows.push(format!("{number} behind a Block that stands"));
        rows.push(format!("{number} behind a Block that doesn't stand"));
    }
    rows.extend(REFUSED.iter().chain(&MADE).map(|row| row.to_string()));
    rows.extend(difference_rows::wanted());
    rows
}

/// The rows of this list that hold.
fn holding(told: &[(&str, bool)]) -> Vec<String> {
    told.iter().filter(|(_, holds)| *holds).map(|(row, _)| row.to_string()).collect()
}

/// How many bytes of an accepted recipe Open, Rows and Leave are.
fn without_blocks(recipe: &[u8], places: &[usize]) -> usize {
    let others = places.iter().filter(|&&place| recipe[place] != BLOCK_ITEM);
    others.map(|&place| item(recipe, place).len()).sum()
}

/// The starting bytes of the items before a fault, which have none.
fn before(recipe: &[u8], fault: usize) -> Vec<usize> {
    let mut places = Vec::new();
    let mut place = 0;
    while place < fault {
        places.push(place);
        place += item(recipe, place).len();
    }
    places
}

/// The rows of a recipe's own fault.
fn fault_rows(trial: &DifferenceTrial, image: &[u8], number: u8, fault: usize) -> Vec<String> {
    let DifferenceTrial { recipe, room, .. } = trial;
    let right = image.len() == FLASH_CELLS;
    let output = match *room {
        0 => 2,
        room if room < recipe.len() => 1,
        _ => 0,
    };
    let mut rows = vec![format!("{number}, {}, {}", IMAGES[!right as usize], OUTPUTS[output])];
    let places = before(recipe, fault);
    let is_block = |place: &&usize| recipe[**place] == BLOCK_ITEM;
    let blocks = places.iter().filter(is_block).count();
    if right {
        let stay = differences::kept(recipe, &places, image);
        let kept = stay.iter().filter(is_block).count();
        rows.extend((kept < blocks).then(|| format!("{number} behind a Block that stands")));
        rows.extend((kept > 0).then(|| format!("{number} behind a Block that doesn't stand")));
    }
    let too_many = number == 25 && recipe[fault..] == [LEAVE];
    rows.extend(holding(&[
        ("20 of an empty recipe, image right", recipe.is_empty() && right),
        ("20 of an empty recipe, image wrong", recipe.is_empty() && !right),
        ("20 behind 2048 items", number == 20 && places.len() == MOST_ITEMS),
        ("25 for Leave behind 2047 Blocks and Rows", too_many && blocks > 0),
        ("25 of 2049 items, image wrong", too_many && !right),
    ]));
    rows
}

/// The rows of an image of another length than 65,536.
fn image_rows(trial: &DifferenceTrial, image: &[u8], places: &[usize]) -> Vec<String> {
    let DifferenceTrial { recipe, room, .. } = trial;
    let (whole, least) = (recipe.len(), without_blocks(recipe, places));
    let blocks = (whole - least) / BLOCK_BYTES;
    let stand = image.get(..FLASH_CELLS).is_some_and(|cells| {
        blocks > 0 && places.len() - differences::kept(recipe, places, cells).len() == blocks
    });
    let most = blocks == MOST_ITEMS - 2;
    let cells = image.len();
    holding(&[
        ("36 of an image of 0 cells", cells == 0),
        ("36 of an image of one cell", cells == 1),
        ("36 of an image of 65535 cells", cells == 65_535),
        ("36 of an image of 65537 cells", cells == 65_537),
        ("36 of an image of 131072 cells", cells == 131_072),
        ("36 of an image of 131136 cells", cells == 131_136),
        ("36 of a shorter image", cells < FLASH_CELLS),
        ("36 of a longer image", cells > FLASH_CELLS),
        ("36, output as long as the recipe", *room >= whole),
        ("36, output shorter than the recipe", (least..whole).contains(room)),
        ("36, output too short for any kept recipe", *room < least),
        ("36, output one byte short for Open and Leave", *room == 3),
        ("36, no output", *room == 0),
        ("36, no items at all", whole == 4),
        ("36, Rows alone", whole == least && whole > 4),
        ("36, all Blocks stand in the first 65536 cells", stand),
        ("36, 2046 Blocks, output as long as the recipe", most && *room >= whole),
        ("36, 2046 Blocks, no output", most && *room == 0),
    ])
}

/// The rows of an output that is too short for the kept recipe of so many bytes.
fn output_rows(trial: &DifferenceTrial, places: &[usize], kept: usize) -> Vec<String> {
    let DifferenceTrial { recipe, room, .. } = trial;
    let (whole, least) = (recipe.len(), without_blocks(recipe, places));
    let one_short = room + 1 == kept;
    let some = whole > least;
    holding(&[
        ("26 one byte short, all kept", one_short && some && kept == whole),
        ("26 one byte short, some kept", one_short && least < kept && kept < whole),
        ("26 one byte short, none kept", one_short && some && kept == least),
        ("26 one byte short, no items at all", one_short && whole == 4),
        ("26 one byte short, Rows alone", one_short && !some && whole > 4),
        ("26 one byte short of 139132 bytes", one_short && kept == MOST_RECIPE),
        ("26 a Block short", room + BLOCK_BYTES == kept),
        ("26 one to three bytes of output", (1..4).contains(room)),
        ("26 no output", *room == 0),
        ("26 no output, 2046 items", *room == 0 && places.len() == MOST_ITEMS),
        ("26 no output, none kept", *room == 0 && some && kept == least),
        ("26 output longer than the recipe without its Blocks", *room > least),
    ])
}

/// The rows of the output of a shorter recipe of so many bytes.
fn room_rows(trial: &DifferenceTrial, places: &[usize], kept: usize) -> Vec<String> {
    let DifferenceTrial { recipe, room, .. } = trial;
    let (whole, least) = (recipe.len(), without_blocks(recipe, places));
    let blocks = (whole - least) / BLOCK_BYTES;
    let (dropped, none_kept) = (kept < whole, kept == least && kept < whole);
    let exactly = *room == kept;
    let between = kept < *room && *room < whole;
    holding(&[
        ("made, output exactly as long as the kept recipe, some dropped", exactly && dropped),
        ("made, output exactly as long as the kept recipe, none dropped", exactly && !dropped),
        ("made, output exactly as long as the kept recipe, none kept", exactly && none_kept),
        (
            "made, output longer than the kept recipe, one byte short for the whole",
            between && room + 1 == whole,
        ),
        ("made, output longer than the kept recipe, shorter than the whole", between),
        ("made, output one byte longer than the kept recipe", *room == kept + 1),
        ("made, output as long as the whole recipe, some dropped", dropped && *room == whole),
        ("made, output longer than the whole recipe, some dropped", dropped && *room > whole),
        ("made, output longer than the whole recipe, none dropped", !dropped && *room > whole),
        ("made, output of 139264 bytes", *room == MOST_ROOM),
        (
            "made, 2046 Blocks, output as long as the kept recipe, some dropped",
            blocks == MOST_ITEMS - 2 && exactly && dropped && !none_kept,
        ),
        ("made, 139132 bytes", kept == MOST_RECIPE),
        ("made, 4 bytes of 139132", kept == 4 && whole == MOST_RECIPE),
    ])
}

/// The rows of how the image of a shorter recipe came to be.
fn patch_rows(trial: &DifferenceTrial, image: &[u8], places: &[usize]) -> Vec<String> {
    let DifferenceTrial { recipe, patches, .. } = trial;
    let behind = |patch: &Patch| patch.place + patch.cells.len();
    let inside = |patch: &&Patch| behind(patch) <= FLASH_CELLS && !patch.cells.is_empty();
    let put: Vec<&Patch> = patches.iter().filter(inside).collect();
    let mut from: Vec<(usize, usize)> =
        put.iter().map(|patch| (patch.place, behind(patch))).collect();
    from.sort();
    let stay = differences::kept(recipe, places, image);
    let dropped = places.iter().filter(|place| !stay.contains(place));
    let firsts: Vec<usize> =
        dropped.filter_map(|&place| block(item(recipe, place))).map(|(first, _)| first).collect();
    let over = |patch: &&Patch, border: usize| patch.place < border && border < behind(patch);
    let over_border = firsts
        .iter()
        .any(|&first| put.iter().any(|patch| over(patch, first) || over(patch, first + BLOCK)));
    let pattern = trial.step != 0 || trial.more != 0;
    holding(&[
        ("made, image filled with one value", !pattern),
        ("made, image with a pattern", pattern),
        ("made, image of 0xFF with patches", !pattern && trial.fill == 0xFF && !put.is_empty()),
        ("made, image without patches", patches.is_empty()),
        ("made, a patch over another", from.windows(2).any(|pair| pair[1].0 < pair[0].1)),
        (
            "made, a patch over the image's end",
            patches.iter().any(|patch| patch.place < FLASH_CELLS && behind(patch) > FLASH_CELLS),
        ),
        (
            "made, a patch far behind the image's end",
            patches.iter().any(|patch| patch.place > 0x00FF_FFFF),
        ),
        ("made, a patch over the border of a block that stands", over_border),
        ("made, a patch of one cell", put.iter().any(|patch| patch.cells.len() == 1)),
    ])
}

/// The rows of a recipe.
fn rows(trial: &DifferenceTrial) -> Vec<String> {
    let image = trial.image();
    let recipe = &trial.recipe;
    let places = match items(recipe) {
        Ok(places) => places,
        Err(refusal) => return fault_rows(trial, &image, refusal.number, refusal.place),
    };
    if image.len() != FLASH_CELLS {
        return image_rows(trial, &image, &places);
    }
    let stay = differences::kept(recipe, &places, &image);
    let kept = stay.iter().map(|&place| item(recipe, place).len()).sum();
    if trial.room < kept {
        return output_rows(trial, &places, kept);
    }
    let mut rows = room_rows(trial, &places, kept);
    rows.extend(patch_rows(trial, &image, &places));
    rows.extend(difference_rows(recipe, &places, &image));
    rows
}

/// Prints the table of counts; gives the rows that were never reached.
pub fn difference_coverage(stream: &[u8], out: &mut impl Write) -> io::Result<Vec<String>> {
    let trials = read(stream);
    row_counts::tell(trials.len(), "recipes", trials.iter().flat_map(rows), wanted(), out)
}
