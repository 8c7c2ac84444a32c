//! Request A6: its sentences and points 80 to 82 with small recipes made by hand, the stream, and
//! what is counted of it.

use crate::difference_coverage::difference_coverage;
use crate::difference_file;
use crate::difference_files::pairs;
use crate::difference_looks::{wrong_recipe, wrong_refusal};
use crate::difference_recipes::difference_recipes;
use crate::difference_rows::difference_rows;
use crate::difference_stream::{self, DifferenceTrial, Patch};
use crate::differences::{write, Shorter, MOST_RECIPE};
use crate::digest::Digest;
use crate::memory::FLASH_CELLS;
use crate::recipe::{items, translate, Refusal};
use crate::samples::bytes;
use crate::write_differences::write_differences;

const A: u8 = 0xA1;
const B: u8 = 0xB2;
const C: u8 = 0xC3;

/// A Block with 64 equal cells.
fn block(first: u32, cell: u8) -> Vec<u8> {
    let [_, high, middle, low] = first.to_be_bytes();
    [&[0x02, high, middle, low], &[cell; 64][..]].concat()
}

/// A Row with eight equal cells.
fn row(place: u8, cell: u8) -> Vec<u8> {
    [&[0x03, 0xF0, 0x00, place], &[cell; 8][..]].concat()
}

/// Open for node 05, 0A, these items, Leave.
fn recipe(items: &[Vec<u8>]) -> Vec<u8> {
    [&[0x01, 0x05, 0x0A], &items.concat()[..], &[0x0F]].concat()
}

/// An image whose blocks at these addresses have 64 equal cells, and 0x11 elsewhere.
fn image(blocks: &[(usize, u8)]) -> Vec<u8> {
    let mut image = vec![0x11; FLASH_CELLS];
    blocks.iter().for_each(|&(first, cell)| image[first..first + 64].fill(cell));
    image
}

/// What is made of a recipe over an image, with room for any, and its erase count; the second look
/// must find nothing wrong.
fn made(recipe: &[u8], image: &[u8]) -> (Vec<u8>, usize) {
    let mut output = vec![0xEE; MOST_RECIPE + 3];
    let told = write(recipe, image, &mut output).expect("no refusal");
    assert!(output[told.length..].iter().all(|&byte| byte == 0xEE));
    output.truncate(told.length);
    assert_eq!(wrong_recipe(recipe, image, &output, told), None);
    (output, told.erases)
}

/// That of these items those of these indexes are kept, so many of them Blocks.
fn keeps(items: &[Vec<u8>], image: &[u8], kept: &[usize], erases: usize) {
    let stay: Vec<Vec<u8>> = kept.iter().map(|&index| items[index].clone()).collect();
    assert_eq!(made(&recipe(items), image), (recipe(&stay), erases), "{kept:?}");
}

/// That a recipe is refused so, with this output, which stays as it is.
fn refused(recipe: &[u8], image: &[u8], room: usize, number: u8, place: usize) {
    let mut output: Vec<u8> = (0..room).map(|index| index as u8).collect();
    let before = output.clone();
    let refusal = Refusal { number, place };
    assert_eq!(write(recipe, image, &mut output), Err(refusal), "{recipe:02X?}");
    assert_eq!(output, before);
    assert_eq!(wrong_refusal(recipe, image, room, refusal), None);
}

/// "without each Block whose 64 bytes already stand there": dropped where it stands, kept where
/// another value stands.
#[test]
fn one_block() {
    let over_a = image(&[(0x2000, A)]);
    keeps(&[block(0x2000, A)], &over_a, &[], 0);
    keeps(&[block(0x2000, B)], &over_a, &[0], 1);
    keeps(&[block(0x2040, A)], &over_a, &[0], 1);
    keeps(&[], &over_a, &[], 0);
    assert_eq!(made(&recipe(&[block(0x2000, A)]), &over_a), (bytes("01 05 0A 0F"), 0));
}

/// "as the earlier items leave them" (point 80): A, B, A over A keeps B and the last A; B, A over A
/// keeps both; an earlier item may also leave what the image lacks.
#[test]
fn earlier_items() {
    let over_a = image(&[(0x2000, A)]);
    let [a, b, c] = [A, B, C].map(|cell| block(0x2000, cell));
    let of = |items: &[&Vec<u8>]| items.iter().map(|item| item.to_vec()).collect::<Vec<_>>();
    keeps(&of(&[&a, &b, &a]), &over_a, &[1, 2], 2);
    keeps(&of(&[&b, &a]), &over_a, &[0, 1], 2);
    keeps(&of(&[&a, &b, &a, &b]), &over_a, &[1, 2, 3], 3);
    keeps(&of(&[&a, &a]), &over_a, &[], 0);
    keeps(&of(&[&b, &b]), &over_a, &[0], 1);
    keeps(&of(&[&b, &c, &b]), &over_a, &[0, 1, 2], 3);
    keeps(&of(&[&b, &a, &a]), &over_a, &[0, 1], 2);
    let elsewhere = block(0x2040, B);
    keeps(&of(&[&b, &elsewhere, &b, &elsewhere]), &over_a, &[0, 1], 2);
    keeps(&of(&[&a, &elsewhere, &a]), &over_a, &[1], 1);
}

/// All standing: no erases. None standing: the whole recipe. So with 2,046 Blocks, too.
#[test]
fn all_and_none() {
    let places = [0x1000, 0x2000, 0x2040, 0xFFC0];
    let blocks: Vec<Vec<u8>> = places.iter().map(|&first| block(first, A)).collect();
    let standing = image(&places.map(|first| (first as usize, A)));
    keeps(&blocks, &standing, &[], 0);
    keeps(&blocks, &image(&[]), &[0, 1, 2, 3], 4);
    let most: Vec<Vec<u8>> =
        (0..2_046).map(|index| block(0x1000 + 64 * (index % 960), A)).collect();
    assert_eq!(recipe(&most).len(), MOST_RECIPE);
    assert_eq!(made(&recipe(&most), &vec![A; FLASH_CELLS]), (bytes("01 05 0A 0F"), 0));
    // Over others each address is kept once.
    assert_eq!(made(&recipe(&most), &image(&[])), (recipe(&most[..960]), 960));
    // By turns, all are kept.
    let turns: Vec<Vec<u8>> = (0..2_046).map(|index| block(0x1000, [A, B][index % 2])).collect();
    assert_eq!(made(&recipe(&turns), &image(&[])), (recipe(&turns), 2_046));
}

/// One cell of 64 is enough, each of them; the cells just before and just behind don't matter.
#[test]
fn off_by_one() {
    for first in [0x1000, 0x2000, 0xFFC0] {
        let items = [block(first, A)];
        let first = first as usize;
        for cell in 0..64 {
            let mut off = image(&[(first, A)]);
            off[first + cell] ^= 1 << (cell % 8);
            keeps(&items, &off, &[0], 1);
        }
        for cell in [first - 1, first - 64, (first + 64) % FLASH_CELLS] {
            let mut off = image(&[(first, A)]);
            off[cell] = !off[cell];
            keeps(&items, &off, &[], 0);
        }
    }
    // A neighbour kept for its nearest cell alone, at either side.
    let items = [block(0x2000, A), block(0x2040, A), block(0x2080, A)];
    let mut off = image(&[(0x2000, A), (0x2040, A), (0x2080, A)]);
    off[0x203F] = B;
    off[0x2080] = B;
    keeps(&items, &off, &[0, 2], 2);
}

/// "the chip only clears bits", but a Block that only clears bits, or has the same sum, is kept.
#[test]
fn cells_decide() {
    keeps(&[block(0x2000, 0x01)], &image(&[(0x2000, 0xFF)]), &[0], 1);
    keeps(&[block(0x2000, 0xFF)], &image(&[(0x2000, 0x01)]), &[0], 1);
    keeps(&[block(0x2000, 0xFF)], &image(&[(0x2000, 0xFF)]), &[], 0);
    let mut exchanged = image(&[(0x2000, A)]);
    exchanged[0x2000..0x2002].copy_from_slice(&[A - 1, A + 1]);
    keeps(&[block(0x2000, A)], &exchanged, &[0], 1);
}

/// "Rows all stay" (point 82): alone, equal ones, and between Blocks, which they don't change.
#[test]
fn rows_stay() {
    let over_a = image(&[(0x2000, A)]);
    let (one, other) = (row(0x30, A), row(0x30, B));
    keeps(&[one.clone(), one.clone(), other.clone(), one.clone()], &over_a, &[0, 1, 2, 3], 0);
    let (a, b) = (block(0x2000, A), block(0x2000, B));
    let items = [one.clone(), a.clone(), one.clone(), b, other, a.clone(), a, row(0x00, 0xFF)];
    keeps(&items, &over_a, &[0, 2, 3, 4, 5, 7], 2);
}

/// The recipes of each fault, and where they are refused.
fn faults() -> Vec<(Vec<u8>, u8, usize)> {
    let whole = recipe(&[block(0x2000, A), block(0x2040, B)]);
    let end = whole.len() - 1;
    let with = |tail: &[u8]| [&whole[..end], tail].concat();
    let many = recipe(&vec![row(0x30, A); 2_047]);
    vec![
        (vec![], 20, 0),
        (with(&[]), 20, end),
        (with(&[0x04, 0x0F]), 21, end),
        (with(&[0x02, 0x00, 0x20]), 22, end),
        (with(&[0x0F, 0x0F]), 23, end + 1),
        (with(&[0x01, 0x05, 0x0A, 0x0F]), 23, end),
        (with(&[&block(0x0FC0, A)[..], &[0x0F]].concat()), 24, end),
        (with(&[&block(0x2020, A)[..], &[0x0F]].concat()), 24, end),
        (many.clone(), 25, many.len() - 1),
    ]
}

/// "A FLASH image of another length than 65,536 is refused .. checked after the recipe's own faults
/// and before 26": the faults are the translator's, whatever the image and the output.
#[test]
fn order_of_refusals() {
    let right = image(&[(0x2000, A)]);
    let images = [vec![], right[1..].to_vec(), [&right[..], &[0x11]].concat(), vec![0xFF; 131_136]];
    for (recipe, number, place) in faults() {
        assert_eq!(translate(&recipe, &mut []), Err(Refusal { number, place }));
        for room in [0, 3, recipe.len(), MOST_RECIPE] {
            refused(&recipe, &right, room, number, place);
            images.iter().for_each(|image| refused(&recipe, image, room, number, place));
        }
    }
    let good = recipe(&[block(0x2000, A), row(0x30, A)]);
    for image in &images {
        for room in [0, 15, 16, good.len(), MOST_RECIPE] {
            refused(&good, image, room, 36, 0);
        }
        refused(&bytes("01 05 0A 0F"), image, 3, 36, 0);
    }
}

/// 26 goes by the kept recipe (point 81): exactly enough will do, one byte less won't; the bytes
/// behind it stay.
#[test]
fn outputs() {
    let over_a = image(&[(0x2000, A)]);
    let whole = recipe(&[block(0x2000, A), row(0x30, A), block(0x2040, B), block(0x2040, B)]);
    let shorter = recipe(&[row(0x30, A), block(0x2040, B)]);
    for room in [0, 1, 4, 16, shorter.len() - 1] {
        refused(&whole, &over_a, room, 26, 0);
    }
    for more in [0, 1, 67, 68, 136, 200] {
        let mut output = vec![0xEE; shorter.len() + more];
        let told = Shorter { erases: 1, length: shorter.len() };
        assert_eq!(write(&whole, &over_a, &mut output), Ok(told));
        assert!(output.starts_with(&shorter));
        assert!(output[shorter.len()..].iter().all(|&byte| byte == 0xEE));
    }
    refused(&bytes("01 05 0A 0F"), &over_a, 3, 26, 0);
}

/// What the second look finds: a Block too few or too many, a Row dropped, other cells, a made-up
/// count or length.
#[test]
fn wrong_recipes() {
    let over_a = image(&[(0x2000, A)]);
    let items = [block(0x2000, A), row(0x30, A), block(0x2000, B), block(0x2000, A), row(0x30, A)];
    let whole = recipe(&items);
    let wrong = |kept: &[usize], erases: usize| {
        let stay: Vec<Vec<u8>> = kept.iter().map(|&index| items[index].clone()).collect();
        let shorter = recipe(&stay);
        let told = Shorter { erases, length: shorter.len() };
        wrong_recipe(&whole, &over_a, &shorter, told).is_some()
    };
    assert!(!wrong(&[1, 2, 3, 4], 2));
    assert!(wrong(&[1, 2, 4], 1) && wrong(&[1, 4], 0) && wrong(&[1, 2, 3], 2));
    assert!(wrong(&[0, 1, 2, 3, 4], 3) && wrong(&[2, 1, 3, 4], 2));
    assert!(wrong(&[1, 2, 3, 4], 1) && wrong(&[1, 2, 3, 4], 3));
    let shorter = recipe(&items[1..]);
    let told = Shorter { erases: 2, length: whole.len() };
    assert!(wrong_recipe(&whole, &over_a, &shorter, told).is_some());
    let told = Shorter { erases: 2, length: shorter.len() };
    assert!(wrong_recipe(&whole, &over_a[1..], &shorter, told).is_some());
    let refusal = |room, number, place| {
        wrong_refusal(&whole, &over_a, room, Refusal { number, place }).is_some()
    };
    assert!(!refusal(shorter.len() - 1, 26, 0) && refusal(shorter.len(), 26, 0));
    assert!(refusal(0, 36, 0) && refusal(0, 26, 1) && refusal(0, 20, whole.len()));
}

/// The stream: a header of 64 bytes, the recipe, filled up with 0, the patches; a line for each
/// recipe.
#[test]
fn stream() {
    let patch = |place, cells: &[u8]| Patch { place, cells: cells.to_vec() };
    let whole = recipe(&[block(0x2000, A)]);
    let one = DifferenceTrial {
        recipe: whole.clone(),
        cells: FLASH_CELLS,
        room: 4,
        fill: 0x11,
        step: 0x03,
        more: 0x05,
        patches: vec![
            patch(0x2000, &[A; 58]),
            patch(0x203A, &[A; 6]),
            patch(0xFFFF, &[1, 2]),
            patch(0xFFFF_FFFF, &[1]),
        ],
    };
    let two = DifferenceTrial { patches: one.patches[..1].to_vec(), room: 0, ..one.clone() };
    let three = DifferenceTrial { cells: 65_537, patches: vec![], ..one.clone() };
    let four = DifferenceTrial { recipe: vec![], room: 0, ..three.clone() };
    let trials = [one, two, three, four];
    let mut stream = vec![0x30; 64];
    trials.iter().for_each(|trial| trial.write(&mut stream).unwrap());
    assert_eq!(stream.len(), 64 * (1 + 7 + 4 + 3 + 1));
    let header = bytes("40 00 00 00 48 00 01 00 00 00 00 00 04 11 03 05 00 04");
    assert_eq!(stream[64..82], header[..]);
    assert!(stream[82..128].iter().all(|&byte| byte == 0));
    assert_eq!(stream[128..200], whole[..]);
    assert_eq!(stream[256..263], bytes("41 00 00 20 00 3A A1")[..]);
    assert_eq!(stream[384..393], bytes("41 00 00 FF FF 02 01 02 00")[..]);
    assert_eq!(difference_stream::read(&stream), trials);
    let image = trials[0].image();
    assert_eq!((image.len(), image[0], image[1], image[255]), (65_536, 0x11, 0x14, 0x0E));
    // The cell at a multiple of 256 has `more` too: 0x0E + 0x03 + 0x05.
    assert_eq!((image[256], image[0x2000], image[0x203F]), (0x16, A, A));
    assert_eq!(image[0xFFFF], trials[1].image()[0xFFFF]);
    let mut printed = Vec::new();
    assert_eq!(write_differences(&stream, &mut printed).unwrap(), None);
    let untouched = Digest::of(&[0xEE; 4]);
    // The digest of 01 05 0A 0F: ((2 * 31 + 6) * 31 + 11) * 31 + 16.
    let expected = format!(
        "differences 1 number 0 value 4 erases 0 output 65705
differences 2 number 26 value 0 erases 0 output 0
differences 3 number 36 value 0 erases 0 output {untouched}
differences 4 number 20 value 0 erases 0 output 0\n"
    );
    assert_eq!(String::from_utf8(printed).unwrap(), expected);
}

/// The same seed gives the same recipes, about which the second look finds nothing wrong, and every
/// number is among the answers.
#[test]
fn recipes() {
    let (mut one, mut two, mut other) = (Vec::new(), Vec::new(), Vec::new());
    difference_recipes(7, 120, &mut one).unwrap();
    difference_recipes(7, 120, &mut two).unwrap();
    difference_recipes(8, 120, &mut other).unwrap();
    assert!(one == two && one != other);
    let mut printed = Vec::new();
    assert_eq!(write_differences(&one, &mut printed).unwrap(), None);
    let printed = String::from_utf8(printed).unwrap();
    assert_eq!(printed.lines().count(), 120);
    for number in [0, 20, 21, 22, 23, 24, 25, 26, 36] {
        assert!(printed.contains(&format!(" number {number} ")), "{number}");
    }
}

/// Rows are told from recipe and image, and nothing is reached by nothing.
#[test]
fn rows_told() {
    let told = |items_of: &[Vec<u8>], image: &[u8], row: &str| {
        let recipe = recipe(items_of);
        let rows = difference_rows(&recipe, &items(&recipe).unwrap(), image);
        assert!(rows.contains(&row.to_string()), "{row}: {rows:?}");
    };
    let over_a = image(&[(0x2000, A)]);
    let [a, b, c] = [A, B, C].map(|cell| block(0x2000, cell));
    let aba = [a.clone(), b.clone(), a.clone()];
    told(&aba, &over_a, "ABA over A");
    told(&aba, &over_a, "kept, the image has it, an earlier item changed it");
    told(&aba, &over_a, "dropped, the image has it, nothing earlier there");
    told(&[b.clone(), row(0x30, A), c, b.clone()], &over_a, "BCB over A, others between");
    told(&[b.clone(), b.clone()], &over_a, "dropped, the image lacks it, an earlier item left it");
    told(&[b, row(0x30, A), a.clone()], &over_a, "a Row between two Blocks of one address");
    told(&[row(0, A), row(0, A)], &over_a, "a Row again at once");
    told(
        &[row(0, A), row(0, B), row(0, A)],
        &over_a,
        "a Row again, another Row of that place between",
    );
    let mut off = over_a.clone();
    off[0x203F] ^= 0x80;
    told(&[a.clone()], &off, "kept, the last cell alone differs, by the image");
    told(&[a.clone()], &off, "kept, bit 7 of one cell alone differs");
    let behind = block(0x2040, 0x11);
    told(&[a, behind], &off, "dropped, the block before it kept for its last cell alone");
    let mut table = Vec::new();
    let missing = difference_coverage(&[], &mut table).unwrap();
    assert_eq!(missing.len() + 1, String::from_utf8(table).unwrap().lines().count());
    let mut different = missing.clone();
    different.sort();
    different.dedup();
    assert_eq!(different.len(), missing.len());
}

/// The command's line of a refusal, its longest recipe, and what its files at the limits give.
#[test]
fn command() {
    let pairs = pairs(1, 40).unwrap();
    assert_eq!(pairs.len(), 40);
    let told = |index: usize| {
        let (recipe, image) = &pairs[index];
        let shorter = difference_file::shorter(recipe, image);
        shorter.map(|(shorter, erases)| (shorter.len(), erases))
    };
    let refused = |line: &str| Err(line.to_string());
    assert_eq!((told(0), told(1)), (refused("20 0"), Ok((4, 0))));
    assert_eq!([2, 3, 4].map(|index| pairs[index].0.len()), [139_132; 3]);
    assert_eq!((told(3), told(4)), (Ok((4, 0)), Ok((139_132, 2_046))));
    let (length, erases) = told(2).unwrap();
    assert!(erases > 0 && erases < 2_046 && length == 4 + 68 * erases);
    assert_eq!((pairs[5].0.len(), told(5)), (139_133, refused("long")));
    assert_eq!((told(6), told(7)), (refused("21 0"), refused("long")));
    assert_eq!([8, 9, 10].map(told), [0; 3].map(|_| refused("36 0")));
    assert_eq!((told(11), told(12)), (Ok((28, 0)), Ok((28 + 6 * 68, 6))));
    for number in 20..=25 {
        let at = 13 + 2 * (number - 20);
        assert!(told(at).unwrap_err().starts_with(&format!("{number} ")));
        assert_eq!(told(at), told(at + 1));
    }
}
