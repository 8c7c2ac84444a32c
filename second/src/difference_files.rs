//! Makes recipe files and image files for the command that makes one shorter over the other: those
//! at its limits, then good and damaged ones.

use crate::difference_drafts::*;
use crate::difference_recipes::{at_fault, difference_recipes, largest};
use crate::difference_stream::read;
use crate::memory::{BLOCK, FLASH_CELLS};
use crate::random::Random;
use crate::recipe::{LEAVE, OPEN};
use std::io;
use std::path::Path;

const NUMBERS: [u8; 2] = [0x05, 0x0A];

/// A recipe file and an image file.
type Pair = (Vec<u8>, Vec<u8>);

/// A recipe with Blocks of these letters, and its image.
fn of_letters(random: &mut Random, letters: &[&str]) -> Pair {
    let draft = Draft::new(random);
    let mut items = rows(random, 2);
    for (index, letters) in letters.iter().enumerate() {
        items.extend(draft.blocks(random, FIRST_BLOCK + BLOCK * index, letters, Off::Any));
    }
    let recipe = [&[OPEN, NUMBERS[0], NUMBERS[1]], &items.concat()[..], &[LEAVE]].concat();
    (recipe, draft.image)
}

/// The pairs at the limits: no bytes, no items, as many bytes as there may be and one more; images
/// of other lengths; all Blocks standing, and none; then each fault of a recipe with an image of
/// 65,536 cells and of none.
fn limits(random: &mut Random) -> Vec<Pair> {
    let blank = vec![0xFF; FLASH_CELLS];
    let mut pairs = vec![(vec![], blank.clone()), (vec![OPEN, 0xFF, 0xFF, LEAVE], blank.clone())];
    for letters in ["ABA", "AAA", "BCB"] {
        let draft = largest(random, &[letters], 0);
        pairs.push((draft.recipe(NUMBERS), draft.image));
    }
    let (most, image) = pairs[2].clone();
    pairs.push(([&most[..], &[LEAVE]].concat(), image.clone()));
    pairs.push((vec![0x00; most.len()], image.clone()));
    pairs.push((vec![0x00; most.len() + 1], vec![]));
    for cells in [0, 65_535, 65_537] {
        let (recipe, mut image) = of_letters(random, &["A", "B", "BA"]);
        image.resize(cells, 0xFF);
        pairs.push((recipe, image));
    }
    pairs.push(of_letters(random, &["A", "AA", "A"]));
    pairs.push(of_letters(random, &["B", "BC", "BCB"]));
    for number in 20..=25 {
        let recipe = loop {
            let recipe = at_fault(random, number, NUMBERS).concat();
            if crate::recipe::items(&recipe).is_err_and(|refusal| refusal.number == number) {
                break recipe;
            }
        };
        pairs.push((recipe.clone(), blank.clone()));
        pairs.push((recipe, vec![]));
    }
    pairs
}

/// The first so many pairs: those at the limits, then the recipes of a stream and their images.
pub fn pairs(seed: u64, count: usize) -> io::Result<Vec<Pair>> {
    let mut pairs = limits(&mut Random::new(seed ^ 0xD1FF_F11E));
    let mut stream = Vec::new();
    difference_recipes(seed, count, &mut stream)?;
    pairs.extend(read(&stream).into_iter().rev().map(|trial| {
        let image = trial.image();
        (trial.recipe, image)
    }));
    pairs.truncate(count);
    Ok(pairs)
}

/// Writes so many pairs into the folder, from 0001.recipe and 0001.image on.
pub fn difference_files(seed: u64, count: usize, folder: &str) -> io::Result<()> {
    for (index, (recipe, image)) in pairs(seed, count)?.iter().enumerate() {
        let file = |kind: &str| Path::new(folder).join(format!("{:04}.{kind}", index + 1));
        std::fs::write(file("recipe"), recipe)?;
        std::fs::write(file("image"), image)?;
    }
    Ok(())
}
