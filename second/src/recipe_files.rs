//! Makes recipe files for the small program: those at its limits, then legal and damaged ones.

use crate::apply_file::MOST_BYTES;
use crate::random::Random;
use crate::recipe::{BLOCK_ITEM, LEAVE, OPEN, ROW_ITEM};
use crate::recipe_stream::read;
use crate::recipes::recipes;
use std::io;
use std::path::Path;

/// The blank node's own numbers.
const OWN: u8 = 0xFF;

/// Open for the blank node, then so many Blocks and Rows, then Leave.
fn legal(random: &mut Random, blocks: usize, rows: usize) -> Vec<u8> {
    let mut recipe = vec![OPEN, OWN, OWN];
    for _ in 0..blocks {
        let [_, high, middle, low] = (0x001000 + 64 * random.below(960) as u32).to_be_bytes();
        recipe.extend([BLOCK_ITEM, high, middle, low]);
        recipe.extend(random.bytes::<64>());
    }
    for _ in 0..rows {
        let [_, high, middle, low] = (0xF00000 + 8 * random.below(128) as u32).to_be_bytes();
        recipe.extend([ROW_ITEM, high, middle, low]);
        recipe.extend(random.bytes::<8>());
    }
    recipe.push(LEAVE);
    recipe
}

/// The files at the limits. The first has as many frames as 4,096 bytes can have: 1,083.
fn limits(random: &mut Random) -> Vec<Vec<u8>> {
    let most = legal(random, 60, 1);
    let rows = legal(random, 0, 341);
    let behind = |byte: u8| [&most[..], &[byte]].concat();
    let without_leave = most[..most.len() - 1].to_vec();
    let mut others = most.clone();
    others[2] = 0x0A;
    vec![
        most.clone(),
        behind(LEAVE),
        without_leave,
        others,
        rows,
        legal(random, 0, 0),
        vec![],
        vec![LEAVE],
        vec![0x00; MOST_BYTES],
        vec![0x00; MOST_BYTES + 1],
    ]
}

/// Writes so many files into the folder: those at the limits, then the recipes of a stream, two of
/// three for the blank node's own numbers.
pub fn recipe_files(seed: u64, count: usize, folder: &str) -> io::Result<()> {
    let mut files = limits(&mut Random::new(seed));
    let mut stream = Vec::new();
    recipes(seed, count, &mut stream)?;
    for (index, trial) in read(&stream).into_iter().enumerate() {
        let mut recipe = trial.recipe;
        if index % 3 > 0 && recipe.len() >= 3 && recipe[0] == OPEN {
            recipe[1..3].fill(OWN);
        }
        files.push(recipe);
    }
    files.truncate(count);
    for (index, file) in files.iter().enumerate() {
        std::fs::write(Path::new(folder).join(format!("{index:04}.recipe")), file)?;
    }
    Ok(())
}

#[cfg(test)]
mod tests {
    use super::*;
    use crate::apply_file::printed;

    /// The first file is as long as one may be, and has 1,083 frames, each answered with 0.
    #[test]
    fn most_frames() {
        let files = limits(&mut Random::new(1));
        assert_eq!(files[0].len(), MOST_BYTES);
        assert_eq!(printed(&files[0]).lines().filter(|line| line.starts_with('0')).count(), 1_083);
        assert_eq!(printed(&files[1]), "long\n");
    }
}
