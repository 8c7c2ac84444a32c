//! The command that makes a recipe file shorter over an image file: the recipe and its erase count,
//! or why there is none.

use crate::differences::{self, MOST_RECIPE};
use crate::memory::FLASH_CELLS;
use std::io::{self, Read};

/// The bytes of a file, `-` for standard input where that may be: no more of it than is needed to
/// tell that it is longer than this.
fn bytes(file: &str, most: usize, input: bool) -> io::Result<Vec<u8>> {
    let mut bytes = Vec::new();
    let most = most as u64 + 1;
    if input && file == "-" {
        io::stdin().lock().take(most).read_to_end(&mut bytes)?;
    } else {
        let named = |error: io::Error| io::Error::other(format!("{file}: {error}"));
        std::fs::File::open(file).map_err(named)?.take(most).read_to_end(&mut bytes)?;
    }
    Ok(bytes)
}

/// The bytes of a recipe file.
pub fn recipe(file: &str) -> io::Result<Vec<u8>> {
    bytes(file, MOST_RECIPE, true)
}

/// The cells of an image file.
pub fn image(file: &str) -> io::Result<Vec<u8>> {
    bytes(file, FLASH_CELLS, false)
}

/// The shorter recipe and its erase count, else the line that says why there is none: `long`, or
/// the number and the place in decimal.
pub fn shorter(recipe: &[u8], image: &[u8]) -> Result<(Vec<u8>, usize), String> {
    if recipe.len() > MOST_RECIPE {
        return Err("long".to_string());
    }
    let mut output = vec![0; MOST_RECIPE];
    match differences::write(recipe, image, &mut output) {
        Ok(told) => {
            output.truncate(told.length);
            Ok((output, told.erases))
        }
        Err(refusal) => Err(format!("{} {}", refusal.number, refusal.place)),
    }
}
