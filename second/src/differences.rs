//! Request A6, "Erase only what differs": a recipe made shorter over an image that equals the
//! node's FLASH.

use crate::memory::{BLOCK, FLASH_CELLS};
use crate::recipe::{body_length, items, Refusal, BLOCK_ITEM, MOST_ITEMS};

/// A FLASH image of another length than 65,536, with place 0: after the recipe's own faults and
/// before 26.
pub const IMAGE_LENGTH: u8 = 36;
/// Output shorter than the kept recipe; it comes last, with place 0.
pub const SHORT_OUTPUT: u8 = 26;
/// The length of a Block, its kind and address too.
pub const BLOCK_BYTES: usize = 4 + BLOCK;
/// The longest recipe: Open, 2,046 Blocks, Leave.
pub const MOST_RECIPE: usize = 3 + (MOST_ITEMS - 2) * BLOCK_BYTES + 1;

/// What is reported of a shorter recipe.
#[derive(Clone, Copy, PartialEq, Eq, Debug)]
pub struct Shorter {
    /// "the number of blocks kept by that rule".
    pub erases: usize,
    /// Its length in bytes.
    pub length: usize,
}

/// The item of an accepted recipe that starts at this byte.
pub fn item(recipe: &[u8], place: usize) -> &[u8] {
    let length = body_length(recipe[place]).expect("a known kind");
    &recipe[place..=place + length]
}

/// The first cell of a Block, and its 64 bytes; none for another item.
pub fn block(item: &[u8]) -> Option<(usize, &[u8])> {
    let first = || (item[1] as usize) << 16 | (item[2] as usize) << 8 | item[3] as usize;
    (item[0] == BLOCK_ITEM).then(|| (first(), &item[4..]))
}

/// The starting bytes of the items that stay: all but "each Block whose 64 bytes already stand
/// there as the earlier items leave them". The image has 65,536 cells.
pub fn kept(recipe: &[u8], places: &[usize], image: &[u8]) -> Vec<usize> {
    let mut flash = image.to_vec();
    let mut stay = Vec::new();
    for &place in places {
        let Some((first, bytes)) = block(item(recipe, place)) else {
            stay.push(place);
            continue;
        };
        let cells = &mut flash[first..first + BLOCK];
        if cells != bytes {
            cells.copy_from_slice(bytes);
            stay.push(place);
        }
    }
    stay
}

/// Writes the shorter recipe into the output, and leaves the bytes behind it; gives what is
/// reported, or the refusal, which touches no output.
pub fn write(recipe: &[u8], image: &[u8], output: &mut [u8]) -> Result<Shorter, Refusal> {
    let places = items(recipe)?;
    if image.len() != FLASH_CELLS {
        return Err(Refusal { number: IMAGE_LENGTH, place: 0 });
    }
    let stay = kept(recipe, &places, image);
    let bytes: Vec<u8> = stay.iter().flat_map(|&place| item(recipe, place)).copied().collect();
    let erases = stay.iter().filter(|&&place| recipe[place] == BLOCK_ITEM).count();
    match output.get_mut(..bytes.len()) {
        None => Err(Refusal { number: SHORT_OUTPUT, place: 0 }),
        Some(room) => {
            room.copy_from_slice(&bytes);
            Ok(Shorter { erases, length: bytes.len() })
        }
    }
}
