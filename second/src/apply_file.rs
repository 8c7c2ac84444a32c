//! Document 01's small program: "applies a recipe file of at most 4,096 bytes to a blank node and
//! prints each answer".

use crate::frames::FRAME;
use crate::memory::{Lent, EEPROM_CELLS, FLASH_CELLS};
use crate::node::{Node, Pin, Way};
use crate::recipe::translate;
use std::fmt::Write;

/// The longest recipe file that is applied.
pub const MOST_BYTES: usize = 4_096;
/// "at most 36,829 frames".
const MOST_FRAMES: usize = 36_829;

/// The line of a frame: "the number, then the reply as upper-case hex pairs, blanks between".
fn line(number: u8, replies: &[Vec<u8>]) -> String {
    let mut line = number.to_string();
    for byte in replies.iter().flatten() {
        write!(line, " {byte:02X}").expect("a string takes all");
    }
    line.push('\n');
    line
}

/// What is printed of a recipe: "a line a frame", a refusal's "number and place in decimal", or
/// `long`.
pub fn printed(recipe: &[u8]) -> String {
    if recipe.len() > MOST_BYTES {
        return "long\n".to_string();
    }
    let mut output = vec![0; FRAME * MOST_FRAMES];
    let count = match translate(recipe, &mut output) {
        Ok(count) => count,
        Err(refusal) => return format!("{} {}\n", refusal.number, refusal.place),
    };
    let (mut flash, mut eeprom) = (vec![0xFF; FLASH_CELLS], vec![0xFF; EEPROM_CELLS]);
    let mut lent = Lent { flash: &mut flash, eeprom: &mut eeprom };
    let mut node = Node::fresh([0; 6]);
    node.restart(&lent, Pin::CanOnly, true, Way::default());
    let mut text = String::new();
    for frame in output[..FRAME * count].chunks_exact(FRAME) {
        let outcome = node.can_frame(&mut lent, frame);
        text += &line(outcome.number, &outcome.replies);
    }
    text
}

#[cfg(test)]
mod tests {
    use super::*;

    /// "`01 FF FF 0F` prints the one line `0`"; other numbers, refusals, the longest file.
    #[test]
    fn lines() {
        assert_eq!(printed(&[0x01, 0xFF, 0xFF, 0x0F]), "0\n");
        assert_eq!(printed(&[0x01, 0x05, 0x0A, 0x0F]), "7\n");
        assert_eq!(printed(&[]), "20 0\n");
        assert_eq!(printed(&[0x00; MOST_BYTES]), "21 0\n");
        assert_eq!(printed(&[0x00; MOST_BYTES + 1]), "long\n");
        let row = [0x01, 0xFF, 0xFF, 0x03, 0xF0, 0, 0x30, 0xA1, 2, 3, 4, 5, 6, 7, 8, 0x0F];
        let frames =
            "0 03 01 FF FF F0 00 30 FF FF 02 FF FF\n0 04 01 FF FF A1 02 03 04 05 06 07 08\n0\n";
        assert_eq!(printed(&row), frames);
    }
}
