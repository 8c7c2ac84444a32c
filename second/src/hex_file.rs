//! The command that reads a HEX file: the recipe, or why there is none.

use crate::hex::{self, MOST_RECIPE};
use std::io::{self, Read};

/// The longest text that is read.
pub const MOST_BYTES: usize = 1_048_576;

/// A module or group number, decimal or with 0x in front.
pub fn number(text: &str) -> Option<u8> {
    match text.strip_prefix("0x") {
        Some(digits) if digits.starts_with('+') => None,
        Some(digits) => u8::from_str_radix(digits, 16).ok(),
        None if text.starts_with('+') => None,
        None => text.parse().ok(),
    }
}

/// The recipe of a text, else the line that says why there is none: `long`, or the number and the
/// line in decimal.
pub fn recipe(text: &[u8], module: u8, group: u8) -> Result<Vec<u8>, String> {
    if text.len() > MOST_BYTES {
        return Err("long".to_string());
    }
    let refused = |refusal: hex::Refusal| format!("{} {}", refusal.number, refusal.line);
    hex::read(text, module, group, MOST_RECIPE).map_err(refused)
}

/// The text of a file, `-` for standard input: no more of it than is needed to tell that it is
/// long.
pub fn text(file: &str) -> io::Result<Vec<u8>> {
    let mut text = Vec::new();
    let most = MOST_BYTES as u64 + 1;
    if file == "-" {
        io::stdin().lock().take(most).read_to_end(&mut text)?;
    } else {
        std::fs::File::open(file)?.take(most).read_to_end(&mut text)?;
    }
    Ok(text)
}
