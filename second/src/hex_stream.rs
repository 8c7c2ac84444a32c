//! The stream of HEX files (PROTOCOL.md, "HEX files"): a header record, then the text.

use crate::event::RECORD;
use crate::recipe_stream::number;
use std::io::{self, Write};

const HEADER: u8 = 0x30;
/// The longest text and the longest lent output of a stream.
pub const MOST_TEXT: usize = 262_144;
pub const MOST_ROOM: usize = 70_000;

/// A text to be read, for which node, and the length of the lent output.
#[derive(Clone, PartialEq, Eq, Debug)]
pub struct HexTrial {
    pub module: u8,
    pub group: u8,
    pub room: usize,
    pub text: Vec<u8>,
}

impl HexTrial {
    /// Writes the header and the text, filled up with 0.
    pub fn write(&self, out: &mut impl Write) -> io::Result<()> {
        let mut bytes = vec![HEADER, self.module, self.group];
        bytes.extend((self.text.len() as u32).to_be_bytes());
        bytes.extend((self.room as u32).to_be_bytes());
        bytes.resize(RECORD, 0);
        bytes.extend(&self.text);
        bytes.resize(bytes.len().next_multiple_of(RECORD), 0);
        out.write_all(&bytes)
    }
}

/// All texts of a stream.
pub fn read(stream: &[u8]) -> Vec<HexTrial> {
    let mut trials = Vec::new();
    let mut rest = stream;
    while let Some((header, behind)) = rest.split_at_checked(RECORD) {
        rest = behind;
        if header[0] != HEADER {
            continue;
        }
        let length = number(&header[3..]).min(behind.len());
        trials.push(HexTrial {
            module: header[1],
            group: header[2],
            room: number(&header[7..]),
            text: behind[..length].to_vec(),
        });
        rest = &behind[length.next_multiple_of(RECORD).min(behind.len())..];
    }
    trials
}
