//! The stream of differences (PROTOCOL.md, "Differences"): a header record, the recipe's bytes, the
//! image's patches.

use crate::event::RECORD;
use crate::recipe_stream::number;
use crate::session::fill;
use std::io::{self, Write};

const HEADER: u8 = 0x40;
const PATCH: u8 = 0x41;
/// The longest recipe, the longest image and the longest lent output of a stream.
pub const MOST_BYTES: usize = 139_264;
pub const MOST_IMAGE: usize = 131_136;
pub const MOST_ROOM: usize = 139_264;
/// How many cells a patch has at most.
pub const MOST_PATCHED: usize = RECORD - 6;

/// Cells of an image that are not as it was filled.
#[derive(Clone, PartialEq, Eq, Debug)]
pub struct Patch {
    pub place: usize,
    pub cells: Vec<u8>,
}

/// A recipe to be made shorter, over which image, and the length of the lent output.
#[derive(Clone, PartialEq, Eq, Debug)]
pub struct DifferenceTrial {
    pub recipe: Vec<u8>,
    /// The length of the image.
    pub cells: usize,
    pub room: usize,
    /// How the image is filled.
    pub fill: u8,
    pub step: u8,
    pub more: u8,
    pub patches: Vec<Patch>,
}

impl Patch {
    /// Puts the cells into an image; where one of them would lie behind its end, none.
    pub fn put(&self, image: &mut [u8]) {
        let behind = self.place.saturating_add(self.cells.len());
        if let Some(cells) = image.get_mut(self.place..behind) {
            cells.copy_from_slice(&self.cells);
        }
    }

    /// The patch's record.
    fn write(&self) -> Vec<u8> {
        let mut bytes = vec![PATCH];
        bytes.extend((self.place as u32).to_be_bytes());
        bytes.push(self.cells.len() as u8);
        bytes.extend(&self.cells);
        bytes.resize(RECORD, 0);
        bytes
    }

    /// The patch of a record.
    fn read(record: &[u8]) -> Patch {
        let count = (record[5] as usize).min(MOST_PATCHED);
        Patch { place: number(&record[1..]), cells: record[6..6 + count].to_vec() }
    }
}

impl DifferenceTrial {
    /// The image: filled, then each patch put in order.
    pub fn image(&self) -> Vec<u8> {
        let mut image = vec![0; self.cells];
        fill(&mut image, self.fill, self.step, self.more);
        self.patches.iter().for_each(|patch| patch.put(&mut image));
        image
    }

    /// Writes the header, the recipe, filled up with 0, and the patches.
    pub fn write(&self, out: &mut impl Write) -> io::Result<()> {
        let mut bytes = vec![HEADER];
        for length in [self.recipe.len(), self.cells, self.room] {
            bytes.extend((length as u32).to_be_bytes());
        }
        bytes.extend([self.fill, self.step, self.more]);
        bytes.extend((self.patches.len() as u16).to_be_bytes());
        bytes.resize(RECORD, 0);
        bytes.extend(&self.recipe);
        bytes.resize(bytes.len().next_multiple_of(RECORD), 0);
        self.patches.iter().for_each(|patch| bytes.extend(patch.write()));
        out.write_all(&bytes)
    }
}

/// All recipes of a stream.
pub fn read(stream: &[u8]) -> Vec<DifferenceTrial> {
    let mut trials = Vec::new();
    let mut rest = stream;
    while let Some((header, behind)) = rest.split_at_checked(RECORD) {
        rest = behind;
        if header[0] != HEADER {
            continue;
        }
        let length = number(&header[1..]).min(behind.len());
        rest = &behind[length.next_multiple_of(RECORD).min(behind.len())..];
        let patches =
            rest.len().min(RECORD * u16::from_be_bytes([header[16], header[17]]) as usize);
        trials.push(DifferenceTrial {
            recipe: behind[..length].to_vec(),
            cells: number(&header[5..]),
            room: number(&header[9..]),
            fill: header[13],
            step: header[14],
            more: header[15],
            patches: rest[..patches].chunks_exact(RECORD).map(Patch::read).collect(),
        });
        rest = &rest[patches..];
    }
    trials
}
