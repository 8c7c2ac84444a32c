//! The recipe stream (PROTOCOL.md, "Recipes"): a header record, then the recipe's bytes.

use crate::event::RECORD;
use crate::memory::Address;
use crate::node::{Mode, Node, Pin, Staged, Way, HELD};
use crate::node_record;
use std::io::{self, Write};

const HEADER: u8 = 0x20;
const MEANT: u8 = 0x21;

/// A recipe to be applied, and how.
#[derive(Clone, PartialEq, Eq, Debug)]
pub struct Trial {
    pub uart: bool,
    pub flash: u8,
    pub eeprom: u8,
    pub module: u8,
    pub group: u8,
    /// The steps of the memories' pattern.
    pub step: u8,
    pub more: u8,
    /// What the record begins with.
    pub begin: Begin,
    /// The length of a piece on UART, 0 for byte by byte.
    pub piece: u16,
    /// The way of the restart as a byte, and what is meant where that says nothing.
    pub way_byte: u8,
    pub meant: Way,
    /// The length of the lent frame output.
    pub output: usize,
    pub recipe: Vec<u8>,
}

/// What a delivery finds in the node's record: the pin, what is staged, and held bytes.
#[derive(Clone, PartialEq, Eq, Debug)]
pub struct Begin {
    pub can_and_uart: bool,
    pub staged: Option<Staged>,
    pub held_count: u8,
    pub held: [u8; HELD],
}

impl Begin {
    /// The pin of the restart.
    pub fn pin(&self) -> Pin {
        if self.can_and_uart {
            Pin::CanAndUart
        } else {
            Pin::CanOnly
        }
    }

    /// Puts the rest into a restarted record, untidied.
    pub fn put(&self, node: &mut Node) {
        node.mode = Mode::Programming(self.staged);
        node.held_count = self.held_count as u64;
        node.held[..HELD].copy_from_slice(&self.held);
    }

    /// The header's bytes from b16 on.
    fn write(&self) -> Vec<u8> {
        let mut bytes = vec![self.can_and_uart as u8];
        match self.staged {
            None => bytes.extend([0; 6]),
            Some(Staged { command, address }) => {
                bytes.extend([command.code(), matches!(address, Address::Eeprom(_)) as u8]);
                bytes.extend(address.raw().to_be_bytes());
            }
        }
        bytes.push(self.held_count);
        bytes.extend(self.held);
        bytes
    }

    /// What stands in a header from b16 on.
    fn read(bytes: &[u8]) -> Begin {
        Begin {
            can_and_uart: bytes[0] != 0,
            staged: node_record::staged(bytes[1], bytes[2], number(&bytes[3..]) as u32),
            held_count: bytes[7],
            held: std::array::from_fn(|i| bytes[8 + i]),
        }
    }
}

/// A number of four bytes, high byte first.
pub fn number(bytes: &[u8]) -> usize {
    bytes[..4].iter().fold(0, |number, &byte| number << 8 | byte as usize)
}

/// Writes the record that says which way is meant from there on.
pub fn write_meant(way: Way, out: &mut impl Write) -> io::Result<()> {
    let mut record = [0; RECORD];
    record[..2].copy_from_slice(&[MEANT, node_record::way_byte(way)]);
    out.write_all(&record)
}

impl Trial {
    /// The way of the restart.
    pub fn way(&self) -> Way {
        node_record::way(self.way_byte, self.meant)
    }

    /// Writes the header and the recipe, filled up with 0.
    pub fn write(&self, out: &mut impl Write) -> io::Result<()> {
        let mut bytes =
            vec![HEADER, self.uart as u8, self.flash, self.eeprom, self.module, self.group];
        bytes.extend((self.recipe.len() as u32).to_be_bytes());
        bytes.extend((self.output as u32).to_be_bytes());
        bytes.extend([self.step, self.more]);
        bytes.extend(self.begin.write());
        bytes.extend(self.piece.to_be_bytes());
        bytes.push(self.way_byte);
        bytes.resize(RECORD, 0);
        bytes.extend(&self.recipe);
        bytes.resize(bytes.len().next_multiple_of(RECORD), 0);
        out.write_all(&bytes)
    }
}

/// All trials of a recipe stream.
pub fn read(stream: &[u8]) -> Vec<Trial> {
    let mut trials = Vec::new();
    let mut meant = Way::default();
    let mut rest = stream;
    while let Some((header, behind)) = rest.split_at_checked(RECORD) {
        rest = behind;
        if header[0] == MEANT {
            meant = node_record::way(header[1], Way::default());
        }
        if header[0] != HEADER {
            continue;
        }
        let length = number(&header[6..]).min(behind.len());
        trials.push(Trial {
            uart: header[1] != 0,
            flash: header[2],
            eeprom: header[3],
            module: header[4],
            group: header[5],
            step: header[14],
            more: header[15],
            begin: Begin::read(&header[16..]),
            piece: u16::from_be_bytes([header[38], header[39]]),
            way_byte: header[40],
            meant,
            output: number(&header[10..]),
            recipe: behind[..length].to_vec(),
        });
        rest = &behind[length.next_multiple_of(RECORD).min(behind.len())..];
    }
    trials
}
