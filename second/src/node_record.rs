//! NODE of PROTOCOL.md: a node record as 31 bytes, and what a record has beyond them.

use crate::memory::{Address, Command};
use crate::node::{Mode, Node, Pin, Staged, Way, HELD, HELD_ROOM};

pub const NODE: usize = 31;
/// NODE, the count's number above its low byte, the fifteenth held byte and the way: what is
/// handed in.
pub const HANDED: usize = NODE + 4 + 1 + 1;
/// Where things lie in the 31 bytes.
pub const HELD_COUNT_AT: usize = 9;
pub const HELD_AT: usize = 10;
pub const MODE_AT: usize = 24;
pub const STAGED_AT: usize = 25;
pub const ADDRESS_KIND_AT: usize = 26;
pub const ADDRESS_AT: usize = 27;
pub const COUNT_ABOVE_AT: usize = NODE;
pub const FIFTEENTH_AT: usize = NODE + 4;
pub const WAY_AT: usize = NODE + 5;

/// A tidied node record as bytes.
pub fn write(node: &Node) -> [u8; NODE] {
    let mut bytes = [0; NODE];
    bytes[0] = (node.pin == Pin::CanAndUart) as u8;
    bytes[1..7].copy_from_slice(&node.fixed);
    bytes[7] = node.module;
    bytes[8] = node.group;
    bytes[HELD_COUNT_AT] = node.held_count as u8;
    bytes[HELD_AT..MODE_AT].copy_from_slice(&node.held[..HELD]);
    bytes[MODE_AT] = match node.mode {
        Mode::Normal { started: false } => 0,
        Mode::Normal { started: true } => 1,
        Mode::Programming(_) => 2,
        Mode::Error => 3,
        Mode::Waiting => 4,
    };
    if let Mode::Programming(Some(Staged { command, address })) = node.mode {
        bytes[STAGED_AT] = command.code();
        bytes[ADDRESS_KIND_AT] = matches!(address, Address::Eeprom(_)) as u8;
        bytes[ADDRESS_AT..].copy_from_slice(&address.raw().to_be_bytes());
    }
    bytes
}

/// A tidied node record as an answer ends with it: NODE and the fifteenth held byte, and the way
/// where answers tell it.
pub fn write_whole(node: &Node, tells_way: bool) -> Vec<u8> {
    let mut bytes = write(node).to_vec();
    bytes.push(node.held[HELD]);
    if tells_way {
        bytes.push(way_byte(node.way));
    }
    bytes
}

/// The byte of a way.
pub fn way_byte(way: Way) -> u8 {
    match way {
        Way::New => 1,
        Way::Old => 2,
    }
}

/// The way that a byte says; where it says nothing, the one that is meant.
pub fn way(byte: u8, meant: Way) -> Way {
    match byte {
        0 => meant,
        1 => Way::New,
        _ => Way::Old,
    }
}

/// What is staged by its number, the kind of its address and the address.
pub fn staged(number: u8, kind: u8, raw: u32) -> Option<Staged> {
    Command::of(number as u32).map(|command| Staged {
        command,
        address: if kind == 0 || command == Command::Erase {
            Address::Flash(raw)
        } else {
            Address::Eeprom(raw)
        },
    })
}

/// Four bytes as a number, high byte first.
fn number(bytes: &[u8]) -> u32 {
    bytes[..4].iter().fold(0, |number, &byte| number << 8 | byte as u32)
}

/// The node record of any bytes, untidied, with the way that is meant where they say nothing of it.
pub fn read(bytes: &[u8; HANDED], meant: Way) -> Node {
    let staged = staged(bytes[STAGED_AT], bytes[ADDRESS_KIND_AT], number(&bytes[ADDRESS_AT..]));
    let mut held = [0; HELD_ROOM];
    held[..HELD].copy_from_slice(&bytes[HELD_AT..MODE_AT]);
    held[HELD] = bytes[FIFTEENTH_AT];
    Node {
        pin: if bytes[0] == 0 { Pin::CanOnly } else { Pin::CanAndUart },
        fixed: std::array::from_fn(|i| bytes[1 + i]),
        module: bytes[7],
        group: bytes[8],
        held_count: (number(&bytes[COUNT_ABOVE_AT..]) as u64) << 8 | bytes[HELD_COUNT_AT] as u64,
        held,
        mode: match bytes[MODE_AT] {
            0 => Mode::Normal { started: false },
            1 => Mode::Normal { started: true },
            2 => Mode::Programming(staged),
            3 => Mode::Error,
            _ => Mode::Waiting,
        },
        way: way(bytes[WAY_AT], meant),
    }
}
