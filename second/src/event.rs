//! The events of a session stream (PROTOCOL.md), read from records and written to them.

use crate::node_record::HANDED;

pub const RECORD: usize = 64;
/// The longest input or lent output of a conversion.
pub const LONGEST: usize = 20;
/// The longest CAN frame, how many of its bytes a record has, and what stands behind them.
pub const LONGEST_CAN: usize = 1_024;
pub const CAN_IN_RECORD: usize = RECORD - 3;
pub const CAN_BEHIND: u8 = 0x55;
/// The kind of UART pieces, the most bytes in the ring, the most calls, and where both begin.
pub const PIECES: u8 = 0x11;
pub const LONGEST_RING: usize = 44;
pub const MOST_CALLS: usize = 16;
const LENGTHS_AT: usize = 3;
const RING_AT: usize = LENGTHS_AT + MOST_CALLS;

pub type Record = [u8; RECORD];

/// An event; that of UART pieces has what the ring holds, and the length of each call's piece.
#[derive(Clone, PartialEq, Eq, Debug)]
pub enum Event {
    Restart { pin: u8, self_test: u8, way: u8 },
    CanFrame(Vec<u8>),
    UartByte(u8),
    Show(u32),
    HandIn([u8; HANDED]),
    Lend { flash: u32, eeprom: u32 },
    Poke { address: u32, value: u8 },
    Begin { flash: u8, eeprom: u8, fixed: [u8; 6], full: u16, step: u8, more: u8, tells_way: u8 },
    End,
    IdentifierToFrame { identifier: u32, data: Vec<u8>, output: usize },
    FrameToIdentifier { frame: Vec<u8>, output: usize },
    Wrap { input: Vec<u8>, output: usize },
    Unwrap { input: Vec<u8>, output: usize },
    AddressRule { address: u32, command: u32 },
    UartPieces { ring: Vec<u8>, lengths: Vec<u8> },
    Meant(u8),
}

/// A number of four bytes, high byte first.
fn number(bytes: &[u8]) -> u32 {
    bytes[..4].iter().fold(0, |number, &byte| number << 8 | byte as u32)
}

/// A length, where more than the longest counts as the longest.
fn length(byte: u8) -> usize {
    (byte as usize).min(LONGEST)
}

impl Event {
    /// The event of a record, none where its kind is another.
    pub fn read(record: &Record) -> Option<Event> {
        let b = record;
        let from = |at: usize, count: u8| b[at..at + length(count)].to_vec();
        Some(match b[0] {
            0x01 => Event::Restart { pin: b[1], self_test: b[2], way: b[3] },
            0x02 => {
                let length = u16::from_be_bytes([b[1], b[2]]) as usize;
                let mut bytes = b[3..].to_vec();
                bytes.resize(LONGEST_CAN, CAN_BEHIND);
                bytes.truncate(length);
                Event::CanFrame(bytes)
            }
            0x03 => Event::UartByte(b[1]),
            0x04 => Event::Show(number(&b[1..])),
            0x05 => Event::HandIn(std::array::from_fn(|i| b[1 + i])),
            0x06 => Event::Lend { flash: number(&b[1..]), eeprom: number(&b[5..]) },
            0x07 => Event::Poke { address: number(&b[1..]), value: b[5] },
            0x08 => Event::Begin {
                flash: b[1],
                eeprom: b[2],
                fixed: std::array::from_fn(|i| b[3 + i]),
                full: u16::from_be_bytes([b[9], b[10]]),
                step: b[11],
                more: b[12],
                tells_way: b[13],
            },
            0x09 => Event::End,
            0x0A => Event::IdentifierToFrame {
                identifier: number(&b[1..]),
                data: from(7, b[5]),
                output: length(b[6]),
            },
            0x0B => Event::FrameToIdentifier { frame: from(3, b[1]), output: length(b[2]) },
            0x0C => Event::Wrap { input: from(3, b[1]), output: length(b[2]) },
            0x0D => Event::Unwrap { input: from(3, b[1]), output: length(b[2]) },
            0x0E => Event::AddressRule { address: number(&b[1..]), command: number(&b[5..]) },
            PIECES => {
                let ring = b[RING_AT..][..LONGEST_RING.min(b[1] as usize)].to_vec();
                let lengths = b[LENGTHS_AT..][..MOST_CALLS.min(b[2] as usize)].to_vec();
                Event::UartPieces { ring, lengths }
            }
            0x12 => Event::Meant(b[1]),
            _ => return None,
        })
    }

    /// The piece that the first call of UART pieces is handed: so many bytes of the ring, all where
    /// there are fewer.
    pub fn piece(&self) -> Option<&[u8]> {
        match self {
            Event::UartPieces { ring, lengths } => {
                let length = *lengths.first()? as usize;
                Some(&ring[..length.min(ring.len())])
            }
            _ => None,
        }
    }

    /// The calls behind the first one of UART pieces, which took so many bytes of the ring.
    pub fn calls_left(&self, taken: usize) -> Option<Event> {
        match self {
            Event::UartPieces { ring, lengths } if lengths.len() > 1 => Some(Event::UartPieces {
                ring: ring[taken..].to_vec(),
                lengths: lengths[1..].to_vec(),
            }),
            _ => None,
        }
    }

    /// Whether the answer ends with the node.
    pub fn tells_node(&self) -> bool {
        self.kind() <= 0x03 || self.kind() == PIECES
    }

    /// The record's kind.
    pub fn kind(&self) -> u8 {
        match self {
            Event::Restart { .. } => 0x01,
            Event::CanFrame(_) => 0x02,
            Event::UartByte(_) => 0x03,
            Event::Show(_) => 0x04,
            Event::HandIn(_) => 0x05,
            Event::Lend { .. } => 0x06,
            Event::Poke { .. } => 0x07,
            Event::Begin { .. } => 0x08,
            Event::End => 0x09,
            Event::IdentifierToFrame { .. } => 0x0A,
            Event::FrameToIdentifier { .. } => 0x0B,
            Event::Wrap { .. } => 0x0C,
            Event::Unwrap { .. } => 0x0D,
            Event::AddressRule { .. } => 0x0E,
            Event::UartPieces { .. } => PIECES,
            Event::Meant(_) => 0x12,
        }
    }

    /// The record of the event.
    pub fn write(&self) -> Record {
        let mut bytes = vec![self.kind()];
        match self {
            Event::Restart { pin, self_test, way } => bytes.extend([pin, self_test, way]),
            Event::CanFrame(frame) => {
                bytes.extend((frame.len() as u16).to_be_bytes());
                bytes.extend(&frame[..frame.len().min(CAN_IN_RECORD)]);
            }
            Event::UartByte(byte) => bytes.push(*byte),
            Event::Show(address) => bytes.extend(address.to_be_bytes()),
            Event::HandIn(node) => bytes.extend(node),
            Event::Lend { flash, eeprom } => {
                bytes.extend(flash.to_be_bytes());
                bytes.extend(eeprom.to_be_bytes());
            }
            Event::Poke { address, value } => {
                bytes.extend(address.to_be_bytes());
                bytes.push(*value);
            }
            Event::Begin { flash, eeprom, fixed, full, step, more, tells_way } => {
                bytes.extend([flash, eeprom]);
                bytes.extend(fixed);
                bytes.extend(full.to_be_bytes());
                bytes.extend([step, more, tells_way]);
            }
            Event::End => {}
            Event::IdentifierToFrame { identifier, data, output } => {
                bytes.extend(identifier.to_be_bytes());
                bytes.extend([data.len() as u8, *output as u8]);
                bytes.extend(data);
            }
            Event::FrameToIdentifier { frame: input, output }
            | Event::Wrap { input, output }
            | Event::Unwrap { input, output } => {
                bytes.extend([input.len() as u8, *output as u8]);
                bytes.extend(input);
            }
            Event::AddressRule { address, command } => {
                bytes.extend(address.to_be_bytes());
                bytes.extend(command.to_be_bytes());
            }
            Event::UartPieces { ring, lengths } => {
                bytes.extend([ring.len() as u8, lengths.len() as u8]);
                bytes.extend(lengths);
                bytes.resize(RING_AT, 0);
                bytes.extend(ring);
            }
            Event::Meant(way) => bytes.push(*way),
        }
        let mut record = [0; RECORD];
        record[..bytes.len()].copy_from_slice(&bytes);
        record
    }
}

/// All whole records of a stream.
pub fn records(stream: &[u8]) -> impl Iterator<Item = &Record> {
    stream.chunks_exact(RECORD).map(|record| record.try_into().expect("64 bytes"))
}
