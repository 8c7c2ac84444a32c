//! Shows rows, asks the address rule, converts, wraps and unwraps.

use super::requests::NEAR_RIMS;
use super::Writer;
use crate::event::{Event, LONGEST};
use crate::frames::{self, FRAME, WRAPPED};
use std::io::Write;

impl<W: Write> Writer<'_, W> {
    /// Shows a row, legal or not.
    pub fn show(&mut self) {
        let mut address = self.address();
        if self.random.chance(5) {
            address |= 1 << (24 + self.random.below(8));
        }
        self.emit(Event::Show(address));
    }

    /// Asks the address rule, also with large commands and addresses.
    pub fn ask_address_rule(&mut self) {
        let mut address = if self.random.chance(40) {
            self.random.pick(&NEAR_RIMS) + self.random.pick(&[0, 0, 8, 64])
        } else {
            self.address()
        };
        if self.random.chance(10) {
            address = address.wrapping_sub(self.random.pick(&[1, 4, 8, 64]));
        }
        if self.random.chance(6) {
            address |= 1 << (24 + self.random.below(8));
        }
        let big = self.random.next();
        let command = match self.random.below(12) {
            0 => self.random.pick(&[0, 4, 5, 255, 256]),
            1 => self.random.pick(&[0x101, 0x102, 0x103, 0x0100_0001, 0x8000_0002, u32::MAX, big]),
            n => [1, 2, 3][n % 3],
        };
        self.emit(Event::AddressRule { address, command });
    }

    /// A length, most often the right one.
    pub fn length(&mut self, right: usize) -> usize {
        match self.random.below(16) {
            0 => right - 1,
            1 => right + 1,
            2 => self.random.below(LONGEST + 1),
            _ => right,
        }
    }

    /// So many random bytes.
    pub fn some_bytes(&mut self, count: usize) -> Vec<u8> {
        (0..count).map(|_| self.random.byte()).collect()
    }

    /// One of the conversions, with good and bad lengths, flags, identifiers and sums.
    pub fn convert(&mut self) {
        match self.random.below(4) {
            0 => {
                let length = self.length(8);
                let data = self.some_bytes(length);
                let output = self.length(FRAME);
                let mut identifier = self.random.next() & 0x1FFF_FFFF;
                match self.random.below(12) {
                    0 => identifier = self.random.pick(&[0x1FFF_FFFF, 0x0200_F0F0, 0]),
                    1 => identifier = self.random.pick(&[0x2000_0000, u32::MAX, 0x3FFF_FFFF]),
                    2 => identifier |= 1 << (29 + self.random.below(3)),
                    _ => {}
                }
                self.emit(Event::IdentifierToFrame { identifier, data, output });
            }
            1 => {
                let length = self.length(FRAME);
                let mut frame = self.some_bytes(length);
                if length > 1 && self.random.chance(85) {
                    frame[1] &= 0xF1;
                }
                let output = self.length(8);
                self.emit(Event::FrameToIdentifier { frame, output });
            }
            2 => {
                let length = self.length(FRAME);
                let input = self.some_bytes(length);
                let output = self.length(WRAPPED);
                self.emit(Event::Wrap { input, output });
            }
            _ => {
                let bytes = self.random.bytes();
                let mut input = frames::wrapped(&bytes).to_vec();
                if self.random.chance(30) {
                    let at = self.random.pick(&[0, 13, 14, 5]);
                    input[at] ^= 1 << self.random.below(8);
                }
                input.resize(self.length(WRAPPED), 0xA5);
                let output = self.length(FRAME);
                self.emit(Event::Unwrap { input, output });
            }
        }
    }
}
