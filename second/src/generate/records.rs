//! Wrong memory lengths and hostile node records.

use super::ports::Port;
use super::Writer;
use crate::event::Event;
use crate::frames;
use crate::memory::{EEPROM_BASE, EEPROM_CELLS, FLASH_CELLS};
use crate::node::HELD;
use crate::node_record::*;
use std::io::Write;

/// Lengths of FLASH and EEPROM of which at least one is wrong; the last are more than there are.
const WRONG_LENGTHS: [(u32, u32); 24] = [
    (65_535, 1_024),
    (65_537, 1_024),
    (65_536, 1_023),
    (65_536, 1_025),
    (65_535, 1_023),
    (65_537, 1_025),
    (65_535, 1_025),
    (65_537, 1_023),
    (65_535, 1_025),
    (65_537, 1_023),
    (0, 1_024),
    (65_536, 0),
    (0, 0),
    (1_024, 65_536),
    (1_024, 65_536),
    (1_024, 1_024),
    (65_536, 65_536),
    (131_072, 1_024),
    (131_072, 1_024),
    (65_536, 2_048),
    (32_768, 1_024),
    (64, 8),
    (4_096, 40),
    (u32::MAX, u32::MAX),
];

impl<W: Write> Writer<'_, W> {
    /// Lends memories of which at least one is of a wrong length: by one, by much, or exchanged.
    pub fn lend_wrong(&mut self) {
        let (flash, eeprom) = self.random.pick(&WRONG_LENGTHS);
        self.emit(Event::Lend { flash, eeprom });
    }

    /// Lends memories of the right lengths.
    pub fn lend_right(&mut self) {
        self.emit(Event::Lend { flash: FLASH_CELLS as u32, eeprom: EEPROM_CELLS as u32 });
    }

    /// Some events with wrong memory lengths, sometimes also with an untidy record.
    pub fn wrong_lengths(&mut self) {
        self.lend_wrong();
        for _ in 0..1 + self.random.below(3) {
            match self.random.below(5) {
                0 => self.emit_restart(),
                1 => self.show(),
                2 => {
                    let frame = self.some_frame();
                    self.send(Port::Can, frame);
                }
                3 => self.cut_uart(),
                _ => {
                    let record = self.hostile_record();
                    self.emit(Event::HandIn(record));
                }
            }
        }
        if self.random.chance(80) {
            self.lend_right();
        }
    }

    /// Hands in a record of any kind, then does something that shows what it counts as.
    pub fn hand_in(&mut self) {
        let record = self.hostile_record();
        self.emit(Event::HandIn(record));
        if record[COUNT_ABOVE_AT..FIFTEENTH_AT] != [0; 4] {
            self.after_high_count();
            return;
        }
        if record[HELD_COUNT_AT] as usize == HELD && self.random.chance(70) {
            self.finish_held();
            return;
        }
        match self.random.below(12) {
            0..=3 => {
                let frame = self.frame_of(0x040);
                self.send(Port::Can, frame);
            }
            4..=5 => {
                let frame = self.some_frame();
                self.send(Port::Can, frame);
            }
            6..=7 => self.finish_held(),
            8 => self.noise(),
            9 => self.emit_restart(),
            _ => self.any_request(),
        }
    }

    /// What shows that a count above 255 means no held bytes: a UART byte, a frame or a restart.
    pub fn after_high_count(&mut self) {
        match self.random.below(4) {
            0..=1 => {
                let byte = self.random.byte();
                self.emit(Event::UartByte(byte));
            }
            2 => {
                let frame = self.some_frame();
                self.send(Port::Can, frame);
            }
            _ => self.emit_restart(),
        }
    }

    /// A node record, in one or more ways unlike those the node makes.
    pub fn hostile_record(&mut self) -> [u8; HANDED] {
        let mut record = [0; HANDED];
        if self.random.chance(10) {
            record[..WAY_AT].fill_with(|| self.random.byte());
            record[WAY_AT] = self.some_way();
            return record;
        }
        record[..NODE].copy_from_slice(&write(&self.session.node.tidied()));
        record[0] = self.random.pick(&[0, 1, 1, 1, 1, 1, 2, 255]);
        if self.random.chance(30) {
            (record[7], record[8]) = (self.random.byte(), self.random.byte());
        }
        if self.random.chance(15) {
            record[1..7].copy_from_slice(&self.random.bytes::<6>());
        }
        record[MODE_AT] = match self.random.below(20) {
            0..=4 => 0,
            5..=8 => 1,
            9..=17 => 2,
            18 => self.random.pick(&[3, 4]),
            _ => self.random.pick(&[5, 6, 128, 255]),
        };
        record[STAGED_AT] = self.random.pick(&[0, 1, 1, 2, 2, 2, 3, 3, 4, 255]);
        let address = self.address();
        let in_eeprom = address >= EEPROM_BASE;
        record[ADDRESS_KIND_AT] = match self.random.below(8) {
            0 => !in_eeprom as u8,
            1 => self.random.pick(&[2, 255]),
            _ => in_eeprom as u8,
        };
        record[ADDRESS_AT..NODE].copy_from_slice(&address.to_be_bytes());
        if self.random.chance(6) {
            record[ADDRESS_AT] = self.random.any();
        }
        self.hostile_held(&mut record);
        if self.random.chance(10) {
            self.high_count(&mut record);
        }
        if self.random.chance(20) {
            record[FIFTEENTH_AT] = 1 | self.random.any();
        }
        record[WAY_AT] = self.some_way();
        record
    }

    /// A count of held bytes above 255, mostly one whose low byte would do.
    pub fn high_count(&mut self, record: &mut [u8; HANDED]) {
        let any = self.random.next();
        let above = self.random.pick(&[1, 1, 256, 0x0100_0000, u32::MAX, any]);
        record[COUNT_ABOVE_AT..FIFTEENTH_AT].copy_from_slice(&above.to_be_bytes());
        if self.random.chance(80) {
            record[HELD_AT] = frames::START;
            record[HELD_COUNT_AT] = 1 + self.random.below(HELD) as u8;
        }
    }

    /// Held bytes of a record: of a good frame, or too many, or not starting with 0xAA.
    pub fn hostile_held(&mut self, record: &mut [u8; HANDED]) {
        if self.random.chance(40) {
            return;
        }
        let frame = if self.random.chance(50) {
            let data = self.data();
            frames::frame(0x040, 0, record[7], record[8], data)
        } else {
            self.some_frame()
        };
        let mut held = frames::wrapped(&frame);
        if self.random.chance(15) {
            held[0] = self.random.any();
        }
        record[HELD_AT..MODE_AT].copy_from_slice(&held[..HELD]);
        record[HELD_COUNT_AT] = match self.random.below(10) {
            0..=3 => HELD as u8,
            4..=6 => self.random.below(HELD + 1) as u8,
            7 => self.random.pick(&[15, 16, 127, 255]),
            8 => self.random.any(),
            _ => 13,
        };
    }

    /// A record that means no event.
    pub fn strange_record(&mut self) {
        if self.session.events < self.limit && self.result.is_ok() {
            let mut record: [u8; 64] = self.random.bytes();
            record[0] = self.random.pick(&[0x00, 0x0F, 0x10, 0x7F, 0xFF]);
            self.result = self.out.write_all(&record);
        }
    }
}
