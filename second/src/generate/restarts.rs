//! Restarts, and the cells that decide what a restart comes to.

use super::ports::Port;
use super::requests::NEAR_RIMS;
use super::Writer;
use crate::event::Event;
use crate::memory::*;
use std::io::Write;

/// The last cells of each memory and those behind them, and the last that a session has.
const RIM_CELLS: [u32; 10] = [
    0x00FFFF, 0x010000, 0x010001, 0x02003F, 0x020040, 0xF003FF, 0xF00400, 0xF00401, 0xF1003F,
    0xF10040,
];

impl<W: Write> Writer<'_, W> {
    /// A restart with some pin and verdict.
    pub fn emit_restart(&mut self) {
        let pin = self.random.pick(&[0, 1, 1, 1, 1, 1, 1, 2, 255]);
        let self_test = self.random.pick(&[0, 0, 0, 0, 0, 0, 0, 0, 0, 0, 0, 0, 1, 255]);
        let way = self.some_way();
        self.emit(Event::Restart { pin, self_test, way });
    }

    /// Changes one cell.
    pub fn set(&mut self, address: u32, value: u8) {
        self.emit(Event::Poke { address, value });
    }

    /// Sets BOOTFL, own numbers and stored sum in some way, then restarts.
    pub fn prepared_restart(&mut self) {
        let module_place = EEPROM_BASE + MODULE as u32;
        let numbers = match self.random.below(12) {
            0 => Some((0x00, 0x00)),
            1 => Some((0xFF, 0xFF)),
            2 => Some((0x00, self.random.byte())),
            3 => Some((self.random.byte(), 0x00)),
            4..=6 => Some((self.random.any(), self.random.any())),
            _ => None,
        };
        if let Some((module, group)) = numbers {
            self.set(module_place, module);
            self.set(module_place + 1, group);
        }
        let other = self.random.any();
        match self.random.below(20) {
            0..=6 => self.set(EEPROM_BASE, 0xFF),
            7..=14 => self.set(EEPROM_BASE, 0x00),
            15..=16 if other != 0xFF => self.set(EEPROM_BASE, other),
            _ => {}
        }
        if self.random.chance(60) {
            self.store_sum();
        }
        self.emit_restart();
    }

    /// Stores the firmware sum, sometimes a little wrong, sometimes with a cell at a rim changed.
    pub fn store_sum(&mut self) {
        if self.random.chance(30) {
            let value = self.random.byte();
            let cell = ATYPE + self.random.below(3);
            self.set(cell as u32, value);
        }
        let mut sum = firmware_sum(&self.session.flash);
        match self.random.below(14) {
            0 => sum = sum.wrapping_add(1),
            1 => sum ^= 1 << self.random.below(24),
            2 => sum = sum.swap_bytes() >> 8,
            _ => {}
        }
        self.set_stored_sum(sum);
        if self.random.chance(20) {
            let value = self.random.any();
            let rims = [0x000FFF, SUM_FIRST as u32, SUM_LAST as u32, SUM_LAST as u32 + 1];
            let cell = self.random.pick(&rims);
            self.set(cell, value);
        }
    }

    /// Changes the stored sum.
    pub fn set_stored_sum(&mut self, sum: u32) {
        let [_, high, middle, low] = sum.to_be_bytes();
        for (index, byte) in [high, middle, low].into_iter().enumerate() {
            self.set((STORED_SUM + index) as u32, byte);
        }
    }

    /// Changes cells until the firmware sum is a multiple of 65,536, the nearest one.
    pub fn round_sum(&mut self) {
        let low = firmware_sum(&self.session.flash) % 65_536;
        let raise = low >= 32_768;
        let mut rest = if raise { 65_536 - low } else { low };
        let mut cell = SUM_FIRST + self.random.below(SUM_LAST - SUM_FIRST + 1);
        for _ in SUM_FIRST..=SUM_LAST {
            let old = self.session.flash[cell] as u32;
            let by = rest.min(if raise { 255 - old } else { old });
            if by > 0 {
                self.set(cell as u32, (if raise { old + by } else { old - by }) as u8);
            }
            rest -= by;
            if rest == 0 {
                return;
            }
            cell = if cell == SUM_LAST { SUM_FIRST } else { cell + 1 };
        }
    }

    /// A firmware sum that is a multiple of 65,536, stored as it is or with another high byte; then
    /// a restart, and a request that shows the sum.
    pub fn round_sum_scene(&mut self) {
        self.round_sum();
        let sum = firmware_sum(&self.session.flash);
        let other = 1 << (16 + self.random.below(7));
        let stored = if self.random.chance(50) { sum } else { sum ^ other };
        self.set_stored_sum(stored);
        self.set(EEPROM_BASE, 0x00);
        let way = self.some_way();
        self.emit(Event::Restart { pin: 1, self_test: 0, way });
        let frame = self.frame_of(0x106);
        let port = if self.random.chance(40) { Port::Uart } else { Port::Can };
        self.send(port, frame);
    }

    /// Changes some cell: a named one, one near a rim, or one of the favourite block.
    pub fn poke(&mut self) {
        let value = self.random.byte();
        let far = self.random.next();
        let near = self.random.below(64) as u32;
        let address = match self.random.below(10) {
            0 => EEPROM_BASE + near,
            1 => EEPROM_BASE + DESCRIPTION as u32 + near % 16,
            2..=4 => self.block + near,
            5 => self.random.pick(&NEAR_RIMS) + near % 8,
            6 => self.random.pick(&RIM_CELLS),
            7 => far,
            _ => far & 0xFFFF,
        };
        self.set(address, value);
    }
}
