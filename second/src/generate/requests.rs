//! Makes frames for the node, and sequences of programming frames.

use super::ports::Port;
use super::Writer;
use crate::frames::{self, Frame};
use crate::memory::EEPROM_BASE;
use std::io::Write;

/// Types handled in normal mode, with weights: those that leave the mode come less often.
const NORMAL: [u16; 11] =
    [0x100, 0x101, 0x102, 0x103, 0x104, 0x105, 0x106, 0x10D, 0x10E, 0x10F, 0x111];
const NORMAL_WEIGHTS: [usize; 11] = [3, 5, 3, 10, 8, 12, 14, 10, 8, 10, 8];
const GROUP_TYPES: [u16; 5] = [0x101, 0x103, 0x105, 0x10D, 0x10F];
const PROGRAMMING: [u16; 4] = [0x010, 0x020, 0x030, 0x040];
const PROGRAMMING_WEIGHTS: [usize; 4] = [1, 1, 5, 5];
/// Types handled in no mode.
const STRANGE: [u16; 20] = [
    0x000, 0x001, 0x00F, 0x011, 0x021, 0x031, 0x041, 0x050, 0x0F0, 0x107, 0x108, 0x10A, 0x10B,
    0x10C, 0x110, 0x112, 0x115, 0x1F1, 0x301, 0xFFF,
];
/// The rims of the legal rows and blocks, and more addresses around them.
const RIMS: [u32; 9] =
    [0x000FF8, 0x001000, 0x00FFF8, 0x00FFC0, 0x00FFC8, 0x010000, 0xF00000, 0xF003F8, 0xF00400];
pub const NEAR_RIMS: [u32; 22] = [
    0x000000, 0x000FC0, 0x000FF8, 0x001000, 0x001008, 0x001040, 0x007FF8, 0x008000, 0x00FF80,
    0x00FFC0, 0x00FFC8, 0x00FFF8, 0x010000, 0xEFFFF8, 0xF00000, 0xF00020, 0xF00030, 0xF00038,
    0xF003C0, 0xF003F8, 0xF00400, 0xFFFFC0,
];
const EEPROM_ROWS: [u32; 6] = [0xF00000, 0xF00020, 0xF00030, 0xF00038, 0xF003F8, 0xF00100];

impl<W: Write> Writer<'_, W> {
    /// The four flag bits of a frame, mostly none.
    pub fn flags(&mut self) -> u8 {
        match self.random.below(100) {
            0..=3 => 1,
            4..=6 => self.random.pick(&[2, 4, 6, 8, 10, 12, 14]),
            7..=8 => self.random.pick(&[3, 5, 7, 9, 11, 13, 15]),
            _ => 0,
        }
    }

    /// Data, now and then with 0xAA and 0xA5 inside.
    pub fn data(&mut self) -> [u8; 8] {
        self.random.bytes()
    }

    /// Any frame, most often one handled in this mode and for this node.
    pub fn some_frame(&mut self) -> Frame {
        let programming = self.programming();
        let of_normal = NORMAL[self.random.weighted(&NORMAL_WEIGHTS)];
        let of_programming = PROGRAMMING[self.random.weighted(&PROGRAMMING_WEIGHTS)];
        let kind = match self.random.below(100) {
            0..=86 if programming => of_programming,
            0..=86 => of_normal,
            87..=91 if programming => of_normal,
            87..=91 => of_programming,
            92..=97 => self.random.pick(&STRANGE),
            _ => self.random.next() as u16 & 0xFFF,
        };
        self.frame_of(kind)
    }

    /// A frame of a type, mostly for this node.
    pub fn frame_of(&mut self, kind: u16) -> Frame {
        let (module, group) = self.own();
        let mut data = self.data();
        let (mut to_module, mut to_group) = (self.random.byte(), self.random.byte());
        if PROGRAMMING.contains(&kind) {
            (to_module, to_group) = self.programming_numbers(kind);
            if kind == 0x030 {
                let address = self.address();
                data[..3].copy_from_slice(&address.to_be_bytes()[1..]);
                data[5] = self.command();
            }
        } else if GROUP_TYPES.contains(&kind) {
            (data[2], data[3]) = match self.random.below(13) {
                0..=3 => (0, 0),
                4..=8 => (0, group),
                9 => (self.random.pick(&[module, 1, 0xFF]), self.random.pick(&[0, group])),
                10 => {
                    let other = [group ^ 1, group ^ 0x80, module, self.random.any()];
                    (self.random.pick(&[module, 1, 0xFF]), self.random.pick(&other))
                }
                _ => (0, self.random.byte()),
            };
        } else {
            (data[2], data[3]) = match self.random.below(12) {
                0..=9 => (module, group),
                10 => self.wrong_numbers(),
                _ => (self.random.byte(), self.random.byte()),
            };
        }
        let flags = self.flags();
        frames::frame(kind, flags, to_module, to_group, data)
    }

    /// Numbers that are nearly the own ones.
    pub fn wrong_numbers(&mut self) -> (u8, u8) {
        let (module, group) = self.own();
        let other = self.random.byte();
        self.random.pick(&[
            (module, other),
            (other, group),
            (0, group),
            (0, 0),
            (other, 0),
            (0, other),
            (group, module),
            (module ^ 1, group),
            (module, group ^ 0x80),
        ])
    }

    /// Frame module and group for a type of programming mode, mostly the right ones.
    pub fn programming_numbers(&mut self, kind: u16) -> (u8, u8) {
        if self.random.chance(10) {
            self.wrong_numbers()
        } else if kind == 0x010 {
            (0, 0)
        } else {
            self.own()
        }
    }

    /// A command byte, mostly a known one.
    pub fn command(&mut self) -> u8 {
        match self.random.below(20) {
            0 => self.random.pick(&[0, 4, 255]),
            1 => self.random.any(),
            n => [1, 2, 3][n % 3],
        }
    }

    /// An address, legal or not, often at a rim.
    pub fn address(&mut self) -> u32 {
        match self.random.below(20) {
            0..=4 => self.random.pick(&RIMS),
            5 => self.random.pick(&NEAR_RIMS),
            6 => self.random.pick(&NEAR_RIMS) + self.random.pick(&[1, 4, 7, 32]),
            7..=10 => self.block,
            11..=12 => self.block + 8 * self.random.below(8) as u32,
            13..=14 => self.random.pick(&EEPROM_ROWS),
            15 => self.row,
            16 => 0x001000 + 64 * self.random.below(960) as u32,
            17 => EEPROM_BASE + 8 * self.random.below(128) as u32,
            18 => self.random.next() & 0xFFF8,
            _ => self.random.next() & 0xFF_FFFF,
        }
    }

    /// Any single frame on a port.
    pub fn any_request(&mut self) {
        let frame = self.some_frame();
        let port = self.port();
        self.send(port, frame);
    }

    /// Addressing and data frames, on one port or both; enters the mode first where that is easy.
    pub fn programming_scene(&mut self) {
        let port = self.port();
        if !self.programming() && self.random.chance(90) {
            let frame = self.frame_of(0x100);
            self.send(port, frame);
        }
        match self.random.below(10) {
            0..=5 => self.staged_scene(port),
            6..=7 => self.update_scene(port),
            8 => {
                let frame = self.some_frame();
                self.send(port, frame);
            }
            _ => {
                let kind = self.random.pick(&[0x010, 0x020]);
                let frame = self.frame_of(kind);
                self.send(port, frame);
            }
        }
    }

    /// An addressing frame, then data frames, sometimes with something in between.
    pub fn staged_scene(&mut self, port: Port) {
        let frame = self.frame_of(0x030);
        self.send(port, frame);
        for _ in 0..self.random.pick(&[1, 1, 1, 2, 3]) {
            if self.random.chance(10) {
                self.any_request();
            }
            let port = if self.random.chance(15) { self.port() } else { port };
            let frame = self.frame_of(0x040);
            self.send(port, frame);
        }
    }

    /// An orderly update of one block, or of some EEPROM rows, each read back.
    pub fn update_scene(&mut self, port: Port) {
        let (module, group) = self.own();
        let steps = if self.random.chance(60) {
            let row = self.block + 8 * self.random.below(8) as u32;
            vec![(self.block, 3), (row, 2), (row, 1)]
        } else {
            let row = self.random.pick(&EEPROM_ROWS);
            vec![(row, 2), (row, 1)]
        };
        for (address, command) in steps {
            let [_, d0, d1, d2] = address.to_be_bytes();
            let staging = [d0, d1, d2, 0xFF, 0xFF, command, 0xFF, 0xFF];
            self.send(port, frames::frame(0x030, 0, module, group, staging));
            let data = self.data();
            self.send(port, frames::frame(0x040, 0, module, group, data));
        }
    }
}
