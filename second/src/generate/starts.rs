//! Sessions about what firmware needs to start: FLASH with each flag byte at restarts and when
//! asked, brought there by pokes, by fills and by write frames, and records handed in over it.

use super::ports::Port;
use super::Writer;
use crate::event::Event;
use crate::frames::{self, Frame};
use crate::memory::*;
use crate::node::Pin;
use crate::node_record::*;
use std::io::Write;

/// The block of the stored sum and of the three cells.
const FIRST_BLOCK: usize = 0x1000;
/// The right values of the three cells in another order.
const OTHER_ORDERS: [[u8; 3]; 5] = [
    [0x00, 0x30, 0x03],
    [0x00, 0x03, 0x30],
    [0x03, 0x00, 0x30],
    [0x03, 0x30, 0x00],
    [0x30, 0x03, 0x00],
];
/// Values of BOOTFL with which a restart reaches normal mode.
const NORMAL_BOOTFL: [u8; 6] = [0x00, 0x00, 0x00, 0x01, 0x7F, 0xFE];
/// Requests that change nothing, for colour.
const HARMLESS: [u16; 6] = [0x103, 0x104, 0x10D, 0x10E, 0x10F, 0x111];

impl<W: Write> Writer<'_, W> {
    /// One whole session about starting, every third with UART in pieces: on FLASH all 0x00, all
    /// 0xFF, all of one value, or mixed.
    pub fn play_starts(&mut self, index: u32, full: u16) {
        let any = self.random.any();
        let (flash, step, more) = match index / 3 % 4 {
            0 => (0x00, 0, 0),
            1 => (0xFF, 0, 0),
            2 => (any, 0, 0),
            _ => (any, 1 | self.random.any(), self.random.any()),
        };
        let eeprom = self.random.pick(&[0x00, 0xFF, any]);
        let fixed = self.random.bytes();
        self.block = FIRST_BLOCK as u32;
        self.row = EEPROM_BASE + 8 * self.random.below(128) as u32;
        self.damage = self.random.pick(&[0, 0, 6]);
        self.in_pieces = index % 3 == 2;
        self.emit(Event::Begin { flash, eeprom, fixed, full, step, more, tells_way: 1 });
        self.filled_scene();
        while self.session.events < self.limit && self.result.is_ok() {
            self.starts_scene();
        }
        self.emit(Event::End);
    }

    /// FLASH as it was filled: a restart into normal mode, asked on both ports.
    fn filled_scene(&mut self) {
        self.normal_restart(Port::Uart);
        self.ask(Port::Can);
        self.ask(Port::Uart);
        self.hand_over();
    }

    /// One scene of a session about starting.
    fn starts_scene(&mut self) {
        self.hand_over();
        self.ring.clear();
        if !self.lengths_right() {
            self.lend_right();
        }
        let often = if self.in_pieces { 50 } else { 65 };
        let port = if self.random.chance(often) { Port::Uart } else { Port::Can };
        match self.random.weighted(&[44, 12, 26, 8, 4, 6]) {
            0 => self.moved_scene(port),
            1 => self.written_scene(port),
            2 => self.marked_record_scene(port),
            3 => self.other_restart_scene(port),
            4 => {
                self.set_cells(THREE_CELLS, RIGHT_CELLS);
                self.round_sum_scene();
            }
            _ if self.in_pieces => self.piece_scene(),
            _ => self.scene(),
        }
        self.hand_over();
    }

    /// A restart on FLASH with some flag byte; then the caller changes cells, once or more, and
    /// asks each time. In the end sometimes another restart.
    fn moved_scene(&mut self, port: Port) {
        self.bring_any();
        self.normal_restart(port);
        if self.random.chance(50) {
            self.ask(port);
        }
        for _ in 0..1 + self.random.below(3) {
            self.bring_any();
            self.ask(port);
        }
        if self.random.chance(30) {
            self.normal_restart(port);
            self.ask(port);
        }
    }

    /// Firmware with some flag byte comes by frames in programming mode; then the node leaves it,
    /// restarts and is asked.
    fn written_scene(&mut self, port: Port) {
        self.normal_restart(port);
        let enter = self.request(0x100);
        self.deliver(port, enter);
        self.hand_over();
        let flags = self.random.below(4) as u8;
        self.write_firmware(port, flags);
        let (module, group) = self.own();
        let leave = match self.random.chance(70) {
            true => frames::frame(0x020, 0, module, group, [0xFF; 8]),
            false => frames::frame(0x010, 0, 0x00, 0x00, [0xFF; 8]),
        };
        self.deliver(port, leave);
        self.restart_for(port, 0);
        self.ask(port);
        if self.random.chance(40) {
            self.bring_any();
            self.ask(port);
        }
    }

    /// A record of a node in normal mode, firmware started or not whatever FLASH says; the caller
    /// changes cells, and sometimes restarts.
    fn marked_record_scene(&mut self, port: Port) {
        self.bring_any();
        let mut record = [0; HANDED];
        record[..NODE].copy_from_slice(&write(&self.session.node.tidied()));
        record[0] = 1;
        record[HELD_COUNT_AT] = 0;
        record[MODE_AT] = self.random.pick(&[0, 1]);
        record[WAY_AT] = self.some_way();
        self.emit(Event::HandIn(record));
        self.ask(port);
        if self.random.chance(50) {
            self.bring_any();
            self.ask(port);
        }
        if self.random.chance(30) {
            self.normal_restart(port);
            self.ask(port);
        }
    }

    /// A restart that doesn't reach normal mode: with a failed self-test, with BOOTFL 0xFF, or
    /// refused with 1, which leaves the mark. Then one that does.
    fn other_restart_scene(&mut self, port: Port) {
        self.bring_any();
        if self.random.chance(50) {
            self.normal_restart(port);
            self.bring_any();
        }
        match self.random.below(3) {
            0 => {
                let failed = self.random.pick(&[1, 255]);
                self.restart_for(port, failed);
            }
            1 => {
                self.set(EEPROM_BASE, 0xFF);
                self.restart_for(port, 0);
            }
            _ => {
                self.lend_wrong();
                self.restart_for(port, 0);
                self.lend_right();
            }
        }
        self.ask(port);
        self.hand_over();
        self.ring.clear();
        self.normal_restart(port);
        self.ask(port);
    }

    /// A restart with BOOTFL not 0xFF and a passing self-test.
    fn normal_restart(&mut self, port: Port) {
        let bootfl = self.random.pick(&NORMAL_BOOTFL);
        self.set(EEPROM_BASE, bootfl);
        self.restart_for(port, 0);
    }

    /// A restart after which the port may be used, with this byte for the self-test.
    fn restart_for(&mut self, port: Port, self_test: u8) {
        let pin = match port {
            Port::Uart => self.random.pick(&[1, 1, 1, 2, 255]),
            Port::Can => self.random.pick(&[0, 1]),
        };
        let way = self.some_way();
        self.emit(Event::Restart { pin, self_test, way });
    }

    /// Asks for the firmware type as node and as group, in some order, with another request now and
    /// then.
    fn ask(&mut self, port: Port) {
        let kinds: &[u16] = match self.random.below(6) {
            0 => &[0x106],
            1 => &[0x105],
            2 => &[0x105, 0x106],
            3 => &[0x106, 0x106],
            _ => &[0x106, 0x105],
        };
        for kind in kinds {
            if self.random.chance(10) {
                let other = self.random.pick(&HARMLESS);
                let frame = self.frame_of(other);
                self.deliver(port, frame);
            }
            let frame = match self.random.chance(95) {
                true => self.request(*kind),
                false => self.frame_of(*kind),
            };
            self.deliver(port, frame);
        }
    }

    /// A request of normal mode for this node, alone or with others of its group.
    fn request(&mut self, kind: u16) -> Frame {
        let (module, group) = self.own();
        let mut data = self.data();
        (data[2], data[3]) = match kind {
            0x105 => (0x00, self.random.pick(&[0x00, group])),
            _ => (module, group),
        };
        frames::frame(kind, 0, self.random.byte(), self.random.byte(), data)
    }

    /// Hands a frame to the node as it is; on CAN where the pin says CAN only.
    fn deliver(&mut self, port: Port, frame: Frame) {
        if port == Port::Uart && self.session.node.pin == Pin::CanAndUart {
            self.send_whole(frame);
        } else {
            self.emit(Event::CanFrame(frame.to_vec()));
        }
    }

    /// Changes cells so that the flag byte of FLASH becomes any of the four.
    fn bring_any(&mut self) {
        let flags = self.random.below(4) as u8;
        self.bring(flags);
    }

    /// Changes cells until the flag byte of FLASH is this one.
    fn bring(&mut self, flags: u8) {
        self.hand_over();
        if self.random.chance(20) {
            let (place, value) = (ATYPE + self.random.below(3), self.random.byte());
            self.set(place as u32, value);
        }
        if flags & CELLS_DIFFER == 0 {
            self.set_cells(THREE_CELLS, RIGHT_CELLS);
        } else {
            self.spoil_cells();
        }
        let sum = firmware_sum(&self.session.flash);
        let differ = stored_sum(&self.session.flash) != sum;
        if flags & SUMS_DIFFER == 0 {
            self.set_stored_sum(sum);
        } else if !differ || self.random.chance(60) {
            self.spoil_sum(sum);
        }
    }

    /// Changes three cells from this place on.
    fn set_cells(&mut self, place: usize, cells: [u8; 3]) {
        for (index, cell) in cells.into_iter().enumerate() {
            self.set((place + index) as u32, cell);
        }
    }

    /// Makes the three cells other than 30 00 03: a bit off in one, two or all of them, the right
    /// values one place lower or higher or in another order, or all of one value.
    fn spoil_cells(&mut self) {
        let off = RIGHT_CELLS.map(|cell| cell ^ 1 << self.random.below(8));
        let one = self.random.below(3);
        let mut cells = RIGHT_CELLS;
        match self.random.below(10) {
            0..=2 => cells[one] = off[one],
            3 => {
                cells = off;
                cells[one] = RIGHT_CELLS[one];
            }
            4 => cells = off,
            5 => return self.set_cells(THREE_CELLS - 1, RIGHT_CELLS),
            6 => return self.set_cells(THREE_CELLS + 1, RIGHT_CELLS),
            7 => cells = self.random.pick(&OTHER_ORDERS),
            8 => cells = [0x00; 3],
            _ => cells = [0xFF; 3],
        }
        self.set_cells(THREE_CELLS, cells);
    }

    /// Makes the sums differ: the stored one is one off in one of its bytes, or off by a bit, or is
    /// exchanged or all of one value; or a cell of the area is another one.
    fn spoil_sum(&mut self, sum: u32) {
        let bit = 1 << self.random.below(24);
        let stored = match self.random.below(10) {
            0..=5 => self.one_off(sum),
            6 => sum.swap_bytes() >> 8,
            7 => self.random.pick(&[0x00_0000, 0xFF_FFFF]),
            8 => return self.spoil_area(sum),
            _ => sum ^ bit,
        };
        self.set_stored_sum(if stored == sum { sum ^ bit } else { stored });
    }

    /// A sum with one of its three bytes one more or one less.
    fn one_off(&mut self, sum: u32) -> u32 {
        let mut bytes = sum.to_be_bytes();
        let at = 1 + self.random.below(3);
        bytes[at] = bytes[at].wrapping_add(self.random.pick(&[1, 255]));
        u32::from_be_bytes(bytes)
    }

    /// Stores the sum, then changes a cell of the area, at a rim, behind the three cells or any.
    fn spoil_area(&mut self, sum: u32) {
        self.set_stored_sum(sum);
        let any = ATYPE + self.random.below(SUM_LAST + 1 - ATYPE);
        let place = self.random.pick(&[SUM_FIRST, SUM_LAST, ATYPE, THREE_CELLS - 1, any]);
        let bit = 1 << self.random.below(8);
        self.set(place as u32, self.session.flash[place] ^ bit);
    }

    /// FLASH with its first block erased but for the rows of the stored sum and of the three cells,
    /// which give it this flag byte.
    fn planned(&mut self, flags: u8) -> Vec<u8> {
        let mut flash = self.session.flash.clone();
        flash[FIRST_BLOCK..][..BLOCK].fill(0xFF);
        flash[THREE_CELLS..][..ROW].copy_from_slice(&self.random.bytes::<ROW>());
        flash[THREE_CELLS..][..3].copy_from_slice(&RIGHT_CELLS);
        if flags & CELLS_DIFFER != 0 {
            flash[THREE_CELLS + self.random.below(3)] ^= 1 << self.random.below(8);
        }
        let sum = firmware_sum(&flash);
        let stored = if flags & SUMS_DIFFER == 0 { sum } else { self.one_off(sum) };
        flash[STORED_SUM..][..3].copy_from_slice(&stored.to_be_bytes()[1..]);
        flash
    }

    /// Erases the first block and writes the two rows, so that FLASH gets this flag byte; now and
    /// then writes them over what is there.
    fn write_firmware(&mut self, port: Port, flags: u8) {
        let flash = self.planned(flags);
        if self.random.chance(90) {
            self.command_at(port, Command::Erase, FIRST_BLOCK, [0xFF; ROW]);
        }
        for place in [STORED_SUM, THREE_CELLS] {
            let row = std::array::from_fn(|i| flash[place + i]);
            self.command_at(port, Command::Write, place, row);
        }
        if self.random.chance(20) {
            self.command_at(port, Command::Read, THREE_CELLS, [0xFF; ROW]);
        }
    }

    /// An address frame with a command, and the data frame behind it.
    fn command_at(&mut self, port: Port, command: Command, place: usize, data: [u8; ROW]) {
        let (module, group) = self.own();
        let [_, d0, d1, d2] = (place as u32).to_be_bytes();
        let staging = [d0, d1, d2, 0xFF, 0xFF, command.code(), 0xFF, 0xFF];
        self.deliver(port, frames::frame(0x030, 0, module, group, staging));
        self.deliver(port, frames::frame(0x040, 0, module, group, data));
    }
}
