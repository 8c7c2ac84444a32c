//! Makes session streams, steered by the program's own node so that much happens on both ports.

mod asks;
mod noise;
mod pieces;
mod ports;
mod records;
mod requests;
mod restarts;
mod starts;

use crate::before_a4::Rule;
use crate::event::{Event, LONGEST, LONGEST_CAN, LONGEST_RING, MOST_CALLS, PIECES};
use crate::memory::{EEPROM_BASE, EEPROM_CELLS, FLASH_CELLS};
use crate::node::{Mode, Way};
use crate::random::Random;
use crate::session::{Answer, Session};
use std::io::{self, Write};

/// What the sessions of a stream are like.
#[derive(Clone, Copy, PartialEq, Eq)]
pub enum Kind {
    /// UART byte by byte; nothing is said of the way, and the old one is meant.
    Bytes,
    /// UART in pieces; nothing is said of the way, and the old one is meant.
    Pieces,
    /// UART byte by byte and in pieces by turns, in both ways.
    Ways,
    /// About what firmware needs to start; else as those in both ways.
    Starts,
}

struct Writer<'a, W: Write> {
    out: &'a mut W,
    random: Random,
    session: Session,
    /// How many events with an answer a session gets.
    limit: u64,
    /// A block and an EEPROM row that this session likes to come back to.
    block: u32,
    row: u32,
    /// How many percent of UART frames are damaged.
    damage: usize,
    /// Whether UART bytes come in pieces, and those that wait for that.
    in_pieces: bool,
    ring: Vec<u8>,
    /// Whether restarts and records say something of the way, and answers tell it.
    both_ways: bool,
    result: io::Result<()>,
}

/// Writes a stream of sessions of a kind. Where it says which way is meant, the default is last. A
/// stream of before A4 is steered by a node of before A4.
pub fn generate(
    kind: Kind,
    seed: u64,
    sessions: u32,
    events: u64,
    full: u16,
    out: &mut impl Write,
) -> io::Result<()> {
    let (salt, meant, rule) = match kind {
        Kind::Bytes => (0, Way::Old, Rule::BeforeA4),
        Kind::Pieces => (0x91EC_E500, Way::Old, Rule::BeforeA4),
        Kind::Ways => (0x3A75_0011, Way::New, Rule::BeforeA4),
        Kind::Starts => (0x57A2_7503, Way::New, Rule::Now),
    };
    let mut session = Session::by(rule);
    session.meant = meant;
    let mut writer = Writer {
        out,
        random: Random::new(seed ^ salt),
        session,
        limit: events,
        block: 0x001000,
        row: 0xF00020,
        damage: 0,
        in_pieces: kind == Kind::Pieces,
        ring: Vec::new(),
        both_ways: kind == Kind::Ways || kind == Kind::Starts,
        result: Ok(()),
    };
    if kind == Kind::Starts {
        writer.emit(Event::Meant(1));
    }
    for index in 0..sessions {
        match kind {
            Kind::Starts => writer.play_starts(index, full),
            _ => writer.play(index, full),
        }
    }
    if kind == Kind::Ways {
        writer.emit(Event::Meant(1));
    }
    writer.result
}

impl<W: Write> Writer<'_, W> {
    /// Writes an event and does it. Where UART bytes come in pieces, a byte goes into the ring, and
    /// that is handed over before another event.
    fn emit(&mut self, event: Event) {
        match event {
            Event::UartByte(byte) if self.in_pieces => return self.put_in_ring(byte),
            Event::Begin { .. } | Event::End => self.ring.clear(),
            _ => self.hand_over(),
        }
        self.write(event);
    }

    /// Writes an event and does it, all its calls; events behind the session's limit are left out.
    fn write(&mut self, event: Event) -> Vec<Answer> {
        let outside = matches!(event, Event::Begin { .. } | Event::End | Event::Meant(_));
        if !outside && self.session.events >= self.limit {
            return vec![];
        }
        let mut record = event.write();
        let longest = LONGEST as u8;
        if matches!(&event, Event::CanFrame(frame) if frame.len() == LONGEST_CAN) {
            let length: u16 = self.random.pick(&[1_024, 1_025, 65_535]);
            record[1..3].copy_from_slice(&length.to_be_bytes());
        }
        if event.kind() == 0x0A && record[5] == longest {
            record[5] = self.random.pick(&[20, 21, 255]);
        }
        if event.kind() == 0x0A && record[6] == longest {
            record[6] = self.random.pick(&[20, 21, 255]);
        }
        if event.kind() == PIECES && record[1] == LONGEST_RING as u8 {
            record[1] = self.random.pick(&[44, 45, 255]);
        }
        if event.kind() == PIECES && record[2] == MOST_CALLS as u8 {
            record[2] = self.random.pick(&[16, 17, 255]);
        }
        if self.result.is_ok() {
            self.result = self.out.write_all(&record);
        }
        self.session.apply_all(event)
    }

    /// One whole session.
    fn play(&mut self, index: u32, full: u16) {
        let flash = if index % 2 == 0 { 0xFF } else { self.random.byte() };
        let eeprom = if index % 3 == 0 { 0xFF } else { self.random.byte() };
        let fixed = self.random.bytes();
        self.block = 0x001000 + 64 * self.random.below(960) as u32;
        self.row = EEPROM_BASE + 8 * self.random.below(128) as u32;
        self.damage = self.random.pick(&[0, 6, 12, 25]);
        // Every second pair of sessions begins with mixed memories.
        let (step, more) =
            if index % 4 < 2 { (0, 0) } else { (1 | self.random.any(), self.random.any()) };
        let tells_way = self.both_ways as u8;
        if self.both_ways {
            self.in_pieces = index % 2 == 1;
        }
        self.emit(Event::Begin { flash, eeprom, fixed, full, step, more, tells_way });
        if self.both_ways {
            self.fresh_scene();
        }
        while self.session.events < self.limit && self.result.is_ok() {
            if self.both_ways {
                self.ways_scene();
            } else if self.in_pieces {
                self.piece_scene();
            } else {
                self.scene();
            }
        }
        self.emit(Event::End);
    }

    /// One scene of a session.
    fn scene(&mut self) {
        if !self.lengths_right() && self.random.chance(60) {
            self.lend_right();
        }
        if self.deaf() && self.random.chance(60) {
            self.prepared_restart();
            return;
        }
        match self.random.weighted(&[40, 9, 3, 2, 10, 16, 20, 8, 4, 3, 3, 2, 1, 1, 1]) {
            0 if self.programming() && self.random.chance(60) => self.programming_scene(),
            0 => (0..1 + self.random.below(5)).for_each(|_| self.any_request()),
            1 => self.programming_scene(),
            2 => self.prepared_restart(),
            3 => self.emit_restart(),
            4 => self.show(),
            5 => self.ask_address_rule(),
            6 => self.convert(),
            7 => self.hand_in(),
            8 => self.poke(),
            9 => self.wrong_lengths(),
            10 => self.cut_uart(),
            11 => self.noise(),
            12 => self.strange_record(),
            13 => self.noise_with_start(),
            _ if self.random.chance(30) => self.round_sum_scene(),
            _ => self.noise(),
        }
    }

    /// Whether full lengths are lent.
    fn lengths_right(&self) -> bool {
        self.session.lent_flash == FLASH_CELLS && self.session.lent_eeprom == EEPROM_CELLS
    }

    /// Whether the node is in error mode or waiting for restart.
    fn deaf(&self) -> bool {
        matches!(self.session.node.mode, Mode::Error | Mode::Waiting)
    }

    /// Whether the node is in programming mode.
    fn programming(&self) -> bool {
        matches!(self.session.node.mode, Mode::Programming(_))
    }

    /// The own numbers of the node.
    fn own(&self) -> (u8, u8) {
        (self.session.node.module, self.session.node.group)
    }
}
