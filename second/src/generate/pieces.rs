//! Sessions whose UART bytes come in pieces. What the other generators send byte by byte goes into
//! a ring, which is handed over, cut in some way, before anything else happens.

use super::ports::Port;
use super::Writer;
use crate::event::{Event, LONGEST_RING, MOST_CALLS};
use crate::frames::{self, WRAPPED};
use crate::numbers::*;
use std::io::Write;

/// The length of a call that asks for all that the ring holds.
const ALL: u8 = 255;
/// The ring is handed over before it holds more than so many bytes.
const FULL_RING: usize = 120;

impl<W: Write> Writer<'_, W> {
    /// Puts a byte into the ring.
    pub fn put_in_ring(&mut self, byte: u8) {
        self.ring.push(byte);
        if self.ring.len() >= FULL_RING {
            self.hand_over();
        }
    }

    /// Hands over what the ring holds until nothing is left. Where the node takes nothing, what is
    /// left is dropped, or stays for later.
    pub fn hand_over(&mut self) {
        while !self.ring.is_empty() && self.session.events < self.limit {
            if self.random.chance(1) {
                self.by_bytes();
                return;
            }
            let mut count = self.ring.len().min(LONGEST_RING);
            if self.random.chance(15) {
                count = 1 + self.random.below(count);
            }
            let lengths = self.lengths(count);
            let ring = self.ring[..count].to_vec();
            let (taken, number) = self.call(ring, lengths);
            self.ring.drain(..taken);
            if [MEMORY_LENGTH, PIN_CAN_ONLY, DEAF].contains(&number) {
                if self.random.chance(70) {
                    self.ring.clear();
                }
                return;
            }
        }
    }

    /// Hands over what the ring holds byte by byte.
    fn by_bytes(&mut self) {
        for byte in std::mem::take(&mut self.ring) {
            self.write(Event::UartByte(byte));
        }
    }

    /// Writes one record of pieces and does its calls; gives the bytes taken and the last number.
    pub fn call(&mut self, ring: Vec<u8>, mut lengths: Vec<u8>) -> (usize, u8) {
        let room = self.limit - self.session.events;
        lengths.truncate(room.min(MOST_CALLS as u64) as usize);
        let answers = self.write(Event::UartPieces { ring, lengths });
        let taken = answers.iter().map(|answer| answer.taken()).sum();
        (taken, answers.last().map_or(INCOMPLETE, |answer| answer.number))
    }

    /// The lengths of some calls for so many bytes: all at once, byte by byte, at the rims of a
    /// frame, a frame with some bytes and then these alone, or any, also none.
    fn lengths(&mut self, count: usize) -> Vec<u8> {
        let calls = 1 + self.random.below(3);
        let some = 1 + self.random.below(20) as u8;
        let frame = WRAPPED as u8;
        match self.random.weighted(&[30, 6, 12, 8, 8, 12, 14, 10]) {
            0 => vec![ALL; calls],
            1 => vec![1; MOST_CALLS.min(count)],
            2 => vec![frame; 1 + count / WRAPPED],
            3 => vec![frame - 1, 1, frame - 1, 1],
            4 => vec![frame - 1, self.random.pick(&[2, frame, frame + 1, ALL]), frame],
            5 => vec![frame + some, some, self.random.pick(&[0, frame, ALL])],
            6 => (0..2 * calls).map(|_| self.random.below(12) as u8).collect(),
            _ => (0..calls).map(|_| self.random.pick(&[0, 1, 2, 13, 16, 31, 43, some])).collect(),
        }
    }

    /// One scene of a session in pieces; behind it the ring is handed over, or waits for more.
    pub fn piece_scene(&mut self) {
        if !self.lengths_right() && self.random.chance(60) {
            self.lend_right();
        }
        if self.deaf() && self.random.chance(55) {
            self.prepared_restart();
            return;
        }
        match self.random.weighted(&[34, 14, 3, 2, 2, 6, 3, 4, 4, 3, 2, 6, 10, 3, 5, 1, 1]) {
            0 => (0..1 + self.random.below(4)).for_each(|_| self.any_request()),
            1 => self.programming_scene(),
            2 => self.prepared_restart(),
            3 => self.emit_restart(),
            4 => self.show(),
            5 => self.hand_in(),
            6 => self.poke(),
            7 => self.wrong_lengths(),
            8 => self.cut_uart(),
            9 => self.noise(),
            10 => self.noise_with_start(),
            11 => self.empty_pieces(),
            12 => self.crowd(),
            13 => self.leave_with_bytes_behind(),
            14 => self.piece_after_hand_in(),
            15 => self.strange_record(),
            _ => self.round_sum_scene(),
        }
        if self.random.chance(70) {
            self.hand_over();
        }
    }

    /// Calls that get no bytes, whatever the node is, as the ring is empty or their length is 0.
    fn empty_pieces(&mut self) {
        if self.random.chance(30) {
            self.lend_wrong();
        }
        if self.random.chance(30) {
            self.cut_uart();
        }
        self.hand_over();
        let lengths = vec![self.random.pick(&[0, 1, ALL]); 1 + self.random.below(3)];
        self.call(vec![], lengths);
    }

    /// Some frames at once, with noise between them now and then.
    fn crowd(&mut self) {
        for _ in 0..2 + self.random.below(4) {
            let frame = self.some_frame();
            self.send(Port::Uart, frame);
        }
    }

    /// A frame that makes the node wait, and bytes behind it, a whole frame or any.
    fn leave_with_bytes_behind(&mut self) {
        self.hand_over();
        let kind = match self.programming() {
            true => self.random.pick(&[0x010, 0x020]),
            false => self.random.pick(&[0x101, 0x102]),
        };
        let mut ring = frames::wrapped(&self.frame_of(kind)).to_vec();
        let behind = if self.random.chance(50) {
            frames::wrapped(&self.some_frame()).to_vec()
        } else {
            let count = 1 + self.random.below(LONGEST_RING - WRAPPED);
            self.some_bytes(count)
        };
        ring.extend(behind);
        let lengths = vec![ALL; 1 + self.random.below(3)];
        self.call(ring, lengths);
    }

    /// A record of any kind, and then at once a piece, which shows what it counts as.
    fn piece_after_hand_in(&mut self) {
        let record = self.hostile_record();
        self.emit(Event::HandIn(record));
        match self.random.below(5) {
            0 => self.empty_pieces(),
            1 => self.noise(),
            2 => {
                let frame = self.frame_of(0x040);
                self.send(Port::Uart, frame);
            }
            _ => self.finish_held(),
        }
        self.hand_over();
    }
}
