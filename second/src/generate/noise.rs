//! Noise around 0xAA, for nodes that keep some bytes after 11 and for nodes that drop them all.

use super::ports::Port;
use super::Writer;
use crate::event::Event;
use crate::frames::{self, Frame, FRAME, START, STOP, WRAPPED};
use crate::memory::EEPROM_BASE;
use crate::node::{Pin, HELD};
use crate::node_record::*;
use std::io::Write;

/// A byte of noise that no frame begins with.
const IDLE: u8 = 0x2A;

impl<W: Write> Writer<'_, W> {
    /// What is said of the way at a restart or in a record: nothing in the streams of before A2.
    pub fn some_way(&mut self) -> u8 {
        match self.both_ways {
            true => self.random.pick(&[0, 0, 0, 1, 1, 1, 2, 2, 2, 3, 255]),
            false => 0,
        }
    }

    /// Says which way is meant from here on.
    pub fn mean(&mut self) {
        let way = self.random.pick(&[0, 1, 2, 2, 255]);
        self.emit(Event::Meant(way));
    }

    /// What a fresh node refuses, and tells its way with: bytes, a frame, or a restart with 1.
    pub fn fresh_scene(&mut self) {
        match self.random.below(3) {
            0 => self.noise(),
            1 => {
                let frame = self.some_frame();
                self.send(Port::Can, frame);
            }
            _ => {
                self.lend_wrong();
                self.emit_restart();
                self.lend_right();
            }
        }
        self.hand_over();
    }

    /// One scene of a session in both ways.
    pub fn ways_scene(&mut self) {
        match self.random.below(20) {
            0 => self.mean(),
            1..=9 => self.noise_scene(),
            _ if self.in_pieces => self.piece_scene(),
            _ => self.scene(),
        }
    }

    /// Noise to a node that hears it and holds nothing; mostly with frames among it.
    fn noise_scene(&mut self) {
        self.listen();
        match self.random.weighted(&[10, 20, 10, 8, 8, 8, 6, 6, 10, 8, 8]) {
            0 => self.frame_behind_starts(1),
            1 => self.frame_behind_noise(),
            2 => self.wrong_fifteen_scene(),
            3 => {
                let starts = 2 + self.random.below(HELD);
                self.frame_behind_starts(starts);
            }
            4 => self.frame_behind_wrong_stop(),
            5 => self.frame_behind_wrong_sum(),
            6 => self.frame_inside_noise(),
            7 => self.frame_swallowed(),
            8 => self.restart_in_noise(),
            9 => self.programming_in_noise(),
            _ => self.held_noise_handed_in(),
        }
    }

    /// Makes the node hear UART with nothing held: by a restart, or by idle bytes.
    fn listen(&mut self) {
        self.hand_over();
        self.ring.clear();
        if !self.lengths_right() {
            self.lend_right();
        }
        let closed = self.session.node.pin == Pin::CanOnly || self.deaf();
        if closed || self.random.chance(30) {
            self.open_restart();
        }
        for _ in 0..HELD {
            let held = self.session.node.tidied().held_count as usize;
            if held > 0 {
                self.send_bytes(&[IDLE; WRAPPED][held..]);
                self.hand_over();
            }
        }
    }

    /// A restart after which the node hears UART, in normal or programming mode.
    fn open_restart(&mut self) {
        let bootfl = self.random.pick(&[0x00, 0x00, 0xFF]);
        self.set(EEPROM_BASE, bootfl);
        let way = self.some_way();
        self.emit(Event::Restart { pin: 1, self_test: 0, way });
    }

    /// Sends bytes on UART as they are.
    fn send_bytes(&mut self, bytes: &[u8]) {
        for byte in bytes {
            self.emit(Event::UartByte(*byte));
        }
    }

    /// Sends a frame on UART without damage.
    pub fn send_whole(&mut self, frame: Frame) {
        self.send_bytes(&frames::wrapped(&frame));
    }

    /// Sends some frame on UART without damage.
    fn send_some(&mut self) {
        let frame = self.some_frame();
        self.send_whole(frame);
    }

    /// A byte of noise other than 0xAA.
    fn no_start(&mut self) -> u8 {
        match self.random.byte() {
            START => IDLE,
            byte => byte,
        }
    }

    /// So many bytes of noise that begin with 0xAA, with others among them or not.
    fn noise_from_start(&mut self, count: usize) -> Vec<u8> {
        let more = self.random.pick(&[0, 0, 15, 50]);
        let mut bytes = vec![START];
        for _ in 1..count {
            let other = self.no_start();
            bytes.push(if self.random.chance(more) { START } else { other });
        }
        bytes
    }

    /// So many 0xAA directly before a frame.
    fn frame_behind_starts(&mut self, count: usize) {
        self.send_bytes(&[START; WRAPPED][..count]);
        self.send_some();
    }

    /// Noise that begins with 0xAA, then a frame, mostly before the noise has come to 11.
    fn frame_behind_noise(&mut self) {
        let count = match self.random.below(4) {
            0 => HELD + self.random.below(30),
            _ => 1 + self.random.below(HELD),
        };
        let noise = self.noise_from_start(count);
        self.send_bytes(&noise);
        self.send_some();
    }

    /// Places of 0xAA among the fourteen others: none, the second, the fifteenth, one in between,
    /// or several.
    fn starts(&mut self) -> Vec<usize> {
        let between = 2 + self.random.below(12);
        match self.random.below(7) {
            0 => vec![],
            1 => vec![1],
            2 => vec![14],
            3 => vec![between],
            4 => vec![1, between],
            5 => vec![between, 14],
            _ => (0..2 + self.random.below(4)).map(|_| 1 + self.random.below(14)).collect(),
        }
    }

    /// Fifteen bytes that begin with 0xAA and have a wrong sum, a wrong stop or both.
    fn wrong_fifteen(&mut self) -> [u8; WRAPPED] {
        let mut bytes: [u8; WRAPPED] = std::array::from_fn(|_| self.no_start());
        bytes[0] = START;
        for at in self.starts() {
            bytes[at] = START;
        }
        let sum = frames::sum(&bytes[1..13]);
        match self.random.below(3) {
            0 => bytes[13] = sum,
            1 if bytes[14] != START => bytes[14] = STOP,
            _ => {}
        }
        if bytes[13] == sum && bytes[14] == STOP {
            let wrong = if self.random.chance(50) { 13 } else { 14 };
            bytes[wrong] ^= 0x40;
        }
        bytes
    }

    /// Fifteen wrong bytes, and then what is held is completed, or a frame comes, or idle bytes.
    fn wrong_fifteen_scene(&mut self) {
        let bytes = self.wrong_fifteen();
        self.send_bytes(&bytes);
        match self.random.below(4) {
            0..=1 => self.finish_held(),
            2 => self.send_some(),
            _ => self.send_bytes(&[IDLE; WRAPPED]),
        }
    }

    /// A frame with a wrong stop, which may be the 0xAA of the next, then a frame.
    fn frame_behind_wrong_stop(&mut self) {
        let frame = self.some_frame();
        let mut bytes = frames::wrapped(&frame).to_vec();
        match self.random.pick(&[START, 0x00, 0xA4, 0xFF, STOP]) {
            STOP => drop(bytes.pop()),
            wrong => bytes[14] = wrong,
        }
        self.send_bytes(&bytes);
        self.send_some();
    }

    /// A frame with a wrong sum, or with a byte lost, then it again.
    fn frame_behind_wrong_sum(&mut self) {
        let frame = self.some_frame();
        let mut bytes = frames::wrapped(&frame).to_vec();
        match self.random.below(3) {
            0 => bytes[13] ^= 1 << self.random.below(8),
            1 => bytes[1 + self.random.below(12)] ^= 1 << self.random.below(8),
            _ => drop(bytes.remove(1 + self.random.below(13))),
        }
        self.send_bytes(&bytes);
        self.send_whole(frame);
    }

    /// Noise that holds a whole right frame, then a frame.
    fn frame_inside_noise(&mut self) {
        let count = 2 + self.random.below(HELD);
        let before = self.noise_from_start(count);
        self.send_bytes(&before);
        self.send_some();
        let behind: Vec<u8> = (0..self.random.below(9)).map(|_| self.no_start()).collect();
        self.send_bytes(&behind);
        self.send_some();
    }

    /// Noise that is a right frame together with the beginning of the frame behind it; then that
    /// frame again.
    fn frame_swallowed(&mut self) {
        let mut frame = self.some_frame();
        let count = 2 + self.random.below(7);
        let noise = self.noise_from_start(count);
        // The noise's stop and sum are among the frame's data; wrapped, each is one place further.
        let stop = HELD - count;
        frame[stop - 1] = STOP;
        let twelve = [&noise[1..], &[START], &frame[..stop - 2]].concat();
        frame[stop - 2] = frames::sum(&twelve[..FRAME]);
        self.send_bytes(&noise);
        self.send_whole(frame);
        self.send_whole(frame);
    }

    /// A restart in mid-frame, done or refused with 1, passed or failed; then the rest, then noise.
    fn restart_in_noise(&mut self) {
        let frame = self.some_frame();
        let cut = 1 + self.random.below(HELD);
        let bytes = frames::wrapped(&frame);
        self.send_bytes(&bytes[..cut]);
        let refused = self.random.chance(40);
        if refused {
            self.lend_wrong();
        }
        let (self_test, way) = (self.random.pick(&[0, 0, 0, 1]), self.some_way());
        self.emit(Event::Restart { pin: 1, self_test, way });
        if refused {
            self.lend_right();
        }
        self.send_bytes(&bytes[cut..]);
        self.hand_over();
        if self.deaf() {
            self.ring.clear();
            self.open_restart();
        }
        self.frame_behind_noise();
    }

    /// 0x100 to a node in normal mode, on CAN in mid-noise or on UART before it.
    fn programming_in_noise(&mut self) {
        if self.programming() {
            self.set(EEPROM_BASE, 0x00);
            let way = self.some_way();
            self.emit(Event::Restart { pin: 1, self_test: 0, way });
        }
        let (module, group) = self.own();
        let data = [0xFF, 0xFF, module, group, 0xFF, 0xFF, 0xFF, 0xFF];
        let enter = frames::frame(0x100, 0, 0xF0, 0xF0, data);
        let bytes = self.wrong_fifteen();
        let cut = self.random.below(WRAPPED);
        if self.random.chance(50) {
            self.send_bytes(&bytes[..cut]);
            self.send(Port::Can, enter);
            self.send_bytes(&bytes[cut..]);
        } else {
            self.send_whole(enter);
            self.send_bytes(&bytes);
        }
        self.send_some();
    }

    /// A record with fourteen held bytes and some way; the next byte comes to 11. Then a frame.
    fn held_noise_handed_in(&mut self) {
        self.hand_over();
        let bytes = self.wrong_fifteen();
        let mut record = [0; HANDED];
        record[..NODE].copy_from_slice(&write(&self.session.node.tidied()));
        record[0] = 1;
        record[HELD_COUNT_AT] = HELD as u8;
        record[HELD_AT..MODE_AT].copy_from_slice(&bytes[..HELD]);
        record[FIFTEENTH_AT] = self.random.pick(&[0x00, START, 0x77]);
        record[WAY_AT] = self.some_way();
        self.emit(Event::HandIn(record));
        self.send_bytes(&bytes[HELD..]);
        self.send_some();
    }
}
