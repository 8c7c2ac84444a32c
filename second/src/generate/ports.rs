//! Hands frames and bytes to the node, on CAN or on UART, whole or damaged.

use super::Writer;
use crate::event::{Event, CAN_BEHIND, CAN_IN_RECORD, LONGEST, LONGEST_CAN};
use crate::frames::{self, Frame, FRAME, START, STOP, WRAPPED};
use crate::node::{Pin, HELD};
use std::io::Write;

#[derive(Clone, Copy, PartialEq, Eq)]
pub enum Port {
    Can,
    Uart,
}

impl<W: Write> Writer<'_, W> {
    /// Mostly CAN, as a UART frame takes fifteen events, but not in pieces; seldom UART where the
    /// node won't hear.
    pub fn port(&mut self) -> Port {
        let hears = self.session.node.pin == Pin::CanAndUart && !self.deaf();
        let often = if self.in_pieces { 70 } else { 25 };
        if self.random.chance(if hears { often } else { 3 }) {
            Port::Uart
        } else {
            Port::Can
        }
    }

    /// Hands a frame to the node, sometimes at a wrong length on CAN, damaged on UART.
    pub fn send(&mut self, port: Port, frame: Frame) {
        if port == Port::Uart {
            self.send_uart(frame);
        } else if self.random.chance(4) {
            let bytes = self.of_wrong_length(frame);
            self.emit(Event::CanFrame(bytes));
        } else {
            self.emit(Event::CanFrame(frame.to_vec()));
        }
    }

    /// A frame cut short, wrapped, or with bytes behind it: one more, some, or 256 more.
    pub fn of_wrong_length(&mut self, frame: Frame) -> Vec<u8> {
        let mut bytes = frame.to_vec();
        let length = match self.random.below(10) {
            0..=2 => self.random.pick(&[11, 13]),
            3..=4 => self.random.below(LONGEST + 1),
            5 => LONGEST + 1 + self.random.below(CAN_IN_RECORD - LONGEST),
            6 => self.random.pick(&[24, 256, 1_023, LONGEST_CAN]),
            7 => FRAME + 256 * (1 + self.random.below(3)),
            _ => return frames::wrapped(&frame).to_vec(),
        };
        bytes.resize(length, CAN_BEHIND);
        bytes
    }

    /// Sends a wrapped frame byte by byte, with noise, damage and interruptions.
    pub fn send_uart(&mut self, frame: Frame) {
        if self.session.node.held_count > 0 && self.random.chance(70) {
            self.finish_held();
        }
        if self.random.chance(8) {
            self.noise();
        }
        let mut bytes = frames::wrapped(&frame).to_vec();
        if self.random.chance(self.damage) {
            match self.random.below(7) {
                0 => bytes[13] = bytes[13].wrapping_add(self.random.pick(&[1, 255, 128])),
                1 => bytes[14] = self.random.pick(&[0xAA, 0xA4, 0x00, 0xFF]),
                2 => bytes[13] = self.random.any(),
                3 => bytes[1 + self.random.below(12)] ^= 1 << self.random.below(8),
                4 => bytes.truncate(self.random.below(WRAPPED)),
                5 => bytes.insert(1 + self.random.below(HELD), self.random.byte()),
                _ => {
                    // A byte is lost, and the frame is sent again at once.
                    let whole = bytes.clone();
                    bytes.remove(1 + self.random.below(HELD - 1));
                    bytes.extend(whole);
                }
            }
        }
        for byte in bytes {
            if self.random.chance(1) {
                self.interrupt(byte);
            }
            self.emit(Event::UartByte(byte));
        }
    }

    /// Something else between two bytes of a UART frame.
    pub fn interrupt(&mut self, byte: u8) {
        match self.random.below(9) {
            0..=3 => {
                let frame = self.some_frame();
                self.send(Port::Can, frame);
            }
            4 => self.show(),
            5 => self.poke(),
            6 => self.hand_in(),
            7 => self.emit_restart(),
            _ => {
                self.lend_wrong();
                self.emit(Event::UartByte(byte));
                self.lend_right();
            }
        }
    }

    /// Completes the bytes already held: with the right sum, or with wrong bytes.
    pub fn finish_held(&mut self) {
        self.hand_over();
        let node = self.session.node.tidied();
        let count = node.held_count as usize;
        if count == 0 {
            return;
        }
        let mut bytes = [0; WRAPPED];
        bytes[..HELD].copy_from_slice(&node.held[..HELD]);
        for byte in bytes.iter_mut().skip(count) {
            *byte = self.random.byte();
        }
        if self.random.chance(80) {
            if count <= 13 {
                bytes[13] = frames::sum(&bytes[1..13]);
            }
            bytes[14] = STOP;
        }
        for byte in &bytes[count..] {
            self.emit(Event::UartByte(*byte));
        }
    }

    /// The beginning of a UART frame, without its end.
    pub fn cut_uart(&mut self) {
        let frame = self.some_frame();
        let count = 1 + self.random.below(HELD);
        for byte in &frames::wrapped(&frame)[..count] {
            self.emit(Event::UartByte(*byte));
        }
    }

    /// Some bytes on UART that are no frame.
    pub fn noise(&mut self) {
        for _ in 0..1 + self.random.below(6) {
            let byte = self.random.byte();
            self.emit(Event::UartByte(if byte == START { 0x2A } else { byte }));
        }
    }

    /// Noise with 0xAA inside, and at once a whole frame, whose beginning it swallows.
    pub fn noise_with_start(&mut self) {
        self.noise();
        self.emit(Event::UartByte(START));
        for _ in 0..self.random.below(6) {
            let byte = self.random.byte();
            self.emit(Event::UartByte(byte));
        }
        let frame = self.some_frame();
        for byte in frames::wrapped(&frame) {
            self.emit(Event::UartByte(byte));
        }
    }
}
