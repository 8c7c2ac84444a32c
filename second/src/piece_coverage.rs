//! What the UART pieces of a session were: empty, ended by an outcome, leftovers, a frame's part.

use crate::event::Event;
use crate::frames::{self, Frame, FRAME, START, WRAPPED};
use crate::node::{Mode, Node, HELD};
use crate::numbers::*;
use crate::session::{Answer, Session};

/// The rows that pieces ought to reach beside those that they share with both ports.
pub const PIECE_ROWS: [&str; 29] = [
    "empty, 1",
    "empty, 2",
    "empty, 3",
    "empty, 10",
    "empty, 10 with bytes held",
    "1, none of some bytes taken",
    "2, none of some bytes taken",
    "3, none of some bytes taken",
    "10, all taken, bytes held behind it",
    "10, noise alone",
    "of one byte",
    "of more than fifteen bytes, all taken, 10",
    "ended by an outcome, bytes left over",
    "ended by 11, bytes left over",
    "leftovers alone",
    "leftovers with more behind them",
    "two whole frames",
    "a frame over three pieces or more",
    "noise, then a frame",
    "first byte completes a frame",
    "last byte completes a frame",
    "first byte comes to 11",
    "two replies",
    "0x101 or 0x102, and none of the bytes behind it taken, 3",
    "0x010 or 0x020, and none of the bytes behind it taken, 3",
    "after a count above 14",
    "after held bytes not starting with 0xAA",
    "after bytes not 0x00 behind the held ones",
    "after an untidy staged command",
];

/// One piece as the node met it, and what came of it.
pub struct Met<'a> {
    before: &'a Node,
    tidied: Node,
    after: &'a Node,
    piece: &'a [u8],
    taken: usize,
    number: u8,
    replies: u8,
}

/// The rows that hold.
fn holding(rows: &[(&'static str, bool)]) -> Vec<&'static str> {
    rows.iter().filter(|(_, holds)| *holds).map(|(row, _)| *row).collect()
}

impl<'a> Met<'a> {
    /// The piece of an answered event, none of another event; the session is the one after it.
    pub fn of(
        before: &'a Node,
        session: &'a Session,
        event: &'a Event,
        answer: &Answer,
    ) -> Option<Met<'a>> {
        Some(Met {
            before,
            tidied: before.tidied(),
            after: &session.node,
            piece: event.piece()?,
            taken: answer.taken(),
            number: answer.number,
            replies: answer.line[3],
        })
    }

    /// Whether the node heard it: neither 1 nor 2 nor 3.
    fn heard(&self) -> bool {
        ![MEMORY_LENGTH, PIN_CAN_ONLY, DEAF].contains(&self.number)
    }

    /// Whether bytes are left over behind an outcome.
    fn leftovers(&self) -> bool {
        self.heard() && self.taken < self.piece.len()
    }

    /// The frame that its last byte taken completes, where sum and stop are right.
    pub fn frame(&self) -> Option<Frame> {
        if !self.heard() || [INCOMPLETE, BAD_WRAPPING].contains(&self.number) {
            return None;
        }
        let taken = &self.piece[..self.taken];
        let (_, fifteen) = frames::first_fifteen(self.tidied.held_bytes(), taken)?;
        Some(std::array::from_fn(|i| fifteen[1 + i]))
    }

    /// Whether two whole frames, rightly wrapped, stand in it.
    fn two_frames(&self) -> bool {
        let right = |fifteen: &&[u8; WRAPPED]| frames::unwrap(*fifteen, &mut [0; FRAME]) == DONE;
        let fifteens = self.before.way.fifteens(&[], self.piece);
        self.tidied.held_count == 0 && fifteens.iter().filter(right).count() >= 2
    }

    /// The rows of the record that it met, where the node heard it.
    fn record_rows(&self) -> Vec<&'static str> {
        let (count, held) = (self.before.held_count, self.before.held);
        let tidy = count <= HELD as u64 && held[0] == START;
        let beyond = tidy && held[count as usize..].iter().any(|&byte| byte != 0);
        let other = (1..=HELD as u64).contains(&count) && held[0] != START;
        holding(&[
            ("after a count above 14", self.heard() && count > HELD as u64),
            ("after held bytes not starting with 0xAA", self.heard() && other),
            ("after bytes not 0x00 behind the held ones", self.heard() && beyond),
            (
                "after an untidy staged command",
                self.heard() && self.tidied.mode != self.before.mode,
            ),
        ])
    }

    /// The rows of a piece without bytes.
    fn empty_rows(&self) -> Vec<&'static str> {
        holding(&[
            ("empty, 1", self.number == MEMORY_LENGTH),
            ("empty, 2", self.number == PIN_CAN_ONLY),
            ("empty, 3", self.number == DEAF),
            ("empty, 10", self.number == INCOMPLETE),
            ("empty, 10 with bytes held", self.number == INCOMPLETE && self.after.held_count > 0),
        ])
    }

    /// The rows of a piece with bytes that gave 1, 2, 3 or 10.
    fn unended_rows(&self) -> Vec<&'static str> {
        let (none, all) = (self.taken == 0, self.taken == self.piece.len());
        let ten = self.number == INCOMPLETE && all;
        let noise = self.tidied.held_count == 0 && self.after.held_count == 0;
        holding(&[
            ("1, none of some bytes taken", self.number == MEMORY_LENGTH && none),
            ("2, none of some bytes taken", self.number == PIN_CAN_ONLY && none),
            ("3, none of some bytes taken", self.number == DEAF && none),
            ("10, all taken, bytes held behind it", ten && self.after.held_count > 0),
            ("10, noise alone", ten && noise),
            ("of more than fifteen bytes, all taken, 10", ten && self.taken > HELD + 1),
            ("of one byte", self.piece.len() == 1 && all),
        ])
    }

    /// The rows of a piece with bytes that gave an outcome behind one of them.
    fn ended_rows(&self) -> Vec<&'static str> {
        let (frame, bad) = (self.frame().is_some(), self.number == BAD_WRAPPING);
        let first = self.tidied.held_count == HELD as u64;
        let noise = self.tidied.held_count == 0 && self.piece[0] != START;
        holding(&[
            ("ended by an outcome, bytes left over", frame && self.leftovers()),
            ("ended by 11, bytes left over", bad && self.leftovers()),
            ("two whole frames", frame && self.two_frames()),
            ("noise, then a frame", frame && noise),
            ("first byte completes a frame", frame && first),
            ("first byte comes to 11", bad && first),
            ("last byte completes a frame", frame && self.taken == self.piece.len()),
            ("two replies", self.replies == 2),
        ])
    }
}

/// What the pieces of a session have come to, as far as nothing stood between them.
#[derive(Default)]
pub struct Pieces {
    /// The bytes that the last piece left over behind an outcome.
    left: Vec<u8>,
    /// The type of the frame behind which the node waits for restart.
    waits: Option<u16>,
    /// How many pieces gave bytes to what is held.
    parts: usize,
}

impl Pieces {
    /// Takes the next piece; gives the rows that it reaches.
    pub fn take(&mut self, met: &Met) -> Vec<&'static str> {
        let mut rows = met.record_rows();
        if met.piece.is_empty() {
            rows.extend(met.empty_rows());
            return rows;
        }
        rows.extend(met.unended_rows());
        rows.extend(met.ended_rows());
        rows.extend(self.left_rows(met));
        rows.extend(self.part_rows(met));
        if met.heard() {
            self.left = met.piece[met.taken..].to_vec();
            let waits = met.after.mode == Mode::Waiting;
            self.waits = met.frame().filter(|_| waits).map(|frame| frames::kind(&frame));
        }
        rows
    }

    /// The rows of a piece that begins with what the one before it left over.
    fn left_rows(&self, met: &Met) -> Vec<&'static str> {
        let again = !self.left.is_empty() && met.piece.starts_with(&self.left);
        let alone = met.piece.len() == self.left.len();
        let none = again && met.number == DEAF && met.taken == 0;
        let behind = |kinds: [u16; 2]| none && self.waits.is_some_and(|kind| kinds.contains(&kind));
        let [normal, programming] = [behind([0x101, 0x102]), behind([0x010, 0x020])];
        holding(&[
            ("leftovers alone", again && alone && met.heard()),
            ("leftovers with more behind them", again && !alone && met.heard()),
            ("0x101 or 0x102, and none of the bytes behind it taken, 3", normal),
            ("0x010 or 0x020, and none of the bytes behind it taken, 3", programming),
        ])
    }

    /// The row of a piece that completes a frame begun two pieces or more before.
    fn part_rows(&mut self, met: &Met) -> Vec<&'static str> {
        if !met.heard() {
            return vec![];
        }
        if met.tidied.held_count == 0 {
            self.parts = 0;
        }
        self.parts += 1;
        let three = met.frame().is_some() && self.parts >= 3;
        if met.number == BAD_WRAPPING {
            // What is kept counts as of one piece.
            self.parts = 1;
        }
        holding(&[("a frame over three pieces or more", three)])
    }
}
