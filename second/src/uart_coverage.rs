//! What a run of UART bytes was: noise with 0xAA inside, a frame with a byte too many or too few, a
//! frame with a restart inside.

use crate::event::Event;
use crate::frames::{self, FRAME, START, STOP, WRAPPED};
use crate::node::{Node, Way, HELD};
use crate::numbers::*;

/// The rows that a run of bytes may come to.
pub const RUN_ROWS: [&str; 4] = [
    "0xAA inside noise swallows a frame's beginning",
    "a byte inserted into a frame",
    "a byte lost from a frame",
    "a restart inside a frame",
];

/// What stood between a UART byte and the one before it.
#[derive(Clone, Copy, PartialEq, Eq)]
enum Between {
    Nothing,
    Restart,
    Other,
}

/// A UART byte as the node met it: behind how many held ones, and with what number.
struct Met {
    byte: u8,
    held: usize,
    number: u8,
    between: Between,
}

/// The UART bytes of a session so far.
pub struct Run {
    met: Vec<Met>,
    between: Between,
}

/// Whether these bytes are a frame, rightly wrapped.
fn right(bytes: &[u8]) -> bool {
    frames::unwrap(bytes, &mut [0; FRAME]) == DONE
}

impl Run {
    /// The run before a session's first byte.
    pub fn new() -> Run {
        Run { met: Vec::new(), between: Between::Other }
    }

    /// Takes the next event; gives the rows that a UART byte completes.
    pub fn take(&mut self, before: &Node, event: &Event, number: u8) -> Vec<&'static str> {
        let Event::UartByte(byte) = event else {
            let restart = matches!(event, Event::Restart { .. }) && number == DONE;
            let alone = restart && self.between == Between::Nothing;
            self.between = if alone { Between::Restart } else { Between::Other };
            return vec![];
        };
        let held = before.tidied().held_count as usize;
        self.met.push(Met { byte: *byte, held, number, between: self.between });
        self.between = Between::Nothing;
        let swallows = before.way == Way::Old && self.noise();
        let found = [swallows, self.inserted(), self.lost(), self.restarted()];
        (0..RUN_ROWS.len()).filter(|&row| found[row]).map(|row| RUN_ROWS[row]).collect()
    }

    /// Takes an event without an answer.
    pub fn break_off(&mut self) {
        self.between = Between::Other;
    }

    /// The last so many bytes, none where there are fewer.
    fn last(&self, count: usize) -> Option<&[Met]> {
        self.met.len().checked_sub(count).map(|from| &self.met[from..])
    }

    /// The last so many bytes where nothing stood between them.
    fn unbroken(&self, count: usize) -> Option<&[Met]> {
        let last = self.last(count)?;
        last[1..].iter().all(|met| met.between == Between::Nothing).then_some(last)
    }

    /// How many bytes were held when the frame began that ends here, where it is a right one.
    fn held_at_frame(&self) -> Option<usize> {
        let frame = self.unbroken(WRAPPED)?;
        let bytes: Vec<u8> = frame.iter().map(|met| met.byte).collect();
        right(&bytes).then_some(frame[0].held)
    }

    /// A right frame ends here that began behind a held 0xAA, which itself came behind noise.
    fn noise(&self) -> bool {
        let Some(held @ 1..) = self.held_at_frame() else { return false };
        let Some(all) = self.unbroken(WRAPPED + held + 1) else { return false };
        all[0].held == 0 && all[0].byte != START && all[0].number == INCOMPLETE
    }

    /// Fifteen bytes came to 11, and with this one they would be a right frame but for one.
    fn inserted(&self) -> bool {
        let Some(all) = self.unbroken(WRAPPED + 1) else { return false };
        if all[0].held != 0 || all[HELD].number != BAD_WRAPPING {
            return false;
        }
        let bytes: Vec<u8> = all.iter().map(|met| met.byte).collect();
        (1..WRAPPED).any(|at| right(&[&bytes[..at], &bytes[at + 1..]].concat()))
    }

    /// A right frame ends here whose 0xAA was the fifteenth byte of a frame that had lost one.
    fn lost(&self) -> bool {
        let Some(HELD) = self.held_at_frame() else { return false };
        let Some(all) = self.unbroken(WRAPPED + 1) else { return false };
        all[0].byte == STOP && all[1].number == BAD_WRAPPING
    }

    /// The last fifteen bytes would be a right frame, but for a restart between two of them.
    fn restarted(&self) -> bool {
        let Some(all) = self.last(WRAPPED) else { return false };
        let bytes: Vec<u8> = all.iter().map(|met| met.byte).collect();
        let broken = |met: &&Met| met.between != Between::Nothing;
        let mut breaks = all[1..].iter().filter(broken);
        let Some(met) = breaks.next() else { return false };
        breaks.next().is_none()
            && met.between == Between::Restart
            && met.held == 0
            && all[0].held == 0
            && all[0].number == INCOMPLETE
            && right(&bytes)
    }
}
