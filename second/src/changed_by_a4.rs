//! What request A4 changed: a stream is run by the rule of before it and by its own, side by side.
//! The answers must be equal but for the mark of the firmware and the reply to 0x106, and the
//! memories in every cell.

use crate::before_a4::Rule;
use crate::event::{records, Event};
use crate::frames::{self, Frame, FRAME};
use crate::memory::{firmware_sum, flag_byte, CELLS_DIFFER};
use crate::node::{Mode, Node};
use crate::node_record;
use crate::numbers::DONE;
use crate::session::{Answer, Session};
use std::io::{self, Write};

/// How many events were compared, and how often each thing differed that may.
#[derive(Default)]
pub struct Counts {
    pub events: u64,
    pub marks: u64,
    /// Replies 0x1F1 in the place of the ordinary one, by flag byte.
    pub other_type: [u64; 4],
    /// Replies 0x1F1 of both, by the flag byte in the place of 0x01.
    pub flag_byte: [u64; 4],
}

/// Both sessions over one stream.
pub struct Pair {
    pub before: Session,
    pub now: Session,
    /// Whether the node has its mark from a restart that found equal sums and other cells.
    other_cells: bool,
    pub counts: Counts,
}

impl Pair {
    /// Both before any event.
    pub fn new() -> Pair {
        Pair {
            before: Session::by(Rule::BeforeA4),
            now: Session::by(Rule::Now),
            other_cells: false,
            counts: Counts::default(),
        }
    }

    /// Does an event in both, of UART pieces the first call; gives the calls behind it, or what
    /// differs that must not.
    pub fn take(&mut self, event: &Event) -> Result<Option<Event>, &'static str> {
        let (before, now) = (self.before.apply(event), self.now.apply(event));
        self.look_for_mark(event, before.as_ref());
        if self.before.flash != self.now.flash || self.before.eeprom != self.now.eeprom {
            return Err("the memories differ");
        }
        if !self.nodes_agree() {
            return Err("the nodes are not equal but for a mark that must differ");
        }
        match (before, now) {
            (None, None) => Ok(None),
            (Some(before), Some(now)) if now.line == self.line_becomes(event, &before) => {
                self.counts.events += 1;
                Ok(now.left)
            }
            _ => Err("the answers differ in more than the mark and the reply to 0x106"),
        }
    }

    /// Takes note of where the node has its mark from.
    fn look_for_mark(&mut self, event: &Event, answer: Option<&Answer>) {
        match (event, answer) {
            (Event::Restart { .. }, Some(answer)) if answer.number == DONE => {
                let normal = matches!(self.before.node.mode, Mode::Normal { .. });
                self.other_cells = normal && flag_byte(&self.before.flash) == CELLS_DIFFER;
            }
            (Event::Begin { .. } | Event::HandIn(_), _) => self.other_cells = false,
            _ => {}
        }
    }

    /// Whether the mark must differ: started before, not started now.
    fn mark_differs(&self) -> bool {
        self.other_cells && matches!(self.before.node.mode, Mode::Normal { .. })
    }

    /// Whether the nodes are equal but for a mark that must differ.
    fn nodes_agree(&self) -> bool {
        let started = self.before.node.mode == Mode::Normal { started: true };
        (started || !self.mark_differs()) && self.node_becomes() == self.now.node
    }

    /// What the node of before becomes.
    fn node_becomes(&self) -> Node {
        let mut node = self.before.node.clone();
        if self.mark_differs() {
            node.mode = Mode::Normal { started: false };
        }
        node
    }

    /// What a line of before becomes; counts what differs.
    fn line_becomes(&mut self, event: &Event, answer: &Answer) -> Vec<u8> {
        let mut line = answer.line.clone();
        if event.tells_node() {
            let node = node_record::write_whole(&self.node_becomes(), self.before.tells_way);
            let at = line.len() - node.len();
            line[at..].copy_from_slice(&node);
            self.counts.marks += self.mark_differs() as u64;
        }
        if let (Some(at), Some(reply)) = (answer.reply_at(), answer.reply()) {
            let reply = self.reply_becomes(reply);
            match at.len() {
                FRAME => line[at].copy_from_slice(&reply),
                _ => line[at].copy_from_slice(&frames::wrapped(&reply)),
            }
        }
        line
    }

    /// What a reply of before becomes: one to 0x106 is 0x1F1 where the mark differs, and has the
    /// flag byte of FLASH where it was 0x1F1. Counts those that differ.
    fn reply_becomes(&mut self, reply: Frame) -> Frame {
        let (kind, flash) = (frames::kind(&reply), &self.before.flash);
        let flags = match kind {
            0x106 | 0x1F1 => flag_byte(flash),
            _ => return reply,
        };
        let [_, high, middle, low] = firmware_sum(flash).to_be_bytes();
        let data = [flags, high, middle, low, 0xFF, 0xFF, 0x03, 0x04];
        if kind == 0x106 && self.mark_differs() {
            self.counts.other_type[flags as usize] += 1;
            frames::frame(0x1F1, 1, reply[2], reply[3], data)
        } else if kind == 0x1F1 {
            self.counts.flag_byte[flags as usize] += 1;
            let mut reply = reply;
            reply[4] = flags;
            reply
        } else {
            reply
        }
    }
}

/// Prints the counts.
fn print(counts: &Counts, out: &mut impl Write) -> io::Result<()> {
    let Counts { events, marks, other_type, flag_byte } = counts;
    writeln!(out, "{events:>9} events with an answer, the memories compared behind each")?;
    writeln!(out, "{marks:>9} answers with the mark not started in the place of started")?;
    for (flags, count) in other_type.iter().enumerate() {
        let row = format!("0x1F1 with flag byte 0x{flags:02X} in the place of the ordinary one");
        writeln!(out, "{count:>9} replies {row}")?;
    }
    for (flags, count) in flag_byte.iter().enumerate() {
        let row = match flags {
            1 => "0x1F1 with flag byte 0x01 as before".to_string(),
            _ => format!("0x1F1 with flag byte 0x{flags:02X} in the place of 0x01"),
        };
        writeln!(out, "{count:>9} replies {row}")?;
    }
    Ok(())
}

/// Runs a stream by both rules and prints what differed; gives the first event that differs where
/// it must not.
pub fn changed_by_a4(stream: &[u8], out: &mut impl Write) -> io::Result<Option<String>> {
    let mut pair = Pair::new();
    for (index, record) in records(stream).enumerate() {
        let mut next = Event::read(record);
        while let Some(event) = next.take() {
            match pair.take(&event) {
                Ok(left) => next = left,
                Err(what) => {
                    let place = format!("record {} of the stream", index + 1);
                    let behind = format!("behind {} events with an answer", pair.counts.events);
                    return Ok(Some(format!("{what}: {place}, {behind}: {event:X?}")));
                }
            }
        }
    }
    print(&pair.counts, out).map(|_| None)
}
