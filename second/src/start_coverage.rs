//! What firmware that starts or not comes to: why a restart doesn't start it, and what is told when
//! asked, with cells as the restart found them or changed since.

use crate::event::Event;
use crate::frames;
use crate::memory::*;
use crate::node::{Mode, Node, Staged};
use crate::numbers::DONE;
use crate::session::{Answer, Session};

/// Rows of restarts that reach normal mode, by the flag byte of FLASH, 0 to 3.
const BY_FLAGS: [&str; 4] =
    ["started", "not started, sums alone", "not started, cells alone", "not started, both"];

/// Rows of restarts on cells alone other than 30 00 03.
const CELL_ROWS: [&str; 10] = [
    "cell 0x001010 alone differs",
    "cell 0x001011 alone differs",
    "cell 0x001012 alone differs",
    "two cells differ",
    "three cells differ",
    "the three values one place lower",
    "the three values one place higher",
    "the three values in another order",
    "the three cells all 0x00",
    "the three cells all 0xFF",
];

/// Rows of restarts on a stored sum alone that is another.
const SUM_ROWS: [&str; 3] = [
    "stored sum one off in its high byte",
    "stored sum one off in its middle byte",
    "stored sum one off in its low byte",
];

/// Rows of restarts on a FLASH of one value.
const WHOLE_ROWS: [(u8, &str); 2] = [(0x00, "FLASH all 0x00"), (0xFF, "FLASH all 0xFF")];

/// Every row that a stream ought to reach.
pub fn wanted() -> Vec<String> {
    let mut rows = Vec::new();
    let restart = |row: &str| format!("restart 0 normal, {row}");
    rows.extend(BY_FLAGS[1..].iter().map(|row| restart(row)));
    rows.extend(BY_FLAGS.iter().map(|row| restart(&format!("{row}, written by frames"))));
    rows.extend(CELL_ROWS.iter().map(|row| restart(&format!("not started, {row}"))));
    rows.extend(SUM_ROWS.iter().map(|row| restart(&format!("not started, {row}"))));
    rows.extend(WHOLE_ROWS.iter().map(|(_, row)| restart(&format!("not started, {row}"))));
    for port in ["CAN", "UART", "piece"] {
        for now in 0..4 {
            rows.push(format!("{port} 0x1F1, flag byte 0x{now:02X}"));
            let found = |found| format!("{port} {}", found_row("0x1F1", Marked::Found(found), now));
            rows.extend((1..4).map(found));
            rows.push(format!("{port} {}", found_row("0x1F1", Marked::InRecord, now)));
            rows.push(format!("{port} {}", found_row("0x106", Marked::Found(0), now)));
            rows.push(format!("{port} {}", found_row("0x106", Marked::InRecord, now)));
            let group = |started| format!("{port} {}", group_row(started, now));
            rows.extend([true, false].map(group));
        }
    }
    rows
}

/// Where a node has the mark of its firmware from.
#[derive(Clone, Copy, PartialEq, Eq, Default)]
enum Marked {
    /// It has none.
    #[default]
    Nowhere,
    /// From a restart that found this flag byte.
    Found(u8),
    /// From a record that was handed in.
    InRecord,
}

/// The row of a reply of this type, with FLASH of this flag byte when asked.
fn found_row(kind: &str, marked: Marked, now: u8) -> String {
    match marked {
        Marked::Found(found) => format!("{kind}, flags {found} at the restart, {now} when asked"),
        _ => format!("{kind}, a record handed in, flags {now} when asked"),
    }
}

/// The row of the reply to 0x105.
fn group_row(started: bool, now: u8) -> String {
    let mark = if started { "started" } else { "not started" };
    format!("0x105, {mark}, flags {now} when asked")
}

/// The rows of a FLASH whose sums are equal and whose three cells are not 30 00 03.
fn cell_rows(flash: &[u8]) -> Vec<&'static str> {
    let three = |place: usize| -> [u8; 3] { std::array::from_fn(|i| flash[place + i]) };
    let cells = three(THREE_CELLS);
    let differ: Vec<usize> = (0..3).filter(|&at| cells[at] != RIGHT_CELLS[at]).collect();
    let mut rows = vec![match differ[..] {
        [at] => CELL_ROWS[at],
        [_, _] => CELL_ROWS[3],
        _ => CELL_ROWS[4],
    }];
    let sorted = |mut cells: [u8; 3]| {
        cells.sort();
        cells
    };
    let others = [
        three(THREE_CELLS - 1) == RIGHT_CELLS,
        three(THREE_CELLS + 1) == RIGHT_CELLS,
        sorted(cells) == sorted(RIGHT_CELLS),
        cells == [0x00; 3],
        cells == [0xFF; 3],
    ];
    rows.extend((0..others.len()).filter(|&row| others[row]).map(|row| CELL_ROWS[5 + row]));
    rows
}

/// The row of a FLASH whose three cells are 30 00 03 and whose stored sum is one off in one byte.
fn sum_row(flash: &[u8]) -> Option<&'static str> {
    let [_, right @ ..] = firmware_sum(flash).to_be_bytes();
    let by = |at: usize| flash[STORED_SUM + at].wrapping_sub(right[at]);
    let differ: Vec<usize> = (0..3).filter(|&at| by(at) != 0).collect();
    match differ[..] {
        [at] if [1, 255].contains(&by(at)) => Some(SUM_ROWS[at]),
        _ => None,
    }
}

/// Whether an answered frame wrote or erased the cells that decide whether firmware starts.
fn writes(before: &Node, answer: &Answer) -> bool {
    let Mode::Programming(Some(Staged { command, address })) = before.tidied().mode else {
        return false;
    };
    let data_frame = answer.reply().is_some_and(|reply| frames::kind(&reply) == 0x040);
    let near = [Address::Flash(STORED_SUM as u32), Address::Flash(THREE_CELLS as u32)];
    data_frame && command != Command::Read && near.contains(&address)
}

/// What a session has come to, as far as starting matters.
#[derive(Default)]
pub struct Starts {
    marked: Marked,
    /// Whether the cells that decide were written by frames, and no cell was poked since.
    written: bool,
}

impl Starts {
    /// Takes the next event, with its answer where it has one; gives the rows that it reaches. The
    /// session is the one after it.
    pub fn take(
        &mut self,
        before: &Node,
        session: &Session,
        event: &Event,
        answer: Option<&Answer>,
    ) -> Vec<String> {
        match (event, answer) {
            (Event::Begin { .. }, _) => *self = Starts::default(),
            (Event::Poke { .. }, _) => self.written = false,
            (Event::HandIn(_), _) => self.marked = Marked::InRecord,
            (Event::Restart { .. }, Some(answer)) if answer.number == DONE => {
                return self.restart(session);
            }
            (Event::CanFrame(_), Some(answer)) => return self.port("CAN", before, session, answer),
            (Event::UartByte(_), Some(answer)) => {
                return self.port("UART", before, session, answer)
            }
            (Event::UartPieces { .. }, Some(answer)) => {
                return self.port("piece", before, session, answer);
            }
            _ => {}
        }
        vec![]
    }

    /// The rows of a restart that gave 0.
    fn restart(&mut self, session: &Session) -> Vec<String> {
        self.marked = Marked::Nowhere;
        if !matches!(session.node.mode, Mode::Normal { .. }) {
            return vec![];
        }
        let flash = &session.flash[..FLASH_CELLS];
        let flags = flag_byte(flash);
        self.marked = Marked::Found(flags);
        let by_flags = BY_FLAGS[flags as usize];
        let mut rows = Vec::new();
        if flags != 0 {
            rows.push(by_flags.to_string());
        }
        if self.written {
            rows.push(format!("{by_flags}, written by frames"));
        }
        let mut reasons = match flags {
            SUMS_DIFFER => sum_row(flash).into_iter().collect(),
            CELLS_DIFFER => cell_rows(flash),
            _ => vec![],
        };
        let whole = |(value, _): &&(u8, &str)| flash.iter().all(|cell| cell == value);
        reasons.extend(WHOLE_ROWS.iter().filter(whole).map(|(_, row)| *row));
        rows.extend(reasons.iter().map(|row| format!("not started, {row}")));
        rows.iter().map(|row| format!("restart 0 normal, {row}")).collect()
    }

    /// The rows of a frame on a port, by its reply.
    fn port(
        &mut self,
        port: &str,
        before: &Node,
        session: &Session,
        answer: &Answer,
    ) -> Vec<String> {
        self.written |= writes(before, answer);
        let Some(reply) = answer.reply() else { return vec![] };
        let kind = frames::kind(&reply);
        if ![0x105, 0x106, 0x1F1].contains(&kind) {
            return vec![];
        }
        let now = flag_byte(&session.flash);
        let rows = match kind {
            0x105 => vec![group_row(before.mode == Mode::Normal { started: true }, now)],
            0x106 => vec![found_row("0x106", self.marked, now)],
            _ => vec![
                format!("0x1F1, flag byte 0x{:02X}", reply[4]),
                found_row("0x1F1", self.marked, now),
            ],
        };
        rows.iter().map(|row| format!("{port} {row}")).collect()
    }
}
