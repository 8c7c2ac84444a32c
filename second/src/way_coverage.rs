//! What the ways come to: what stays held after 11, what becomes of that, and who said the way.

use crate::event::Event;
use crate::frames::{self, FRAME, START, STOP, WRAPPED};
use crate::node::{Mode, Node, Way};
use crate::node_record;
use crate::numbers::*;
use crate::session::{Answer, Session};

/// Rows of 11 and of what follows it in the new way.
const NEW_ROWS: [&str; 12] = [
    "11, kept from the second byte",
    "11, kept from in between",
    "11, kept from the fifteenth byte",
    "11, nothing kept",
    "11, first of several 0xAA kept",
    "11, right sum and wrong stop, nothing kept",
    "11, right sum and wrong stop, something kept",
    "11, wrong sum and right stop, nothing kept",
    "11, wrong sum and right stop, something kept",
    "a kept part comes to 11 again",
    "a kept part comes to 11 for the third time",
    "a stray 0xAA directly before a frame that is done",
];

/// The numbers of a frame that a kept part may become.
const FRAME_NUMBERS: [u8; 7] =
    [DONE, MALFORMED, RESPONSE, NOT_HANDLED, NOT_FOR_NODE, ILLEGAL, NOTHING_STAGED];

/// Rows of 11 and of what follows it in the old way.
const OLD_ROWS: [&str; 5] = [
    "11, all dropped, 0xAA among the others",
    "11, all dropped, none among the others",
    "11, right sum and wrong stop, all dropped",
    "11, wrong sum and right stop, all dropped",
    "a frame lost behind a stray 0xAA",
];

/// The row of a frame that began before another one was complete, which emptied the held bytes.
const INSIDE: &str = "a frame that begins inside a frame is lost";

/// Who said the way of a record.
#[derive(Clone, Copy, PartialEq, Eq, Default)]
enum Said {
    #[default]
    Fresh,
    Restart,
    UnsaidRestart,
    Record,
    UnsaidRecord,
}

const SAID: [Said; 4] = [Said::Restart, Said::UnsaidRestart, Said::Record, Said::UnsaidRecord];

impl Said {
    /// Who said it, in words.
    fn words(self) -> &'static str {
        match self {
            Said::Fresh => "of a fresh node",
            Said::Restart => "said at a restart",
            Said::UnsaidRestart => "left unsaid at a restart",
            Said::Record => "said in a record",
            Said::UnsaidRecord => "left unsaid in a record",
        }
    }
}

/// A way in words.
fn name(way: Way) -> &'static str {
    match way {
        Way::New => "new way",
        Way::Old => "old way",
    }
}

/// Every row that a stream ought to reach.
pub fn wanted() -> Vec<String> {
    let mut rows = Vec::new();
    for port in ["UART", "piece"] {
        rows.extend(NEW_ROWS.iter().map(|row| format!("{port} new way, {row}")));
        let frame = |number| format!("{port} new way, a kept part becomes a frame, {number}");
        rows.extend(FRAME_NUMBERS.map(frame));
        rows.extend(OLD_ROWS.iter().map(|row| format!("{port} old way, {row}")));
        rows.extend([Way::New, Way::Old].map(|way| format!("{port} {}, {INSIDE}", name(way))));
    }
    for way in [Way::New, Way::Old].map(name) {
        for port in ["UART", "piece"] {
            rows.extend(SAID.map(|said| format!("{port} {way}, 11, {}", said.words())));
            rows.push(format!("{port} {way}, 11 behind 0x100"));
        }
        rows.extend(["CAN", "UART", "piece"].map(|port| format!("{port} {way}, 0x100 done")));
        for verdict in ["passed", "failed"] {
            rows.push(format!("restart 0, {verdict}, {way} said"));
            rows.push(format!("restart 0, {verdict}, {way} left unsaid"));
        }
        rows.push(format!("restart 0 with bytes held changes to the {way}"));
        rows.push(format!("restart 1 asks for the {way} and changes nothing"));
        rows.push(format!("a record handed in, {way} said"));
        rows.push(format!("a record handed in, {way} left unsaid"));
        rows.push(format!("meant in a session from here on: the {way}"));
        rows.push(format!("a fresh node, while the {way} is meant"));
    }
    rows
}

/// Whether these bytes are a frame, rightly wrapped.
fn right(bytes: &[u8]) -> bool {
    frames::unwrap(bytes, &mut [0; FRAME]) == DONE
}

/// The rows of fifteen bytes that came to 11.
fn bad_rows(way: Way, fifteen: &[u8; WRAPPED]) -> Vec<String> {
    let starts: Vec<usize> = (1..WRAPPED).filter(|&at| fifteen[at] == START).collect();
    let sum = fifteen[13] == frames::sum(&fifteen[1..13]);
    let fault = match (sum, fifteen[14] == STOP) {
        (true, false) => Some("right sum and wrong stop"),
        (false, true) => Some("wrong sum and right stop"),
        _ => None,
    };
    let (place, kept) = match (way, starts.first()) {
        (Way::New, Some(1)) => ("kept from the second byte", "something kept"),
        (Way::New, Some(14)) => ("kept from the fifteenth byte", "something kept"),
        (Way::New, Some(_)) => ("kept from in between", "something kept"),
        (Way::New, None) => ("nothing kept", "nothing kept"),
        (Way::Old, Some(_)) => ("all dropped, 0xAA among the others", "all dropped"),
        (Way::Old, None) => ("all dropped, none among the others", "all dropped"),
    };
    let mut rows = vec![format!("11, {place}")];
    rows.extend(fault.map(|fault| format!("11, {fault}, {kept}")));
    if way == Way::New && starts.len() > 1 {
        rows.push("11, first of several 0xAA kept".to_string());
    }
    rows
}

/// What a session has come to, as far as the way matters.
#[derive(Default)]
pub struct Ways {
    said: Said,
    /// Whether 0x100 was done since the way was said.
    programmed: bool,
    /// How many 11s, one behind the other, what is held is the kept part of; 0 where it is none.
    kept: usize,
    /// The fifteen bytes of the last 11, where no byte came since.
    bad: Option<[u8; WRAPPED]>,
    /// The last right frame and the bytes since, as far as a frame begun inside it may reach.
    since_frame: Vec<u8>,
}

impl Ways {
    /// Takes the next event, with its answer where it has one; gives the rows that it reaches. The
    /// session is the one after it.
    pub fn take(
        &mut self,
        before: &Node,
        session: &Session,
        event: &Event,
        answer: Option<&Answer>,
    ) -> Vec<String> {
        let mut rows = Vec::new();
        match (event, answer) {
            (Event::Begin { .. }, _) => *self = Ways::default(),
            (Event::Meant(_), _) if session.events > 0 => {
                let way = name(session.meant);
                rows.push(format!("meant in a session from here on: the {way}"));
            }
            (Event::HandIn(record), _) => rows.push(self.handed_in(session, record)),
            (Event::Restart { self_test, way, .. }, Some(answer)) => {
                rows.extend(self.restart(before, session, (*self_test, *way), answer.number));
            }
            (Event::CanFrame(_), _) => rows.extend(self.entered("CAN", before, session)),
            (Event::UartByte(byte), Some(answer)) => {
                rows.extend(self.bytes("UART", before, &[*byte], answer.number));
                rows.extend(self.entered("UART", before, session));
            }
            (Event::UartPieces { .. }, Some(answer)) => {
                let taken = &event.piece().unwrap_or(&[])[..answer.taken()];
                rows.extend(self.bytes("piece", before, taken, answer.number));
                rows.extend(self.entered("piece", before, session));
            }
            _ => {}
        }
        let told = answer.is_some() && event.tells_node() && session.tells_way;
        if self.said == Said::Fresh && told {
            rows.push(format!("a fresh node, while the {} is meant", name(session.meant)));
        }
        rows
    }

    /// The row of a record that is handed in.
    fn handed_in(&mut self, session: &Session, record: &[u8; node_record::HANDED]) -> String {
        let unsaid = record[node_record::WAY_AT] == 0;
        let said = if unsaid { Said::UnsaidRecord } else { Said::Record };
        *self = Ways { said, ..Ways::default() };
        let unsaid = if unsaid { "left unsaid" } else { "said" };
        format!("a record handed in, {} {unsaid}", name(session.node.way))
    }

    /// The rows of a restart with these bytes for the self-test and the way.
    fn restart(
        &mut self,
        before: &Node,
        session: &Session,
        (self_test, way): (u8, u8),
        number: u8,
    ) -> Vec<String> {
        let asked = node_record::way(way, session.meant);
        let other = asked != before.way;
        let mut rows = Vec::new();
        if number != DONE {
            if other {
                rows.push(format!("restart 1 asks for the {} and changes nothing", name(asked)));
            }
            return rows;
        }
        let said = if way == 0 { Said::UnsaidRestart } else { Said::Restart };
        *self = Ways { said, ..Ways::default() };
        let verdict = if self_test == 0 { "passed" } else { "failed" };
        let unsaid = if way == 0 { "left unsaid" } else { "said" };
        rows.push(format!("restart 0, {verdict}, {} {unsaid}", name(asked)));
        if other && before.tidied().held_count > 0 {
            rows.push(format!("restart 0 with bytes held changes to the {}", name(asked)));
        }
        rows
    }

    /// The row of a call that brings the node from normal to programming mode, as 0x100 alone does.
    fn entered(&mut self, port: &str, before: &Node, session: &Session) -> Option<String> {
        let normal = matches!(before.mode, Mode::Normal { .. });
        let entered = normal && matches!(session.node.mode, Mode::Programming(_));
        self.programmed |= entered;
        entered.then(|| format!("{port} {}, 0x100 done", name(before.way)))
    }

    /// The rows of bytes that a call was handed, of which the last gave this number.
    fn bytes(&mut self, port: &str, before: &Node, bytes: &[u8], number: u8) -> Vec<String> {
        if [MEMORY_LENGTH, PIN_CAN_ONLY, DEAF].contains(&number) || bytes.is_empty() {
            return vec![];
        }
        let tidied = before.tidied();
        let mut rows = Vec::new();
        if let Some(bad) = self.bad.take() {
            let lost = before.way == Way::Old && right(&[&bad[1..], &bytes[..1]].concat());
            rows.extend(lost.then(|| "a frame lost behind a stray 0xAA".to_string()));
            let found = number == DONE && bytes.len() == 1 && tidied.held_bytes() == &bad[1..];
            let row = "a stray 0xAA directly before a frame that is done";
            rows.extend(found.then(|| row.to_string()));
        }
        rows.extend(self.inside(bytes).then(|| INSIDE.to_string()));
        if let Some((_, fifteen)) = frames::first_fifteen(tidied.held_bytes(), bytes) {
            rows.extend(self.fifteen(before.way, fifteen, number));
        }
        rows.iter().map(|row| format!("{port} {}, {row}", name(before.way))).collect()
    }

    /// Whether one of these bytes ends a right frame that began inside the last right one.
    fn inside(&mut self, bytes: &[u8]) -> bool {
        let mut found = false;
        for byte in bytes {
            if (WRAPPED..2 * WRAPPED - 1).contains(&self.since_frame.len()) {
                self.since_frame.push(*byte);
                found |= right(&self.since_frame[self.since_frame.len() - WRAPPED..]);
            }
        }
        found
    }

    /// The rows of fifteen bytes that came to a number.
    fn fifteen(&mut self, way: Way, fifteen: [u8; WRAPPED], number: u8) -> Vec<String> {
        let kept = std::mem::take(&mut self.kept);
        if number != BAD_WRAPPING {
            self.since_frame = fifteen.to_vec();
            let row = format!("a kept part becomes a frame, {number}");
            return (kept > 0).then_some(row).into_iter().collect();
        }
        let mut rows = bad_rows(way, &fifteen);
        rows.push(format!("11, {}", self.said.words()));
        rows.extend(self.programmed.then(|| "11 behind 0x100".to_string()));
        rows.extend((kept > 0).then(|| "a kept part comes to 11 again".to_string()));
        rows.extend((kept > 1).then(|| "a kept part comes to 11 for the third time".to_string()));
        if !way.kept(&fifteen).is_empty() {
            self.kept = kept + 1;
        }
        self.bad = Some(fifteen);
        rows
    }
}
