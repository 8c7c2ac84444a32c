//! Counts which rows of the tables a session stream reaches.

use crate::coverage_rows::{wanted, RECORD_ROWS, RIMS};
use crate::event::{records, Event, LONGEST};
use crate::frames::{self, Frame, FRAME};
use crate::memory::*;
use crate::node::{Mode, Node, Staged, HELD};
use crate::numbers::*;
use crate::piece_coverage::{Met, Pieces};
use crate::session::{Answer, Session};
use crate::start_coverage::Starts;
use crate::uart_coverage::Run;
use crate::way_coverage::Ways;
use std::collections::HashMap;
use std::io::{self, Write};

/// The call of an event, where it takes lent memories.
fn call(event: &Event) -> Option<&'static str> {
    match event {
        Event::CanFrame(_) => Some("CAN"),
        Event::UartByte(_) => Some("UART"),
        Event::UartPieces { .. } => Some("piece"),
        Event::Restart { .. } => Some("restart"),
        Event::Show(_) => Some("show"),
        _ => None,
    }
}

/// What lengths of which one is wrong are.
fn length_row(flash: usize, eeprom: usize) -> &'static str {
    match (flash, eeprom) {
        (0, _) => "no FLASH",
        (_, 0) => "no EEPROM",
        (EEPROM_CELLS, FLASH_CELLS) => "exchanged",
        (65_535, 1_025) | (65_537, 1_023) => "one fewer beside one more",
        (65_535..=65_537, 1_023..=1_025) => "one off",
        (131_072, EEPROM_CELLS) => "FLASH twice as long",
        _ => "far off",
    }
}

/// The rows of the lengths lent to a call, and of the record that it met.
fn call_rows(before: &Node, session: &Session, event: &Event, number: u8) -> Vec<String> {
    let Some(call) = call(event) else { return vec![] };
    let mut rows = Vec::new();
    if number == MEMORY_LENGTH {
        let row = length_row(session.lent_flash, session.lent_eeprom);
        rows.push(format!("{call} 1 {row}"));
    }
    if before.held_count > 255 && before.held[0] == frames::START {
        if (1..=HELD as u64).contains(&(before.held_count % 256)) {
            rows.push(format!("{call} {}", RECORD_ROWS[0]));
        }
    }
    if before.held[HELD] != 0 {
        rows.push(format!("{call} {}", RECORD_ROWS[1]));
    }
    rows
}

/// The rows of a done command in programming mode that tell what stands around its cells.
fn around_rows(tidied: &Node, session: &Session) -> Vec<String> {
    let Mode::Programming(Some(Staged { command, address })) = tidied.mode else { return vec![] };
    let (cells, first) = match address {
        Address::Flash(raw) => (&session.flash, raw as usize),
        Address::Eeprom(raw) => (&session.eeprom, (raw - EEPROM_BASE) as usize),
    };
    let (count, plain) = match command {
        Command::Read => return vec![],
        Command::Write => (ROW, 0x00),
        Command::Erase => (BLOCK, 0xFF),
    };
    let around = first > 0 && cells[first - 1] != plain && cells[first + count] != plain;
    let row = format!("0x040 {command:?} {} between cells not 0x{plain:02X}", memory(address));
    if around {
        vec![row]
    } else {
        vec![]
    }
}

/// The memory of an address, in words.
fn memory(address: Address) -> &'static str {
    match address {
        Address::Flash(_) => "FLASH",
        Address::Eeprom(_) => "EEPROM",
    }
}

/// The rows of a frame that came to its number after 3, 10 and 11, on either port. `before` is
/// the tidied node, `untidy` whether a staged command had to be dropped; the session is the one
/// after it.
fn frame_rows(
    before: &Node,
    untidy: bool,
    session: &Session,
    frame: &Frame,
    number: u8,
) -> Vec<String> {
    let kind = frames::kind(frame);
    let (d2, d3) = (frame[6], frame[7]);
    let group = [0x101, 0x103, 0x105, 0x10D, 0x10F].contains(&kind);
    let programming = matches!(before.mode, Mode::Programming(_));
    let known_to_normal =
        (0x100..=0x106).contains(&kind) || (0x10D..=0x10F).contains(&kind) || kind == 0x111;
    let known_to_programming = [0x010, 0x020, 0x030, 0x040].contains(&kind);
    let row = match number {
        MALFORMED => "4 upper flag".to_string(),
        NOT_HANDLED if known_to_normal || known_to_programming => "6 of the other mode".to_string(),
        NOT_HANDLED => "6 of no mode".to_string(),
        NOT_FOR_NODE if programming => "7 programming".to_string(),
        NOT_FOR_NODE if group && d2 != 0 && d3 != 0 && d3 != before.group => {
            "7 group, D2 not 0x00 and D3 neither 0x00 nor own".to_string()
        }
        NOT_FOR_NODE if group && d2 != 0 => "7 group, D2 not 0x00".to_string(),
        NOT_FOR_NODE if group => "7 group, D3 another".to_string(),
        NOT_FOR_NODE => "7 node".to_string(),
        ILLEGAL if before.mode == Mode::Programming(None) => "8 drops nothing".to_string(),
        ILLEGAL => "8 drops a staged command".to_string(),
        NOTHING_STAGED if untidy => "9 after an untidy record".to_string(),
        DONE => match (kind, before.mode) {
            (0x040, Mode::Programming(Some(staged))) => {
                format!("0x040 {:?} {}", staged.command, memory(staged.address))
            }
            (0x106, Mode::Normal { started: false }) => "0x106 to 0x1F1".to_string(),
            _ if group && d3 == 0 => format!("0x{kind:03X} D3 0x00"),
            _ if group => format!("0x{kind:03X} own group"),
            _ => format!("0x{kind:03X}"),
        },
        _ => return vec![],
    };
    let mut rows = vec![row];
    if kind == 0x105 && number == DONE && before.mode == (Mode::Normal { started: false }) {
        rows.push("0x105 not started".to_string());
    }
    if row_is(&rows, "0x106 to 0x1F1") && firmware_sum(&session.flash) % 65_536 == 0 {
        rows.push("0x106 to 0x1F1, sum a multiple of 65536".to_string());
    }
    if kind == 0x040 && number == DONE {
        rows.extend(around_rows(before, session));
    }
    let rim = u32::from_be_bytes([0, frame[4], frame[5], frame[6]]);
    if kind == 0x030 && [DONE, ILLEGAL].contains(&number) && RIMS.contains(&rim) {
        rows.push(format!("0x030 at the rim 0x{rim:06X}"));
    }
    rows
}

/// Whether the first row is this one.
fn row_is(rows: &[String], row: &str) -> bool {
    rows.first().is_some_and(|first| first == row)
}

/// The rows of a CAN frame that is not 12 bytes.
fn odd_length_rows(bytes: &[u8]) -> Vec<String> {
    let mut rows = vec!["4 length".to_string()];
    if bytes.len() > LONGEST {
        rows.push("4 more than 20 bytes".to_string());
    }
    if bytes.len() % 256 == FRAME {
        rows.push("4 a multiple of 256 more than 12 bytes".to_string());
    }
    if frames::unwrap(bytes, &mut [0; FRAME]) == DONE {
        rows.push("4 a wrapped frame".to_string());
    }
    rows
}

/// The rows of a frame, a UART byte or a piece that the node met in this record; the session is the
/// one after it.
fn port_rows(before: &Node, session: &Session, event: &Event, answer: &Answer) -> Vec<String> {
    let number = answer.number;
    let tidied = before.tidied();
    let untidy = tidied.mode != before.mode;
    let mut rows = vec![format!("outcome {number}")];
    match event {
        _ if number == DEAF => rows.push(match before.mode {
            Mode::Error => "3 error".to_string(),
            _ => "3 waiting".to_string(),
        }),
        _ if number < DEAF && number != DONE => {}
        Event::CanFrame(bytes) => match Frame::try_from(&bytes[..]) {
            Ok(frame) => {
                rows.extend(frame_rows(&tidied, untidy, session, &frame, number));
                if number == DONE && tidied.held_count > 0 {
                    rows.push("0 with bytes held".to_string());
                }
            }
            Err(_) => rows.extend(odd_length_rows(bytes)),
        },
        Event::UartByte(byte) => match number {
            INCOMPLETE if tidied.held_count > 0 || *byte == frames::START => {
                rows.push("10 held".to_string())
            }
            INCOMPLETE => rows.push("10 skipped".to_string()),
            BAD_WRAPPING => {}
            _ => {
                let frame: Frame = tidied.held[1..HELD - 1].try_into().expect("12 held bytes");
                rows.extend(frame_rows(&tidied, untidy, session, &frame, number));
                if number == DONE && tidied.held[1..].contains(&frames::START) {
                    rows.push("0 with 0xAA inside".to_string());
                }
            }
        },
        _ => {
            let met = Met::of(before, session, event, answer);
            if let Some(frame) = met.and_then(|met| met.frame()) {
                rows.extend(frame_rows(&tidied, untidy, session, &frame, number));
            }
        }
    }
    let port = call(event).expect("a call of a port");
    rows.iter().map(|row| format!("{port} {row}")).collect()
}

/// The rows of a restart that gave 0.
fn restart_rows(session: &Session) -> Vec<String> {
    let mut rows = vec![match session.node.mode {
        Mode::Normal { started: true } => "normal, started",
        Mode::Normal { started: false } => "normal, not started",
        Mode::Programming(_) => "programming",
        _ => "error",
    }];
    match session.eeprom[BOOTFL] {
        0xFF => {}
        0x00 => rows.push("BOOTFL 0x00"),
        _ => rows.push("BOOTFL another"),
    }
    match (session.node.module, session.node.group) {
        (0x00, 0x00) => rows.push("own numbers 00 00"),
        (0xFF, 0xFF) => rows.push("own numbers FF FF"),
        _ => {}
    }
    if let Mode::Normal { started } = session.node.mode {
        let sum = firmware_sum(&session.flash);
        let round = sum % 65_536 == 0;
        match started {
            true if round => rows.push("normal, started, sum a multiple of 65536"),
            false if round => rows.push("normal, not started, sum a multiple of 65536"),
            _ => {}
        }
        if !started && sum % 65_536 == stored_sum(&session.flash) % 65_536 {
            rows.push("normal, not started, sums apart in the high byte alone");
        }
    }
    rows.iter().map(|row| format!("restart 0 {row}")).collect()
}

/// The rows that one answered event reaches; the session is the one after it.
fn rows(before: &Node, session: &Session, event: &Event, answer: &Answer) -> Vec<String> {
    let number = answer.number;
    let row = match event {
        Event::CanFrame(_) | Event::UartByte(_) | Event::UartPieces { .. } => {
            return port_rows(before, session, event, answer)
        }
        Event::Restart { .. } if number == DONE => return restart_rows(session),
        Event::Restart { .. } => format!("restart {number}"),
        Event::Show(address) if number == DONE => {
            format!("show 0 {}", asked(*address, 1).map_or("nowhere", memory))
        }
        Event::Show(_) => format!("show {number}"),
        Event::IdentifierToFrame { .. } => format!("identifier to frame {number}"),
        Event::FrameToIdentifier { .. } => format!("frame to identifier {number}"),
        Event::Wrap { .. } => format!("wrap {number}"),
        Event::Unwrap { .. } => format!("unwrap {number}"),
        Event::AddressRule { address, command } => match asked(*address, *command) {
            Some(legal) => {
                format!("rule {:?} {}", Command::of(*command).expect("legal"), memory(legal))
            }
            None => "rule illegal".to_string(),
        },
        _ => return vec![],
    };
    vec![row]
}

/// How often each row was reached, and what the events so far have come to.
struct Table {
    counts: HashMap<String, u64>,
    session: Session,
    run: Run,
    pieces: Pieces,
    ways: Ways,
    starts: Starts,
    answered: u64,
}

impl Table {
    /// The table before any event.
    fn new() -> Table {
        Table {
            counts: HashMap::new(),
            session: Session::new(),
            run: Run::new(),
            pieces: Pieces::default(),
            ways: Ways::default(),
            starts: Starts::default(),
            answered: 0,
        }
    }

    /// Counts some rows.
    fn count(&mut self, rows: Vec<String>) {
        for row in rows {
            *self.counts.entry(row).or_default() += 1;
        }
    }

    /// Does an event, of UART pieces the first call, and counts its rows; gives the calls behind
    /// it.
    fn take(&mut self, event: &Event) -> Option<Event> {
        let before = self.session.node.clone();
        if let Event::Begin { step, .. } = event {
            self.run = Run::new();
            if *step != 0 {
                self.count(vec!["begin with mixed memories".to_string()]);
            }
        }
        let answer = self.session.apply(event);
        let of_ways = self.ways.take(&before, &self.session, event, answer.as_ref());
        self.count(of_ways);
        let of_starts = self.starts.take(&before, &self.session, event, answer.as_ref());
        self.count(of_starts);
        let Some(answer) = answer else {
            self.run.break_off();
            self.pieces = Pieces::default();
            return None;
        };
        self.answered += 1;
        let mut reached = rows(&before, &self.session, event, &answer);
        reached.extend(call_rows(&before, &self.session, event, answer.number));
        let runs = self.run.take(&before, event, answer.number);
        reached.extend(runs.iter().map(|row| format!("UART {row}")));
        match Met::of(&before, &self.session, event, &answer) {
            Some(met) => {
                reached.extend(self.pieces.take(&met).iter().map(|row| format!("piece {row}")))
            }
            None => self.pieces = Pieces::default(),
        }
        self.count(reached);
        answer.left
    }
}

/// Prints the table of counts; gives the rows that were never reached.
pub fn coverage(stream: &[u8], out: &mut impl Write) -> io::Result<Vec<String>> {
    let mut table = Table::new();
    for record in records(stream) {
        let mut next = Event::read(record);
        while let Some(event) = next {
            next = table.take(&event);
        }
    }
    let (answered, sessions) = (table.answered, table.session.number);
    writeln!(out, "{answered:>9} events with an answer in {sessions} sessions")?;
    let mut missing = Vec::new();
    for row in wanted() {
        let count = table.counts.get(&row).copied().unwrap_or(0);
        writeln!(out, "{count:>9} {row}")?;
        if count == 0 {
            missing.push(row);
        }
    }
    Ok(missing)
}
