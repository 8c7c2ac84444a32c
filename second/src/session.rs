//! A session: memories, node, counts and digest, and what each event does to them.

use crate::before_a4::Rule;
use crate::digest::Digest;
use crate::event::{records, Event, PIECES};
use crate::frames::{self, Frame, FRAME, WRAPPED};
use crate::memory::{self, Address, Lent, EEPROM_BASE, EEPROM_CELLS, FLASH_CELLS};
use crate::node::{Node, Outcome, Pin, Way};
use crate::node_record;
use crate::numbers::DONE;
use std::io::{self, Write};
use std::ops::Range;

/// How many cells a session has of each memory: more than the node's, so that too many can be lent.
pub const SESSION_FLASH: usize = 131_136;
pub const SESSION_EEPROM: usize = 65_600;
/// What a lent output of a conversion is filled with.
const OUTPUT_FILL: u8 = 0xEE;
/// Where the line of a piece has the bytes taken.
pub const TAKEN_AT: usize = 2;

pub struct Session {
    pub flash: Vec<u8>,
    pub eeprom: Vec<u8>,
    pub lent_flash: usize,
    pub lent_eeprom: usize,
    pub node: Node,
    /// The session's number, from 1.
    pub number: u32,
    /// Events so far that had an answer.
    pub events: u64,
    pub full: u16,
    /// The way that is meant where nothing is said of it, of the whole stream.
    pub meant: Way,
    /// Whether answers tell the way.
    pub tells_way: bool,
    /// The rule by which firmware starts, of the whole stream.
    pub rule: Rule,
    digest: Digest,
    restart: [u64; 2],
    can: [u64; 12],
    uart: [u64; 12],
    piece: [u64; 12],
}

/// The answer to an event, or to the first call of UART pieces: its number, the line's bytes with
/// the kind in front, and the calls behind it.
pub struct Answer {
    pub number: u8,
    pub line: Vec<u8>,
    pub left: Option<Event>,
}

impl Answer {
    /// The bytes that a piece took.
    pub fn taken(&self) -> usize {
        self.line[TAKEN_AT] as usize
    }

    /// Where the line of a call that may have replies has the first, with its wrapping on UART.
    pub fn reply_at(&self) -> Option<Range<usize>> {
        match self.line[0] {
            0x02 => Some(3..3 + FRAME),
            0x03 => Some(3..3 + WRAPPED),
            PIECES => Some(4..4 + WRAPPED),
            _ => None,
        }
    }

    /// The first reply, without its wrapping.
    pub fn reply(&self) -> Option<Frame> {
        let at = self.reply_at()?;
        let replies = self.line[at.start - 1];
        let from = if at.len() == FRAME { at.start } else { at.start + 1 };
        (replies > 0).then(|| std::array::from_fn(|i| self.line[from + i]))
    }
}

/// Answer bytes of a number, replies of one width, and the node as bytes.
fn with_replies(outcome: &Outcome, width: usize, node: Vec<u8>) -> Vec<u8> {
    let mut bytes = vec![outcome.number, outcome.replies.len() as u8];
    bytes.extend(outcome.replies.iter().flatten());
    bytes.resize(2 + 2 * width, 0);
    bytes.extend(node);
    bytes
}

/// Fills cells: the first becomes the fill, each other the one before it plus `step`, plus `more`
/// too at each 256th.
pub fn fill(cells: &mut [u8], first: u8, step: u8, more: u8) {
    for (index, cell) in cells.iter_mut().enumerate() {
        let rise = index * step as usize + index / 256 * more as usize;
        *cell = first.wrapping_add(rise as u8);
    }
}

/// Bytes as two lower-case hex digits each.
pub fn hex(bytes: &[u8]) -> String {
    const DIGITS: &[u8; 16] = b"0123456789abcdef";
    let digits = |byte: &u8| [DIGITS[*byte as usize >> 4], DIGITS[*byte as usize & 15]];
    bytes.iter().flat_map(digits).map(char::from).collect()
}

impl Session {
    /// The state before any session has begun, with the rule of a stream.
    pub fn by(rule: Rule) -> Session {
        Session { rule, ..Session::new() }
    }

    /// The state before any session has begun.
    pub fn new() -> Session {
        Session {
            flash: vec![0; SESSION_FLASH],
            eeprom: vec![0; SESSION_EEPROM],
            lent_flash: FLASH_CELLS,
            lent_eeprom: EEPROM_CELLS,
            node: Node::fresh([0; 6]),
            number: 0,
            events: 0,
            full: 0,
            meant: Way::default(),
            tells_way: false,
            rule: Rule::default(),
            digest: Digest::default(),
            restart: [0; 2],
            can: [0; 12],
            uart: [0; 12],
            piece: [0; 12],
        }
    }

    /// Does one event; gives its answer where it has one. Of UART pieces it does the first call.
    pub fn apply(&mut self, event: &Event) -> Option<Answer> {
        let bytes = self.answer(event)?;
        let number = bytes[0];
        match event {
            Event::Restart { .. } => self.restart[number as usize] += 1,
            Event::CanFrame(_) => self.can[number as usize] += 1,
            Event::UartByte(_) => self.uart[number as usize] += 1,
            Event::UartPieces { .. } => self.piece[number as usize] += 1,
            _ => {}
        }
        let mut line = vec![event.kind()];
        line.extend(bytes);
        self.events += 1;
        self.digest.add(&line);
        let left = line.get(TAKEN_AT).and_then(|&taken| event.calls_left(taken as usize));
        Some(Answer { number, line, left })
    }

    /// Does one event, all its calls; gives their answers.
    pub fn apply_all(&mut self, event: Event) -> Vec<Answer> {
        let mut answers = Vec::new();
        let mut next = Some(event);
        while let Some(event) = next.take() {
            if let Some(mut answer) = self.apply(&event) {
                next = answer.left.take();
                answers.push(answer);
            }
        }
        answers
    }

    /// Does one event; gives its answer bytes, the number first, where it has some.
    fn answer(&mut self, event: &Event) -> Option<Vec<u8>> {
        let mut lent = Lent {
            flash: &mut self.flash[..self.lent_flash],
            eeprom: &mut self.eeprom[..self.lent_eeprom],
        };
        Some(match event {
            Event::Restart { pin, self_test, way } => {
                let pin = if *pin == 0 { Pin::CanOnly } else { Pin::CanAndUart };
                let way = node_record::way(*way, self.meant);
                let number = self.node.restart(&lent, pin, *self_test == 0, way);
                if number == DONE {
                    self.rule.mark(&mut self.node, lent.flash);
                }
                [vec![number], self.node_bytes()].concat()
            }
            Event::CanFrame(frame) => {
                let outcome = self.rule.told(self.node.can_frame(&mut lent, frame));
                with_replies(&outcome, FRAME, self.node_bytes())
            }
            Event::UartByte(byte) => {
                let outcome = self.rule.told(self.node.uart_byte(&mut lent, *byte));
                with_replies(&outcome, WRAPPED, self.node_bytes())
            }
            Event::UartPieces { .. } => {
                let (taken, outcome) = self.node.uart_piece(&mut lent, event.piece()?);
                let outcome = self.rule.told(outcome);
                let mut bytes = with_replies(&outcome, WRAPPED, self.node_bytes());
                bytes.insert(TAKEN_AT - 1, taken as u8);
                bytes
            }
            Event::Show(address) => {
                let (number, part) = lent.show(*address);
                let mut bytes = vec![number, part.len() as u8];
                bytes.extend(part);
                bytes
            }
            Event::IdentifierToFrame { identifier, data, output } => {
                let mut output = vec![OUTPUT_FILL; *output];
                let number = frames::identifier_to_frame(*identifier, data, &mut output);
                [vec![number], output].concat()
            }
            Event::FrameToIdentifier { frame, output } => {
                let mut output = vec![OUTPUT_FILL; *output];
                let (number, identifier) = frames::frame_to_identifier(frame, &mut output);
                [vec![number], identifier.to_be_bytes().to_vec(), output].concat()
            }
            Event::Wrap { input, output } => {
                let mut output = vec![OUTPUT_FILL; *output];
                [vec![frames::wrap(input, &mut output)], output].concat()
            }
            Event::Unwrap { input, output } => {
                let mut output = vec![OUTPUT_FILL; *output];
                [vec![frames::unwrap(input, &mut output)], output].concat()
            }
            Event::AddressRule { address, command } => match memory::asked(*address, *command) {
                Some(Address::Flash(_)) => vec![0, 0],
                Some(Address::Eeprom(_)) => vec![0, 1],
                None => vec![8, 2],
            },
            _ => {
                self.arrange(event);
                return None;
            }
        })
    }

    /// The node as an answer ends with it.
    fn node_bytes(&self) -> Vec<u8> {
        node_record::write_whole(&self.node, self.tells_way)
    }

    /// Does an event that has no answer.
    fn arrange(&mut self, event: &Event) {
        match event {
            Event::HandIn(bytes) => self.node = node_record::read(bytes, self.meant),
            Event::Lend { flash, eeprom } => {
                self.lent_flash = SESSION_FLASH.min(*flash as usize);
                self.lent_eeprom = SESSION_EEPROM.min(*eeprom as usize);
            }
            Event::Poke { address, value } => {
                if let Some(cell) = self.cell(*address) {
                    *cell = *value;
                }
            }
            Event::Begin { flash, eeprom, fixed, full, step, more, tells_way } => {
                let (number, full, meant) = (self.number + 1, *full, self.meant);
                let tells_way = *tells_way != 0;
                *self = Session { number, full, meant, tells_way, ..Session::by(self.rule) };
                fill(&mut self.flash, *flash, *step, *more);
                fill(&mut self.eeprom, *eeprom, *step, *more);
                self.node = Node::fresh(*fixed);
            }
            Event::Meant(way) => self.meant = node_record::way(*way, Way::default()),
            _ => {}
        }
    }

    /// The cell that a poke reaches.
    fn cell(&mut self, address: u32) -> Option<&mut u8> {
        match address.checked_sub(EEPROM_BASE) {
            Some(place) => self.eeprom.get_mut(place as usize),
            None => self.flash.get_mut(address as usize),
        }
    }

    /// The closing line.
    pub fn closing_line(&self) -> String {
        let join = |counts: &[u64]| counts.iter().map(|n| format!(" {n}")).collect::<String>();
        let pieces = match self.piece.iter().sum() {
            0_u64 => String::new(),
            _ => format!(" piece{}", join(&self.piece)),
        };
        format!(
            "session {} events {} digest {} flash {} eeprom {} restart{} can{} uart{}{pieces}",
            self.number,
            self.events,
            self.digest.value(),
            Digest::of(&self.flash),
            Digest::of(&self.eeprom),
            join(&self.restart),
            join(&self.can),
            join(&self.uart),
        )
    }
}

/// Interprets a whole stream by a rule and prints what PROTOCOL.md says.
pub fn answer_stream(stream: &[u8], rule: Rule, out: &mut impl Write) -> io::Result<()> {
    let mut session = Session::by(rule);
    for record in records(stream) {
        let mut next = Event::read(record);
        while let Some(event) = next.take() {
            if let Some(answer) = session.apply(&event) {
                if session.events <= session.full as u64 {
                    writeln!(out, "{}", hex(&answer.line))?;
                }
                next = answer.left;
            }
            if event == Event::End {
                writeln!(out, "{}", session.closing_line())?;
            }
        }
    }
    Ok(())
}
