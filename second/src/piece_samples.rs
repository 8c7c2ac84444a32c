//! UART in pieces: what each node says to a piece, where it stops, and that no cut matters.

use crate::apply_recipes::apply_recipes;
use crate::event::*;
use crate::frames::{self, START};
use crate::memory::*;
use crate::node::*;
use crate::node_record;
use crate::numbers::*;
use crate::piece_coverage::{Met, Pieces};
use crate::random::Random;
use crate::recipe::translate;
use crate::recipe_stream::{read, Trial};
use crate::recipes_in_pieces::{recipes_in_pieces, LONG_PIECES};
use crate::samples::{bytes, can, session, uart, PROGRAM, WRAPPED_PROGRAM};
use crate::session::{Answer, Session};

const DESCRIBE: &str = "AA 10 E0 01 01 00 00 05 0A 00 00 00 00 01 A5";
const WAIT: &str = "AA 10 20 01 01 00 00 05 0A 00 00 00 00 41 A5";

/// The answers of some calls, each handed so many bytes of what the ring still holds.
fn calls(session: &mut Session, ring: &[u8], lengths: &[u8]) -> Vec<Answer> {
    session.apply_all(Event::UartPieces { ring: ring.to_vec(), lengths: lengths.to_vec() })
}

/// The number, bytes taken and replies of one piece.
fn piece(session: &mut Session, all: &str) -> (u8, u8, Vec<u8>) {
    let line = &calls(session, &bytes(all), &[255])[0].line;
    assert_eq!(line.len(), 4 + 30 + node_record::NODE + 1);
    (line[1], line[2], line[4..4 + 15 * line[3] as usize].to_vec())
}

/// An empty piece: 10 of an open, running node, held bytes or not; else 1, 2 or 3 in this order.
#[test]
fn empty_pieces() {
    let mut open = session(0x00, 1);
    assert_eq!(piece(&mut open, ""), (INCOMPLETE, 0, vec![]));
    uart(&mut open, "AA 01 02");
    assert_eq!(piece(&mut open, ""), (INCOMPLETE, 0, vec![]));
    assert_eq!(open.node.held_bytes(), [0xAA, 1, 2]);
    open.apply(&Event::Restart { pin: 1, self_test: 1, way: 0 });
    assert_eq!(piece(&mut open, ""), (DEAF, 0, vec![]));
    open.node.pin = Pin::CanOnly;
    assert_eq!(piece(&mut open, ""), (PIN_CAN_ONLY, 0, vec![]));
    open.apply(&Event::Lend { flash: 65_536, eeprom: 1_023 });
    assert_eq!(piece(&mut open, ""), (MEMORY_LENGTH, 0, vec![]));
}

/// An empty piece tidies the record, of an open node and of any other.
#[test]
fn empty_pieces_tidy() {
    for (pin, number) in [(Pin::CanAndUart, INCOMPLETE), (Pin::CanOnly, PIN_CAN_ONLY)] {
        let mut session = session(0xFF, 1);
        let address = Address::Flash(0x00_FFC8);
        session.node.mode = Mode::Programming(Some(Staged { command: Command::Erase, address }));
        (session.node.pin, session.node.held_count, session.node.held) = (pin, 2, [0xAA; 15]);
        assert_eq!(piece(&mut session, ""), (number, 0, vec![]));
        assert_eq!(session.node.mode, Mode::Programming(None));
        assert_eq!((session.node.held_count, session.node.held[2..].iter().sum::<u8>()), (2, 0));
    }
}

/// 1, 2 and 3 take no byte of a whole frame, and the record comes back tidied.
#[test]
fn refused_pieces_take_nothing() {
    for (number, pin, mode, eeprom) in [
        (MEMORY_LENGTH, Pin::CanOnly, Mode::Waiting, 1_025),
        (PIN_CAN_ONLY, Pin::CanOnly, Mode::Error, 1_024),
        (DEAF, Pin::CanAndUart, Mode::Error, 1_024),
        (DEAF, Pin::CanAndUart, Mode::Waiting, 1_024),
    ] {
        let mut closed = session(0x00, 1);
        (closed.node.pin, closed.node.mode) = (pin, mode);
        (closed.node.held_count, closed.node.held[0], closed.node.held[5]) = (3, 0xAB, 7);
        let tidied = closed.node.tidied();
        closed.apply(&Event::Lend { flash: 65_536, eeprom });
        assert_eq!(piece(&mut closed, WRAPPED_PROGRAM), (number, 0, vec![]));
        assert_eq!(closed.node, tidied);
        assert_eq!(closed.node.held, [0; HELD_ROOM]);
        assert_eq!(closed.eeprom[BOOTFL], 0x00);
    }
}

/// A piece stops behind the byte that gives an outcome other than 10; the leftovers go on.
#[test]
fn stops_behind_an_outcome() {
    let mut session = session(0x00, 1);
    let (number, taken, reply) = piece(&mut session, &format!("01 {WRAPPED_PROGRAM} AA 07"));
    assert_eq!((number, taken), (DONE, 16));
    assert_eq!(reply, bytes("AA 10 01 05 0A FF FF 03 04 FF FF FF FF 21 A5"));
    assert_eq!(session.node.held_count, 0);
    assert_eq!(piece(&mut session, "AA 07"), (INCOMPLETE, 2, vec![]));
    assert_eq!(session.node.held_bytes(), [0xAA, 7]);
    let (number, taken, _) = piece(&mut session, "00 00 00 00 00 00 00 00 00 00 00 07 A4 AA");
    assert_eq!((number, taken), (BAD_WRAPPING, 13));
    assert_eq!(piece(&mut session, "AA 07 08").1, 3);
    assert_eq!(can(&mut session, PROGRAM).0, NOT_HANDLED);
    assert_eq!(session.node.held_count, 3);
}

/// A piece has the replies of its last byte alone: two frames in one piece are two calls.
#[test]
fn replies_of_the_last_byte() {
    let mut session = session(0x00, 1);
    session.eeprom[0x30..0x40].copy_from_slice(b"kitchen, upstair");
    let ring = bytes(&format!("{DESCRIBE} 2A {WRAPPED_PROGRAM}"));
    let answers = calls(&mut session, &ring, &[14, 0, 30, 255, 1]);
    let told: Vec<(u8, u8, u8)> =
        answers.iter().map(|answer| (answer.number, answer.line[2], answer.line[3])).collect();
    let [none, ten] = [(INCOMPLETE, 0, 0), (INCOMPLETE, 14, 0)];
    assert_eq!(told, [ten, none, (DONE, 1, 2), (DONE, 16, 1), none]);
    assert_eq!(answers[2].line[9..17], *b"kitchen,");
    assert_eq!(answers[2].line[24..32], *b" upstair");
    assert_eq!(session.events, 1 + 5);
}

/// A frame that makes the node wait stops the piece with 0; the rest is then refused with 3, none
/// taken, until a restart.
#[test]
fn waiting_inside_a_piece() {
    let mut session = session(0x00, 1);
    let ring = bytes(&format!("{WAIT} {WRAPPED_PROGRAM}"));
    let answers = calls(&mut session, &ring, &[255, 255, 3, 0]);
    let told: Vec<(u8, u8)> =
        answers.iter().map(|answer| (answer.number, answer.line[2])).collect();
    assert_eq!(told, [(DONE, 15), (DEAF, 0), (DEAF, 0), (DEAF, 0)]);
    assert_eq!(session.node.mode, Mode::Waiting);
    session.apply(&Event::Restart { pin: 1, self_test: 0, way: 0 });
    assert_eq!(piece(&mut session, WRAPPED_PROGRAM).0, DONE);
}

/// What a record of UART pieces means: rings and calls above the most, lengths above the ring.
#[test]
fn records_of_pieces() {
    let mut record = [0x2A; RECORD];
    record[..3].copy_from_slice(&[PIECES, 45, 17]);
    let lengths = vec![0x2A; MOST_CALLS];
    let most = Event::UartPieces { ring: vec![0x2A; LONGEST_RING], lengths };
    assert_eq!(Event::read(&record), Some(most));
    record[1..3].copy_from_slice(&[0, 0]);
    let none = Event::UartPieces { ring: vec![], lengths: vec![] };
    assert_eq!(Event::read(&record), Some(none.clone()));
    let mut session = session(0x00, 1);
    let line = session.closing_line();
    assert!(session.apply(&none).is_none() && session.closing_line() == line);
    assert!(!line.contains("piece"));
    piece(&mut session, "2A");
    assert!(session.closing_line().ends_with(" piece 0 0 0 0 0 0 0 0 0 0 1 0"));
}

/// The rows that these calls reach in a node that heard some bytes before, by the last of them.
fn rows(held: &str, ring: &str, lengths: &[u8]) -> Vec<&'static str> {
    let mut session = session(0x00, 1);
    uart(&mut session, held);
    let mut next = Some(Event::UartPieces { ring: bytes(ring), lengths: lengths.to_vec() });
    let (mut pieces, mut rows) = (Pieces::default(), vec![]);
    while let Some(event) = next {
        let before = session.node.clone();
        let answer = session.apply(&event).expect("a call");
        let met = Met::of(&before, &session, &event, &answer).expect("a piece");
        rows = pieces.take(&met);
        next = answer.left;
    }
    rows
}

/// What is told of pieces by themselves, and of those behind others.
#[test]
fn rows_of_pieces() {
    const LEFT: &str = "ended by an outcome, bytes left over";
    const LAST: &str = "last byte completes a frame";
    let two = format!("{DESCRIBE} {DESCRIBE}");
    assert_eq!(rows("", "", &[0]), ["empty, 10"]);
    assert_eq!(rows("AA", "2A", &[0]), ["empty, 10", "empty, 10 with bytes held"]);
    assert_eq!(rows("", "2A", &[9]), ["10, noise alone", "of one byte"]);
    assert_eq!(rows("", &two, &[14]), ["10, all taken, bytes held behind it"]);
    assert_eq!(rows("", &two, &[30]), [LEFT, "two whole frames", "two replies"]);
    assert_eq!(
        rows("", &two, &[20, 5]),
        ["10, all taken, bytes held behind it", "leftovers alone"]
    );
    assert_eq!(rows("", &two, &[20, 15]), [LAST, "two replies", "leftovers with more behind them"]);
    assert_eq!(
        rows("", &two, &[3, 5, 0, 7]),
        [LAST, "two replies", "a frame over three pieces or more"]
    );
    assert_eq!(rows("", &two, &[8, 7]), [LAST, "two replies"]);
    assert_eq!(rows("", &format!("2A {WAIT}"), &[99]), ["noise, then a frame", LAST]);
    assert_eq!(
        rows(&DESCRIBE[..3 * 14], "A5 AA", &[2])[..2],
        [LEFT, "first byte completes a frame"]
    );
    assert_eq!(
        rows(&DESCRIBE[..3 * 14], "A4 AA", &[2]),
        ["ended by 11, bytes left over", "first byte comes to 11"]
    );
    assert_eq!(
        rows("", &format!("{WAIT} {WAIT}"), &[20, 30]),
        ["3, none of some bytes taken", "0x101 or 0x102, and none of the bytes behind it taken, 3"]
    );
}

/// A node with its memories, to be handed bytes in one way or another.
#[derive(Clone, PartialEq, Debug)]
struct Whole {
    node: Node,
    flash: Vec<u8>,
    eeprom: Vec<u8>,
}

/// An outcome other than 10 that took a byte, and its replies.
type Told = (u8, Vec<Vec<u8>>);

impl Whole {
    /// A node in normal or programming mode and in either way, own numbers 05 0A, with held bytes,
    /// untidy or not.
    fn random(random: &mut Random) -> Whole {
        let (flash, mut eeprom) = (vec![random.byte(); FLASH_CELLS], vec![0x31; EEPROM_CELLS]);
        (eeprom[MODULE], eeprom[GROUP], eeprom[BOOTFL]) = (5, 10, random.pick(&[0x00, 0xFF]));
        let mut whole = Whole { node: Node::fresh([1, 2, 3, 4, 5, 6]), flash, eeprom };
        let lent = Lent { flash: &mut whole.flash, eeprom: &mut whole.eeprom };
        let way = random.pick(&[Way::New, Way::Old]);
        whole.node.restart(&lent, Pin::CanAndUart, true, way);
        whole.node.held = random.bytes();
        whole.node.held[0] = random.pick(&[START, START, 0x2A]);
        whole.node.held_count = random.below(17) as u64;
        whole
    }

    /// Hands over bytes one by one, before the first 1, 2 or 3.
    fn by_bytes(&mut self, all: &[u8]) -> Vec<Told> {
        let mut lent = Lent { flash: &mut self.flash, eeprom: &mut self.eeprom };
        let mut told = Vec::new();
        for &byte in all {
            let outcome = self.node.uart_byte(&mut lent, byte);
            match outcome.number {
                MEMORY_LENGTH | PIN_CAN_ONLY | DEAF => break,
                INCOMPLETE => assert!(outcome.replies.is_empty()),
                number => told.push((number, outcome.replies)),
            }
        }
        told
    }

    /// Hands over the same bytes in pieces, leftovers again with more behind, before the first 1,
    /// 2 or 3.
    fn by_pieces(&mut self, all: &[u8], random: &mut Random) -> Vec<Told> {
        let mut lent = Lent { flash: &mut self.flash, eeprom: &mut self.eeprom };
        let mut told = Vec::new();
        let mut at = 0;
        while at < all.len() {
            let length = random.pick(&[0, 1, 2, 14, 15, 16, 31, 100]).min(all.len() - at);
            let (taken, outcome) = self.node.uart_piece(&mut lent, &all[at..at + length]);
            at += taken;
            match outcome.number {
                MEMORY_LENGTH | PIN_CAN_ONLY | DEAF => {
                    assert_eq!(taken, 0);
                    break;
                }
                INCOMPLETE => assert_eq!((taken, outcome.replies.len()), (length, 0)),
                number => told.push((number, outcome.replies)),
            }
        }
        told
    }
}

/// Frames for the node, damaged ones, noise and 0xAA, one behind the other.
fn traffic(random: &mut Random) -> Vec<u8> {
    const TYPES: [u16; 12] =
        [0x100, 0x103, 0x104, 0x105, 0x106, 0x10E, 0x111, 0x030, 0x040, 0x030, 0x040, 0x102];
    let mut all = Vec::new();
    for _ in 0..random.below(12) {
        let kind = random.pick(&TYPES);
        let mut data: [u8; 8] = random.bytes();
        if kind == 0x030 {
            let command = random.pick(&[1, 2, 3, 4]);
            data[..6].copy_from_slice(&[0x00, 0x20, random.pick(&[0x00, 0x40, 8]), 0, 0, command]);
        } else if kind != 0x040 {
            data[2..4].copy_from_slice(&random.pick(&[[5, 10], [0, 10], [7, 7]]));
        }
        let flags = random.pick(&[0, 0, 0, 0, 0, 1, 2]);
        let mut frame = frames::wrapped(&frames::frame(kind, flags, 5, 10, data)).to_vec();
        match random.below(8) {
            0 => frame[13] ^= 1,
            1 => frame.truncate(random.below(15)),
            2 => frame.insert(0, random.pick(&[START, 0x2A])),
            _ => {}
        }
        all.extend(frame);
        all.extend((0..random.pick(&[0, 0, 0, 3])).map(|_| random.byte()));
    }
    all
}

/// However the bytes are cut, with leftovers handed in again: the outcomes other than 10, replies,
/// memories and end node are those of byte by byte, before the first 1, 2 or 3.
#[test]
fn no_cut_matters() {
    let mut random = Random::new(1);
    let mut reached = [0; 12];
    for _ in 0..400 {
        let whole = Whole::random(&mut random);
        let all = traffic(&mut random);
        let mut single = whole.clone();
        let told = single.by_bytes(&all);
        told.iter().for_each(|(number, _)| reached[*number as usize] += 1);
        single.node.tidy();
        for _ in 0..3 {
            let mut cut = whole.clone();
            assert_eq!(cut.by_pieces(&all, &mut random), told);
            cut.node.tidy();
            assert!(cut == single);
        }
    }
    for number in [DONE, MALFORMED, RESPONSE, NOT_HANDLED, NOT_FOR_NODE, ILLEGAL, 9, BAD_WRAPPING] {
        assert!(reached[number as usize] > 0, "{number} is not reached");
    }
}

/// A recipe in pieces ends as the plain reading says, whatever their length, with held bytes as
/// byte by byte; a node that doesn't hear them takes none.
#[test]
fn recipes_in_pieces_of_any_length() {
    let mut stream = Vec::new();
    recipes_in_pieces(1, 40, &mut stream).unwrap();
    for trial in read(&stream)[4..].iter().filter(|trial| trial.recipe.len() < 1_000) {
        let mut lines = Vec::new();
        for piece in [0, 1, 7, 14, 15, 16, 29, 31, 65_535] {
            let (mut one, mut out) = (Vec::new(), Vec::new());
            Trial { piece, ..trial.clone() }.write(&mut one).unwrap();
            assert_eq!(apply_recipes(&one, &mut out).unwrap(), None);
            let line = String::from_utf8(out).unwrap();
            lines.push(line.split(" flash ").nth(1).unwrap().to_string());
        }
        assert!(lines.iter().all(|line| *line == lines[0]));
    }
}

/// The first recipes in pieces are the longest one, in pieces of the four lengths.
#[test]
fn longest_recipe_in_pieces() {
    let mut stream = Vec::new();
    recipes_in_pieces(1, 5, &mut stream).unwrap();
    let trials = read(&stream);
    for (trial, piece) in trials.iter().zip(LONG_PIECES) {
        assert_eq!(*trial, Trial { piece, ..trials[0].clone() });
    }
    assert_eq!(translate(&trials[0].recipe, &mut vec![0; trials[0].output]), Ok(36_829));
    assert!(trials[0].uart && trials[4].recipe.len() < trials[0].recipe.len());
}
