//! Document 01's samples, and some rules that are easily got wrong.

use crate::event::*;
use crate::frames;
use crate::memory::*;
use crate::node::*;
use crate::node_record;
use crate::numbers::*;
use crate::recipe::*;
use crate::recipe_stream::{read, Begin, Trial};
use crate::session::{fill, Session};
use crate::uart_coverage::{Run, RUN_ROWS};

/// A session with blank memories, own numbers 05 0A, BOOTFL as given, restarted, nothing said of
/// the way.
pub fn session(bootfl: u8, pin: u8) -> Session {
    session_in(bootfl, pin, 0)
}

/// Such a session in the way of this byte.
pub fn session_in(bootfl: u8, pin: u8, way: u8) -> Session {
    let mut session = Session::new();
    let fixed = [1, 2, 3, 4, 5, 6];
    let (full, step, more, tells_way) = (0, 0, 0, 0);
    let begin = Event::Begin { flash: 0xFF, eeprom: 0xFF, fixed, full, step, more, tells_way };
    session.apply(&begin);
    session.eeprom[BOOTFL] = bootfl;
    session.eeprom[MODULE] = 0x05;
    session.eeprom[GROUP] = 0x0A;
    session.apply(&Event::Restart { pin, self_test: 0, way });
    session
}

/// Bytes of hex pairs with blanks between.
pub fn bytes(pairs: &str) -> Vec<u8> {
    pairs.split_whitespace().map(|pair| u8::from_str_radix(pair, 16).unwrap()).collect()
}

/// A CAN frame's number and its first reply.
pub fn can(session: &mut Session, frame: &str) -> (u8, Vec<u8>) {
    let answer = session.apply(&Event::CanFrame(bytes(frame))).unwrap();
    (answer.number, answer.line[3..3 + 12 * answer.line[2] as usize].to_vec())
}

/// The numbers of some UART bytes, and the replies of the last.
pub fn uart(session: &mut Session, all: &str) -> (Vec<u8>, Vec<u8>) {
    let mut numbers = Vec::new();
    let mut reply = Vec::new();
    for byte in bytes(all) {
        let answer = session.apply(&Event::UartByte(byte)).unwrap();
        numbers.push(answer.number);
        reply = answer.line[3..3 + 15 * answer.line[2] as usize].to_vec();
    }
    (numbers, reply)
}

pub const PROGRAM: &str = "10 00 F0 F0 FF FF 05 0A FF FF FF FF";
pub const WRAPPED_PROGRAM: &str = "AA 10 00 F0 F0 FF FF 05 0A FF FF FF FF F9 A5";

/// S1 and S2: identifiers and frames, both ways.
#[test]
fn s1_s2_identifiers() {
    for (identifier, head) in [(0x0200_F0F0, "10 00 F0 F0"), (0x1FFF_FFFF, "FF F1 FF FF")] {
        let mut frame = [0; 12];
        assert_eq!(frames::identifier_to_frame(identifier, &[7; 8], &mut frame), DONE);
        assert_eq!(frame[..4], bytes(head));
        let mut data = [0; 8];
        assert_eq!(frames::frame_to_identifier(&frame, &mut data), (DONE, identifier));
        assert_eq!(data, [7; 8]);
    }
}

/// S3 and S4: the wrapped request and its wrapped reply.
#[test]
fn s3_s4_enter_programming_on_uart() {
    let mut session = session(0x00, 1);
    let (numbers, reply) = uart(&mut session, WRAPPED_PROGRAM);
    assert_eq!(numbers, [vec![INCOMPLETE; 14], vec![DONE]].concat());
    assert_eq!(reply, bytes("AA 10 01 05 0A FF FF 03 04 FF FF FF FF 21 A5"));
    assert_eq!(session.node.mode, Mode::Programming(None));
    assert_eq!(session.eeprom[BOOTFL], 0xFF);
}

/// S5 to S9: the address rule at its rims, and numbers too large for it.
#[test]
fn s5_to_s9_addresses() {
    let legal = |address, command| asked(address, command).is_some();
    assert!(legal(0x00FFF8, 2));
    assert!(!legal(0x000FF8, 2) && !legal(0x010000, 2));
    assert!(legal(0x00FFC0, 3));
    assert!(!legal(0x00FFC8, 3) && !legal(0xF00000, 3));
    assert!(legal(0xF003F8, 2) && !legal(0xF00400, 2));
    assert!(!legal(0x001000, 0x101) && !legal(0x0100_1000, 1));
}

/// S10: a FLASH write combines by "and"; the reply shows the cells afterwards.
#[test]
fn s10_flash_write() {
    let mut session = session(0xFF, 0);
    session.flash[0x2000] = 0x0F;
    let (number, reply) = can(&mut session, "03 00 05 0A 00 20 00 11 22 02 33 44");
    assert_eq!((number, reply), (DONE, bytes("03 01 05 0A 00 20 00 11 22 02 33 44")));
    let (_, reply) = can(&mut session, "04 00 05 0A F3 01 02 03 04 05 06 07");
    assert_eq!(reply, bytes("04 01 05 0A 03 01 02 03 04 05 06 07"));
    assert_eq!(session.flash[0x2000], 0x03);
}

/// S11: a recipe and its frames; bytes behind the last frame stay; 26 one byte short.
#[test]
fn s11_recipe() {
    let recipe = bytes("01 05 0A 03 F0 00 30 41 42 43 44 45 46 47 48 0F");
    let mut output = [0xEE; 40];
    assert_eq!(translate(&recipe, &mut output), Ok(3));
    let frames = "03 00 05 0A F0 00 30 FF FF 02 FF FF 04 00 05 0A 41 42 43 44 45 46 47 48
        02 00 05 0A FF FF FF FF FF FF FF FF EE EE EE EE";
    assert_eq!(output.to_vec(), bytes(frames));
    assert_eq!(translate(&recipe, &mut [0; 35]), Err(Refusal { number: 26, place: 0 }));
}

/// Blank FLASH: its sum, its stored sum, no start.
#[test]
fn blank_flash_sum() {
    let flash = vec![0xFF; FLASH_CELLS];
    assert_eq!(firmware_sum(&flash), 0x6F_8D03);
    assert_eq!(stored_sum(&flash), 0xFF_FFFF);
    assert_eq!(session(0x00, 0).node.mode, Mode::Normal { started: false });
}

/// 0x1F1 answers 0x106 alone, 0x105 gets the table row.
#[test]
fn incorrect_firmware_for_0x106_alone() {
    let mut session = session(0x00, 0);
    let (_, reply) = can(&mut session, "10 60 00 00 00 00 05 0A 00 00 00 00");
    assert_eq!(reply, bytes("1F 11 05 0A 03 6F 8D 03 FF FF 03 04"));
    let (_, reply) = can(&mut session, "10 50 00 00 00 00 00 0A 00 00 00 00");
    assert_eq!(reply, bytes("10 51 05 0A 30 00 03 FF FF FF 03 04"));
}

/// A group request wants D2 0x00 and D3 0x00 or the own group.
#[test]
fn group_requests() {
    let mut session = session(0x00, 0);
    for (frame, number) in [
        ("10 30 00 00 00 00 00 00 00 00 00 00", DONE),
        ("10 30 00 00 00 00 00 0A 00 00 00 00", DONE),
        ("10 30 00 00 00 00 00 0B 00 00 00 00", NOT_FOR_NODE),
        ("10 30 00 00 00 00 05 0A 00 00 00 00", NOT_FOR_NODE),
        ("10 40 00 00 00 00 00 0A 00 00 00 00", NOT_FOR_NODE),
    ] {
        assert_eq!(can(&mut session, frame).0, number, "{frame}");
    }
}

/// The order of the checks, and a restart refused with 1.
#[test]
fn order_of_numbers() {
    let mut session = session(0x00, 0);
    assert_eq!(uart(&mut session, "AA 55").0, [PIN_CAN_ONLY; 2]);
    assert_eq!(can(&mut session, "03 03 05 0A 00 00 00 00 00 00 00").0, MALFORMED);
    assert_eq!(can(&mut session, "03 03 05 0A 00 00 00 00 00 00 00 00").0, MALFORMED);
    assert_eq!(can(&mut session, "03 01 05 0A 00 00 00 00 00 00 00 00").0, RESPONSE);
    assert_eq!(can(&mut session, "03 00 77 77 00 00 00 00 00 00 00 00").0, NOT_HANDLED);
    assert_eq!(can(&mut session, "10 10 77 77 00 00 00 00 00 00 00 00").0, DONE);
    assert_eq!(can(&mut session, "").0, DEAF);
    assert_eq!(uart(&mut session, "AA").0, [PIN_CAN_ONLY]);
    session.apply(&Event::Lend { flash: 1, eeprom: 0 });
    assert_eq!(can(&mut session, "").0, MEMORY_LENGTH);
    assert_eq!(uart(&mut session, "AA").0, [MEMORY_LENGTH]);
    let before = session.node.clone();
    let answer = session.apply(&Event::Restart { pin: 1, self_test: 1, way: 0 }).unwrap();
    assert_eq!((answer.number, &session.node), (MEMORY_LENGTH, &before));
}

/// Held bytes in the old way: skipping, 0xAA inside, CAN in between, 11, a whole frame, restart.
#[test]
fn held_bytes() {
    let mut session = session_in(0x00, 1, 2);
    assert_eq!(uart(&mut session, "01 02 AA AA AA").0, [INCOMPLETE; 5]);
    assert_eq!(session.node.held[..3], [0xAA; 3]);
    assert_eq!(can(&mut session, PROGRAM).0, DONE);
    assert_eq!(session.node.held_count, 3);
    let (numbers, _) = uart(&mut session, "00 00 00 00 00 00 00 00 00 00 54 A4");
    assert_eq!(numbers[11], BAD_WRAPPING);
    assert_eq!(session.node.held_count, 0);
    let (numbers, _) = uart(&mut session, WRAPPED_PROGRAM);
    assert_eq!((numbers[14], session.node.held_count), (NOT_HANDLED, 0));
    uart(&mut session, "AA 01");
    session.eeprom[GROUP] = 0x0B;
    session.apply(&Event::Restart { pin: 0, self_test: 1, way: 0 });
    assert_eq!((session.node.pin, session.node.mode), (Pin::CanOnly, Mode::Error));
    assert_eq!((session.node.group, session.node.held_count), (0x0B, 0));
}

/// A staged command stays, is dropped by 8, and an erase touches its block alone.
#[test]
fn staged_commands() {
    let mut session = session(0xFF, 0);
    let data = "04 00 05 0A 00 01 02 03 04 05 06 07";
    assert_eq!(can(&mut session, data).0, NOTHING_STAGED);
    session.flash[0xFF80..].fill(0x5A);
    assert_eq!(can(&mut session, "03 00 05 0A 00 FF C0 00 00 03 00 00").0, DONE);
    assert_eq!(can(&mut session, data).1, bytes("04 01 05 0A FF FF FF FF FF FF FF FF"));
    assert_eq!(session.flash[0xFFBF..0xFFC1], [0x5A, 0xFF]);
    assert_eq!(session.flash[0xFFFF..0x10001], [0xFF, 0x5A]);
    assert_eq!(can(&mut session, "03 00 05 0B 00 FF F8 00 00 03 00 00").0, NOT_FOR_NODE);
    assert_eq!(can(&mut session, data).0, DONE);
    assert_eq!(can(&mut session, "03 00 05 0A 00 FF F8 00 00 03 00 00").0, ILLEGAL);
    assert_eq!(can(&mut session, data).0, NOTHING_STAGED);
}

/// Own numbers stay until restart; leaving sets BOOTFL to 0x00.
#[test]
fn own_numbers_and_bootfl() {
    let mut session = session(0xFF, 0);
    assert_eq!(can(&mut session, "03 00 05 0A F0 00 20 00 00 02 00 00").0, DONE);
    assert_eq!(can(&mut session, "04 00 05 0A 00 01 02 03 04 05 06 07").0, DONE);
    assert_eq!((session.eeprom[MODULE], session.eeprom[GROUP]), (6, 7));
    assert_eq!(can(&mut session, "01 00 05 0A 00 00 00 00 00 00 00 00").0, NOT_FOR_NODE);
    assert_eq!(can(&mut session, "02 00 05 0A 00 00 00 00 00 00 00 00"), (DONE, vec![]));
    assert_eq!((session.eeprom[BOOTFL], session.node.mode), (0x00, Mode::Waiting));
}

/// What an untidy record counts as, also at number 1.
#[test]
fn untidy_records() {
    let mut session = session(0xFF, 1);
    let mut tidy = [0; node_record::HANDED];
    tidy[..node_record::NODE].copy_from_slice(&node_record::write(&session.node));
    for (staged, kind, address, number) in [
        (3, 0, 0x00_FFF8_u32, NOTHING_STAGED),
        (3, 1, 0x00_2000, DONE),
        (3, 1, 0xF0_0000, NOTHING_STAGED),
        (2, 1, 0x00_2000, NOTHING_STAGED),
        (1, 0, 0xF0_0000, NOTHING_STAGED),
        (1, 9, 0xF0_0000, DONE),
        (4, 0, 0x00_2000, NOTHING_STAGED),
    ] {
        let mut record = tidy;
        record[node_record::STAGED_AT] = staged;
        record[node_record::ADDRESS_KIND_AT] = kind;
        record[node_record::ADDRESS_AT..node_record::NODE].copy_from_slice(&address.to_be_bytes());
        session.apply(&Event::HandIn(record));
        assert_eq!(can(&mut session, "04 00 05 0A 00 00 00 00 00 00 00 00").0, number);
    }
    for (above, count, first, held) in [
        (0, 15, 0xAA, 0),
        (0, 14, 0xAA, 14),
        (0, 3, 0xAB, 0),
        (0, 0, 0xAA, 0),
        (1, 3, 0xAA, 0),
        (0x0100_0000_u32, 14, 0xAA, 0),
    ] {
        let mut record = tidy;
        record[node_record::HELD_COUNT_AT] = count;
        record[node_record::HELD_AT..node_record::MODE_AT].fill(first);
        record[node_record::COUNT_ABOVE_AT..node_record::FIFTEENTH_AT]
            .copy_from_slice(&above.to_be_bytes());
        record[node_record::FIFTEENTH_AT] = 0x77;
        session.apply(&Event::HandIn(record));
        session.apply(&Event::Lend { flash: 65_537, eeprom: 1_025 });
        assert_eq!(can(&mut session, "").0, MEMORY_LENGTH);
        session.apply(&Event::Lend { flash: 65_536, eeprom: 1_024 });
        assert_eq!(session.node.held_count, held);
        assert!(session.node.held[held as usize..].iter().all(|&byte| byte == 0));
    }
}

/// Lengths that are wrong by one, by much, or exchanged: 1 at every call, and nothing is looked at.
#[test]
fn wrong_lengths() {
    let mut session = session(0x00, 1);
    for (flash, eeprom) in [
        (65_535, 1_025),
        (65_537, 1_023),
        (0, 1_024),
        (65_536, 0),
        (1_024, 65_536),
        (131_072, 1_024),
        (u32::MAX, 1_024),
    ] {
        session.apply(&Event::Lend { flash, eeprom });
        assert_eq!(can(&mut session, PROGRAM).0, MEMORY_LENGTH);
        assert_eq!(uart(&mut session, "AA").0, [MEMORY_LENGTH]);
        let restart = Event::Restart { pin: 0, self_test: 1, way: 0 };
        assert_eq!(session.apply(&restart).unwrap().number, MEMORY_LENGTH);
        assert_eq!(session.apply(&Event::Show(0x00_1000)).unwrap().line, [4, 1, 0]);
    }
    session.apply(&Event::Lend { flash: 65_536, eeprom: 1_024 });
    assert_eq!(can(&mut session, PROGRAM).0, DONE);
}

/// A frame with bytes behind it, 256 of them too, and a wrapped frame: on CAN all are 4.
#[test]
fn can_lengths() {
    let mut session = session(0x00, 1);
    for length in [13, 21, CAN_IN_RECORD, 256 + 12, LONGEST_CAN] {
        let mut frame = bytes(PROGRAM);
        frame.resize(length, CAN_BEHIND);
        assert_eq!(session.apply(&Event::CanFrame(frame)).unwrap().number, MALFORMED);
    }
    assert_eq!(can(&mut session, WRAPPED_PROGRAM).0, MALFORMED);
    assert_eq!(can(&mut session, PROGRAM).0, DONE);
}

/// 0xAA inside noise, a byte too many, a byte too few, and a restart inside a frame: in the old way
/// each spoils one frame, and the next is heard.
#[test]
fn spoiled_frames() {
    let last = |numbers: Vec<u8>| numbers.last().copied();
    let frame = "AA 10 40 01 01 00 00 05 0A 00 00 00 00 61 A5";
    let mut session = session_in(0x00, 1, 2);
    let noise = format!("2A AA 01 02 {frame}");
    assert_eq!(last(uart(&mut session, &noise).0), Some(INCOMPLETE));
    assert_eq!(session.node.held_count, 0);
    assert_eq!(last(uart(&mut session, frame).0), Some(DONE));
    let inserted = "AA 10 40 01 01 00 00 77 05 0A 00 00 00 00 61 A5";
    assert_eq!(uart(&mut session, inserted).0[14..], [BAD_WRAPPING, INCOMPLETE]);
    assert_eq!(last(uart(&mut session, frame).0), Some(DONE));
    let lost = "AA 10 40 01 01 00 05 0A 00 00 00 00 61 A5";
    assert_eq!(last(uart(&mut session, lost).0), Some(INCOMPLETE));
    assert_eq!(uart(&mut session, frame).0[0], BAD_WRAPPING);
    assert_eq!(last(uart(&mut session, frame).0), Some(DONE));
    uart(&mut session, &frame[..3 * 7]);
    session.apply(&Event::Restart { pin: 1, self_test: 0, way: 2 });
    assert_eq!(uart(&mut session, &frame[3 * 7..]).0, [INCOMPLETE; 8]);
    assert_eq!(session.node.held_count, 0);
    assert_eq!(last(uart(&mut session, frame).0), Some(DONE));
}

/// The rows that these UART bytes reach in a session in the old way, with a restart behind the
/// first so many.
fn run_rows(all: &str, before_restart: usize) -> Vec<&'static str> {
    let mut session = session_in(0x00, 1, 2);
    let mut run = Run::new();
    let mut rows = Vec::new();
    let mut events: Vec<Event> = bytes(all).into_iter().map(Event::UartByte).collect();
    if before_restart > 0 {
        events.insert(before_restart, Event::Restart { pin: 1, self_test: 0, way: 2 });
    }
    for event in events {
        let before = session.node.clone();
        let number = session.apply(&event).unwrap().number;
        rows.extend(run.take(&before, &event, number));
    }
    rows
}

/// What is told of odd runs of UART bytes, and that nothing is told of a whole frame.
#[test]
fn runs_of_uart_bytes() {
    let frame = "AA 10 40 01 01 00 00 05 0A 00 00 00 00 61 A5";
    assert_eq!(run_rows(frame, 0), [""; 0]);
    assert_eq!(run_rows(&format!("2A 2B {frame}"), 0), [""; 0]);
    assert_eq!(run_rows(&format!("2A AA 01 {frame}"), 0), [RUN_ROWS[0]]);
    assert_eq!(run_rows("AA 10 40 01 01 77 00 00 05 0A 00 00 00 00 61 A5", 0), [RUN_ROWS[1]]);
    let lost = "AA 10 40 01 01 00 00 0A 00 00 00 00 61 A5";
    assert_eq!(run_rows(&format!("{lost} {frame}"), 0), [RUN_ROWS[2]]);
    assert_eq!(run_rows(frame, 7), [RUN_ROWS[3]]);
}

/// Sums that are multiples of 65,536, and a stored one that differs in its high byte alone.
#[test]
fn round_sums() {
    let mut session = session(0x00, 0);
    session.flash[SUM_FIRST..=SUM_LAST].fill(0x00);
    session.flash[THREE_CELLS..][..3].copy_from_slice(&RIGHT_CELLS);
    session.flash[0x2000..][..256].fill(0xFF);
    session.flash[0x2100] = 0xCD;
    assert_eq!(firmware_sum(&session.flash), 65_536);
    for (stored, started) in [([1, 0, 0], true), ([0, 0, 0], false), ([2, 0, 0], false)] {
        session.flash[STORED_SUM..][..3].copy_from_slice(&stored);
        session.apply(&Event::Restart { pin: 0, self_test: 0, way: 0 });
        assert_eq!(session.node.mode, Mode::Normal { started });
    }
    let (number, reply) = can(&mut session, "10 60 01 01 00 00 05 0A 00 00 00 00");
    assert_eq!((number, &reply[4..8]), (DONE, &[0x01, 0x01, 0x00, 0x00][..]));
}

/// The pattern of a session's first cells.
#[test]
fn mixed_memories() {
    let mut cells = [0; 1_024];
    fill(&mut cells, 0xFE, 3, 7);
    assert_eq!(cells[..4], [0xFE, 0x01, 0x04, 0x07]);
    for index in [255, 256, 511, 512, 1_023] {
        let more = if index % 256 == 0 { 7 } else { 0 };
        assert_eq!(cells[index], cells[index - 1].wrapping_add(3).wrapping_add(more));
    }
}

/// The refusals of small recipes, with their places.
#[test]
fn recipe_refusals() {
    let refused = |pairs: &str| {
        let refusal = translate(&bytes(pairs), &mut [0; 4096]).unwrap_err();
        (refusal.number, refusal.place)
    };
    assert_eq!(refused(""), (20, 0));
    assert_eq!(refused("01 00 00"), (20, 3));
    assert_eq!(refused("01 00"), (22, 0));
    assert_eq!(refused("0F"), (23, 0));
    assert_eq!(refused("04"), (21, 0));
    assert_eq!(refused("01 00 00 01"), (23, 3));
    assert_eq!(refused("01 00 00 0F 0F"), (23, 4));
    assert_eq!(refused("01 00 00 0F 00"), (21, 4));
    assert_eq!(refused("01 00 00 02 FF"), (22, 3));
    assert_eq!(refused("01 00 00 02 00 00 00 11"), (22, 3));
    assert_eq!(refused("01 00 00 0F 03 F0"), (23, 4));
    assert_eq!(refused("03 F0"), (23, 0));
    assert_eq!(refused("01 00 00 03 00 10 00 00 00 00 00 00 00 00 00"), (24, 3));
    assert_eq!(refused("01 00 00 03 F0 04 00 00 00 00 00 00 00 00 00 99"), (24, 3));
}

/// The refusals at 2,048 items.
#[test]
fn most_items() {
    let row = bytes("03 F0 00 30 00 00 00 00 00 00 00 00");
    let recipe = |rows: usize, end: &[u8]| [vec![1, 0, 0], row.repeat(rows), end.to_vec()].concat();
    let place = 3 + 12 * 2_046;
    let last = |end: &[u8]| items(&recipe(2_046, end)).map(|places| places.len());
    assert_eq!(last(&[0x0F]), Ok(2_048));
    assert_eq!(last(&[0x0F, 0x77]), Err(Refusal { number: 25, place: place + 1 }));
    assert_eq!(last(&row), Err(Refusal { number: 20, place: place + 12 }));
    assert_eq!(last(&[0x0F, 0x0F]), Err(Refusal { number: 25, place: place + 1 }));
}

/// Every event written to a record is read back.
#[test]
fn records_read_back() {
    let frame = |length: usize| vec![0x5A; length];
    for event in [
        Event::Restart { pin: 2, self_test: 3, way: 4 },
        Event::CanFrame(frame(CAN_IN_RECORD)),
        Event::CanFrame([frame(CAN_IN_RECORD), vec![CAN_BEHIND; 207]].concat()),
        Event::UartByte(0xAA),
        Event::Show(0x0100_1000),
        Event::HandIn(std::array::from_fn(|i| i as u8)),
        Event::Lend { flash: 0x0102_0304, eeprom: 0xFFFF_FFFE },
        Event::Poke { address: 0xF0_0026, value: 9 },
        Event::Begin {
            flash: 1,
            eeprom: 2,
            fixed: [3, 4, 5, 6, 7, 8],
            full: 0x1234,
            step: 9,
            more: 10,
            tells_way: 11,
        },
        Event::End,
        Event::IdentifierToFrame { identifier: 0x0200_F0F0, data: frame(8), output: 12 },
        Event::FrameToIdentifier { frame: frame(12), output: 8 },
        Event::Wrap { input: frame(12), output: 15 },
        Event::Unwrap { input: frame(15), output: 12 },
        Event::AddressRule { address: 0x1000, command: 0x101 },
        Event::UartPieces { ring: frame(LONGEST_RING), lengths: vec![7; MOST_CALLS] },
        Event::UartPieces { ring: vec![], lengths: vec![0, 255] },
        Event::Meant(255),
    ] {
        assert_eq!(Event::read(&event.write()), Some(event));
    }
    assert_eq!(Event::read(&[0xFF; RECORD]), None);
    assert_eq!(Event::read(&[0x0F; RECORD]), None);
}

/// A recipe's header is read back, with what the record begins with.
#[test]
fn headers_read_back() {
    let address = Address::Eeprom(0xF0_0020);
    let begin = Begin {
        can_and_uart: false,
        staged: Some(Staged { command: Command::Write, address }),
        held_count: 255,
        held: std::array::from_fn(|i| 0xAA + i as u8),
    };
    let trial = Trial {
        uart: true,
        flash: 1,
        eeprom: 2,
        module: 3,
        group: 4,
        step: 5,
        more: 6,
        begin,
        piece: 0x1234,
        way_byte: 5,
        meant: Way::New,
        output: 70_000,
        recipe: vec![7; 65],
    };
    let mut stream = Vec::new();
    trial.write(&mut stream).unwrap();
    assert_eq!(stream.len(), 3 * RECORD);
    assert_eq!(stream[38..42], [0x12, 0x34, 5, 0]);
    assert_eq!(read(&stream), [trial]);
}
