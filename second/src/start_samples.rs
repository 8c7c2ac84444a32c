//! Request A4: what firmware needs to start, what 0x1F1 says of it when asked, and that nothing
//! else changed.

use crate::before_a4::Rule;
use crate::changed_by_a4::{changed_by_a4, Pair};
use crate::event::*;
use crate::explain::explain;
use crate::frames;
use crate::generate::{generate, Kind};
use crate::memory::*;
use crate::node::*;
use crate::node_record::{self, HANDED, MODE_AT, NODE};
use crate::numbers::*;
use crate::samples::{bytes, can, session, uart};
use crate::session::Session;
use crate::start_coverage::Starts;

const ASK_NODE: &str = "10 60 00 00 00 00 05 0A 00 00 00 00";
const ASK_GROUP: &str = "10 50 00 00 00 00 00 0A 00 00 00 00";
const ORDINARY: &str = "10 61 05 0A 30 00 03 06 07 08 03 04";
const ORDINARY_GROUP: &str = "10 51 05 0A 30 00 03 06 07 08 03 04";

/// Stores the firmware sum.
fn store_sum(flash: &mut [u8]) {
    let [_, sum @ ..] = firmware_sum(flash).to_be_bytes();
    flash[STORED_SUM..][..3].copy_from_slice(&sum);
}

/// Brings FLASH to a flag byte: by the middle one of the three cells, and by the stored sum.
fn bring(flash: &mut [u8], flags: u8) {
    flash[THREE_CELLS..][..6].copy_from_slice(&[0x30, 0x00, 0x03, 6, 7, 8]);
    flash[THREE_CELLS + 1] = flags & CELLS_DIFFER;
    store_sum(flash);
    flash[STORED_SUM + 2] ^= flags & SUMS_DIFFER;
}

/// Restarts into normal mode; gives whether firmware started.
fn started(session: &mut Session) -> bool {
    session.apply(&Event::Restart { pin: 1, self_test: 0, way: 0 });
    match session.node.mode {
        Mode::Normal { started } => started,
        mode => panic!("{mode:?}"),
    }
}

/// A session restarted over FLASH of a flag byte.
fn session_on(flags: u8) -> Session {
    let mut session = session(0x00, 1);
    bring(&mut session.flash, flags);
    assert_eq!(started(&mut session), flags == 0);
    session
}

/// The reply 0x1F1 over this FLASH, with this flag byte.
fn incorrect(flash: &[u8], flags: u8) -> Vec<u8> {
    let [_, high, middle, low] = firmware_sum(flash).to_be_bytes();
    [vec![0x1F, 0x11, 0x05, 0x0A, flags, high, middle, low], bytes("FF FF 03 04")].concat()
}

/// "bit 0 of the flag byte says sums differ and bit 1 says the three cells differ .. either alone,
/// both, or neither", and firmware starts at 0 exactly.
#[test]
fn flag_bytes() {
    let mut flash = vec![0x5A; FLASH_CELLS];
    for flags in 0..4 {
        bring(&mut flash, flags);
        assert_eq!((flag_byte(&flash), starts(&flash)), (flags, flags == 0));
    }
}

/// Each bit of each of the three cells, and each bit of the stored sum, is looked at; of the cells
/// around them only those of the sum's area.
#[test]
fn every_bit_counts() {
    let mut right = vec![0x5A; FLASH_CELLS];
    bring(&mut right, 0);
    for bit in 0..24 {
        let mut flash = right.clone();
        flash[THREE_CELLS + bit / 8] ^= 1 << (bit % 8);
        assert_eq!(flag_byte(&flash), SUMS_DIFFER | CELLS_DIFFER);
        store_sum(&mut flash);
        assert_eq!(flag_byte(&flash), CELLS_DIFFER);
        let mut flash = right.clone();
        flash[STORED_SUM + bit / 8] ^= 1 << (bit % 8);
        assert_eq!(flag_byte(&flash), SUMS_DIFFER);
    }
    for (place, flags) in [
        (0x0FFF, 0),
        (SUM_FIRST, SUMS_DIFFER),
        (THREE_CELLS - 1, SUMS_DIFFER),
        (ATYPE, SUMS_DIFFER),
        (SUM_LAST, SUMS_DIFFER),
        (SUM_LAST + 1, 0),
        (0xFFFF, 0),
    ] {
        let mut flash = right.clone();
        flash[place] ^= 0x80;
        assert_eq!(flag_byte(&flash), flags, "{place:04X}");
    }
}

/// The three cells are part of the firmware sum: alone in a FLASH of zeros they add up to 0x33.
#[test]
fn three_cells_in_the_sum() {
    let mut flash = vec![0x00; FLASH_CELLS];
    flash[THREE_CELLS..][..3].copy_from_slice(&RIGHT_CELLS);
    assert_eq!((firmware_sum(&flash), flag_byte(&flash)), (0x33, SUMS_DIFFER));
    flash[STORED_SUM + 2] = 0x33;
    assert!(starts(&flash));
}

/// The right values one place lower or higher, or in another order, are other cells.
#[test]
fn values_at_other_places() {
    for (place, cells) in [
        (THREE_CELLS - 1, RIGHT_CELLS),
        (THREE_CELLS + 1, RIGHT_CELLS),
        (THREE_CELLS, [0x00, 0x30, 0x03]),
        (THREE_CELLS, [0x03, 0x00, 0x30]),
        (THREE_CELLS, [0x30, 0x03, 0x00]),
        (THREE_CELLS, [0x00; 3]),
        (THREE_CELLS, [0xFF; 3]),
    ] {
        let mut flash = vec![0x00; FLASH_CELLS];
        flash[place..][..3].copy_from_slice(&cells);
        store_sum(&mut flash);
        assert_eq!(flag_byte(&flash), CELLS_DIFFER, "{cells:02X?} at {place:04X}");
    }
}

/// "A module with FLASH all zeros started: the stored sum is zero and so is the sum." Not any more,
/// nor does one of 0xFF; equal sums with other cells don't start it, both conditions do.
#[test]
fn examples_of_the_request() {
    let mut session = session(0x00, 1);
    session.flash.fill(0x00);
    assert_eq!((stored_sum(&session.flash), firmware_sum(&session.flash)), (0, 0));
    assert!(!started(&mut session));
    let reply = can(&mut session, ASK_NODE).1;
    assert_eq!(reply, bytes("1F 11 05 0A 02 00 00 00 FF FF 03 04"));
    session.flash.fill(0xFF);
    assert!(!started(&mut session));
    let reply = can(&mut session, ASK_NODE).1;
    assert_eq!(reply, bytes("1F 11 05 0A 03 6F 8D 03 FF FF 03 04"));
    store_sum(&mut session.flash);
    assert!(!started(&mut session));
    let reply = can(&mut session, ASK_NODE).1;
    assert_eq!(reply, bytes("1F 11 05 0A 02 6F 8D 03 FF FF 03 04"));
    bring(&mut session.flash, 0);
    assert!(started(&mut session));
    assert_eq!(can(&mut session, ASK_NODE), (DONE, bytes(ORDINARY)));
}

/// "as found when asked": whatever the restart found, 0x1F1 tells FLASH as it is, 0x00 too; and
/// firmware that started gets the ordinary reply, whatever became of its cells.
#[test]
fn cells_changed_since_the_restart() {
    for found in 0..4 {
        let mut session = session_on(found);
        for now in [0, 1, 2, 3, 0, 2, 1, 3, 0] {
            bring(&mut session.flash, now);
            let node = session.node.clone();
            let reply = match found {
                0 => bytes(ORDINARY),
                _ => incorrect(&session.flash, now),
            };
            assert_eq!(can(&mut session, ASK_NODE), (DONE, reply), "{found}, {now}");
            assert_eq!(session.node, node);
        }
    }
}

/// The front of the ordinary replies is 30 00 03 whatever the three cells are, and ATYPE AVERS
/// FVERS are the cells as they are.
#[test]
fn constants_in_replies() {
    let mut session = session_on(0);
    session.flash[THREE_CELLS..][..6].copy_from_slice(&[0x11, 0x12, 0x13, 0x14, 0x15, 0x16]);
    for (frame, reply) in [
        (ASK_NODE, "10 61 05 0A 30 00 03 14 15 16 03 04"),
        (ASK_GROUP, "10 51 05 0A 30 00 03 14 15 16 03 04"),
        ("10 40 00 00 00 00 05 0A 00 00 00 00", "10 41 05 0A 30 00 03 FF 01 02 03 04"),
        ("10 30 00 00 00 00 00 00 00 00 00 00", "10 31 05 0A 30 00 03 FF 01 02 03 04"),
    ] {
        assert_eq!(can(&mut session, frame), (DONE, bytes(reply)));
    }
}

/// 0x105 gets the ordinary row, started or not, over each FLASH.
#[test]
fn group_request_in_each_state() {
    for found in 0..4 {
        let mut session = session_on(found);
        for now in 0..4 {
            bring(&mut session.flash, now);
            assert_eq!(can(&mut session, ASK_GROUP), (DONE, bytes(ORDINARY_GROUP)));
        }
    }
}

/// The same replies on UART, byte by byte and in a piece, wrapped.
#[test]
fn same_on_uart() {
    let ask = frames::wrapped(bytes(ASK_NODE)[..].try_into().unwrap());
    let pairs: Vec<String> = ask.iter().map(|byte| format!("{byte:02X}")).collect();
    for found in 0..4 {
        for now in 0..4 {
            let mut session = session_on(found);
            bring(&mut session.flash, now);
            let reply = can(&mut session, ASK_NODE).1;
            let reply = frames::wrapped(reply[..].try_into().unwrap());
            assert_eq!(uart(&mut session, &pairs.join(" ")).1, reply);
            let pieces = Event::UartPieces { ring: ask.to_vec(), lengths: vec![255] };
            let line = session.apply(&pieces).unwrap().line;
            assert_eq!((&line[1..4], &line[4..][..15]), (&[DONE, 15, 1][..], &reply[..]));
        }
    }
}

/// Firmware that comes by frames, as a recipe's Block does, starts after leaving and a restart.
#[test]
fn written_by_frames() {
    let mut session = session(0x00, 1);
    assert_eq!(can(&mut session, "10 00 F0 F0 FF FF 05 0A FF FF FF FF").0, DONE);
    let mut flash = session.flash.clone();
    bring(&mut flash, 0);
    for (command, place) in [(3, STORED_SUM), (2, STORED_SUM), (2, THREE_CELLS)] {
        let [_, d0, d1, d2] = (place as u32).to_be_bytes();
        let staging = [d0, d1, d2, 0xFF, 0xFF, command, 0xFF, 0xFF];
        let data = std::array::from_fn(|i| flash[place + i]);
        for (kind, data) in [(0x030, staging), (0x040, data)] {
            let frame = frames::frame(kind, 0, 0x05, 0x0A, data);
            assert_eq!(session.apply(&Event::CanFrame(frame.to_vec())).unwrap().number, DONE);
        }
    }
    assert!(session.flash == flash);
    assert_eq!(can(&mut session, "02 00 05 0A FF FF FF FF FF FF FF FF").0, DONE);
    assert!(started(&mut session));
}

/// Restarts that don't reach normal mode have no mark, whatever FLASH is; one that gives 1 leaves
/// the mark as it was.
#[test]
fn other_restarts() {
    for flags in 0..4 {
        let mut session = session_on(flags);
        bring(&mut session.flash, 3 - flags);
        session.apply(&Event::Lend { flash: 65_535, eeprom: 1_024 });
        let restart = |self_test| Event::Restart { pin: 1, self_test, way: 0 };
        assert_eq!(session.apply(&restart(0)).unwrap().number, MEMORY_LENGTH);
        assert_eq!(session.node.mode, Mode::Normal { started: flags == 0 });
        session.apply(&Event::Lend { flash: 65_536, eeprom: 1_024 });
        session.apply(&restart(1));
        assert_eq!(session.node.mode, Mode::Error);
        session.eeprom[BOOTFL] = 0xFF;
        session.apply(&restart(0));
        assert_eq!(session.node.mode, Mode::Programming(None));
        session.eeprom[BOOTFL] = 0xFE;
        assert_eq!(started(&mut session), flags == 3);
    }
}

/// Hands in the session's record with this mode byte.
fn hand_in(session: &mut Session, mode: u8) {
    let mut record = [0; HANDED];
    record[..NODE].copy_from_slice(&node_record::write(&session.node));
    record[MODE_AT] = mode;
    session.apply(&Event::HandIn(record));
}

/// The mark of a record that is handed in decides, not FLASH.
#[test]
fn marks_handed_in() {
    for found in 0..4 {
        let mut session = session_on(found);
        for now in 0..4 {
            bring(&mut session.flash, now);
            hand_in(&mut session, 0);
            assert_eq!(can(&mut session, ASK_NODE).1, incorrect(&session.flash, now));
            hand_in(&mut session, 1);
            assert_eq!(can(&mut session, ASK_NODE).1, bytes(ORDINARY));
            assert_eq!(can(&mut session, ASK_GROUP).1, bytes(ORDINARY_GROUP));
        }
    }
}

/// By the rule of before A4 equal sums alone start firmware, and the flag byte is 0x01, on UART
/// with the sum that belongs to it.
#[test]
fn rule_of_before() {
    for flags in 0..4 {
        let mut session = session_on(flags);
        session.rule = Rule::BeforeA4;
        assert_eq!(started(&mut session), flags & SUMS_DIFFER == 0);
        hand_in(&mut session, 0);
        let reply = incorrect(&session.flash, 0x01);
        assert_eq!(can(&mut session, ASK_NODE).1, reply);
        let wrapped = frames::wrapped(reply[..].try_into().unwrap());
        let (_, told) = uart(&mut session, "AA 10 60 00 00 00 00 05 0A 00 00 00 00 7F A5");
        assert_eq!(told, wrapped);
    }
}

/// The events of a session in normal mode over FLASH of one value, with equal sums or not.
fn events_on(flash: u8) -> Vec<Event> {
    let (eeprom, fixed, full, step, more) = (0x00, [0; 6], 9, 0, 0);
    let begin = Event::Begin { flash, eeprom, fixed, full, step, more, tells_way: 0 };
    let ask = Event::CanFrame(bytes("10 60 00 00 00 00 00 00 00 00 00 00"));
    vec![begin, Event::Restart { pin: 1, self_test: 0, way: 0 }, ask]
}

/// Both rules side by side: what differs is counted, over FLASH of zeros and of 0xFF, and over
/// whole streams nothing differs that must not.
#[test]
fn rules_side_by_side() {
    let mut pair = Pair::new();
    for event in events_on(0x00) {
        assert_eq!(pair.take(&event), Ok(None));
    }
    assert_eq!((pair.counts.events, pair.counts.marks), (2, 2));
    assert_eq!((pair.counts.other_type, pair.counts.flag_byte), ([0, 0, 1, 0], [0; 4]));
    for event in events_on(0xFF) {
        assert_eq!(pair.take(&event), Ok(None));
    }
    assert_eq!((pair.counts.events, pair.counts.marks), (4, 2));
    assert_eq!((pair.counts.other_type, pair.counts.flag_byte), ([0, 0, 1, 0], [0, 0, 0, 1]));
    for kind in [Kind::Bytes, Kind::Pieces, Kind::Ways, Kind::Starts] {
        let mut stream = Vec::new();
        generate(kind, 7, 2, 700, 0, &mut stream).unwrap();
        let mut out = Vec::new();
        assert_eq!(changed_by_a4(&stream, &mut out).unwrap(), None);
        assert!(String::from_utf8(out).unwrap().starts_with("     1400 events"));
    }
}

/// What must not differ is found: a cell, a mark the other way round, a mark where the sums differ,
/// a held byte, and a reply.
#[test]
fn differences_found() {
    let differs = |flash: u8, change: fn(&mut Pair)| {
        let mut pair = Pair::new();
        let mut events = events_on(flash);
        let last = events.pop().unwrap();
        events.iter().for_each(|event| assert_eq!(pair.take(event), Ok(None)));
        change(&mut pair);
        pair.take(&last).is_err()
    };
    assert!(!differs(0x00, |_| {}) && !differs(0xFF, |_| {}));
    assert!(differs(0x00, |pair| pair.now.flash[0xFFFF] = 1));
    assert!(differs(0x00, |pair| pair.before.eeprom[0x3FF] = 1));
    assert!(differs(0x00, |pair| pair.now.node.mode = Mode::Normal { started: true }));
    assert!(differs(0x00, |pair| pair.before.node.mode = Mode::Normal { started: false }));
    assert!(differs(0xFF, |pair| pair.now.node.mode = Mode::Normal { started: true }));
    assert!(differs(0xFF, |pair| pair.before.node.mode = Mode::Normal { started: true }));
    assert!(differs(0x00, |pair| pair.now.node.group = 1));
    assert!(differs(0x00, |pair| pair.now.rule = Rule::BeforeA4));
    assert!(differs(0xFF, |pair| pair.now.rule = Rule::BeforeA4));
}

/// The rows of these events in the session stream's table.
fn rows(session: &mut Session, events: &[Event]) -> Vec<String> {
    let (mut starts, mut rows) = (Starts::default(), vec![]);
    for event in events {
        let before = session.node.clone();
        let answer = session.apply(event);
        rows.extend(starts.take(&before, session, event, answer.as_ref()));
    }
    rows
}

/// What is told of restarts and of what is asked behind them.
#[test]
fn rows_of_starts() {
    let mut session = session(0x00, 1);
    assert_eq!(
        rows(&mut session, &events_on(0x00)),
        [
            "restart 0 normal, not started, cells alone",
            "restart 0 normal, not started, two cells differ",
            "restart 0 normal, not started, the three cells all 0x00",
            "restart 0 normal, not started, FLASH all 0x00",
            "CAN 0x1F1, flag byte 0x02",
            "CAN 0x1F1, flags 2 at the restart, 2 when asked",
        ]
    );
    let [_, restart, ask] = events_on(0x00).try_into().unwrap();
    let poke = |place: usize, value| Event::Poke { address: place as u32, value };
    let repair = [poke(THREE_CELLS, 0x30), poke(THREE_CELLS + 2, 0x03), poke(STORED_SUM + 2, 0x33)];
    let [first, second, third] = repair;
    let events =
        [restart.clone(), first, ask.clone(), second, third, ask.clone(), restart.clone(), ask];
    assert_eq!(
        rows(&mut session, &events)[4..],
        [
            "CAN 0x1F1, flag byte 0x03",
            "CAN 0x1F1, flags 2 at the restart, 3 when asked",
            "CAN 0x1F1, flag byte 0x00",
            "CAN 0x1F1, flags 2 at the restart, 0 when asked",
            "CAN 0x106, flags 0 at the restart, 0 when asked",
        ]
    );
    let spoiled = [poke(STORED_SUM, 0xFF), restart];
    assert_eq!(
        rows(&mut session, &spoiled),
        [
            "restart 0 normal, not started, sums alone",
            "restart 0 normal, not started, stored sum one off in its high byte",
        ]
    );
}

/// The stream about starting begins with the default way, has sessions on FLASH all 0x00 and all
/// 0xFF, and each of its sessions has frames on CAN and on UART, byte by byte or in pieces.
#[test]
fn stream_of_starts() {
    let mut stream = Vec::new();
    generate(Kind::Starts, 3, 12, 120, 0, &mut stream).unwrap();
    let events: Vec<Event> = records(&stream).filter_map(Event::read).collect();
    assert_eq!(events[0], Event::Meant(1));
    let sessions: Vec<&[Event]> = events[1..].split(|event| *event == Event::End).collect();
    assert_eq!((sessions.len(), sessions[12].len()), (13, 0));
    for (index, events) in sessions[..12].iter().enumerate() {
        let Event::Begin { flash, step, more, .. } = events[0] else { panic!("no begin") };
        if index < 6 {
            assert_eq!((flash, step, more), ([0x00, 0xFF][index / 3], 0, 0));
        }
        let has = |kind: u8| events.iter().any(|event| event.kind() == kind);
        assert!(has(0x01) && has(0x02) && has(0x07));
        assert!(has(if index % 3 == 2 { PIECES } else { 0x03 }));
    }
}

/// An event told in words has the sums, the three cells and the flag byte.
#[test]
fn explained_flags() {
    let stream: Vec<u8> = events_on(0xFF).iter().flat_map(|event| event.write()).collect();
    let text = explain(&stream, 2).unwrap();
    let told = "stored sum 0xFFFFFF, firmware sum 0x6F8D03, three cells FF FF FF, flag byte 0x03";
    assert!(text.contains(told), "{text}");
}
