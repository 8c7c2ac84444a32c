//! Request A2: what stays held after 11 in each way, who says the way, and that the new way loses
//! no frame behind noise.

use crate::apply_recipes::apply_recipes;
use crate::before_a4::Rule;
use crate::event::*;
use crate::explain::explain;
use crate::frames::{self, FRAME, START, STOP, WRAPPED};
use crate::generate::{generate, Kind};
use crate::memory::*;
use crate::node::*;
use crate::node_record::{self, HANDED, NODE, WAY_AT};
use crate::noisy_recipes::noisy_recipes;
use crate::numbers::*;
use crate::random::Random;
use crate::recipe::translate;
use crate::recipe_stream::{read, write_meant, Begin, Trial};
use crate::samples::{bytes, can, session, session_in, uart, PROGRAM, WRAPPED_PROGRAM};
use crate::session::{answer_stream, Session};
use crate::way_coverage::Ways;

/// The bytes that say a way.
const UNSAID: u8 = 0;
const NEW: u8 = 1;
const OLD: u8 = 2;
const REPLY: &str = "AA 10 01 05 0A FF FF 03 04 FF FF FF FF 21 A5";

/// What stays held behind these bytes, the last of which comes to 11, and that none does before.
fn held_after(way: u8, all: &str) -> Vec<u8> {
    let mut session = session_in(0x00, 1, way);
    let (numbers, _) = uart(&mut session, all);
    let (last, before) = numbers.split_last().unwrap();
    assert!(*last == BAD_WRAPPING && before.iter().all(|&number| number == INCOMPLETE));
    session.node.held_bytes().to_vec()
}

/// "Dropping all fifteen bytes after a bad sum costs us a good frame behind a stray 0xAA": S3 there
/// is done in the new way, which is the default, and lost in the old one.
#[test]
fn s3_behind_a_stray_start() {
    let stray = format!("AA {WRAPPED_PROGRAM}");
    for way in [UNSAID, NEW] {
        let mut session = session_in(0x00, 1, way);
        let (numbers, reply) = uart(&mut session, &stray);
        assert_eq!(numbers, [vec![INCOMPLETE; 14], vec![BAD_WRAPPING, DONE]].concat());
        assert_eq!((reply, session.node.held_count), (bytes(REPLY), 0));
        assert_eq!(session.node.mode, Mode::Programming(None));
    }
    for way in [OLD, 3, 255] {
        let mut session = session_in(0x00, 1, way);
        let (numbers, reply) = uart(&mut session, &stray);
        assert_eq!(numbers, [vec![INCOMPLETE; 14], vec![BAD_WRAPPING, INCOMPLETE]].concat());
        assert_eq!((reply, session.node.held_count), (vec![], 0));
        assert_eq!(session.node.mode, Mode::Normal { started: false });
    }
}

/// "drop the first held byte, keep from the next 0xAA among the fourteen others, or nothing".
#[test]
fn kept_from_the_next_start() {
    for (all, kept) in [
        ("AA 00 01 02 03 04 05 06 07 08 09 0A 0B 0C 0D", ""),
        (
            "AA AA 01 02 03 04 05 06 07 08 09 0A 0B 0C 0D",
            "AA 01 02 03 04 05 06 07 08 09 0A 0B 0C 0D",
        ),
        ("AA 00 01 AA 03 04 AA 06 07 08 09 AA 0B 0C AA", "AA 03 04 AA 06 07 08 09 AA 0B 0C AA"),
        ("AA 00 01 02 03 04 05 06 07 08 09 0A 0B AA 0D", "AA 0D"),
        ("AA 00 01 02 03 04 05 06 07 08 09 0A 0B 0C AA", "AA"),
        ("AA 00 01 02 03 04 05 06 07 08 09 0A 0B 42 AA", "AA"),
    ] {
        assert_eq!(held_after(NEW, all), bytes(kept), "{all}");
        assert_eq!(held_after(OLD, all), [], "{all}");
    }
}

/// A wrong stop with a right sum, and a wrong sum with a right stop, are 11 by the same rule.
#[test]
fn wrong_stop_or_sum() {
    let stop = "AA 10 00 AA F0 FF FF 05 0A FF FF FF FF B3 A4";
    let sum = "AA 10 00 AA F0 FF FF 05 0A FF FF FF FF B4 A5";
    for all in [stop, sum] {
        assert_eq!(held_after(NEW, all), bytes(all)[3..]);
        assert_eq!(held_after(OLD, all), []);
    }
    let mut session = session_in(0x00, 1, NEW);
    let lost_stop = format!("{} {WRAPPED_PROGRAM}", &WRAPPED_PROGRAM[..3 * 14 - 1]);
    let (numbers, reply) = uart(&mut session, &lost_stop);
    assert_eq!(numbers[14], BAD_WRAPPING);
    assert_eq!((numbers[28], reply), (DONE, bytes(REPLY)));
}

/// One drop for each 11, not repeated until something fits: fifteen 0xAA leave fourteen, and each
/// byte behind them comes to 11, until S3 is alone.
#[test]
fn one_drop_for_each_11() {
    let mut session = session_in(0x00, 1, NEW);
    let (numbers, _) = uart(&mut session, &"AA ".repeat(17));
    assert_eq!(numbers, [vec![INCOMPLETE; 14], vec![BAD_WRAPPING; 3]].concat());
    assert_eq!(session.node.held_bytes(), [START; HELD]);
    let (numbers, reply) = uart(&mut session, WRAPPED_PROGRAM);
    assert_eq!(numbers, [vec![BAD_WRAPPING; 14], vec![DONE]].concat());
    assert_eq!(reply, bytes(REPLY));
}

/// A complete frame empties the held bytes in both ways, and nothing of it is looked at again: not
/// the frame that begins inside it, whatever the outcome.
#[test]
fn no_look_back_into_a_frame() {
    let inside = "AA 01 02 03 04 05 06 07 AA 10 40 01 01 18 A5 05 0A 00 00 00 00 1E A5";
    for way in [NEW, OLD] {
        let mut one = session_in(0x00, 1, way);
        let (numbers, _) = uart(&mut one, inside);
        assert_eq!(numbers[14], MALFORMED);
        assert_eq!(numbers[15..], [INCOMPLETE; 8]);
        assert_eq!(one.node.held_count, 0);
        assert_eq!(uart(&mut one, &inside[3 * 8..]).0[14], DONE);
        for (frame, number) in [
            ("03 0E 05 0A AA AA 00 00 00 00 00 AA", MALFORMED),
            ("03 01 05 0A AA AA 00 00 00 00 00 AA", RESPONSE),
            ("AA AF 05 0A AA AA 00 00 00 00 00 AA", MALFORMED),
            ("AA A0 05 0A AA AA 00 00 00 00 00 AA", NOT_HANDLED),
            ("03 00 AA AA AA AA 00 00 00 00 00 AA", NOT_FOR_NODE),
            ("03 00 05 0A AA AA 00 00 00 00 00 AA", ILLEGAL),
            ("04 00 05 0A AA AA 00 00 00 00 00 AA", NOTHING_STAGED),
        ] {
            let mut node = session_in(0xFF, 1, way).node;
            let (mut flash, mut eeprom) = (vec![0xFF; FLASH_CELLS], vec![0xFF; EEPROM_CELLS]);
            let mut lent = Lent { flash: &mut flash, eeprom: &mut eeprom };
            let all = frames::wrapped(bytes(frame)[..].try_into().unwrap());
            let (taken, outcome) = node.uart_piece(&mut lent, &all);
            assert_eq!((taken, outcome.number, node.held_count), (WRAPPED, number, 0), "{frame}");
        }
    }
}

/// The way is a field of the record: a fresh node has the default, every restart that gives 0 sets
/// it anew, with a failed self-test too, and one that gives 1 takes nothing.
#[test]
fn way_at_restart() {
    assert_eq!(Node::fresh([0; 6]).way, Way::New);
    let mut session = session(0x00, 1);
    let mut restarted = |self_test, way, length| {
        session.apply(&Event::Lend { flash: 65_536, eeprom: length });
        let number = session.apply(&Event::Restart { pin: 1, self_test, way }).unwrap().number;
        (number, session.node.way)
    };
    assert_eq!(restarted(0, OLD, 1_024), (DONE, Way::Old));
    assert_eq!(restarted(0, NEW, 1_023), (MEMORY_LENGTH, Way::Old));
    assert_eq!(restarted(0, UNSAID, 1_025), (MEMORY_LENGTH, Way::Old));
    assert_eq!(restarted(1, NEW, 1_024), (DONE, Way::New));
    assert_eq!(restarted(1, OLD, 1_024), (DONE, Way::Old));
    assert_eq!(restarted(1, UNSAID, 1_024), (DONE, Way::New));
    assert_eq!(restarted(0, 255, 1_024), (DONE, Way::Old));
    assert_eq!(restarted(0, UNSAID, 1_024), (DONE, Way::New));
    assert_eq!(restarted(1, OLD, 65_536), (MEMORY_LENGTH, Way::New));
}

/// The way stays through 0x100, leaving, 2 and 3, 10 and 11, and is that of 11 behind them.
#[test]
fn way_stays() {
    for (said, way) in [(NEW, Way::New), (OLD, Way::Old)] {
        let mut session = session_in(0x00, 1, said);
        uart(&mut session, "AA AA 01");
        assert_eq!(can(&mut session, PROGRAM).0, DONE);
        assert_eq!(session.node.mode, Mode::Programming(None));
        let (numbers, _) = uart(&mut session, "00 00 00 00 00 00 00 00 00 00 00 00");
        let kept = if way == Way::New { 14 } else { 0 };
        assert_eq!((numbers[11], session.node.held_count), (BAD_WRAPPING, kept));
        assert_eq!(can(&mut session, "02 00 05 0A FF FF FF FF FF FF FF FF").0, DONE);
        assert_eq!((uart(&mut session, "AA").0, session.node.way), (vec![DEAF], way));
        session.node.pin = Pin::CanOnly;
        assert_eq!((uart(&mut session, "AA").0, session.node.way), (vec![PIN_CAN_ONLY], way));
    }
}

/// A record that is handed in may have either way, and where it says nothing the one that is meant.
#[test]
fn way_of_a_record() {
    let mut session = session(0x00, 1);
    let mut record = [0; HANDED];
    record[..NODE].copy_from_slice(&node_record::write(&session.node));
    record[node_record::HELD_COUNT_AT] = 14;
    record[node_record::HELD_AT..node_record::MODE_AT].fill(START);
    for (meant, said, held) in [
        (UNSAID, UNSAID, 14),
        (UNSAID, NEW, 14),
        (UNSAID, OLD, 0),
        (UNSAID, 255, 0),
        (OLD, UNSAID, 0),
        (OLD, NEW, 14),
        (7, UNSAID, 0),
        (NEW, UNSAID, 14),
    ] {
        record[WAY_AT] = said;
        session.apply(&Event::Meant(meant));
        session.apply(&Event::HandIn(record));
        assert_eq!(uart(&mut session, "A5").0, [BAD_WRAPPING]);
        assert_eq!(session.node.held_count, held, "meant {meant}, said {said}");
    }
}

/// Unwrapping alone is unchanged: 11, and the output untouched.
#[test]
fn unwrap_alone() {
    let mut output = [0xEE; FRAME];
    let stray = bytes(&format!("AA {}", &WRAPPED_PROGRAM[..3 * 14]));
    assert_eq!(frames::unwrap(&stray, &mut output), BAD_WRAPPING);
    assert_eq!(output, [0xEE; FRAME]);
}

/// A session's first record, with answers that tell the way or not.
fn begin(tells_way: u8) -> Event {
    let (fixed, full, step, more) = ([0; 6], 9, 0, 0);
    Event::Begin { flash: 0xFF, eeprom: 0xFF, fixed, full, step, more, tells_way }
}

/// What is meant holds over sessions; a fresh node has the default all the same. Answers tell the
/// way where the session says so, behind all else.
#[test]
fn meant_and_told() {
    let mut session = Session::new();
    session.apply(&Event::Meant(OLD));
    session.apply(&begin(1));
    let told = |session: &mut Session, event: Event| {
        let line = session.apply(&event).unwrap().line;
        line[line.len() - 1]
    };
    let restart = |way| Event::Restart { pin: 1, self_test: 0, way };
    assert_eq!(told(&mut session, Event::UartByte(START)), NEW);
    assert_eq!(told(&mut session, restart(UNSAID)), OLD);
    session.apply(&begin(255));
    assert_eq!(told(&mut session, Event::CanFrame(vec![])), NEW);
    assert_eq!(told(&mut session, restart(UNSAID)), OLD);
    assert_eq!(told(&mut session, restart(NEW)), NEW);
    assert_eq!(told(&mut session, Event::UartPieces { ring: vec![], lengths: vec![0] }), NEW);
    session.apply(&Event::Meant(UNSAID));
    assert_eq!(told(&mut session, restart(3)), OLD);
    assert_eq!(told(&mut session, restart(UNSAID)), NEW);
    let length = |session: &mut Session| session.apply(&restart(OLD)).unwrap().line.len();
    assert_eq!(length(&mut session), 2 + NODE + 2);
    session.apply(&begin(0));
    assert_eq!(length(&mut session), 2 + NODE + 1);
}

/// Where a right frame begins among the first so many of these bytes.
fn right_frame_in(all: &[u8], count: usize) -> bool {
    let right = |fifteen: &[u8]| frames::unwrap(fifteen, &mut [0; FRAME]) == DONE;
    all.windows(WRAPPED).take(count).any(right)
}

/// Noise with many 0xAA, now and then with 0xA5, sums and frames' beginnings.
fn some_noise(random: &mut Random) -> Vec<u8> {
    let often = random.pick(&[5, 20, 50, 90]);
    let mut noise = Vec::new();
    for _ in 0..random.below(60) {
        let any = random.any();
        let byte = random.pick(&[STOP, 0x00, 0x10, 0x01, any]);
        noise.push(if random.chance(often) { START } else { byte });
        if noise.len() >= 13 && random.chance(10) {
            noise.push(frames::sum(&noise[noise.len() - 12..]));
        }
    }
    noise
}

/// Any frame for a node 05 0A, refused or done.
fn some_frame(random: &mut Random) -> [u8; FRAME] {
    const TYPES: [u16; 9] = [0x100, 0x101, 0x104, 0x10E, 0x111, 0x030, 0x040, 0x020, 0x777];
    let mut data: [u8; 8] = random.bytes();
    data[2..4].copy_from_slice(&random.pick(&[[5, 10], [5, 10], [0, 10], [START, START]]));
    if random.chance(50) {
        data = [0x00, 0x20, 0x40, START, START, random.pick(&[1, 2, 3, 4]), STOP, STOP];
    }
    let group = random.pick(&[10, 10, 10, START]);
    frames::frame(random.pick(&TYPES), random.pick(&[0, 0, 0, 0, 0, 1, 2]), 5, group, data)
}

/// Any noise, then a rightly wrapped frame, to an open, running node with nothing held in the new
/// way: unless fifteen bytes that begin at an 0xAA of the noise happen to be a right frame, there
/// are 10s and 11s, and at the frame's last byte the frame's own outcome, as on CAN.
#[test]
fn no_frame_lost_behind_noise() {
    let mut random = Random::new(2);
    let (mut reached, mut elevens, mut right) = ([0; 12], 0, 0);
    let starts = [session_in(0x00, 1, NEW), session_in(0xFF, 1, NEW)];
    for run in 0..20_000 {
        let start = &starts[run % 2];
        let (noise, frame) = (some_noise(&mut random), some_frame(&mut random));
        let all = [&noise[..], &frames::wrapped(&frame)].concat();
        if right_frame_in(&all, noise.len()) {
            right += 1;
            continue;
        }
        let mut numbers = Vec::new();
        let (mut node, mut eeprom) = (start.node.clone(), start.eeprom[..EEPROM_CELLS].to_vec());
        let mut flash = vec![0xFF; FLASH_CELLS];
        let mut lent = Lent { flash: &mut flash, eeprom: &mut eeprom };
        let mut replies = Vec::new();
        for byte in &all {
            let outcome = node.uart_byte(&mut lent, *byte);
            numbers.push(outcome.number);
            replies.extend(outcome.replies);
        }
        let mut on_can = start.node.clone();
        let mut eeprom_on_can = start.eeprom[..EEPROM_CELLS].to_vec();
        let mut flash_on_can = vec![0xFF; FLASH_CELLS];
        let mut lent = Lent { flash: &mut flash_on_can, eeprom: &mut eeprom_on_can };
        let own = on_can.can_frame(&mut lent, &frame);
        let (last, before) = numbers.split_last().unwrap();
        assert!(before.iter().all(|number| [INCOMPLETE, BAD_WRAPPING].contains(number)));
        let wrapped = |reply: &Vec<u8>| frames::wrapped(reply[..].try_into().unwrap()).to_vec();
        assert_eq!((*last, &replies), (own.number, &own.replies.iter().map(wrapped).collect()));
        assert!(node == on_can && flash == flash_on_can && eeprom == eeprom_on_can);
        reached[*last as usize] += 1;
        elevens += before.iter().filter(|&&number| number == BAD_WRAPPING).count();
    }
    for number in [DONE, MALFORMED, RESPONSE, NOT_HANDLED, NOT_FOR_NODE, ILLEGAL, NOTHING_STAGED] {
        assert!(reached[number as usize] > 100, "{number}: {}", reached[number as usize]);
    }
    assert!(elevens > 20_000 && right > 0 && right < 1_000, "{elevens} and {right}");
}

/// The rule of before A2, told by itself: bytes are skipped until 0xAA, fourteen more collected,
/// then all are gone. Takes a byte; gives whether fifteen were wrong.
fn old_rule(held: &mut Vec<u8>, byte: u8) -> bool {
    if !held.is_empty() || byte == START {
        held.push(byte);
    }
    if held.len() < WRAPPED {
        return false;
    }
    let all = std::mem::take(held);
    frames::sum(&all[1..13]) != all[13] || all[14] != STOP
}

/// A log of before A2, which says nothing of the way anywhere, gives by the old rule what it gave,
/// where the old way is asked for by name; and something else where it isn't.
#[test]
fn old_logs_ask_by_name() {
    for kind in [Kind::Bytes, Kind::Pieces] {
        let mut log = Vec::new();
        generate(kind, 4, 2, 2_500, 65_535, &mut log).unwrap();
        let named = [&Event::Meant(OLD).write()[..], &log].concat();
        let (mut session, mut held, mut wrong) = (Session::new(), Vec::new(), 0);
        for record in records(&named) {
            let mut next = Event::read(record);
            while let Some(event) = next.take() {
                let Some(answer) = session.apply(&event) else {
                    held = session.node.tidied().held_bytes().to_vec();
                    continue;
                };
                let taken = match &event {
                    _ if (1..=3).contains(&answer.number) => vec![],
                    Event::UartByte(byte) => vec![*byte],
                    Event::UartPieces { .. } => event.piece().unwrap()[..answer.taken()].to_vec(),
                    _ => vec![],
                };
                if matches!(event, Event::Restart { .. }) && answer.number == DONE {
                    held.clear();
                }
                let bad = taken.iter().fold(false, |bad, byte| bad | old_rule(&mut held, *byte));
                assert_eq!(bad, !taken.is_empty() && answer.number == BAD_WRAPPING);
                assert_eq!(session.node.tidied().held_bytes(), held);
                wrong += bad as usize;
                next = answer.left;
            }
        }
        assert!(wrong > 20, "{wrong}");
        let answers = |stream: &[u8]| {
            let mut text = Vec::new();
            answer_stream(stream, Rule::Now, &mut text).unwrap();
            text
        };
        assert_ne!(answers(&named), answers(&log));
        let back = [&named[..], &Event::Meant(NEW).write()].concat();
        assert_eq!(answers(&named), answers(&back));
    }
}

/// What these bytes alone come to in the session stream's table, behind a restart in this way.
fn rows(way: u8, all: &str) -> Vec<String> {
    let mut session = session_in(0x00, 1, way);
    let (mut ways, mut rows) = (Ways::default(), vec![]);
    for byte in bytes(all) {
        let (event, before) = (Event::UartByte(byte), session.node.clone());
        let answer = session.apply(&event);
        rows.extend(ways.take(&before, &session, &event, answer.as_ref()));
    }
    rows.retain(|row| !row.contains("fresh"));
    rows
}

/// What is told of bytes in each way.
#[test]
fn rows_of_ways() {
    let stray = format!("AA {WRAPPED_PROGRAM}");
    assert_eq!(rows(NEW, WRAPPED_PROGRAM)[..], ["UART new way, 0x100 done"]);
    assert_eq!(
        rows(NEW, &stray),
        [
            "UART new way, 11, kept from the second byte",
            "UART new way, a stray 0xAA directly before a frame that is done",
            "UART new way, a kept part becomes a frame, 0",
            "UART new way, 0x100 done",
        ]
    );
    assert_eq!(
        rows(OLD, &stray),
        [
            "UART old way, 11, all dropped, 0xAA among the others",
            "UART old way, a frame lost behind a stray 0xAA",
        ]
    );
    assert_eq!(
        rows(NEW, "AA 00 00 00 00 00 00 00 00 00 00 00 00 00 AA"),
        [
            "UART new way, 11, kept from the fifteenth byte",
            "UART new way, 11, right sum and wrong stop, something kept",
        ]
    );
    let again = "UART new way, a kept part comes to 11 again";
    assert_eq!(rows(NEW, &"AA ".repeat(16)).last().unwrap(), again);
}

/// S11's recipe for a node 05 0A that holds noise, byte by byte or in pieces.
fn noisy_s11(noise: &str, way_byte: u8, piece: u16) -> Trial {
    let noise = bytes(noise);
    let mut held = [0; HELD];
    held[..noise.len()].copy_from_slice(&noise);
    Trial {
        uart: true,
        flash: 0xFF,
        eeprom: 0xFF,
        module: 0x05,
        group: 0x0A,
        step: 0,
        more: 0,
        begin: Begin { can_and_uart: true, staged: None, held_count: noise.len() as u8, held },
        piece,
        way_byte,
        meant: Way::New,
        output: 36,
        recipe: bytes("01 05 0A 03 F0 00 30 41 42 43 44 45 46 47 48 0F"),
    }
}

/// The memories and the node that a recipe ends in, as its line tells them, behind this way meant.
fn ends(meant: Way, trial: &Trial) -> String {
    let (mut stream, mut out) = (Vec::new(), Vec::new());
    write_meant(meant, &mut stream).unwrap();
    trial.write(&mut stream).unwrap();
    assert_eq!(apply_recipes(&stream, &mut out).unwrap(), None);
    let line = String::from_utf8(out).unwrap();
    line.split(" flash ").nth(1).unwrap().to_string()
}

/// A recipe behind noise arrives wholly in the new way, said or meant, byte by byte and in pieces;
/// in the old way it loses its first frame, and so its Row.
#[test]
fn recipes_behind_noise() {
    let fourteen = "AA 01 02 03 04 05 06 07 08 09 0A 0B 0C 0D";
    for piece in [0, 1, 14, 15, 16, 1_000] {
        let plain = ends(Way::New, &noisy_s11("", UNSAID, piece));
        assert_eq!(plain, ends(Way::Old, &noisy_s11("", UNSAID, piece)));
        for noise in ["AA", "AA AA AA", fourteen, &"AA ".repeat(14)] {
            let trial = |way| noisy_s11(noise, way, piece);
            assert_eq!(ends(Way::New, &trial(UNSAID)), plain);
            assert_eq!(ends(Way::Old, &trial(NEW)), plain);
            assert_ne!(ends(Way::New, &trial(OLD)), plain);
            assert_eq!(ends(Way::Old, &trial(UNSAID)), ends(Way::New, &trial(OLD)));
        }
    }
}

/// Recipes with noise in front say all that they should, and the last way meant is the default.
#[test]
fn noisy_streams() {
    let mut stream = Vec::new();
    noisy_recipes(5, 24, &mut stream).unwrap();
    let trials = read(&stream);
    assert_eq!(trials.len(), 24);
    for trial in &trials {
        assert!(translate(&trial.recipe, &mut vec![0; trial.output]).is_ok());
        assert!(trial.uart && trial.begin.held[0] == START);
        assert!((1..=14).contains(&trial.begin.held_count));
    }
    let ways = |said: bool, way| trials.iter().any(|t| (t.way_byte > 0) == said && t.way() == way);
    for way in [Way::New, Way::Old] {
        assert!(ways(true, way) && ways(false, way));
    }
    assert_eq!(stream[stream.len() - RECORD..][..3], [0x21, 1, 0]);
}

/// An event told in words has the way of the node and of the answer.
#[test]
fn explained_way() {
    let mut stream = begin(1).write().to_vec();
    stream.extend(Event::Restart { pin: 1, self_test: 0, way: OLD }.write());
    let text = explain(&stream, 1).unwrap();
    assert!(text.contains("way byte 2") && text.contains("Old way") && text.contains("\nway: 2\n"));
}
