//! Tells one event of a session stream in words.

use crate::event::{records, Event};
use crate::frames::{self, Frame};
use crate::memory::{firmware_sum, flag_byte, stored_sum, THREE_CELLS};
use crate::node::{Node, HELD};
use crate::node_record::NODE;
use crate::numbers::words;
use crate::session::{hex, Answer, Session};

/// Bytes as upper-case hex pairs.
fn pairs(bytes: &[u8]) -> String {
    bytes.iter().map(|byte| format!("{byte:02X}")).collect::<Vec<_>>().join(" ")
}

/// A node record in words, held bytes and staged command as they stand, tidy or not.
fn node_words(node: &Node) -> String {
    format!(
        "pin {:?}, fixed {}, own numbers {:02X} {:02X}, {} held [{}], mode {:X?}, {:?} way",
        node.pin,
        pairs(&node.fixed),
        node.module,
        node.group,
        node.held_count,
        pairs(&node.held[..node.held.len().min(node.held_count as usize)]),
        node.mode,
        node.way,
    )
}

/// A frame of 12 bytes in words.
fn frame_words(frame: &Frame) -> String {
    format!(
        "type 0x{:03X}, upper flag {}, response flag {}, module {:02X}, group {:02X}, data {}",
        frames::kind(frame),
        frames::upper_flag(frame) as u8,
        frames::response_flag(frame) as u8,
        frame[2],
        frame[3],
        pairs(&frame[4..]),
    )
}

/// What decides whether firmware starts, in words.
fn firmware_words(flash: &[u8]) -> String {
    format!(
        "stored sum 0x{:06X}, firmware sum 0x{:06X}, three cells {}, flag byte 0x{:02X}",
        stored_sum(flash),
        firmware_sum(flash),
        pairs(&flash[THREE_CELLS..][..3]),
        flag_byte(flash),
    )
}

/// A UART byte in words, met by this node.
fn byte_words(byte: u8, before: &Node) -> String {
    let tidied = before.tidied();
    let mut text = format!("UART byte {byte:02X} behind {} held", tidied.held_count);
    if tidied.held_count as usize == HELD {
        let frame = tidied.held[1..HELD - 1].try_into().expect("12 bytes");
        text += &format!(" ({})", frame_words(&frame));
    }
    text
}

/// The first call of UART pieces in words, met by this node: the piece, and the frames that it and
/// the held bytes have, right or wrong.
fn piece_words(piece: &[u8], ring: &[u8], before: &Node) -> String {
    let tidied = before.tidied();
    let mut text = format!(
        "UART piece of {} bytes [{}] of a ring of {}, behind {} held",
        piece.len(),
        pairs(piece),
        ring.len(),
        tidied.held_count,
    );
    for all in tidied.way.fifteens(tidied.held_bytes(), piece) {
        let frame = all[1..HELD - 1].try_into().expect("12 bytes");
        text += &format!(" (fifteen bytes: {})", frame_words(&frame));
    }
    text
}

/// An event in words, met by this node.
fn event_words(event: &Event, before: &Node) -> String {
    match event {
        Event::Restart { pin, self_test, way } => {
            format!("restart, pin byte {pin}, self-test byte {self_test}, way byte {way}")
        }
        Event::CanFrame(bytes) => {
            let meaning = match Frame::try_from(&bytes[..]) {
                Ok(frame) => frame_words(&frame),
                Err(_) => "not 12 bytes".to_string(),
            };
            format!("CAN frame of {} bytes: {} ({meaning})", bytes.len(), pairs(bytes))
        }
        Event::UartByte(byte) => byte_words(*byte, before),
        Event::UartPieces { ring, .. } => piece_words(event.piece().unwrap_or(&[]), ring, before),
        Event::Show(address) => format!("show the row at 0x{address:06X}"),
        Event::IdentifierToFrame { identifier, data, output } => format!(
            "identifier 0x{identifier:08X} and {} data bytes [{}] to a frame, output of {output}",
            data.len(),
            pairs(data),
        ),
        Event::FrameToIdentifier { frame, output } => format!(
            "frame of {} bytes [{}] to an identifier, output of {output}",
            frame.len(),
            pairs(frame),
        ),
        Event::Wrap { input, output } => {
            format!("wrap {} bytes [{}], output of {output}", input.len(), pairs(input))
        }
        Event::Unwrap { input, output } => {
            format!("unwrap {} bytes [{}], output of {output}", input.len(), pairs(input))
        }
        Event::AddressRule { address, command } => {
            format!("ask the address rule: address 0x{address:06X}, command 0x{command:X}")
        }
        other => format!("{other:X?}"),
    }
}

/// What the answer bytes behind the number mean.
fn answer_words(event: &Event, bytes: &[u8]) -> Vec<String> {
    let replies = |bytes: &[u8], width: usize| {
        let mut lines = vec![format!("replies {}", bytes[0])];
        for reply in bytes[1..].chunks_exact(width).take(bytes[0] as usize) {
            lines.push(format!("reply {}", pairs(reply)));
        }
        lines
    };
    match event {
        Event::CanFrame(_) => replies(bytes, 12),
        Event::UartByte(_) => replies(bytes, 15),
        Event::UartPieces { .. } => {
            let mut lines = vec![format!("bytes taken {}", bytes[0])];
            lines.extend(replies(&bytes[1..], 15));
            lines
        }
        Event::Restart { .. } => vec![],
        Event::Show(_) => vec![format!("part of {} cells [{}]", bytes[0], pairs(&bytes[1..]))],
        Event::FrameToIdentifier { .. } => {
            vec![format!("identifier {}, output [{}]", pairs(&bytes[..4]), pairs(&bytes[4..]))]
        }
        Event::AddressRule { .. } => {
            vec![["FLASH", "EEPROM", "illegal"][bytes[0] as usize].to_string()]
        }
        _ => vec![format!("output [{}]", pairs(bytes))],
    }
}

/// The N-th answered event of the stream in words, none where there are fewer.
pub fn explain(stream: &[u8], wanted: u64) -> Option<String> {
    let mut session = Session::new();
    let mut count = 0;
    for (index, record) in records(stream).enumerate() {
        let mut next = Event::read(record);
        while let Some(event) = next.take() {
            let before = session.node.clone();
            let Some(answer) = session.apply(&event) else { continue };
            count += 1;
            if count >= wanted {
                let head = format!("event {count}: session {}", session.number);
                let place = format!("record {} of the stream", index + 1);
                let head = format!("{head}, its event {}, {place}", session.events);
                return Some(format!("{head}, {}", told(&session, &before, &event, &answer)));
            }
            next = answer.left;
        }
    }
    None
}

/// An answered event in words: its kind, what was done, and the answer; the session is the one
/// after it.
fn told(session: &Session, before: &Node, event: &Event, answer: &Answer) -> String {
    let bytes = &answer.line[1..];
    let mut lines = vec![
        format!("kind 0x{:02X}", event.kind()),
        format!("what: {}", event_words(event, before)),
        format!("lent: FLASH {}, EEPROM {}", session.lent_flash, session.lent_eeprom),
        format!("FLASH after: {}", firmware_words(&session.flash)),
        format!("meant where nothing is said: the {:?} way", session.meant),
        format!("node before: {}", node_words(before)),
        format!("number {}: {}", answer.number, words(answer.number)),
    ];
    lines.extend(answer_words(event, &bytes[1..]));
    if event.tells_node() {
        lines.push(format!("node after: {}", node_words(&session.node)));
        let length = NODE + 1 + session.tells_way as usize;
        let (record, behind) = bytes[bytes.len() - length..].split_at(NODE);
        lines.push(format!("NODE: {}", pairs(record)));
        lines.push(format!("fifteenth held byte: {:02X}", behind[0]));
        lines.extend(behind.get(1).map(|way| format!("way: {way}")));
    }
    lines.push(format!("line: {}", hex(&answer.line)));
    lines.join("\n")
}
