//! Applies recipes to a node, by frames, bytes or pieces, and compares with the plain reading.

use crate::digest::Digest;
use crate::frames::{self, FRAME, WRAPPED};
use crate::memory::{Lent, BOOTFL, EEPROM_CELLS, FLASH_CELLS, GROUP, MODULE};
use crate::node::{Mode, Node, Outcome, Pin, Way};
use crate::node_record;
use crate::numbers::DONE;
use crate::recipe::{plain_reading, translate};
use crate::recipe_stream::{read, Trial};
use crate::session::fill;
use std::io::{self, Write};

/// The memories before the restart.
fn memories(trial: &Trial) -> (Vec<u8>, Vec<u8>) {
    let mut flash = vec![0; FLASH_CELLS];
    let mut eeprom = vec![0; EEPROM_CELLS];
    fill(&mut flash, trial.flash, trial.step, trial.more);
    fill(&mut eeprom, trial.eeprom, trial.step, trial.more);
    eeprom[BOOTFL] = 0xFF;
    eeprom[MODULE] = trial.module;
    eeprom[GROUP] = trial.group;
    (flash, eeprom)
}

/// Takes an answer into the digest: number, what stands behind it, count of replies, two replies of
/// one width.
fn take(digest: &mut Digest, outcome: &Outcome, behind: &[u8], width: usize) {
    let mut replies = outcome.replies.concat();
    replies.resize(2 * width, 0);
    digest.add(&[outcome.number]);
    digest.add(behind);
    digest.add(&[outcome.replies.len() as u8]);
    digest.add(&replies);
}

/// The node before the first frame: restarted, and with what the header puts into its record.
fn begun(trial: &Trial, lent: &Lent) -> Node {
    let mut node = Node::fresh([0; 6]);
    node.restart(lent, trial.begin.pin(), true, trial.way());
    trial.begin.put(&mut node);
    node
}

/// Hands the node its frames on CAN; gives the digest of the answers.
fn by_frames(node: &mut Node, lent: &mut Lent, output: &[u8]) -> Digest {
    let mut answers = Digest::default();
    for frame in output.chunks_exact(FRAME) {
        take(&mut answers, &node.can_frame(lent, frame), &[], FRAME);
    }
    answers
}

/// Hands the node bytes on UART one by one; gives the digest of the answers.
fn by_bytes(node: &mut Node, lent: &mut Lent, bytes: &[u8]) -> Digest {
    let mut answers = Digest::default();
    for byte in bytes {
        take(&mut answers, &node.uart_byte(lent, *byte), &[], WRAPPED);
    }
    answers
}

/// Hands the node bytes on UART in pieces of one length, leftovers again with more behind them,
/// until none is left or it takes none; gives the digest of the answers.
fn by_pieces(node: &mut Node, lent: &mut Lent, bytes: &[u8], length: usize) -> Digest {
    let mut answers = Digest::default();
    let mut left = bytes;
    while !left.is_empty() {
        let (taken, outcome) = node.uart_piece(lent, &left[..length.min(left.len())]);
        take(&mut answers, &outcome, &(taken as u16).to_be_bytes(), WRAPPED);
        if taken == 0 {
            break;
        }
        left = &left[taken..];
    }
    answers
}

/// The bytes of all frames on UART, one behind the other.
fn all_wrapped(output: &[u8]) -> Vec<u8> {
    let frames = output.chunks_exact(FRAME);
    frames.flat_map(|frame| frames::wrapped(frame.try_into().expect("12 bytes"))).collect()
}

/// Delivers the frames as the header says; gives the digest of the answers.
fn deliver(trial: &Trial, node: &mut Node, lent: &mut Lent, output: &[u8]) -> Digest {
    match (trial.uart, trial.piece) {
        (false, _) => by_frames(node, lent, output),
        (true, 0) => by_bytes(node, lent, &all_wrapped(output)),
        (true, length) => by_pieces(node, lent, &all_wrapped(output), length as usize),
    }
}

/// Whether a right frame begins in the held bytes and ends in the first frame behind them.
pub fn frame_in_held(held: &[u8], output: &[u8]) -> bool {
    let first = &output[..FRAME.min(output.len())];
    let all = [held, &all_wrapped(first)].concat();
    let right = |bytes: &[u8]| frames::unwrap(bytes, &mut [0; FRAME]) == DONE;
    all.windows(WRAPPED).take(held.len()).any(right)
}

/// Whether bytes held before a delivery by UART, which are taken with its first bytes, may cost
/// frames: in the old way they do, in the new one only where a right frame begins in them.
pub fn may_cost_frames(trial: &Trial, before: &Node, output: &[u8]) -> bool {
    let tidied = before.tidied();
    let held = tidied.held_bytes();
    let taken = trial.uart && before.pin == Pin::CanAndUart && !held.is_empty();
    taken && (before.way == Way::Old || frame_in_held(held, output))
}

/// Compares what the node did with the plain reading; gives what is wrong. A node that doesn't
/// hear the port, or bears other numbers, does nothing. What comes of held bytes that may cost
/// frames is not told here.
fn compare(
    trial: &Trial,
    before: &Node,
    node: &Node,
    [flash, eeprom]: [&[u8]; 2],
    output: &[u8],
) -> Option<String> {
    let (mut plain_flash, mut plain_eeprom) = memories(trial);
    let hears = !trial.uart || before.pin == Pin::CanAndUart;
    if may_cost_frames(trial, before, output) {
        return None;
    }
    let ours = hears && trial.recipe[1..3] == [trial.module, trial.group];
    if ours {
        plain_reading(&trial.recipe, &mut plain_flash, &mut plain_eeprom);
    }
    let mode = if ours { Mode::Waiting } else { before.tidied().mode };
    let cell = |got: &[u8], plain: &[u8]| (0..got.len()).find(|&i| got[i] != plain[i]);
    if let Some(at) = cell(flash, &plain_flash) {
        Some(format!("FLASH cell 0x{at:06X} is {:02X}", flash[at]))
    } else if let Some(at) = cell(eeprom, &plain_eeprom) {
        Some(format!("EEPROM place {at} is {:02X}", eeprom[at]))
    } else if node.mode != mode {
        Some(format!("the node is {:?}", node.mode))
    } else {
        None
    }
}

/// Compares what the node did in pieces with the same bytes one by one, which end in the same node
/// and memories; gives what is wrong.
fn compare_with_bytes(
    trial: &Trial,
    before: &Node,
    node: &Node,
    [flash, eeprom]: [&[u8]; 2],
    output: &[u8],
) -> Option<String> {
    if !trial.uart || trial.piece == 0 {
        return None;
    }
    let (mut plain_flash, mut plain_eeprom) = memories(trial);
    let mut plain = before.clone();
    let mut lent = Lent { flash: &mut plain_flash, eeprom: &mut plain_eeprom };
    for byte in all_wrapped(output) {
        plain.uart_byte(&mut lent, byte);
    }
    let same = plain == *node && plain_flash == flash && plain_eeprom == eeprom;
    (!same).then(|| "pieces end otherwise than bytes one by one".to_string())
}

/// Applies one recipe; gives its line without the number in front, and what is wrong.
fn apply(trial: &Trial) -> (String, Option<String>) {
    let mut output = vec![0xEE; trial.output];
    let count = match translate(&trial.recipe, &mut output) {
        Err(refusal) => {
            let untouched = output.iter().all(|&byte| byte == 0xEE);
            let frames = Digest::of(&output);
            let line = format!(
                "number {} place {} frames {frames} answers 0 flash 0 eeprom 0 node 0",
                refusal.number, refusal.place,
            );
            return (line, (!untouched).then(|| "a refusal touched the output".to_string()));
        }
        Ok(count) => count,
    };
    let (mut flash, mut eeprom) = memories(trial);
    let mut lent = Lent { flash: &mut flash, eeprom: &mut eeprom };
    let before = begun(trial, &lent);
    let mut node = before.clone();
    let answers = deliver(trial, &mut node, &mut lent, &output[..FRAME * count]);
    let line = format!(
        "number 0 place {count} frames {} answers {} flash {} eeprom {} node {}",
        Digest::of(&output),
        answers.value(),
        Digest::of(&flash),
        Digest::of(&eeprom),
        Digest::of(&node_record::write(&node)),
    );
    let frames = &output[..FRAME * count];
    let memories = [&flash[..], &eeprom[..]];
    let wrong = compare(trial, &before, &node, memories, frames);
    (line, wrong.or_else(|| compare_with_bytes(trial, &before, &node, memories, frames)))
}

/// Applies all recipes of a stream and prints a line for each; gives the first thing that
/// differs from the plain reading.
pub fn apply_recipes(stream: &[u8], out: &mut impl Write) -> io::Result<Option<String>> {
    let mut first = None;
    for (index, trial) in read(stream).iter().enumerate() {
        let (line, wrong) = apply(trial);
        writeln!(out, "recipe {} {line}", index + 1)?;
        if first.is_none() {
            first = wrong.map(|what| format!("recipe {}: {what}", index + 1));
        }
    }
    Ok(first)
}
