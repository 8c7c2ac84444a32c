//! The program around the peer: reads the streams of second/PROTOCOL.md and prints what that page
//! says, so that the peer can be held to the proved programs.
//!   peer answer < sessions
//!   peer apply-recipes < recipes

#[allow(dead_code)]
mod peer;

use peer::*;
use std::io::{self, BufWriter, Read, Write};

const RECORD: usize = 64;
/// The cells that a session has of each memory.
const SESSION_FLASH: usize = 131_136;
const SESSION_EEPROM: usize = 65_600;
/// What a lent output is filled with.
const OUTPUT_FILL: u8 = 0xEE;

/// Takes bytes into a digest.
fn digest(mut digest: u64, bytes: &[u8]) -> u64 {
    for &byte in bytes {
        digest = (digest * 31 + byte as u64 + 1) % 4_294_967_291;
    }
    digest
}

/// The four bytes from a place on as a number, high byte first.
fn number(bytes: &[u8], at: usize) -> u32 {
    u32::from_be_bytes(bytes[at..at + 4].try_into().unwrap())
}

/// The bytes from a place on, as many as another byte says, at most 20.
fn part(record: &[u8], at: usize, length: u8) -> &[u8] {
    &record[at..at + length.min(20) as usize]
}

/// What is staged by its number, the kind of its address and the address. A record of the peer has
/// no kind of address beside the number, so that a number of the other kind is nothing.
fn command_of(staged: u8, kind: u8, address: u32) -> Command {
    match staged {
        3 => Command::Erase,
        1 | 2 if (kind != 0) != (address >= EEPROM_FIRST) => Command::Nothing,
        1 => Command::Read,
        2 => Command::Write,
        _ => Command::Nothing,
    }
}

/// Whether a byte says the old way after 11; where it says nothing, whether that is meant.
fn old_of(byte: u8, meant: bool) -> bool {
    byte > 1 || byte == 0 && meant
}

/// The record of a hand-in, untidied, and whether the old way is meant where nothing is said of it.
/// A count of the peer is one byte: a higher one becomes 255, which counts as none, too.
fn node_of(b: &[u8], meant: bool) -> Node {
    let address = number(b, 27);
    let command = command_of(b[25], b[26], address);
    let mut held = [0; 16];
    held[..HELD].copy_from_slice(&b[10..24]);
    held[HELD] = b[35];
    Node {
        held,
        count: if number(b, 31) == 0 { b[9] } else { 255 },
        choices: choices(b[0] != 0, old_of(b[36], meant)),
        mode: match b[24] {
            0 => Mode::Normal,
            1 => Mode::Started,
            2 => Mode::Programming,
            3 => Mode::Error,
            _ => Mode::Waiting,
        },
        command,
        own: [b[7], b[8]],
        address,
        fixed: b[1..7].try_into().unwrap(),
    }
}

/// Fills cells: the first becomes the fill, each other the one before it plus `step`, plus `more`
/// too at each 256th.
fn fill(cells: &mut [u8], first: u8, step: u8, more: u8) {
    let mut value = first;
    for (index, cell) in cells.iter_mut().enumerate() {
        if index > 0 {
            value = value.wrapping_add(step);
        }
        if index > 0 && index % 256 == 0 {
            value = value.wrapping_add(more);
        }
        *cell = value;
    }
}

/// An answer in the making.
struct Line {
    bytes: [u8; 80],
    length: usize,
}

impl Line {
    fn of(head: &[u8]) -> Line {
        let mut line = Line { bytes: [0; 80], length: 0 };
        line.add(head);
        line
    }

    fn add(&mut self, bytes: &[u8]) {
        self.bytes[self.length..][..bytes.len()].copy_from_slice(bytes);
        self.length += bytes.len();
    }

    /// Adds a record: NODE and the fifteenth held byte, and the way where answers tell it.
    fn add_node(&mut self, node: &Node, tells: bool) {
        self.add(&node_bytes(node));
        self.add(&[node.held[HELD], way_byte(node)][..1 + tells as usize]);
    }

    fn bytes(&self) -> &[u8] {
        &self.bytes[..self.length]
    }
}

struct Session {
    flash: [u8; SESSION_FLASH],
    eeprom: [u8; SESSION_EEPROM],
    lent: [usize; 2],
    node: Node,
    number: u32,
    events: u64,
    full: u64,
    digest: u64,
    /// How often restart, CAN frame, UART byte and UART piece gave each number.
    counts: [u64; 38],
    /// Whether answers tell the way after 11.
    tells: bool,
    /// Whether the old way is meant where nothing is said of it, of the whole stream.
    meant: bool,
}

impl Session {
    fn new() -> Session {
        Session {
            flash: [0; SESSION_FLASH],
            eeprom: [0; SESSION_EEPROM],
            lent: [FLASH_CELLS, EEPROM_CELLS],
            node: Node::fresh([0; 6]),
            number: 0,
            events: 0,
            full: 0,
            digest: 0,
            counts: [0; 38],
            tells: false,
            meant: false,
        }
    }

    /// Does the event of a record.
    fn event(&mut self, b: &[u8], out: &mut impl Write) -> io::Result<()> {
        let flash = &mut self.flash[..self.lent[0]];
        let eeprom = &mut self.eeprom[..self.lent[1]];
        let mut space = [OUTPUT_FILL; 20];
        let mut line;
        match b[0] {
            0x01 => {
                let choices = choices(b[1] != 0, old_of(b[3], self.meant));
                let number = self.node.restart(choices, b[2] == 0, flash, eeprom);
                self.counts[number as usize] += 1;
                line = Line::of(&[b[0], number]);
                line.add_node(&self.node, self.tells);
            }
            0x02 => {
                let mut replies = [OUTPUT_FILL; 24];
                let mut bytes = [0x55; 1_024];
                bytes[..RECORD - 3].copy_from_slice(&b[3..]);
                let length = u16::from_be_bytes([b[1], b[2]]) as usize;
                let frame = &bytes[..length.min(bytes.len())];
                let answer = self.node.can_frame(frame, flash, eeprom, &mut replies);
                self.counts[2 + answer.number as usize] += 1;
                line = Line::of(&[b[0], answer.number, answer.count]);
                line.add(&replies);
                line.add_node(&self.node, self.tells);
            }
            0x03 => {
                let mut replies = [OUTPUT_FILL; 30];
                let answer = self.node.uart_byte(b[1], flash, eeprom, &mut replies);
                self.counts[14 + answer.number as usize] += 1;
                line = Line::of(&[b[0], answer.number, answer.count]);
                line.add(&replies);
                line.add_node(&self.node, self.tells);
            }
            0x04 => {
                let address = number(b, 1);
                if flash.len() != FLASH_CELLS || eeprom.len() != EEPROM_CELLS {
                    line = Line::of(&[b[0], 1, 0]);
                } else {
                    match rule(address, 1) {
                        None => line = Line::of(&[b[0], 8, 0]),
                        Some(memory) => {
                            line = Line::of(&[b[0], 0, 8]);
                            line.add(match memory {
                                Memory::Flash => &flash[address as usize..][..8],
                                Memory::Eeprom => &eeprom[(address - EEPROM_FIRST) as usize..][..8],
                            });
                        }
                    }
                }
            }
            0x0A => {
                let output = &mut space[..b[6].min(20) as usize];
                let number = to_hapcan(number(b, 1), part(b, 7, b[5]), output);
                line = Line::of(&[b[0], number]);
                line.add(output);
            }
            0x0B => {
                let output = &mut space[..b[2].min(20) as usize];
                let (number, identifier) = to_can(part(b, 3, b[1]), output);
                line = Line::of(&[b[0], number]);
                line.add(&identifier.to_be_bytes());
                line.add(output);
            }
            0x0C | 0x0D => {
                let call = if b[0] == 0x0C { wrap } else { unwrap };
                let output = &mut space[..b[2].min(20) as usize];
                line = Line::of(&[b[0], call(part(b, 3, b[1]), output)]);
                line.add(output);
            }
            0x0E => {
                line = match rule(number(b, 1), number(b, 5)) {
                    Some(Memory::Flash) => Line::of(&[b[0], 0, 0]),
                    Some(Memory::Eeprom) => Line::of(&[b[0], 0, 1]),
                    None => Line::of(&[b[0], 8, 2]),
                };
            }
            0x11 => return self.pieces(b, out),
            _ => {
                self.arrange(b);
                return Ok(());
            }
        }
        self.tell(&line, out)
    }

    /// UART pieces: each call is handed the first bytes of what the ring still holds.
    fn pieces(&mut self, b: &[u8], out: &mut impl Write) -> io::Result<()> {
        let mut ring = &b[19..][..b[1].min(44) as usize];
        for &length in &b[3..][..b[2].min(16) as usize] {
            let mut replies = [OUTPUT_FILL; 30];
            let (taken, answer) = self.node.uart_piece(
                &ring[..ring.len().min(length as usize)],
                &mut self.flash[..self.lent[0]],
                &mut self.eeprom[..self.lent[1]],
                &mut replies,
            );
            ring = &ring[taken..];
            self.counts[26 + answer.number as usize] += 1;
            let mut line = Line::of(&[b[0], answer.number, taken as u8, answer.count]);
            line.add(&replies);
            line.add_node(&self.node, self.tells);
            self.tell(&line, out)?;
        }
        Ok(())
    }

    /// Counts an answer, and prints it where it is among those in full.
    fn tell(&mut self, line: &Line, out: &mut impl Write) -> io::Result<()> {
        self.events += 1;
        self.digest = digest(self.digest, line.bytes());
        if self.events <= self.full {
            line.bytes().iter().try_for_each(|byte| write!(out, "{byte:02x}"))?;
            writeln!(out)?;
        }
        Ok(())
    }

    /// Does an event that has no answer.
    fn arrange(&mut self, b: &[u8]) {
        match b[0] {
            0x05 => self.node = node_of(&b[1..], self.meant),
            0x06 => {
                let (flash, eeprom) = (number(b, 1) as usize, number(b, 5) as usize);
                self.lent = [flash.min(SESSION_FLASH), eeprom.min(SESSION_EEPROM)];
            }
            0x07 => {
                let address = number(b, 1);
                let cell = match address.checked_sub(EEPROM_FIRST) {
                    Some(place) => self.eeprom.get_mut(place as usize),
                    None => self.flash.get_mut(address as usize),
                };
                if let Some(cell) = cell {
                    *cell = b[5];
                }
            }
            0x08 => {
                fill(&mut self.flash, b[1], b[11], b[12]);
                fill(&mut self.eeprom, b[2], b[11], b[12]);
                self.lent = [FLASH_CELLS, EEPROM_CELLS];
                self.node = Node::fresh(b[3..9].try_into().unwrap());
                self.number += 1;
                self.events = 0;
                self.full = u16::from_be_bytes([b[9], b[10]]) as u64;
                self.digest = 0;
                self.counts = [0; 38];
                self.tells = b[13] != 0;
            }
            0x12 => self.meant = old_of(b[1], false),
            _ => {}
        }
    }

    /// Prints the closing line.
    fn close(&self, out: &mut impl Write) -> io::Result<()> {
        let (flash, eeprom) = (digest(0, &self.flash), digest(0, &self.eeprom));
        write!(out, "session {} events {} digest {}", self.number, self.events, self.digest)?;
        write!(out, " flash {flash} eeprom {eeprom}")?;
        let words = [("restart", 0, 2), ("can", 2, 14), ("uart", 14, 26), ("piece", 26, 38)];
        let pieces = self.counts[26..].iter().any(|&count| count != 0);
        for (word, from, to) in &words[..3 + pieces as usize] {
            write!(out, " {word}")?;
            for count in &self.counts[*from..*to] {
                write!(out, " {count}")?;
            }
        }
        writeln!(out)
    }
}

/// Answers the events of a session stream.
fn answer(stream: &[u8], out: &mut impl Write) -> io::Result<()> {
    let mut session = Session::new();
    for record in stream.chunks_exact(RECORD) {
        if record[0] == 0x09 {
            session.close(out)?;
        } else {
            session.event(record, out)?;
        }
    }
    Ok(())
}

/// Hands a node bytes in pieces of one length, until none is left or it takes none; gives the
/// digest of the answers.
fn by_pieces(node: &mut Node, length: usize, bytes: &[u8], memories: [&mut [u8]; 2]) -> u64 {
    let [flash, eeprom] = memories;
    let (mut rest, mut answers) = (bytes, 0);
    while !rest.is_empty() {
        let mut replies = [OUTPUT_FILL; 30];
        let piece = &rest[..length.min(rest.len())];
        let (taken, answer) = node.uart_piece(piece, flash, eeprom, &mut replies);
        let [high, low] = (taken as u16).to_be_bytes();
        answers = digest(answers, &[answer.number, high, low, answer.count]);
        answers = digest(answers, &replies);
        if taken == 0 {
            break;
        }
        rest = &rest[taken..];
    }
    answers
}

/// Translates a recipe, hands its frames to a node, and prints the line. The old way may be meant
/// where the header says nothing of it, and there is space for the bytes of all wrapped frames.
fn apply(
    h: &[u8],
    meant: bool,
    recipe: &[u8],
    output: &mut [u8],
    serial: &mut [u8],
    out: &mut impl Write,
) -> io::Result<()> {
    output.fill(OUTPUT_FILL);
    let count = match translate(recipe, output) {
        Ok(count) => count,
        Err((number, place)) => {
            let frames = digest(0, output);
            write!(out, "number {number} place {place} frames {frames}")?;
            return writeln!(out, " answers 0 flash 0 eeprom 0 node 0");
        }
    };
    let mut flash = [0; FLASH_CELLS];
    let mut eeprom = [0; EEPROM_CELLS];
    fill(&mut flash, h[2], h[14], h[15]);
    fill(&mut eeprom, h[3], h[14], h[15]);
    (eeprom[BOOTFL], eeprom[MODULE], eeprom[GROUP]) = (0xFF, h[4], h[5]);
    let mut node = Node::fresh([0; 6]);
    node.restart(choices(h[16] != 0, old_of(h[40], meant)), true, &flash, &eeprom);
    node.address = number(h, 19);
    node.command = command_of(h[17], h[18], node.address);
    node.count = h[23];
    node.held[..HELD].copy_from_slice(&h[24..38]);
    let mut answers = 0;
    let length = u16::from_be_bytes([h[38], h[39]]) as usize;
    let in_pieces = h[1] != 0 && length != 0;
    for (at, frame) in output[..12 * count].chunks_exact(12).enumerate() {
        if in_pieces {
            wrap(frame, &mut serial[15 * at..][..15]);
            continue;
        }
        if h[1] == 0 {
            let mut replies = [OUTPUT_FILL; 24];
            let answer = node.can_frame(frame, &mut flash, &mut eeprom, &mut replies);
            answers = digest(digest(answers, &[answer.number, answer.count]), &replies);
            continue;
        }
        let mut wrapped = [0; 15];
        wrap(frame, &mut wrapped);
        for byte in wrapped {
            let mut replies = [OUTPUT_FILL; 30];
            let answer = node.uart_byte(byte, &mut flash, &mut eeprom, &mut replies);
            answers = digest(digest(answers, &[answer.number, answer.count]), &replies);
        }
    }
    if in_pieces {
        answers = by_pieces(&mut node, length, &serial[..15 * count], [&mut flash, &mut eeprom]);
    }
    write!(out, "number 0 place {count} frames {} answers {answers}", digest(0, output))?;
    write!(out, " flash {} eeprom {}", digest(0, &flash), digest(0, &eeprom))?;
    writeln!(out, " node {}", digest(0, &node_bytes(&node)))
}

/// Applies the recipes of a stream.
fn apply_recipes(stream: &[u8], out: &mut impl Write) -> io::Result<()> {
    let mut space = vec![0; 441_948];
    let mut serial = vec![0; 552_435];
    let mut rest = stream;
    let mut recipe = 0;
    let mut meant = false;
    while let Some((header, behind)) = rest.split_at_checked(RECORD) {
        rest = behind;
        if header[0] == 0x21 {
            meant = old_of(header[1], false);
        }
        if header[0] != 0x20 {
            continue;
        }
        let length = (number(header, 6) as usize).min(behind.len());
        let output = &mut space[..number(header, 10) as usize];
        recipe += 1;
        write!(out, "recipe {recipe} ")?;
        apply(header, meant, &behind[..length], output, &mut serial, out)?;
        rest = &behind[length.next_multiple_of(RECORD).min(behind.len())..];
    }
    Ok(())
}

fn main() -> io::Result<()> {
    let mut stream = Vec::new();
    io::stdin().lock().read_to_end(&mut stream)?;
    let mut out = BufWriter::new(io::stdout().lock());
    match std::env::args().nth(1).as_deref() {
        Some("answer") => answer(&stream, &mut out)?,
        Some("apply-recipes") => apply_recipes(&stream, &mut out)?,
        _ => return Err(io::Error::other("peer answer < sessions, peer apply-recipes < recipes")),
    }
    out.flush()
}
