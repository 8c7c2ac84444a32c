//! The program of main.rattle around the peer: bytes on UART, in pieces or byte by byte.
//!   pieces in-place < stream     the record stays where it is
//!   pieces by-value < stream     it goes into each call by value, and comes out of it so

#[allow(dead_code)]
#[path = "../peer.rs"]
mod peer;

use peer::*;
use std::io::{self, Read};

/// The most bytes that a recipe comes to.
const BYTES: usize = 552_435;

/// What the calls answered: how many there were, and the sum of numbers, counts and reply bytes.
struct Told {
    calls: u64,
    check: u64,
}

impl Told {
    #[inline(always)]
    fn add(&mut self, answer: &Answer, replies: &[u8; 30]) {
        self.calls += 1;
        self.check += answer.number as u64 + answer.count as u64;
        self.check += replies[13] as u64 + replies[28] as u64;
    }
}

fn digest(bytes: &[u8]) -> u64 {
    bytes.iter().fold(0, |digest, &byte| (digest * 31 + byte as u64 + 1) % 4_294_967_291)
}

/// Reads until the space is full or nothing is left.
fn read(input: &mut impl Read, space: &mut [u8]) -> io::Result<usize> {
    let mut length = 0;
    loop {
        match input.read(&mut space[length..])? {
            0 => return Ok(length),
            more => length += more,
        }
    }
}

/// The pieces of a delivery: the first so many of the bytes that are left, until none is left or
/// none is taken.
#[inline(always)]
fn pieces(length: usize, bytes: &[u8], mut take: impl FnMut(&[u8]) -> usize) {
    let mut rest = bytes;
    while !rest.is_empty() {
        let taken = take(&rest[..length.min(rest.len())]);
        if taken == 0 {
            return;
        }
        rest = &rest[taken..];
    }
}

#[inline(never)]
fn in_place(
    node: &mut Node,
    length: usize,
    bytes: &[u8],
    flash: &mut [u8],
    eeprom: &mut [u8],
) -> Told {
    let mut told = Told { calls: 0, check: 0 };
    let mut replies = [0; 30];
    if length == 0 {
        for &byte in bytes {
            let answer = node.uart_byte(byte, flash, eeprom, &mut replies);
            told.add(&answer, &replies);
        }
    } else {
        pieces(length, bytes, |piece| {
            let (taken, answer) = node.uart_piece(piece, flash, eeprom, &mut replies);
            told.add(&answer, &replies);
            taken
        });
    }
    told
}

#[inline(never)]
fn by_value(
    node: &mut Node,
    length: usize,
    bytes: &[u8],
    flash: &mut [u8],
    eeprom: &mut [u8],
) -> Told {
    let mut told = Told { calls: 0, check: 0 };
    let mut n = *node;
    if length == 0 {
        for &byte in bytes {
            let (answer, then, replies) = byte_by_value(n, byte, flash, eeprom);
            told.add(&answer, &replies);
            n = then;
        }
    } else {
        pieces(length, bytes, |piece| {
            let (taken, answer, then, replies) = piece_by_value(n, piece, flash, eeprom);
            told.add(&answer, &replies);
            n = then;
            taken
        });
    }
    *node = n;
    told
}

fn main() -> io::Result<()> {
    let mut head = [0; 5];
    let mut space = [0; BYTES];
    let mut flash = [0xFF; FLASH_CELLS];
    let mut eeprom = [0xFF; EEPROM_CELLS];
    let mut input = io::stdin().lock();
    input.read_exact(&mut head)?;
    let read = read(&mut input, &mut space)?;
    (eeprom[MODULE], eeprom[GROUP]) = (head[2], head[3]);
    let mut node = Node::fresh([0; 6]);
    node.restart(choices(true, head[4] > 1), true, &flash, &eeprom);
    let deliver = match std::env::args().nth(1).as_deref() {
        Some("in-place") => in_place,
        Some("by-value") => by_value,
        _ => return Err(io::Error::other("pieces in-place|by-value < stream")),
    };
    let length = u16::from_be_bytes([head[0], head[1]]) as usize;
    let told = deliver(&mut node, length, &space[..read], &mut flash, &mut eeprom);
    let last = node_bytes(&node);
    print!("calls {} check {}", told.calls, told.check);
    print!(" flash {} eeprom {}", digest(&flash), digest(&eeprom));
    println!(" node {} mode {}", digest(&last), last[24]);
    Ok(())
}
