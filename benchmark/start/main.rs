//! The program of main.rattle around the peer: restarts, or 0x106, many times.
//!   start in-place < stream

#[allow(dead_code)]
#[path = "../peer.rs"]
mod peer;

use peer::*;
use std::io::{self, Read};

/// The sum of what so many restarts left: their numbers, and two bytes of the record.
#[inline(never)]
fn restarted(node: &mut Node, times: u64, flash: &[u8], eeprom: &[u8]) -> u64 {
    let mut check = 0;
    for _ in 0..times {
        let number = node.restart(choices(false, false), true, flash, eeprom);
        check += number as u64 + node.own[0] as u64 + node.count as u64;
    }
    check
}

/// The sum of what so many frames 0x106 were answered: their numbers, and five bytes of the
/// replies.
#[inline(never)]
fn asked(node: &mut Node, times: u64, flash: &mut [u8], eeprom: &mut [u8]) -> u64 {
    let frame = [0x10, 0x60, 0xF0, 0xF0, 0xFF, 0xFF, 0x00, 0x00, 0xFF, 0xFF, 0xFF, 0xFF];
    let mut replies = [0; 24];
    let mut check = 0;
    for _ in 0..times {
        let answer = node.can_frame(&frame, flash, eeprom, &mut replies);
        check += answer.number as u64 + replies[0] as u64 + replies[4] as u64;
        check += replies[5] as u64 + replies[6] as u64 + replies[7] as u64;
    }
    check
}

fn main() -> io::Result<()> {
    let mut head = [0; 6];
    io::stdin().lock().read_exact(&mut head)?;
    let [which, high, low, first, second, third] = head;
    let mut flash = [0x5A; FLASH_CELLS];
    let mut eeprom = [0x00; EEPROM_CELLS];
    flash[0x1010..0x1013].copy_from_slice(&[first, second, third]);
    let mut node = Node::fresh([0; 6]);
    node.restart(choices(false, false), true, &flash, &eeprom);
    let times = u16::from_be_bytes([high, low]) as u64;
    let check = match which {
        0 => restarted(&mut node, times, &flash, &eeprom),
        _ => asked(&mut node, times, &mut flash, &mut eeprom),
    };
    println!("{check}");
    Ok(())
}
