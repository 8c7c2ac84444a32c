//! HAPCAN frames, CAN identifiers, and the wrapping on UART.

use crate::numbers::*;

pub const FRAME: usize = 12;
pub const WRAPPED: usize = 15;
pub const START: u8 = 0xAA;
pub const STOP: u8 = 0xA5;
const HIGHEST_IDENTIFIER: u32 = 0x1FFF_FFFF;

pub type Frame = [u8; FRAME];

/// A frame of this type, with its four flag bits, numbers and data.
pub fn frame(kind: u16, flags: u8, module: u8, group: u8, data: [u8; 8]) -> Frame {
    let mut frame = [0; FRAME];
    frame[0] = (kind >> 4) as u8;
    frame[1] = (kind << 4) as u8 | flags & 0x0F;
    frame[2] = module;
    frame[3] = group;
    frame[4..].copy_from_slice(&data);
    frame
}

/// The 12 bits of type.
pub fn kind(frame: &Frame) -> u16 {
    (frame[0] as u16) << 4 | frame[1] as u16 >> 4
}

/// Whether one of the three flag bits that must be zero is set.
pub fn upper_flag(frame: &Frame) -> bool {
    frame[1] & 0x0E != 0
}

/// The response flag.
pub fn response_flag(frame: &Frame) -> bool {
    frame[1] & 0x01 != 0
}

/// The data D0 to D7.
pub fn data(frame: &Frame) -> [u8; 8] {
    std::array::from_fn(|i| frame[4 + i])
}

/// The sum of some bytes modulo 256.
pub fn sum(bytes: &[u8]) -> u8 {
    bytes.iter().fold(0, |sum, &byte| sum.wrapping_add(byte))
}

/// Identifier and 8 data bytes to the 12 bytes of a frame; gives a number.
pub fn identifier_to_frame(identifier: u32, data: &[u8], output: &mut [u8]) -> u8 {
    if output.len() != FRAME || identifier > HIGHEST_IDENTIFIER || data.len() != 8 {
        return MALFORMED;
    }
    let kind = identifier / 131_072;
    output[0] = (kind / 16) as u8;
    output[1] = (kind % 16 * 16 + identifier / 65_536 % 2) as u8;
    output[2] = (identifier / 256) as u8;
    output[3] = identifier as u8;
    output[4..].copy_from_slice(data);
    DONE
}

/// The 12 bytes of a frame to identifier and 8 data bytes; gives a number, and 0 as identifier
/// where it refuses.
pub fn frame_to_identifier(input: &[u8], output: &mut [u8]) -> (u8, u32) {
    let Ok(frame) = Frame::try_from(input) else {
        return (MALFORMED, 0);
    };
    if output.len() != 8 || upper_flag(&frame) {
        return (MALFORMED, 0);
    }
    output.copy_from_slice(&frame[4..]);
    let head = kind(&frame) as u32 * 131_072 + response_flag(&frame) as u32 * 65_536;
    (DONE, head + frame[2] as u32 * 256 + frame[3] as u32)
}

/// Wraps 12 bytes into the 15 sent on UART; gives a number.
pub fn wrap(input: &[u8], output: &mut [u8]) -> u8 {
    if output.len() != WRAPPED || input.len() != FRAME {
        return MALFORMED;
    }
    output[0] = START;
    output[1..13].copy_from_slice(input);
    output[13] = sum(input);
    output[14] = STOP;
    DONE
}

/// Unwraps 15 bytes from UART into 12; gives a number.
pub fn unwrap(input: &[u8], output: &mut [u8]) -> u8 {
    if output.len() != FRAME || input.len() != WRAPPED {
        return MALFORMED;
    }
    if input[0] != START || input[13] != sum(&input[1..13]) || input[14] != STOP {
        return BAD_WRAPPING;
    }
    output.copy_from_slice(&input[1..13]);
    DONE
}

/// A whole frame as it is sent on UART.
pub fn wrapped(frame: &Frame) -> [u8; WRAPPED] {
    let mut bytes = [0; WRAPPED];
    wrap(frame, &mut bytes);
    bytes
}

/// Where a receiver that held some bytes has fifteen behind these: how many of these it took, and
/// the fifteen. It skips bytes until 0xAA, then collects.
pub fn first_fifteen(held: &[u8], bytes: &[u8]) -> Option<(usize, [u8; WRAPPED])> {
    let mut all = held.to_vec();
    for (index, &byte) in bytes.iter().enumerate() {
        if !all.is_empty() || byte == START {
            all.push(byte);
        }
        if let Ok(fifteen) = all[..].try_into() {
            return Some((index + 1, fifteen));
        }
    }
    None
}
