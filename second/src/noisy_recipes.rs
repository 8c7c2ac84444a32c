//! Makes recipe streams with noise in front, delivered by UART in both ways, byte by byte and in
//! pieces.

use crate::frames::{self, START, STOP};
use crate::node::{Way, HELD};
use crate::random::Random;
use crate::recipe::translate;
use crate::recipe_stream::{write_meant, Begin, Trial};
use crate::recipes::{items_of, MOST_OUTPUT, SPECIAL};
use crate::recipes_in_pieces::piece_length;
use std::io::{self, Write};

/// How much noise makes a right frame with the numbers of the first frame as its sum and stop.
const NOISE_OF_A_FRAME: usize = 10;

/// So many bytes of noise that begin with 0xAA, and as many percent of the others are 0xAA.
fn noise(random: &mut Random, count: usize, more: usize) -> [u8; HELD] {
    let mut held = [0; HELD];
    for byte in &mut held[..count] {
        let other = random.byte();
        let start = random.chance(more);
        *byte = match other {
            _ if start => START,
            START => 0x2A,
            other => other,
        };
    }
    held[0] = START;
    held
}

/// Changes the noise so that it is a right frame with the first frame's beginning, which has the
/// sum as its module and 0xA5 as its group.
fn make_frame(held: &mut [u8; HELD], frame: &[u8]) {
    let last = NOISE_OF_A_FRAME - 1;
    let others = [&held[1..last], &[START], &frame[..2]].concat();
    held[last] = frame[2].wrapping_sub(frames::sum(&others));
}

/// A legal recipe of a moderate length with noise in front. By its index it comes byte by byte or
/// in pieces, says something of the way or nothing, and has noise of one byte, of fourteen without
/// another 0xAA, with a right frame in it, or of any length.
fn noisy(random: &mut Random, index: usize) -> Trial {
    let (pair, in_pieces) = (index / 2, index % 2 == 1);
    let with_frame = pair % 7 == 3;
    let any = random.bytes();
    let mut numbers = random.pick(&[[0x00, 0x00], [0xFF, 0xFF], [0x05, 0x0A], [0xAA, 0xAA], any]);
    if with_frame {
        numbers[1] = STOP;
    }
    // By this index a recipe of the other streams is legal.
    let legal = SPECIAL.next_multiple_of(15) + random.below(5);
    let recipe = items_of(random, legal, numbers).concat();
    let mut output = vec![0; MOST_OUTPUT];
    let count = translate(&recipe, &mut output).expect("a legal recipe");
    let held_count = match pair % 6 {
        _ if with_frame => NOISE_OF_A_FRAME,
        0 => 1,
        1 => HELD,
        _ => 1 + random.below(HELD),
    };
    let more = if pair % 6 == 1 { 0 } else { random.pick(&[0, 10, 40, 100]) };
    let mut held = noise(random, held_count, more);
    if with_frame {
        make_frame(&mut held, &output);
    }
    Trial {
        uart: true,
        flash: random.byte(),
        eeprom: random.byte(),
        module: numbers[0],
        group: numbers[1],
        step: 1 | random.any(),
        more: random.any(),
        begin: Begin { can_and_uart: true, staged: None, held_count: held_count as u8, held },
        piece: if in_pieces { piece_length(random) } else { 0 },
        way_byte: [0, 1, random.pick(&[2, 3, 255]), 1, 0][pair % 5],
        meant: Way::default(),
        output: 12 * count,
        recipe,
    }
}

/// Writes a stream of so many recipes with noise in front. What is meant where nothing is said
/// changes behind every sixth, and is the default in the end.
pub fn noisy_recipes(seed: u64, count: usize, out: &mut impl Write) -> io::Result<()> {
    let mut random = Random::new(seed ^ 0x4015_E000);
    for index in 0..count {
        noisy(&mut random, index).write(out)?;
        match index % 12 {
            5 => write_meant(Way::Old, out)?,
            11 => write_meant(Way::New, out)?,
            _ => {}
        }
    }
    write_meant(Way::default(), out)
}
