//! Makes recipe streams that are delivered by UART in pieces: the longest recipe in pieces of some
//! lengths, then legal recipes, and some that are refused, in pieces of any length.

use crate::node::Way;
use crate::random::Random;
use crate::recipe::translate;
use crate::recipe_stream::{Begin, Trial};
use crate::recipes::{begin, items_of, largest, output_length, MOST_OUTPUT, SPECIAL};
use std::io::{self, Write};

/// The lengths of the pieces in which the longest recipe comes.
pub const LONG_PIECES: [u16; 4] = [1, 15, 64, 4_096];

/// The longest recipe, for a node as its restart leaves it.
fn longest(random: &mut Random) -> Trial {
    let numbers = [random.any(), random.any()];
    Trial {
        uart: true,
        flash: random.byte(),
        eeprom: random.byte(),
        module: numbers[0],
        group: numbers[1],
        step: 1 | random.any(),
        more: random.any(),
        begin: Begin { can_and_uart: true, staged: None, held_count: 0, held: [0; 14] },
        piece: 0,
        way_byte: 0,
        meant: Way::default(),
        output: MOST_OUTPUT,
        recipe: largest(random, numbers).concat(),
    }
}

/// The length of a piece, around one and two frames, of some frames, or any.
pub fn piece_length(random: &mut Random) -> u16 {
    match random.below(11) {
        0..=3 => 1 + random.below(20) as u16,
        4 => 15,
        5 => random.pick(&[16, 29, 30, 31]),
        6 => random.pick(&[30, 45, 150]),
        7 => random.pick(&[64, 255, 256, 257]),
        8 => random.pick(&[4_096, 32_768, 65_535]),
        _ => 1 + random.below(65_535) as u16,
    }
}

/// A recipe of a few items, one of six damaged, with what it finds in the node and the memories.
fn short(random: &mut Random) -> Trial {
    let any = random.bytes();
    let numbers = random.pick(&[[0x00, 0x00], [0xFF, 0xFF], [0x05, 0x0A], any, any]);
    // By its index a recipe of the other streams is legal, or damaged in one of the known ways.
    let index = if random.below(6) == 0 { 5 + random.below(10) } else { random.below(5) };
    let recipe = items_of(random, SPECIAL.next_multiple_of(15) + index, numbers).concat();
    let needed = 12 * translate(&recipe, &mut vec![0; MOST_OUTPUT]).unwrap_or(random.below(60));
    let [module, group] = match random.below(8) {
        0 => [numbers[0] ^ 1, numbers[1]],
        _ => numbers,
    };
    let pattern = random.chance(60);
    let mut begin = begin(random, [module, group], false);
    if random.chance(50) {
        begin.held_count = 0;
    }
    Trial {
        uart: true,
        flash: random.byte(),
        eeprom: random.byte(),
        module,
        group,
        step: if pattern { 1 | random.any() } else { 0 },
        more: if pattern { random.any() } else { 0 },
        begin,
        piece: piece_length(random),
        way_byte: 0,
        meant: Way::default(),
        output: if random.chance(85) { needed } else { output_length(random, needed) },
        recipe,
    }
}

/// Writes a stream of so many recipes in pieces.
pub fn recipes_in_pieces(seed: u64, count: usize, out: &mut impl Write) -> io::Result<()> {
    let mut random = Random::new(seed ^ 0x9AB1_7EC5);
    let long = longest(&mut random);
    for index in 0..count {
        let trial = match LONG_PIECES.get(index) {
            Some(&piece) => Trial { piece, ..long.clone() },
            None => short(&mut random),
        };
        trial.write(out)?;
    }
    Ok(())
}
