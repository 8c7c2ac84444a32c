//! Makes streams of HEX texts: good ones of every kind, and damaged ones.

use crate::hex::{self, MOST_RECIPE};
use crate::hex_damage::*;
use crate::hex_good::{full, good, many_lines, scattered, Draft};
use crate::hex_stream::{HexTrial, MOST_ROOM, MOST_TEXT};
use crate::random::Random;
use std::io::{self, Write};

/// One fault at a line of any place.
fn one_fault(random: &mut Random, draft: &mut Draft, faults: Faults) {
    let place = if random.chance(4) { Place::Only } else { random.pick(&PLACES) };
    put_faults(random, draft, faults, place);
}

/// The faults of one number at a line.
fn faults_of(random: &mut Random, number: u8) -> Faults {
    match number {
        30 => Faults { form: Some(random.below(FORMS)), ..NO_FAULTS },
        31 => Faults { sum: Some(random.below(SUMS)), ..NO_FAULTS },
        32 => Faults { other_type: true, ..NO_FAULTS },
        33 => Faults { cells: Cells::Outside, ..NO_FAULTS },
        _ => Faults { cells: Cells::Twice, ..NO_FAULTS },
    }
}

/// Two or three faults at one line.
fn faults_at_one_line(random: &mut Random) -> Faults {
    let form = Some(random.below(FORMS));
    let sum = Some(random.below(SUMS));
    let cells = random.pick(&[Cells::Outside, Cells::Twice, Cells::OutsideAndTwice]);
    match random.below(7) {
        0 => Faults { form, sum, ..NO_FAULTS },
        1 => Faults { sum, other_type: true, ..NO_FAULTS },
        2 => Faults { other_type: true, cells, ..NO_FAULTS },
        3 | 4 => Faults { cells: Cells::OutsideAndTwice, ..NO_FAULTS },
        5 => Faults { sum, cells, ..NO_FAULTS },
        _ => Faults { form, sum, other_type: true, cells },
    }
}

/// Faults at two lines or three, of which the first decides.
fn faults_at_some_lines(random: &mut Random, draft: &mut Draft) {
    for _ in 0..2 + random.below(2) {
        let number = 30 + random.below(5) as u8;
        let faults = faults_of(random, number);
        let place = random.pick(&[Place::First, Place::Middle, Place::Middle]);
        put_faults(random, draft, faults, place);
    }
    if random.chance(30) {
        draft.lines.pop();
    }
    if random.chance(20) && !draft.lines.is_empty() {
        end_fault(random, draft, 8);
    }
}

/// A good draft, now and then a long one.
fn any_good(random: &mut Random, index: usize) -> Draft {
    match index {
        _ if index % 2_500 == 20 || index % 5_000 == 2_532 => full(random, 16),
        _ if index % 1_500 == 40 || index % 5_000 == 1_512 => scattered(random),
        _ if index % 2_000 == 60 => many_lines(random, [300, 5_000, 256, 700][index / 2_000 % 4]),
        _ => good(random),
    }
}

/// The text of this index. The ways of one kind come by turns.
pub fn text(random: &mut Random, index: usize) -> Vec<u8> {
    let mut draft = any_good(random, index);
    let turn = index / 20;
    match index % 20 {
        0 if index % 4_000 == 2_060 => end_fault(random, &mut draft, 0),
        0..=5 => {}
        7 | 8 => {
            let form = Some((2 * turn + index % 2) % FORMS);
            one_fault(random, &mut draft, Faults { form, ..NO_FAULTS });
        }
        9 => one_fault(random, &mut draft, Faults { sum: Some(turn % SUMS), ..NO_FAULTS }),
        10 => one_fault(random, &mut draft, Faults { other_type: true, ..NO_FAULTS }),
        11 => one_fault(random, &mut draft, Faults { cells: Cells::Outside, ..NO_FAULTS }),
        12 => one_fault(random, &mut draft, Faults { cells: Cells::Twice, ..NO_FAULTS }),
        13 => end_fault(random, &mut draft, turn % ENDS),
        14 => {
            let faults = faults_at_one_line(random);
            one_fault(random, &mut draft, faults);
        }
        15 => faults_at_some_lines(random, &mut draft),
        16 => mended(random, &mut draft),
        _ => {
            // Index 6 and the last three of twenty.
            let text = draft.written(random);
            return mutated(random, text);
        }
    }
    draft.written(random)
}

/// The length of the lent output for a text whose recipe has so many bytes: exactly enough, one
/// byte short, nothing, more, much more.
fn room(random: &mut Random, needed: usize) -> usize {
    let length = match random.below(200) {
        0..=89 => needed,
        90..=129 => needed + 1 + random.below(40),
        130..=134 => needed + 1_000 + random.below(1_000),
        135 => MOST_ROOM,
        136..=159 => needed.saturating_sub(1),
        160..=164 => needed / 2,
        165..=169 => random.below(4),
        170..=184 => 0,
        _ => random.below(400),
    };
    length.min(MOST_ROOM)
}

/// Writes a stream of so many texts.
pub fn hex_texts(seed: u64, count: usize, out: &mut impl Write) -> io::Result<()> {
    let mut random = Random::new(seed ^ 0x4E_11E5);
    for index in 0..count {
        let any = random.bytes();
        let [module, group] = random.pick(&[[0x00, 0x00], [0xFF, 0xFF], [0x05, 0x0A], any, any]);
        let mut text = text(&mut random, index);
        text.truncate(MOST_TEXT);
        let needed = match hex::read(&text, module, group, MOST_ROOM) {
            Ok(recipe) => recipe.len(),
            Err(_) => {
                let any = random.below(600);
                random.pick(&[0, 4, 72, 140, any])
            }
        };
        let room = match needed {
            MOST_RECIPE => [needed, needed - 1, MOST_ROOM, 0][index / 500 % 4],
            _ => room(&mut random, needed),
        };
        HexTrial { module, group, room, text }.write(out)?;
    }
    Ok(())
}
