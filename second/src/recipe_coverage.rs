//! Counts what the recipes of a stream come to.

use crate::apply_recipes::frame_in_held;
use crate::frames::{self, FRAME, START, WRAPPED};
use crate::memory::Command;
use crate::node::{Staged, Way, HELD};
use crate::recipe::{body_length, illegal, items, translate, Refusal, LEAVE, MOST_ITEMS, OPEN};
use crate::recipe_stream::{read, Trial};
use crate::row_counts;
use std::io::{self, Write};

/// Every row that a stream ought to reach. A first item is never 24 (it must be Open) or 25, and
/// an item cut short has none behind it.
const WANTED: [&str; 48] = [
    "accepted CAN, own numbers",
    "accepted CAN, other numbers",
    "accepted UART, own numbers",
    "accepted UART, other numbers",
    "accepted, output exactly long enough",
    "accepted, output longer",
    "accepted, 36829 frames",
    "accepted, 2048 items",
    "accepted, Row at BOOTFL",
    "accepted, Row at the own numbers before another item",
    "accepted, memories with a pattern",
    "accepted CAN, a read staged",
    "accepted CAN, a write staged",
    "accepted CAN, an erase staged",
    "accepted CAN, an illegal command staged",
    "accepted CAN, bytes held",
    "accepted CAN, untidy bytes held",
    "accepted CAN, pin CAN only",
    "accepted CAN, staged, held, pin CAN only and a pattern",
    "accepted UART, a read staged",
    "accepted UART, a write staged",
    "accepted UART, an erase staged",
    "accepted UART, bytes held",
    "accepted UART, untidy bytes held",
    "accepted UART, pin CAN only",
    "20 empty",
    "20 at the end",
    "20 at the end of 2048 items",
    "21 first",
    "21 middle",
    "21 last",
    "21 behind Leave",
    "22 first",
    "22 last",
    "22 before 24",
    "23 first",
    "23 middle",
    "23 last",
    "23 before 22",
    "23 before 24",
    "24 middle",
    "24 last",
    "25 middle",
    "25 last",
    "25 before 21",
    "25 before 23",
    "26 one byte short",
    "26 no output",
];

/// Every row that recipes in pieces ought to reach. Lengths are those of deliveries to a node that
/// hears them, bears the recipe's numbers and holds no bytes.
const WANTED_IN_PIECES: [&str; 21] = [
    "accepted pieces, own numbers",
    "accepted pieces, other numbers",
    "accepted pieces, a read staged",
    "accepted pieces, a write staged",
    "accepted pieces, an erase staged",
    "accepted pieces, an illegal command staged",
    "accepted pieces, untidy bytes held",
    "accepted pieces, bytes held",
    "accepted pieces, bytes held before the first piece",
    "accepted pieces, pin CAN only",
    "accepted pieces of 1, 36829 frames",
    "accepted pieces of 15, 36829 frames",
    "accepted pieces of 64, 36829 frames",
    "accepted pieces of 4096, 36829 frames",
    "accepted pieces below 15",
    "accepted pieces of 15",
    "accepted pieces above 15, no multiple of it",
    "accepted pieces above 15, a multiple of it",
    "accepted pieces longer than all the bytes",
    "pieces, a recipe refused",
    "pieces, a recipe refused with 26",
];

/// Every row that recipes with noise in front ought to reach, on UART and in pieces.
const WANTED_NOISY: [&str; 8] = [
    "noise in front, new way said, the first frame arrives",
    "noise in front, new way left unsaid, the first frame arrives",
    "noise in front, new way, a right frame in it",
    "noise in front, new way, of one byte",
    "noise in front, new way, of fourteen bytes, the first frame's 0xAA is the next one",
    "noise in front, new way, several 0xAA in it",
    "noise in front, old way said, the first frame lost",
    "noise in front, old way left unsaid, the first frame lost",
];

/// The rows of bytes held before a recipe for the own numbers comes by UART, as these frames.
fn noise_rows(trial: &Trial, output: &[u8]) -> Vec<String> {
    let begin = &trial.begin;
    let count = begin.held_count as usize;
    let ours = trial.recipe[1..3] == [trial.module, trial.group];
    let heard = trial.uart && begin.can_and_uart && ours;
    if !heard || !(1..=HELD).contains(&count) || begin.held[0] != START {
        return vec![];
    }
    let held = &begin.held[..count];
    let first = frames::wrapped(output[..FRAME].try_into().expect("a frame"));
    let arrives = trial.way().fifteens(held, &first).last() == Some(&first);
    let way = if trial.way() == Way::New { "new way" } else { "old way" };
    let said = if trial.way_byte == 0 { "left unsaid" } else { "said" };
    let arrived = if arrives { "the first frame arrives" } else { "the first frame lost" };
    let several = held[1..].contains(&START);
    let next = format!("{way}, of fourteen bytes, the first frame's 0xAA is the next one");
    let found = [
        (format!("{way} {said}, {arrived}"), true),
        (format!("{way}, a right frame in it"), frame_in_held(held, output)),
        (format!("{way}, of one byte"), count == 1),
        (next, count == HELD && !several),
        (format!("{way}, several 0xAA in it"), several),
    ];
    let port = if trial.piece > 0 { "pieces" } else { "UART" };
    let found = found.iter().filter(|(_, holds)| *holds);
    found.map(|(row, _)| format!("accepted {port}, noise in front, {row}")).collect()
}

/// The rows of what an accepted recipe for the own numbers finds in the record and the memories.
fn begun(trial: &Trial, port: &str) -> Vec<String> {
    let begin = &trial.begin;
    if trial.recipe[1..3] != [trial.module, trial.group] {
        return vec![];
    }
    let staged = begin.staged.map(|staged| match staged.command {
        _ if !staged.legal() => "an illegal command staged",
        Command::Read => "a read staged",
        Command::Write => "a write staged",
        Command::Erase => "an erase staged",
    });
    let untidy = begin.held_count as usize > HELD || begin.held[0] != START;
    let held = match begin.held_count {
        0 => None,
        _ if untidy => Some("untidy bytes held"),
        _ => Some("bytes held"),
    };
    let pin = (!begin.can_and_uart).then_some("pin CAN only");
    let mut rows: Vec<String> =
        [staged, held, pin].iter().flatten().map(|row| format!("accepted {port}, {row}")).collect();
    if trial.step != 0 {
        rows.push("accepted, memories with a pattern".to_string());
    }
    if begin.staged.is_some_and(Staged::legal) && held == Some("bytes held") && pin.is_some() {
        if trial.step != 0 {
            rows.push(format!("accepted {port}, staged, held, pin CAN only and a pattern"));
        }
    }
    rows
}

/// The rows of a refusal at an item that is at fault in another way too, and of one behind Leave.
fn orders(recipe: &[u8], number: u8, place: usize) -> Vec<String> {
    let kind = recipe[place];
    let body = &recipe[place + 1..];
    let unknown = body_length(kind).is_none();
    let short = body_length(kind).is_some_and(|length| body.len() < length);
    let behind_leave = items(&recipe[..place]).is_ok();
    let misplaced = behind_leave || kind == OPEN;
    let found = [
        ("21 behind Leave", number == 21 && behind_leave),
        ("22 before 24", number == 22 && illegal(kind, body)),
        ("23 before 22", number == 23 && short),
        ("23 before 24", number == 23 && !short && illegal(kind, body)),
        ("25 before 21", number == 25 && unknown),
        ("25 before 23", number == 25 && !unknown && misplaced),
    ];
    found.iter().filter(|(_, holds)| *holds).map(|(row, _)| row.to_string()).collect()
}

/// The rows of an accepted recipe.
fn accepted(trial: &Trial, count: usize) -> Vec<String> {
    let recipe = &trial.recipe;
    let port = if trial.uart { "UART" } else { "CAN" };
    let ours = recipe[1..3] == [trial.module, trial.group];
    let whose = if ours { "own" } else { "other" };
    let room = if trial.output == 12 * count { "exactly long enough" } else { "longer" };
    let mut rows =
        vec![format!("accepted {port}, {whose} numbers"), format!("accepted, output {room}")];
    if count == 36_829 {
        rows.push("accepted, 36829 frames".to_string());
    }
    rows.extend(begun(trial, port));
    let places = items(recipe).expect("accepted");
    if places.len() == MOST_ITEMS {
        rows.push("accepted, 2048 items".to_string());
    }
    if places.iter().any(|&place| recipe[place..].starts_with(&[0x03, 0xF0, 0x00, 0x00])) {
        rows.push("accepted, Row at BOOTFL".to_string());
    }
    let numbers = |place: &usize| recipe[*place..].starts_with(&[0x03, 0xF0, 0x00, 0x20]);
    if ours && places.iter().rev().skip(2).any(numbers) {
        rows.push("accepted, Row at the own numbers before another item".to_string());
    }
    rows
}

/// The rows of a recipe in pieces that gives so many frames.
fn accepted_in_pieces(trial: &Trial, count: usize) -> Vec<String> {
    let ours = trial.recipe[1..3] == [trial.module, trial.group];
    let whose = if ours { "own" } else { "other" };
    let mut rows = vec![format!("accepted pieces, {whose} numbers")];
    rows.extend(begun(trial, "pieces").into_iter().filter(|row| row.contains("pieces")));
    let begin = &trial.begin;
    let tidy = (1..=HELD).contains(&(begin.held_count as usize)) && begin.held[0] == START;
    if !ours || !begin.can_and_uart {
        return rows;
    }
    if tidy {
        rows.push("accepted pieces, bytes held before the first piece".to_string());
        return rows;
    }
    let (length, all) = (trial.piece as usize, WRAPPED * count);
    let more = length > WRAPPED && length <= all;
    let found = [
        ("below 15", length < WRAPPED),
        ("of 15", length == WRAPPED),
        ("above 15, no multiple of it", more && length % WRAPPED != 0),
        ("above 15, a multiple of it", more && length % WRAPPED == 0),
        ("longer than all the bytes", length > all),
    ];
    let found = found.iter().filter(|(_, holds)| *holds);
    rows.extend(found.map(|(row, _)| format!("accepted pieces {row}")));
    if count == 36_829 {
        rows.push(format!("accepted pieces of {length}, 36829 frames"));
    }
    rows
}

/// The rows of a recipe in pieces.
fn in_pieces(trial: &Trial, translated: Result<usize, Refusal>) -> Vec<String> {
    match translated {
        Ok(count) => accepted_in_pieces(trial, count),
        Err(Refusal { number: 26, .. }) => vec!["pieces, a recipe refused with 26".to_string()],
        Err(_) => vec!["pieces, a recipe refused".to_string()],
    }
}

/// The row of a refused recipe.
fn refused(trial: &Trial, number: u8, place: usize) -> Vec<String> {
    let recipe = &trial.recipe;
    match number {
        20 if recipe.is_empty() => vec!["20 empty".to_string()],
        20 => {
            let closed = [&recipe[..], &[LEAVE]].concat();
            let mut rows = vec!["20 at the end".to_string()];
            if items(&closed).map_err(|refusal| refusal.number) == Err(25) {
                rows.push("20 at the end of 2048 items".to_string());
            }
            rows
        }
        26 => {
            let mut room = vec![0; 12 * 36_829];
            let needed = 12 * translate(recipe, &mut room).expect("only the output is short");
            let mut rows = Vec::new();
            if trial.output + 1 == needed {
                rows.push("26 one byte short".to_string());
            }
            if trial.output == 0 {
                rows.push("26 no output".to_string());
            }
            rows
        }
        _ => {
            let behind = place + 1 + body_length(recipe[place]).unwrap_or(0);
            let position = match place {
                0 => "first",
                _ if behind >= recipe.len() => "last",
                _ => "middle",
            };
            let mut rows = vec![format!("{number} {position}")];
            rows.extend(orders(recipe, number, place));
            rows
        }
    }
}

/// Every row that a stream ought to reach, in the order of the printed table.
fn wanted() -> Vec<String> {
    let mut rows: Vec<String> =
        WANTED.iter().chain(&WANTED_IN_PIECES).map(|row| row.to_string()).collect();
    for port in ["UART", "pieces"] {
        rows.extend(WANTED_NOISY.iter().map(|row| format!("accepted {port}, {row}")));
    }
    rows
}

/// The rows of a recipe.
fn rows(trial: &Trial) -> Vec<String> {
    let mut output = vec![0; trial.output];
    let translated = translate(&trial.recipe, &mut output);
    let noise = translated.map_or(vec![], |_| noise_rows(trial, &output));
    let rows = match translated {
        translated if trial.uart && trial.piece > 0 => in_pieces(trial, translated),
        Ok(count) => accepted(trial, count),
        Err(refusal) => refused(trial, refusal.number, refusal.place),
    };
    rows.into_iter().chain(noise).collect()
}

/// Prints the table of counts; gives the rows that were never reached.
pub fn recipe_coverage(stream: &[u8], out: &mut impl Write) -> io::Result<Vec<String>> {
    let trials = read(stream);
    row_counts::tell(trials.len(), "recipes", trials.iter().flat_map(rows), wanted(), out)
}
