//! The rows of HEX texts that are accepted: what they have, as their lines show.

use crate::hex::{DATA, END_RECORD, MOST_RECIPE, UPPER};
use crate::hex_faults::{examine, inside, Ending, Line};
use crate::hex_stream::HexTrial;
use crate::recipe::items;
use std::collections::HashMap;

/// The outermost cells of the legal areas.
const OUTERMOST: [u64; 4] = [0x001000, 0x00FFFF, 0xF00000, 0xF003FF];
/// Everything else that an accepted text may have.
const FEATURES: [&str; 50] = [
    "upper case alone",
    "lower case alone",
    "both cases in one record",
    "LF alone",
    "CR LF alone",
    "LF and CR LF",
    "the last line ends in LF",
    "the last line ends in CR LF",
    "the last line ends in nothing",
    "no type 04",
    "type 04 that says what is so",
    "type 04 of 0 at the beginning",
    "EEPROM and back to FLASH",
    "another upper half without cells",
    "an address in type 04",
    "an address in type 01",
    "a record of 255 bytes",
    "a record of 16 bytes",
    "a record of one byte",
    "a record without data",
    "a record without data at an illegal address",
    "records upward",
    "records not upward",
    "EEPROM before FLASH",
    "a record over the border of two blocks",
    "a record over three blocks or more",
    "a record that is a block",
    "a record over the border of two rows",
    "a record that is a row",
    "a record from 0xFF00 or higher to 0xFFFF",
    "a block of several records",
    "a block of several records with others between",
    "a row of several records",
    "a block's first cell alone",
    "a block's last cell alone",
    "a row's first cell alone",
    "a row's last cell alone",
    "BOOTFL 0x00",
    "BOOTFL 0xFF",
    "BOOTFL another value",
    "BOOTFL's row without BOOTFL",
    "one of the own numbers without the other",
    "a cell of 0xFF",
    "more than 255 lines",
    "more than 65535 bytes",
    "one line",
    "FLASH alone",
    "EEPROM alone",
    "both memories",
    "neither memory",
];
/// Of how many items a recipe is.
const ITEMS: [&str; 7] = [
    "2 items",
    "3 items",
    "4 items",
    "5 to 20 items",
    "21 to 1089 items",
    "1090 items, all cells given",
    "1090 items, one cell given in each",
];
const NUMBERS: [&str; 3] = ["numbers 00 00", "numbers FF FF", "numbers that differ"];
const ROOMS: [&str; 5] = [
    "output exactly long enough",
    "output one byte longer",
    "output longer",
    "output longer by 1000 bytes and more",
    "output exactly long enough for the longest recipe",
];

/// Every row of accepted texts that a stream ought to reach.
pub fn wanted() -> Vec<String> {
    let mut rows = Vec::new();
    rows.extend(FEATURES.iter().map(|row| row.to_string()));
    for cell in OUTERMOST {
        rows.push(outermost_row(cell));
        rows.push(format!("one cell alone at 0x{cell:06X}"));
    }
    let others = ITEMS.iter().chain(&NUMBERS).chain(&ROOMS);
    rows.extend(others.map(|row| row.to_string()));
    rows.iter().map(|row| format!("accepted, {row}")).collect()
}

/// The row of a record that begins or ends at an outermost cell.
fn outermost_row(cell: u64) -> String {
    let what = if inside(cell + 1) { "begins" } else { "ends" };
    format!("a record {what} at 0x{cell:06X}")
}

/// The cells of a text by their blocks and rows: for the first cell of each, the places of those
/// that are given, and which of the lines that give cells give these.
fn touched(lines: &[Line]) -> HashMap<u64, (Vec<u64>, Vec<usize>)> {
    let mut touched: HashMap<u64, (Vec<u64>, Vec<usize>)> = HashMap::new();
    for (index, line) in lines.iter().filter(|line| line.gives()).enumerate() {
        for cell in line.first()..line.behind() {
            let within = cell % if cell <= 0xFFFF { 64 } else { 8 };
            let (places, by) = touched.entry(cell - within).or_default();
            places.push(within);
            if by.last() != Some(&index) {
                by.push(index);
            }
        }
    }
    touched
}

/// The cells of a text with their values.
fn values(lines: &[Line]) -> HashMap<u64, u8> {
    let giving = lines.iter().filter(|line| line.gives());
    giving.flat_map(|line| (line.first()..).zip(line.data().iter().copied())).collect()
}

/// What the digits' letters of a line are: upper case, lower case.
fn cases(line: &Line) -> (bool, bool) {
    let any = |holds: fn(&u8) -> bool| line.content.iter().any(holds);
    (any(u8::is_ascii_uppercase), any(u8::is_ascii_lowercase))
}

/// Which features the lines of an accepted text have, in the order of `FEATURES`.
fn features(text: &[u8], lines: &[Line]) -> [bool; 50] {
    let giving: Vec<&Line> = lines.iter().filter(|line| line.gives()).collect();
    let of_kind = |kind: u8| lines.iter().filter(move |line| line.kind() == Some(kind));
    let upper = lines.iter().any(|line| cases(line).0);
    let lower = lines.iter().any(|line| cases(line).1);
    let mut endings: Vec<Ending> = lines.iter().map(|line| line.ending).collect();
    let last = endings.pop().expect("an end record");
    let ends = |ending| endings.contains(&ending);
    let firsts: Vec<u64> = giving.iter().map(|line| line.first()).collect();
    let kinds: Vec<bool> = firsts.iter().map(|&first| first >= 0xF00000).collect();
    let said = |line: &&Line| line.data() == line.upper.to_be_bytes();
    let data = |length: usize| of_kind(DATA).any(|line| line.data().len() == length);
    let empty = |line: &&Line| line.data().is_empty();
    let border = |line: &&Line, unit: u64| line.first() / unit != (line.behind() - 1) / unit;
    let flash = |line: &&Line| line.first() <= 0xFFFF;
    let whole =
        |line: &&Line, unit: u64| line.first() % unit == 0 && line.data().len() as u64 == unit;
    let in_giving = |holds: &dyn Fn(&&Line) -> bool| giving.iter().any(|line| holds(line));
    let touched = touched(lines);
    let block = |first: u64| first <= 0xFFFF;
    let in_touched = |holds: &dyn Fn(u64, &[u64], &[usize]) -> bool| {
        touched.iter().any(|(&first, (places, by))| holds(first, places, by))
    };
    let values = values(lines);
    let cell = |cell: u64| values.get(&cell).copied();
    [
        upper && !lower,
        lower && !upper,
        lines.iter().any(|line| cases(line) == (true, true)),
        ends(Ending::Lf) && !ends(Ending::CrLf),
        ends(Ending::CrLf) && !ends(Ending::Lf),
        ends(Ending::Lf) && ends(Ending::CrLf),
        last == Ending::Lf,
        last == Ending::CrLf,
        last == Ending::Nothing,
        of_kind(UPPER).next().is_none(),
        of_kind(UPPER).any(|line| said(&line)),
        lines[0].kind() == Some(UPPER) && said(&&lines[0]),
        kinds.first() == Some(&false) && kinds.windows(2).any(|two| two == [true, false]),
        of_kind(UPPER).any(|line| ![[0, 0], [0, 0xF0]].iter().any(|upper| line.data() == upper)),
        of_kind(UPPER).any(|line| line.address() != 0),
        of_kind(END_RECORD).any(|line| line.address() != 0),
        data(255),
        data(16),
        data(1),
        data(0),
        of_kind(DATA).any(|line| empty(&line) && !inside(line.first())),
        firsts.len() > 1 && firsts.is_sorted(),
        !firsts.is_sorted(),
        kinds.windows(2).any(|two| two == [true, false]),
        in_giving(&|line| flash(line) && border(line, 64)),
        in_giving(&|line| flash(line) && (line.behind() - 1) / 64 - line.first() / 64 >= 2),
        in_giving(&|line| flash(line) && whole(line, 64)),
        in_giving(&|line| !flash(line) && border(line, 8)),
        in_giving(&|line| !flash(line) && whole(line, 8)),
        in_giving(&|line| line.first() >= 0xFF00 && line.behind() == 0x10000),
        in_touched(&|first, _, by| block(first) && by.len() > 1),
        in_touched(&|first, _, by| block(first) && by.windows(2).any(|pair| pair[0] + 1 < pair[1])),
        in_touched(&|first, _, by| !block(first) && by.len() > 1),
        in_touched(&|first, places, _| block(first) && places == [0]),
        in_touched(&|first, places, _| block(first) && places == [63]),
        in_touched(&|first, places, _| !block(first) && places == [0]),
        in_touched(&|first, places, _| !block(first) && places == [7]),
        cell(0xF00000) == Some(0x00),
        cell(0xF00000) == Some(0xFF),
        cell(0xF00000).is_some_and(|value| ![0x00, 0xFF].contains(&value)),
        touched.contains_key(&0xF00000) && cell(0xF00000).is_none(),
        cell(0xF00026).is_some() != cell(0xF00027).is_some(),
        values.values().any(|&value| value == 0xFF),
        lines.len() > 255,
        text.len() > 65_535,
        lines.len() == 1,
        kinds.contains(&false) && !kinds.contains(&true),
        kinds.contains(&true) && !kinds.contains(&false),
        kinds.contains(&true) && kinds.contains(&false),
        kinds.is_empty(),
    ]
}

/// The rows of the recipe's items and of the lent output.
fn recipe_rows(trial: &HexTrial, recipe: &[u8], cells: usize) -> Vec<&'static str> {
    let count = items(recipe).map_or(0, |places| places.len());
    let mut rows = vec![match count {
        2..=4 => ITEMS[count - 2],
        ..=20 => ITEMS[3],
        ..=1_089 => ITEMS[4],
        _ if cells == 61_440 + 1_024 => ITEMS[5],
        _ if cells == 960 + 128 => ITEMS[6],
        _ => "1090 items",
    }];
    rows.extend(match (trial.module, trial.group) {
        (0x00, 0x00) => Some(NUMBERS[0]),
        (0xFF, 0xFF) => Some(NUMBERS[1]),
        (module, group) if module != group => Some(NUMBERS[2]),
        _ => None,
    });
    rows.push(match trial.room - recipe.len() {
        0 => ROOMS[0],
        1 => ROOMS[1],
        2..=999 => ROOMS[2],
        _ => ROOMS[3],
    });
    if recipe.len() == MOST_RECIPE && trial.room == MOST_RECIPE {
        rows.push(ROOMS[4]);
    }
    rows
}

/// The rows of an accepted text and its recipe.
pub fn good_rows(trial: &HexTrial, recipe: &[u8]) -> Vec<String> {
    let lines = examine(&trial.text);
    let features = features(&trial.text, &lines);
    let found = (0..features.len()).filter(|&row| features[row]);
    let mut rows: Vec<String> = found.map(|row| FEATURES[row].to_string()).collect();
    let giving: Vec<&Line> = lines.iter().filter(|line| line.gives()).collect();
    for cell in OUTERMOST {
        let ends = |line: &&Line| match inside(cell + 1) {
            true => line.first() == cell,
            false => line.behind() == cell + 1,
        };
        if giving.iter().any(ends) {
            rows.push(outermost_row(cell));
        }
        if matches!(giving[..], [line] if line.first() == cell && line.data().len() == 1) {
            rows.push(format!("one cell alone at 0x{cell:06X}"));
        }
    }
    let cells = giving.iter().map(|line| line.data().len()).sum();
    rows.extend(recipe_rows(trial, recipe, cells).iter().map(|row| row.to_string()));
    rows.iter().map(|row| format!("accepted, {row}")).collect()
}
