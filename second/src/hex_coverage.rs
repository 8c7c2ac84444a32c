//! Counts what the HEX texts of a stream come to, as the texts themselves show.

use crate::hex::{self, Refusal, END, MOST_RECIPE, OUTSIDE, SHORT_OUTPUT, TWICE};
use crate::hex_faults::{examine, inside, verdict, Ending, Line};
use crate::hex_good_rows::{self, good_rows};
use crate::hex_line_rows::{self, line_rows};
use crate::hex_stream::{read, HexTrial};
use crate::row_counts;
use std::io::{self, Write};

/// Two checks that fail at one line: of those from 30 to 34 each pair, where both can be looked at,
/// and each of them behind an end record.
const PAIRS: [(u8, u8); 13] = [
    (30, 31),
    (30, 32),
    (31, 32),
    (31, 33),
    (31, 34),
    (32, 33),
    (32, 34),
    (33, 34),
    (30, 35),
    (31, 35),
    (32, 35),
    (33, 35),
    (34, 35),
];

/// Rows of refusals that the number and the line alone don't tell.
const OTHERS: [&str; 15] = [
    "33 before 34, the cell given twice first",
    "33 before 34, the cell outside first",
    "34 in a text of all cells",
    "35 missing, empty text",
    "35 missing, the last line ends in LF",
    "35 missing, the last line ends in CR LF",
    "35 missing, the last line ends in nothing",
    "35 early, the last line",
    "35 early, more lines behind it",
    "26 one byte short",
    "26 no output",
    "26 one to three bytes of output",
    "26 one byte short for the longest recipe",
    "refused at a line above 255",
    "refused at a line above 4096",
];

/// Every row that a stream ought to reach. No cell is given before the first line, so that 34 isn't
/// there, and 35 is there only for an empty text.
fn wanted() -> Vec<String> {
    let mut rows = Vec::new();
    for number in 30..=34 {
        let places: &[&str] = match number {
            TWICE => &["middle", "last"],
            _ => &["only", "first", "middle", "last"],
        };
        rows.extend(places.iter().map(|place| format!("{number} {place} line")));
    }
    rows.extend((30..=35).map(|number| format!("{number} alone")));
    rows.extend(PAIRS.map(|(first, then)| format!("{first} before {then}")));
    rows.extend((31..=35).map(|number| format!("{number}, a lower number further down")));
    rows.extend((30..=34).map(|number| format!("{number}, a higher number further down")));
    rows.extend((30..=34).map(|number| format!("{number}, the end missing too")));
    rows.extend((30..=35).map(|number| format!("{number}, no output")));
    rows.extend(OTHERS.iter().map(|row| row.to_string()));
    rows.extend(hex_line_rows::wanted());
    rows.extend(hex_good_rows::wanted());
    rows
}

/// The rows of the line of this index, the first that is at fault.
fn bad_line(lines: &[Line], index: usize) -> Vec<String> {
    let line = &lines[index];
    let number = line.faults[0];
    let place = match index {
        0 if lines.len() == 1 => "only",
        0 => "first",
        _ if index + 1 == lines.len() => "last",
        _ => "middle",
    };
    let mut rows = match (number, place) {
        (END, "last") => vec!["35 early, the last line".to_string()],
        (END, _) => vec!["35 early, more lines behind it".to_string()],
        _ => vec![format!("{number} {place} line")],
    };
    if line.faults.len() == 1 {
        rows.push(format!("{number} alone"));
    }
    rows.extend(line.faults[1..].iter().map(|then| format!("{number} before {then}")));
    if number == OUTSIDE && line.faults.contains(&TWICE) {
        let outside = (line.first()..line.behind()).position(|cell| !inside(cell));
        let twice_first = outside.is_some_and(|outside| line.again[0].at < outside);
        let first =
            if twice_first { "the cell given twice first" } else { "the cell outside first" };
        rows.push(format!("33 before 34, {first}"));
    }
    let cells: usize = lines.iter().filter(|line| line.gives()).map(|line| line.data().len()).sum();
    if number == TWICE && cells == 61_440 + 1_024 {
        rows.push("34 in a text of all cells".to_string());
    }
    let further: Vec<u8> =
        lines[index + 1..].iter().filter_map(|line| line.faults.first().copied()).collect();
    if further.iter().any(|&other| other < number) {
        rows.push(format!("{number}, a lower number further down"));
    }
    if further.iter().any(|&other| other > number) {
        rows.push(format!("{number}, a higher number further down"));
    }
    let ends = |line: &Line| line.faults.is_empty() && line.kind() == Some(hex::END_RECORD);
    if !lines.iter().any(ends) {
        rows.push(format!("{number}, the end missing too"));
    }
    rows.extend(line_rows(line, index));
    rows
}

/// The rows of a text refused at a line, or behind the last one.
fn refused(trial: &HexTrial, lines: &[Line], number: u8, line: usize) -> Vec<String> {
    let mut rows = match lines.get(line - 1) {
        Some(_) => bad_line(lines, line - 1),
        None => vec![match lines.last().map(|line| line.ending) {
            None => "35 missing, empty text".to_string(),
            Some(Ending::Lf) => "35 missing, the last line ends in LF".to_string(),
            Some(Ending::CrLf) => "35 missing, the last line ends in CR LF".to_string(),
            Some(Ending::Nothing) => "35 missing, the last line ends in nothing".to_string(),
        }],
    };
    if trial.room == 0 {
        rows.push(format!("{number}, no output"));
    }
    for above in [255, 4_096] {
        if line > above {
            rows.push(format!("refused at a line above {above}"));
        }
    }
    rows
}

/// The rows of a text for which the lent output is too short.
fn short_output(trial: &HexTrial) -> Vec<String> {
    let recipe = hex::read(&trial.text, trial.module, trial.group, MOST_RECIPE);
    let needed = recipe.expect("only the output is short").len();
    let found = [
        ("26 one byte short", trial.room + 1 == needed),
        ("26 no output", trial.room == 0),
        ("26 one to three bytes of output", (1..4).contains(&trial.room)),
        (
            "26 one byte short for the longest recipe",
            trial.room + 1 == needed && needed == MOST_RECIPE,
        ),
    ];
    found.iter().filter(|(_, holds)| *holds).map(|(row, _)| row.to_string()).collect()
}

/// The rows of a text.
fn rows(trial: &HexTrial) -> Vec<String> {
    match hex::read(&trial.text, trial.module, trial.group, trial.room) {
        Ok(recipe) => good_rows(trial, &recipe),
        Err(Refusal { number: SHORT_OUTPUT, .. }) => short_output(trial),
        Err(_) => {
            let lines = examine(&trial.text);
            let found = verdict(&lines);
            found.map_or(vec![], |(number, line)| refused(trial, &lines, number, line))
        }
    }
}

/// Prints the table of counts; gives the rows that were never reached.
pub fn hex_coverage(stream: &[u8], out: &mut impl Write) -> io::Result<Vec<String>> {
    let trials = read(stream);
    row_counts::tell(trials.len(), "texts", trials.iter().flat_map(rows), wanted(), out)
}
