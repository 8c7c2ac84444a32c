//! The rows of the line that a HEX text is refused at: in which way its digits, lengths, sum, type
//! or cells are at fault, as its bytes show.

use crate::hex::*;
use crate::hex_faults::*;

/// The classes of digits.
const CLASSES: [&str; 5] = ["length", "address", "type", "data", "sum"];
/// Bytes beside the digits, one lower or one higher.
const BESIDE: [(u8, &str); 6] = [
    (b'/', "the byte before 0"),
    (b':', "the byte behind 9"),
    (b'@', "the byte before A"),
    (b'G', "the byte behind F"),
    (b'`', "the byte before a"),
    (b'g', "the byte behind f"),
];
/// Ways in which digits or lengths are bad.
const FORMS: [&str; 30] = [
    "an empty line",
    "a record without its colon",
    "another byte in the colon's place",
    "a digit in the colon's place",
    "a colon alone",
    "fewer than ten digits",
    "one digit too few",
    "one digit too many",
    "a length of one more, sum right",
    "a length of one more, sum wrong",
    "a length of one fewer, sum right",
    "a length of one fewer, sum wrong",
    "256 bytes more than the length",
    "type 01 with data, sum right",
    "type 01 with data, sum wrong",
    "type 04 of no byte",
    "type 04 of one byte",
    "type 04 of three bytes",
    "type 04 of more bytes",
    "type 04 of another length, sum wrong",
    "two colons in front",
    "two records at one line",
    "a blank in front",
    "a blank inside",
    "a blank at the end",
    "a CR inside",
    "CR CR LF",
    "CR at the end of the text",
    "a NUL",
    "a byte of 0x80 or more",
];
/// Ways in which a sum is bad, and of what record.
const SUMS: [&str; 8] = [
    "one more",
    "one fewer",
    "without the share of the length",
    "not taken from 0",
    "of type 00 with data",
    "of type 00 without data",
    "of type 01",
    "of type 04",
];
/// Other types.
const TYPES: [(u8, &str); 5] =
    [(0x02, "02"), (0x03, "03"), (0x05, "05"), (0x06, "06"), (0xFF, "FF")];
/// The borders of the legal areas: the first cell inside, or the first behind.
const BORDERS: [u64; 4] = [0x001000, 0x010000, 0xF00000, 0xF00400];
/// Cells that are outside, alone.
const ALONE: [u64; 6] = [0x000FFF, 0x010000, 0xEFFFFF, 0xF00400, 0x000000, 0xFFFFFFFF];
const OTHERS_OUTSIDE: [&str; 6] = [
    "past 0xFFFFFFFF",
    "legal but for the top byte",
    "legal in FLASH but for the upper half",
    "a FLASH address under EEPROM's upper half",
    "an EEPROM place under the upper half 0",
    "far from both areas",
];
const TWICES: [&str; 11] = [
    "the same value",
    "another value",
    "0xFF both times",
    "a record again",
    "its first cell alone",
    "its last cell alone",
    "given by the line before",
    "given by a line further up",
    "in FLASH",
    "in EEPROM",
    "BOOTFL",
];
const ENDS: [&str; 4] =
    ["a second end", "a record with data", "a type 04", "a record without data"];

/// Every row of a line that a stream ought to reach.
pub fn wanted() -> Vec<String> {
    let mut rows = Vec::new();
    rows.extend(FORMS.map(|form| format!("30 {form}")));
    rows.extend(CLASSES.map(|class| format!("30 a bad digit in the {class}")));
    rows.extend(BESIDE.map(|(_, name)| format!("30 a bad digit, {name}")));
    rows.extend(SUMS.map(|sum| format!("31 {sum}")));
    rows.extend(TYPES.map(|(_, name)| format!("32 type {name}")));
    rows.extend(["another type", "with data", "without data"].map(|row| format!("32 {row}")));
    rows.extend(ALONE.map(|cell| format!("33 one cell at 0x{cell:06X}")));
    for border in BORDERS {
        for what in ["one cell outside", "one cell inside", "more on both sides"] {
            rows.push(format!("33 over the border at 0x{border:06X}, {what}"));
        }
        rows.push(format!("33 beside the border at 0x{border:06X}, all outside"));
    }
    rows.extend(OTHERS_OUTSIDE.map(|row| format!("33 {row}")));
    rows.extend(TWICES.map(|row| format!("34 {row}")));
    rows.extend(ENDS.map(|row| format!("35 early, {row}")));
    rows.extend(["an empty line", "junk"].map(|row| format!("30 behind the end, {row}")));
    rows
}

/// The ways in which a line of digits alone behind a colon has bad lengths.
fn length_rows(line: &Line) -> Vec<&'static str> {
    let digits = line.content.len() - 1;
    if digits == 0 {
        return vec!["a colon alone"];
    }
    let (high, low) = (digit(line.content[1]), line.content.get(2).and_then(|&byte| digit(byte)));
    let wanted = high.zip(low).map(|(high, low)| 2 * (high as usize * 16 + low as usize + 5));
    let mut rows = Vec::new();
    if digits < 10 {
        rows.push("fewer than ten digits");
    }
    if wanted == Some(digits + 1) {
        rows.push("one digit too few");
    }
    if wanted.is_some_and(|wanted| wanted + 1 == digits) {
        rows.push("one digit too many");
    }
    let Some(bytes) = line.bytes.as_ref().filter(|bytes| bytes.len() >= FRAME_BYTES) else {
        return rows;
    };
    let (length, data) = (bytes[0] as usize, line.data().len());
    let sum_right = !line.faults.contains(&BAD_SUM);
    match (length, data) {
        _ if length == data + 1 && sum_right => rows.push("a length of one more, sum right"),
        _ if length == data + 1 => rows.push("a length of one more, sum wrong"),
        _ if length + 1 == data && sum_right => rows.push("a length of one fewer, sum right"),
        _ if length + 1 == data => rows.push("a length of one fewer, sum wrong"),
        _ if length + 256 == data => rows.push("256 bytes more than the length"),
        _ if length != data => {}
        _ if bytes[3] == END_RECORD && sum_right => rows.push("type 01 with data, sum right"),
        _ if bytes[3] == END_RECORD => rows.push("type 01 with data, sum wrong"),
        _ if !sum_right => rows.push("type 04 of another length, sum wrong"),
        (0, _) => rows.push("type 04 of no byte"),
        (1, _) => rows.push("type 04 of one byte"),
        (3, _) => rows.push("type 04 of three bytes"),
        _ => rows.push("type 04 of more bytes"),
    }
    rows
}

/// The ways in which a line that isn't digits alone behind a colon is bad.
fn byte_rows(line: &Line) -> Vec<String> {
    let content = line.content;
    let mut rows: Vec<String> = Vec::new();
    let with_colon = |rest: &[u8]| is_record(&[b":", rest].concat());
    let blank = |byte: &u8| [b' ', b'\t'].contains(byte);
    let found = [
        ("a record without its colon", with_colon(content)),
        (
            "another byte in the colon's place",
            digit(content[0]).is_none() && content[0] != b':' && with_colon(&content[1..]),
        ),
        ("a digit in the colon's place", digit(content[0]).is_some() && with_colon(&content[1..])),
        ("two colons in front", content[0] == b':' && is_record(&content[1..])),
        ("a blank in front", blank(&content[0]) && is_record(&content[1..])),
        ("CR CR LF", content.ends_with(b"\r") && line.ending == Ending::CrLf),
        ("CR at the end of the text", content.ends_with(b"\r") && line.ending == Ending::Nothing),
        ("a CR inside", content[..content.len() - 1].contains(&b'\r')),
        ("a NUL", content.contains(&0x00)),
        ("a byte of 0x80 or more", content.iter().any(|&byte| byte >= 0x80)),
    ];
    rows.extend(found.iter().filter(|(_, holds)| *holds).map(|(row, _)| row.to_string()));
    let bad = |at: &usize| digit(content[*at]).is_none();
    let bad: Vec<usize> = (1..content.len()).filter(bad).collect();
    let [at] = bad[..] else { return rows };
    if content[0] != b':' {
        return rows;
    }
    let without = [&content[..at], &content[at + 1..]].concat();
    let mended = |digit: u8| {
        let mut line = content.to_vec();
        line[at] = digit;
        is_record(&line)
    };
    if blank(&content[at]) && is_record(&without) {
        let row = if at + 1 == content.len() { "a blank at the end" } else { "a blank inside" };
        rows.push(row.to_string());
    }
    if content[at] == b':' && is_record(&content[..at]) && is_record(&content[at..]) {
        rows.push("two records at one line".to_string());
    }
    // A digit in its place makes a record of it: one whose length says so where it is the length.
    if b"0123456789ABCDEF".iter().any(|&digit| mended(digit)) {
        let class = match at {
            1..=2 => 0,
            3..=6 => 1,
            7..=8 => 2,
            _ if at + 2 < content.len() => 3,
            _ => 4,
        };
        rows.push(format!("a bad digit in the {}", CLASSES[class]));
        let beside = BESIDE.iter().find(|(byte, _)| *byte == content[at]);
        rows.extend(beside.map(|(_, name)| format!("a bad digit, {name}")));
    }
    rows
}

/// The rows of a line with bad digits or lengths.
fn form_rows(line: &Line) -> Vec<String> {
    let content = line.content;
    let digits_alone =
        content.starts_with(b":") && content[1..].iter().all(|&byte| digit(byte).is_some());
    let mut rows = match content {
        [] => vec!["an empty line".to_string()],
        _ if digits_alone => length_rows(line).iter().map(|row| row.to_string()).collect(),
        _ => byte_rows(line),
    };
    if line.behind_end {
        rows.push(match content {
            [] => "behind the end, an empty line".to_string(),
            _ if !content.contains(&b':') => "behind the end, junk".to_string(),
            _ => "behind the end, more".to_string(),
        });
    }
    rows
}

/// The rows of a line with a bad sum.
fn sum_rows(line: &Line) -> Vec<&'static str> {
    let bytes = line.bytes.as_ref().expect("a record");
    let (sum, others) = bytes.split_last().expect("a sum");
    let plain = others.iter().fold(0u8, |sum, &byte| sum.wrapping_add(byte));
    let found = [
        sum.wrapping_add(plain) == 1,
        sum.wrapping_add(plain) == 255,
        sum.wrapping_add(plain) == bytes[0],
        *sum == plain,
        bytes[3] == DATA && bytes[0] > 0,
        bytes[3] == DATA && bytes[0] == 0,
        bytes[3] == END_RECORD,
        bytes[3] == UPPER,
    ];
    (0..found.len()).filter(|&row| found[row]).map(|row| SUMS[row]).collect()
}

/// The rows of a line of another type.
fn type_rows(line: &Line) -> Vec<String> {
    let named = TYPES.iter().find(|(kind, _)| line.kind() == Some(*kind));
    let kind = named.map_or("another type".to_string(), |(_, name)| format!("type {name}"));
    let data = if line.data().is_empty() { "without data" } else { "with data" };
    vec![kind, data.to_string()]
}

/// The rows of a line with cells outside the legal areas.
fn outside_rows(line: &Line) -> Vec<String> {
    let (first, behind) = (line.first(), line.behind());
    let mut rows = Vec::new();
    if behind == first + 1 && ALONE.contains(&first) {
        rows.push(format!("one cell at 0x{first:06X}"));
    }
    for border in BORDERS {
        let begins = inside(border);
        let name = format!("the border at 0x{border:06X}");
        if first < border && border < behind {
            let (below, above) = (border - first, behind - border);
            let (outside, inside) = if begins { (below, above) } else { (above, below) };
            if outside == 1 {
                rows.push(format!("over {name}, one cell outside"));
            }
            if inside == 1 {
                rows.push(format!("over {name}, one cell inside"));
            }
            if outside > 1 && inside > 1 {
                rows.push(format!("over {name}, more on both sides"));
            }
        } else if (begins && behind == border) || (!begins && first == border) {
            rows.push(format!("beside {name}, all outside"));
        }
    }
    let all_outside = (first..behind).all(|cell| !inside(cell));
    let found = [
        first <= 0xFFFF_FFFF && behind > 0x1_0000_0000,
        first > 0xFF_FFFF && inside(first & 0xFF_FFFF),
        line.upper != 0 && line.upper != 0x00F0 && inside(line.address() as u64),
        line.upper == 0x00F0 && inside(line.address() as u64),
        line.upper == 0 && behind <= 0x400,
        all_outside && first > 0xFF_FFFF && !inside(first & 0xFF_FFFF),
    ];
    let found = (0..found.len()).filter(|&row| found[row]);
    rows.extend(found.map(|row| OTHERS_OUTSIDE[row].to_string()));
    rows
}

/// The rows of a line with cells that were given before; the line has this index.
fn twice_rows(line: &Line, index: usize) -> Vec<&'static str> {
    let data = line.data();
    let again = &line.again;
    let (alone, last) = (again.len() == 1 && data.len() > 1, data.len() - 1);
    let same = |again: &Again| data[again.at] == again.value;
    let found = [
        again.iter().all(same),
        again.iter().any(|again| !same(again)),
        again.iter().any(|again| data[again.at] == 0xFF && again.value == 0xFF),
        again.len() == data.len() && data.len() > 1,
        alone && again[0].at == 0,
        alone && again[0].at == last,
        again.iter().any(|again| again.line + 1 == index),
        again.iter().any(|again| again.line + 1 < index),
        line.first() <= 0xFFFF,
        line.first() >= 0xF00000,
        again.iter().any(|again| line.first() + again.at as u64 == 0xF00000),
    ];
    (0..found.len()).filter(|&row| found[row]).map(|row| TWICES[row]).collect()
}

/// The row of a good line behind an end record.
fn end_row(line: &Line) -> &'static str {
    match line.kind() {
        Some(END_RECORD) => ENDS[0],
        Some(UPPER) => ENDS[2],
        _ if line.data().is_empty() => ENDS[3],
        _ => ENDS[1],
    }
}

/// The rows of the line that decides, which has this index.
pub fn line_rows(line: &Line, index: usize) -> Vec<String> {
    let number = line.faults[0];
    let texts = |rows: Vec<&str>| rows.iter().map(|row| row.to_string()).collect();
    let rows: Vec<String> = match number {
        BAD_FORM => form_rows(line),
        BAD_SUM => texts(sum_rows(line)),
        OTHER_TYPE => type_rows(line),
        OUTSIDE => outside_rows(line),
        TWICE => texts(twice_rows(line, index)),
        _ => vec![format!("early, {}", end_row(line))],
    };
    rows.iter().map(|row| format!("{number} {row}")).collect()
}
