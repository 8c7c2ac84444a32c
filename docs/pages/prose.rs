//! A page of docs/: its sections, paragraphs and tables, and the `quoted` words in them.

/// Words between backticks, and their line.
#[derive(Clone, Debug, PartialEq, Eq)]
pub struct Span {
    pub line: usize,
    pub text: String,
}

pub struct Row {
    pub line: usize,
    pub cells: Vec<String>,
}

pub enum Part {
    Heading(String),
    Paragraph { line: usize, text: String },
    Table { header: Vec<String>, rows: Vec<Row> },
}

/// The parts of a page; blocks of code are left out.
pub fn parts(text: &str) -> Vec<Part> {
    let mut found: Vec<Part> = Vec::new();
    let mut fenced = false;
    let mut open = false;
    for (i, line) in text.lines().enumerate() {
        let number = i + 1;
        if line.starts_with("```") {
            fenced = !fenced;
            open = false;
            continue;
        }
        if fenced || line.trim().is_empty() || (line.starts_with("    ") && !open) {
            open = false;
            continue;
        }
        if line.starts_with('#') {
            found.push(Part::Heading(line.to_string()));
            open = false;
        } else if line.starts_with('|') {
            let row = Row { line: number, cells: cells(line) };
            match found.last_mut() {
                Some(Part::Table { rows, .. }) if open => rows.push(row),
                _ => found.push(Part::Table { header: row.cells, rows: Vec::new() }),
            }
            open = true;
        } else {
            match found.last_mut() {
                Some(Part::Paragraph { text, .. }) if open => {
                    text.push('\n');
                    text.push_str(line);
                }
                _ => found.push(Part::Paragraph { line: number, text: line.to_string() }),
            }
            open = true;
        }
    }
    for part in &mut found {
        if let Part::Table { rows, .. } = part {
            rows.retain(|r| {
                !r.cells.iter().all(|c| !c.is_empty() && c.chars().all(|x| matches!(x, '-' | ':')))
            });
        }
    }
    found
}

/// The cells of a table's row; a `|` between backticks or behind `\\` is none of its borders.
fn cells(line: &str) -> Vec<String> {
    let mut found = vec![String::new()];
    let mut quoted = false;
    let mut before = ' ';
    for c in line.trim().chars() {
        if c == '`' {
            quoted = !quoted;
        }
        let border = c == '|' && !quoted && before != '\\';
        before = c;
        if border {
            found.push(String::new());
        } else if let Some(last) = found.last_mut() {
            last.push(c);
        }
    }
    let inner = found.len().saturating_sub(1);
    found[1.min(inner)..inner].iter().map(|c| c.trim().to_string()).collect()
}

/// What stands between backticks in a text that begins at a line.
pub fn spans(text: &str, line: usize) -> Vec<Span> {
    let mut found = Vec::new();
    let mut at = line;
    for (i, piece) in text.split('`').enumerate() {
        if i % 2 == 1 {
            found.push(Span {
                line: at,
                text: piece.split_whitespace().collect::<Vec<_>>().join(" "),
            });
        }
        at += piece.matches('\n').count();
    }
    found
}

/// The paths of files of crates/ in a text: `node/proofs/Calls.antt`, and behind it `, Other.antt` of the same folder.
pub fn paths(text: &str) -> Vec<String> {
    let mut found = Vec::new();
    let mut folder = String::new();
    let apart = |c: char| c.is_whitespace() || matches!(c, '`' | ',' | '(' | ')' | ';' | ':' | '|');
    for word in text.split(apart) {
        let word = word.trim_end_matches('.');
        let word = word.strip_prefix("crates/").unwrap_or(word);
        if !(word.ends_with(".antt") || word.ends_with(".rt")) {
            continue;
        }
        match word.rsplit_once('/') {
            Some((before, _)) => {
                folder = format!("{before}/");
                found.push(word.to_string());
            }
            None => found.push(format!("{folder}{word}")),
        }
    }
    found
}

#[cfg(test)]
mod tests {
    use super::*;

    #[test]
    fn tables_and_paragraphs() {
        let page = "# T\n\nsome `a\nb` and `c`\n\n    code `x`\n\n| A | B |\n|---|---|\n| `p|q` | r |\n| s | |\n";
        let parts = parts(page);
        assert_eq!(parts.len(), 3);
        match &parts[1] {
            Part::Paragraph { line, text } => {
                assert_eq!(
                    spans(text, *line),
                    [Span { line: 3, text: "a b".into() }, Span { line: 4, text: "c".into() }]
                );
            }
            _ => panic!("no paragraph"),
        }
        match &parts[2] {
            Part::Table { header, rows } => {
                assert_eq!(header, &["A", "B"]);
                assert_eq!(rows.len(), 2);
                assert_eq!(rows[0].cells, ["`p|q`", "r"]);
                assert_eq!(rows[1].cells, ["s", ""]);
                assert_eq!(rows[0].line, 10);
            }
            _ => panic!("no table"),
        }
    }

    #[test]
    fn files() {
        let text = "a/proofs/B.antt, C.antt (see crates/d/specs/E.antt).";
        assert_eq!(paths(text), ["a/proofs/B.antt", "a/proofs/C.antt", "d/specs/E.antt"]);
    }
}
