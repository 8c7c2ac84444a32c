//! docs/INDEX.md: every sentence of document 01 beside what answers it; docs/AMENDMENTS.md: the same of each request that has landed.
//! Checked are their names, the quotations in the comments of crates/, and, where a document is at hand, that no sentence of it, or of the
//! request, is missing.

use crate::answers::theorems;
use crate::antt::Kind;
use crate::hash::sha256;
use crate::prose::{parts, spans, Part};
use crate::repo::{is_proof, Repo};
use crate::words::{is_name, Known};
use std::path::Path;

/// Checks the index and the quotations. `protocol` is what second/PROTOCOL.md says, which a few comments quote; `documents` is the folder
/// of the source documents, which need not be there.
pub fn check(
    repo: &Repo,
    root: &Path,
    pages: [&str; 4],
    documents: &Path,
) -> Result<String, Vec<String>> {
    let [index, amendments, sources, protocol] = pages;
    let mut faults = names(repo, root, "docs/INDEX.md", index);
    faults.extend(names(repo, root, "docs/AMENDMENTS.md", amendments));
    let quoted = Quoted::of(&[index, amendments, sources]).with(protocol);
    let mut count = 0;
    for (file, text) in repo.texts.iter().filter(|(f, _)| !is_proof(f)) {
        let mark = if file.ends_with(".rt") { "//" } else { "--" };
        for (line, quotation) in quotations(text, mark) {
            count += 1;
            if !quoted.has(&quotation) {
                faults.push(format!(
                    "crates/{file}:{line}: no document is known to say \"{quotation}\""
                ));
            }
        }
    }
    let mut said = vec![format!("{count} quotations in comments: each is in docs/INDEX.md, docs/AMENDMENTS.md, docs/SOURCES.md or second/PROTOCOL.md")];
    for source in listed(sources) {
        let Ok(bytes) = std::fs::read(documents.join(&source.file)) else {
            said.push(format!("{}: not at hand, not looked at", source.file));
            continue;
        };
        if sha256(&bytes) != source.hash {
            said.push(format!(
                "{}: another version than docs/SOURCES.md names, not looked at",
                source.file
            ));
            continue;
        }
        let text = String::from_utf8_lossy(&bytes).into_owned();
        let before = faults.len();
        if source.whole {
            let has = Quoted::of(&[index]);
            let lacking = sentences(&text).into_iter().filter(|s| !has.has(s));
            faults.extend(lacking.map(|s| format!("docs/INDEX.md lacks of {}: {s}", source.file)));
        }
        let has = Quoted::of(&[amendments]);
        for request in requests(amendments) {
            let lacking = asked(&text, &request).into_iter().filter(|s| !has.has(s));
            faults.extend(lacking.map(|s| format!("docs/AMENDMENTS.md lacks of {request}: {s}")));
        }
        let whole = Quoted::default().with(&text);
        let made_up = fragments(sources, &source.name).into_iter().filter(|f| !whole.has(f));
        faults.extend(
            made_up.map(|f| format!("docs/SOURCES.md: {} does not say \"{f}\"", source.file)),
        );
        said.push(format!("{}: looked at, {} wrong", source.file, faults.len() - before));
    }
    if faults.is_empty() {
        Ok(said.join("\n") + "\n")
    } else {
        Err(faults)
    }
}

/// What is wrong with the names that a page quotes: one that no file has, or that is no theorem, no definition or no code though
/// it stands in that column.
fn names(repo: &Repo, root: &Path, page: &str, text: &str) -> Vec<String> {
    let known = Known::of(repo);
    let mut faults = Vec::new();
    for part in parts(text) {
        let Part::Table { header, rows } = part else { continue };
        for row in rows {
            let at = format!("{page}:{}", row.line);
            if row.cells.len() != header.len() {
                faults.push(format!(
                    "{at}: {} cells below {} columns",
                    row.cells.len(),
                    header.len()
                ));
            }
            for (column, cell) in header.iter().zip(&row.cells).skip(1) {
                for span in spans(cell, row.line) {
                    if let Some(fault) = known.fault(root, &span.text) {
                        faults.push(format!("{at}: {fault}"));
                    } else if is_name(&span.text)
                        && known.has(&span.text)
                        && !fits(repo, column, &span.text)
                    {
                        faults.push(format!(
                            "{at}: `{}` is no {}",
                            span.text,
                            column.to_lowercase()
                        ));
                    }
                }
            }
        }
    }
    faults
}

/// Whether a name is what its column says.
fn fits(repo: &Repo, column: &str, name: &str) -> bool {
    let coded = || {
        repo.code
            .values()
            .flat_map(|c| &c.items)
            .any(|i| i.name == name || i.parts.iter().any(|p| p == name))
    };
    let told = || {
        let all = repo.antt.iter().flat_map(|(f, p)| p.declarations.iter().map(move |d| (f, d)));
        let mut own = all.filter(|(_, d)| d.name == name || d.parts.iter().any(|p| p == name));
        own.any(|(f, d)| !is_proof(f) || d.kind != Kind::Plain)
    };
    match column {
        "Theorem" => !theorems(repo, name).is_empty(),
        "Code" => coded(),
        _ => told() || coded(),
    }
}

/// A document of docs/SOURCES.md: its short name, file and hash, and whether the index has every sentence of it.
struct Source {
    name: String,
    file: String,
    hash: String,
    whole: bool,
}

fn listed(sources: &str) -> Vec<Source> {
    let mut found = Vec::new();
    for part in parts(sources) {
        if let Part::Table { header, rows } = part {
            let column = |name: &str| header.iter().position(|h| h == name);
            let columns = (column("Document"), column("Used"), column("File"), column("SHA-256"));
            let (Some(name), Some(used), Some(file), Some(hash)) = columns else { continue };
            found.extend(rows.iter().map(|r| Source {
                name: r.cells[name].clone(),
                file: r.cells[file].clone(),
                hash: r.cells[hash].clone(),
                whole: r.cells[used] == "all",
            }));
        }
    }
    found
}

/// The requests that a page has a section of, by their short names: of "## A1. UART in pieces" it is "A1".
fn requests(page: &str) -> Vec<String> {
    let titles = parts(page).into_iter().filter_map(|p| match p {
        Part::Heading(title) => Some(title),
        _ => None,
    });
    titles.filter_map(|t| Some(t.strip_prefix("## ")?.split_once(". ")?.0.to_string())).collect()
}

/// The sentences of a request in a document: those of the paragraph that begins with its name.
fn asked(text: &str, request: &str) -> Vec<String> {
    let begin = format!("**{request}. ");
    let own = parts(text).into_iter().filter_map(|p| match p {
        Part::Paragraph { text, .. } if text.starts_with(&begin) => Some(text),
        _ => None,
    });
    own.flat_map(|p| sentences(&p.replace("**", ""))).collect()
}

/// The fragments that docs/SOURCES.md has of a document.
fn fragments(sources: &str, name: &str) -> Vec<String> {
    let mut found = Vec::new();
    for part in parts(sources) {
        if let Part::Table { header, rows } = part {
            if header.first().is_some_and(|h| h == "Fragment") {
                let own = rows.iter().filter(|r| r.cells.get(1).is_some_and(|c| c == name));
                found.extend(own.map(|r| r.cells[0].clone()));
            }
        }
    }
    found
}

/// What documents say, one behind the other.
#[derive(Default)]
pub struct Quoted {
    text: String,
}

impl Quoted {
    /// The quoted sentences and fragments of some pages, and the titles above them.
    pub fn of(pages: &[&str]) -> Quoted {
        let mut quoted = Quoted::default();
        for part in pages.iter().flat_map(|p| parts(p)) {
            match part {
                Part::Heading(title) => quoted = quoted.with(&title),
                Part::Table { header, rows }
                    if matches!(header[0].as_str(), "Sentence" | "Fragment") =>
                {
                    for row in rows {
                        quoted = quoted.with(row.cells.first().map_or("", String::as_str));
                    }
                }
                _ => {}
            }
        }
        quoted
    }

    /// With this text behind.
    pub fn with(mut self, text: &str) -> Quoted {
        self.text.push_str(&plain(text));
        self.text.push(' ');
        self
    }

    /// Whether a quotation is there: its pieces between `..`, one behind the other.
    pub fn has(&self, quotation: &str) -> bool {
        let mut from = 0;
        for piece in quotation.split("..").map(plain) {
            let piece = piece
                .trim_matches(|c: char| c.is_whitespace() || matches!(c, '.' | ',' | ';' | ':'));
            match self.text[from..].find(piece) {
                Some(at) => from += at + piece.len(),
                None => return false,
            }
        }
        true
    }
}

/// A text without what marks it, with one blank between words.
fn plain(text: &str) -> String {
    let bare = text.chars().filter(|c| !matches!(c, '*' | '`' | '"' | '\\'));
    let bare: String = bare.map(|c| if c == '|' { ' ' } else { c }).collect();
    bare.split_whitespace().collect::<Vec<_>>().join(" ")
}

/// What the comments of a file quote, with the line where the comment begins; a quotation may run over lines.
pub fn quotations(text: &str, mark: &str) -> Vec<(usize, String)> {
    let mut blocks: Vec<(usize, String)> = Vec::new();
    let mut open = false;
    for (i, line) in text.lines().enumerate() {
        let comment = line.trim_start().strip_prefix(mark);
        match (comment, blocks.last_mut()) {
            (Some(c), Some((_, block))) if open => {
                block.push(' ');
                block.push_str(c.trim());
            }
            (Some(c), _) => blocks.push((i + 1, c.trim().to_string())),
            (None, _) => {}
        }
        open = comment.is_some();
    }
    let mut found = Vec::new();
    for (line, block) in blocks {
        for piece in block.split('"').skip(1).step_by(2) {
            found.push((line, piece.to_string()));
        }
    }
    found
}

/// The sentences, points and table rows of a document.
pub fn sentences(text: &str) -> Vec<String> {
    let mut found = Vec::new();
    for part in parts(text) {
        match part {
            Part::Heading(_) => {}
            Part::Table { rows, .. } => found.extend(rows.iter().map(|r| r.cells.join(" "))),
            Part::Paragraph { text, .. } => {
                for point in text.split("\n- ") {
                    found.extend(split(point.strip_prefix("- ").unwrap_or(point)));
                }
            }
        }
    }
    found
}

/// A paragraph's sentences: each ends with a point (and a bracket), behind which a blank and a capital, a digit or a mark begins another.
fn split(text: &str) -> Vec<String> {
    let chars: Vec<char> = text.split_whitespace().collect::<Vec<_>>().join(" ").chars().collect();
    let mut found = Vec::new();
    let mut from = 0;
    for i in 0..chars.len() {
        let next = chars.get(i + 1).copied();
        let begins = chars.get(i + 2).is_some_and(|c| {
            c.is_uppercase() || c.is_ascii_digit() || matches!(c, '`' | '*' | '(' | '"')
        });
        if chars[i] == '.' && next == Some(' ') && begins {
            found.push(chars[from..=i].iter().collect());
            from = i + 2;
        }
    }
    found.push(chars[from..].iter().collect());
    found
}

#[cfg(test)]
mod tests {
    use super::*;

    #[test]
    fn quotations_run_over_lines_and_may_elide() {
        let text =
            "-- a \"first one\", and \"a second\n-- one .. here\"\nx : \"no\"\n// -- \"n\"\n";
        let found: Vec<String> = quotations(text, "--").into_iter().map(|(_, q)| q).collect();
        assert_eq!(found, ["first one", "a second one .. here"]);
        let rows = "| The *first* one. And `a` second one, | x |\n| not there but here. | y |\n";
        let quoted = Quoted::of(&[&format!("| Sentence | D |\n|---|---|\n{rows}")]);
        assert!(quoted.has("first one"));
        assert!(quoted.has("a second one .. here"));
        assert!(!quoted.has("here .. a second one"));
        assert!(!quoted.has("a third one"));
    }

    #[test]
    fn names_fit_their_columns() {
        let mut repo = Repo::default();
        repo.add("x/src/lib.rt".into(), "pub fn f(a: u8) -> u8 {\n    a\n}\n".into());
        repo.add("x/specs/S.antt".into(), "abbrev pub one : ℕ\none = 1\n".into());
        repo.add("x/proofs/P.antt".into(), "pub holds : one ≡ 1\nholds = refl\n".into());
        let head = "| Sentence | Definition | Code | Theorem |\n|---|---|---|---|\n";
        let faults =
            |row: &str| names(&repo, Path::new("/nowhere"), "page", &format!("{head}{row}")).len();
        assert_eq!(faults("| s | `one` | `f` | `holds` |\n"), 0);
        assert_eq!(faults("| s | `holds` | `one` | `f` |\n"), 3);
        assert_eq!(faults("| s | `two` | | |\n"), 1);
    }

    #[test]
    fn a_request_is_quoted_whole() {
        let page =
            "# T\n\n## A1. One thing\n\n| Sentence | D |\n|---|---|\n| Do it. | x |\n\n## Other\n";
        let document = "# R\n\n**A1. One thing.** Do it. Do that.\n\n**A2. Another.** No.\n";
        assert_eq!(requests(page), ["A1"]);
        let has = Quoted::of(&[page]);
        let lacking: Vec<String> =
            asked(document, "A1").into_iter().filter(|s| !has.has(s)).collect();
        assert_eq!(lacking, ["Do that."]);
    }

    #[test]
    fn a_documents_sentences() {
        let text = "# T\n\nOne is 0x10. Two (so.) *Three:* four.\n\n- five. Six\n- seven\n\n| A | B |\n|---|---|\n| c | d |\n";
        assert_eq!(
            sentences(text),
            ["One is 0x10.", "Two (so.) *Three:* four.", "five.", "Six", "seven", "c d"]
        );
    }
}
