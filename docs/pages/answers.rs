//! docs/ANSWERS.md: the theorems that it cites, and what is wrong with the names that it quotes.

use crate::prose::{parts, paths, spans, Part, Row, Span};
use crate::repo::{is_proof, Repo, Thing};
use crate::words::{is_name, Known};
use std::collections::BTreeSet;
use std::path::Path;

/// A theorem that is cited: its place, and the numbers of her questions under which it is (none: elsewhere on the page).
#[derive(Clone, Debug, PartialEq, Eq, PartialOrd, Ord)]
pub struct Citation {
    pub file: String,
    pub at: usize,
    pub question: Option<u32>,
}

pub struct Reader<'a> {
    repo: &'a Repo,
    known: Known,
    root: &'a Path,
    pub cited: BTreeSet<Citation>,
    pub faults: Vec<String>,
    question: Option<u32>,
}

/// Reads the page: the citations, or every fault with its line.
pub fn read(repo: &Repo, root: &Path, text: &str) -> Result<BTreeSet<Citation>, Vec<String>> {
    let known = Known::of(repo);
    let mut reader =
        Reader { repo, known, root, cited: BTreeSet::new(), faults: Vec::new(), question: None };
    for part in parts(text) {
        match part {
            Part::Heading(h) => {
                if let Some(rest) = h.strip_prefix("## ") {
                    reader.question = rest.split('.').next().and_then(|n| n.parse().ok());
                }
            }
            Part::Paragraph { line, text } => {
                let files = paths(&text);
                for span in spans(&text, line) {
                    reader.word(&span, &files);
                }
            }
            Part::Table { header, rows } => reader.table(&header, &rows),
        }
    }
    if reader.faults.is_empty() {
        Ok(reader.cited)
    } else {
        Err(reader.faults)
    }
}

impl Reader<'_> {
    fn fault(&mut self, line: usize, what: String) {
        self.faults.push(format!("docs/ANSWERS.md:{line}: {what}"));
    }

    fn table(&mut self, header: &[String], rows: &[Row]) {
        let column = |name: &str| header.iter().position(|h| h == name);
        let (theorem, assumes, file) = (column("Theorem"), column("Assumes"), column("File"));
        for row in rows {
            if row.cells.len() != header.len() {
                self.fault(
                    row.line,
                    format!("{} cells below {} columns", row.cells.len(), header.len()),
                );
                continue;
            }
            let files = match file {
                Some(_) => paths(&row.cells.join(" | ")),
                None => Vec::new(),
            };
            if let Some(gone) = files.iter().find(|f| !self.repo.texts.contains_key(*f)) {
                self.fault(row.line, format!("crates/{gone} is not there"));
            }
            let before = self.cited.len();
            let mut cites = false;
            for (i, cell) in row.cells.iter().enumerate() {
                for span in spans(cell, row.line) {
                    if Some(i) == theorem && is_name(&span.text) {
                        cites |= self.in_row(&span, &files);
                    } else {
                        self.word(&span, &files);
                    }
                }
            }
            cites |= self.cited.len() > before;
            if assumes.is_some_and(|i| cites && row.cells[i].is_empty()) {
                self.fault(
                    row.line,
                    "a row that cites a theorem says nothing under \"Assumes\"".into(),
                );
            }
        }
    }

    /// A name of the column "Theorem": a theorem must be in one of the row's files.
    fn in_row(&mut self, span: &Span, files: &[String]) -> bool {
        let name = &span.text;
        let all = theorems(self.repo, name);
        let here: Vec<&(String, usize)> = all.iter().filter(|(f, _)| files.contains(f)).collect();
        if here.len() > 1 {
            let places: Vec<&str> = here.iter().map(|(f, _)| f.as_str()).collect();
            self.fault(
                span.line,
                format!("`{name}` is a theorem of each of {}", places.join(", ")),
            );
            return false;
        }
        if let Some((f, at)) = here.first() {
            self.cite(span.line, f.clone(), *at);
            return true;
        }
        let own = files
            .iter()
            .any(|f| self.repo.antt.contains_key(f) && !self.repo.in_file(f, name).is_empty());
        if own {
            return false;
        }
        let elsewhere = proved_or_told(self.repo, name);
        if let Some(f) = elsewhere {
            self.fault(span.line, format!("`{name}` stands in {f}, which the row does not name"));
        } else if let Some(what) = self.known.fault(self.root, name) {
            self.fault(span.line, what);
        }
        false
    }

    /// Any other quoted text: a theorem is cited, a name that no file has is a fault.
    fn word(&mut self, span: &Span, files: &[String]) {
        if !is_name(&span.text) {
            if let Some(what) = self.known.fault(self.root, &span.text) {
                self.fault(span.line, what);
            }
            return;
        }
        let mut all = theorems(self.repo, &span.text);
        if all.iter().any(|(f, _)| files.contains(f)) {
            all.retain(|(f, _)| files.contains(f));
        } else if self.told_otherwise(&span.text) {
            return;
        }
        match all.len() {
            0 => {
                if let Some(what) = self.known.fault(self.root, &span.text) {
                    self.fault(span.line, what);
                }
            }
            1 => {
                let (f, at) = all.remove(0);
                self.cite(span.line, f, at);
            }
            _ => {
                let places: Vec<String> = all.into_iter().map(|(f, _)| f).collect();
                self.fault(
                    span.line,
                    format!(
                        "`{}` is a theorem of each of {}: name the file",
                        span.text,
                        places.join(", ")
                    ),
                );
            }
        }
    }

    /// Whether a name is a definition's, a function's or a type's too: outside the column "Theorem" it is taken for that.
    fn told_otherwise(&self, name: &str) -> bool {
        let in_code = self.repo.code.values().any(|c| c.items.iter().any(|i| i.name == name));
        let in_specs = self
            .repo
            .antt
            .iter()
            .any(|(f, p)| !is_proof(f) && p.declarations.iter().any(|d| d.name == name));
        in_code || in_specs
    }

    fn cite(&mut self, line: usize, file: String, at: usize) {
        if !self.repo.declaration(&file, at).public {
            self.fault(
                line,
                format!("{} of {file} is not public", self.repo.declaration(&file, at).name),
            );
        }
        self.cited.insert(Citation { file, at, question: self.question });
    }
}

/// The theorems of a name: file and place.
pub fn theorems(repo: &Repo, name: &str) -> Vec<(String, usize)> {
    let mut found = Vec::new();
    for file in repo.antt.keys() {
        for thing in repo.in_file(file, name) {
            if let Thing::Declared(f, at) = thing {
                if repo.is_theorem(&f, at) && repo.declaration(&f, at).public {
                    found.push((f, at));
                }
            }
        }
    }
    found
}

/// A file of proofs/ that declares a name, where no file of specs/ does.
fn proved_or_told(repo: &Repo, name: &str) -> Option<String> {
    let declares =
        |f: &String| repo.antt[f].declarations.iter().any(|d| d.name == name && d.public);
    if repo.antt.keys().any(|f| !is_proof(f) && declares(f))
        || repo.code.values().any(|c| c.items.iter().any(|i| i.name == name))
    {
        return None;
    }
    repo.antt.keys().find(|f| is_proof(f) && declares(f)).cloned()
}

#[cfg(test)]
mod tests {
    use super::*;

    fn repo() -> Repo {
        let mut repo = Repo::default();
        repo.add("x/specs/S.antt".into(), "abbrev pub one : ℕ\none = 1\n".into());
        repo.add(
            "x/proofs/P.antt".into(),
            "pub holds : one ≡ 1\nholds = refl\npub both : one ≡ 1\nboth = refl\n".into(),
        );
        repo.add(
            "x/proofs/Q.antt".into(),
            "pub both : one ≡ 1\nboth = refl\nhidden : one ≡ 1\n".into(),
        );
        repo
    }

    fn faults(page: &str) -> usize {
        read(&repo(), Path::new("/nowhere"), page).err().map_or(0, |f| f.len())
    }

    const HEAD: &str = "## 2. Q\n\n| Sentence | Theorem | File |\n|---|---|---|\n";

    #[test]
    fn rows_cite() {
        let page = format!("{HEAD}| s | `holds` of `one` | x/proofs/P.antt |\n");
        let cited = read(&repo(), Path::new("/nowhere"), &page).unwrap();
        assert_eq!(
            cited.into_iter().collect::<Vec<_>>(),
            [Citation { file: "x/proofs/P.antt".into(), at: 0, question: Some(2) }]
        );
    }

    #[test]
    fn paragraphs_cite() {
        assert_eq!(read(&repo(), Path::new("/nowhere"), "so `holds`\n").unwrap().len(), 1);
        assert_eq!(faults("so `both`\n"), 1);
        assert_eq!(faults("so `both` (x/proofs/Q.antt)\n"), 0);
        assert_eq!(faults("so `made-up`\n"), 1);
    }

    #[test]
    fn rows_name_their_files() {
        assert_eq!(faults(&format!("{HEAD}| s | `holds` | x/proofs/Q.antt |\n")), 1);
        assert_eq!(faults(&format!("{HEAD}| s | `both` | x/proofs/Q.antt |\n")), 0);
        assert_eq!(faults(&format!("{HEAD}| s | `both` | x/proofs/P.antt, Q.antt |\n")), 1);
        assert_eq!(faults(&format!("{HEAD}| s | `made-up` | x/proofs/P.antt |\n")), 1);
        assert_eq!(faults(&format!("{HEAD}| s | `holds` | x/proofs/R.antt |\n")), 2);
    }

    #[test]
    fn columns_are_found_by_their_heads() {
        let head = "| Sentence | Theorem | Assumes | File |\n|---|---|---|---|\n";
        assert_eq!(faults(&format!("{head}| s | `holds` | nothing | x/proofs/P.antt |\n")), 0);
        assert_eq!(faults(&format!("{head}| s | `holds` | | x/proofs/P.antt |\n")), 1);
        assert_eq!(faults(&format!("{head}| s | see above | | x/proofs/P.antt |\n")), 0);
    }
}
