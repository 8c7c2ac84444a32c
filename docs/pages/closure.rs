//! What statements rest on: the definitions, types and contracts that they name, those that these name, down to the kit's.

use crate::antt::Kind;
use crate::hash::sha256;
use crate::names::{in_code, in_definition, in_statement, Found};
use crate::repo::{Repo, Thing};
use crate::tokens::{normal, tokens};
use std::collections::{BTreeMap, BTreeSet};

/// Words that nothing in scope explains and that the language has of itself.
const OWN: &[&str] = &["Unit", "tt", "absurd"];

pub struct Closure<'a> {
    repo: &'a Repo,
    named: BTreeMap<Thing, BTreeSet<Thing>>,
    pub unknown: BTreeSet<String>,
}

impl<'a> Closure<'a> {
    pub fn new(repo: &'a Repo) -> Closure<'a> {
        Closure { repo, named: BTreeMap::new(), unknown: BTreeSet::new() }
    }

    /// What a statement names directly.
    pub fn direct(&mut self, file: &str, at: usize) -> Result<BTreeSet<Thing>, String> {
        let found = in_statement(self.repo, file, at)?;
        Ok(self.keep(file, &self.repo.declaration(file, at).name.clone(), found))
    }

    /// All that a statement rests on.
    pub fn below(&mut self, file: &str, at: usize) -> Result<BTreeSet<Thing>, String> {
        let mut all = BTreeSet::new();
        let mut open: Vec<Thing> = self.direct(file, at)?.into_iter().collect();
        while let Some(thing) = open.pop() {
            if all.insert(thing.clone()) {
                open.extend(self.named_by(&thing)?);
            }
        }
        Ok(all)
    }

    /// What a thing names directly; of a definition all of it counts.
    pub fn named_by(&mut self, thing: &Thing) -> Result<BTreeSet<Thing>, String> {
        if let Some(known) = self.named.get(thing) {
            return Ok(known.clone());
        }
        let things = match thing {
            Thing::Declared(file, at) => {
                let found = in_definition(self.repo, file, *at)?;
                self.keep(file, &self.repo.declaration(file, *at).name.clone(), found)
            }
            Thing::Coded(file, at) => {
                let found = in_code(self.repo, file, *at)?;
                self.keep(file, &self.repo.item(file, *at).name.clone(), found)
            }
            Thing::Kit(..) => BTreeSet::new(),
        };
        self.named.insert(thing.clone(), things.clone());
        Ok(things)
    }

    fn keep(&mut self, file: &str, name: &str, found: Found) -> BTreeSet<Thing> {
        let strange = found.unknown.iter().filter(|w| !OWN.contains(&w.as_str()));
        self.unknown.extend(strange.map(|w| format!("crates/{file}: {name}: what is {w}?")));
        found.things
    }
}

/// An entry of the page: what it is, where, its lines and the hash of its text.
#[derive(Clone, Debug, PartialEq, Eq, PartialOrd, Ord)]
pub struct Entry {
    pub file: String,
    pub name: String,
    pub kind: &'static str,
    pub lines: usize,
    pub hash: String,
}

/// The entry of a thing of the repository; of a statement without its proof.
pub fn entry(repo: &Repo, thing: &Thing, statement: bool) -> Option<Entry> {
    match thing {
        Thing::Kit(..) => None,
        Thing::Coded(file, at) => {
            let item = repo.item(file, *at);
            let text: Vec<&str> = item.lines.iter().map(|l| l.text.as_str()).collect();
            Some(Entry {
                file: file.clone(),
                name: item.name.clone(),
                kind: item.kind.word(),
                lines: item.lines.len(),
                hash: short(&text.join("\n")),
            })
        }
        Thing::Declared(file, at) => {
            let d = repo.declaration(file, *at);
            let kind = match d.kind {
                _ if statement => "statement",
                Kind::Data => "data",
                Kind::Record => "record",
                Kind::Definition | Kind::Plain => "definition",
            };
            let mut own: Vec<&str> = d.head.iter().map(|l| l.text.as_str()).collect();
            if !statement {
                own.extend(d.equations.iter().flatten().map(|l| l.text.as_str()));
            }
            let lines = own.len();
            let headers = d
                .headers
                .iter()
                .flat_map(|h| repo.antt[file].headers[*h].iter().map(|l| l.text.as_str()));
            let text: Vec<&str> = headers.chain(own).collect();
            Some(Entry {
                file: file.clone(),
                name: d.name.clone(),
                kind,
                lines,
                hash: short(&text.join("\n")),
            })
        }
    }
}

/// The lines of some things together; the header of a module is counted once.
pub fn lines_of(repo: &Repo, things: &BTreeSet<Thing>, statements: bool) -> usize {
    let mut headers: BTreeSet<(&str, usize)> = BTreeSet::new();
    let mut sum = 0;
    for thing in things {
        sum += entry(repo, thing, statements).map_or(0, |e| e.lines);
        if let Thing::Declared(file, at) = thing {
            headers.extend(repo.declaration(file, *at).headers.iter().map(|h| (file.as_str(), *h)));
        }
    }
    sum + headers.iter().map(|(f, h)| repo.antt[*f].headers[*h].len()).sum::<usize>()
}

fn short(text: &str) -> String {
    sha256(normal(&tokens(text)).as_bytes())[..12].to_string()
}

#[cfg(test)]
mod tests {
    use super::*;

    fn hash_of(text: &str) -> String {
        let mut repo = Repo::default();
        repo.add("x/specs/S.antt".into(), text.into());
        let last = repo.antt["x/specs/S.antt"].declarations.len() - 1;
        entry(&repo, &Thing::Declared("x/specs/S.antt".into(), last), false)
            .map(|e| e.hash)
            .unwrap_or_default()
    }

    #[test]
    fn comments_and_spacing_are_no_change() {
        let one = hash_of("abbrev pub a : ℕ → ℕ\na n = f (n, 1)\n");
        assert_eq!(one, hash_of("-- why\nabbrev pub a : ℕ\n    → ℕ\n\n-- so\na n =\n    f (\n      n,\n      1,\n    )\n"));
        assert_ne!(one, hash_of("abbrev pub a : ℕ → ℕ\na n = f (n, 2)\n"));
        assert_ne!(one, hash_of("unfoldable pub a : ℕ → ℕ\na n = f (n, 1)\n"));
    }

    #[test]
    fn the_header_around_it_is_part_of_a_definition() {
        let body = "  abbrev pub a : ℕ\n  a = n\n";
        assert_ne!(
            hash_of(&format!("module _ (n : ℕ) where\n{body}")),
            hash_of(&format!("module _ (n : Bool) where\n{body}"))
        );
    }
}
