//! docs/BELIEVED.md: every cited statement and all that it rests on, a line each with its hash; and what stands outside of that.

use crate::answers::Citation;
use crate::closure::{entry, lines_of, Closure, Entry};
use crate::names::sign;
use crate::repo::{is_proof, is_spec, Repo, Thing};
use std::collections::{BTreeMap, BTreeSet};
use std::fmt::Write;

const HEAD: &str = "\
# What she believed last time

Printed by docs/pages (`docs/write`); the gate fails where this page and the files differ. Whoever has read what is listed here has read all
that the statements of docs/ANSWERS.md rest on: each definition, type and contract that a statement names, those that these name, and so on
down to the kit's. A line has the file (below crates/), the name, the number of lines (without comments, blanks and `use`) and a hash of the
text, for which comments and spacing do not count. So the difference between two versions of this page is what has to be read again.

A contract is a function's signature with its `ensures`, without the body. A statement is without its proof. The headers `module _ (..)
where` around an entry are part of its hash, and are counted once in the sums.
";

/// All that is listed: the statements, what they rest on, and the kit's names.
pub struct Rests {
    pub statements: BTreeSet<Thing>,
    pub below: BTreeSet<Thing>,
}

/// The statements under a question (or all) with what they rest on.
pub fn rests(
    closure: &mut Closure,
    cited: &BTreeSet<Citation>,
    question: Option<u32>,
) -> Result<Rests, String> {
    let mut found = Rests { statements: BTreeSet::new(), below: BTreeSet::new() };
    for c in cited.iter().filter(|c| question.is_none() || c.question == question) {
        found.statements.insert(Thing::Declared(c.file.clone(), c.at));
        found.below.extend(closure.below(&c.file, c.at)?);
    }
    Ok(found)
}

pub fn page(repo: &Repo, cited: &BTreeSet<Citation>) -> Result<String, String> {
    let mut closure = Closure::new(repo);
    let all = rests(&mut closure, cited, None)?;
    let mut out = HEAD.to_string();
    out.push_str("\n| | statements | lines | definitions, types and contracts | lines |\n|---|---|---|---|---|\n");
    let mut questions = Rests { statements: BTreeSet::new(), below: BTreeSet::new() };
    for question in 1..=3 {
        let part = rests(&mut closure, cited, Some(question))?;
        row(&mut out, repo, &format!("question {question}"), &part);
        questions.statements.extend(part.statements);
        questions.below.extend(part.below);
    }
    row(&mut out, repo, "questions 1 to 3", &questions);
    row(&mut out, repo, "with the requests, samples and examples", &all);
    border(repo, &all.below)?;
    out.push_str(&format!(
        "\nOf the lines that questions 1 to 3 rest on: {}.\n",
        by_kind(repo, &questions.below)
    ));
    if !closure.unknown.is_empty() {
        return Err(closure.unknown.iter().cloned().collect::<Vec<_>>().join("\n"));
    }
    out.push_str("\n## Definitions, types and contracts\n\n| Kind | File | Name | Lines | Hash |\n|---|---|---|---|---|\n");
    list(&mut out, repo, &all.below, false);
    out.push_str(
        "\n## Statements\n\n| Kind | File | Name | Lines | Hash |\n|---|---|---|---|---|\n",
    );
    list(&mut out, repo, &all.statements, true);
    out.push_str("\n## The kit's names\n\nWhat is believed with the toolchain; its text is the kit's.\n\n| Path | Names |\n|---|---|\n");
    for (path, names) in kit(&all.below) {
        let names: Vec<String> = names.iter().map(|n| format!("`{n}`")).collect();
        let _ = writeln!(out, "| {path} | {} |", names.join(", "));
    }
    Ok(out)
}

/// The border is true: what the statements rest on stands in specs/ (or is a type or a contract of src/), and specs/ has nothing else
/// but what stands apart in a folder Internal. Else the definitions that are on the wrong side.
fn border(repo: &Repo, below: &BTreeSet<Thing>) -> Result<(), String> {
    let mut wrong = Vec::new();
    for (file, parsed) in &repo.antt {
        for at in 0..parsed.declarations.len() {
            let thing = Thing::Declared(file.clone(), at);
            let rested_on = below.contains(&thing);
            let inside = is_spec(file) && !file.contains("/specs/Internal");
            let name = entry(repo, &thing, false).map(|e| e.name).unwrap_or_default();
            if rested_on && !inside {
                wrong.push(format!(
                    "{file}: {name}: a cited statement rests on it, and it is not in specs/"
                ));
            }
            if inside && !rested_on {
                wrong
                    .push(format!("{file}: {name}: in specs/, and no cited statement rests on it"));
            }
        }
    }
    if wrong.is_empty() {
        return Ok(());
    }
    Err(wrong.join("\n"))
}

/// How many lines there are of each kind.
fn by_kind(repo: &Repo, things: &BTreeSet<Thing>) -> String {
    let mut sums: BTreeMap<&str, usize> = BTreeMap::new();
    for e in things.iter().filter_map(|t| entry(repo, t, false)) {
        *sums.entry(e.kind).or_default() += e.lines;
    }
    sums.iter().map(|(kind, lines)| format!("{kind} {lines}")).collect::<Vec<_>>().join(", ")
}

fn own(things: &BTreeSet<Thing>) -> BTreeSet<Thing> {
    things.iter().filter(|t| !matches!(t, Thing::Kit(..))).cloned().collect()
}

fn row(out: &mut String, repo: &Repo, name: &str, rests: &Rests) {
    let below = own(&rests.below);
    let (said, told) = (lines_of(repo, &rests.statements, true), lines_of(repo, &below, false));
    let _ = writeln!(
        out,
        "| {name} | {} | {said} | {} | {told} |",
        rests.statements.len(),
        below.len()
    );
}

fn list(out: &mut String, repo: &Repo, things: &BTreeSet<Thing>, statements: bool) {
    let mut entries: Vec<Entry> =
        things.iter().filter_map(|t| entry(repo, t, statements)).collect();
    entries.sort();
    for e in entries {
        let _ =
            writeln!(out, "| {} | {} | `{}` | {} | {} |", e.kind, e.file, e.name, e.lines, e.hash);
    }
}

/// The kit's names by their path; an operator by its sign.
pub fn kit(things: &BTreeSet<Thing>) -> BTreeMap<String, BTreeSet<String>> {
    let mut found: BTreeMap<String, BTreeSet<String>> = BTreeMap::new();
    for thing in things {
        if let Thing::Kit(path, name) = thing {
            found.entry(path.clone()).or_default().insert(sign(name));
        }
    }
    found
}

/// What no cited statement rests on though it stands in specs/, and what one rests on though it stands in proofs/.
pub fn outside(repo: &Repo, cited: &BTreeSet<Citation>) -> Result<String, String> {
    let mut closure = Closure::new(repo);
    let all = rests(&mut closure, cited, None)?;
    let mut out = String::from("In specs/, and no cited statement rests on it:\n");
    for (file, parsed) in repo.antt.iter().filter(|(f, _)| is_spec(f)) {
        for at in 0..parsed.declarations.len() {
            let thing = Thing::Declared(file.clone(), at);
            if !all.below.contains(&thing) {
                line(&mut out, repo, &thing);
            }
        }
    }
    out.push_str("\nIn proofs/, and a cited statement rests on it:\n");
    for thing in &all.below {
        if matches!(thing, Thing::Declared(file, _) if is_proof(file)) {
            line(&mut out, repo, thing);
        }
    }
    out.push_str("\nWhat the cited statements of one file rest on, and no others:\n");
    let files: BTreeSet<&str> = cited.iter().map(|c| c.file.as_str()).collect();
    for file in files {
        let others = cited.iter().filter(|c| c.file != file).cloned().collect();
        let without = rests(&mut closure, &others, None)?;
        let alone: BTreeSet<Thing> = own(&all.below).difference(&without.below).cloned().collect();
        if !alone.is_empty() {
            let names: Vec<String> =
                alone.iter().filter_map(|t| entry(repo, t, false)).map(|e| e.name).collect();
            let _ = writeln!(
                out,
                "  {file}: {} lines: {}",
                lines_of(repo, &alone, false),
                names.join(" ")
            );
        }
    }
    Ok(out)
}

fn line(out: &mut String, repo: &Repo, thing: &Thing) {
    if let Some(e) = entry(repo, thing, false) {
        let _ = writeln!(out, "  {} {} ({}, {} lines)", e.file, e.name, e.kind, e.lines);
    }
}
