//! docs/STATEMENTS.md: every cited theorem as it stands in its file, what it uses that is not among the definitions to read, and a legend.

use crate::answers::Citation;
use crate::antt::Line;
use crate::believed::{kit, rests};
use crate::closure::Closure;
use crate::legend::Legend;
use crate::repo::{is_spec, Repo, Thing};
use std::collections::{BTreeMap, BTreeSet};
use std::fmt::Write;

const HEAD: &str = "\
# The statements as they stand

Every theorem that docs/ANSWERS.md cites, copied from its file by docs/pages (`docs/write`); the gate fails where this page and the files
differ. A line `module _ (..) where` above a theorem holds parameters and premises of it. What a name of a statement means is a
definition of `crates/*/specs` or a type of `crates/*/src`; docs/BELIEVED.md lists them all. The signs, and the names that are the kit's:
";

const BEHIND: &str = "
# Definitions that a statement uses and that are not in the list of what to read

The definitions that a statement names, directly or through others, and that stand outside of `crates/*/specs`.
";

pub fn page(repo: &Repo, cited: &BTreeSet<Citation>) -> Result<String, String> {
    let mut closure = Closure::new(repo);
    let all = rests(&mut closure, cited, None)?;
    let apart = |t: &&Thing| matches!(t, Thing::Declared(file, _) if !is_spec(file));
    let outside: BTreeSet<Thing> = all.below.iter().filter(apart).cloned().collect();

    let mut legend = Legend::default();
    let mut named = BTreeSet::new();
    for c in cited {
        named.extend(closure.direct(&c.file, c.at)?);
    }
    for thing in &outside {
        named.extend(closure.named_by(thing)?);
    }
    let statements = printed(repo, &all.statements, false);
    let definitions = printed(repo, &outside, true);
    legend.read(repo, &statements);
    legend.read(repo, &definitions);
    legend.kit(kit(&named).values().flatten());
    let explained = legend.table(repo)?;

    let mut out = format!("{HEAD}\n{explained}");
    blocks(&mut out, &statements);
    out.push_str(BEHIND);
    if definitions.is_empty() {
        out.push_str("\nNone.\n");
    }
    blocks(&mut out, &definitions);
    Ok(out)
}

/// The lines of each file that are printed: things in the file's order, each below the headers around it.
fn printed(repo: &Repo, things: &BTreeSet<Thing>, bodies: bool) -> BTreeMap<String, Vec<Line>> {
    let mut found: BTreeMap<String, Vec<Line>> = BTreeMap::new();
    let mut around: Vec<usize> = Vec::new();
    for thing in things {
        let Thing::Declared(file, at) = thing else { continue };
        let d = repo.declaration(file, *at);
        if !found.contains_key(file) {
            around = Vec::new();
        }
        let lines = found.entry(file.clone()).or_default();
        if !lines.is_empty() {
            lines.push(Line { indent: 0, text: String::new() });
        }
        if d.headers != around {
            let shared = d.headers.iter().zip(&around).take_while(|(a, b)| a == b).count();
            for h in &d.headers[shared..] {
                lines.extend(repo.antt[file].headers[*h].iter().cloned());
            }
        }
        around = d.headers.clone();
        lines.extend(d.head.iter().cloned());
        if bodies {
            lines.extend(d.equations.iter().flatten().cloned());
        }
    }
    found
}

fn blocks(out: &mut String, files: &BTreeMap<String, Vec<Line>>) {
    for (file, lines) in files {
        let text: Vec<&str> = lines.iter().map(|l| l.text.as_str()).collect();
        let _ = write!(out, "\n## {file}\n\n```\n{}\n```\n", text.join("\n"));
    }
}
