//! Which words a page may quote: names of the repository, its paths, and a short list of others.

use crate::repo::Repo;
use std::collections::BTreeSet;
use std::path::Path;

/// What a page quotes and no file of crates/ has: commands, and words of the toolchain.
#[rustfmt::skip]
const OTHERS: &[&str] = &[
    "rt version", "rt ci", "rt fmt", "rt must-fail", "bash .ci/run", "grep -rn NAME crates", "docs/write", "rustc",
    "N passed, 0 failed", "axioms=", "ensures", "requires", "Reads.Post", "pub use", "io", "libc", "os",
];

/// All names of the repository: declarations with their parts, code with its parts, crates.
pub struct Known {
    names: BTreeSet<String>,
}

impl Known {
    pub fn of(repo: &Repo) -> Known {
        let mut names = repo.crates.clone();
        for parsed in repo.antt.values() {
            for d in &parsed.declarations {
                names.insert(d.name.clone());
                names.extend(d.parts.iter().cloned());
            }
        }
        for parsed in repo.code.values() {
            for item in &parsed.items {
                names.insert(item.name.clone());
                names.extend(item.parts.iter().cloned());
            }
        }
        Known { names }
    }

    pub fn has(&self, name: &str) -> bool {
        self.names.contains(name)
    }

    /// What is wrong with a quoted text, if something is: a name that no file has, a path that leads nowhere.
    pub fn fault(&self, root: &Path, text: &str) -> Option<String> {
        if OTHERS.contains(&text) || text.starts_with("rattle-kit-") {
            return None;
        }
        if is_path(text) {
            return (!leads(root, text)).then(|| format!("`{text}`: no such file or folder"));
        }
        let head = text.split_whitespace().next().unwrap_or("");
        if is_name(head) && !self.has(head) && !leads(root, head) {
            return Some(format!("`{text}`: no file has the name {head}"));
        }
        None
    }
}

/// The form of a name: a letter, then letters, digits and `-`, `_`, `'`.
pub fn is_name(word: &str) -> bool {
    let first = word.chars().next().is_some_and(char::is_alphabetic);
    first && word.chars().all(|c| c.is_alphanumeric() || matches!(c, '-' | '_' | '\''))
}

fn is_path(text: &str) -> bool {
    let ends = [".antt", ".rt", ".md", ".rs", ".txt", ".edit"];
    !text.contains(' ') && (text.contains('/') || ends.iter().any(|e| text.ends_with(e)))
}

/// Whether a path is there from the root, docs/, crates/ or in some crate; `*` is any one name.
fn leads(root: &Path, text: &str) -> bool {
    let parts: Vec<&str> = text.trim_end_matches('/').split('/').collect();
    let starts =
        ["", "docs", "crates", "crates/*", "crates/*/specs", "crates/*/proofs", "crates/*/src"];
    starts.iter().any(|start| {
        let mut way: Vec<&str> = start.split('/').filter(|s| !s.is_empty()).collect();
        way.extend(&parts);
        reaches(root, &way)
    })
}

fn reaches(at: &Path, way: &[&str]) -> bool {
    let Some((first, rest)) = way.split_first() else { return at.exists() };
    if *first != "*" {
        return reaches(&at.join(first), rest);
    }
    let Ok(read) = std::fs::read_dir(at) else { return false };
    read.flatten().any(|e| e.path().is_dir() && reaches(&e.path(), rest))
}

#[cfg(test)]
mod tests {
    use super::*;

    #[test]
    fn a_made_up_name_is_a_fault() {
        let mut repo = Repo::default();
        repo.add("x/proofs/P.antt".into(), "pub holds : a ≡ b\nholds = refl\n".into());
        let known = Known::of(&repo);
        let root = Path::new("/nowhere");
        assert!(known.fault(root, "holds").is_none());
        assert!(known.fault(root, "holds a (b ..)").is_none());
        assert!(known.fault(root, "held_up").is_some());
        assert!(known.fault(root, "held-up").is_some());
        assert!(known.fault(root, "held_up n m").is_some());
        assert!(known.fault(root, "x/proofs/Q.antt").is_some());
        assert!(known.fault(root, "rt version").is_none());
        assert!(known.fault(root, "0x10").is_none());
    }
}
