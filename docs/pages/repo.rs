//! The repository: every file of definitions, theorems and code, and what a path of a `use` line names.

use crate::antt::{self, Kind};
use crate::code;
use std::collections::{BTreeMap, BTreeSet};
use std::fs;
use std::path::Path;

/// Something that can be named.
#[derive(Clone, Debug, PartialEq, Eq, PartialOrd, Ord)]
pub enum Thing {
    /// a declaration of a file (below crates/), by its place in it
    Declared(String, usize),
    /// a struct, enum, constant or contract of a file of code, by its place in it
    Coded(String, usize),
    /// the kit's: path and name
    Kit(String, String),
}

#[derive(Default)]
pub struct Repo {
    /// files below crates/: `node_rules/specs/Record.antt`
    pub antt: BTreeMap<String, antt::File>,
    pub code: BTreeMap<String, code::File>,
    /// the text of each of both
    pub texts: BTreeMap<String, String>,
    pub crates: BTreeSet<String>,
}

/// What stands behind a path without a name: a file of definitions, or a thing.
enum Place {
    File(String),
    Thing(Thing),
    /// the constants of a crate's code, in a module of it: crate and way
    Constants(String, Vec<String>),
}

impl Repo {
    pub fn read(root: &Path) -> Result<Repo, String> {
        let mut repo = Repo::default();
        let crates = root.join("crates");
        for krate in entries(&crates)? {
            for folder in ["specs", "proofs", "src"] {
                let mut files = Vec::new();
                walk(&crates.join(&krate).join(folder), &mut files)?;
                for file in files {
                    let text = fs::read_to_string(&file)
                        .map_err(|e| format!("{}: {e}", file.display()))?;
                    let name = file
                        .strip_prefix(&crates)
                        .map_err(|e| e.to_string())?
                        .display()
                        .to_string();
                    repo.add(name, text);
                }
            }
        }
        Ok(repo)
    }

    /// Takes in a file; `name` is its path below crates/.
    pub fn add(&mut self, name: String, text: String) {
        if name.ends_with(".antt") {
            self.antt.insert(name.clone(), antt::parse(&text));
        } else if name.ends_with(".rt") {
            self.code.insert(name.clone(), code::parse(&text));
        } else {
            return;
        }
        self.crates.insert(name.split('/').next().unwrap_or("").to_string());
        self.texts.insert(name, text);
    }

    pub fn declaration(&self, file: &str, at: usize) -> &antt::Declaration {
        &self.antt[file].declarations[at]
    }

    pub fn item(&self, file: &str, at: usize) -> &code::Item {
        &self.code[file].items[at]
    }

    /// Whether a declaration is a theorem: neither definition nor type, in `proofs/`.
    pub fn is_theorem(&self, file: &str, at: usize) -> bool {
        is_proof(file) && self.declaration(file, at).kind == Kind::Plain
    }

    /// What `use PATH.{name}` names; for a path of the repository that has no such name, an error.
    pub fn named(&self, path: &str, name: &str) -> Result<Vec<Thing>, String> {
        match self.place(path)? {
            None => Ok(vec![Thing::Kit(path.into(), name.into())]),
            Some(Place::Thing(thing)) => Ok(vec![thing]),
            Some(Place::Constants(krate, mut way)) => {
                way.push(name.into());
                let way: Vec<&str> = way.iter().map(String::as_str).collect();
                let found = self.coded(&krate, &way);
                Ok(vec![found.ok_or(format!("{path}: crates/{krate}/src has no {name}"))?])
            }
            Some(Place::File(file)) => {
                let found = self.in_file(&file, name);
                if found.is_empty() {
                    return Err(format!("{file} has no {name}"));
                }
                Ok(found)
            }
        }
    }

    /// The declarations of a file that have a name, or a constructor of that name.
    pub fn in_file(&self, file: &str, name: &str) -> Vec<Thing> {
        let all = self.antt[file].declarations.iter().enumerate();
        let has = |d: &antt::Declaration| {
            d.name == name || (d.kind == Kind::Data && d.parts.iter().any(|p| p == name))
        };
        all.filter(|(_, d)| has(d)).map(|(i, _)| Thing::Declared(file.into(), i)).collect()
    }

    /// Where a path leads: nowhere for the kit's.
    fn place(&self, path: &str) -> Result<Option<Place>, String> {
        let Some(own) = path.strip_prefix("Rattle.") else { return Ok(None) };
        let parts: Vec<&str> = own.split('.').collect();
        let krate = parts[0];
        if !self.crates.contains(krate) {
            return Ok(None);
        }
        let inside = &parts[1..];
        if inside.first() == Some(&"specs") && inside.get(1) == Some(&"declared") {
            let mut way: Vec<&str> = inside[2..].to_vec();
            if way.last() == Some(&"TheConstants") {
                way.pop();
                let way = way.iter().map(|w| w.to_string()).collect();
                return Ok(Some(Place::Constants(krate.into(), way)));
            }
            way.retain(|w| *w != "TheVariants");
            let found = self
                .coded(krate, &way)
                .ok_or(format!("{path}: no such type in crates/{krate}/src"))?;
            return Ok(Some(Place::Thing(found)));
        }
        if inside.first() == Some(&"specs") && inside.get(1) == Some(&"contracts") {
            let found = self
                .coded(krate, &inside[2..])
                .ok_or(format!("{path}: no such function in crates/{krate}/src"))?;
            return Ok(Some(Place::Thing(found)));
        }
        let file = format!("{krate}/{}.antt", inside.join("/"));
        if self.antt.contains_key(&file) {
            return Ok(Some(Place::File(file)));
        }
        if inside.first() == Some(&"proofs") {
            let mut way: Vec<&str> = inside[1..].to_vec();
            if way.last().is_some_and(|w| w.starts_with(char::is_uppercase)) {
                way.pop();
            }
            let found = self
                .coded(krate, &way)
                .ok_or(format!("{path}: neither a file nor a function of crates/{krate}"))?;
            return Ok(Some(Place::Thing(found)));
        }
        Err(format!("{path}: no such file"))
    }

    /// The item of a crate's code at a way: `["Node"]` in lib.rt or main.rt, `["cursor", "Cursor"]` in cursor.rt.
    pub fn coded(&self, krate: &str, way: &[&str]) -> Option<Thing> {
        let (name, modules) = way.split_last()?;
        let files: Vec<String> = if modules.is_empty() {
            vec![format!("{krate}/src/lib.rt"), format!("{krate}/src/main.rt")]
        } else {
            vec![format!("{krate}/src/{}.rt", modules.join("/"))]
        };
        for file in &files {
            let Some(code) = self.code.get(file) else { continue };
            if let Some(at) = code.items.iter().position(|i| i.name == *name) {
                return Some(Thing::Coded(file.clone(), at));
            }
            if let Some((_, path)) = code.passed.iter().find(|(local, _)| local == name) {
                return self.passed(krate, path);
            }
        }
        None
    }

    /// What `use a::b::C` in a crate's code names.
    pub fn passed(&self, krate: &str, path: &[String]) -> Option<Thing> {
        let way: Vec<&str> = path.iter().map(String::as_str).collect();
        if way[0] == "crate" {
            return self.coded(krate, &way[1..]);
        }
        if self.crates.contains(way[0]) {
            return self.coded(way[0], &way[1..]);
        }
        self.coded(krate, &way)
    }
}

pub fn is_proof(file: &str) -> bool {
    file.split('/').nth(1) == Some("proofs")
}

pub fn is_spec(file: &str) -> bool {
    file.split('/').nth(1) == Some("specs")
}

fn entries(folder: &Path) -> Result<Vec<String>, String> {
    let read = fs::read_dir(folder).map_err(|e| format!("{}: {e}", folder.display()))?;
    let mut names: Vec<String> =
        read.flatten().map(|e| e.file_name().to_string_lossy().into_owned()).collect();
    names.sort();
    Ok(names)
}

/// The files below a folder, if it is there.
fn walk(folder: &Path, files: &mut Vec<std::path::PathBuf>) -> Result<(), String> {
    if !folder.is_dir() {
        return Ok(());
    }
    for name in entries(folder)? {
        let path = folder.join(name);
        if path.is_dir() {
            walk(&path, files)?;
        } else {
            files.push(path);
        }
    }
    Ok(())
}
