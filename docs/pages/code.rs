//! A file of code (`.rt`): its structs, enums, constants and functions, each function with its contract, and its `use` lines.

use crate::antt::{joined, lines, used, Line, Use};

#[derive(Clone, Copy, Debug, PartialEq, Eq)]
pub enum Kind {
    Struct,
    Enum,
    Constant,
    /// a function: its lines are the signature with `requires` and `ensures`, without the body
    Contract,
}

impl Kind {
    pub fn word(self) -> &'static str {
        match self {
            Kind::Struct => "struct",
            Kind::Enum => "enum",
            Kind::Constant => "constant",
            Kind::Contract => "contract",
        }
    }
}

#[derive(Clone, Debug)]
pub struct Item {
    pub kind: Kind,
    pub name: String,
    pub lines: Vec<Line>,
    /// the fields of a struct, the variants and fields of an enum, the parameters of a function
    pub parts: Vec<String>,
}

#[derive(Default)]
pub struct File {
    /// `ghost use`: the definitions that contracts name
    pub ghosts: Vec<Use>,
    /// `use a::b::C` and `pub use a::f`, as (local name, path)
    pub passed: Vec<(String, Vec<String>)>,
    pub items: Vec<Item>,
}

pub fn parse(text: &str) -> File {
    let mut file = File::default();
    let all = lines(text, "//");
    let mut at = 0;
    while at < all.len() {
        let line = all[at].text.as_str();
        let plain = line.strip_prefix("pub ").unwrap_or(line);
        if line.starts_with("ghost use ") || plain.starts_with("use ") {
            let end = at + all[at..].iter().take_while(|l| !l.text.ends_with(';')).count();
            let whole = joined(&all[at..all.len().min(end + 1)]);
            let plain = whole.strip_prefix("pub ").unwrap_or(&whole);
            if let Some(rest) = plain.strip_prefix("ghost use ") {
                file.ghosts.extend(used(rest));
            } else if let Some(rest) = plain.strip_prefix("use ") {
                file.passed.extend(brought(rest.trim_end_matches(';')));
            }
            at = end + 1;
            continue;
        }
        let Some((kind, rest)) = begun(plain) else {
            at += 1;
            continue;
        };
        let name: String = rest.chars().take_while(|c| c.is_alphanumeric() || *c == '_').collect();
        let mut own = vec![all[at].clone()];
        at += 1;
        let ends = |l: &str| match kind {
            Kind::Contract => l.ends_with('{'),
            _ => l.ends_with(';') || l == "}",
        };
        let mut closed = ends(&own[0].text) && own[0].indent == 0;
        while !closed && at < all.len() {
            let l = all[at].clone();
            at += 1;
            closed = l.indent == 0 && ends(&l.text);
            own.push(l);
        }
        if kind == Kind::Contract {
            let last = own.len() - 1;
            own[last].text = own[last].text.trim_end_matches('{').trim_end().to_string();
            own.retain(|l| !l.text.is_empty());
        }
        let parts = parts_of(kind, &own);
        file.items.push(Item { kind, name, lines: own, parts });
    }
    file
}

/// What `use a::b::C`, `use a::{b, C}` or `use a::C as D` brings, as (local name, path).
fn brought(path: &str) -> Vec<(String, Vec<String>)> {
    let (before, names) = path.split_once('{').unwrap_or(("", path));
    let before: Vec<&str> = before.split("::").filter(|p| !p.is_empty()).collect();
    let names = names.trim_end_matches('}').split(',').map(str::trim).filter(|n| !n.is_empty());
    names
        .map(|n| {
            let (path, local) = n.split_once(" as ").map_or((n, None), |(p, l)| (p, Some(l)));
            let mut way: Vec<String> = before.iter().map(|p| p.to_string()).collect();
            way.extend(path.split("::").filter(|p| *p != "self").map(str::to_string));
            let local =
                local.map_or_else(|| way.last().cloned().unwrap_or_default(), str::to_string);
            (local, way)
        })
        .collect()
}

fn begun(line: &str) -> Option<(Kind, &str)> {
    let kinds = [
        ("struct ", Kind::Struct),
        ("enum ", Kind::Enum),
        ("const ", Kind::Constant),
        ("fn ", Kind::Contract),
    ];
    kinds.iter().find_map(|(word, kind)| line.strip_prefix(word).map(|rest| (*kind, rest)))
}

/// Fields, variants and parameters: a word before `:` (not `::`), and of an enum a word that begins a line.
fn parts_of(kind: Kind, own: &[Line]) -> Vec<String> {
    let mut found = Vec::new();
    if kind == Kind::Constant {
        return found;
    }
    for line in own {
        let text = line.text.trim_start();
        if text.starts_with("requires") || text.starts_with("ensures") {
            break;
        }
        if kind == Kind::Enum && line.indent == 4 {
            found.push(text.chars().take_while(|c| c.is_alphanumeric() || *c == '_').collect());
        }
        let chars: Vec<char> = text.chars().collect();
        for i in 0..chars.len() {
            let colon = chars[i] == ':'
                && chars.get(i + 1) != Some(&':')
                && (i == 0 || chars[i - 1] != ':');
            if colon {
                let from = (0..i)
                    .rev()
                    .take_while(|&j| chars[j].is_alphanumeric() || chars[j] == '_')
                    .last();
                if let Some(from) = from {
                    found.push(chars[from..i].iter().collect());
                }
            }
        }
    }
    found
}

#[cfg(test)]
mod tests {
    use super::*;

    const TEXT: &str = "\
// code
ghost use Rattle.x.specs.S.{one};
use a::b::C;
pub use d::f;
use e::{
    g, h as i,
};

#[derive(Clone, Copy)]

pub struct T(pub u32);

pub struct N {
    pub x: u8,
    pub y: [u8; 4],
}

pub enum E {
    One,
    Two(T),
    Three { number: u8, place: usize },
}

pub const K: u8 = 3;

// f
pub fn g(n: N, m: &mut [u8]) -> E
    requires { m.old ≡ m.old }
    ensures kept { one result m.new ≡ n }
    ensures known {
        result ≡ result }
{
    let q = 3;
    E::One
}

fn main() {
    g();
}
";

    #[test]
    fn items() {
        let f = parse(TEXT);
        let names: Vec<&str> = f.items.iter().map(|i| i.name.as_str()).collect();
        assert_eq!(names, ["T", "N", "E", "K", "g", "main"]);
        assert_eq!(f.items[1].parts, ["x", "y"]);
        assert_eq!(f.items[2].parts, ["One", "Two", "Three", "number", "place"]);
        assert_eq!(f.passed[1], ("f".to_string(), vec!["d".to_string(), "f".to_string()]));
        assert_eq!(f.passed[2], ("g".to_string(), vec!["e".to_string(), "g".to_string()]));
        assert_eq!(f.passed[3], ("i".to_string(), vec!["e".to_string(), "h".to_string()]));
        assert_eq!(f.ghosts.len(), 1);
    }

    #[test]
    fn a_body_is_no_part_of_a_contract() {
        let f = parse(TEXT);
        assert_eq!(f.items[4].lines.len(), 5);
        assert_eq!(f.items[4].parts, ["n", "m"]);
        assert_eq!(f.items[5].lines.len(), 1);
    }
}
