//! A file of definitions or theorems (`.antt`): its `use` lines and its declarations at any depth of `module _ .. where`.

use crate::tokens::{tokens, without_comment, Token};

#[derive(Clone, Copy, Debug, PartialEq, Eq)]
pub enum Kind {
    Data,
    Record,
    /// `abbrev` or `unfoldable`
    Definition,
    /// neither: in `proofs/` a theorem or lemma, whose equations are its proof
    Plain,
}

/// A line as it stands, without its comment.
#[derive(Clone, Debug)]
pub struct Line {
    pub indent: usize,
    pub text: String,
}

#[derive(Clone, Debug)]
pub struct Declaration {
    pub name: String,
    pub kind: Kind,
    pub public: bool,
    /// the `module _` headers around it, outermost first: indices of `File::headers`
    pub headers: Vec<usize>,
    /// what is declared: name and type; of data and records all of it
    pub head: Vec<Line>,
    /// its equations, each with its own lines
    pub equations: Vec<Vec<Line>>,
    /// the constructors of a data type, the fields of a record
    pub parts: Vec<String>,
}

/// `use PATH.{name as local}`, or `use PATH as local` where `name` is none.
#[derive(Clone, Debug, PartialEq, Eq)]
pub struct Use {
    pub path: String,
    pub name: Option<String>,
    pub local: String,
}

impl Declaration {
    /// The lines up to `where`, and those of each constructor or field below it.
    pub fn split(&self) -> (&[Line], Vec<&[Line]>) {
        let typed = matches!(self.kind, Kind::Data | Kind::Record);
        let Some(end) = self.head.iter().position(|l| typed && l.text.ends_with("where")) else {
            return (&self.head, Vec::new());
        };
        let (first, below) = self.head.split_at(end + 1);
        let depth = below.first().map_or(0, |l| l.indent);
        let starts: Vec<usize> = (0..below.len()).filter(|&i| below[i].indent == depth).collect();
        let ends = starts.iter().skip(1).copied().chain([below.len()]);
        (first, starts.iter().zip(ends).map(|(a, b)| &below[*a..b]).collect())
    }
}

#[derive(Default)]
pub struct File {
    pub uses: Vec<Use>,
    pub headers: Vec<Vec<Line>>,
    pub declarations: Vec<Declaration>,
}

/// What a `use` brings; `line` begins behind the word `use`, and may be several lines joined.
pub fn used(line: &str) -> Vec<Use> {
    let line = line.trim().trim_end_matches(';').trim_end();
    if let Some((path, names)) = line.split_once(".{") {
        let names = names.trim_end_matches('}').split(',').map(str::trim).filter(|n| !n.is_empty());
        return names
            .map(|n| {
                let (name, local) = n.split_once(" as ").unwrap_or((n, n));
                Use {
                    path: path.into(),
                    name: Some(name.trim().into()),
                    local: local.trim().into(),
                }
            })
            .collect();
    }
    match line.split_once(" as ") {
        Some((path, local)) => {
            vec![Use { path: path.into(), name: None, local: local.trim().into() }]
        }
        None => {
            let local = line.rsplit('.').next().unwrap_or(line);
            vec![Use { path: line.into(), name: None, local: local.into() }]
        }
    }
}

/// The lines of a text that are more than a comment.
pub fn lines(text: &str, mark: &str) -> Vec<Line> {
    text.lines()
        .map(|l| without_comment(l, mark))
        .filter(|l| !l.trim().is_empty())
        .map(|l| Line { indent: l.len() - l.trim_start().len(), text: l.to_string() })
        .collect()
}

/// A line that begins something, with the deeper lines behind it.
fn items(lines: Vec<Line>) -> Vec<Vec<Line>> {
    let mut found: Vec<Vec<Line>> = Vec::new();
    for line in lines {
        match found.last_mut() {
            Some(item) if closes(&line) || line.indent > item[0].indent && !opens_module(item) => {
                item.push(line)
            }
            _ => found.push(vec![line]),
        }
    }
    found
}

/// Whether a line begins with the bracket that closes one of the lines above.
fn closes(line: &Line) -> bool {
    line.text.trim_start().starts_with(['}', ')', ']'])
}

/// Some lines as one.
pub fn joined(lines: &[Line]) -> String {
    lines.iter().map(|l| l.text.trim()).collect::<Vec<_>>().join(" ")
}

/// Whether these lines are a whole header `module _ .. where`.
fn opens_module(item: &[Line]) -> bool {
    item[0].text.trim_start().starts_with("module ") && item[item.len() - 1].text.ends_with("where")
}

pub fn parse(text: &str) -> File {
    let mut file = File::default();
    let mut open: Vec<(usize, usize)> = Vec::new();
    for item in items(lines(text, "--")) {
        let indent = item[0].indent;
        open.retain(|(depth, _)| *depth < indent);
        let first = item[0].text.trim_start().to_string();
        let plain = first.strip_prefix("pub ").unwrap_or(&first);
        if plain.starts_with("use ") {
            let line = joined(&item);
            let line = line.strip_prefix("pub ").unwrap_or(&line);
            file.uses.extend(used(line.strip_prefix("use ").unwrap_or("")));
        } else if opens_module(&item) {
            open.push((indent, file.headers.len()));
            file.headers.push(item);
        } else if first.starts_with("pub mod ")
            || first.starts_with("mod ")
            || first.starts_with("unfolding ")
        {
            continue;
        } else if let Some((name, kind, public)) = declared(&first) {
            let headers = open.iter().map(|(_, h)| *h).collect();
            let mut d = Declaration {
                name,
                kind,
                public,
                headers,
                head: item,
                equations: Vec::new(),
                parts: Vec::new(),
            };
            d.parts = d.split().1.into_iter().flat_map(|part| part_names(&part[0])).collect();
            file.declarations.push(d);
        } else {
            let name = first.split_whitespace().next().unwrap_or("").to_string();
            let at = file
                .declarations
                .iter()
                .rposition(|d| d.name == name && d.head[0].indent == indent);
            let at = at.or(file.declarations.len().checked_sub(1));
            if let Some(at) = at {
                file.declarations[at].equations.push(item);
            }
        }
    }
    file
}

/// The name, kind and publicity that a line declares, if it declares something.
fn declared(line: &str) -> Option<(String, Kind, bool)> {
    let mut words = line.split_whitespace().peekable();
    let (mut kind, mut public) = (Kind::Plain, false);
    loop {
        match *words.peek()? {
            "abbrev" | "unfoldable" => kind = Kind::Definition,
            "pub" => public = true,
            "data" => kind = Kind::Data,
            "record" => kind = Kind::Record,
            _ => break,
        }
        words.next();
    }
    let name = words.next()?.to_string();
    let typed = words.next() == Some(":");
    (typed || matches!(kind, Kind::Data | Kind::Record)).then_some((name, kind, public))
}

/// The constructors or fields that a line names: `pub x y : ..`
fn part_names(line: &Line) -> Vec<String> {
    let names = line.text.split(" : ").next().unwrap_or("").trim_start();
    let names = names.strip_prefix("pub ").unwrap_or(names);
    names.split_whitespace().map(str::to_string).collect()
}

/// The words of some lines.
pub fn words(lines: &[Line]) -> Vec<Token> {
    lines.iter().flat_map(|l| tokens(&l.text)).collect()
}

#[cfg(test)]
mod tests {
    use super::*;

    const TEXT: &str = "\
-- a file
use Rattle.std.specs.Prelude.{length, get_or as at}
use Rattle.x.proofs.f.Reads as reads
use Rattle.x.specs.S.{
  one,
  two,
}

-- one
abbrev pub one : Node → Kind
one (Some a) = a -- why
one None = zero

pub data Calls : List ℕ → Type 1 where
  none : {n : Node} → Calls []
  more : (a b : ℕ)
      → Calls (a ∷ [])

module _ (n : Node)
    (m : ℕ) where
  -- a theorem
  pub holds : n ≡ n
      → m ≡ m
  unfolding one
  holds = refl
    where
    help : n ≡ n
    help = refl
  module _ (k : ℕ) where
    deep : k ≡ k
    deep = refl

pub record R (a : ℕ) : Type 0 where
  pub x y : ℕ
  pub z : Node
";

    #[test]
    fn declarations() {
        let f = parse(TEXT);
        let names: Vec<&str> = f.declarations.iter().map(|d| d.name.as_str()).collect();
        assert_eq!(names, ["one", "Calls", "holds", "deep", "R"]);
        assert_eq!(f.declarations[0].kind, Kind::Definition);
        assert_eq!(f.declarations[0].equations.len(), 2);
        assert_eq!(f.declarations[1].parts, ["none", "more"]);
        assert_eq!(f.declarations[4].parts, ["x", "y", "z"]);
    }

    #[test]
    fn a_proof_is_no_part_of_a_statement() {
        let f = parse(TEXT);
        let d = &f.declarations[2];
        assert!(d.public && d.kind == Kind::Plain);
        assert_eq!(d.head.len(), 2);
        assert_eq!(d.headers, [0]);
        assert_eq!(f.headers[0].len(), 2);
        assert_eq!(f.declarations[3].headers, [0, 1]);
        assert!(f.declarations[4].headers.is_empty());
    }

    #[test]
    fn uses() {
        let f = parse(TEXT);
        assert_eq!(
            f.uses[1],
            Use {
                path: "Rattle.std.specs.Prelude".into(),
                name: Some("get_or".into()),
                local: "at".into()
            }
        );
        assert_eq!(
            f.uses[2],
            Use { path: "Rattle.x.proofs.f.Reads".into(), name: None, local: "reads".into() }
        );
        assert_eq!(f.uses.len(), 5);
        assert_eq!(
            f.uses[4],
            Use { path: "Rattle.x.specs.S".into(), name: Some("two".into()), local: "two".into() }
        );
    }
}
