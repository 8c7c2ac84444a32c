//! What a piece of text names: its words, looked up in the scope of their file, without the words that the text itself binds.

use crate::antt::{self, words, Kind};
use crate::repo::{Repo, Thing};
use crate::tokens::{tokens, Token};
use std::collections::{BTreeMap, BTreeSet};

/// Words of the language, and what it has without a `use`.
#[rustfmt::skip]
const LANGUAGE: &[&str] = &[
    "abbrev", "unfoldable", "pub", "data", "record", "where", "module", "let", "in", "Type", "_",
    "requires", "ensures", "result", "fn", "mut",
];

/// The names in scope: what each stands for. An operator `◌≡◌` stands under its sign, and `if◌then◌else◌` under each of its words.
pub struct Scope {
    names: BTreeMap<String, Vec<Thing>>,
    aliases: BTreeMap<String, String>,
}

pub fn sign(name: &str) -> String {
    let bare = name.trim_matches('◌');
    if bare.is_empty() {
        name.to_string()
    } else {
        bare.replace('◌', " ")
    }
}

/// The words under which a name is found.
fn signs(name: &str) -> Vec<String> {
    sign(name).split(' ').map(str::to_string).collect()
}

impl Scope {
    fn of_uses(repo: &Repo, uses: &[antt::Use]) -> Result<Scope, String> {
        let mut scope = Scope { names: BTreeMap::new(), aliases: BTreeMap::new() };
        for u in uses {
            match &u.name {
                Some(name) => {
                    let things = repo.named(&u.path, name)?;
                    for word in signs(&u.local) {
                        scope.names.insert(word, things.clone());
                    }
                }
                None => {
                    scope.aliases.insert(u.local.clone(), u.path.clone());
                }
            }
        }
        Ok(scope)
    }

    /// The scope of a file of definitions or theorems.
    pub fn of_file(repo: &Repo, file: &str) -> Result<Scope, String> {
        let parsed = &repo.antt[file];
        let mut scope = Scope::of_uses(repo, &parsed.uses).map_err(|e| format!("{file}: {e}"))?;
        for d in &parsed.declarations {
            let mut own = vec![d.name.clone()];
            if d.kind == Kind::Data {
                own.extend(d.parts.iter().cloned());
            }
            for name in own {
                let things = repo.in_file(file, &name);
                for word in signs(&name) {
                    scope.names.insert(word, things.clone());
                }
            }
        }
        Ok(scope)
    }

    /// The scope of the contracts of a file of code.
    pub fn of_code(repo: &Repo, file: &str) -> Result<Scope, String> {
        let parsed = &repo.code[file];
        let mut scope = Scope::of_uses(repo, &parsed.ghosts).map_err(|e| format!("{file}: {e}"))?;
        let krate = file.split('/').next().unwrap_or("");
        for (local, path) in &parsed.passed {
            if let Some(thing) = repo.passed(krate, path) {
                scope.names.entry(local.clone()).or_insert(vec![thing]);
            }
        }
        for (i, item) in parsed.items.iter().enumerate() {
            scope.names.entry(item.name.clone()).or_insert(vec![Thing::Coded(file.into(), i)]);
        }
        Ok(scope)
    }
}

/// What was found in a text.
#[derive(Default)]
pub struct Found {
    pub things: BTreeSet<Thing>,
    /// words that nothing in scope explains
    pub unknown: BTreeSet<String>,
}

impl Found {
    /// Takes in what some words name. What they bind is no name of the scope from there to the end of the bracket around it; `bound` is
    /// bound from the start. Gives what is bound at the end.
    fn take(
        &mut self,
        repo: &Repo,
        scope: &Scope,
        tokens: &[Token],
        bound: &[String],
    ) -> Result<Vec<String>, String> {
        let mut names = bound.to_vec();
        let mut brackets = Vec::new();
        let mut lets = Vec::new();
        for (i, token) in tokens.iter().enumerate() {
            match token {
                Token::Symbol(s) if s == "(" || s == "{" => {
                    brackets.push((names.len(), binder(tokens, i)))
                }
                Token::Symbol(s) if s == ")" || s == "}" => {
                    let (before, own) = brackets.pop().unwrap_or((names.len(), Vec::new()));
                    names.truncate(before.max(bound.len()));
                    names.extend(own);
                }
                Token::Symbol(s) if s == "λ" => names.extend(abstracted(tokens, i)),
                Token::Name(n) if n == "let" => {
                    lets.push(tokens.get(i + 1).and_then(Token::name).unwrap_or("_").to_string())
                }
                Token::Name(n) if n == "in" => names.extend(lets.pop()),
                Token::Name(n)
                    if LANGUAGE.contains(&n.as_str())
                        || is_label(tokens, i)
                        || is_clause(tokens, i)
                        || is_binding(tokens, i) => {}
                Token::Name(n) if names.contains(n) => {}
                Token::Name(n) => self.look_up(scope, n),
                Token::Symbol(s) if scope.names.contains_key(s) => self.look_up(scope, s),
                // a field of what is bound
                Token::Qualified(before, _)
                    if names.contains(before) || LANGUAGE.contains(&before.as_str()) => {}
                Token::Qualified(alias, name) => match scope.aliases.get(alias) {
                    Some(path) => self.things.extend(repo.named(path, name)?),
                    // `Memory.Kept`: a variant of a type; or a field of what a definition gives
                    None if scope.names.contains_key(alias) => self.look_up(scope, alias),
                    None => {
                        self.unknown.insert(format!("{alias}.{name}"));
                    }
                },
                _ => {}
            }
        }
        Ok(names)
    }

    fn look_up(&mut self, scope: &Scope, name: &str) {
        match scope.names.get(name) {
            Some(things) => self.things.extend(things.iter().cloned()),
            None => {
                self.unknown.insert(name.to_string());
            }
        }
    }
}

/// `record { field = ..; field = .. }`: whether the name at i is such a field.
fn is_label(tokens: &[Token], i: usize) -> bool {
    let before = i > 0 && (tokens[i - 1].is("{") || tokens[i - 1].is(";"));
    before && tokens.get(i + 1).is_some_and(|t| t.is("="))
}

/// `ensures kept { .. }`: whether the name at i is such a clause's.
fn is_clause(tokens: &[Token], i: usize) -> bool {
    let kind = i.checked_sub(1).and_then(|j| tokens[j].name());
    matches!(kind, Some("requires" | "ensures")) && tokens.get(i + 1).is_some_and(|t| t.is("{"))
}

/// The names a, b of `(a b : ..)` or `{a b : ..}`, whose bracket is at i.
fn binder(tokens: &[Token], i: usize) -> Vec<String> {
    listed(tokens, i, ":")
}

/// The names a, b of `λ a b.`
fn abstracted(tokens: &[Token], i: usize) -> Vec<String> {
    listed(tokens, i, ".")
}

/// The names behind i, if `end` comes behind them.
fn listed(tokens: &[Token], i: usize, end: &str) -> Vec<String> {
    let names: Vec<String> =
        tokens[i + 1..].iter().map_while(Token::name).map(str::to_string).collect();
    let closed = tokens.get(i + 1 + names.len()).is_some_and(|t| t.is(end));
    if closed {
        names
    } else {
        Vec::new()
    }
}

/// Whether the name at i is one that is being bound there.
fn is_binding(tokens: &[Token], i: usize) -> bool {
    if i > 0 && tokens[i - 1].name() == Some("let") {
        return true;
    }
    let start = (0..i).rev().find(|&j| tokens[j].name().is_none());
    start.is_some_and(|j| {
        let opens = tokens[j].is("(") || tokens[j].is("{");
        (opens && !binder(tokens, j).is_empty())
            || (tokens[j].is("λ") && !abstracted(tokens, j).is_empty())
    })
}

/// The names that the left side of an equation binds: what is no constructor in scope.
fn matched(repo: &Repo, scope: &Scope, left: &[Token]) -> Vec<String> {
    let builds = |name: &str| {
        let things = scope.names.get(name).map(Vec::as_slice).unwrap_or(&[]);
        things.iter().any(|t| match t {
            Thing::Declared(file, at) => {
                repo.declaration(file, *at).parts.iter().any(|p| p == name)
            }
            Thing::Coded(file, at) => repo.item(file, *at).parts.iter().any(|p| p == name),
            Thing::Kit(_, kits) => builds_in_kit(kits),
        })
    };
    left.iter().skip(1).filter_map(Token::name).filter(|n| !builds(n)).map(str::to_string).collect()
}

/// Whether a name of the kit is a constructor's.
fn builds_in_kit(name: &str) -> bool {
    name.starts_with(char::is_uppercase)
        || matches!(name, "zero" | "suc" | "true" | "false" | "pos" | "negsuc" | "refl")
}

/// What the statement of a declaration names: its head, and the headers around it.
pub fn in_statement(repo: &Repo, file: &str, at: usize) -> Result<Found, String> {
    let mut found = Found::default();
    head(repo, &Scope::of_file(repo, file)?, file, at, &mut found)?;
    found.things.remove(&Thing::Declared(file.into(), at));
    Ok(found)
}

/// Takes in a head with the headers around it; gives what the headers bind. Each constructor binds for itself, each field for the next.
fn head(
    repo: &Repo,
    scope: &Scope,
    file: &str,
    at: usize,
    found: &mut Found,
) -> Result<Vec<String>, String> {
    let d = repo.declaration(file, at);
    let mut outer = Vec::new();
    for h in &d.headers {
        outer = found.take(repo, scope, &words(&repo.antt[file].headers[*h]), &outer)?;
    }
    let (first, parts) = d.split();
    let inner = found.take(repo, scope, &words(first), &outer)?;
    let mut fields = inner.clone();
    for part in parts {
        let mut bound = fields.clone();
        if d.kind == Kind::Record {
            let own: Vec<Token> = words(part);
            fields.extend(
                own.iter()
                    .take_while(|t| !t.is(":"))
                    .filter_map(Token::name)
                    .filter(|n| *n != "pub")
                    .map(str::to_string),
            );
            bound = fields.clone();
        }
        found.take(repo, scope, &words(part), &bound)?;
    }
    Ok(outer)
}

/// What a definition names: head, headers and equations. (The parameters of a module are bound in the equations too.)
pub fn in_definition(repo: &Repo, file: &str, at: usize) -> Result<Found, String> {
    let scope = Scope::of_file(repo, file)?;
    let mut found = Found::default();
    let outer = head(repo, &scope, file, at, &mut found)?;
    for equation in &repo.declaration(file, at).equations {
        let tokens = words(equation);
        let end = equals(&tokens).unwrap_or(tokens.len());
        let mut names = outer.clone();
        names.extend(matched(repo, &scope, &tokens[..end]));
        found.take(repo, &scope, &tokens, &names)?;
    }
    found.things.remove(&Thing::Declared(file.into(), at));
    Ok(found)
}

/// The `=` between the sides of an equation: the first outside brackets.
fn equals(tokens: &[Token]) -> Option<usize> {
    let mut depth = 0;
    for (i, t) in tokens.iter().enumerate() {
        if t.is("(") || t.is("{") {
            depth += 1;
        } else if t.is(")") || t.is("}") {
            depth -= 1;
        } else if t.is("=") && depth == 0 {
            return Some(i);
        }
    }
    None
}

/// Types that the code has of itself.
const PLAIN_TYPES: &[&str] =
    &["u8", "u16", "u32", "u64", "usize", "i32", "i64", "bool", "const", "struct", "enum", "Self", "Option", "Result"];

/// What a struct, enum, constant or contract names.
pub fn in_code(repo: &Repo, file: &str, at: usize) -> Result<Found, String> {
    let scope = Scope::of_code(repo, file)?;
    let item = repo.item(file, at);
    let text: Vec<&str> = item.lines.iter().map(|l| l.text.as_str()).collect();
    let mut tokens = tokens(&text.join("\n"));
    let plain = PLAIN_TYPES.iter().map(|t| t.to_string());
    let parts = item.parts.iter().filter(|p| !scope.names.contains_key(*p)).cloned();
    let names: Vec<String> = plain.chain(parts).chain(lifetimes(&tokens)).collect();
    let mut found = Found::default();
    let krate = file.split('/').next().unwrap_or("");
    for path in pathed(&mut tokens) {
        match repo.passed(krate, &path) {
            Some(thing) => {
                found.things.insert(thing);
            }
            None => {
                found.unknown.insert(path.join("::"));
            }
        }
    }
    found.take(repo, &scope, &tokens, &names)?;
    found.things.remove(&Thing::Coded(file.into(), at));
    Ok(found)
}

/// The names of lifetimes: `'a`.
fn lifetimes(tokens: &[Token]) -> Vec<String> {
    let marked = tokens.windows(2).filter(|w| w[0].is("'"));
    marked.filter_map(|w| w[1].name()).map(str::to_string).collect()
}

/// Takes the paths `a::B` out of some words.
fn pathed(tokens: &mut Vec<Token>) -> Vec<Vec<String>> {
    let mut found = Vec::new();
    let mut kept: Vec<Token> = Vec::new();
    let mut i = 0;
    while i < tokens.len() {
        let mut path = Vec::new();
        while let Some(name) = tokens.get(i + 2 * path.len()).and_then(Token::name) {
            path.push(name.to_string());
            if !tokens.get(i + 2 * path.len() - 1).is_some_and(|t| t.is("::")) {
                break;
            }
        }
        if path.len() > 1 {
            i += 2 * path.len() - 1;
            found.push(path);
        } else {
            kept.push(tokens[i].clone());
            i += 1;
        }
    }
    *tokens = kept;
    found
}

#[cfg(test)]
mod tests {
    use super::*;

    const CODE: &str = "\
ghost use Rattle.std.specs.Prelude.{◌≡◌};
ghost use Rattle.x.specs.S.{same};
pub struct T {
    pub a: u8,
}

pub enum E {
    One(T),
}

pub const K: u8 = 3;

pub fn f(t: T) -> E
    ensures whole { result ≡ same t }
    ensures part { result.a ≡ t.a }
{
    g()
}
";

    const SPECS: &str = "\
use Rattle.std.specs.Prelude.{◌≡◌, ℕ}
use Rattle.x.specs.declared.T.{T}
use Rattle.x.specs.declared.E.TheVariants.{One}
use Rattle.x.specs.declared.TheConstants.{K}
abbrev pub help : T → ℕ
help t = t.a

abbrev pub same : T → ℕ → ℕ
same help k = k
same t (One k) = help t

abbrev pub most : ℕ
most = K
";

    const PROOFS: &str = "\
use Rattle.x.specs.S.{same}
use Rattle.x.proofs.f.Reads as reads
module _ (same : A) where
  pub holds : same ≡ (b : reads.Post) → zz
  holds = other
";

    fn repo() -> Repo {
        let mut repo = Repo::default();
        let files =
            [("x/src/lib.rt", CODE), ("x/specs/S.antt", SPECS), ("x/proofs/P.antt", PROOFS)];
        for (name, text) in files {
            repo.add(name.into(), text.into());
        }
        repo
    }

    #[test]
    fn a_definition_names_others_but_not_what_it_binds() {
        let r = repo();
        let found = in_definition(&r, "x/specs/S.antt", 1).unwrap();
        assert!(found.things.contains(&Thing::Declared("x/specs/S.antt".into(), 0)));
        assert!(found.things.contains(&Thing::Coded("x/src/lib.rt".into(), 1)));
        assert!(found.unknown.is_empty());
    }

    #[test]
    fn a_definition_names_constants() {
        let found = in_definition(&repo(), "x/specs/S.antt", 2).unwrap();
        assert!(found.things.contains(&Thing::Coded("x/src/lib.rt".into(), 2)));
    }

    #[test]
    fn a_word_of_an_operator_names_it() {
        let mut r = repo();
        let text = "use Rattle.std.specs.Prelude.{if◌then◌else◌}\nabbrev pub c : b\nc = if b then x else y\n";
        r.add("x/specs/C.antt".into(), text.into());
        let found = in_definition(&r, "x/specs/C.antt", 0).unwrap();
        let choice = Thing::Kit("Rattle.std.specs.Prelude".into(), "if◌then◌else◌".into());
        assert_eq!(found.things.into_iter().collect::<Vec<_>>(), [choice]);
        assert_eq!(found.unknown.into_iter().collect::<Vec<_>>(), ["b", "x", "y"]);
    }

    #[test]
    fn a_statement_names_contracts_and_not_what_its_proof_names() {
        let found = in_statement(&repo(), "x/proofs/P.antt", 0).unwrap();
        assert!(found.things.contains(&Thing::Coded("x/src/lib.rt".into(), 3)));
        assert!(!found.things.contains(&Thing::Declared("x/specs/S.antt".into(), 1)));
        assert_eq!(found.unknown.iter().cloned().collect::<Vec<_>>(), ["A", "zz"]);
    }

    #[test]
    fn what_is_bound_is_so_to_the_end_of_its_bracket() {
        let mut r = repo();
        let text = "\
use Rattle.x.specs.S.{same, help}
pub p : ((same : ℕ) → same) → help
pub q : ((same : ℕ) → help) → same
";
        r.add("x/proofs/B.antt".into(), text.into());
        let same = Thing::Declared("x/specs/S.antt".into(), 1);
        assert!(!in_statement(&r, "x/proofs/B.antt", 0).unwrap().things.contains(&same));
        assert!(in_statement(&r, "x/proofs/B.antt", 1).unwrap().things.contains(&same));
    }

    #[test]
    fn a_contract_names_types_and_definitions() {
        let found = in_code(&repo(), "x/src/lib.rt", 3).unwrap();
        assert!(found.things.contains(&Thing::Coded("x/src/lib.rt".into(), 0)));
        assert!(found.things.contains(&Thing::Declared("x/specs/S.antt".into(), 1)));
        let equal = Thing::Kit("Rattle.std.specs.Prelude".into(), "◌≡◌".into());
        assert!(found.things.contains(&equal));
        assert!(found.unknown.is_empty());
    }

    #[test]
    fn a_signature_may_have_paths_and_lifetimes() {
        let mut r = repo();
        r.add(
            "y/src/lib.rt".into(),
            "pub fn g<'a>(t: x::T, s: &'a mut [u8]) -> &'a [u8] {\n    s\n}\n".into(),
        );
        let found = in_code(&r, "y/src/lib.rt", 0).unwrap();
        assert_eq!(
            found.things.into_iter().collect::<Vec<_>>(),
            [Thing::Coded("x/src/lib.rt".into(), 0)]
        );
        assert!(found.unknown.is_empty());
    }

    #[test]
    fn an_import_of_nothing_is_an_error() {
        let mut r = repo();
        r.add("x/specs/Q.antt".into(), "use Rattle.x.specs.S.{gone}\npub q : gone\n".into());
        assert!(in_statement(&r, "x/specs/Q.antt", 0).is_err());
    }
}
