//! The legend of docs/STATEMENTS.md: a plain sentence for every sign, kit's name and kit's projection that occurs in the statements.

use crate::antt::{words, Line};
use crate::repo::Repo;
use crate::tokens::Token;
use std::collections::{BTreeMap, BTreeSet};
use std::fmt::Write;

/// What may occur, in the order of the legend, and what it means.
const ENTRIES: &[(&str, &str)] = &[
    (
        "pub module",
        "`pub NAME : STATEMENT` is a theorem's name and what it says; `module _ (..) where` gives parameters and premises to \
         all below it",
    ),
    (":", "`x : A` says that x is an A"),
    ("→", "`A → B`: if A then B; `(x : A) → B`: for every x of A, B. Between types it is the type of a function"),
    ("( )", "around a parameter or a premise, or as in arithmetic; `(a b : A)` are two parameters"),
    (
        "{ }",
        "around a parameter that is left out where the theorem is used, since it follows from the others; behind `record` \
         around its parts",
    ),
    ("≡", "the two sides are equal; of records and lists: as a whole"),
    ("≢", "the two sides are not equal"),
    ("×", "and; `(x : A) × B`: there is an x of A with B"),
    ("⊎", "or"),
    ("↔", "the one side holds exactly where the other does"),
    ("¬", "`¬ A`: A does not hold"),
    ("⊥", "what never holds; `A → ⊥` says that A does not hold"),
    ("Σ", "there is one such that"),
    (
        "Type",
        "`Type 0`, `Type 1`: what a definition gives is a statement or a type; the number is a level of the logic and says \
         nothing of nodes",
    ),
    ("ℕ", "the numbers 0, 1, 2 and so on; none is too large"),
    ("+ * / % ^", "as in arithmetic; `/` without the rest, `%` is the rest"),
    ("-", "the difference of two numbers, 0 where it would be below 0; within a name it is a hyphen"),
    ("suc zero", "`suc n` is n + 1, `zero` is 0"),
    ("< ≤", "less than, at most"),
    ("Bool true false", "a truth value, and the two there are"),
    ("&& || not", "and, or, not, of truth values"),
    ("cond", "`cond b x y` is x where b is true, else y"),
    ("if then else", "`if b then x else y` is x where b is true, else y"),
    ("IsTrue IsFalse", "the truth value is true; is false"),
    ("eqb leb ltb", "`eqb a b`, `leb a b`, `ltb a b`: whether a is b, at most b, less than b, as a truth value"),
    ("nat_eq nat_le nat_lt ==", "whether a is b, at most b, less than b, and again a is b, as a truth value"),
    ("min max", "the smaller of two numbers, the larger"),
    ("Option Some None", "`Option A`: `Some x` with x an A, or `None`"),
    ("Result Ok Err", "`Result A B`: `Ok x` with x an A, or `Err e` with e a B"),
    ("List", "`List ℕ` is a list of numbers, of any length"),
    ("[ ]", "`[]` is the empty list"),
    ("∷", "`x ∷ xs`: x first, then the list xs"),
    ("++", "one list behind another"),
    ("length", "how many are in a list"),
    ("get_or", "`get_or xs i d`: the element at place i of xs, from 0 on; d where xs ends before it"),
    ("slice_index", "`slice_index xs i`: the number at place i of xs, from 0 on; 0 where xs ends before it"),
    ("slice_get", "`slice_get xs i`: `Some` of the element at place i of xs, from 0 on; `None` where xs ends before it"),
    ("slice_range", "`slice_range xs i j`: the elements of xs from place i up to j, without that at j"),
    ("take drop", "`take k xs`: the first k of xs; `drop k xs`: the others"),
    ("replicate", "`replicate k x`: k times x"),
    ("set slice_set sets", "`set xs i x`, `slice_set xs i x`: the list xs with x at place i; `sets xs i ys`: with ys from place i on"),
    ("All Any", "`All P xs`: P holds of each of xs; `Any P xs`: of one at least"),
    ("sum", "the sum of a list's numbers"),
    ("map", "`map f xs`: f of each of xs"),
    ("bit_and", "the bits that both numbers have"),
    ("λ .", "`λ (x : A). e`: the function that gives e for x"),
    ("let in", "`let x = e in t`: t, with e for x"),
    ("=", "`name x = e` is an equation of a definition; in `record { a = e }` the part a is e"),
    (
        "record ;",
        "`record { a = x; b = y }`: the record whose part a is x and whose part b is y; `record { 0 = x }` is a number of its \
         own kind, as an address",
    ),
    (",", "between the parts of a pair"),
    (
        ".0 .1",
        "the first of a pair, and the rest; of arguments `a.0` is the first, `a.1.0` the second. Of an address, module or \
         group `.0` is its number",
    ),
    ("' ₀ ₁ ₂ ₃", "part of a name: by use `x'` is x afterwards, or a second x, and `x₁` is x in between"),
    ("κ", "part of the name `κs`"),
    ("Lfts", "`κs : Lfts k`: for how long each of k slices is lent; a theorem holds for all"),
    ("signature", "of a function: its parameters and result, as the code declares them"),
    ("ArgsD", "`a : ArgsD signature κs`: any arguments of a call of that function"),
    ("ResD", "`r : ResD signature κs`: any result of that function"),
    (
        "AtExit ended_of ps r",
        "`s : AtExit (ended_of k ps r) κs`: what is in the lent slices when the call returns; `ps` and `r` are the kinds of the \
         function's parameters and result",
    ),
    (
        "Post",
        "`reads.Post κs a r s`: the function's contract allows that a call with the arguments a gives r and leaves s. It is \
         what `ensures` says, as the toolchain generates it",
    ),
    (".now", "the bytes in a lent slice: of an argument when the call begins, of what is left when it returns"),
    (".old .new", "the bytes in a slice that is lent to be changed: when the call begins, and when it returns"),
    ("ref_ptr .ref_ptr", "where a lent slice lies"),
    ("Unit", "what says nothing: it always holds"),
    ("abbrev unfoldable", "a definition: its name and type, and below it its equations, each for one form of the arguments"),
    ("data", "a type or relation given by all its cases: it holds only where one of the lines below gives it"),
];

/// Words of the language that are explained like signs.
const WORDS: &[&str] =
    &["module", "let", "in", "record", "data", "pub", "abbrev", "unfoldable", "Type", "Unit"];

#[derive(Default)]
pub struct Legend {
    used: BTreeSet<String>,
    projections: BTreeSet<String>,
}

impl Legend {
    /// Takes in the words of printed files.
    pub fn read(&mut self, repo: &Repo, files: &BTreeMap<String, Vec<Line>>) {
        for (file, lines) in files {
            let uses = repo.antt[file].uses.iter().filter(|u| u.name.is_none());
            self.take(&words(lines), &uses.map(|u| u.local.as_str()).collect());
        }
    }

    /// Takes in some words, where these aliases stand for files and functions.
    fn take(&mut self, tokens: &[Token], aliases: &BTreeSet<&str>) {
        for token in tokens.iter().cloned() {
            match token {
                Token::Symbol(s) => {
                    self.used.insert(s);
                }
                Token::Projection(p) => {
                    self.projections.insert(p);
                }
                Token::Qualified(alias, n) if aliases.contains(alias.as_str()) => {
                    self.used.insert(n);
                }
                Token::Qualified(before, n) => {
                    self.used.extend(marks(&before));
                    self.projections.insert(n);
                }
                Token::Name(n) if WORDS.contains(&n.as_str()) => {
                    self.used.insert(n);
                }
                Token::Name(n) => self.used.extend(marks(&n)),
                Token::Number(_) => {}
            }
        }
    }

    /// Takes in names of the kit.
    pub fn kit<'a>(&mut self, names: impl Iterator<Item = &'a String>) {
        self.used.extend(names.flat_map(|n| n.split(' ')).map(str::to_string));
    }

    /// The table, or what it lacks.
    pub fn table(&self, repo: &Repo) -> Result<String, String> {
        let fields: BTreeSet<&str> = fields(repo);
        let mut used = self.used.clone();
        used.extend(
            self.projections
                .iter()
                .filter(|p| !fields.contains(p.as_str()))
                .map(|p| format!(".{p}")),
        );
        let lacking: Vec<&str> = used
            .iter()
            .map(String::as_str)
            .filter(|u| !ENTRIES.iter().any(|(words, _)| has(words, u)))
            .collect();
        if !lacking.is_empty() {
            return Err(format!("docs/pages/legend.rs does not explain: {}", lacking.join(" ")));
        }
        let mut out = String::from("| Sign | Meaning |\n|---|---|\n");
        for (words, meaning) in ENTRIES {
            let shown = words.split(' ').filter(|w| used.contains(*w));
            let shown: Vec<String> =
                shown.map(|w| format!("`{}`", w.replace('|', "\\|"))).collect();
            if !shown.is_empty() {
                let _ = writeln!(out, "| {} | {meaning} |", shown.join(" "));
            }
        }
        Ok(out)
    }
}

/// What of a name is no plain letter.
fn marks(name: &str) -> Vec<String> {
    name.chars().filter(|c| !c.is_ascii() || *c == '\'').map(|c| c.to_string()).collect()
}

fn has(words: &str, word: &str) -> bool {
    words.split(' ').any(|w| w == word)
}

/// The fields of every record and struct of the repository.
fn fields(repo: &Repo) -> BTreeSet<&str> {
    let told = repo.antt.values().flat_map(|f| f.declarations.iter().flat_map(|d| d.parts.iter()));
    let coded = repo.code.values().flat_map(|f| f.items.iter().flat_map(|i| i.parts.iter()));
    told.chain(coded).map(String::as_str).collect()
}
