//! The words of a source text: names, numbers, projections and symbols. Comments are no part of it.

#[derive(Clone, Debug, PartialEq, Eq)]
pub enum Token {
    /// `tidied`, `can_frame_number`, `d0`, `ℕ`
    Name(String),
    /// `reads.Post`, a name of what an alias stands for; or `n.mode`, a field of what a name stands for
    Qualified(String, String),
    /// `.0`, and `.mode` behind a bracket or another field
    Projection(String),
    /// `65536`, `0x001000`
    Number(String),
    /// `≡`, `++`, `(`
    Symbol(String),
}

/// A line without its comment, which begins with `mark` (`--` in definitions, `//` in code).
pub fn without_comment<'a>(line: &'a str, mark: &str) -> &'a str {
    let mut from = 0;
    while let Some(at) = line[from..].find(mark) {
        let at = from + at;
        if at == 0 || line[..at].ends_with(char::is_whitespace) {
            return line[..at].trim_end();
        }
        from = at + mark.len();
    }
    line.trim_end()
}

fn starts_name(c: char) -> bool {
    (c.is_alphabetic() && c != 'λ') || c == '_'
}

fn in_name(c: char) -> bool {
    (c.is_alphanumeric() && c != 'λ') || matches!(c, '_' | '-' | '\'')
}

fn is_bracket(c: char) -> bool {
    matches!(c, '(' | ')' | '{' | '}' | '[' | ']' | ',' | ';' | '⌜' | '⌝' | 'λ')
}

/// The words of a text that has no comments. (`«frame_type»` is the name frame_type.)
pub fn tokens(text: &str) -> Vec<Token> {
    let chars: Vec<char> = text.chars().filter(|c| !matches!(c, '«' | '»')).collect();
    let mut found = Vec::new();
    let mut at = 0;
    while at < chars.len() {
        let c = chars[at];
        if c.is_whitespace() {
            at += 1;
        } else if c.is_ascii_digit() {
            let from = at;
            while at < chars.len() && in_name(chars[at]) {
                at += 1;
            }
            found.push(Token::Number(chars[from..at].iter().collect()));
        } else if starts_name(c) {
            let name = run(&chars, &mut at);
            if at + 1 < chars.len() && chars[at] == '.' && starts_name(chars[at + 1]) {
                at += 1;
                found.push(Token::Qualified(name, run(&chars, &mut at)));
            } else {
                found.push(Token::Name(name));
            }
        } else if c == '.' && at + 1 < chars.len() && in_name(chars[at + 1]) {
            at += 1;
            found.push(Token::Projection(run(&chars, &mut at)));
        } else if is_bracket(c) {
            found.push(Token::Symbol(c.to_string()));
            at += 1;
        } else {
            let from = at;
            while at < chars.len() && is_operator(chars[at]) {
                at += 1;
            }
            at = at.max(from + 1);
            found.push(Token::Symbol(chars[from..at].iter().collect()));
        }
    }
    found
}

fn is_operator(c: char) -> bool {
    !c.is_whitespace() && !in_name(c) && !is_bracket(c) && c != '.'
}

/// A name from here on.
fn run(chars: &[char], at: &mut usize) -> String {
    let from = *at;
    while *at < chars.len() && in_name(chars[*at]) {
        *at += 1;
    }
    chars[from..*at].iter().collect()
}

/// The text that a hash is taken of: the words with one blank between, and no `,` or `;` before a closing bracket (`rt fmt` sets one
/// where it breaks a line).
pub fn normal(tokens: &[Token]) -> String {
    let words: Vec<String> = tokens.iter().map(word).collect();
    let mut kept = Vec::new();
    for (i, w) in words.iter().enumerate() {
        let closes = words.get(i + 1).is_some_and(|n| matches!(n.as_str(), ")" | "}" | "]"));
        if !(closes && (w == "," || w == ";")) {
            kept.push(w.as_str());
        }
    }
    kept.join(" ")
}

fn word(token: &Token) -> String {
    match token {
        Token::Name(n) | Token::Number(n) | Token::Symbol(n) => n.clone(),
        Token::Qualified(a, n) => format!("{a}.{n}"),
        Token::Projection(n) => format!(".{n}"),
    }
}

impl Token {
    pub fn is(&self, symbol: &str) -> bool {
        matches!(self, Token::Symbol(s) if s == symbol)
    }

    pub fn name(&self) -> Option<&str> {
        match self {
            Token::Name(n) => Some(n),
            _ => None,
        }
    }
}

#[cfg(test)]
mod tests {
    use super::*;

    #[test]
    fn words() {
        let t = tokens("r.node.0 ≡ f (a-b - 0x10) reads.Post λ (x : A). x' ∷ [] (g r).node");
        let said = "r.node .0 ≡ f ( a-b - 0x10 ) reads.Post λ ( x : A ) . x' ∷ [ ] ( g r ) .node";
        assert_eq!(normal(&t), said);
        assert_eq!(t[0], Token::Qualified("r".into(), "node".into()));
        assert_eq!(t[1], Token::Projection("0".into()));
        assert_eq!(t[5], Token::Name("a-b".into()));
        assert_eq!(t[9], Token::Qualified("reads".into(), "Post".into()));
        assert_eq!(t[t.len() - 1], Token::Projection("node".into()));
    }

    #[test]
    fn spacing_and_last_commas_are_no_change() {
        let a = normal(&tokens("record { a = 1; b = (x, y) }"));
        assert_eq!(a, normal(&tokens("record {\n  a = 1;\n  b = (\n x,\n y,\n);\n}")));
        assert_ne!(a, normal(&tokens("record { a = 1; b = (y, x) }")));
    }

    #[test]
    fn comments() {
        assert_eq!(without_comment("  a = b -- why", "--"), "  a = b");
        assert_eq!(without_comment("a--b", "--"), "a--b");
        assert_eq!(without_comment("-- all", "--"), "");
        assert_eq!(without_comment("x; // y", "//"), "x;");
    }
}
