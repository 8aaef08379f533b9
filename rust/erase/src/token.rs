//! The tokens of a text, in which Rust and terms of proofs stand.

use crate::fault::Fault;

/// What a token is.
#[derive(Clone, Copy, Debug, PartialEq, Eq)]
pub enum Sort {
    Word,
    Lifetime,
    Number,
    /// A text or a character in quotes.
    Quoted,
    Sign,
    Space,
    Comment,
    /// `///`, which belongs to the item behind it.
    Doc,
}

/// A token, with its first byte and its line.
#[derive(Clone, Copy, Debug)]
pub struct Token<'a> {
    pub sort: Sort,
    pub text: &'a str,
    pub at: usize,
    pub line: usize,
}

impl Token<'_> {
    /// The byte behind it.
    pub fn end(&self) -> usize {
        self.at + self.text.len()
    }
}

/// All tokens, spaces and comments among them.
pub fn tokens<'a>(path: &str, text: &'a str) -> Result<Vec<Token<'a>>, Fault> {
    let (mut found, mut at, mut line) = (Vec::new(), 0, 1);
    while at < text.len() {
        let rest = &text[at..];
        let (sort, len) = first(rest)
            .ok_or_else(|| Fault::new(path, line, "no token is known that begins so"))?;
        let token = Token {
            sort,
            text: &rest[..len],
            at,
            line,
        };
        line += token.text.matches('\n').count();
        at += len;
        found.push(token);
    }
    Ok(found)
}

/// The sort and the length of the first token.
fn first(rest: &str) -> Option<(Sort, usize)> {
    let head = rest.chars().next()?;
    if head.is_whitespace() {
        return Some((Sort::Space, run(rest, char::is_whitespace)));
    }
    if rest.starts_with("//") {
        let is_doc = rest.starts_with("///") && !rest.starts_with("////");
        let sort = if is_doc { Sort::Doc } else { Sort::Comment };
        return Some((sort, run(rest, |c| c != '\n')));
    }
    if rest.starts_with("/*") {
        return None;
    }
    if let Some(len) = quoted(rest) {
        return Some((Sort::Quoted, len));
    }
    match head {
        '"' => None,
        '\'' => Some(lifetime(rest)),
        _ if head.is_ascii_digit() => Some((Sort::Number, number(rest))),
        _ if is_in_word(head) => Some((Sort::Word, run(rest, is_in_word))),
        _ if rest.starts_with("::") || rest.starts_with("->") => Some((Sort::Sign, 2)),
        _ => Some((Sort::Sign, head.len_utf8())),
    }
}

/// The bytes in front that are all such.
fn run(rest: &str, is_such: impl Fn(char) -> bool) -> usize {
    rest.find(|c| !is_such(c)).unwrap_or(rest.len())
}

fn is_in_word(c: char) -> bool {
    c.is_alphanumeric() || c == '_'
}

fn number(rest: &str) -> usize {
    let whole = run(rest, is_in_word);
    let part = &rest[whole..];
    let is_part = part.starts_with('.') && part[1..].starts_with(|c: char| c.is_ascii_digit());
    whole
        + if is_part {
            1 + run(&part[1..], is_in_word)
        } else {
            0
        }
}

/// A lifetime, or a lone quote, as in the names of proofs.
fn lifetime(rest: &str) -> (Sort, usize) {
    match run(&rest[1..], is_in_word) {
        0 => (Sort::Sign, 1),
        len => (Sort::Lifetime, 1 + len),
    }
}

/// The length of a text or a character, of bytes too. Raw texts are not known.
fn quoted(rest: &str) -> Option<usize> {
    let prefix = usize::from(rest.starts_with("b\"") || rest.starts_with("b'"));
    let body = &rest[prefix..];
    let quote = body.chars().next().filter(|c| "\"'".contains(*c))?;
    let mut chars = body.char_indices().skip(1);
    let mut count = 0;
    while let Some((at, c)) = chars.next() {
        match c {
            _ if c == quote && (quote == '"' || count == 1) => return Some(prefix + at + 1),
            '\\' if quote == '\'' => return body[at + 2..].find('\'').map(|n| prefix + at + n + 3),
            '\\' => drop(chars.next()),
            _ => {}
        }
        count += 1;
        if quote == '\'' && count > 1 {
            return None;
        }
    }
    None
}
