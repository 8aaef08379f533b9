//! A file of Rattle: its tokens, and which bracket closes which.

use crate::fault::Fault;
use crate::token::{Sort, Token, tokens};
use std::collections::BTreeMap;

/// A file.
pub struct Source<'a> {
    pub path: &'a str,
    pub text: &'a str,
    /// Its tokens without spaces and comments.
    pub tokens: Vec<Token<'a>>,
    /// The first byte of each `///`, by its line.
    pub docs: BTreeMap<usize, usize>,
    /// Of an opening bracket its closing one.
    partner: BTreeMap<usize, usize>,
}

impl<'a> Source<'a> {
    pub fn new(path: &'a str, text: &'a str) -> Result<Self, Fault> {
        let all = tokens(path, text)?;
        let docs = all.iter().filter(|t| t.sort == Sort::Doc);
        let docs = docs.map(|t| (t.line, t.at)).collect();
        let is_blank = |t: &Token| matches!(t.sort, Sort::Space | Sort::Comment | Sort::Doc);
        let tokens: Vec<_> = all.into_iter().filter(|t| !is_blank(t)).collect();
        let partner = partners(path, &tokens)?;
        Ok(Source {
            path,
            text,
            tokens,
            docs,
            partner,
        })
    }

    /// The text of a token, and none behind the last.
    pub fn word(&self, at: usize) -> &'a str {
        self.tokens.get(at).map_or("", |t| t.text)
    }

    /// The text of the token before.
    pub fn before(&self, at: usize) -> &'a str {
        at.checked_sub(1).map_or("", |at| self.word(at))
    }

    /// Whether these tokens stand there; `_` is any word.
    pub fn is(&self, at: usize, pattern: &str) -> bool {
        let wanted = pattern.split(' ').enumerate();
        let is_word = |at: usize| self.tokens.get(at).is_some_and(|t| t.sort == Sort::Word);
        wanted
            .into_iter()
            .all(|(n, want)| self.word(at + n) == want || want == "_" && is_word(at + n))
    }

    /// The bracket that closes this one.
    pub fn closing(&self, at: usize) -> Result<usize, Fault> {
        let found = self.partner.get(&at).copied();
        found.ok_or_else(|| {
            self.fault(
                at,
                format!("a bracket was expected, not `{}`", self.word(at)),
            )
        })
    }

    /// The first such token outside of brackets, in the brackets that are open here.
    pub fn find(&self, mut at: usize, wanted: &str) -> Option<usize> {
        while at < self.tokens.len() && self.word(at) != wanted {
            if matches!(self.word(at), ")" | "]" | "}") {
                return None;
            }
            at = self.partner.get(&at).unwrap_or(&at) + 1;
        }
        (at < self.tokens.len()).then_some(at)
    }

    pub fn fault(&self, at: usize, text: impl Into<String>) -> Fault {
        let line = self.tokens.get(at).map_or(0, |t| t.line);
        Fault::new(self.path, line, text)
    }
}

fn partners(path: &str, tokens: &[Token]) -> Result<BTreeMap<usize, usize>, Fault> {
    let (mut partner, mut open) = (BTreeMap::new(), Vec::new());
    for (at, token) in tokens
        .iter()
        .enumerate()
        .filter(|(_, t)| t.sort == Sort::Sign)
    {
        let wrong = || Fault::new(path, token.line, "brackets don't match");
        match token.text {
            "(" | "[" | "{" => open.push(at),
            ")" | "]" | "}" => {
                let start: usize = open.pop().ok_or_else(wrong)?;
                if !matches!(
                    (tokens[start].text, token.text),
                    ("(", ")") | ("[", "]") | ("{", "}")
                ) {
                    return Err(wrong());
                }
                partner.insert(start, at);
            }
            _ => {}
        }
    }
    match open.pop() {
        Some(at) => Err(Fault::new(
            path,
            tokens[at].line,
            "a bracket is never closed",
        )),
        None => Ok(partner),
    }
}
