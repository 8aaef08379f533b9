//! What is done to a file, and the file that it leaves.

use crate::fault::Fault;
use crate::kind::KINDS;
use crate::source::Source;
use std::collections::BTreeMap;
use std::ops::Range;

/// How often each kind stands.
pub type Tally = BTreeMap<&'static str, usize>;

/// The edits of a file, in order.
#[derive(Default)]
pub struct Edits {
    list: Vec<(Range<usize>, String)>,
    pub tally: Tally,
}

impl Edits {
    /// Takes an item out, with the `///` in front of it.
    pub fn cut_item(
        &mut self,
        source: &Source,
        tokens: Range<usize>,
        kind: &'static str,
    ) -> Result<(), Fault> {
        let bytes = start_of_docs(source, tokens.start)..source.tokens[tokens.end - 1].end();
        self.add(
            source,
            tokens.start,
            source.word(tokens.start),
            bytes,
            kind,
            "",
        )
    }

    /// Puts a text in the place of these tokens. With none it takes the space behind them too.
    pub fn replace(
        &mut self,
        source: &Source,
        tokens: Range<usize>,
        kind: &'static str,
        put: &str,
    ) -> Result<(), Fault> {
        let first = &source.tokens[tokens.start];
        let mut bytes = first.at..source.tokens[tokens.end - 1].end();
        if let Some(next) = source.tokens.get(tokens.end).filter(|_| put.is_empty()) {
            let gap = &source.text[bytes.end..next.at];
            bytes.end += if gap.contains(['\n', '/']) {
                0
            } else {
                gap.len()
            };
        }
        self.add(source, tokens.start, first.text, bytes, kind, put)
    }

    /// Puts a text behind a token.
    pub fn insert(
        &mut self,
        source: &Source,
        behind: usize,
        kind: &'static str,
        put: &str,
    ) -> Result<(), Fault> {
        let end = source.tokens[behind].end();
        self.add(source, behind, "", end..end, kind, put)
    }

    /// Puts a text in front of a token.
    pub fn insert_before(
        &mut self,
        source: &Source,
        token: usize,
        kind: &'static str,
        put: &str,
    ) -> Result<(), Fault> {
        let start = source.tokens[token].at;
        self.add(source, token, "", start..start, kind, put)
    }

    fn add(
        &mut self,
        source: &Source,
        at: usize,
        begin: &str,
        bytes: Range<usize>,
        kind: &'static str,
        put: &str,
    ) -> Result<(), Fault> {
        let Some((_, begins)) = KINDS.iter().find(|k| k.0 == kind) else {
            return Err(source.fault(at, format!("`{kind}` is no kind of the list")));
        };
        if !begins.contains(&begin) {
            return Err(source.fault(at, format!("`{begin}` begins no `{kind}`")));
        }
        *self.tally.entry(kind).or_default() += 1;
        self.list.push((bytes, put.into()));
        Ok(())
    }

    /// Whether the byte is taken out.
    pub fn takes(&self, at: usize) -> bool {
        self.list.iter().any(|(bytes, _)| bytes.contains(&at))
    }

    /// The file that is left: each line keeps its number, and what is erased of whole lines is a comment.
    pub fn apply(mut self, source: &Source) -> Result<(String, Tally), Fault> {
        self.list.sort_by_key(|(bytes, _)| (bytes.start, bytes.end));
        let (mut left, mut at) = (String::new(), 0);
        for (bytes, put) in &self.list {
            if bytes.start < at {
                return Err(Fault::new(
                    source.path,
                    0,
                    format!("edits overlap at byte {at}"),
                ));
            }
            left += &source.text[at..bytes.start];
            left += put;
            left.extend(source.text[bytes.clone()].matches('\n'));
            at = bytes.end;
        }
        left += &source.text[at..];
        if left.lines().count() != source.text.lines().count() {
            return Err(Fault::new(source.path, 0, "a line was lost"));
        }
        let lines = source
            .text
            .lines()
            .zip(left.lines())
            .map(|(was, is)| line(was, is) + "\n");
        Ok((lines.collect(), self.tally))
    }
}

/// The first byte of the `///` in the lines before a token, or its own.
fn start_of_docs(source: &Source, token: usize) -> usize {
    let (mut at, mut line) = (source.tokens[token].at, source.tokens[token].line);
    while let Some(&doc) = source.docs.get(&(line - 1)) {
        (at, line) = (doc, line - 1);
    }
    at
}

/// A line that is left, with what is gone of it as a comment where all of it is gone.
fn line(was: &str, is: &str) -> String {
    let (text, rest) = (was.trim_start(), is.trim());
    let indent = &was[..was.len() - text.len()];
    match rest {
        _ if was == is => was.into(),
        "" if text.is_empty() => String::new(),
        "" if text.starts_with("//") && !text.starts_with("///") => was.into(),
        "" => format!("{indent}// {text}"),
        ";" => format!("{indent}; // {text}"),
        _ => is.trim_end().into(),
    }
}
