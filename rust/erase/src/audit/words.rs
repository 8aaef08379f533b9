//! Words with their lines, comments aside.

/// A word, a text in quotes, or one other character.
#[derive(Clone, Copy, Debug, PartialEq, Eq)]
pub struct Word<'a> {
    pub text: &'a str,
    pub line: usize,
}

/// The words of a text.
pub fn words(text: &str) -> Vec<Word<'_>> {
    let (mut found, mut rest, mut line) = (Vec::new(), text, 1);
    while let Some(head) = rest.chars().next() {
        let len = length(rest, head);
        let (text, behind) = rest.split_at(len);
        if !head.is_whitespace() && !text.starts_with("//") {
            found.push(Word { text, line });
        }
        line += text.bytes().filter(|b| *b == b'\n').count();
        rest = behind;
    }
    found
}

fn length(rest: &str, head: char) -> usize {
    let until = |is_end: fn(char) -> bool| rest.find(is_end).unwrap_or(rest.len());
    let bytes = rest.as_bytes();
    match head {
        '/' if rest.starts_with("//") => until(|c| c == '\n'),
        '"' => 1 + end_of_text(&bytes[1..]),
        '\'' if bytes.get(1) == Some(&b'\\') => rest[3..].find('\'').map_or(1, |n| n + 4),
        '\'' => character(rest).unwrap_or(1 + rest[1..].find(|c| !is_in_word(c)).unwrap_or(0)),
        _ if is_in_word(head) => until(|c| !is_in_word(c)),
        _ => head.len_utf8(),
    }
}

fn is_in_word(c: char) -> bool {
    c == '_' || c.is_alphanumeric()
}

/// The length of a character in quotes.
fn character(rest: &str) -> Option<usize> {
    let len = rest[1..].chars().next()?.len_utf8();
    rest[1 + len..].starts_with('\'').then_some(len + 2)
}

fn end_of_text(bytes: &[u8]) -> usize {
    let mut at = 0;
    while at < bytes.len() && bytes[at] != b'"' {
        at += if bytes[at] == b'\\' { 2 } else { 1 };
    }
    at + 1
}
