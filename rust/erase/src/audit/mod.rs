//! What the eraser did, found out without it: the words of each file are read beside those of the
//! erased one, on their lines, and each difference has to be one of the written `forms`.

mod forms;
mod words;

use crate::upstream::{USE_OF_ADDRESSES, has_addresses};
use crate::{Fault, Tally, read, sources, target};
use forms::{Form, NEVER, forms};
use std::path::Path;
use words::{Word, words};

/// Fails on a difference that no form says, and on counts other than those told.
pub fn audit(crates: &Path, out: &Path, some: &[&str], told: &Tally) -> Result<(), Fault> {
    let mut found = Tally::new();
    for library in some {
        for path in sources(crates, library)? {
            let (was, is) = (read(&path)?, read(&target(out, library, &path))?);
            for (kind, count) in audit_text(&path.to_string_lossy(), library, &was, &is)? {
                *found.entry(kind).or_default() += count;
            }
        }
    }
    match found == *told {
        true => Ok(()),
        false => Err(Fault::new(
            "audit",
            0,
            format!("found {found:?}, told {told:?}"),
        )),
    }
}

/// How often each kind of difference stands between a file of a library and its erased one.
pub fn audit_text(path: &str, library: &str, was: &str, is: &str) -> Result<Tally, Fault> {
    if has_addresses(library, path) {
        return addresses(path, is);
    }
    let mut tally = Tally::new();
    for kind in differences(path, was, is, &forms(library))? {
        *tally.entry(kind).or_default() += 1;
    }
    Ok(tally)
}

/// In the place of the file stands one line.
fn addresses(path: &str, is: &str) -> Result<Tally, Fault> {
    match words(is)
        .iter()
        .map(|w| w.text)
        .eq(words(USE_OF_ADDRESSES).iter().map(|w| w.text))
    {
        true => Ok([("addresses of std", 1)].into()),
        false => Err(Fault::new(
            path,
            0,
            "more is left than the standard library's addresses",
        )),
    }
}

/// The kind of each difference.
fn differences(
    path: &str,
    was: &str,
    is: &str,
    forms: &[Form],
) -> Result<Vec<&'static str>, Fault> {
    let (was, is) = (words(was), words(is));
    let (mut at, mut to, mut kinds) = (0, 0, Vec::new());
    while at < was.len() || to < is.len() {
        let is_left = is_left(&is, to);
        if at < was.len() && was.get(at) == is.get(to) && !is_left {
            (at, to) = (at + 1, to + 1);
            continue;
        }
        let found = forms.iter().find_map(|form| {
            let ends = form.matches(&was, at, &is, to)?;
            Some((form.kind, ends))
        });
        let Some((kind, ends)) = found else {
            return Err(unknown(path, &was[at..], &is[to..]));
        };
        kinds.push(kind);
        (at, to) = ends;
    }
    Ok(kinds)
}

/// Whether a word stands there that is never left: `Drop` names a variant behind a comma or a number.
fn is_left(words: &[Word], at: usize) -> bool {
    let Some(word) = words.get(at) else {
        return false;
    };
    let before = at.checked_sub(1).map_or("", |at| words[at].text);
    let is_variant = before == "," || before.starts_with(|c: char| c.is_ascii_digit());
    NEVER.contains(&word.text) && !(word.text == "Drop" && is_variant)
}

fn unknown(path: &str, was: &[Word], is: &[Word]) -> Fault {
    let some = |words: &[Word]| {
        let few: Vec<&str> = words.iter().take(6).map(|w| w.text).collect();
        few.join(" ")
    };
    let line = was.first().or(is.first()).map_or(0, |w| w.line);
    let text = format!(
        "no written form says that `{}` becomes `{}`",
        some(was),
        some(is)
    );
    Fault::new(path, line, text)
}
