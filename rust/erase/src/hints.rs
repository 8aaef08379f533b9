//! Hints to inline. Generic functions are made in the caller's crate, and what they call of this one
//! costs a jump without.

use crate::fault::Fault;
use crate::rules::Eraser;

impl Eraser<'_> {
    /// Puts a hint in front of a function that has a body, and none of its own.
    pub(crate) fn hint(&mut self, at: usize) -> Result<(), Fault> {
        let first = self.first_of(at);
        let is_named = self.source.is(at, "fn _") && !self.source.is(at, "fn flags <");
        if self.is_test || !is_named || !self.has_body(at)? || self.is_hinted(first) {
            return Ok(());
        }
        self.edits
            .insert_before(&self.source, first, "inline", "#[inline] ")
    }

    /// The first word in front of `fn`.
    fn first_of(&self, at: usize) -> usize {
        let mut first = at;
        while ["const", "final", "pub", "extern", "\"C\""].contains(&self.source.before(first)) {
            first -= 1;
        }
        if first > 3 && self.source.is(first - 4, "pub ( crate )") {
            return first - 4;
        }
        first
    }

    /// Whether a body stands behind the clauses.
    fn has_body(&self, at: usize) -> Result<bool, Fault> {
        let mut next = at + 1;
        loop {
            match self.source.word(next) {
                "" | ";" => return Ok(false),
                "requires" | "ensures" => {
                    let is_named = self.source.is(next + 1, "_ {");
                    next = self.source.closing(next + 1 + usize::from(is_named))? + 1;
                }
                "{" => return Ok(true),
                "(" | "[" => next = self.source.closing(next)? + 1,
                _ => next += 1,
            }
        }
    }

    /// Whether one of the attributes in front is a hint.
    fn is_hinted(&self, mut first: usize) -> bool {
        while self.source.before(first) == "]" {
            let opens = |at: &usize| self.source.closing(*at) == Ok(first - 1);
            let Some(open) = (0..first).rev().find(opens) else {
                return false;
            };
            if self.source.word(open + 1) == "inline" {
                return true;
            }
            first = open - 1;
        }
        false
    }
}
