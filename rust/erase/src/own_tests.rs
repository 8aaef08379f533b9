//! What is rewritten in the crates of tests, over the runtime that `testing` of the crate makes up.

use crate::fault::Fault;
use crate::rules::Eraser;

pub const IMPORT: &str = " use crate::testing::*;";

/// Modules of `text_tests` that are tests of programs, which no crate of Rust has.
pub const OF_PROGRAMS: [&str; 5] = [
    "hexadecimal",
    "report",
    "shown",
    "shown_links",
    "shown_small",
];

/// The program that makes messages, and its modules that do.
pub const MAKER: &str = "fuzz";
pub const OF_MAKER: [&str; 8] = [
    "lengths", "links", "making", "random", "small", "subject", "traffic", "worked",
];

impl Eraser<'_> {
    /// A test asks for no runtime in Rust: it is the first thing inside.
    pub(crate) fn runtime(&mut self, at: usize) -> Result<(), Fault> {
        if !self.source.is(at + 2, "( rt : HostRuntime )") {
            return Ok(());
        }
        let Some(body) = self.source.find(at + 7, "{") else {
            return Err(self.source.fault(at, "a test has a body"));
        };
        self.cut(at + 3, 3, "runtime of a test")?;
        let put = " let rt = HostRuntime;";
        self.edits
            .insert(&self.source, body, "let of the runtime", put)
    }

    /// Whether a module of tests of a program stands behind this attribute.
    pub(crate) fn is_of_program(&self, at: usize) -> bool {
        self.source.is(at, "# [ cfg ( test ) ] mod _ ;")
            && OF_PROGRAMS.contains(&self.source.word(at + 8))
    }

    fn makes_text(&self, at: usize) -> bool {
        at > 1 && self.source.is(at - 2, "String :: new (") && self.source.word(at + 2) != ")"
    }

    /// Calls that take memory in tests alone.
    pub(crate) fn call_in_test(&mut self, at: usize) -> Result<Option<usize>, Fault> {
        let word = self.source.word(at);
        let is_method = self.source.before(at) == "." && self.source.word(at + 1) == "(";
        let put = match word {
            "extend_from_slice" | "push_str" if is_method => format!("{word}_in"),
            "to_vec" if is_method => "copied_in".into(),
            "new" if self.makes_text(at) => "new_within".into(),
            "format" if self.source.is(at, "format ! ( in") => "crate::testing::formatted".into(),
            "vec" if self.source.is(at, "vec ! [ in") => "crate::testing::list".into(),
            _ => return Ok(None),
        };
        if !self.is_test {
            return Ok(None);
        }
        self.replace(at, 1, "call in a test that takes memory", &put)
            .map(Some)
    }

    /// Paths in tests alone.
    pub(crate) fn path_in_test(&mut self, at: usize) -> Result<Option<usize>, Fault> {
        if !self.is_test {
            return Ok(None);
        }
        if self.source.is(at, "std :: test ::") {
            return self
                .replace(at, 3, "path of std::test", "crate::testing")
                .map(Some);
        }
        if self.source.word(at) == "hex" {
            return self
                .replace(at, 1, "path of hex", "crate::testing::hex")
                .map(Some);
        }
        Ok(None)
    }
}
