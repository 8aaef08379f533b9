//! What is erased of a file, and what is rewritten.

use crate::edit::{Edits, Tally};
use crate::fault::Fault;
use crate::own_tests;
use crate::source::Source;
use crate::token::Sort;
use crate::upstream::{self, GROWN};
use crate::{FOR_C, LIBRARIES, TESTS};

/// What no word of Rust may be: where one is left, a rule is missing.
const REFUSED: &[&str] = &[
    "ghost", "requires", "ensures", "tactic", "cycle", "final", "Model", "prove", "unsafe",
];
const IMPORT: &str = " use crate::memory::{SetIn as _, StringIn as _, VecIn as _};";

/// A file as it is erased.
pub struct Eraser<'a> {
    pub(crate) source: Source<'a>,
    library: &'a str,
    /// Whether the library is one of tests.
    pub(crate) is_test: bool,
    /// Whether it is the one for C.
    pub(crate) is_for_c: bool,
    pub(crate) edits: Edits,
    macros: Vec<&'a str>,
    imports: bool,
}

/// An erased file.
pub struct Erased<'a> {
    pub text: String,
    pub tally: Tally,
    /// The macros that other files name.
    pub macros: Vec<&'a str>,
}

/// Erases a file of a library.
pub fn erase<'a>(path: &'a str, library: &'a str, text: &'a str) -> Result<Erased<'a>, Fault> {
    let source = Source::new(path, text)?;
    if upstream::has_addresses(library, path) {
        return upstream::addresses(&source);
    }
    let mut eraser = Eraser {
        source,
        library,
        is_test: TESTS.contains(&library),
        is_for_c: FOR_C.contains(&library),
        edits: Edits::default(),
        macros: Vec::new(),
        imports: false,
    };
    let mut at = 0;
    while at < eraser.source.tokens.len() {
        at = eraser.step(at)?;
    }
    eraser.check_what_is_left()?;
    let (text, tally) = eraser.edits.apply(&eraser.source)?;
    Ok(Erased {
        text,
        tally,
        macros: eraser.macros,
    })
}

impl<'a> Eraser<'a> {
    /// The rule of a token; answers the next that is looked at.
    fn step(&mut self, at: usize) -> Result<usize, Fault> {
        match self.source.word(at) {
            "#" => self.attribute(at),
            "ghost" => self.ghost(at),
            "requires" | "ensures" => self.clause(at),
            "impl" => self.implementation(at),
            "use" => self.import(at),
            "pub" if self.source.is(at, "pub mod laws ;") => self.cut_item(at, 4, "mod laws"),
            "pub" => self.declaration(at),
            "final" if self.source.is(at, "final fn") => self.cut(at, 1, "final"),
            "fn" => self.function(at),
            "extern" if self.is_for_c && self.source.word(at + 1) == "\"C\"" => {
                self.cut(at, 2, "extern C")
            }
            "mod" if self.is_for_c => self.module(at),
            "Flag" if self.source.is(at, "Flag { name :") => self.flag(at),
            "Formatter" if self.source.is(at, "Formatter < _ >") => self.formatter(at),
            "Drop" => self.bound(at),
            _ => self.call(at),
        }
    }

    pub(crate) fn cut(
        &mut self,
        at: usize,
        count: usize,
        kind: &'static str,
    ) -> Result<usize, Fault> {
        self.replace(at, count, kind, "")
    }

    fn cut_item(&mut self, at: usize, count: usize, kind: &'static str) -> Result<usize, Fault> {
        self.edits.cut_item(&self.source, at..at + count, kind)?;
        Ok(at + count)
    }

    pub(crate) fn replace(
        &mut self,
        at: usize,
        count: usize,
        kind: &'static str,
        put: &str,
    ) -> Result<usize, Fault> {
        self.edits
            .replace(&self.source, at..at + count, kind, put)?;
        Ok(at + count)
    }

    fn attribute(&mut self, at: usize) -> Result<usize, Fault> {
        let open = at
            + if self.source.word(at + 1) == "!" {
                2
            } else {
                1
            };
        let behind = self.source.closing(open)? + 1;
        match self.source.word(open + 1) {
            "tactic" => self.cut(at, behind - at, "tactic"),
            "cycle" => self.cut(at, behind - at, "cycle"),
            "macro_export" => self.export(at, behind),
            "derive" => self.derive(at, open + 2, behind),
            "default" | "error" | "inline" => Ok(behind),
            "unsafe" if self.is_for_c => self.cut(at, behind - at, "no_mangle"),
            "repr" if self.is_for_c => Ok(behind),
            "cfg" if self.is_test && self.is_of_program(at) => {
                self.cut_item(at, 10, "mod of a program's tests")
            }
            "cfg" | "test" if self.is_test => Ok(behind),
            other => Err(self
                .source
                .fault(at, format!("the attribute `{other}` is not known"))),
        }
    }

    /// A module of the library for C is named by what C calls.
    fn module(&mut self, at: usize) -> Result<usize, Fault> {
        self.edits
            .insert_before(&self.source, at, "pub(crate) of a module", "pub(crate) ")?;
        Ok(at + 1)
    }

    /// A macro is named by a path here, and nobody else's.
    fn export(&mut self, at: usize, behind: usize) -> Result<usize, Fault> {
        if !self.source.is(behind, "macro_rules ! _ {") {
            return Err(self.source.fault(at, "an exported macro was expected"));
        }
        let name = self.source.word(behind + 2);
        let close = self.source.closing(behind + 3)?;
        self.cut(at, behind - at, "macro_export")?;
        let put = format!(" pub(crate) use {name};");
        self.edits
            .insert(&self.source, close, "use of a macro", &put)?;
        self.macros.push(name);
        Ok(behind)
    }

    /// Each type of Rust may be dropped. One that proved text drops can be cloned.
    fn derive(&mut self, at: usize, open: usize, behind: usize) -> Result<usize, Fault> {
        self.serialize(behind)?;
        let close = self.source.closing(open)?;
        let derived = |name| (open..close).find(|&i| self.source.word(i) == name);
        let (debug, drop, clone) = (derived("Debug"), derived("Drop"), derived("Clone"));
        if let Some(debug) = debug.filter(|_| self.is_set(behind)) {
            self.debug_of_set(debug, behind)?;
        }
        let Some(drop) = drop else {
            return Ok(behind);
        };
        if clone.is_none() && GROWN.contains(&self.source.word(behind + 2)) {
            self.replace(drop, 1, "derived Drop -> Clone, Default", "Clone, Default")?;
            return Ok(behind);
        }
        if clone.is_none() {
            self.replace(drop, 1, "derived Drop -> Clone", "Clone")?;
            return Ok(behind);
        }
        match (self.source.word(drop - 1), self.source.word(drop + 1)) {
            ("(", ")") => self.cut(at, behind - at, "derived Drop")?,
            (_, ",") => self.cut(drop, 2, "derived Drop")?,
            _ => self.cut(drop - 1, 2, "derived Drop")?,
        };
        Ok(behind)
    }

    fn ghost(&mut self, at: usize) -> Result<usize, Fault> {
        let is_use = self.source.word(at + 1) == "use";
        let kind = if is_use { "ghost use" } else { "ghost member" };
        match self.source.find(at, ";") {
            Some(end) => self.cut_item(at, end + 1 - at, kind),
            None => Err(self.source.fault(at, "what is ghost here has no end")),
        }
    }

    fn clause(&mut self, at: usize) -> Result<usize, Fault> {
        let kind = if self.source.word(at) == "requires" {
            "requires"
        } else {
            "ensures"
        };
        let open = at + if self.source.is(at + 1, "_ {") { 2 } else { 1 };
        if self.source.word(open) != "{" {
            return Err(self.source.fault(at, "a clause in braces was expected"));
        }
        let behind = self.source.closing(open)? + 1;
        match self.source.word(behind) {
            "requires" | "ensures" | "{" | ";" => self.cut(at, behind - at, kind),
            _ => Err(self
                .source
                .fault(at, "a body or a clause was expected behind this one")),
        }
    }

    fn implementation(&mut self, at: usize) -> Result<usize, Fault> {
        let Some(body) = self.source.find(at, "{") else {
            return Ok(at + 1);
        };
        let of = (at..body).find(|&i| self.source.word(i) == "for");
        match of.map(|of| self.source.before(of)) {
            Some("Model") => self.cut_item(at, self.source.closing(body)? + 1 - at, "impl Model"),
            Some("Drop") => Err(self.source.fault(at, "`impl Drop` is not known")),
            _ => Ok(at + 1),
        }
    }

    /// Behind the first import stand the traits of calls that take memory.
    fn import(&mut self, at: usize) -> Result<usize, Fault> {
        if self.source.is(at, "use std :: marker :: Model ;") {
            return self.cut(at, 7, "use Model");
        }
        let is_public = matches!(self.source.before(at), "pub" | ")");
        if !self.imports && !is_public {
            let end = self
                .source
                .find(at, ";")
                .ok_or_else(|| self.source.fault(at, "a use without an end"))?;
            let (kind, put) = match self.is_test {
                true => ("use of testing", own_tests::IMPORT),
                false => ("use of memory", IMPORT),
            };
            self.edits.insert(&self.source, end, kind, put)?;
            self.imports = true;
        }
        Ok(at + 1)
    }

    /// A function that prints has no parameter for the writer in Rust, and a set has its flags in a constant.
    fn function(&mut self, at: usize) -> Result<usize, Fault> {
        self.hint(at)?;
        if self.is_test {
            self.runtime(at)?;
        }
        if self.source.is(at + 2, "< W : fmt :: Write >") {
            self.cut(at + 2, 7, "writer parameter")?;
            return Ok(at + 9);
        }
        if self.source.is(at + 2, "< W : fmt :: Write ,") {
            self.cut(at + 3, 6, "writer parameter")?;
            return Ok(at + 9);
        }
        if self
            .source
            .is(at, "fn flags < 'a > ( ) -> & 'a [ Flag < _ > ] {")
        {
            let kind = "fn flags -> const FLAGS";
            self.replace(at, 10, kind, "const FLAGS: &'static")?;
            self.replace(at + 16, 1, kind, "=")?;
            self.replace(self.source.closing(at + 16)?, 1, kind, ";")?;
            return Ok(at + 17);
        }
        Ok(at + 1)
    }

    /// A flag is made by a call in Rust.
    fn flag(&mut self, at: usize) -> Result<usize, Fault> {
        let kind = "Flag { .. } -> Flag::new(..)";
        let close = self.source.closing(at + 1)?;
        let comma = self
            .source
            .find(at + 4, ",")
            .filter(|&i| self.source.is(i, ", value :"));
        let Some(comma) = comma else {
            return Err(self
                .source
                .fault(at, "a flag with `name` and `value` was expected"));
        };
        self.replace(at, 4, kind, "Flag::new(")?;
        self.cut(comma + 1, 2, kind)?;
        self.replace(close, 1, kind, ")")?;
        Ok(at + 4)
    }

    fn formatter(&mut self, at: usize) -> Result<usize, Fault> {
        self.replace(at + 2, 1, "Formatter<W> -> Formatter<'_>", "'_")
    }

    fn bound(&mut self, at: usize) -> Result<usize, Fault> {
        match self.source.before(at) {
            ":" | "+" => self.replace(at, 1, "bound Drop -> Sized", "Sized"),
            before if is_variant(before) => Ok(at + 1),
            _ => Err(self.source.fault(
                at,
                "`Drop` is known as a bound, a variant and in `derive` alone",
            )),
        }
    }

    /// A call that takes memory has a name of its own, since Rust's of that name answers nothing.
    fn call(&mut self, at: usize) -> Result<usize, Fault> {
        let (word, next) = (self.source.word(at), self.source.word(at + 1));
        let is_method = self.source.before(at) == "." && next == "(";
        let is_new = self.source.is(at + 1, ":: new (") && self.source.word(at + 4) != ")";
        let kind = "call that takes memory";
        if let Some(next) = self.call_in_test(at)? {
            return Ok(next);
        }
        match word {
            "bits" | "contains" if is_method => self.call_of_set(at),
            "from_bits_retain" if self.source.before(at) == "::" => self.call_of_set(at),
            "push" | "reserve" | "reserve_exact" if is_method => {
                self.replace(at, 1, kind, &format!("{word}_in"))
            }
            "Vec" if is_new => self.replace(at + 2, 1, kind, "new_within"),
            "vec" if self.source.is(at, "vec ! [ in") => {
                self.replace(at, 1, kind, "crate::memory::filled")
            }
            _ => self.path(at),
        }
    }

    /// Crates are modules of one.
    fn path(&mut self, at: usize) -> Result<usize, Fault> {
        let (word, before) = (self.source.word(at), self.source.before(at));
        if self.source.word(at + 1) != "::" || before == "::" {
            return Ok(at + 1);
        }
        if let Some(next) = self.path_in_test(at)? {
            return Ok(next);
        }
        if word == "crate" {
            let own = format!("crate::{}", self.library);
            return self.replace(at, 1, "path of its own crate", &own);
        }
        if self.source.is(at, "std :: alloc ::") {
            return self.replace(at, 3, "path of std::alloc", "crate::memory");
        }
        if LIBRARIES.contains(&word) && before != "$" {
            return self.replace(at, 1, "path of a library", &format!("crate::{word}"));
        }
        if self.is_test && TESTS.contains(&word) && before != "$" {
            return self.replace(at, 1, "path of tests", &format!("crate::{word}"));
        }
        Ok(at + 1)
    }

    fn check_what_is_left(&self) -> Result<(), Fault> {
        for (at, token) in self.source.tokens.iter().enumerate() {
            let is_sign = token.sort == Sort::Sign && token.text == "'";
            let is_strange = is_sign || token.sort != Sort::Quoted && !token.text.is_ascii();
            if (is_strange || REFUSED.contains(&token.text)) && !self.edits.takes(token.at) {
                return Err(self
                    .source
                    .fault(at, format!("`{}` is not known here", token.text)));
            }
        }
        Ok(())
    }
}

/// Whether a word behind this one names a variant, in an enum or in a list of numbers.
fn is_variant(before: &str) -> bool {
    matches!(before, "," | "{") || before.starts_with(|c: char| c.is_ascii_digit())
}
