//! The written forms of what may be taken out and put in.

use super::words::Word;
use crate::{LIBRARIES, TESTS};

/// What words may become which. A pattern is words with spaces between; `_` is any word, `()`, `[]`
/// and `{}` are such brackets with what is in them, `<>` may be missing, and `..;` goes to the next
/// semicolon outside of brackets.
pub struct Form {
    pub kind: &'static str,
    /// What stands before it.
    before: String,
    taken: String,
    put: String,
    /// What stands behind it.
    after: String,
}

/// Words that no erased file has.
pub const NEVER: &[&str] = &[
    "ensures",
    "requires",
    "ghost",
    "final",
    "tactic",
    "cycle",
    "macro_export",
    "Model",
    "Drop",
];

/// Taken out: kind, words before, words.
const TAKEN: &[(&str, &str, &str)] = &[
    ("ensures", "", "ensures {}"),
    ("ensures", "", "ensures _ {}"),
    ("requires", "", "requires {}"),
    ("requires", "", "requires _ {}"),
    ("ghost use", "", "ghost use ..;"),
    ("ghost member", "", "ghost _ ..;"),
    ("impl Model", "", "impl <> Model for _ <> {}"),
    ("use Model", "", "use std : : marker : : Model ;"),
    ("mod laws", "", "pub mod laws ;"),
    ("tactic", "", "# [ tactic () ]"),
    ("tactic", "", "# ! [ tactic ( auto ) ]"),
    ("cycle", "", "# [ cycle ( _ ) ]"),
    ("final", "", "final"),
    ("derived Drop", "", "# [ derive ( Drop ) ]"),
    ("derived Drop", ",", "Drop ,"),
    ("derived Drop", "derive (", "Drop ,"),
    ("derived Drop", "", ", Drop"),
    (
        "derived Debug of a set",
        "derive ( Clone , Copy ,",
        "Debug ,",
    ),
    ("macro_export", "", "# [ macro_export ]"),
    ("writer parameter", "", "< W : fmt : : Write >"),
    ("writer parameter", "<", "W : fmt : : Write ,"),
    ("no_mangle", "", "# [ unsafe ( no_mangle ) ]"),
    ("extern C", "", "extern \"C\""),
    (
        "Flag { .. } -> Flag::new(..)",
        "stringify ! ( $ name ) ,",
        "value :",
    ),
    ("Flag { .. } -> Flag::new(..)", "name : \"\" ,", "value :"),
];

/// Changed: kind, words before, words, words in their place.
const CHANGED: &[(&str, &str, &str, &str)] = &[
    (
        "derived Drop -> Clone, Default",
        ",",
        "Drop",
        "Clone , Default",
    ),
    ("derived Drop -> Clone", "derive (", "Drop", "Clone"),
    ("derived Drop -> Clone", ",", "Drop", "Clone"),
    ("call of a set", ".", "bits", "bits_in"),
    ("call of a set", ".", "contains", "contains_in"),
    (
        "call of a set",
        ": :",
        "from_bits_retain",
        "from_bits_retain_in",
    ),
    ("bound Drop -> Sized", ":", "Drop", "Sized"),
    ("bound Drop -> Sized", "+", "Drop", "Sized"),
    ("Formatter<W> -> Formatter<'_>", "Formatter <", "W", "'_"),
    (
        "fn flags -> const FLAGS",
        "",
        "fn flags < 'a > ( ) - > & 'a",
        "const FLAGS : & 'static",
    ),
    ("fn flags -> const FLAGS", "[ Flag < _ > ]", "{", "="),
    ("fn flags -> const FLAGS", ": : FLAGS", "}", ";"),
    (
        "Flag { .. } -> Flag::new(..)",
        "Flag",
        "{ name :",
        ": : new (",
    ),
    ("Flag { .. } -> Flag::new(..)", "$ set : : $ name", "}", ")"),
    ("Flag { .. } -> Flag::new(..)", "$ set ( $ all )", "}", ")"),
    ("call that takes memory", ".", "push", "push_in"),
    ("call that takes memory", ".", "reserve", "reserve_in"),
    (
        "call that takes memory",
        ".",
        "reserve_exact",
        "reserve_exact_in",
    ),
    ("call that takes memory", "Vec : :", "new", "new_within"),
    (
        "call that takes memory",
        "",
        "vec",
        "crate : : memory : : filled",
    ),
    (
        "path of std::alloc",
        "",
        "std : : alloc",
        "crate : : memory",
    ),
    ("use of a macro", "}", "", "pub ( crate ) use _ ;"),
    (
        "use of memory",
        ";",
        "",
        "use crate : : memory : : { SetIn as _ , StringIn as _ , VecIn as _ } ;",
    ),
    ("field of a set", "pub struct _ (", "", "pub ( crate )"),
];

/// The same in crates of tests.
const CHANGED_IN_TESTS: &[(&str, &str, &str, &str)] = &[
    ("runtime of a test", "(", "rt : HostRuntime", ""),
    ("let of the runtime", "{", "", "let rt = HostRuntime ;"),
    (
        "mod of a program's tests",
        "",
        "# [ cfg ( test ) ] mod report ;",
        "",
    ),
    (
        "mod of a program's tests",
        "",
        "# [ cfg ( test ) ] mod hexadecimal ;",
        "",
    ),
    (
        "mod of a program's tests",
        "",
        "# [ cfg ( test ) ] mod shown ;",
        "",
    ),
    (
        "mod of a program's tests",
        "",
        "# [ cfg ( test ) ] mod shown_links ;",
        "",
    ),
    (
        "mod of a program's tests",
        "",
        "# [ cfg ( test ) ] mod shown_small ;",
        "",
    ),
    (
        "call in a test that takes memory",
        ".",
        "extend_from_slice",
        "extend_from_slice_in",
    ),
    (
        "call in a test that takes memory",
        ".",
        "push_str",
        "push_str_in",
    ),
    (
        "call in a test that takes memory",
        ".",
        "to_vec",
        "copied_in",
    ),
    (
        "call in a test that takes memory",
        "String : :",
        "new",
        "new_within",
    ),
    (
        "call in a test that takes memory",
        "",
        "format",
        "crate : : testing : : formatted",
    ),
    (
        "call in a test that takes memory",
        "",
        "vec",
        "crate : : testing : : list",
    ),
    ("path of std::test", "", "std : : test", "crate : : testing"),
    ("path of hex", "", "hex", "crate : : testing : : hex"),
    ("use of testing", ";", "", "use crate : : testing : : * ;"),
];

/// What the feature `serde` derives, not for sets, and not for what borrows.
const SERIALIZE: &str = "# [ cfg_attr ( feature = \"serde\" , derive ( serde : : Serialize ) ) ]";

/// Put in front: kind, words, words behind them.
const IN_FRONT: &[(&str, &str, &str)] = &[
    (
        "non_exhaustive",
        "# [ cfg_attr ( not ( upstream ) , non_exhaustive ) ]",
        "pub enum _",
    ),
    (
        "non_exhaustive",
        "# [ cfg_attr ( not ( upstream ) , non_exhaustive ) ]",
        "pub struct _",
    ),
    ("inline", "# [ inline ]", "fn _"),
    ("inline", "# [ inline ]", "const fn _"),
    ("inline", "# [ inline ]", "final fn _"),
    ("inline", "# [ inline ]", "pub fn _"),
    ("inline", "# [ inline ]", "pub final fn _"),
    ("inline", "# [ inline ]", "pub const fn _"),
    ("inline", "# [ inline ]", "pub ( crate ) fn _"),
    ("inline", "# [ inline ]", "pub ( crate ) const fn _"),
    ("inline", "# [ inline ]", "pub extern \"C\" fn _"),
    ("pub(crate) of a module", "pub ( crate )", "mod _ ;"),
    (
        "derived Debug in tests",
        "# [ cfg_attr ( test , derive ( Debug ) ) ]",
        "pub struct _ ( _ ) ;",
    ),
    ("derived Serialize", SERIALIZE, "pub enum _ {"),
    ("derived Serialize", SERIALIZE, "pub enum _ < _"),
    ("derived Serialize", SERIALIZE, "pub struct _ {"),
    ("derived Serialize", SERIALIZE, "pub struct _ < _"),
];

/// The forms of a library's files.
pub fn forms(library: &str) -> Vec<Form> {
    let form = |kind, before: &str, taken: &str, put: &str| Form {
        kind,
        before: before.into(),
        taken: taken.into(),
        put: put.into(),
        after: String::new(),
    };
    let (own, is_test) = (format!("{library} : :"), TESTS.contains(&library));
    let of_tests = CHANGED_IN_TESTS.iter().filter(|_| is_test);
    let changed = of_tests.chain(CHANGED);
    let mut all: Vec<Form> = changed.map(|f| form(f.0, f.1, f.2, f.3)).collect();
    all.extend(TAKEN.iter().map(|f| form(f.0, f.1, f.2, "")));
    all.extend(IN_FRONT.iter().map(|f| Form {
        after: f.2.into(),
        ..form(f.0, "", "", f.1)
    }));
    all.push(form("path of its own crate", "crate : :", "", &own));
    all.push(form(
        "use of a macro in lib",
        "",
        "END",
        "pub ( crate ) use _ : : _ ;",
    ));
    all.extend(
        LIBRARIES.map(|name| form("path of a library", "", name, &format!("crate : : {name}"))),
    );
    all.extend(
        TESTS
            .iter()
            .filter(|_| is_test)
            .map(|name| form("path of tests", "", name, &format!("crate : : {name}"))),
    );
    all
}

impl Form {
    /// The ends in both, where it stands here. What is put in stands on the line of what it is put for.
    pub fn matches(
        &self,
        was: &[Word],
        at: usize,
        is: &[Word],
        to: usize,
    ) -> Option<(usize, usize)> {
        let before = at.checked_sub(self.before.split_terminator(' ').count())?;
        if behind(&self.before, was, before)? != at {
            return None;
        }
        if self.taken == "END" {
            return (at == was.len()).then_some((at, behind(&self.put, is, to)?));
        }
        let (end, put) = (behind(&self.taken, was, at)?, behind(&self.put, is, to)?);
        behind(&self.after, was, end)?;
        let line = |word: usize| was.get(word).map(|w| w.line);
        let beside = match (self.taken.is_empty(), self.after.is_empty()) {
            (true, true) => [at.checked_sub(1).and_then(line); 2],
            (true, false) => [at.checked_sub(1).and_then(line), line(at)],
            _ => [line(at); 2],
        };
        let stands = is[to..put].iter().all(|w| beside.contains(&Some(w.line)));
        stands.then_some((end, put))
    }
}

/// Where the pattern ends that stands here.
fn behind(pattern: &str, words: &[Word], mut at: usize) -> Option<usize> {
    let is = |at: usize, text: &str| words.get(at).is_some_and(|w| w.text == text);
    for part in pattern.split_terminator(' ') {
        at = match part {
            "_" => is_name(words.get(at)?).then_some(at + 1)?,
            "()" | "[]" | "{}" => group(words, at, part)?,
            "<>" if is(at, "<") => group(words, at, part)?,
            "<>" => at,
            "..;" => semicolon(words, at)?,
            _ => is(at, part).then_some(at + 1)?,
        };
    }
    Some(at)
}

fn is_name(word: &Word) -> bool {
    word.text
        .starts_with(|c: char| c.is_alphabetic() || c == '_')
}

/// Behind the bracket that closes the one here.
fn group(words: &[Word], at: usize, pair: &str) -> Option<usize> {
    let mut depth = 0usize;
    for (n, word) in words[at..].iter().enumerate() {
        depth += usize::from(word.text == &pair[..1]);
        depth = depth.checked_sub(usize::from(word.text == &pair[1..]))?;
        if depth == 0 {
            return (n > 0).then_some(at + n + 1);
        }
    }
    None
}

/// Behind the next semicolon that no bracket holds.
fn semicolon(words: &[Word], at: usize) -> Option<usize> {
    let mut depth = 0i64;
    for (n, word) in words[at..].iter().enumerate() {
        match word.text {
            "(" | "[" | "{" => depth += 1,
            ")" | "]" | "}" => depth -= 1,
            ";" if depth == 0 => return Some(at + n + 1),
            _ => {}
        }
        if depth < 0 {
            return None;
        }
    }
    None
}
