//! The calls of the library for C as C takes them: a slice as a pointer and a length, an allocator not at
//! all. Each hands on to the call of the erased text.

use crate::fault::Fault;
use crate::source::Source;
use crate::{read, sources};
use std::collections::BTreeMap;

/// The module that declares each type.
type Places = BTreeMap<String, String>;

/// The text of all calls.
pub fn calls(crates: &std::path::Path, library: &str) -> Result<String, Fault> {
    let mut texts = Vec::new();
    for path in sources(crates, library)? {
        let module = path
            .file_stem()
            .unwrap_or_default()
            .to_string_lossy()
            .into_owned();
        texts.push((module, path.to_string_lossy().into_owned(), read(&path)?));
    }
    let mut places = Places::new();
    for (module, path, text) in &texts {
        let source = Source::new(path, text)?;
        for at in 0..source.tokens.len() {
            if source.is(at, "pub struct _") {
                places.insert(
                    source.word(at + 2).into(),
                    format!("crate::{library}::{module}"),
                );
            }
        }
    }
    let mut found = String::new();
    for (module, path, text) in &texts {
        let source = Source::new(path, text)?;
        for at in 0..source.tokens.len() {
            if source.is(at, "extern \"C\" fn _ (") {
                found += &call(
                    &source,
                    at + 3,
                    &format!("crate::{library}::{module}"),
                    &places,
                )?;
            }
        }
    }
    Ok(found)
}

/// A parameter: its name in the text, and what C gives for it.
struct Parameter {
    taken: Vec<String>,
    given: String,
}

/// The text of the call whose name stands there.
fn call(source: &Source, name: usize, module: &str, places: &Places) -> Result<String, Fault> {
    let close = source.closing(name + 1)?;
    let mut parameters = Vec::new();
    let mut at = name + 2;
    while at < close {
        let end = source
            .find(at, ",")
            .filter(|end| *end < close)
            .unwrap_or(close);
        parameters.push(parameter(source, at, end)?);
        at = end + 1;
    }
    let answer = match source.word(close + 1) {
        "->" => source.word(close + 2),
        _ => return Err(source.fault(name, "a call for C answers something")),
    };
    let answer = match places.get(answer) {
        Some(place) => format!("{place}::{answer}"),
        None => answer.into(),
    };
    let taken: Vec<_> = parameters.iter().flat_map(|p| p.taken.clone()).collect();
    let given: Vec<_> = parameters.iter().map(|p| p.given.clone()).collect();
    let (taken, given, name) = (taken.join(", "), given.join(", "), source.word(name));
    Ok(format!(
        "#[unsafe(no_mangle)]\npub unsafe extern \"C\" fn {name}({taken}) -> {answer} {{\n    {module}::{name}({given})\n}}\n"
    ))
}

/// The parameter that these tokens are.
fn parameter(source: &Source, mut at: usize, end: usize) -> Result<Parameter, Fault> {
    if source.word(at) == "mut" {
        at += 1;
    }
    let name = source.word(at);
    let kind: Vec<_> = (at + 2..end).map(|at| source.word(at)).collect();
    let slice = |pointer: &str, call: &str| Parameter {
        taken: vec![format!("{name}: {pointer}"), format!("{name}_len: usize")],
        given: format!("unsafe {{ {call}({name}, {name}_len) }}"),
    };
    match kind.join(" ").as_str() {
        "Global" => Ok(Parameter {
            taken: Vec::new(),
            given: "crate::memory::Global".into(),
        }),
        "& [ u8 ]" => Ok(slice("*const u8", "bytes_at")),
        "& mut [ u8 ]" => Ok(slice("*mut u8", "room_at")),
        "usize" | "u64" | "u32" | "u16" | "u8" | "i32" => Ok(Parameter {
            taken: vec![format!("{name}: {}", kind[0])],
            given: name.into(),
        }),
        other => Err(source.fault(at, format!("C gives no `{other}`"))),
    }
}
