//! `erase CRATES OUT` erases the libraries of a folder, and `erase --tests CRATES OUT` their tests,
//! `erase --for-c CRATES OUT` the library for C. It audits what was written, and counts.

use std::path::Path;
use std::process::ExitCode;

fn main() -> ExitCode {
    let words: Vec<String> = std::env::args().skip(1).collect();
    let words: Vec<&str> = words.iter().map(String::as_str).collect();
    let erased = match words[..] {
        ["--tests", crates, out] => erase::erase_tests(Path::new(crates), Path::new(out)),
        ["--for-c", crates, out] => erase::erase_for_c(Path::new(crates), Path::new(out)),
        [crates, out] => erase::erase_all(Path::new(crates), Path::new(out)),
        _ => {
            eprintln!("usage: erase [--tests | --for-c] CRATES OUT");
            return ExitCode::from(2);
        }
    };
    match erased {
        Ok(tally) => {
            for (kind, count) in tally {
                println!("{count:6} {kind}");
            }
            ExitCode::SUCCESS
        }
        Err(fault) => {
            eprintln!("{fault}");
            ExitCode::FAILURE
        }
    }
}
