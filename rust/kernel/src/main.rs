//! `kernel ask FOLDER` asks the kernel for each of its tables, and keeps the datagrams of each answer in a file; in `commands` it
//! writes how `ip` or `tc` is asked for the same. `kernel hear FILE` keeps what the kernel tells of changes until it is ended.
//! `kernel read FILE` reads such a file, and prints each of its messages.

mod ask;
mod hear;
mod read;
mod receive;
mod tables;

use std::error::Error;

fn main() -> Result<(), Box<dyn Error>> {
    let words: Vec<String> = std::env::args().skip(1).collect();
    match &words.iter().map(String::as_str).collect::<Vec<_>>()[..] {
        ["ask", folder] => ask::ask_all(folder),
        ["hear", file] => hear::hear(file),
        ["read", file] => read::read_all(&std::fs::read(file)?),
        _ => Err("usage: kernel ask FOLDER | kernel hear FILE | kernel read FILE".into()),
    }
}
