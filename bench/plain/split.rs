//! Cuts the fragments of an MP4 stream on standard input into shorter ones, as `fmp4 split` does: plain Rust, with std alone,
//! made to be fast.
//!
//! It asks for the same rules, names the same fault and writes the same bytes; it takes --copy and --max-held, and makes nothing of
//! them. The rows of a piece are put where they are written from, and then what is before them. Media that came with its moof
//! is taken from the buffer that the stream is read into; else the moof is put in a block first, and media goes out as it comes.

mod cutting;
mod headers;
mod held;
mod input;
mod moof;
mod moof_faults;
mod moov;
mod out;
mod places;
mod reader;
mod recut;
mod room;
mod rows;
mod rules;
mod stop;

use cutting::Split;
use out::{Out, Through};
use reader::Reader;
use rows::Cut;
use std::fs::File;
use std::io::{stdin, stdout};
use std::os::fd::AsFd;
use std::process::ExitCode;
use stop::{status_of, Stop};

/// Reads standard input, and writes it with shorter fragments.
fn split(cut: Cut) -> Result<(), Stop> {
    let from = File::from(stdin().as_fd().try_clone_to_owned().map_err(|_| Stop::Read(0))?);
    let to = File::from(stdout().as_fd().try_clone_to_owned().map_err(|_| Stop::Write)?);
    let stream = Through { from, out: Out::new(to) };
    let mut reader = Reader::new(stream, Split::new(cut));
    let read = reader.read();
    let (_, _, stream) = reader.input.lend();
    if stream.out.has_failed {
        return Err(Stop::Write);
    }
    stream.out.send()?;
    read
}

/// The number that a word writes, if it lies between two.
fn number(word: &str, least: u64, most: u64) -> Option<u64> {
    word.parse().ok().filter(|number| (least..=most).contains(number))
}

/// Puts a number where there was none.
fn set(place: &mut Option<u64>, number: Option<u64>) -> Option<()> {
    place.replace(number?).is_none().then_some(())
}

/// How to cut, by the words after the program's name.
fn cut_of(words: &[String]) -> Option<Cut> {
    let (command, words) = words.split_first()?;
    let mut words = words.iter().map(String::as_str);
    let (mut samples, mut bytes, mut index, mut sync) = (None, None, None, None);
    let (mut copy, mut held) = (None, None);
    while let Some(word) = words.next() {
        let (name, mut value) = match word.split_once('=') {
            Some((name, value)) => (name, Some(value)),
            None => (word, None),
        };
        if !matches!(name, "--index" | "--sync") {
            value = Some(value.or_else(|| words.next())?);
        }
        match (name, value) {
            ("--index", None) => set(&mut index, Some(1))?,
            ("--sync", None) => set(&mut sync, Some(1))?,
            ("--samples", Some(value)) => set(&mut samples, number(value, 1, 1_000_000))?,
            ("--bytes", Some(value)) => set(&mut bytes, number(value, 1, 1 << 62))?,
            ("--copy", Some(value)) => set(&mut copy, number(value, 4096, 1 << 20))?,
            ("--max-held", Some(value)) => set(&mut held, number(value, 1, 1 << 62))?,
            _ => return None,
        }
    }
    let (samples, bytes) = (samples? as u32, bytes.unwrap_or(u64::MAX));
    let cut = Cut { samples, bytes, index: index.is_some(), sync: sync.is_some() };
    (command == "split").then_some(cut)
}

fn main() -> ExitCode {
    let words: Vec<String> = std::env::args().skip(1).collect();
    status_of(cut_of(&words).map(split))
}
