//! Cuts a stream that comes in pieces, as the Feeder of fmp4 does: plain Rust, with std alone, made to be fast.
//!
//! Standard input has three numbers of four bytes, the highest first: the greatest number of samples of a fragment, how many bytes a
//! piece has, and how many times; then the stream. It lies in memory, and each read copies a piece of it. All that is determined is
//! written before the next read, into a counter.

mod cutting;
mod headers;
mod held;
mod input;
mod moof;
mod moof_faults;
mod moov;
mod out;
mod places;
mod reader;
mod recut;
mod room;
mod rows;
mod rules;
mod stop;

use cutting::Split;
use out::{Out, Through};
use reader::Reader;
use rows::Cut;
use std::io::{stdin, Read, Result, Write};
use std::process::ExitCode;
use stop::{status_of, Stop};

/// A stream in memory that is read by pieces.
struct Pieces<'a> {
    left: &'a [u8],
    len: usize,
}

impl Read for Pieces<'_> {
    fn read(&mut self, place: &mut [u8]) -> Result<usize> {
        let count = self.len.min(place.len()).min(self.left.len());
        let (piece, left) = self.left.split_at(count);
        place[..count].copy_from_slice(piece);
        self.left = left;
        Ok(count)
    }
}

/// Counts the bytes that it takes.
#[derive(Default)]
struct Counter {
    bytes: u64,
}

impl Write for &mut Counter {
    fn write(&mut self, from: &[u8]) -> Result<usize> {
        self.bytes += from.len() as u64;
        Ok(from.len())
    }

    fn flush(&mut self) -> Result<()> {
        Ok(())
    }
}

/// Cuts a stream that comes in pieces of so many bytes. How many bytes are written.
fn cut_pieces(left: &[u8], len: usize, samples: u32) -> std::result::Result<u64, Stop> {
    let cut = Cut { samples, bytes: u64::MAX, index: false, sync: false };
    let mut counter = Counter::default();
    let stream = Through { from: Pieces { left, len }, out: Out::new(&mut counter) };
    let mut reader = Reader::new(stream, Split::new(cut));
    reader.read()?;
    reader.input.lend().2.out.send()?;
    drop(reader);
    Ok(counter.bytes)
}

fn print_counts() -> std::result::Result<(), Stop> {
    let mut read = Vec::new();
    stdin().read_to_end(&mut read).map_err(|_| Stop::Read(0))?;
    let (front, stream) = read.split_at(read.len().min(12));
    let number = |at: usize| u32::from_be_bytes(front[at..at + 4].try_into().expect("four bytes"));
    let mut bytes = 0;
    for _ in 0..number(8).max(1) {
        bytes = cut_pieces(stream, number(4) as usize, number(0))?;
    }
    println!("{bytes} bytes");
    Ok(())
}

fn main() -> ExitCode {
    status_of(Some(print_counts()))
}
