//! Lists the samples of a fragmented MP4 stream on standard input, as `fmp4 samples` does, or counts them, as `fmp4 check`
//! does: plain Rust, with std alone, made to be fast.
//!
//! It asks for the same rules and names the same fault. A moov or moof is read where it lies in the buffer that the stream is
//! read into, or in a block of its own where it is larger. One pass over a moof takes its runs, and stops where any rule is
//! broken; only then another finds the least fault. The runs of a moof are listed once the header of the mdat after it has come;
//! media is passed over. Each line is built in the buffer that is written.

mod headers;
mod held;
mod input;
mod line;
mod lines;
mod moof;
mod moof_faults;
mod moov;
mod places;
mod reader;
mod rules;
mod stop;

use headers::Header;
use input::Input;
use lines::{Lines, Listing, Silence};
use reader::{Fragment, Making, Reader, Totals};
use std::io::{self, Read, Write};
use std::process::ExitCode;
use stop::{status_of, Stop};

/// The samples are listed.
struct Listed<L>(L);

impl<R: Read, L: Listing> Making<R> for Listed<L> {
    fn moov(&mut self, _: &mut Input<R>) -> Result<(), Stop> {
        Ok(())
    }

    #[inline]
    fn other(&mut self, _: &Header, _: &mut Input<R>) -> Result<(), Stop> {
        Ok(())
    }

    #[inline]
    fn fragment(&mut self, of: &Fragment, _: usize, input: &mut Input<R>) -> Result<(), Stop> {
        for run in &of.runs.list {
            let track = of.tracks.at(run.track as usize).id;
            self.0.list(run, track, input.held())?;
        }
        Ok(())
    }
}

/// Reads standard input, and lists its samples where that is asked for.
fn run(listing: impl Listing) -> Result<Totals, Stop> {
    let mut reader = Reader::new(io::stdin().lock(), Listed(listing));
    let read = reader.read();
    reader.making.0.send()?;
    read.map(|()| reader.totals)
}

fn check() -> Result<(), Stop> {
    let Totals { fragments, samples, media, held } = run(Silence)?;
    let text = format!("fragments={fragments} samples={samples} media={media} held={held}\n");
    io::stdout().write_all(text.as_bytes()).map_err(|_| Stop::Write)
}

fn main() -> ExitCode {
    let words: Vec<String> = std::env::args().skip(1).collect();
    status_of(match words.iter().map(String::as_str).collect::<Vec<_>>()[..] {
        ["samples"] => Some(run(Lines::new(io::stdout().lock())).map(drop)),
        ["check"] => Some(check()),
        _ => None,
    })
}
