//! What is made of a stream whose fragments are cut into shorter ones.

use crate::headers::{Header, Kind};
use crate::input::{Input, LONGEST_STREAM};
use crate::out::Through;
use crate::reader::{Fragment, Making};
use crate::recut::{put_run, Coming, Media, There};
use crate::room;
use crate::rows::Cut;
use crate::stop::Stop;
use std::io::{Read, Write};

/// The boxes that are left out.
const INDEXES: [Kind; 3] = [Kind::of(b"sidx"), Kind::of(b"ssix"), Kind::of(b"mfra")];

/// The fragments are cut, and the next piece has a number.
pub struct Split {
    cut: Cut,
    number: u64,
}

impl Split {
    pub fn new(cut: Cut) -> Split {
        Split { cut, number: 1 }
    }

    /// Puts the fragments of all runs, as far as their media is there.
    #[inline(always)]
    fn put_runs<M: Media>(&mut self, of: &Fragment, held: &[u8], mut media: M) -> Result<(), Stop> {
        for run in &of.runs.list {
            let track = of.tracks.at(run.track as usize);
            if !put_run(run, held, track, &self.cut, &mut self.number, &mut media)? {
                break;
            }
        }
        Ok(())
    }
}

impl<R: Read, W: Write> Making<Through<R, W>> for Split {
    fn moov(&mut self, input: &mut Input<Through<R, W>>) -> Result<(), Stop> {
        let (held, _, stream) = input.lend();
        stream.out.put(held)
    }

    #[inline]
    fn other(&mut self, header: &Header, input: &mut Input<Through<R, W>>) -> Result<(), Stop> {
        if INDEXES.contains(&header.kind) {
            return Ok(());
        }
        let at = input.at();
        Coming { input }.copy(at, header.size.unwrap_or(LONGEST_STREAM + 1 - at)).map(drop)
    }

    #[inline]
    fn fragment(
        &mut self,
        of: &Fragment,
        header: usize,
        input: &mut Input<Through<R, W>>,
    ) -> Result<(), Stop> {
        let at = input.at();
        let (held, bytes, Through { out, .. }) = input.lend();
        if self.cut.index || self.number + of.runs.samples > 1 << 32 {
            if let Some(fault) = room::fault_of(of.runs, of.at, held, &self.cut, self.number) {
                return Err(Stop::Fault(fault));
            }
        }
        if of.runs.end <= (at + bytes.len() as u64) as i64 {
            return self.put_runs(of, held, There { at, bytes, out });
        }
        let (block, len) = input.take_held();
        let done = if input.pass(header as u64)? {
            self.put_runs(of, &block[..len], Coming { input })
        } else {
            Ok(())
        };
        input.give_back(block);
        done
    }
}
