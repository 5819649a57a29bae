//! Whether what is written has room in its fields, and the index of a group of pieces.

use crate::headers::Kind;
use crate::moof::{Run, Runs};
use crate::rows::{by_fields, Cut, Piece, Rows};
use crate::rules::{Fault, Rule};

/// The most pieces that an index has.
pub const GROUP: usize = 65_535;

/// A piece, its first sample, and its least composition time.
struct Timed {
    piece: Piece,
    least: i128,
}

/// The pieces of a run from a sample on, which has a time.
struct Pieces<'a, const FIELDS: usize> {
    rows: Rows<'a, FIELDS>,
    cut: &'a Cut,
    first: u32,
    time: u64,
}

impl<const FIELDS: usize> Iterator for Pieces<'_, FIELDS> {
    type Item = Timed;

    fn next(&mut self) -> Option<Timed> {
        if self.first >= self.rows.run.count {
            return None;
        }
        let signed = self.rows.run.form >> 24 != 0;
        let (time, mut least) = (i128::from(self.time), i128::MAX);
        let piece = Piece::at(&self.rows, self.first, self.cut, |before, row| {
            let offset = if signed { i64::from(row.offset as i32) } else { i64::from(row.offset) };
            least = least.min(time + i128::from(before.duration) + i128::from(offset));
        });
        self.first += piece.count;
        self.time += piece.duration;
        Some(Timed { piece, least })
    }
}

fn pieces<'a, const FIELDS: usize>(
    run: &'a Run,
    held: &'a [u8],
    cut: &'a Cut,
) -> Pieces<'a, FIELDS> {
    Pieces { rows: Rows::of(run, held), cut, first: 0, time: run.time }
}

fn count<const FIELDS: usize>(run: &Run, held: &[u8], cut: &Cut) -> u64 {
    pieces::<FIELDS>(run, held, cut).count() as u64
}

/// Whether the pieces of a run have room in their indexes.
fn fits_index<const FIELDS: usize>(run: &Run, held: &[u8], cut: &Cut) -> bool {
    pieces::<FIELDS>(run, held, cut).enumerate().all(|(i, Timed { piece, least })| {
        let in_time = i % GROUP != 0 || u64::try_from(least).is_ok();
        in_time && piece.size() < 1 << 31 && piece.duration < 1 << 32
    })
}

/// The least fault of what would be written for the runs of a moof at an offset, whose first piece has a number.
pub fn fault_of(runs: &Runs, at: u64, held: &[u8], cut: &Cut, number: u64) -> Option<Fault> {
    if cut.index {
        let wrong = runs.list.iter().filter(|run| !by_fields!(run, fits_index, run, held, cut));
        if let Some(trun) = wrong.map(|run| run.trun).min() {
            let at = at + u64::from(trun);
            return Some(Fault { rule: Rule::IndexRange, kind: Some(Kind::TRUN), at });
        }
    }
    if number + runs.samples <= 1 << 32 {
        return None;
    }
    let counts = runs.list.iter().map(|run| by_fields!(run, count, run, held, cut));
    let has_room = number + counts.sum::<u64>() <= 1 << 32;
    let fault = Fault { rule: Rule::SequenceEnd, kind: Some(Kind::MOOF), at };
    (!has_room).then_some(fault)
}

/// The index of the group of pieces that begins with a sample, for a track with a timescale.
pub fn index_of<const FIELDS: usize>(
    run: &Run,
    held: &[u8],
    cut: &Cut,
    (first, time): (u32, u64),
    (track, timescale): (u32, u32),
) -> Vec<u8> {
    let group = Pieces { first, time, ..pieces::<FIELDS>(run, held, cut) };
    let mut index = vec![0; 40];
    let mut earliest = None;
    for Timed { piece, least } in group.take(GROUP) {
        earliest.get_or_insert(least as u64);
        index.extend_from_slice(&(piece.size() as u32).to_be_bytes());
        index.extend_from_slice(&(piece.duration as u32).to_be_bytes());
        index.extend_from_slice(&[0; 4]);
    }
    let count = (index.len() as u32 - 40) / 12;
    let words = [40 + 12 * count, u32::from_be_bytes(*b"sidx"), 1 << 24, track, timescale];
    for (place, word) in index.chunks_exact_mut(4).zip(words) {
        place.copy_from_slice(&word.to_be_bytes());
    }
    index[20..28].copy_from_slice(&earliest.unwrap_or(0).to_be_bytes());
    index[38..40].copy_from_slice(&(count as u16).to_be_bytes());
    index
}
