//! The lines of samples, on their way out.

use crate::line::Line;
use crate::moof::{Columns, Run};
use crate::stop::Stop;
use std::io::Write;

/// How many bytes are written at once.
const PIECE: usize = 65_536;
/// No line is longer: three numbers of 64 bits and a sign, four of 32 bits, the flags, and 50 bytes between.
const LONGEST_LINE: usize = 3 * 20 + 1 + 4 * 10 + 8 + 50;

/// What is listed.
pub trait Listing {
    /// Lists the samples of a run of the moof that is held.
    fn list(&mut self, run: &Run, track: u32, held: &[u8]) -> Result<(), Stop>;
    /// Writes what waits.
    fn send(&mut self) -> Result<(), Stop>;
}

/// Nothing.
pub struct Silence;

impl Listing for Silence {
    #[inline]
    fn list(&mut self, _: &Run, _: u32, _: &[u8]) -> Result<(), Stop> {
        Ok(())
    }

    fn send(&mut self) -> Result<(), Stop> {
        Ok(())
    }
}

/// A line for each sample.
pub struct Lines<W> {
    out: W,
    text: Box<[u8]>,
    len: usize,
}

impl<W: Write> Lines<W> {
    pub fn new(out: W) -> Lines<W> {
        Lines { out, text: vec![0; PIECE].into_boxed_slice(), len: 0 }
    }
}

/// What a line says of a sample.
struct Sample {
    track: u32,
    time: u64,
    /// How far its composition time lies after its decode time.
    offset: i64,
    duration: u32,
    size: u32,
    flags: u32,
    entry: u32,
    place: u64,
}

impl Sample {
    /// Builds its line at the front of a place, and returns how long that is.
    #[inline]
    fn put(&self, place: &mut [u8]) -> usize {
        let mut line = Line::new(place);
        line.put(b"track=");
        line.decimal(u64::from(self.track));
        line.put(b" dts=");
        line.decimal(self.time);
        line.put(b" cts=");
        line.signed(i128::from(self.time) + i128::from(self.offset));
        line.put(b" dur=");
        line.decimal(u64::from(self.duration));
        line.put(b" size=");
        line.decimal(u64::from(self.size));
        line.put(b" flags=");
        line.hexadecimal(self.flags);
        line.put(if self.flags & NOT_SYNC == 0 { b" sync desc=" } else { b" - desc=" });
        line.decimal(u64::from(self.entry));
        line.put(b" at=");
        line.decimal(self.place);
        line.put(b"\n");
        line.len()
    }
}

/// The bit of a sample's flags that says that it isn't a sync sample.
const NOT_SYNC: u32 = 0x0001_0000;

#[inline]
fn field(row: &[u8], at: usize) -> u32 {
    u32::from_be_bytes(row[at..at + 4].try_into().unwrap())
}

impl<W: Write> Listing for Lines<W> {
    fn list(&mut self, run: &Run, track: u32, held: &[u8]) -> Result<(), Stop> {
        let columns = Columns::of(run.form);
        let rows = run.rows(held);
        let signed = run.form >> 24 != 0;
        let mut default_flags = run.first_flags;
        let (mut time, mut place) = (run.time, run.place as u64);
        for i in 0..run.count as usize {
            let row = &rows[i * columns.len..(i + 1) * columns.len];
            let at = |column: Option<usize>, defaults| column.map_or(defaults, |at| field(row, at));
            let duration = at(columns.duration, run.defaults.duration);
            let size = at(columns.size, run.defaults.size);
            let flags = at(columns.flags, default_flags);
            let offset = at(columns.offset, 0);
            let offset = if signed { i64::from(offset as i32) } else { i64::from(offset) };
            let sample = Sample {
                track,
                time,
                offset,
                duration,
                size,
                flags,
                entry: run.defaults.entry,
                place,
            };
            if self.text.len() - self.len < LONGEST_LINE {
                self.send()?;
            }
            self.len += sample.put(&mut self.text[self.len..self.len + LONGEST_LINE]);
            default_flags = run.defaults.flags;
            time = time.wrapping_add(u64::from(duration));
            place = place.wrapping_add(u64::from(size));
        }
        Ok(())
    }

    #[cold]
    fn send(&mut self) -> Result<(), Stop> {
        self.out.write_all(&self.text[..self.len]).map_err(|_| Stop::Write)?;
        self.len = 0;
        Ok(())
    }
}
