//! The fragments that the runs of a moof become.

use crate::input::Input;
use crate::moof::Run;
use crate::moov::Track;
use crate::out::{Out, Through, BLOCK};
use crate::room::{index_of, GROUP};
use crate::rows::{by_fields, Cut, Piece, Rows};
use crate::stop::Stop;
use std::io::{Read, Write};

/// The bytes of a moof before its rows.
const FRONT: usize = 92;
/// The most samples whose rows are put before it is known how many they are.
const SHORT: u32 = ((BLOCK - FRONT - 16) / 16) as u32;

/// The front of a moof, with what is the same in all: mfhd, and a traf with tfhd, tfdt and trun.
const MOOF: [u8; FRONT] = {
    const fn kind(kind: &[u8; 4]) -> u32 {
        u32::from_be_bytes(*kind)
    }
    let words = [
        [0, kind(b"moof"), 16, kind(b"mfhd"), 0, 0, 0, kind(b"traf")],
        [20, kind(b"tfhd"), 0x02_0002, 0, 0, 20, kind(b"tfdt"), 1 << 24],
        [0, 0, 0, kind(b"trun"), 0x0f01, 0, 0, 0],
    ];
    let mut front = [0; FRONT];
    let mut i = 0;
    while i < FRONT {
        front[i] = words[i / 32][i / 4 % 8].to_be_bytes()[i % 4];
        i += 1;
    }
    front
};

/// Media, and where it goes.
pub trait Media {
    type To: Write;
    fn out(&mut self) -> &mut Out<Self::To>;
    /// Puts so many bytes from a stream offset on; false where the stream ends before the last.
    fn copy(&mut self, place: u64, len: u64) -> Result<bool, Stop>;
}

/// Media that is there, from a stream offset on.
pub struct There<'a, W> {
    pub at: u64,
    pub bytes: &'a [u8],
    pub out: &'a mut Out<W>,
}

impl<W: Write> Media for There<'_, W> {
    type To = W;

    #[inline(always)]
    fn out(&mut self) -> &mut Out<W> {
        self.out
    }

    #[inline(always)]
    fn copy(&mut self, place: u64, len: u64) -> Result<bool, Stop> {
        self.out.put(&self.bytes[(place - self.at) as usize..][..len as usize])?;
        Ok(true)
    }
}

/// Media that comes next in a stream.
pub struct Coming<'a, R, W> {
    pub input: &'a mut Input<Through<R, W>>,
}

impl<R: Read, W: Write> Media for Coming<'_, R, W> {
    type To = W;

    #[inline(always)]
    fn out(&mut self) -> &mut Out<W> {
        &mut self.input.lend().2.out
    }

    #[inline]
    fn copy(&mut self, place: u64, len: u64) -> Result<bool, Stop> {
        if !self.input.pass(place - self.input.at())? {
            return Ok(false);
        }
        let mut left = len;
        loop {
            let (_, came, stream) = self.input.lend();
            let count = came.len().min(left.min(usize::MAX as u64) as usize);
            stream.out.put(&came[..count])?;
            self.input.pass(count as u64)?;
            left -= count as u64;
            if left == 0 {
                return Ok(true);
            }
            if !self.input.read_on()? {
                return Ok(false);
            }
        }
    }
}

/// What the pieces of a run share, and where the next begins.
struct Next<'a> {
    cut: &'a Cut,
    front: [u8; FRONT],
    first: u32,
    time: u64,
    number: u64,
}

impl<'a> Next<'a> {
    #[inline(always)]
    fn of(run: &Run, track: u32, cut: &'a Cut, number: u64) -> Next<'a> {
        let mut front = MOOF;
        front[44..48].copy_from_slice(&track.to_be_bytes());
        front[48..52].copy_from_slice(&run.defaults.entry.to_be_bytes());
        front[80] = (run.form >> 24) as u8;
        Next { cut, front, first: 0, time: run.time, number }
    }

    /// Puts the front of the moof of a piece.
    #[inline(always)]
    fn put_front(&self, front: &mut [u8; FRONT], piece: &Piece) {
        *front = self.front;
        let rows = 16 * piece.count;
        let offset = FRONT as u32 + rows + piece.header_len();
        front[..4].copy_from_slice(&(FRONT as u32 + rows).to_be_bytes());
        front[20..24].copy_from_slice(&(self.number as u32).to_be_bytes());
        front[24..28].copy_from_slice(&(68 + rows).to_be_bytes());
        front[64..72].copy_from_slice(&self.time.to_be_bytes());
        front[72..76].copy_from_slice(&(20 + rows).to_be_bytes());
        front[84..88].copy_from_slice(&piece.count.to_be_bytes());
        front[88..].copy_from_slice(&offset.to_be_bytes());
    }

    /// Puts the moof of the next piece and the header of its mdat, where its rows fit in a block whatever their number.
    #[inline(always)]
    fn put_short<const FIELDS: usize, W: Write>(
        &self,
        rows: &Rows<FIELDS>,
        out: &mut Out<W>,
    ) -> Result<Piece, Stop> {
        let most = self.cut.samples.min(rows.run.count - self.first);
        let room = out.room(FRONT + 16 * most as usize + 16)?;
        let (front, after) = room.split_first_chunk_mut().expect("there is room");
        let piece = rows.put(self.first, self.cut, &mut after.as_chunks_mut().0[..most as usize]);
        self.put_front(front, &piece);
        let len = 16 * piece.count as usize;
        let header = after[len..].first_chunk_mut().expect("there is room");
        put_header(header, &piece);
        out.took(FRONT + len + piece.header_len() as usize);
        Ok(piece)
    }

    /// The same where they may not fit.
    fn put_long<const FIELDS: usize, W: Write>(
        &self,
        rows: &Rows<FIELDS>,
        out: &mut Out<W>,
    ) -> Result<Piece, Stop> {
        let piece = Piece::at(rows, self.first, self.cut, |_, _| {});
        let mut front = [0; FRONT];
        self.put_front(&mut front, &piece);
        out.put(&front)?;
        let mut bytes = [0; 16];
        for i in self.first..self.first + piece.count {
            rows.row(i).put(&mut bytes);
            out.put(&bytes)?;
        }
        put_header(&mut bytes, &piece);
        out.put(&bytes[..piece.header_len() as usize])?;
        Ok(piece)
    }
}

/// Puts the header of the mdat of a piece, which has eight bytes or all of these.
#[inline(always)]
fn put_header(place: &mut [u8; 16], piece: &Piece) {
    let kind = u64::from(u32::from_be_bytes(*b"mdat"));
    let (size, long) = match piece.header_len() {
        8 => (8 + piece.bytes, 0),
        _ => (1, 16 + piece.bytes),
    };
    place[..8].copy_from_slice(&(size << 32 | kind).to_be_bytes());
    place[8..].copy_from_slice(&long.to_be_bytes());
}

/// Puts the fragments of a run, of which the first has a number; false where the stream ends before the last of their media.
#[inline(always)]
pub fn put_run<M: Media>(
    run: &Run,
    held: &[u8],
    track: &Track,
    cut: &Cut,
    number: &mut u64,
    media: &mut M,
) -> Result<bool, Stop> {
    by_fields!(run, put_pieces[M], run, held, track, cut, number, media)
}

fn put_pieces<const FIELDS: usize, M: Media>(
    run: &Run,
    held: &[u8],
    track: &Track,
    cut: &Cut,
    number: &mut u64,
    media: &mut M,
) -> Result<bool, Stop> {
    let rows = Rows::<FIELDS>::of(run, held);
    let mut next = Next::of(run, track.id, cut, *number);
    let (mut place, mut of_group) = (run.place as u64, 0);
    while next.first < run.count {
        if cut.index {
            if of_group % GROUP == 0 {
                let (from, of) = ((next.first, next.time), (track.id, track.timescale));
                media.out().put(&index_of::<FIELDS>(run, held, cut, from, of))?;
            }
            of_group += 1;
        }
        let piece = if cut.samples.min(run.count) <= SHORT {
            next.put_short(&rows, media.out())?
        } else {
            next.put_long(&rows, media.out())?
        };
        next.first += piece.count;
        next.time += piece.duration;
        next.number += 1;
        if piece.bytes > 0 && !media.copy(place, piece.bytes)? {
            return Ok(false);
        }
        place += piece.bytes;
    }
    *number = next.number;
    Ok(true)
}
