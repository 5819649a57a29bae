//! A stream, read through a buffer, and the one box of it that is held.

use crate::headers::{Header, NoHeader, LONGEST_HEADER};
use crate::rules::{Fault, Rule};
use crate::stop::Stop;
use std::io::{ErrorKind, Read};

/// How many bytes are read at once.
pub const PIECE: usize = 65_536;
/// No stream is followed further.
pub const LONGEST_STREAM: u64 = 1 << 62;

/// Bytes that begin with a page of memory: the system copies a file there faster than elsewhere.
#[repr(align(4096))]
struct Pages([u8; PIECE]);

pub struct Input<R> {
    stream: R,
    /// How many bytes were read.
    came: u64,
    buffer: Box<Pages>,
    /// Where in the buffer the bytes begin and end that came and weren't passed.
    start: usize,
    end: usize,
    /// The offset in the stream of the first of them.
    at: u64,
    /// How many bytes of the buffer are held.
    in_buffer: usize,
    /// A block for a box that the buffer has no room for, and how many bytes of it are held.
    block: Vec<u8>,
    in_block: usize,
}

impl<R: Read> Input<R> {
    pub fn new(stream: R) -> Input<R> {
        Input {
            stream,
            came: 0,
            buffer: Box::new(Pages([0; PIECE])),
            start: 0,
            end: 0,
            at: 0,
            in_buffer: 0,
            block: Vec::new(),
            in_block: 0,
        }
    }

    /// The offset of the first byte after what was passed and what is held.
    #[inline(always)]
    pub fn at(&self) -> u64 {
        self.at + self.in_buffer as u64
    }

    /// The next box by its header, which is not passed; none where the stream ends before it.
    #[inline(always)]
    pub fn header(&mut self) -> Result<Option<Header>, Stop> {
        match Header::parse(self.next(8)?) {
            Ok(header) if header.size.is_some_and(|size| size <= LONGEST_STREAM - self.at()) => {
                Ok(Some(header))
            }
            parsed => self.rare_header(parsed),
        }
    }

    /// The header of the next box, as far as its first eight bytes show it.
    #[cold]
    fn rare_header(
        &mut self,
        mut parsed: Result<Header, NoHeader>,
    ) -> Result<Option<Header>, Stop> {
        match parsed {
            Err(NoHeader::Cut(None, _)) if self.end == self.start + self.in_buffer => {
                return Ok(None)
            }
            Err(NoHeader::Cut(Some(_), len)) => parsed = Header::parse(self.next(len)?),
            _ => {}
        }
        let at = self.at();
        let fault = |rule, kind| Err(Stop::Fault(Fault { rule, kind, at }));
        match parsed {
            Err(NoHeader::Cut(kind, _)) => fault(Rule::Truncated, kind),
            Err(NoHeader::BadSize(kind)) => fault(Rule::BadSize, Some(kind)),
            Ok(header) if header.size.unwrap_or(header.len as u64) > LONGEST_STREAM - at => {
                fault(Rule::StreamTooLong, Some(header.kind))
            }
            Ok(header) => Ok(Some(header)),
        }
    }

    /// The next bytes that are in the buffer: at least so many, unless the stream ends before.
    #[inline(always)]
    fn next(&mut self, wanted: usize) -> Result<&[u8], Stop> {
        let wanted = self.in_buffer + wanted;
        if self.end - self.start < wanted {
            self.fetch(wanted)?;
        }
        Ok(&self.buffer.0[self.start + self.in_buffer..self.end])
    }

    /// Reads until the buffer has so many bytes, or the stream ends.
    #[cold]
    fn fetch(&mut self, wanted: usize) -> Result<(), Stop> {
        self.buffer.0.copy_within(self.start..self.end, 0);
        self.end -= self.start;
        self.start = 0;
        while self.end < wanted {
            match read(&mut self.stream, &mut self.buffer.0[self.end..], &mut self.came)? {
                0 => break,
                count => self.end += count,
            }
        }
        Ok(())
    }

    /// Holds the next box, of a size; false where the stream ends before. Nothing else may be held.
    #[inline(always)]
    pub fn hold(&mut self, size: usize) -> Result<bool, Stop> {
        if size > PIECE - LONGEST_HEADER {
            return self.hold_in_block(size);
        }
        let there = self.next(size)?.len();
        self.in_buffer = size.min(there);
        Ok(size <= there)
    }

    #[cold]
    fn hold_in_block(&mut self, size: usize) -> Result<bool, Stop> {
        if self.block.len() < size {
            self.block.resize(size, 0);
        }
        let mut len = size.min(self.end - self.start);
        self.block[..len].copy_from_slice(&self.buffer.0[self.start..self.start + len]);
        self.start += len;
        while len < size {
            match read(&mut self.stream, &mut self.block[len..size], &mut self.came)? {
                0 => return Ok(false),
                count => len += count,
            }
        }
        self.at += size as u64;
        self.in_block = size;
        Ok(true)
    }

    /// The box that is held.
    #[inline]
    pub fn held(&self) -> &[u8] {
        if self.in_block > 0 {
            &self.block[..self.in_block]
        } else {
            &self.buffer.0[self.start..self.start + self.in_buffer]
        }
    }

    /// Passes the box that is held, if there is one, and so many bytes after it; false where the stream ends before.
    #[inline(always)]
    pub fn pass(&mut self, count: u64) -> Result<bool, Stop> {
        let there = (self.end - self.start) as u64;
        let count = self.in_buffer as u64 + count;
        self.in_buffer = 0;
        self.in_block = 0;
        if count <= there {
            self.start += count as usize;
            self.at += count;
            return Ok(true);
        }
        self.pass_far(count)
    }

    #[cold]
    fn pass_far(&mut self, count: u64) -> Result<bool, Stop> {
        let end = self.at + count;
        loop {
            self.at += (self.end - self.start) as u64;
            self.start = 0;
            self.end = read(&mut self.stream, &mut self.buffer.0, &mut self.came)?;
            if self.end == 0 {
                return Ok(false);
            }
            let left = end - self.at;
            if left <= self.end as u64 {
                self.start = left as usize;
                self.at = end;
                return Ok(true);
            }
        }
    }
}

/// For programs that copy bytes of the stream.
#[allow(dead_code)]
impl<R: Read> Input<R> {
    /// The box that is held, the bytes after it that came, and the stream.
    #[inline(always)]
    pub fn lend(&mut self) -> (&[u8], &[u8], &mut R) {
        let (held, came) = self.buffer.0[self.start..self.end].split_at(self.in_buffer);
        let held = if self.in_block > 0 { &self.block[..self.in_block] } else { held };
        (held, came, &mut self.stream)
    }

    /// Passes the box that is held. Its bytes are at the front of a block, which is to be given back.
    pub fn take_held(&mut self) -> (Vec<u8>, usize) {
        let mut block = std::mem::take(&mut self.block);
        let mut len = self.in_block;
        if len == 0 {
            len = self.in_buffer;
            if block.len() < len {
                block.resize(len, 0);
            }
            block[..len].copy_from_slice(&self.buffer.0[self.start..self.start + len]);
            self.start += len;
            self.at += len as u64;
        }
        self.in_buffer = 0;
        self.in_block = 0;
        (block, len)
    }

    pub fn give_back(&mut self, block: Vec<u8>) {
        self.block = block;
    }

    /// Reads on where all that came is passed; false where the stream ends.
    pub fn read_on(&mut self) -> Result<bool, Stop> {
        self.start = 0;
        self.end = 0;
        self.end = read(&mut self.stream, &mut self.buffer.0, &mut self.came)?;
        Ok(self.end > 0)
    }
}

/// Reads once, and again where a signal came in between. Counts the bytes that come.
fn read<R: Read>(stream: &mut R, place: &mut [u8], came: &mut u64) -> Result<usize, Stop> {
    loop {
        match stream.read(place) {
            Ok(count) => {
                *came += count as u64;
                return Ok(count);
            }
            Err(error) if error.kind() == ErrorKind::Interrupted => {}
            Err(_) => return Err(Stop::Read(*came)),
        }
    }
}
