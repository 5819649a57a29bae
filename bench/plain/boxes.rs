//! Lists the boxes of an MP4 stream on standard input, as `fmp4 boxes` does: plain Rust, with std alone, made to be fast.
//!
//! A box at the top is listed by its header and its body is passed over. A moov or moof is taken whole: in the buffer
//! that the stream is read into, or in memory of its own where it is larger. The tree of its boxes is checked, and then
//! it is listed with all boxes below it. Each line is built in the buffer that is written.

use std::fmt;
use std::io::{self, ErrorKind, Read, Write};
use std::process::ExitCode;

/// How many bytes are read at once, and how many are written.
const PIECE: usize = 65_536;
/// The longest header: a size of 64 bits and a user type.
const LONGEST_HEADER: usize = 32;
/// The spaces in front of the lowest box.
const INDENT: &[u8; 2 * (DEEPEST - 1)] = b"              ";
/// The longest line: a type, two numbers of 64 bits, a user type and what is between.
const LONGEST_LINE: usize = INDENT.len() + 4 + 1 + 20 + 2 + 20 + 1 + 32 + 1;
/// How deep boxes may be; a box at the top has depth 1.
const DEEPEST: usize = 8;
/// No stream is followed further.
const LONGEST_STREAM: u64 = 1 << 62;

/// A type, its first byte the highest.
#[derive(Clone, Copy, PartialEq, Eq)]
struct FourCc(u32);

impl FourCc {
    const UUID: FourCc = FourCc::of(b"uuid");
    const MOOV: FourCc = FourCc::of(b"moov");
    const TRAK: FourCc = FourCc::of(b"trak");
    const EDTS: FourCc = FourCc::of(b"edts");
    const MDIA: FourCc = FourCc::of(b"mdia");
    const MINF: FourCc = FourCc::of(b"minf");
    const DINF: FourCc = FourCc::of(b"dinf");
    const STBL: FourCc = FourCc::of(b"stbl");
    const MVEX: FourCc = FourCc::of(b"mvex");
    const MOOF: FourCc = FourCc::of(b"moof");
    const TRAF: FourCc = FourCc::of(b"traf");

    const fn of(text: &[u8; 4]) -> FourCc {
        FourCc(u32::from_be_bytes(*text))
    }

    /// Whether the payload of such a box is a row of boxes.
    fn is_container(self) -> bool {
        matches!(
            self,
            FourCc::MOOV
                | FourCc::TRAK
                | FourCc::EDTS
                | FourCc::MDIA
                | FourCc::MINF
                | FourCc::DINF
                | FourCc::STBL
                | FourCc::MVEX
                | FourCc::MOOF
                | FourCc::TRAF
        )
    }

    /// The most bytes that a box may have to be held; none where boxes of the type aren't held.
    fn most_held(self) -> Option<u64> {
        match self {
            FourCc::MOOV => Some(16 << 20),
            FourCc::MOOF => Some(64 << 20),
            _ => None,
        }
    }

    /// The four bytes, with a question mark for each that doesn't print.
    fn shown(self) -> [u8; 4] {
        self.0.to_be_bytes().map(|byte| {
            if matches!(byte, 0x20..=0x7e) {
                byte
            } else {
                b'?'
            }
        })
    }
}

struct Header {
    kind: FourCc,
    user: Option<[u8; 16]>,
    /// The size of the whole box; none where it goes to the end of the stream.
    size: Option<u64>,
    len: usize,
}

/// Why bytes don't begin with a header.
enum NoHeader {
    /// They end before it does; its type, if they have it.
    Cut(Option<FourCc>),
    /// The size has no room for it.
    BadSize(FourCc),
}

impl Header {
    /// The header at the front of the bytes.
    #[inline]
    fn parse(bytes: &[u8]) -> Result<Header, NoHeader> {
        let (start, rest) = bytes.split_first_chunk().ok_or(NoHeader::Cut(None))?;
        let start = u64::from_be_bytes(*start);
        let (size, kind) = (start >> 32, FourCc(start as u32));
        if size < 2 || kind == FourCc::UUID {
            return Header::parse_long(size, kind, rest);
        }
        if size < 8 {
            return Err(NoHeader::BadSize(kind));
        }
        Ok(Header {
            kind,
            user: None,
            size: Some(size),
            len: 8,
        })
    }

    /// The header that begins with such a size and type, the rest of which is at the front of the bytes.
    #[cold]
    fn parse_long(size: u64, kind: FourCc, mut rest: &[u8]) -> Result<Header, NoHeader> {
        let mut len = 8;
        let mut size = if size == 0 { None } else { Some(size) };
        let mut user = None;
        if size == Some(1) {
            let Some((long, after)) = rest.split_first_chunk() else {
                return Err(NoHeader::Cut(Some(kind)));
            };
            size = Some(u64::from_be_bytes(*long));
            rest = after;
            len += 8;
        }
        if kind == FourCc::UUID {
            user = Some(*rest.first_chunk().ok_or(NoHeader::Cut(Some(kind)))?);
            len += 16;
        }
        if size.is_some_and(|size| size < len as u64) {
            return Err(NoHeader::BadSize(kind));
        }
        Ok(Header {
            kind,
            user,
            size,
            len,
        })
    }
}

/// Why the listing stops.
enum Stop {
    /// A box at an offset breaks a rule.
    Fault(&'static str, Option<FourCc>, u64),
    Io(io::Error),
}

impl From<io::Error> for Stop {
    fn from(error: io::Error) -> Stop {
        Stop::Io(error)
    }
}

impl fmt::Display for Stop {
    fn fmt(&self, f: &mut fmt::Formatter<'_>) -> fmt::Result {
        match self {
            Stop::Fault(rule, None, at) => write!(f, "{rule} in (none) at {at}"),
            Stop::Fault(rule, Some(kind), at) => {
                write!(
                    f,
                    "{rule} in {} at {at}",
                    String::from_utf8_lossy(&kind.shown())
                )
            }
            Stop::Io(error) => error.fmt(f),
        }
    }
}

/// A stream, and a buffer with its next bytes.
struct Input<R> {
    stream: R,
    buffer: Box<[u8]>,
    start: usize,
    end: usize,
}

impl<R: Read> Input<R> {
    fn new(stream: R) -> Input<R> {
        Input {
            stream,
            buffer: vec![0; PIECE].into_boxed_slice(),
            start: 0,
            end: 0,
        }
    }

    /// The bytes in the buffer: at least so many, unless the stream ends before. No more than the buffer has room for.
    #[inline]
    fn next(&mut self, wanted: usize) -> io::Result<&[u8]> {
        if self.end - self.start < wanted {
            self.fetch(wanted)?;
        }
        Ok(&self.buffer[self.start..self.end])
    }

    #[cold]
    fn fetch(&mut self, wanted: usize) -> io::Result<()> {
        self.buffer.copy_within(self.start..self.end, 0);
        self.end -= self.start;
        self.start = 0;
        while self.end < wanted {
            match read(&mut self.stream, &mut self.buffer[self.end..])? {
                0 => break,
                count => self.end += count,
            }
        }
        Ok(())
    }

    /// Passes over so many bytes; false where the stream ends before.
    #[inline]
    fn skip(&mut self, count: u64) -> io::Result<bool> {
        let there = (self.end - self.start) as u64;
        if count <= there {
            self.start += count as usize;
            return Ok(true);
        }
        self.skip_far(count - there)
    }

    /// Passes over the whole buffer and so many bytes after it.
    #[cold]
    fn skip_far(&mut self, mut left: u64) -> io::Result<bool> {
        loop {
            self.start = 0;
            self.end = read(&mut self.stream, &mut self.buffer)?;
            if self.end == 0 {
                return Ok(false);
            }
            if left <= self.end as u64 {
                self.start = left as usize;
                return Ok(true);
            }
            left -= self.end as u64;
        }
    }

    /// Takes the next bytes, more than the buffer has room for, into `place`; false where the stream ends before.
    fn take(&mut self, place: &mut [u8]) -> io::Result<bool> {
        let (front, rest) = place.split_at_mut(self.end - self.start);
        front.copy_from_slice(&self.buffer[self.start..self.end]);
        self.start = self.end;
        match self.stream.read_exact(rest) {
            Ok(()) => Ok(true),
            Err(error) if error.kind() == ErrorKind::UnexpectedEof => Ok(false),
            Err(error) => Err(error),
        }
    }
}

/// Reads once, and again where a signal came in between.
fn read<R: Read>(stream: &mut R, place: &mut [u8]) -> io::Result<usize> {
    loop {
        match stream.read(place) {
            Err(error) if error.kind() == ErrorKind::Interrupted => {}
            answer => return answer,
        }
    }
}

/// Lines on their way out.
struct Lines<W> {
    out: W,
    text: Box<[u8]>,
    len: usize,
}

impl<W: Write> Lines<W> {
    fn new(out: W) -> Lines<W> {
        Lines {
            out,
            text: vec![0; PIECE].into_boxed_slice(),
            len: 0,
        }
    }

    #[cold]
    fn send(&mut self) -> io::Result<()> {
        self.out.write_all(&self.text[..self.len])?;
        self.len = 0;
        Ok(())
    }

    /// Adds the line of a box so many levels below the top.
    #[inline]
    fn add(&mut self, level: usize, at: u64, header: &Header) -> io::Result<()> {
        if self.text.len() - self.len < LONGEST_LINE {
            self.send()?;
        }
        let line = &mut self.text[self.len..self.len + LONGEST_LINE];
        line[..INDENT.len()].copy_from_slice(INDENT);
        let mut len = 2 * level;
        line[len..len + 4].copy_from_slice(&header.kind.shown());
        line[len + 4] = b' ';
        len += 5;
        match header.size {
            Some(size) => len += put_decimal(&mut line[len..], size),
            None => {
                line[len..len + 3].copy_from_slice(b"end");
                len += 3;
            }
        }
        line[len..len + 2].copy_from_slice(b" @");
        len += 2;
        len += put_decimal(&mut line[len..], at);
        if let Some(user) = header.user {
            len += put_user(&mut line[len..], user);
        }
        line[len] = b'\n';
        self.len += len + 1;
        Ok(())
    }
}

#[cold]
fn put_user(place: &mut [u8], user: [u8; 16]) -> usize {
    let text = format!(" {:032x}", u128::from_be_bytes(user));
    place[..text.len()].copy_from_slice(text.as_bytes());
    text.len()
}

/// The two digits of each number below 100, one after the other.
static PAIRS: [[u8; 2]; 100] = {
    let mut pairs = [[0; 2]; 100];
    let mut number = 0;
    while number < 100 {
        pairs[number] = [b'0' + number as u8 / 10, b'0' + number as u8 % 10];
        number += 1;
    }
    pairs
};

/// Nothing, and then the powers of ten from ten on.
static POWERS_OF_TEN: [u64; 20] = {
    let mut powers = [0; 20];
    let mut power = 1;
    let mut exponent = 1;
    while exponent < 20 {
        power *= 10;
        powers[exponent] = power;
        exponent += 1;
    }
    powers
};

/// Puts a number in decimal at the front of the place, and returns how many digits it has.
#[inline]
fn put_decimal(place: &mut [u8], number: u64) -> usize {
    // So many digits that its highest bit makes sure of, less one: 1233 / 4096 is just above the logarithm of two.
    let sure = (64 - (number | 1).leading_zeros() as usize) * 1233 >> 12;
    let count = sure + usize::from(number >= POWERS_OF_TEN[sure]);
    let mut end = count;
    let mut left = number;
    while left >= 10_000 {
        let four = (left % 10_000) as usize;
        left /= 10_000;
        place[end - 2..end].copy_from_slice(&PAIRS[four % 100]);
        place[end - 4..end - 2].copy_from_slice(&PAIRS[four / 100]);
        end -= 4;
    }
    let mut left = left as usize;
    if left >= 100 {
        place[end - 2..end].copy_from_slice(&PAIRS[left % 100]);
        left /= 100;
        end -= 2;
    }
    if left >= 10 {
        place[end - 2..end].copy_from_slice(&PAIRS[left]);
    } else {
        place[end - 1] = b'0' + left as u8;
    }
    count
}

/// The boxes of a payload, one after the other. Stops at the first that isn't whole, with a fault.
struct Children<'a> {
    bytes: &'a [u8],
    at: u64,
}

impl<'a> Iterator for Children<'a> {
    type Item = Result<(u64, Header, &'a [u8]), Stop>;

    #[inline]
    fn next(&mut self) -> Option<Self::Item> {
        if self.bytes.is_empty() {
            return None;
        }
        let at = self.at;
        let bad_size = |kind| Some(Err(Stop::Fault("BadSize", kind, at)));
        let header = match Header::parse(self.bytes) {
            Ok(header) => header,
            Err(NoHeader::Cut(kind)) => return bad_size(kind),
            Err(NoHeader::BadSize(kind)) => return bad_size(Some(kind)),
        };
        let size = header.size.and_then(|size| usize::try_from(size).ok());
        let Some((own, rest)) = size.and_then(|size| self.bytes.split_at_checked(size)) else {
            return bad_size(Some(header.kind));
        };
        self.at += own.len() as u64;
        self.bytes = rest;
        let payload = &own[header.len..];
        Some(Ok((at, header, payload)))
    }
}

/// Checks that the boxes below a container are whole, and keeps the first that is too deep.
fn check_below(
    payload: &[u8],
    at: u64,
    depth: usize,
    deep: &mut Option<Stop>,
) -> Result<(), Stop> {
    for child in (Children { bytes: payload, at }) {
        let (at, header, payload) = child?;
        if depth > DEEPEST {
            deep.get_or_insert(Stop::Fault("Depth", Some(header.kind), at));
        } else if header.kind.is_container() {
            check_below(payload, at + header.len as u64, depth + 1, deep)?;
        }
    }
    Ok(())
}

/// Lists the boxes below a container.
fn list_below<W: Write>(
    lines: &mut Lines<W>,
    payload: &[u8],
    at: u64,
    level: usize,
) -> Result<(), Stop> {
    for child in (Children { bytes: payload, at }) {
        let (at, header, payload) = child?;
        lines.add(level, at, &header)?;
        if header.kind.is_container() {
            list_below(lines, payload, at + header.len as u64, level + 1)?;
        }
    }
    Ok(())
}

/// Checks and lists a box that is held.
fn list_held<W: Write>(
    lines: &mut Lines<W>,
    bytes: &[u8],
    at: u64,
    header: &Header,
) -> Result<(), Stop> {
    let (payload, below) = (&bytes[header.len..], at + header.len as u64);
    let mut deep = None;
    check_below(payload, below, 2, &mut deep)?;
    if let Some(deep) = deep {
        return Err(deep);
    }
    lines.add(0, at, header)?;
    list_below(lines, payload, below, 1)
}

/// Lists the boxes of a stream.
fn list<R: Read, W: Write>(input: &mut Input<R>, lines: &mut Lines<W>) -> Result<(), Stop> {
    let mut held = Vec::new();
    let mut at = 0;
    loop {
        let start = input.next(8)?;
        if start.is_empty() {
            return Ok(());
        }
        let mut parsed = Header::parse(start);
        if let Err(NoHeader::Cut(Some(_))) = parsed {
            parsed = Header::parse(input.next(LONGEST_HEADER)?);
        }
        let header = parsed.map_err(|no_header| match no_header {
            NoHeader::Cut(kind) => Stop::Fault("Truncated", kind, at),
            NoHeader::BadSize(kind) => Stop::Fault("BadSize", Some(kind), at),
        })?;
        let fault = |rule| Err(Stop::Fault(rule, Some(header.kind), at));
        let size = header.size.unwrap_or(LONGEST_STREAM - at);
        if size > LONGEST_STREAM - at {
            return fault("StreamTooLong");
        }

        if let Some(most) = header.kind.most_held() {
            if header.size.is_none_or(|size| size > most) {
                return fault("TooLarge");
            }
            let count = size as usize;
            if count <= PIECE {
                let Some(bytes) = input.next(count)?.get(..count) else {
                    return fault("Truncated");
                };
                list_held(lines, bytes, at, &header)?;
                input.skip(size)?;
            } else {
                held.resize(count, 0);
                if !input.take(&mut held)? {
                    return fault("Truncated");
                }
                list_held(lines, &held, at, &header)?;
            }
        } else {
            lines.add(0, at, &header)?;
            if !input.skip(size)? && header.size.is_some() {
                return fault("Truncated");
            }
        }
        at += size;
    }
}

fn main() -> ExitCode {
    let mut input = Input::new(io::stdin().lock());
    let mut lines = Lines::new(io::stdout().lock());
    let listed = list(&mut input, &mut lines);
    let sent = lines.send().map_err(Stop::Io);
    match listed.and(sent) {
        Ok(()) => ExitCode::SUCCESS,
        Err(stop) => {
            eprintln!("boxes: {stop}");
            ExitCode::from(if matches!(stop, Stop::Io(_)) { 3 } else { 2 })
        }
    }
}
