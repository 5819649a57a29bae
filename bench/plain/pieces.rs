//! Cuts the first run of a moof and counts the bytes that are written for its pieces, as crates/bench_jobs does: plain Rust,
//! with std alone, made to be fast. What it reads is taken to be as it must be: a number of samples in four bytes, eight bytes, a moov
//! with one track, and a moof with one traf of tfhd, tfdt and trun.

use std::io::{self, Read};

/// How many bytes are written at once.
const BLOCK: usize = 16_384;

fn number(bytes: &[u8], at: usize) -> u32 {
    u32::from_be_bytes(bytes[at..at + 4].try_into().unwrap())
}

/// The payload of the first box of a type in a payload.
fn find<'a>(mut bytes: &'a [u8], kind: &[u8; 4]) -> &'a [u8] {
    loop {
        let size = number(bytes, 0) as usize;
        if &bytes[4..8] == kind {
            return &bytes[8..size];
        }
        bytes = &bytes[size..];
    }
}

/// What a run has, and where the fields of its samples are.
struct Run<'a> {
    track: u32,
    entry: u32,
    version: u8,
    count: u32,
    time: u64,
    duration: u32,
    size: u32,
    flags: u32,
    first_flags: Option<u32>,
    fields: u32,
    samples: &'a [u8],
}

#[derive(Clone, Copy)]
struct Row {
    duration: u32,
    size: u32,
    flags: u32,
    offset: u32,
}

impl Run<'_> {
    fn group(&self) -> usize {
        4 * (self.fields & 0xf00).count_ones() as usize
    }

    fn row(&self, i: u32) -> Row {
        let mut at = self.group() * i as usize;
        let mut field = |flag: u32, defaults: u32| {
            if self.fields & flag == 0 {
                return defaults;
            }
            at += 4;
            number(self.samples, at - 4)
        };
        let defaults = if i == 0 { self.first_flags.unwrap_or(self.flags) } else { self.flags };
        Row {
            duration: field(0x100, self.duration),
            size: field(0x200, self.size),
            flags: field(0x400, defaults),
            offset: field(0x800, 0),
        }
    }
}

fn read<'a>(moov: &[u8], moof: &'a [u8]) -> Run<'a> {
    let trex = find(find(&moov[8..], b"mvex"), b"trex");
    let traf = find(&moof[8..], b"traf");
    let tfhd = find(traf, b"tfhd");
    let flags = number(tfhd, 0) & 0xff_ffff;
    let mut at = 8;
    let mut field = |flag: u32, defaults: u32| {
        if flags & flag == 0 {
            return defaults;
        }
        at += 4;
        number(tfhd, at - 4)
    };
    let entry = field(0x2, number(trex, 8));
    let duration = field(0x8, number(trex, 12));
    let size = field(0x10, number(trex, 16));
    let sample_flags = field(0x20, number(trex, 20));
    let tfdt = find(traf, b"tfdt");
    let time = match tfdt[0] {
        0 => u64::from(number(tfdt, 4)),
        _ => u64::from(number(tfdt, 4)) << 32 | u64::from(number(tfdt, 8)),
    };
    let trun = find(traf, b"trun");
    let fields = number(trun, 0) & 0xff_ffff;
    let mut after = 8 + 4 * (fields & 1) as usize;
    let mut first_flags = None;
    if fields & 4 != 0 {
        first_flags = Some(number(trun, after));
        after += 4;
    }
    Run {
        track: number(tfhd, 4),
        entry,
        version: trun[0],
        count: number(trun, 4),
        time,
        duration,
        size,
        flags: sample_flags,
        first_flags,
        fields,
        samples: &trun[after..],
    }
}

/// Counts what it is given in blocks.
struct Out {
    block: Vec<u8>,
    bytes: u64,
    writes: u64,
}

impl Out {
    fn put(&mut self, bytes: &[u8]) {
        if self.block.len() + bytes.len() > BLOCK {
            self.send();
        }
        self.block.extend_from_slice(bytes);
    }

    #[inline(never)]
    fn send(&mut self) {
        self.bytes += std::hint::black_box(&self.block).len() as u64;
        self.writes += 1;
        self.block.clear();
    }
}

fn main() -> io::Result<()> {
    let mut stream = Vec::new();
    io::stdin().read_to_end(&mut stream)?;
    let most = number(&stream, 0);
    let moov_len = number(&stream, 12) as usize;
    let run = read(&stream[12..12 + moov_len], &stream[12 + moov_len..]);
    let mut out = Out { block: Vec::with_capacity(BLOCK), bytes: 0, writes: 0 };
    let mut pieces = 0;
    let mut first = 0;
    let mut time = run.time;
    while first < run.count {
        let mut count = 0;
        let mut bytes = 0;
        let mut duration = 0;
        while count < most && first + count < run.count {
            let row = run.row(first + count);
            bytes += u64::from(row.size);
            duration += u64::from(row.duration);
            count += 1;
        }
        pieces += 1;
        let long = 8 + bytes >= 1 << 32;
        let size = 92 + 16 * count;
        let mut front = [0; 92];
        let words = [
            size, u32::from_be_bytes(*b"moof"),
            16, u32::from_be_bytes(*b"mfhd"), 0, pieces,
            size - 24, u32::from_be_bytes(*b"traf"),
            20, u32::from_be_bytes(*b"tfhd"), 0x020002, run.track, run.entry,
            20, u32::from_be_bytes(*b"tfdt"), 0x01000000, (time >> 32) as u32, time as u32,
            size - 72, u32::from_be_bytes(*b"trun"), u32::from(run.version) << 24 | 0xf01, count,
            size + if long { 16 } else { 8 },
        ];
        for (place, word) in front.chunks_exact_mut(4).zip(words) {
            place.copy_from_slice(&word.to_be_bytes());
        }
        out.put(&front);
        for i in first..first + count {
            let row = run.row(i);
            let mut fields = [0; 16];
            fields[..4].copy_from_slice(&row.duration.to_be_bytes());
            fields[4..8].copy_from_slice(&row.size.to_be_bytes());
            fields[8..12].copy_from_slice(&row.flags.to_be_bytes());
            fields[12..].copy_from_slice(&row.offset.to_be_bytes());
            out.put(&fields);
        }
        if long {
            out.put(b"\0\0\0\x01mdat");
            out.put(&(16 + bytes).to_be_bytes());
        } else {
            out.put(&(8 + bytes as u32).to_be_bytes());
            out.put(b"mdat");
        }
        first += count;
        time += duration;
    }
    out.send();
    println!("{pieces} pieces, {} bytes, {} writes", out.bytes, out.writes);
    Ok(())
}
