//! The runs of a moof, read in one pass that stops where any rule is broken.

use crate::headers::Kind;
use crate::held::{Child, Children};
use crate::moov::{Track, Tracks, Defaults};
use crate::rules::Broken;

/// The most samples of a moof.
pub const MOST_SAMPLES: u64 = 1_000_000;

/// What the flags of a tfhd and a trun say.
pub const BASE_DATA_OFFSET: u32 = 0x01;
pub const DURATION_IS_EMPTY: u32 = 0x01_0000;
pub const BASE_IS_MOOF: u32 = 0x02_0000;
pub const DATA_OFFSET: u32 = 0x01;
pub const FIRST_FLAGS: u32 = 0x04;
pub const OWN_FLAGS: u32 = 0x0400;

/// A run with samples.
pub struct Run {
    /// The place of its track among the tracks.
    pub track: u32,
    pub defaults: Defaults,
    /// The flags of its first sample, where these have no field.
    pub first_flags: u32,
    pub count: u32,
    /// The version and the flags of its trun.
    pub form: u32,
    /// Where its trun and its rows begin in what is held.
    pub trun: u32,
    pub rows: u32,
    pub time: u64,
    pub place: i64,
    pub bytes: u64,
}

impl Run {
    /// The place at which it ends.
    #[inline]
    pub fn end(&self) -> i64 {
        self.place + self.bytes as i64
    }

    /// Its rows in the moof.
    #[inline]
    pub fn rows<'a>(&self, held: &'a [u8]) -> &'a [u8] {
        let start = self.rows as usize;
        &held[start..start + Columns::of(self.form).len * self.count as usize]
    }
}

/// Where the fields are in a row, for each that is there.
#[derive(Clone, Copy)]
pub struct Columns {
    pub duration: Option<usize>,
    pub size: Option<usize>,
    pub flags: Option<usize>,
    pub offset: Option<usize>,
    pub len: usize,
}

impl Columns {
    /// The columns by the flags of a trun.
    #[inline]
    pub fn of(form: u32) -> &'static Columns {
        &COLUMNS[(form >> 8 & 15) as usize]
    }

    /// The columns by the four bits of the fields.
    pub const fn by_bits(bits: usize) -> Columns {
        let duration = if bits & 1 != 0 { Some(0) } else { None };
        let before_size = 4 * (bits & 1);
        let size = if bits & 2 != 0 { Some(before_size) } else { None };
        let before_flags = before_size + 2 * (bits & 2);
        let flags = if bits & 4 != 0 { Some(before_flags) } else { None };
        let before_offset = before_flags + (bits & 4);
        let offset = if bits & 8 != 0 { Some(before_offset) } else { None };
        Columns { duration, size, flags, offset, len: before_offset + (bits & 8) / 2 }
    }
}

static COLUMNS: [Columns; 16] = {
    let mut columns = [Columns::by_bits(0); 16];
    let mut bits = 1;
    while bits < 16 {
        columns[bits] = Columns::by_bits(bits);
        bits += 1;
    }
    columns
};

/// The sum of a field over rows, or the default so many times.
#[inline]
pub fn sum(rows: &[u8], len: usize, column: Option<usize>, defaults: u32, count: u32) -> u64 {
    match (len, column) {
        (_, None) => u64::from(defaults) * u64::from(count),
        (4, Some(_)) => sum_at::<4, 0>(rows),
        (8, Some(0)) => sum_at::<8, 0>(rows),
        (8, Some(_)) => sum_at::<8, 4>(rows),
        (12, Some(0)) => sum_at::<12, 0>(rows),
        (12, Some(_)) => sum_at::<12, 4>(rows),
        (_, Some(0)) => sum_at::<16, 0>(rows),
        (_, Some(_)) => sum_at::<16, 4>(rows),
    }
}

fn sum_at<const LEN: usize, const AT: usize>(rows: &[u8]) -> u64 {
    let (rows, _) = rows.as_chunks::<LEN>();
    rows.iter()
        .map(|row| u64::from(u32::from_be_bytes([row[AT], row[AT + 1], row[AT + 2], row[AT + 3]])))
        .sum()
}

/// The fields after the first eight bytes of a payload.
pub struct Fields<'a> {
    pub word: u32,
    pub number: u32,
    pub left: &'a [u8],
}

impl<'a> Fields<'a> {
    /// The version and flags, the number after them, and the rest.
    #[inline]
    pub fn of(payload: &'a [u8]) -> Option<Fields<'a>> {
        let (first, left) = payload.split_first_chunk()?;
        let first = u64::from_be_bytes(*first);
        Some(Fields { word: (first >> 32) as u32, number: first as u32, left })
    }

    /// The next field if its flag is set, or else the default; none where it isn't there.
    #[inline]
    pub fn next_or(&mut self, flag: u32, defaults: u32) -> Option<u32> {
        if self.word & flag == 0 {
            return Some(defaults);
        }
        let (field, left) = self.left.split_first_chunk()?;
        self.left = left;
        Some(u32::from_be_bytes(*field))
    }
}

/// The runs of a moof.
pub struct Runs {
    /// Those with samples.
    pub list: Vec<Run>,
    /// How many there are with those that have none.
    pub count: u64,
    pub samples: u64,
    pub media: u64,
    /// The lowest and the highest place of those with samples.
    pub start: i64,
    pub end: i64,
    /// Whether none of these begins before the end of an earlier one.
    pub rises: bool,
    /// The offset of the moof, and the number of moofs with it.
    at: u64,
    pub moof: u64,
}

impl Runs {
    pub fn new() -> Runs {
        Runs {
            list: Vec::new(),
            count: 0,
            samples: 0,
            media: 0,
            start: 0,
            end: 0,
            rises: true,
            at: 0,
            moof: 0,
        }
    }

    /// Takes the runs of a moof at an offset, and sets when its tracks end.
    #[inline]
    pub fn read(&mut self, moof: &Child, at: u64, tracks: &mut Tracks) -> Result<(), Broken> {
        self.begin(at);
        let mut has_mfhd = false;
        for child in moof.children() {
            let child = child?;
            match child.kind {
                Kind::TRAF => self.read_traf(&child, tracks)?,
                Kind::MFHD if !has_mfhd && child.payload.len() == 8 => has_mfhd = true,
                Kind::FREE | Kind::SKIP => {}
                _ => return Err(Broken),
            }
        }
        if has_mfhd {
            Ok(())
        } else {
            Err(Broken)
        }
    }

    /// Whether the moof has a traf of the track, among those that were read.
    pub fn has_met(&self, track: &Track) -> bool {
        track.moof == self.moof
    }

    fn begin(&mut self, at: u64) {
        self.list.clear();
        self.count = 0;
        self.samples = 0;
        self.media = 0;
        self.start = i64::MAX;
        self.end = i64::MIN;
        self.rises = true;
        self.at = at;
        self.moof += 1;
    }

    #[inline(always)]
    fn read_traf(&mut self, traf: &Child, tracks: &mut Tracks) -> Result<(), Broken> {
        let mut children = traf.children();
        let mut heads = Heads::default();
        let mut trun = heads.take_to_trun(&mut children)?;
        heads.take_all(children.clone())?;
        let mut next = heads.begin(self, tracks)?;
        while let Some(first) = trun {
            self.read_trun(&first, &mut next)?;
            trun = children.by_ref().map_while(Result::ok).find(|child| child.kind == Kind::TRUN);
        }
        tracks.at_mut(next.track as usize).end = next.time;
        Ok(())
    }

    #[inline(always)]
    fn read_trun(&mut self, trun: &Child, next: &mut Next) -> Result<(), Broken> {
        let mut fields = Fields::of(trun.payload).ok_or(Broken)?;
        let (form, count) = (fields.word, fields.number);
        let version = form >> 24;
        if version > 1 || form & (FIRST_FLAGS | OWN_FLAGS) == FIRST_FLAGS | OWN_FLAGS {
            return Err(Broken);
        }
        if form & DATA_OFFSET != 0 {
            let offset = fields.next_or(DATA_OFFSET, 0).ok_or(Broken)?;
            next.place = self.at as i64 + i64::from(offset as i32);
        }
        let first_flags = fields.next_or(FIRST_FLAGS, next.defaults.flags).ok_or(Broken)?;
        let (columns, rows) = (Columns::of(form), fields.left);
        self.count += 1;
        self.samples += u64::from(count);
        if rows.len() as u64 != columns.len as u64 * u64::from(count) || self.samples > MOST_SAMPLES
        {
            return Err(Broken);
        }
        if count == 0 {
            return Ok(());
        }
        let duration = sum(rows, columns.len, columns.duration, next.defaults.duration, count);
        let run = Run {
            track: next.track,
            defaults: next.defaults,
            first_flags,
            count,
            form,
            trun: trun.at as u32,
            rows: (trun.payload_at + trun.payload.len() - rows.len()) as u32,
            time: next.time,
            place: next.place,
            bytes: sum(rows, columns.len, columns.size, next.defaults.size, count),
        };
        next.time = run.time.checked_add(duration).ok_or(Broken)?;
        next.place = run.end();
        self.add(run);
        Ok(())
    }

    #[inline(always)]
    fn add(&mut self, run: Run) {
        self.media += run.bytes;
        self.rises &= run.place >= self.end;
        self.start = self.start.min(run.place);
        self.end = self.end.max(run.end());
        self.list.push(run);
    }
}

/// What the next run of a traf begins with.
struct Next {
    track: u32,
    defaults: Defaults,
    time: u64,
    place: i64,
}

/// The payloads of the tfhd and the tfdt of a traf.
#[derive(Default)]
struct Heads<'a> {
    tfhd: Option<&'a [u8]>,
    tfdt: Option<&'a [u8]>,
}

impl<'a> Heads<'a> {
    /// Takes the children before the first trun, and that too.
    #[inline]
    fn take_to_trun(&mut self, children: &mut Children<'a>) -> Result<Option<Child<'a>>, Broken> {
        for child in children {
            let child = child?;
            if child.kind == Kind::TRUN {
                return Ok(Some(child));
            }
            self.take(&child)?;
        }
        Ok(None)
    }

    /// Takes children, and passes over each trun.
    #[inline]
    fn take_all(&mut self, children: Children<'a>) -> Result<(), Broken> {
        for child in children {
            let child = child?;
            if child.kind != Kind::TRUN {
                self.take(&child)?;
            }
        }
        Ok(())
    }

    #[inline]
    fn take(&mut self, child: &Child<'a>) -> Result<(), Broken> {
        match child.kind {
            Kind::TFHD if self.tfhd.is_none() => self.tfhd = Some(child.payload),
            Kind::TFDT if self.tfdt.is_none() => self.tfdt = Some(child.payload),
            Kind::FREE | Kind::SKIP => {}
            _ => return Err(Broken),
        }
        Ok(())
    }

    /// What the first run begins with.
    #[inline]
    fn begin(&self, runs: &Runs, tracks: &mut Tracks) -> Result<Next, Broken> {
        let mut fields = self.tfhd.and_then(Fields::of).ok_or(Broken)?;
        if fields.word & (BASE_DATA_OFFSET | DURATION_IS_EMPTY | BASE_IS_MOOF) != BASE_IS_MOOF {
            return Err(Broken);
        }
        let place = tracks.find(fields.number).ok_or(Broken)?;
        let track = tracks.at_mut(place);
        let defaults = defaults_of(&mut fields, &track.defaults).ok_or(Broken)?;
        if !fields.left.is_empty() || defaults.entry.wrapping_sub(1) >= track.entries {
            return Err(Broken);
        }
        let time = match self.tfdt {
            Some(tfdt) => time_of(tfdt).ok_or(Broken)?,
            None if runs.has_met(track) => return Err(Broken),
            None => track.end,
        };
        if !runs.has_met(track) {
            track.moof = runs.moof;
            track.end_before = track.end;
        }
        Ok(Next { track: place as u32, defaults, time, place: runs.at as i64 })
    }
}

/// What samples have by the fields of a tfhd, or else by their track.
#[inline]
pub fn defaults_of(fields: &mut Fields, track: &Defaults) -> Option<Defaults> {
    Some(Defaults {
        entry: fields.next_or(0x02, track.entry)?,
        duration: fields.next_or(0x08, track.duration)?,
        size: fields.next_or(0x10, track.size)?,
        flags: fields.next_or(0x20, track.flags)?,
    })
}

/// The time of a tfdt; none where its version or its length is wrong.
#[inline]
pub fn time_of(tfdt: &[u8]) -> Option<u64> {
    let (word, time) = tfdt.split_first_chunk::<4>()?;
    match word[0] {
        0 => Some(u64::from(u32::from_be_bytes(time.try_into().ok()?))),
        1 => Some(u64::from_be_bytes(time.try_into().ok()?)),
        _ => None,
    }
}
