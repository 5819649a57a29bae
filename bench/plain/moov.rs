//! The tracks of a moov, and what it may break.

use crate::headers::Kind;
use crate::held::{check_tree, number, Child, Children};
use crate::rules::{Fault, Least, Rule};

/// What a sample has where its run doesn't say.
#[derive(Clone, Copy, Default)]
pub struct Defaults {
    pub entry: u32,
    pub duration: u32,
    pub size: u32,
    pub flags: u32,
}

pub struct Track {
    pub id: u32,
    /// That of its mdhd, which is written in an index alone.
    #[allow(dead_code)]
    pub timescale: u32,
    /// How many sample descriptions it has.
    pub entries: u32,
    pub defaults: Defaults,
    /// When the last of its track fragments ended.
    pub end: u64,
    /// The number of the last moof that has it, and when it ended before that.
    pub moof: u64,
    pub end_before: u64,
    /// The number of the last moof whose runs were asked for their places, and where its last run in that ends.
    pub placed: (u64, i64),
}

/// The tracks of a moov, by rising track_ID.
#[derive(Default)]
pub struct Tracks {
    all: Vec<Track>,
}

impl Tracks {
    pub fn len(&self) -> u64 {
        self.all.len() as u64
    }

    /// The place of the track with a track_ID. They are often numbered from 1 on.
    #[inline]
    pub fn find(&self, id: u32) -> Option<usize> {
        let guess = (id as usize).wrapping_sub(1);
        if self.all.get(guess).is_some_and(|track| track.id == id) {
            return Some(guess);
        }
        self.all.binary_search_by_key(&id, |track| track.id).ok()
    }

    #[inline]
    pub fn at(&self, place: usize) -> &Track {
        &self.all[place]
    }

    #[inline]
    pub fn at_mut(&mut self, place: usize) -> &mut Track {
        &mut self.all[place]
    }
}

/// The fields of a trak, and where its tkhd begins.
#[derive(Default)]
struct Trak {
    id: u32,
    timescale: u32,
    tkhd: usize,
    entries: u32,
}

/// The tracks of a moov that begins at an offset, or its least fault.
pub fn tracks_of(moov: &Child, base: u64) -> Result<Tracks, Fault> {
    check_tree(moov, base)?;
    let mut least = Least::new(base);
    one_each(moov, &[Kind::MVEX], &mut least);
    let mut defaults = Vec::new();
    for trex in moov.all(Kind::MVEX).flat_map(|mvex| mvex.all(Kind::TREX)) {
        match fields_of_trex(trex.payload) {
            Some(fields) => defaults.push(fields),
            None => least.note(Rule::FieldLength, Some(trex.kind), trex.at),
        }
    }
    let mut traks: Vec<Trak> =
        moov.all(Kind::TRAK).map(|trak| read_trak(&trak, &mut least)).collect();
    least.stop()?;
    defaults.sort_unstable_by_key(|(id, _)| *id);
    traks.sort_unstable_by_key(|trak| (trak.id, trak.tkhd));
    note_unknown(&traks, &defaults, &mut least);
    least.stop()?;
    let mut defaults = defaults.into_iter();
    let all = traks.iter().filter_map(|trak| {
        let (id, defaults) = defaults.find(|(id, _)| *id == trak.id)?;
        Some(Track {
            id,
            timescale: trak.timescale,
            entries: trak.entries,
            defaults,
            end: 0,
            moof: 0,
            end_before: 0,
            placed: (0, 0),
        })
    });
    Ok(Tracks { all: all.collect() })
}

/// Notes each tkhd whose track_ID an earlier one has, or not just one trex. Both lists rise by track_ID, and the traks
/// then by place.
fn note_unknown(traks: &[Trak], defaults: &[(u32, Defaults)], least: &mut Least) {
    let mut before = None;
    for trak in traks {
        let first = defaults.partition_point(|(id, _)| *id < trak.id);
        let trexes = defaults[first..].iter().take(2).filter(|(id, _)| *id == trak.id).count();
        if before == Some(trak.id) || trexes != 1 {
            least.note(Rule::UnknownTrack, Some(Kind::TKHD), trak.tkhd);
        }
        before = Some(trak.id);
    }
}

/// Asks for just one child of each of the types.
pub fn one_each(parent: &Child, kinds: &[Kind], least: &mut Least) {
    for kind in kinds {
        if parent.all(*kind).next().is_none() {
            least.note(Rule::Missing, Some(parent.kind), parent.at);
        }
        at_most_one(parent, *kind, least);
    }
}

/// Refuses a second child of a type.
pub fn at_most_one(parent: &Child, kind: Kind, least: &mut Least) {
    if let Some(again) = parent.all(kind).nth(1) {
        least.note(Rule::Twice, Some(kind), again.at);
    }
}

/// The track_ID of a trex and what it says of samples; none where it has another length.
fn fields_of_trex(trex: &[u8]) -> Option<(u32, Defaults)> {
    let defaults = Defaults {
        entry: number(trex, 8)?,
        duration: number(trex, 12)?,
        size: number(trex, 16)?,
        flags: number(trex, 20)?,
    };
    (trex.len() == 24).then_some((number(trex, 4)?, defaults))
}

/// Reads a trak along its paths, and notes what it breaks.
fn read_trak(trak: &Child, least: &mut Least) -> Trak {
    let mut read = Trak::default();
    one_each(trak, &[Kind::TKHD, Kind::MDIA], least);
    for tkhd in trak.all(Kind::TKHD) {
        let version = version_of(&tkhd, [84, 96], least);
        read.tkhd = tkhd.at;
        read.id = number(tkhd.payload, if version == Some(1) { 20 } else { 12 }).unwrap_or(0);
    }
    for mdia in trak.all(Kind::MDIA) {
        one_each(&mdia, &[Kind::MDHD, Kind::MINF], least);
        for mdhd in mdia.all(Kind::MDHD) {
            let version = version_of(&mdhd, [24, 36], least);
            let at = if version == Some(1) { 20 } else { 12 };
            read.timescale = number(mdhd.payload, at).unwrap_or(0);
        }
        for minf in mdia.all(Kind::MINF) {
            one_each(&minf, &[Kind::STBL], least);
            for stbl in minf.all(Kind::STBL) {
                one_each(&stbl, &[Kind::STSD], least);
                read.entries = read_tables(&stbl, least).unwrap_or(read.entries);
            }
        }
    }
    read
}

/// The version of a box whose payload has a length by it; none where that is at fault.
pub fn version_of(full: &Child, lengths: [usize; 2], least: &mut Least) -> Option<u8> {
    let version = full.payload.first_chunk::<4>().map(|[version, ..]| *version);
    match version {
        Some(version @ 0..=1) if full.payload.len() == lengths[usize::from(version)] => {
            return Some(version)
        }
        Some(2..) => least.note(Rule::Version, Some(full.kind), full.at),
        _ => least.note(Rule::FieldLength, Some(full.kind), full.at),
    }
    None
}

/// Checks the tables of an stbl. How many entries its stsd has.
fn read_tables(stbl: &Child, least: &mut Least) -> Option<u32> {
    let mut entries = None;
    for table in stbl.children().map_while(Result::ok) {
        let counted_at = match table.kind {
            Kind::STSD => {
                entries = entries_of(&table);
                if entries.is_none() {
                    least.note(Rule::FieldLength, Some(table.kind), table.at);
                }
                continue;
            }
            Kind::STTS | Kind::STSC | Kind::STCO | Kind::CO64 => 4,
            Kind::STSZ | Kind::STZ2 => 8,
            _ => continue,
        };
        match number(table.payload, counted_at) {
            Some(0) => {}
            Some(_) => least.note(Rule::SamplesInMoov, Some(table.kind), table.at),
            None => least.note(Rule::FieldLength, Some(table.kind), table.at),
        }
    }
    entries
}

/// How many entries an stsd has; none where it hasn't room for them.
fn entries_of(stsd: &Child) -> Option<u32> {
    let count = number(stsd.payload, 4)?;
    let mut entries = Children::of(&stsd.payload[8..], stsd.payload_at + 8);
    for _ in 0..count {
        entries.next()?.ok().filter(|entry| entry.payload.len() >= 8)?;
    }
    Some(count)
}
