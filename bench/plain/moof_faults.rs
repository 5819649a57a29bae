//! The least fault of a moof that breaks a rule.

use crate::headers::Kind;
use crate::held::{check_tree, Child};
use crate::moof::{sum, time_of, defaults_of, Columns, Fields, Runs, MOST_SAMPLES};
use crate::moof::{
    BASE_DATA_OFFSET, BASE_IS_MOOF, DATA_OFFSET, DURATION_IS_EMPTY, FIRST_FLAGS, OWN_FLAGS,
};
use crate::moov::{at_most_one, one_each, version_of, Track, Tracks, Defaults};
use crate::rules::{Fault, Least, Rule};
use std::collections::HashSet;

/// The least fault of a moof that begins at an offset, and whose runs were read up to the first that was met.
#[cold]
pub fn fault_of(moof: &Child, base: u64, tracks: &Tracks, runs: &Runs) -> Option<Fault> {
    if let Err(fault) = check_tree(moof, base) {
        return Some(fault);
    }
    let mut least = Least::new(base);
    note_shapes(moof, &mut least);
    if least.fault.is_some() {
        return least.fault;
    }
    let mut contents = Contents { tracks, runs, least, seen: HashSet::new(), samples: 0 };
    contents.note_kinds(moof, &[Kind::MFHD, Kind::TRAF, Kind::FREE, Kind::SKIP]);
    for traf in moof.all(Kind::TRAF) {
        contents.note_traf(&traf);
    }
    contents.least.fault
}

/// Notes which boxes are missing or there twice, and which have a wrong version or length.
fn note_shapes(moof: &Child, least: &mut Least) {
    one_each(moof, &[Kind::MFHD], least);
    for mfhd in moof.all(Kind::MFHD).filter(|mfhd| mfhd.payload.len() != 8) {
        least.note(Rule::FieldLength, Some(mfhd.kind), mfhd.at);
    }
    for traf in moof.all(Kind::TRAF) {
        one_each(&traf, &[Kind::TFHD], least);
        at_most_one(&traf, Kind::TFDT, least);
        for tfdt in traf.all(Kind::TFDT) {
            version_of(&tfdt, [8, 12], least);
        }
        for tfhd in traf.all(Kind::TFHD).filter(|tfhd| !has_length(tfhd, length_of_tfhd)) {
            least.note(Rule::FieldLength, Some(tfhd.kind), tfhd.at);
        }
        for trun in traf.all(Kind::TRUN) {
            if trun.payload.len() >= 4 && trun.payload[0] > 1 {
                least.note(Rule::Version, Some(trun.kind), trun.at);
            } else if !has_length(&trun, length_of_trun) {
                least.note(Rule::FieldLength, Some(trun.kind), trun.at);
            }
        }
    }
}

/// Whether a payload has eight bytes, and after them as many as these ask for.
fn has_length(of: &Child, after: impl Fn(&Fields) -> u64) -> bool {
    Fields::of(of.payload).is_some_and(|fields| fields.left.len() as u64 == after(&fields))
}

fn length_of_tfhd(tfhd: &Fields) -> u64 {
    let long = tfhd.word & BASE_DATA_OFFSET;
    u64::from(8 * long + 4 * (tfhd.word & 0x3a).count_ones())
}

fn length_of_trun(trun: &Fields) -> u64 {
    let once = (trun.word & (DATA_OFFSET | FIRST_FLAGS)).count_ones();
    u64::from(4 * once) + Columns::of(trun.word).len as u64 * u64::from(trun.number)
}

/// What is noted of the fields of a moof, traf by traf.
struct Contents<'a> {
    tracks: &'a Tracks,
    runs: &'a Runs,
    least: Least,
    /// The track_IDs and the samples up to here.
    seen: HashSet<u32>,
    samples: u64,
}

impl Contents<'_> {
    fn note(&mut self, rule: Rule, named: &Child) {
        self.least.note(rule, Some(named.kind), named.at);
    }

    /// Notes the first child of another type than these.
    fn note_kinds(&mut self, parent: &Child, kinds: &[Kind]) {
        let mut children = parent.children().map_while(Result::ok);
        if let Some(other) = children.find(|child| !kinds.contains(&child.kind)) {
            self.note(Rule::Unsupported, &other);
        }
    }

    fn note_traf(&mut self, traf: &Child) {
        self.note_kinds(traf, &[Kind::TFHD, Kind::TFDT, Kind::TRUN, Kind::FREE, Kind::SKIP]);
        let Some(tfhd) = traf.all(Kind::TFHD).next() else { return };
        let Some(mut fields) = Fields::of(tfhd.payload) else { return };
        let tfdt = traf.all(Kind::TFDT).next();
        if !self.seen.insert(fields.number) && tfdt.is_none() {
            self.note(Rule::Unsupported, traf);
        }
        if fields.word & (BASE_DATA_OFFSET | BASE_IS_MOOF) != BASE_IS_MOOF {
            self.note(Rule::BaseNotMoof, &tfhd);
            return;
        }
        if fields.word & DURATION_IS_EMPTY != 0 {
            self.note(Rule::EmptyDuration, &tfhd);
        }
        let track = self.tracks.find(fields.number).map(|place| self.tracks.at(place));
        let Some(track) = track else {
            self.note(Rule::UnknownTrack, &tfhd);
            return self.note_truns(traf, 0, &Defaults::default());
        };
        let defaults = defaults_of(&mut fields, &track.defaults).unwrap_or_default();
        if defaults.entry == 0 || defaults.entry > track.entries {
            self.note(Rule::EntryIndex, &tfhd);
        }
        let time = tfdt.map_or(Some(self.end_before(track)), |tfdt| time_of(tfdt.payload));
        self.note_truns(traf, time.unwrap_or(0), &defaults);
    }

    /// When a track ended before the moof.
    fn end_before(&self, track: &Track) -> u64 {
        if self.runs.has_met(track) {
            track.end_before
        } else {
            track.end
        }
    }

    /// Notes what is at fault with the truns of a traf that begins at a time.
    fn note_truns(&mut self, traf: &Child, time: u64, defaults: &Defaults) {
        let mut time = u128::from(time);
        for trun in traf.all(Kind::TRUN) {
            let Some(mut fields) = Fields::of(trun.payload) else { return };
            if fields.word & FIRST_FLAGS != 0 && fields.word & OWN_FLAGS != 0 {
                self.note(Rule::FlagsConflict, &trun);
            }
            self.samples += u64::from(fields.number);
            if self.samples > MOST_SAMPLES {
                self.note(Rule::TooManySamples, &trun);
            }
            fields.next_or(DATA_OFFSET, 0);
            fields.next_or(FIRST_FLAGS, 0);
            let columns = Columns::of(fields.word);
            let duration =
                sum(fields.left, columns.len, columns.duration, defaults.duration, fields.number);
            time += u128::from(duration);
            if time > u128::from(u64::MAX) {
                self.note(Rule::TimeRange, &trun);
            }
        }
    }
}
