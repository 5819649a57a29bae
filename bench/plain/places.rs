//! Where the runs of a moof may lie, and the order in which they are taken.

use crate::headers::Kind;
use crate::moof::Runs;
use crate::moov::Tracks;
use crate::rules::{Broken, Fault, Rule};
use std::collections::{BTreeMap, HashMap};

impl Runs {
    /// Puts the runs in the order of their places, unless one of them may not lie where it does: the payload of the mdat
    /// has such a start and end.
    #[inline]
    pub fn place(&mut self, start: i64, end: i64, tracks: &mut Tracks) -> Result<(), Broken> {
        if self.start < start || self.end > end {
            return Err(Broken);
        }
        if self.rises {
            Ok(())
        } else {
            self.sort(tracks)
        }
    }

    #[cold]
    fn sort(&mut self, tracks: &mut Tracks) -> Result<(), Broken> {
        for run in &self.list {
            let track = tracks.at_mut(run.track as usize);
            if track.placed.0 == self.moof && run.place < track.placed.1 {
                return Err(Broken);
            }
            track.placed = (self.moof, run.end());
        }
        self.list.sort_unstable_by_key(|run| (run.place, run.trun));
        let with_bytes = self.list.iter().filter(|run| run.bytes > 0);
        let apart =
            with_bytes.clone().zip(with_bytes.skip(1)).all(|(run, next)| run.end() <= next.place);
        if apart {
            Ok(())
        } else {
            Err(Broken)
        }
    }

    /// The first run in the listing that may not lie where it does, of a moof at an offset.
    #[cold]
    pub fn misplaced(&mut self, base: u64, start: i64, end: i64) -> Option<Fault> {
        self.list.sort_unstable_by_key(|run| run.trun);
        let mut tracks: HashMap<u32, i64> = HashMap::new();
        // The ends of the runs with bytes that are listed earlier, by where they begin. They share no byte.
        let mut taken: BTreeMap<i64, i64> = BTreeMap::new();
        let wrong = self.list.iter().find(|run| {
            let outside = run.place < start || run.end() > end;
            let after =
                tracks.insert(run.track, run.end()).is_some_and(|before| run.place < before);
            let mut shared = false;
            if run.bytes > 0 {
                shared = taken
                    .range(..run.end())
                    .next_back()
                    .is_some_and(|(_, before)| *before > run.place);
                taken.insert(run.place, run.end());
            }
            outside || after || shared
        });
        wrong.map(|run| Fault {
            rule: Rule::RunPlace,
            kind: Some(Kind::TRUN),
            at: base + u64::from(run.trun),
        })
    }
}
