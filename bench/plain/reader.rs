//! A fragmented stream, box by box, and the rules that every command asks for which reads samples.

use crate::headers::{Header, Kind};
use crate::held::Child;
use crate::input::{Input, LONGEST_STREAM, PIECE};
use crate::moof::Runs;
use crate::moof_faults;
use crate::moov::{tracks_of, Tracks};
use crate::rules::{Fault, Rule};
use crate::stop::Stop;
use std::io::Read;

/// The most bytes that a moov and a moof may have.
const MOST_OF_MOOV: u64 = 16 << 20;
const MOST_OF_MOOF: u64 = 64 << 20;
/// How many bytes `fmp4` counts for a row of a table: of the tracks, or of the runs of a moof.
const ROW: u64 = 64;

/// What is made of a stream. Each of these may take bytes of the box that comes next; the others are passed over.
pub trait Making<R> {
    /// What is made of the moov that is held.
    fn moov(&mut self, input: &mut Input<R>) -> Result<(), Stop>;
    /// Of a box of another type, which comes next.
    fn other(&mut self, header: &Header, input: &mut Input<R>) -> Result<(), Stop>;
    /// Of the moof that is held, before an mdat with a header of so many bytes.
    fn fragment(&mut self, of: &Fragment, header: usize, input: &mut Input<R>) -> Result<(), Stop>;
}

/// A moof, its runs in the order in which they are taken, and the tracks.
pub struct Fragment<'a> {
    /// The offset of the moof, which a fault of what is written names.
    #[allow(dead_code)]
    pub at: u64,
    pub runs: &'a Runs,
    pub tracks: &'a Tracks,
}

#[derive(Default)]
pub struct Totals {
    pub fragments: u64,
    pub samples: u64,
    pub media: u64,
    /// The most memory for the stream at once, as `fmp4` counts it.
    pub held: u64,
}

/// A stream, what is known of it up to here, and what is made of it.
pub struct Reader<R, M> {
    pub input: Input<R>,
    pub making: M,
    has_moov: bool,
    tracks: Tracks,
    runs: Runs,
    pub totals: Totals,
}

/// That a box breaks a rule.
pub fn fault<T>(rule: Rule, kind: Kind, at: u64) -> Result<T, Stop> {
    Err(Stop::Fault(Fault { rule, kind: Some(kind), at }))
}

impl<R: Read, M: Making<R>> Reader<R, M> {
    pub fn new(stream: R, making: M) -> Reader<R, M> {
        let totals = Totals { held: PIECE as u64, ..Totals::default() };
        let (input, tracks) = (Input::new(stream), Tracks::default());
        Reader { input, making, has_moov: false, tracks, runs: Runs::new(), totals }
    }

    /// Reads the stream to its end or its first fault.
    pub fn read(&mut self) -> Result<(), Stop> {
        while let Some(header) = self.input.header()? {
            match header.kind {
                Kind::MOOF => self.fragment(&header)?,
                Kind::MOOV => self.moov(&header)?,
                Kind::MDAT => return fault(Rule::StrayMdat, header.kind, self.input.at()),
                _ => {
                    let at = self.input.at();
                    self.making.other(&header, &mut self.input)?;
                    self.pass(&header, at)?;
                }
            }
        }
        Ok(())
    }

    fn moov(&mut self, header: &Header) -> Result<(), Stop> {
        let at = self.input.at();
        if self.has_moov {
            return fault(Rule::SecondMoov, header.kind, at);
        }
        let size = self.hold(header, at, MOST_OF_MOOV)?;
        self.tracks = tracks_of(&Child::whole(self.input.held(), header), at)?;
        self.has_moov = true;
        self.count_held(size + ROW * self.tracks.len());
        self.making.moov(&mut self.input)?;
        self.input.pass(0)?;
        Ok(())
    }

    /// Reads a moof and the mdat after it.
    fn fragment(&mut self, moof: &Header) -> Result<(), Stop> {
        let at = self.input.at();
        if !self.has_moov {
            return fault(Rule::NoMoov, moof.kind, at);
        }
        let size = self.hold(moof, at, MOST_OF_MOOF)?;
        let whole = Child::whole(self.input.held(), moof);
        if self.runs.read(&whole, at, &mut self.tracks).is_err() {
            let fault = moof_faults::fault_of(&whole, at, &self.tracks, &self.runs);
            return Err(Stop::Fault(fault.expect("a rule is broken")));
        }
        self.count_held(size + ROW * (self.tracks.len() + self.runs.count));
        let Some(mdat) = self.input.header()?.filter(|header| header.kind == Kind::MDAT) else {
            return fault(Rule::MdatMissing, moof.kind, at);
        };
        let mdat_at = self.input.at();
        let start = mdat_at as i64 + mdat.len as i64;
        let end = mdat.size.map_or(i64::MAX, |size| (mdat_at + size) as i64);
        if self.runs.place(start, end, &mut self.tracks).is_err() {
            let fault = self.runs.misplaced(at, start, end);
            return Err(Stop::Fault(fault.expect("a run is misplaced")));
        }
        self.take_runs(at, mdat.len)?;
        self.pass(&mdat, mdat_at)?;
        if (self.input.at() as i64) < self.runs.end {
            return fault(Rule::Truncated, mdat.kind, mdat_at);
        }
        Ok(())
    }

    /// Counts the runs of the moof that is held, and makes what is made of them.
    #[inline]
    fn take_runs(&mut self, at: u64, header: usize) -> Result<(), Stop> {
        self.totals.fragments += 1;
        self.totals.samples += self.runs.samples;
        self.totals.media += self.runs.media;
        let fragment = Fragment { at, runs: &self.runs, tracks: &self.tracks };
        self.making.fragment(&fragment, header, &mut self.input)
    }

    /// Holds the box at an offset, which may have so many bytes. Its size.
    #[inline]
    fn hold(&mut self, header: &Header, at: u64, most: u64) -> Result<u64, Stop> {
        let Some(size) = header.size.filter(|size| *size <= most) else {
            return fault(Rule::TooLarge, header.kind, at);
        };
        if !self.input.hold(size as usize)? {
            return fault(Rule::Truncated, header.kind, at);
        }
        Ok(size)
    }

    #[inline]
    fn count_held(&mut self, bytes: u64) {
        self.totals.held = self.totals.held.max(PIECE as u64 + bytes);
    }

    /// Passes what is held, and what is left of the box at an offset, which comes next or of which bytes were taken.
    #[inline]
    fn pass(&mut self, header: &Header, at: u64) -> Result<(), Stop> {
        let end = at + header.size.unwrap_or(LONGEST_STREAM + 1 - at);
        match (self.input.pass(end - self.input.at())?, header.size) {
            (true, Some(_)) | (false, None) => Ok(()),
            (false, Some(_)) => fault(Rule::Truncated, header.kind, at),
            (true, None) => fault(Rule::StreamTooLong, header.kind, at),
        }
    }
}
