//! What a stream may break, and how that is reported.

use crate::headers::Kind;
use std::fmt;

/// A rule, by its number and name. The listing of samples doesn't ask for those of written fields.
#[allow(dead_code)]
#[derive(Clone, Copy, Debug, PartialEq, Eq, PartialOrd, Ord)]
pub enum Rule {
    Truncated = 1,
    BadSize,
    NoMoov,
    SecondMoov,
    StrayMdat,
    MdatMissing,
    TooLarge,
    Depth,
    Missing,
    Twice,
    Version,
    FieldLength,
    SamplesInMoov,
    Unsupported,
    BaseNotMoof,
    EmptyDuration,
    FlagsConflict,
    UnknownTrack,
    EntryIndex,
    TooManySamples,
    TimeRange,
    RunPlace,
    IndexRange,
    SequenceEnd,
    StreamTooLong = 25,
}

/// A rule that is broken, and the box that is named: its type, if that is there, and where it begins in the stream.
#[derive(Clone, Copy)]
pub struct Fault {
    pub rule: Rule,
    pub kind: Option<Kind>,
    pub at: u64,
}

impl fmt::Display for Fault {
    fn fmt(&self, f: &mut fmt::Formatter<'_>) -> fmt::Result {
        let kind = self.kind.map_or("(none)".to_string(), Kind::shown);
        write!(f, "{} {:?} in {kind} at {}", self.rule as u8, self.rule, self.at)
    }
}

/// Some rule is broken. Which one, and by which box, another pass over the same bytes finds.
pub struct Broken;

/// The least fault of a moov or moof: the lowest rule, and of the boxes that break it the one that begins first.
pub struct Least {
    /// Where the moov or moof begins in the stream.
    base: u64,
    pub fault: Option<Fault>,
}

impl Least {
    pub fn new(base: u64) -> Least {
        Least { base, fault: None }
    }

    /// Notes that the box so many bytes after the base breaks a rule.
    pub fn note(&mut self, rule: Rule, kind: Option<Kind>, at: usize) {
        let fault = Fault { rule, kind, at: self.base + at as u64 };
        if self.fault.is_none_or(|least| (rule, fault.at) < (least.rule, least.at)) {
            self.fault = Some(fault);
        }
    }

    /// Stops where a fault was noted.
    pub fn stop(&self) -> Result<(), Fault> {
        self.fault.map_or(Ok(()), Err)
    }
}
