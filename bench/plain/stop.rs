//! Why a stream isn't read to its end, and how that is reported.

use crate::rules::Fault;
use std::fmt;
use std::process::ExitCode;

pub enum Stop {
    Fault(Fault),
    /// A read failed, when so many bytes had come.
    Read(u64),
    Write,
}

impl From<Fault> for Stop {
    fn from(fault: Fault) -> Stop {
        Stop::Fault(fault)
    }
}

impl fmt::Display for Stop {
    fn fmt(&self, f: &mut fmt::Formatter<'_>) -> fmt::Result {
        match self {
            Stop::Fault(fault) => fault.fmt(f),
            Stop::Read(at) => write!(f, "read failed at {at}"),
            Stop::Write => write!(f, "write failed"),
        }
    }
}

/// Reports on standard error how a run ended, if not well. Its status; none where the words weren't understood.
pub fn status_of(done: Option<Result<(), Stop>>) -> ExitCode {
    match done {
        None => {
            eprintln!("fmp4: bad command line");
            ExitCode::from(1)
        }
        Some(Ok(())) => ExitCode::SUCCESS,
        Some(Err(stop)) => {
            eprintln!("fmp4: {stop}");
            ExitCode::from(if matches!(stop, Stop::Fault(_)) { 2 } else { 3 })
        }
    }
}
