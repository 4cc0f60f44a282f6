//! Why what was asked for was not done, or not all of it.
use std::alloc::AllocError;
use std::io;
use thiserror::Error;

/// Why what was asked for was not done, or not all of it.
#[derive(Clone, Copy, Debug, Drop, PartialEq, Eq, Error)]
pub(crate) enum Fault {
    /// The words of the command line are others than these.
    #[error("usage: ep_bench parts|rounds|shared|records|audit|each .., as bench/README.md says")]
    Words,
    /// The word behind `parts` names none and is no number.
    #[error("the parts: registrations, descriptors, raises, lists, moments, deaths, nests, ticks")]
    Part,
    /// The text of `--limits` writes none.
    #[error("bad limits")]
    Limits,
    /// Standard input answered an error.
    #[error("cannot read the lines")]
    Read,
    /// The line of this number, counted from 1, asks for nothing.
    #[error("line {0} is no event")]
    NoEvent(u64),
    /// There are fewer lines than SETUP.
    #[error("there are fewer lines than SETUP")]
    FewLines,
    /// A growth was refused, or there are more calls to make than any history has room for.
    #[error("out of memory")]
    Memory,
    /// A session of a thread did not come to its end.
    #[error("the threads did not come to their end")]
    Unfinished,
    /// What was done could not be written.
    #[error("cannot write")]
    Write,
}

impl From<AllocError> for Fault {
    fn from(_: AllocError) -> Fault {
        Fault::Memory
    }
}

impl From<io::Error> for Fault {
    fn from(_: io::Error) -> Fault {
        Fault::Write
    }
}

/// The number of a word.
pub(crate) fn number(word: &str) -> Result<u32, Fault> {
    word.parse().map_err(|_| Fault::Words)
}
