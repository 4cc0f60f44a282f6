//! Why a job was not done.

use std::alloc::AllocError;
use std::io;
use thiserror::Error;

/// Why a job was not done.
#[derive(Clone, Copy, Debug, Drop, PartialEq, Eq, Error)]
pub(crate) enum Fault {
    /// The words of the command line are others than these.
    #[error("usage: ep_jobs judge|scan|loop|inner|script|nest NUMBER.. SEED, as docs/PERF.md says")]
    Words,
    /// The limits that all jobs have are out of range, a history could not be read, or a script was not run to its end.
    #[error("a job did not come to its end")]
    Unfinished,
    /// A history was found to be no run of the machine.
    #[error("a history is illegal")]
    Illegal,
    /// A growth was refused.
    #[error("out of memory")]
    Memory,
    /// What was done could not be written.
    #[error("cannot write")]
    Write,
}

impl From<AllocError> for Fault {
    fn from(_: AllocError) -> Fault {
        Fault::Memory
    }
}

impl From<io::Error> for Fault {
    fn from(_: io::Error) -> Fault {
        Fault::Write
    }
}

/// The number of a word.
pub(crate) fn number(word: &str) -> Result<u32, Fault> {
    word.parse().map_err(|_| Fault::Words)
}
