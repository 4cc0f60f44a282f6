//! What is wrong, or why nothing could be asked.

use std::alloc::AllocError;
use thiserror::Error;

/// What is wrong, or why nothing could be asked. A number is that of the line that was asked, counted from 1.
#[derive(Clone, Copy, Debug, Drop, PartialEq, Eq, Error)]
pub(crate) enum Fault {
    /// The words of the command line are others than these.
    #[error("usage: ep_sweep plain|ready step|kept|reserved NAME, plain|ready room|sessions|threads, or each NAME")]
    Words,
    /// The files of a script can't be read, or are none.
    #[error("the files of the script cannot be read")]
    Files,
    /// A growth was refused that no kernel asked for.
    #[error("out of memory")]
    Memory,
    /// What was done could not be written.
    #[error("cannot write")]
    Write,
    /// The answer is another one.
    #[error("line {0} is answered otherwise")]
    Answer(usize),
    /// ENOMEM, and what a caller can see is not as it was before.
    #[error("line {0} is refused for want of memory, and something changed")]
    Changed(usize),
    /// ENOMEM as often as it was asked.
    #[error("line {0} is refused for want of memory again and again")]
    Again(usize),
    /// ENOMEM to an event that needs nothing but its record, or is refused, and there is room for its record.
    #[error("line {0} is refused for want of memory, and has room for its record")]
    Spared(usize),
    /// An answer without a record, or with more than one.
    #[error("line {0} does not leave one record")]
    Record(usize),
    /// Room for more records than any memory has.
    #[error("there is room for 2^64 - 1 records, or something changed")]
    Room,
    /// Records could not be taken out, or something else changed with them.
    #[error("records cannot be taken out, or something changed")]
    Taken,
    /// The history is not that of the lines and their answers, or no run of the machine.
    #[error("the history is another one")]
    History,
    /// A thread was answered otherwise.
    #[error("a thread is answered otherwise")]
    Thread,
}

impl From<AllocError> for Fault {
    fn from(_: AllocError) -> Fault {
        Fault::Memory
    }
}
