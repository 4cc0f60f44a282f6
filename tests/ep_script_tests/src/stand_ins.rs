//! A kernel without memory, and readers and writers that fail.
ghost use Rattle.std.specs.Prelude.{[]};
ghost use Rattle.ep_machine.specs.State.{opening};

use ep_base::{Answer, CallerId, Errno, Event, Limits, Moment, Record};
use ep_plain::Kernel;
use ep_records::{History, TooManyEvents};
use std::alloc::AllocError;
use std::io::{self, ErrorKind, Read, Write};

/// A kernel that never has memory.
#[derive(Drop)]
pub(crate) struct NoMemory {
    pub(crate) limits: Limits,
    pub(crate) history: History,
}

impl Kernel for NoMemory {
    ghost state = { λ _. opening };

    ghost past = { λ _. [] };

    ghost taken = { λ _. [] };

    ghost bounds = { λ kernel. kernel.limits };

    fn step(&mut self, _caller: CallerId, _event: Event) -> Answer {
        Answer::Refused(Errno::Enomem)
    }

    fn step_on(&mut self, _caller: CallerId, _event: &Event) -> Answer {
        Answer::Refused(Errno::Enomem)
    }

    fn step_kept(&mut self, _: CallerId, _: Event, _: &mut Vec<Record>) -> Answer {
        Answer::Refused(Errno::Enomem)
    }

    fn reserve(&mut self, _additional: usize) -> Result<(), AllocError> {
        Err(AllocError)
    }

    fn history(&self) -> &History {
        &self.history
    }

    fn swap_history(&mut self, other: &mut History) -> Result<(), TooManyEvents> {
        self.history.swap(other)
    }

    fn limits(&self) -> &Limits {
        &self.limits
    }

    fn now(&self) -> Moment {
        Moment::first()
    }

    fn is_parked(&self, _caller: CallerId) -> bool {
        false
    }

    fn is_marked(&self, _caller: CallerId) -> bool {
        false
    }

    fn first_marked(&self) -> Option<CallerId> {
        None
    }

    fn next_moment(&self) -> Option<Moment> {
        None
    }
}

/// Gives a text in pieces, and then fails or ends.
#[derive(Drop)]
pub(crate) struct Pieces<'a> {
    pub(crate) text: &'a [u8],
    pub(crate) piece: usize,
    pub(crate) fails: bool,
}

impl Read for Pieces<'_> {
    fn read(&mut self, buf: &mut [u8]) -> io::Result<usize> {
        if self.fails && self.text.is_empty() {
            return Err(io::Error::from(ErrorKind::Interrupted));
        }
        let most = self.piece.min(buf.len());
        let mut from = self.text.take(most as u64);
        let count = from.read(buf)?;
        self.text = from.into_inner();
        Ok(count)
    }
}

/// How a writer fails once it has taken what it takes.
#[derive(Clone, Copy)]
pub(crate) enum Failure {
    /// A write answers an error.
    Write,
    /// A write takes no byte.
    NoByte,
    /// A flush answers an error. Writes go on.
    Flush,
}

/// Takes so many bytes, so many at once, and then fails.
#[derive(Drop)]
pub(crate) struct Narrow {
    pub(crate) taken: Vec<u8>,
    pub(crate) piece: usize,
    pub(crate) room: usize,
    pub(crate) failure: Failure,
}

impl Write for Narrow {
    fn write(&mut self, buf: &[u8]) -> io::Result<usize> {
        let left = self.room.saturating_sub(self.taken.len());
        let most = match self.failure {
            Failure::Write if left == 0 => return Err(io::Error::from(ErrorKind::Interrupted)),
            Failure::Write | Failure::NoByte => left,
            Failure::Flush => buf.len(),
        };
        let count = most.min(self.piece).min(buf.len());
        self.taken.extend_from_slice(&buf[..count])?;
        Ok(count)
    }

    fn flush(&mut self) -> io::Result<()> {
        match self.failure {
            Failure::Flush if self.taken.len() >= self.room => {
                Err(io::Error::from(ErrorKind::Interrupted))
            }
            _ => Ok(()),
        }
    }
}
