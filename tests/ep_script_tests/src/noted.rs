//! Devices that tell each other that one of them failed, so that a call behind a failure is seen.

use std::cell::Cell;
use std::io::{self, Read, Write};
use std::rc::Rc;

/// What the devices of a run have seen.
#[derive(Drop)]
pub(crate) struct Calls {
    failed: Cell<bool>,
    late: Cell<bool>,
}

impl Calls {
    /// No call yet.
    pub(crate) fn new() -> Calls {
        Calls {
            failed: Cell::new(false),
            late: Cell::new(false),
        }
    }

    /// Whether any device was asked for anything behind a failure.
    pub(crate) fn went_on(&self) -> bool {
        self.late.get()
    }

    fn is_asked(&self) {
        if self.failed.get() {
            self.late.set(true);
        }
    }

    fn is_answered(&self, has_failed: bool) {
        if has_failed {
            self.failed.set(true);
        }
    }
}

/// A reader or a writer whose calls are noted.
#[derive(Drop)]
pub(crate) struct Noted<T> {
    pub(crate) inner: T,
    pub(crate) calls: Rc<Calls>,
}

impl<R: Read> Read for Noted<R> {
    fn read(&mut self, buf: &mut [u8]) -> io::Result<usize> {
        self.calls.is_asked();
        let result = self.inner.read(buf);
        self.calls.is_answered(result.is_err());
        result
    }
}

impl<W: Write> Write for Noted<W> {
    fn write(&mut self, buf: &[u8]) -> io::Result<usize> {
        self.calls.is_asked();
        let result = self.inner.write(buf);
        let has_failed = match &result {
            Ok(taken) => *taken == 0 && !buf.is_empty(),
            Err(_) => true,
        };
        self.calls.is_answered(has_failed);
        result
    }

    fn flush(&mut self) -> io::Result<()> {
        self.calls.is_asked();
        let result = self.inner.flush();
        self.calls.is_answered(result.is_err());
        result
    }
}
