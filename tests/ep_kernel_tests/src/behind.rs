//! Runs with a history in which a read, a write, a flush or a record fails once, and later ones would succeed: nothing
//! is read or written behind the failure, of none of the three. Runs without a history are in `ep_script_tests`.

use crate::kernels::{Script, on_both_kernels};
use ep_plain::Kernel;
use ep_script::{RecordedFault, ScriptFault, Watched, run_recorded};
use std::alloc::AllocError;
use std::io::{self, ErrorKind, Read, Write};
use std::process::Abort;
use std::sync::Wait;
use std::sync::atomic::{AtomicU64, Ordering};
use std::test::Fail;

const SCRIPT: &[u8] = b"{\"op\":\"pipe\"}
no command
{\"op\":\"write\",\"fd\":4,\"hex\":\"616263\"}
{\"op\":\"read\",\"fd\":3,\"n\":3}
{\"op\":\"read\",\"fd\":3,\"n\":3}
";

/// How many lines there are, and how many bytes their answers have: `{"two":[3,4]}`, `{"bad":2}`, `{"num":3}`,
/// `{"bytes":"616263"}` and `{"err":[11,"EAGAIN"]}`, each with its end.
const LINES: usize = 5;

const ANSWERED: usize = 14 + 10 + 10 + 19 + 22;

/// Four records have more bytes than this.
const RECORDED: usize = 400;

/// What a run's reader and writers note together.
#[derive(Drop)]
struct Log {
    has_failed: AtomicU64,
    asked_behind: AtomicU64,
}

impl Log {
    fn new() -> Log {
        Log {
            has_failed: AtomicU64::new(0),
            asked_behind: AtomicU64::new(0),
        }
    }

    /// Notes that one of them was asked for something.
    fn note(&self) {
        if self.has_failed.load(Ordering::SeqCst) == 1 {
            self.asked_behind.store(1, Ordering::SeqCst);
        }
    }

    /// Notes that one of them fails.
    fn fail(&self) -> io::Error {
        self.has_failed.store(1, Ordering::SeqCst);
        io::Error::from(ErrorKind::Interrupted)
    }

    /// One of them failed, and none was asked for anything since.
    fn ends_at_failure(&self) -> bool {
        self.has_failed.load(Ordering::SeqCst) == 1 && self.asked_behind.load(Ordering::SeqCst) == 0
    }
}

/// Gives the script, a few bytes at once. After so many it fails once, and then it goes on.
#[derive(Drop)]
struct Source<'a> {
    log: &'a Log,
    text: &'a [u8],
    left: Option<usize>,
}

impl Read for Source<'_> {
    fn read(&mut self, buf: &mut [u8]) -> io::Result<usize> {
        self.log.note();
        if self.left == Some(0) {
            self.left = None;
            return Err(self.log.fail());
        }
        let most = self.left.unwrap_or(usize::MAX).min(7).min(buf.len());
        let mut from = self.text.take(most as u64);
        let count = from.read(buf)?;
        self.text = from.into_inner();
        self.left = self.left.map(|left| left.saturating_sub(count));
        Ok(count)
    }
}

/// Takes a few bytes at once. After so many it fails once or takes none once, and then it goes on.
#[derive(Drop)]
struct Sink<'a> {
    log: &'a Log,
    left: Option<usize>,
    takes_none: bool,
    /// After how many flushes one fails.
    flushes: Option<usize>,
}

impl Write for Sink<'_> {
    fn write(&mut self, buf: &[u8]) -> io::Result<usize> {
        self.log.note();
        if self.left == Some(0) {
            self.left = None;
            let fault = self.log.fail();
            return if self.takes_none { Ok(0) } else { Err(fault) };
        }
        let count = self.left.unwrap_or(usize::MAX).min(5).min(buf.len());
        self.left = self.left.map(|left| left.saturating_sub(count));
        Ok(count)
    }

    fn flush(&mut self) -> io::Result<()> {
        self.log.note();
        if self.flushes == Some(0) {
            self.flushes = None;
            return Err(self.log.fail());
        }
        self.flushes = self.flushes.map(|left| left.saturating_sub(1));
        Ok(())
    }
}

/// What fails, each after so many bytes or flushes.
#[derive(Clone, Copy, Default)]
struct Faults {
    read: Option<usize>,
    write: Option<usize>,
    takes_none: bool,
    flush: Option<usize>,
    record: Option<usize>,
}

impl Faults {
    fn source<'a>(&self, log: &'a Log) -> Source<'a> {
        Source {
            log,
            text: SCRIPT,
            left: self.read,
        }
    }

    fn sink<'a>(&self, log: &'a Log) -> Sink<'a> {
        Sink {
            log,
            left: self.write,
            takes_none: self.takes_none,
            flushes: self.flush,
        }
    }

    fn history<'a>(&self, log: &'a Log) -> Sink<'a> {
        Sink {
            log,
            left: self.record,
            takes_none: self.takes_none,
            flushes: None,
        }
    }
}

/// A run that writes its history, and how it has to end.
#[derive(Clone, Copy)]
struct Recorded {
    faults: Faults,
    end: RecordedFault,
}

impl Script for Recorded {
    fn run<K: Kernel + Drop, R: Abort + AllocGlobal + Wait>(
        &self,
        rt: &R,
        mut kernel: K,
    ) -> Result<(), AllocError> {
        let log = Log::new();
        let mut reader = Watched::new(self.faults.source(&log));
        let mut writer = Watched::new(self.faults.sink(&log));
        let mut history = Watched::new(self.faults.history(&log));
        let (kernel, alloc) = (&mut kernel, rt.alloc());
        let outcome = run_recorded(alloc, kernel, &mut reader, &mut writer, &mut history);
        assert_eq!(rt; outcome, Err(self.end));
        assert!(rt; !reader.asked_after_failure() && !writer.asked_after_failure());
        assert!(rt; !history.asked_after_failure() && log.ends_at_failure());
        Ok(())
    }
}

/// Runs it on both kernels.
fn ends_at_once<R: Abort + AllocGlobal + Wait>(
    rt: &R,
    faults: Faults,
    end: RecordedFault,
) -> Result<(), AllocError> {
    on_both_kernels(rt, &Recorded { faults, end })
}

#[test]
fn asks_nothing_behind_a_failed_read(rt: HostRuntime) -> Result<(), Fail> {
    for count in 0..=SCRIPT.len() {
        let faults = Faults {
            read: Some(count),
            ..Faults::default()
        };
        ends_at_once(&rt, faults, RecordedFault::Script(ScriptFault::Read))?;
    }
    Ok(())
}

#[test]
fn asks_nothing_behind_a_failed_write(rt: HostRuntime) -> Result<(), Fail> {
    for count in 0..ANSWERED {
        for takes_none in [false, true] {
            let faults = Faults {
                write: Some(count),
                takes_none,
                ..Faults::default()
            };
            ends_at_once(&rt, faults, RecordedFault::Script(ScriptFault::Write))?;
        }
    }
    Ok(())
}

#[test]
fn asks_nothing_behind_a_failed_flush(rt: HostRuntime) -> Result<(), Fail> {
    for count in 0..LINES {
        let faults = Faults {
            flush: Some(count),
            ..Faults::default()
        };
        ends_at_once(&rt, faults, RecordedFault::Script(ScriptFault::Write))?;
    }
    Ok(())
}

#[test]
fn asks_nothing_behind_a_failed_record(rt: HostRuntime) -> Result<(), Fail> {
    for count in 0..RECORDED {
        let faults = Faults {
            record: Some(count),
            ..Faults::default()
        };
        ends_at_once(&rt, faults, RecordedFault::History)?;
    }
    Ok(())
}

// A reader and a writer that are asked again are found out.
#[test]
fn tells_what_is_asked_behind_a_failure(rt: HostRuntime) -> Result<(), Fail> {
    let log = Log::new();
    let faults = Faults {
        read: Some(0),
        write: Some(0),
        ..Faults::default()
    };
    let mut reader = Watched::new(faults.source(&log));
    let mut writer = Watched::new(faults.sink(&log));
    let mut room = [0; 1];
    assert!(rt; reader.read(&mut room).is_err() && log.ends_at_failure());
    assert!(rt; writer.write(&room).is_err() && !log.ends_at_failure());
    assert!(rt; !reader.asked_after_failure() && !writer.asked_after_failure());
    assert!(rt; reader.read(&mut room).is_ok() && reader.asked_after_failure());
    assert!(rt; writer.flush().is_ok() && writer.asked_after_failure());
    Ok(())
}
