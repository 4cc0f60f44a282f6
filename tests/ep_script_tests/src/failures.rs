//! The program over devices that fail after each byte, on both kernels: the bytes written, the fault, the status, and
//! that no device is asked behind a failure.

use crate::noted::{Calls, Noted};
use crate::stand_ins::{Failure, Narrow, Pieces};
use crate::words::{KERNELS, words};
use ep_program::run_with;
use std::alloc::Global;
use std::process::Abort;
use std::rc::Rc;
use std::test::Fail;

/// A level-triggered registration is reported until its pipe is empty.
const SCRIPT: &[u8] = b"{\"op\":\"pipe\"}
{\"op\":\"epoll\"}
{\"op\":\"ctl\",\"ep\":5,\"act\":\"add\",\"fd\":3,\"mask\":1,\"data\":3}
{\"op\":\"write\",\"fd\":4,\"hex\":\"616263\"}
{\"op\":\"wait\",\"ep\":5,\"max\":8,\"timeout\":0}
{\"op\":\"wait\",\"ep\":5,\"max\":8,\"timeout\":0}
{\"op\":\"read\",\"fd\":3,\"n\":3}
{\"op\":\"wait\",\"ep\":5,\"max\":8,\"timeout\":0}
";

const ANSWERS: &[u8] = b"{\"two\":[3,4]}
{\"num\":5}
{\"done\":true}
{\"num\":3}
{\"events\":[[1,3]]}
{\"events\":[[1,3]]}
{\"bytes\":\"616263\"}
{\"events\":[]}
";

const UNREAD: &str = "epsim: cannot read the script\n";

const UNWRITTEN: &str = "epsim: cannot write the answers\n";

/// How many bytes a device gives or takes at once: each width in turn.
fn width(turn: usize) -> usize {
    match turn % 3 {
        0 => 1,
        1 => 7,
        _ => usize::MAX,
    }
}

/// How many lines end in the text.
fn lines_ended(text: &[u8]) -> usize {
    let mut count = 0_usize;
    for byte in text {
        if *byte == b'\n' {
            count = count.saturating_add(1);
        }
    }
    count
}

/// The first lines of the answers, so many of them.
fn answers_to(lines: usize) -> &'static [u8] {
    let mut left = lines;
    for (place, byte) in ANSWERS.iter().enumerate() {
        if left == 0 {
            return ANSWERS.get(..place).unwrap_or(ANSWERS);
        }
        if *byte == b'\n' {
            left = left.saturating_sub(1);
        }
    }
    ANSWERS
}

/// What a run is to come to, over a kernel that these words choose.
#[derive(Clone, Copy)]
struct Wanted<'a> {
    kernel: &'a [&'a str],
    written: &'a [u8],
    /// What stands on standard error. If nothing does, the script was run to its end.
    error: &'a str,
}

fn expect_run(
    rt: &(impl AllocGlobal + Abort),
    reader: Pieces<'_>,
    writer: Narrow,
    wanted: Wanted<'_>,
) -> Result<(), Fail> {
    let alloc = rt.alloc();
    let calls = Rc::new(alloc, Calls::new())?;
    let mut errors = Vec::new(alloc);
    let line = words(alloc, wanted.kernel)?;
    let reader = Noted {
        inner: reader,
        calls: calls.clone()?,
    };
    let mut writer = Noted {
        inner: writer,
        calls: calls.clone()?,
    };
    let status = run_with(alloc, line, reader, &mut writer, &mut errors);
    assert_eq!(rt; writer.inner.taken.as_slice(), wanted.written);
    assert_eq!(rt; errors.as_slice(), wanted.error.as_bytes());
    assert_eq!(rt; status, u8::from(!wanted.error.is_empty()));
    assert!(rt; !calls.went_on(), "a device was asked behind a failure");
    Ok(())
}

/// The whole script, and so many bytes of it at once.
fn script(piece: usize) -> Pieces<'static> {
    Pieces {
        text: SCRIPT,
        piece,
        fails: false,
    }
}

/// Takes so many bytes at once, and never fails.
fn wide(alloc: Global, piece: usize) -> Narrow {
    Narrow {
        taken: Vec::new(alloc),
        piece,
        room: usize::MAX,
        failure: Failure::Write,
    }
}

#[test]
fn runs_over_devices_of_each_width(rt: HostRuntime) -> Result<(), Fail> {
    for kernel in KERNELS {
        let wanted = Wanted {
            kernel,
            written: ANSWERS,
            error: "",
        };
        for turn in 0..3 {
            expect_run(&rt, script(width(turn)), wide(rt.alloc(), 1), wanted)?;
            expect_run(&rt, script(1), wide(rt.alloc(), width(turn)), wanted)?;
        }
    }
    Ok(())
}

/// The reader fails behind the first bytes of the script, so many of them: the lines that were read whole are answered.
fn expect_unread(
    rt: &(impl AllocGlobal + Abort),
    kernel: &[&str],
    count: usize,
) -> Result<(), Fail> {
    let text = SCRIPT.get(..count).unwrap_or(SCRIPT);
    let wanted = Wanted {
        kernel,
        written: answers_to(lines_ended(text)),
        error: UNREAD,
    };
    let reader = Pieces {
        text,
        piece: width(count),
        fails: true,
    };
    expect_run(rt, reader, wide(rt.alloc(), usize::MAX), wanted)
}

#[test]
fn ends_at_a_read_that_fails_after_each_byte(rt: HostRuntime) -> Result<(), Fail> {
    for kernel in KERNELS {
        for count in 0..=SCRIPT.len() {
            expect_unread(&rt, kernel, count)?;
        }
    }
    Ok(())
}

/// The writer fails in this way once it has so many bytes, and then these are written.
fn expect_unwritten(
    rt: &(impl AllocGlobal + Abort),
    kernel: &[&str],
    room: usize,
    failure: Failure,
    written: &[u8],
) -> Result<(), Fail> {
    let wanted = Wanted {
        kernel,
        written,
        error: UNWRITTEN,
    };
    let writer = Narrow {
        taken: Vec::new(rt.alloc()),
        piece: width(room),
        room,
        failure,
    };
    expect_run(rt, script(width(room)), writer, wanted)
}

#[test]
fn ends_at_a_write_that_fails_after_each_byte(rt: HostRuntime) -> Result<(), Fail> {
    for kernel in KERNELS {
        for room in 0..ANSWERS.len() {
            let written = ANSWERS.get(..room).unwrap_or(ANSWERS);
            expect_unwritten(&rt, kernel, room, Failure::Write, written)?;
            expect_unwritten(&rt, kernel, room, Failure::NoByte, written)?;
        }
    }
    Ok(())
}

// An answer is flushed whole, so what was taken ends with the line in which the last of these bytes stands. If the
// whole script came at once, all answers are flushed at once.
#[test]
fn ends_at_a_flush_that_fails_after_each_byte(rt: HostRuntime) -> Result<(), Fail> {
    for kernel in KERNELS {
        for room in 1..=ANSWERS.len() {
            let before = ANSWERS.get(..room.saturating_sub(1)).unwrap_or(ANSWERS);
            let lines = lines_ended(before).saturating_add(1);
            let taken = match width(room) {
                usize::MAX => ANSWERS,
                _ => answers_to(lines),
            };
            expect_unwritten(&rt, kernel, room, Failure::Flush, taken)?;
        }
    }
    Ok(())
}
