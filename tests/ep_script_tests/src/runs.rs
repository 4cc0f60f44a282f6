//! Whole scripts, over a kernel without memory.

use crate::stand_ins::{Failure, Narrow, NoMemory, Pieces};
use ep_base::Limits;
use ep_records::History;
use ep_script::{ScriptFault, Summary, Watched, run_script};
use std::alloc::{AllocError, Global};
use std::process::Abort;
use std::test::Fail;

const NO_MEMORY: &[u8] = b"{\"err\":[12,\"ENOMEM\"]}\n";

const SCRIPT: &[u8] =
    b"{\"op\":\"pipe\"}\n\n{\"op\":\"epoll\"}\n{\"op\":\"read\",\"fd\":3,\"n\":1}";

const ANSWERS: &[u8] =
    b"{\"err\":[12,\"ENOMEM\"]}\n{\"bad\":2}\n{\"err\":[12,\"ENOMEM\"]}\n{\"err\":[12,\"ENOMEM\"]}\n";

/// A header, which is answered by itself.
const HEADER: &[u8] = b"{\"version\":2}\n";

/// A header, a line that is no command, a call, and a header that comes too late.
const HEADED: &[u8] = b"{\"version\":2}\n\n{\"op\":\"pipe\"}\n{\"version\":2}";

const HEADED_ANSWERS: &[u8] =
    b"{\"version\":2}\n{\"bad\":2}\n{\"err\":[12,\"ENOMEM\"]}\n{\"bad\":4}\n";

/// Where each line of `ANSWERS` ends.
const ANSWER_ENDS: [usize; 5] = [0, 22, 32, 54, 76];

#[derive(Drop)]
struct Ran {
    outcome: Result<Summary, ScriptFault>,
    written: Vec<u8>,
    reader_failed: bool,
    writer_failed: bool,
}

fn run(alloc: Global, reader: Pieces<'_>, writer: Narrow) -> Ran {
    let mut kernel = NoMemory {
        limits: Limits::default(),
        history: History::new(alloc),
    };
    let mut reader = Watched::new(reader);
    let mut writer = Watched::new(writer);
    let outcome = run_script(alloc, &mut kernel, &mut reader, &mut writer);
    Ran {
        outcome,
        reader_failed: reader.failed(),
        writer_failed: writer.failed(),
        written: writer.into_inner().taken,
    }
}

fn wide(alloc: Global) -> Narrow {
    Narrow {
        taken: Vec::new(alloc),
        piece: usize::MAX,
        room: usize::MAX,
        failure: Failure::Write,
    }
}

fn whole(text: &[u8]) -> Pieces<'_> {
    Pieces {
        text,
        piece: usize::MAX,
        fails: false,
    }
}

fn summary(lines: u64, bad: u64) -> Result<Summary, ScriptFault> {
    Ok(Summary {
        lines,
        records: 0,
        bad,
    })
}

#[test]
fn answers_each_line(rt: HostRuntime) {
    let ran = run(rt.alloc(), whole(SCRIPT), wide(rt.alloc()));
    assert_eq!(rt; ran.outcome, summary(4, 1));
    assert_eq!(rt; ran.written.as_slice(), ANSWERS);
    assert!(rt; !ran.reader_failed && !ran.writer_failed);
    let ran = run(rt.alloc(), whole(b""), wide(rt.alloc()));
    assert_eq!(rt; ran.outcome, summary(0, 0));
    assert!(rt; ran.written.is_empty());
    let ran = run(rt.alloc(), whole(b"\n"), wide(rt.alloc()));
    assert_eq!(rt; ran.outcome, summary(1, 1));
    assert_eq!(rt; ran.written.as_slice(), b"{\"bad\":1}\n".as_slice());
}

#[test]
fn counts_a_header_among_the_lines(rt: HostRuntime) {
    let ran = run(rt.alloc(), whole(HEADED), wide(rt.alloc()));
    assert_eq!(rt; ran.outcome, summary(4, 2));
    assert_eq!(rt; ran.written.as_slice(), HEADED_ANSWERS);
    let ran = run(rt.alloc(), whole(b"{\"version\":2}"), wide(rt.alloc()));
    assert_eq!(rt; ran.outcome, summary(1, 0));
    assert_eq!(rt; ran.written.as_slice(), HEADER);
}

#[test]
fn reads_and_writes_single_bytes(rt: HostRuntime) {
    let reader = Pieces {
        text: SCRIPT,
        piece: 1,
        fails: false,
    };
    let writer = Narrow {
        taken: Vec::new(rt.alloc()),
        piece: 1,
        room: usize::MAX,
        failure: Failure::Write,
    };
    let ran = run(rt.alloc(), reader, writer);
    assert_eq!(rt; ran.outcome, summary(4, 1));
    assert_eq!(rt; ran.written.as_slice(), ANSWERS);
}

fn newlines(text: &[u8]) -> usize {
    let mut count = 0_usize;
    for byte in text {
        if *byte == b'\n' {
            count = count.saturating_add(1);
        }
    }
    count
}

#[test]
fn ends_at_a_failed_read(rt: HostRuntime) {
    for count in 0..=SCRIPT.len() {
        let text = &SCRIPT[..count];
        let reader = Pieces {
            text,
            piece: 7,
            fails: true,
        };
        let ran = run(rt.alloc(), reader, wide(rt.alloc()));
        assert_eq!(rt; ran.outcome, Err(ScriptFault::Read), "after {count} bytes");
        assert!(rt; ran.reader_failed && !ran.writer_failed);
        let end = ANSWER_ENDS.get(newlines(text)).copied().unwrap_or(0);
        assert_eq!(rt;
            Some(ran.written.as_slice()),
            ANSWERS.get(..end),
            "after {count} bytes"
        );
    }
}

#[test]
fn ends_at_a_failed_write(rt: HostRuntime) {
    for room in 0..ANSWERS.len() {
        for failure in [Failure::Write, Failure::NoByte] {
            let writer = Narrow {
                taken: Vec::new(rt.alloc()),
                piece: 5,
                room,
                failure,
            };
            let ran = run(rt.alloc(), whole(SCRIPT), writer);
            assert_eq!(rt; ran.outcome, Err(ScriptFault::Write), "after {room} bytes");
            assert!(rt; ran.writer_failed && !ran.reader_failed);
            assert_eq!(rt;
                ran.written.as_slice(),
                &ANSWERS[..room],
                "after {room} bytes"
            );
        }
    }
}

// The reader fails behind each byte of a header. Its line is written once it was read to its end.
#[test]
fn answers_a_header_that_was_read_whole(rt: HostRuntime) {
    for count in 0..=HEADER.len() {
        let reader = Pieces {
            text: &HEADER[..count],
            piece: 7,
            fails: true,
        };
        let ran = run(rt.alloc(), reader, wide(rt.alloc()));
        assert_eq!(rt; ran.outcome, Err(ScriptFault::Read), "after {count} bytes");
        let wanted = if count == HEADER.len() { HEADER } else { b"" };
        assert_eq!(rt; ran.written.as_slice(), wanted, "after {count} bytes");
    }
}

// The writer fails in the line of a header.
#[test]
fn ends_at_a_failed_write_of_a_header(rt: HostRuntime) {
    for room in 0..HEADER.len() {
        let writer = Narrow {
            taken: Vec::new(rt.alloc()),
            piece: 5,
            room,
            failure: Failure::Write,
        };
        let ran = run(rt.alloc(), whole(HEADED), writer);
        assert_eq!(rt; ran.outcome, Err(ScriptFault::Write), "after {room} bytes");
        assert_eq!(rt;
            ran.written.as_slice(),
            &HEADER[..room],
            "after {room} bytes"
        );
    }
}

// The answers to the three whole lines are passed on before the end of the fourth is asked for.
#[test]
fn ends_at_a_failed_flush(rt: HostRuntime) {
    let writer = Narrow {
        taken: Vec::new(rt.alloc()),
        piece: usize::MAX,
        room: 0,
        failure: Failure::Flush,
    };
    let ran = run(rt.alloc(), whole(SCRIPT), writer);
    assert_eq!(rt; ran.outcome, Err(ScriptFault::Write));
    assert!(rt; ran.writer_failed);
    assert_eq!(rt; Some(ran.written.as_slice()), ANSWERS.get(..54));
}

/// What a run over these bytes and then so many others comes to, and what it writes.
fn expect_long(
    rt: &(impl AllocGlobal + Abort),
    before: &[u8],
    count: usize,
    outcome: Result<Summary, ScriptFault>,
    written: &[u8],
) -> Result<(), AllocError> {
    let mut text = Vec::from_slice(rt.alloc(), before)?;
    text.extend_from_slice(&vec![in rt.alloc(); b'x'; count]?)?;
    let ran = run(rt.alloc(), whole(text.as_slice()), wide(rt.alloc()));
    assert_eq!(rt; ran.outcome, outcome);
    assert_eq!(rt; ran.written.as_slice(), written);
    Ok(())
}

#[test]
fn limits_the_bytes_of_a_line(rt: HostRuntime) -> Result<(), Fail> {
    expect_long(&rt, b"", 65_536, summary(1, 1), b"{\"bad\":1}\n")?;
    expect_long(&rt, b"", 65_537, Err(ScriptFault::Line(1)), b"")?;
    let pipe = b"{\"op\":\"pipe\"}\n";
    expect_long(&rt, pipe, 65_537, Err(ScriptFault::Line(2)), NO_MEMORY)?;
    Ok(())
}

/// What a run over these bytes, so many empty lines and then these bytes comes to, which are 100,000 lines or more.
/// All of the first 100,000 are answered.
fn expect_many(
    rt: &(impl AllocGlobal + Abort),
    first: &[u8],
    count: usize,
    last: &[u8],
    outcome: Result<Summary, ScriptFault>,
) -> Result<(), AllocError> {
    let mut text = Vec::from_slice(rt.alloc(), first)?;
    text.extend_from_slice(&vec![in rt.alloc(); b'\n'; count]?)?;
    text.extend_from_slice(last)?;
    let ran = run(rt.alloc(), whole(text.as_slice()), wide(rt.alloc()));
    assert_eq!(rt; ran.outcome, outcome);
    assert!(rt; ran.written.starts_with(first) && ran.written.ends_with(b"{\"bad\":100000}\n"));
    Ok(())
}

#[test]
fn limits_the_number_of_lines(rt: HostRuntime) -> Result<(), Fail> {
    expect_many(&rt, b"", 100_000, b"", summary(100_000, 100_000))?;
    expect_many(&rt, b"", 100_000, b"x", Err(ScriptFault::Lines))?;
    expect_many(&rt, HEADER, 99_999, b"", summary(100_000, 99_999))?;
    expect_many(&rt, HEADER, 99_999, b"x", Err(ScriptFault::Lines))?;
    Ok(())
}

#[test]
fn tells_its_faults(rt: HostRuntime) -> Result<(), Fail> {
    let alloc = rt.alloc();
    for (fault, wanted) in [
        (ScriptFault::Read, "cannot read the script"),
        (ScriptFault::Write, "cannot write the answers"),
        (ScriptFault::Line(7), "line 7 is longer than 65536 bytes"),
        (ScriptFault::Lines, "more than 100000 lines"),
        (ScriptFault::Memory, "out of memory"),
    ] {
        assert_eq!(rt; format!(in alloc; "{fault}")?.as_str(), wanted);
    }
    Ok(())
}
