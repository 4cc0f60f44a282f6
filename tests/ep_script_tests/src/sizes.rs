//! The program at the limits of a line and of a script, on both kernels.

use crate::words::{KERNELS, words};
use ep_program::run_with;
use std::alloc::{AllocError, Global};
use std::process::Abort;
use std::test::Fail;

/// The most bytes of a line, without the byte that ends it.
const LONGEST: usize = 65_536;

/// On each kernel this is written, and the fault is told last. If there is none, the script was run to its end.
fn expect_script(
    rt: &(impl AllocGlobal + Abort),
    script: &[u8],
    written: &[u8],
    fault: Option<&str>,
) -> Result<(), Fail> {
    let alloc = rt.alloc();
    for kernel in KERNELS {
        let mut found = Vec::new(alloc);
        let mut errors = Vec::new(alloc);
        let line = words(alloc, kernel)?;
        let status = run_with(alloc, line, script, &mut found, &mut errors);
        assert!(rt; found.as_slice() == written, "other answers");
        assert_eq!(rt; status, u8::from(fault.is_some()));
        let told = fault.unwrap_or("");
        assert!(rt; errors.ends_with(told.as_bytes()), "another fault");
    }
    Ok(())
}

const TOO_LONG: &str = "epsim: line 1 is longer than 65536 bytes\n";

const TOO_MANY: &str = "epsim: more than 100000 lines\n";

const DUP: &[u8] = b"{\"op\":\"dup\",\"fd\":0}";

/// How a line begins and ends around bytes `x`, and its answer, if it is not too long.
const LINES: [(&[u8], &[u8], &[u8]); 2] = [
    (b"", b"", b"{\"bad\":1}\n"),
    (
        b"{\"op\":\"",
        b"\",\"op\":\"dup\",\"fd\":0}",
        b"{\"num\":3}\n",
    ),
];

/// A line of so many bytes: `x` between a beginning and an end.
fn line_of(alloc: Global, length: usize, begin: &[u8], end: &[u8]) -> Result<Vec<u8>, AllocError> {
    let count = length.saturating_sub(begin.len()).saturating_sub(end.len());
    let mut line = Vec::from_slice(alloc, begin)?;
    line.extend_from_slice(&vec![in alloc; b'x'; count]?)?;
    line.extend_from_slice(end)?;
    Ok(line)
}

#[test]
fn reads_no_line_that_is_too_long(rt: HostRuntime) -> Result<(), Fail> {
    for (begin, end, answer) in LINES {
        let mut longest = line_of(rt.alloc(), LONGEST, begin, end)?;
        assert_eq!(rt; longest.len(), 65_536);
        expect_script(&rt, longest.as_slice(), answer, None)?;
        longest.push(b'\n')?;
        expect_script(&rt, longest.as_slice(), answer, None)?;

        let mut longer = line_of(rt.alloc(), LONGEST + 1, begin, end)?;
        assert_eq!(rt; longer.len(), 65_537);
        expect_script(&rt, longer.as_slice(), b"", Some(TOO_LONG))?;
        longer.push(b'\n')?;
        expect_script(&rt, longer.as_slice(), b"", Some(TOO_LONG))?;
    }
    Ok(())
}

/// A line of so many bytes that is no command, between two that are one.
fn between_two(alloc: Global, length: usize) -> Result<Vec<u8>, AllocError> {
    let line = line_of(alloc, length, b"", b"")?;
    let mut script = Vec::from_slice(alloc, DUP)?;
    script.push(b'\n')?;
    script.extend_from_slice(line.as_slice())?;
    script.push(b'\n')?;
    script.extend_from_slice(DUP)?;
    Ok(script)
}

#[test]
fn reads_nothing_behind_a_line_that_is_too_long(rt: HostRuntime) -> Result<(), Fail> {
    let script = between_two(rt.alloc(), LONGEST)?;
    let answers = b"{\"num\":3}\n{\"bad\":2}\n{\"num\":4}\n";
    expect_script(&rt, script.as_slice(), answers, None)?;
    let script = between_two(rt.alloc(), LONGEST + 1)?;
    let fault = "epsim: line 2 is longer than 65536 bytes\n";
    expect_script(&rt, script.as_slice(), b"{\"num\":3}\n", Some(fault))
}

/// How many lines are empty, what follows them, its answer, and the fault.
const MANY: [(usize, &[u8], &str, Option<&str>); 4] = [
    (100_000, b"", "", None),
    (100_000, b"x", "", Some(TOO_MANY)),
    (99_999, DUP, "{\"num\":3}\n", None),
    (
        99_999,
        b"{\"op\":\"dup\",\"fd\":0}\n{\"op\":\"dup\",\"fd\":0}",
        "{\"num\":3}\n",
        Some(TOO_MANY),
    ),
];

/// Empty lines, so many of them, and then these bytes.
fn behind_empty_lines(alloc: Global, count: usize, last: &[u8]) -> Result<Vec<u8>, AllocError> {
    let mut script = vec![in alloc; b'\n'; count]?;
    script.extend_from_slice(last)?;
    Ok(script)
}

/// The answers to so many empty lines, and then this one.
fn behind_bad_lines(alloc: Global, count: usize, last: &str) -> Result<String, AllocError> {
    let mut answers = String::new(alloc);
    for place in 0..count {
        let number = place.saturating_add(1);
        write!(answers, "{{\"bad\":{number}}}\n")?;
    }
    answers.push_str(last)?;
    Ok(answers)
}

#[test]
fn reads_so_many_lines(rt: HostRuntime) -> Result<(), Fail> {
    for (count, last, answer, fault) in MANY {
        let script = behind_empty_lines(rt.alloc(), count, last)?;
        let answers = behind_bad_lines(rt.alloc(), count, answer)?;
        expect_script(&rt, script.as_slice(), answers.as_bytes(), fault)?;
    }
    Ok(())
}

// Of a line behind the last one it doesn't matter how long it is.
#[test]
fn tells_too_many_lines_before_a_line_that_is_too_long(rt: HostRuntime) -> Result<(), Fail> {
    let line = line_of(rt.alloc(), LONGEST + 1, b"", b"")?;
    let script = behind_empty_lines(rt.alloc(), 100_000, line.as_slice())?;
    let answers = behind_bad_lines(rt.alloc(), 100_000, "")?;
    expect_script(&rt, script.as_slice(), answers.as_bytes(), Some(TOO_MANY))
}
