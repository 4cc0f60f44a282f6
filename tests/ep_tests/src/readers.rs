//! Readers of many lines, one after another: each line is read as the function of one line reads it, whatever stood in
//! the lines before.

use crate::histories::REFUSED;
use crate::lines::{COMMANDS, NO_COMMANDS};
use crate::reasons::FILL;
use ep_base::{Buffer, Call, CallerId, Event, Fd, Pid, Span};
use ep_history::{RecordReader, print_record, read_record};
use ep_printed::PRINTED;
use ep_text::{Line, LineReader, Version, explain, read_line};
use std::process::Abort;
use std::test::Fail;

/// Records that no line of `print_record` has in these bytes.
const SPELLED_OTHERWISE: [&str; 5] = [
    "{\"caller\":1,\"event\":{\"tick\":5},\"picked\":[],\"answer\":{\"done\":true}}",
    "{\"answer\":{\"done\":true}, \"caller\":1,\"event\":{\"tick\":5},\"picked\":[]}",
    "{\"answer\":{\"num\":5e0},\"caller\":1,\"event\":{\"tick\":5},\"picked\":[]}",
    "{\"answer\":{\"bytes\":\"616263F0\"},\"caller\":0,\"event\":{\"resume\":true},\"picked\":[]}",
    "{\"answer\":{\"done\":true},\"caller\":1,\"event\":{\"tick\":5},\"picked\":[]}]",
];

fn expect_record(
    rt: &(impl AllocGlobal + Abort),
    reader: &mut RecordReader,
    line: &str,
) -> Result<(), Fail> {
    let wanted = read_record(rt.alloc(), line.as_bytes())?;
    let found = reader.read(rt.alloc(), line.as_bytes())?;
    assert!(rt; found == wanted, "at {line}");
    Ok(())
}

#[test]
fn reads_each_record(rt: HostRuntime) -> Result<(), Fail> {
    let mut reader = RecordReader::new(rt.alloc());
    for line in PRINTED {
        let Some(entry) = reader.read(rt.alloc(), line.as_bytes())? else {
            return Err(Fail::from("no record"));
        };
        let found = print_record(rt.alloc(), &entry)?;
        assert_eq!(rt; std::str::from_utf8(found.as_slice()), Ok(line));
    }
    Ok(())
}

#[test]
fn refuses_what_is_no_record_between_records(rt: HostRuntime) -> Result<(), Fail> {
    let mut reader = RecordReader::new(rt.alloc());
    for line in REFUSED {
        expect_record(&rt, &mut reader, PRINTED[7])?;
        assert!(rt;
            reader.read(rt.alloc(), line.as_bytes())?.is_none(),
            "at {line}"
        );
    }
    Ok(())
}

#[test]
fn reads_records_that_are_spelled_otherwise(rt: HostRuntime) -> Result<(), Fail> {
    let mut reader = RecordReader::new(rt.alloc());
    for line in SPELLED_OTHERWISE {
        expect_record(&rt, &mut reader, line)?;
    }
    Ok(())
}

/// What a line is that is no header.
fn line_of(command: Option<(CallerId, Event)>) -> Line {
    match command {
        Some((caller, event)) => Line::Command(caller, event),
        None => Line::Bad,
    }
}

fn expect_command(
    rt: &(impl AllocGlobal + Abort),
    reader: &mut LineReader,
    line: &str,
) -> Result<(), Fail> {
    for version in [Version::V1, Version::V2] {
        let wanted = line_of(read_line(rt.alloc(), version, line.as_bytes())?);
        for is_first in [false, true] {
            let found = reader.read(rt.alloc(), version, line.as_bytes(), is_first)?;
            assert!(rt; found == wanted, "at {line}");
        }
    }
    Ok(())
}

#[test]
fn reads_each_command(rt: HostRuntime) -> Result<(), Fail> {
    let mut reader = LineReader::new(rt.alloc());
    for (line, _, _) in COMMANDS {
        expect_command(&rt, &mut reader, line)?;
    }
    Ok(())
}

#[test]
fn refuses_what_is_no_command_between_commands(rt: HostRuntime) -> Result<(), Fail> {
    let mut reader = LineReader::new(rt.alloc());
    for line in NO_COMMANDS {
        expect_command(&rt, &mut reader, "{\"op\":\"pipe\"}")?;
        for version in [Version::V1, Version::V2] {
            assert!(rt;
                reader.read(rt.alloc(), version, line.as_bytes(), false)? == Line::Bad,
                "at {line}"
            );
        }
    }
    Ok(())
}

/// Lines at which a reader takes another way, and how far each lets the clock go on, if it is a command.
const TURNS: [(&str, Option<u32>); 32] = [
    // Eight members, and nine.
    (
        "{\"op\":\"tick\",\"n\":0,\"n\":1,\"n\":2,\"n\":3,\"n\":4,\"n\":5,\"n\":6}",
        Some(6),
    ),
    (
        "{\"op\":\"tick\",\"n\":0,\"n\":1,\"n\":2,\"n\":3,\"n\":4,\"n\":5,\"n\":6,\"n\":7}",
        Some(7),
    ),
    (
        "{\"op\":\"tick\",\"n\":0,\"n\":1,\"n\":2,\"n\":3,\"n\":4,\"n\":5,\"n\":6,\"x\":7}",
        None,
    ),
    // Bytes before and behind the braces.
    (" {\"op\":\"tick\",\"n\":7}", Some(7)),
    ("\t{\"op\":\"tick\",\"n\":7}", Some(7)),
    ("{\"op\":\"tick\",\"n\":7} ", Some(7)),
    ("{\"op\":\"tick\",\"n\":7}\r", Some(7)),
    (",{\"op\":\"tick\",\"n\":7}", None),
    ("{\"op\":\"tick\",\"n\":7},", None),
    ("{\"op\":\"tick\",\"n\":7}}", None),
    ("{{\"op\":\"tick\",\"n\":7}", None),
    ("[{\"op\":\"tick\",\"n\":7}]", None),
    ("\u{feff}{\"op\":\"tick\",\"n\":7}", None),
    // A bracket, a point or an escape inside a text.
    ("{\"op\":\"[\",\"op\":\"tick\",\"n\":7}", Some(7)),
    ("{\"op\":\"1.5\",\"op\":\"tick\",\"n\":7}", Some(7)),
    ("{\"op\":\"t\\u0069ck\",\"n\":7}", Some(7)),
    ("{\"op\":\"tick[\",\"n\":7}", None),
    ("{\"op\":\"tick.\",\"n\":7}", None),
    // Values that no command has, and then one in their place.
    ("{\"op\":\"tick\",\"n\":null,\"n\":7}", Some(7)),
    ("{\"op\":\"tick\",\"n\":[0,{\"x\":[]}],\"n\":7}", Some(7)),
    ("{\"op\":\"tick\",\"n\":{\"x\":null},\"n\":7}", Some(7)),
    ("{\"op\":\"tick\",\"n\":1.5,\"n\":7}", Some(7)),
    ("{\"op\":\"tick\",\"n\":-0,\"n\":7}", Some(7)),
    ("{\"op\":\"tick\",\"n\":1e1,\"n\":7}", Some(7)),
    ("{\"op\":\"tick\",\"n\":1e999,\"n\":7}", None),
    // Such a value in the end.
    ("{\"op\":\"tick\",\"n\":7,\"n\":-0}", None),
    ("{\"op\":\"tick\",\"n\":7e0}", None),
    ("{\"op\":\"tick\",\"n\":7,\"n\":null}", None),
    // Broken in the end.
    ("{\"op\":\"tick\",\"n\":7,}", None),
    ("{\"op\":\"tick\",\"n\":[7,\"n\":7}", None),
    ("{\"op\":\"tick\",\"n\":07}", None),
    ("{\"op\":\"tick\",\"n\":7", None),
];

/// `read_line` finds a tick of this length in this unit, or no command, and so does the reader, in a first line too.
fn expect_tick_of(
    rt: &(impl AllocGlobal + Abort),
    reader: &mut LineReader,
    version: Version,
    line: &str,
    wanted: Option<u64>,
) -> Result<(), Fail> {
    let tick = wanted.map(|n| (CallerId(0), Event::Tick { n: Span(n) }));
    let alone = read_line(rt.alloc(), version, line.as_bytes())?;
    assert!(rt; alone == tick, "at {line}");
    let wanted = line_of(tick);
    for is_first in [false, true] {
        let found = reader.read(rt.alloc(), version, line.as_bytes(), is_first)?;
        assert!(rt; found == wanted, "at {line}");
    }
    Ok(())
}

/// Both find a tick of so many milliseconds in version 1, and of so many microseconds in version 2.
fn expect_tick(
    rt: &(impl AllocGlobal + Abort),
    reader: &mut LineReader,
    line: &str,
    wanted: Option<u32>,
) -> Result<(), Fail> {
    expect_tick_of(rt, reader, Version::V2, line, wanted.map(u64::from))?;
    let in_microseconds = wanted.map(|n| u64::from(n) * 1_000);
    expect_tick_of(rt, reader, Version::V1, line, in_microseconds)
}

#[test]
fn reads_lines_at_each_turn(rt: HostRuntime) -> Result<(), Fail> {
    let mut reader = LineReader::new(rt.alloc());
    for (line, wanted) in TURNS {
        expect_tick(&rt, &mut reader, line, wanted)?;
    }
    Ok(())
}

fn push_times(line: &mut String, text: &str, times: usize) -> Result<(), Fail> {
    for _ in 0..times {
        line.push_str(text)?;
    }
    Ok(())
}

/// A tick whose first `n` is this often `open`, a 0 and as often `close`, before an `n` of 7.
fn nested(
    rt: &(impl AllocGlobal + Abort),
    open: &str,
    close: &str,
    times: usize,
) -> Result<String, Fail> {
    let mut line = String::from_str(rt.alloc(), "{\"op\":\"tick\",\"n\":")?;
    push_times(&mut line, open, times)?;
    line.push_str("0")?;
    push_times(&mut line, close, times)?;
    line.push_str(",\"n\":7}")?;
    Ok(line)
}

/// What is nested 127 deep is read, the object of the line among it, and what is nested 128 deep is not.
const NESTED: [(usize, Option<u32>); 3] = [(125, Some(7)), (126, Some(7)), (127, None)];

#[test]
fn reads_nested_values(rt: HostRuntime) -> Result<(), Fail> {
    let mut reader = LineReader::new(rt.alloc());
    for (times, wanted) in NESTED {
        let lists = nested(&rt, "[", "]", times)?;
        expect_tick(&rt, &mut reader, lists.as_str(), wanted)?;
        let objects = nested(&rt, "{\"n\":", "}", times)?;
        expect_tick(&rt, &mut reader, objects.as_str(), wanted)?;
    }
    Ok(())
}

/// Lengths on both sides of the longest line that a reader reads over the room that it keeps.
const LENGTHS: [usize; 5] = [16_382, 16_383, 16_384, 16_385, 16_386];

/// Lengths on both sides of the longest line that a reader of commands tries without a tree.
const SHORTER: [usize; 3] = [1_023, 1_024, 1_025];

/// This text with spaces before its last byte, so that it has this length.
fn lengthened(rt: &(impl AllocGlobal + Abort), text: &str, length: usize) -> Result<String, Fail> {
    let mut line = String::from_str(rt.alloc(), text)?;
    let last = line.pop();
    assert_eq!(rt; last, Some('}'));
    for _ in text.len()..length {
        line.push_str(" ")?;
    }
    line.push_str("}")?;
    Ok(line)
}

#[test]
fn reads_long_records(rt: HostRuntime) -> Result<(), Fail> {
    let mut reader = RecordReader::new(rt.alloc());
    for length in LENGTHS {
        let line = lengthened(&rt, PRINTED[7], length)?;
        assert_eq!(rt; line.len(), length);
        expect_record(&rt, &mut reader, line.as_str())?;
        expect_record(&rt, &mut reader, PRINTED[7])?;
    }
    Ok(())
}

#[test]
fn reads_long_commands(rt: HostRuntime) -> Result<(), Fail> {
    let mut reader = LineReader::new(rt.alloc());
    for length in LENGTHS {
        let line = lengthened(&rt, "{\"op\":\"pipe\"}", length)?;
        assert_eq!(rt; line.len(), length);
        expect_command(&rt, &mut reader, line.as_str())?;
        expect_command(&rt, &mut reader, "{\"op\":\"pipe\"}")?;
    }
    Ok(())
}

#[test]
fn reads_commands_of_a_middle_length(rt: HostRuntime) -> Result<(), Fail> {
    let mut reader = LineReader::new(rt.alloc());
    for length in SHORTER {
        let line = lengthened(&rt, "{\"op\":\"tick\",\"n\":7}", length)?;
        assert_eq!(rt; line.len(), length);
        expect_tick(&rt, &mut reader, line.as_str(), Some(7))?;
        let broken = lengthened(&rt, "{\"op\":\"tick\",\"n\":7,}", length)?;
        expect_tick(&rt, &mut reader, broken.as_str(), None)?;
    }
    Ok(())
}

/// Values of a `fill`, and the byte and the count of each that has them.
const FILLS: [(&str, Option<(u8, usize)>); 32] = [
    ("[97,4096]", Some((97, 4_096))),
    ("[0,0]", Some((0, 0))),
    ("[255,1]", Some((255, 1))),
    ("[0,1048576]", Some((0, 1_048_576))),
    // Blanks.
    ("[ 97 , 4 ]", Some((97, 4))),
    ("[\t97\t,\t4\t]", Some((97, 4))),
    (" [97,4] ", Some((97, 4))),
    // The last value of a key holds.
    ("[1,2],\"fill\":[97,4]", Some((97, 4))),
    ("[1,2,3],\"fill\":[97,4]", Some((97, 4))),
    ("[97,4],\"fill\":[1,2,3]", None),
    // A byte or a count that is too large or below 0.
    ("[256,4]", None),
    ("[97,1048577]", None),
    ("[-1,4]", None),
    ("[97,-1]", None),
    ("[97,18446744073709551615]", None),
    ("[97,18446744073709551616]", None),
    (
        "[97,400000000000000000000000000000000000000000000000000]",
        None,
    ),
    // Numbers that are not written as whole ones.
    ("[1.5,4]", None),
    ("[97,1.5]", None),
    ("[97.0,4]", None),
    ("[97,4e0]", None),
    ("[-0,4]", None),
    ("[97,-0]", None),
    // More and less than two.
    ("[]", None),
    ("[97]", None),
    ("[97,4,4]", None),
    // Other items.
    ("[97,\"4\"]", None),
    ("[\"a\",4]", None),
    ("[97,[4]]", None),
    ("[[97],4]", None),
    ("[[97,4]]", None),
    ("[97,null]", None),
];

/// The reader and `read_line` both find such a write, or both no command; and then the value is what is wrong.
fn expect_fill(
    rt: &(impl AllocGlobal + Abort),
    reader: &mut LineReader,
    value: &str,
    wanted: Option<(u8, usize)>,
) -> Result<(), Fail> {
    let alloc = rt.alloc();
    let line = format!(in alloc; "{{\"op\":\"write\",\"fd\":1,\"fill\":{value}}}")?;
    let write = wanted.map(|(byte, count)| (
        CallerId(0),
        Event::Call {
            pid: Pid(1),
            call: Call::Write {
                fd: Fd(1),
                bytes: Buffer::filled(byte, count),
            },
        },
    ));
    let alone = read_line(alloc, Version::V1, line.as_bytes())?;
    assert!(rt; alone == write, "at {value}");
    let found = reader.read(alloc, Version::V1, line.as_bytes(), false)?;
    assert!(rt; found == line_of(write), "at {value}");
    let reason = explain(alloc, line.as_bytes())?;
    assert!(rt; reason.is_none() == wanted.is_some(), "at {value}");
    let Some(reason) = reason else {
        return Ok(());
    };
    let found = format!(in alloc; "{reason}")?;
    let told = format!(in alloc; "key \"fill\" is out of range: {FILL}")?;
    assert_eq!(rt; found.as_str(), told.as_str(), "at {value}");
    Ok(())
}

#[test]
fn reads_fills(rt: HostRuntime) -> Result<(), Fail> {
    let mut reader = LineReader::new(rt.alloc());
    for (value, wanted) in FILLS {
        expect_fill(&rt, &mut reader, value, wanted)?;
    }
    Ok(())
}
