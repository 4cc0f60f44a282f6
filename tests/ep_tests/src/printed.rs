//! Lines of records in the form in which they are printed, and nearly in it, as the reader of many lines reads them.

use ep_base::{Answer, Buffer, Call, CallerId, Errno, Event, Fd, Picked, Pid, Record};
use ep_history::{RecordReader, print_record, read_record};
use ep_printed::PRINTED;
use std::process::Abort;
use std::test::Fail;

/// Each printed line is found without a tree of its values. This fails if no guess is ever made.
#[test]
fn finds_each_printed_record(rt: HostRuntime) -> Result<(), Fail> {
    let mut reader = RecordReader::new(rt.alloc());
    for line in PRINTED {
        let Some(entry) = reader.read_printed(rt.alloc(), line.as_bytes()) else {
            return Err(Fail::from("not found"));
        };
        let found = print_record(rt.alloc(), &entry)?;
        assert_eq!(rt; std::str::from_utf8(found.as_slice()), Ok(line));
    }
    Ok(())
}

/// Digits as they are printed, the same ones otherwise, and their bytes. An answer keeps 16 bytes without memory.
const DIGITS: [(&str, &str, &[u8]); 5] = [
    ("f0", "F0", &[240]),
    (
        "0123456789abcdeffedcba98765432",
        "0123456789abcdeffedcbA98765432",
        &[
            1, 35, 69, 103, 137, 171, 205, 239, 254, 220, 186, 152, 118, 84, 50,
        ],
    ),
    (
        "0123456789abcdeffedcba987654321f",
        "0123456789abcdeffedcba987654321F",
        &[
            1, 35, 69, 103, 137, 171, 205, 239, 254, 220, 186, 152, 118, 84, 50, 31,
        ],
    ),
    (
        "0123456789abcdeffedcba987654321f0a",
        "0123456789abcdeffedcba987654321f0A",
        &[
            1, 35, 69, 103, 137, 171, 205, 239, 254, 220, 186, 152, 118, 84, 50, 31, 10,
        ],
    ),
    (
        "0123456789abcdeffedcba987654321f0a0b",
        "0123456789ABCDEFFEDCBA987654321F0A0B",
        &[
            1, 35, 69, 103, 137, 171, 205, 239, 254, 220, 186, 152, 118, 84, 50, 31, 10, 11,
        ],
    ),
];

/// The line of a read that answers the bytes of these digits.
fn read_line_of(rt: &(impl AllocGlobal + Abort), digits: &str) -> Result<String, Fail> {
    let mut line = String::from_str(rt.alloc(), "{\"answer\":{\"bytes\":\"")?;
    line.push_str(digits)?;
    line.push_str(
        "\"},\"caller\":0,\"event\":{\"call\":{\"fd\":3,\"n\":99,\"op\":\"read\"},\"pid\":1},\"picked\":[]}",
    )?;
    Ok(line)
}

/// The line of a write of the bytes of these digits.
fn write_line_of(rt: &(impl AllocGlobal + Abort), digits: &str) -> Result<String, Fail> {
    let mut line = String::from_str(
        rt.alloc(),
        "{\"answer\":{\"num\":1},\"caller\":0,\"event\":{\"call\":{\"fd\":4,\"hex\":\"",
    )?;
    line.push_str(digits)?;
    line.push_str("\",\"op\":\"write\"},\"pid\":1},\"picked\":[]}")?;
    Ok(line)
}

/// Whether a record has these bytes, of a read's answer or of a write.
fn has_bytes(rt: &impl AllocGlobal, entry: &Record, wanted: &[u8]) -> Result<bool, Fail> {
    Ok(match &entry.event {
        Event::Call {
            call: Call::Write { bytes, .. },
            ..
        } => *bytes == Buffer::new(wanted.to_vec(rt.alloc())?),
        _ => match &entry.answer {
            Answer::Bytes(bytes) => bytes.as_slice() == wanted,
            _ => false,
        },
    })
}

fn expect_bytes(
    rt: &(impl AllocGlobal + Abort),
    found: &Option<Record>,
    wanted: &[u8],
) -> Result<(), Fail> {
    match found {
        Some(entry) => assert!(rt; has_bytes(rt, entry, wanted)?),
        None => return Err(Fail::from("no record")),
    }
    Ok(())
}

/// The line is found as a printed one, and the other one is not, and both are the record with these bytes.
fn expect_spellings(
    rt: &(impl AllocGlobal + Abort),
    printed: &str,
    otherwise: &str,
    wanted: &[u8],
) -> Result<(), Fail> {
    let mut reader = RecordReader::new(rt.alloc());
    let found = reader.read_printed(rt.alloc(), printed.as_bytes());
    expect_bytes(rt, &found, wanted)?;
    let none = reader.read_printed(rt.alloc(), otherwise.as_bytes());
    assert!(rt; none.is_none(), "at {otherwise}");
    let read = reader.read(rt.alloc(), otherwise.as_bytes())?;
    assert!(rt; read == found, "at {otherwise}");
    Ok(())
}

#[test]
fn finds_bytes_of_small_digits_only(rt: HostRuntime) -> Result<(), Fail> {
    for (digits, otherwise, bytes) in DIGITS {
        let line = read_line_of(&rt, digits)?;
        let other = read_line_of(&rt, otherwise)?;
        expect_spellings(&rt, line.as_str(), other.as_str(), bytes)?;
        let line = write_line_of(&rt, digits)?;
        let other = write_line_of(&rt, otherwise)?;
        expect_spellings(&rt, line.as_str(), other.as_str(), bytes)?;
    }
    Ok(())
}

/// This line between these two texts is the record of the line alone, and is not found as a printed one.
fn expect_between(
    rt: &(impl AllocGlobal + Abort),
    line: &str,
    before: &str,
    behind: &str,
) -> Result<(), Fail> {
    let mut reader = RecordReader::new(rt.alloc());
    let mut longer = String::from_str(rt.alloc(), before)?;
    longer.push_str(line)?;
    longer.push_str(behind)?;
    let found = reader.read_printed(rt.alloc(), longer.as_bytes());
    assert!(rt; found.is_none(), "at {longer}");
    let wanted = read_record(rt.alloc(), line.as_bytes())?;
    let found = reader.read(rt.alloc(), longer.as_bytes())?;
    assert!(rt; found.is_some() && found == wanted, "at {longer}");
    Ok(())
}

#[test]
fn reads_printed_lines_with_blanks_around(rt: HostRuntime) -> Result<(), Fail> {
    for line in PRINTED {
        expect_between(&rt, line, "", "\r")?;
        expect_between(&rt, line, "", " ")?;
        expect_between(&rt, line, " ", "")?;
    }
    Ok(())
}

/// A printed line with a space before its last key.
fn spaced(rt: &(impl AllocGlobal + Abort), line: &str) -> Result<String, Fail> {
    let Some((before, behind)) = line.split_once(",\"picked\"") else {
        return Err(Fail::from("no picked"));
    };
    let mut spaced = String::from_str(rt.alloc(), before)?;
    spaced.push_str(", \"picked\"")?;
    spaced.push_str(behind)?;
    Ok(spaced)
}

#[test]
fn reads_printed_lines_with_a_space_inside(rt: HostRuntime) -> Result<(), Fail> {
    let mut reader = RecordReader::new(rt.alloc());
    for line in PRINTED {
        let spaced = spaced(&rt, line)?;
        let found = reader.read_printed(rt.alloc(), spaced.as_bytes());
        assert!(rt; found.is_none(), "at {spaced}");
        let wanted = read_record(rt.alloc(), line.as_bytes())?;
        let found = reader.read(rt.alloc(), spaced.as_bytes())?;
        assert!(rt; found.is_some() && found == wanted, "at {spaced}");
    }
    Ok(())
}

/// How many bytes long writes have. A reader's room is asked for anew for the first. The lines of the next two are on
/// both sides of the longest one whose room a reader keeps.
const LONG_WRITES: [usize; 4] = [4_000, 8_142, 8_143, 20_000];

/// A write of so many bytes, each way.
#[test]
fn finds_long_writes(rt: HostRuntime) -> Result<(), Fail> {
    for count in LONG_WRITES {
        let mut digits = String::from_str(rt.alloc(), "00")?;
        for _ in 1..count {
            digits.push_str("a5")?;
        }
        let mut bytes = vec![in rt.alloc(); 0_u8; 1]?;
        bytes.resize(count, 165)?;
        let line = write_line_of(&rt, digits.as_str())?;
        let other = spaced(&rt, line.as_str())?;
        expect_spellings(&rt, line.as_str(), other.as_str(), bytes.as_slice())?;
        expect_between(&rt, line.as_str(), "", "\r")?;
    }
    Ok(())
}

/// The record of a write of these bytes, which was refused.
fn refused_write(rt: &impl AllocGlobal, bytes: Buffer) -> Record {
    Record {
        caller: CallerId(0),
        event: Event::Call {
            pid: Pid(1),
            call: Call::Write { fd: Fd(4), bytes },
        },
        answer: Answer::Refused(Errno::Ebadf),
        picked: Picked::empty(rt.alloc()),
    }
}

/// The text of a printed line.
fn text_of(line: &[u8]) -> Result<&str, Fail> {
    match std::str::from_utf8(line) {
        Ok(text) => Ok(text),
        Err(_) => Err(Fail::from("no text")),
    }
}

/// A byte that comes 16 times or more is printed with its count, however the write has it, and no guess misses it.
#[test]
fn finds_each_run(rt: HostRuntime) -> Result<(), Fail> {
    let mut reader = RecordReader::new(rt.alloc());
    let mut missed = 0_u32;
    for count in [16, 17, 255, 4_096, 65_536, 1_048_576, usize::MAX] {
        for byte in [0, 9, 10, 97, 255] {
            let entry = refused_write(&rt, Buffer::filled(byte, count));
            let line = print_record(rt.alloc(), &entry)?;
            assert!(rt; line.len() < 160);
            match reader.read_printed(rt.alloc(), line.as_slice()) {
                Some(found) => assert!(rt; found == entry, "{byte} {count} times"),
                None => missed = missed.saturating_add(1),
            }
            let read = read_record(rt.alloc(), line.as_slice())?;
            assert!(rt; read == Some(entry), "{byte} {count} times");
        }
    }
    assert_eq!(rt; missed, 0);
    Ok(())
}

/// Both ways to keep the bytes of a write, around the count from which they are printed as a run.
#[test]
fn prints_both_ways_to_keep_bytes_alike(rt: HostRuntime) -> Result<(), Fail> {
    for (count, wanted) in [
        (0, "\"hex\":\"\","),
        (1, "\"hex\":\"61\","),
        (15, "\"hex\":\"616161616161616161616161616161\","),
        (16, "\"fill\":[97,16],"),
        (17, "\"fill\":[97,17],"),
    ] {
        let filled = refused_write(&rt, Buffer::filled(97, count));
        let listed = vec![in rt.alloc(); 97_u8; count]?;
        let listed = refused_write(&rt, Buffer::new(listed));
        assert!(rt; filled == listed && listed == filled, "{count} times");
        let line = print_record(rt.alloc(), &filled)?;
        assert_eq!(rt;
            print_record(rt.alloc(), &listed)?.as_slice(),
            line.as_slice()
        );
        let text = text_of(line.as_slice())?;
        assert!(rt; text.contains(wanted), "{text}");
    }
    Ok(())
}

/// 16 bytes of which only the last is another one are no run.
#[test]
fn prints_the_digits_of_other_bytes(rt: HostRuntime) -> Result<(), Fail> {
    for at in [0, 1, 15] {
        let mut bytes = vec![in rt.alloc(); 97_u8; 16]?;
        bytes[at] = 98;
        let entry = refused_write(&rt, Buffer::new(bytes));
        let line = print_record(rt.alloc(), &entry)?;
        let text = text_of(line.as_slice())?;
        assert!(rt; text.contains("\"hex\""), "{text}");
    }
    Ok(())
}

/// Lines that are no record, and that only a part of tells from a printed one.
const NO_RECORDS: [&str; 24] = [
    "{\"answer\":{\"events\":[[,]]},\"caller\":1,\"event\":{\"tick\":5},\"picked\":[]}",
    "{\"answer\":{\"events\":[[1,]]},\"caller\":1,\"event\":{\"tick\":5},\"picked\":[]}",
    "{\"answer\":{\"events\":[[1,1][1,1]]},\"caller\":1,\"event\":{\"tick\":5},\"picked\":[]}",
    "{\"answer\":{\"events\":[[1,1],]},\"caller\":1,\"event\":{\"tick\":5},\"picked\":[]}",
    "{\"answer\":{\"events\":[[1,1]},\"caller\":1,\"event\":{\"tick\":5},\"picked\":[]}",
    "{\"answer\":{\"num\":},\"caller\":1,\"event\":{\"tick\":5},\"picked\":[]}",
    "{\"answer\":{\"num\":007},\"caller\":1,\"event\":{\"tick\":5},\"picked\":[]}",
    "{\"answer\":{\"num\":18446744073709551616},\"caller\":1,\"event\":{\"tick\":5},\"picked\":[]}",
    "{\"answer\":{\"two\":[3,-]},\"caller\":1,\"event\":{\"tick\":5},\"picked\":[]}",
    "{\"answer\":{\"two\":[3,-0]},\"caller\":1,\"event\":{\"tick\":5},\"picked\":[]}",
    "{\"answer\":{\"time\":[4,]},\"caller\":1,\"event\":{\"tick\":5},\"picked\":[]}",
    "{\"answer\":{\"err\":[9,\"EBAD\"]},\"caller\":1,\"event\":{\"tick\":5},\"picked\":[]}",
    "{\"answer\":{\"err\":[9,\"EBADFD\"]},\"caller\":1,\"event\":{\"tick\":5},\"picked\":[]}",
    "{\"answer\":{\"bytes\":\"616\"},\"caller\":1,\"event\":{\"tick\":5},\"picked\":[]}",
    "{\"answer\":{\"bytes\":\"616g\"},\"caller\":1,\"event\":{\"tick\":5},\"picked\":[]}",
    "{\"answer\":{\"bytes\":\"61},\"caller\":1,\"event\":{\"tick\":5},\"picked\":[]}",
    "{\"answer\":{\"done\":true},\"caller\":,\"event\":{\"tick\":5},\"picked\":[]}",
    "{\"answer\":{\"done\":true},\"caller\":1,\"event\":{\"tick\":},\"picked\":[]}",
    "{\"answer\":{\"done\":true},\"caller\":1,\"event\":{\"tick\":5},\"picked\":[,]}",
    "{\"answer\":{\"done\":true},\"caller\":1,\"event\":{\"tick\":5},\"picked\":[1,]}",
    "{\"answer\":{\"done\":true},\"caller\":1,\"event\":{\"tick\":5},\"picked\":[]}]}",
    "{\"answer\":{\"done\":true},\"caller\":1,\"event\":{\"call\":{\"fd\":4,\"hex\":\"6g\",\"op\":\"write\"},\"pid\":1},\"picked\":[]}",
    "{\"answer\":{\"done\":true},\"caller\":1,\"event\":{\"call\":{\"fd\":,\"hex\":\"61\",\"op\":\"write\"},\"pid\":1},\"picked\":[]}",
    "{\"answer\":{\"done\":true},\"caller\":1,\"event\":{\"call\":{\"fd\":4,\"hex\":\"61\",\"op\":\"write\"},\"pid\":},\"picked\":[]}",
];

#[test]
fn finds_no_record_where_none_is(rt: HostRuntime) -> Result<(), Fail> {
    let mut reader = RecordReader::new(rt.alloc());
    for line in NO_RECORDS {
        let found = reader.read_printed(rt.alloc(), line.as_bytes());
        assert!(rt; found.is_none(), "at {line}");
        let found = reader.read(rt.alloc(), line.as_bytes())?;
        assert!(rt; found.is_none(), "at {line}");
    }
    Ok(())
}
