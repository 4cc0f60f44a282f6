//! Versions of scripts: the lines that name one, and times that are milliseconds or microseconds.

use crate::lines::expect_command;
use ep_base::{Answer, Errno, Span};
use ep_text::{Line, LineReader, Version, print_answer, push_header, read_header};
use std::process::Abort;
use std::test::Fail;

/// Lines of scripts of version 1, and the caller and the event of each, as a record has it. What is no time stays.
const IN_MILLISECONDS: [(&str, u32, &str); 18] = [
    (
        "{\"op\":\"wait\",\"by\":2,\"ep\":5,\"max\":1,\"timeout\":1500}",
        2,
        "{\"call\":{\"ep\":5,\"max\":1,\"op\":\"wait\",\"timeout\":1500000},\"pid\":1}",
    ),
    (
        "{\"op\":\"wait\",\"ep\":5,\"max\":1,\"timeout\":0}",
        0,
        "{\"call\":{\"ep\":5,\"max\":1,\"op\":\"wait\",\"timeout\":0},\"pid\":1}",
    ),
    (
        "{\"op\":\"wait\",\"ep\":5,\"max\":1,\"timeout\":-1}",
        0,
        "{\"call\":{\"ep\":5,\"max\":1,\"op\":\"wait\",\"timeout\":-1000},\"pid\":1}",
    ),
    (
        "{\"op\":\"wait\",\"ep\":5,\"max\":1,\"timeout\":9223372036854775}",
        0,
        "{\"call\":{\"ep\":5,\"max\":1,\"op\":\"wait\",\"timeout\":9223372036854775000},\"pid\":1}",
    ),
    (
        "{\"op\":\"wait\",\"ep\":5,\"max\":1,\"timeout\":9223372036854776}",
        0,
        "{\"call\":{\"ep\":5,\"max\":1,\"op\":\"wait\",\"timeout\":9223372036854775807},\"pid\":1}",
    ),
    (
        "{\"op\":\"wait\",\"ep\":5,\"max\":1,\"timeout\":9223372036854775807}",
        0,
        "{\"call\":{\"ep\":5,\"max\":1,\"op\":\"wait\",\"timeout\":9223372036854775807},\"pid\":1}",
    ),
    (
        "{\"op\":\"wait\",\"ep\":5,\"max\":1,\"timeout\":-9223372036854775}",
        0,
        "{\"call\":{\"ep\":5,\"max\":1,\"op\":\"wait\",\"timeout\":-9223372036854775000},\"pid\":1}",
    ),
    (
        "{\"op\":\"wait\",\"ep\":5,\"max\":1,\"timeout\":-9223372036854776}",
        0,
        "{\"call\":{\"ep\":5,\"max\":1,\"op\":\"wait\",\"timeout\":-9223372036854775808},\"pid\":1}",
    ),
    (
        "{\"op\":\"wait\",\"ep\":5,\"max\":1,\"timeout\":-9223372036854775808}",
        0,
        "{\"call\":{\"ep\":5,\"max\":1,\"op\":\"wait\",\"timeout\":-9223372036854775808},\"pid\":1}",
    ),
    (
        "{\"op\":\"settime\",\"fd\":4,\"value\":3}",
        0,
        "{\"call\":{\"abs\":false,\"fd\":4,\"interval\":0,\"op\":\"settime\",\"value\":3000},\"pid\":1}",
    ),
    (
        "{\"op\":\"settime\",\"fd\":4,\"value\":0,\"interval\":7,\"abs\":true}",
        0,
        "{\"call\":{\"abs\":true,\"fd\":4,\"interval\":7000,\"op\":\"settime\",\"value\":0},\"pid\":1}",
    ),
    (
        "{\"op\":\"settime\",\"fd\":4,\"value\":18446744073709551,\"interval\":18446744073709552}",
        0,
        "{\"call\":{\"abs\":false,\"fd\":4,\"interval\":18446744073709551615,\"op\":\"settime\",\"value\":18446744073709551000},\"pid\":1}",
    ),
    (
        "{\"op\":\"tick\",\"n\":1000000000001}",
        0,
        "{\"tick\":1000000000001000}",
    ),
    (
        "{\"op\":\"tick\",\"n\":18446744073709551}",
        0,
        "{\"tick\":18446744073709551000}",
    ),
    (
        "{\"op\":\"tick\",\"n\":18446744073709552}",
        0,
        "{\"tick\":18446744073709551615}",
    ),
    (
        "{\"op\":\"read\",\"fd\":0,\"n\":8}",
        0,
        "{\"call\":{\"fd\":0,\"n\":8,\"op\":\"read\"},\"pid\":1}",
    ),
    (
        "{\"op\":\"ctl\",\"ep\":5,\"fd\":3,\"act\":\"add\",\"mask\":1,\"data\":3}",
        0,
        "{\"call\":{\"act\":1,\"data\":3,\"ep\":5,\"fd\":3,\"mask\":1,\"op\":\"ctl\"},\"pid\":1}",
    ),
    ("{\"op\":\"resume\",\"by\":7}", 7, "{\"resume\":true}"),
];

#[test]
fn reads_milliseconds(rt: HostRuntime) -> Result<(), Fail> {
    for (line, caller, event) in IN_MILLISECONDS {
        expect_command(&rt, Version::V1, line, caller, event)?;
    }
    Ok(())
}

/// Lines by themselves, and what each names.
const HEADERS: [(&str, Option<Version>); 41] = [
    ("{\"version\":1}", Some(Version::V1)),
    ("{\"version\":2}", Some(Version::V2)),
    // Blanks, and a byte 13 among them.
    (" { \"version\" : 2 } ", Some(Version::V2)),
    ("\t{\"version\":1}\r", Some(Version::V1)),
    ("{\"version\"\r:\r2}\r", Some(Version::V2)),
    // A key in other letters, and one that only looks like it.
    ("{\"\\u0076ersion\":2}", Some(Version::V2)),
    ("{\"Version\":2}", None),
    ("{\"version \":2}", None),
    ("{\"\":2}", None),
    // Of a key that comes twice the last value counts.
    ("{\"version\":3,\"version\":2}", Some(Version::V2)),
    ("{\"version\":2,\"version\":1}", Some(Version::V1)),
    ("{\"version\":\"2\",\"\\u0076ersion\":2}", Some(Version::V2)),
    ("{\"version\":2,\"version\":3}", None),
    ("{\"version\":2,\"version\":[2]}", None),
    // Any other key beside it.
    ("{\"version\":2,\"op\":\"epoll\"}", None),
    ("{\"op\":\"epoll\",\"version\":2}", None),
    ("{\"version\":2,\"x\":null}", None),
    ("{\"by\":0,\"version\":1}", None),
    ("{\"op\":\"epoll\"}", None),
    ("{}", None),
    // Other values.
    ("{\"version\":0}", None),
    ("{\"version\":3}", None),
    ("{\"version\":12}", None),
    ("{\"version\":-1}", None),
    ("{\"version\":-0}", None),
    ("{\"version\":1.0}", None),
    ("{\"version\":1e0}", None),
    ("{\"version\":2E0}", None),
    ("{\"version\":18446744073709551615}", None),
    ("{\"version\":18446744073709551616}", None),
    ("{\"version\":18446744073709551618}", None),
    ("{\"version\":\"2\"}", None),
    ("{\"version\":true}", None),
    ("{\"version\":null}", None),
    ("{\"version\":[2]}", None),
    ("{\"version\":{\"version\":2}}", None),
    // No object, or no JSON.
    ("", None),
    ("[{\"version\":2}]", None),
    ("{\"version\":2}{\"version\":2}", None),
    ("{\"version\":02}", None),
    ("\u{feff}{\"version\":2}", None),
];

fn named_by(line: &Line) -> Option<Version> {
    match line {
        Line::Header(version) => Some(*version),
        Line::Command(_, _) | Line::Bad => None,
    }
}

/// `read_header` finds this version, and so does the reader in a first line, and in no other.
fn expect_header(
    rt: &(impl AllocGlobal + Abort),
    reader: &mut LineReader,
    line: &[u8],
    wanted: Option<Version>,
) -> Result<(), Fail> {
    assert_eq!(rt; read_header(rt.alloc(), line)?, wanted, "at {line:?}");
    assert_eq!(rt;
        named_by(&reader.read(rt.alloc(), Version::V1, line, true)?),
        wanted,
        "at {line:?}"
    );
    assert_eq!(rt;
        named_by(&reader.read(rt.alloc(), Version::V1, line, false)?),
        None,
        "at {line:?}"
    );
    Ok(())
}

#[test]
fn reads_headers(rt: HostRuntime) -> Result<(), Fail> {
    let mut reader = LineReader::new(rt.alloc());
    for (line, wanted) in HEADERS {
        expect_header(&rt, &mut reader, line.as_bytes(), wanted)?;
    }
    expect_header(&rt, &mut reader, b"{\"version\":2,\"\xff\":1}", None)
}

#[test]
fn prints_headers(rt: HostRuntime) -> Result<(), Fail> {
    let mut text = String::from_str(rt.alloc(), "before ")?;
    push_header(&mut text, Version::V1)?;
    push_header(&mut text, Version::V2)?;
    assert_eq!(rt; text.as_str(), "before {\"version\":1}\n{\"version\":2}\n");
    Ok(())
}

/// Times in microseconds, and how version 1 shows each.
const SHOWN: [(u64, u64); 9] = [
    (0, 0),
    (1, 1),
    (999, 1),
    (1_000, 1),
    (1_001, 2),
    (2_000, 2),
    (2_001, 3),
    (1_000_000_000_000_000, 1_000_000_000_000),
    (18_446_744_073_709_551_615, 18_446_744_073_709_552),
];

fn expect_line(
    rt: &(impl AllocGlobal + Abort),
    version: Version,
    answer: &Answer,
    wanted: &str,
) -> Result<(), Fail> {
    let found = print_answer(rt.alloc(), version, answer)?;
    assert_eq!(rt; std::str::from_utf8(found.as_slice()), Ok(wanted));
    Ok(())
}

/// A time, once as what is left and once as the interval, beside one of 5,000 microseconds.
fn expect_shown(rt: &(impl AllocGlobal + Abort), time: u64, shown: u64) -> Result<(), Fail> {
    let alloc = rt.alloc();
    let left = Answer::Time {
        value: Span(time),
        interval: Span(5_000),
    };
    let between = Answer::Time {
        value: Span(5_000),
        interval: Span(time),
    };
    let wanted = format!(in alloc; "{{\"time\":[{shown},5]}}\n")?;
    expect_line(rt, Version::V1, &left, wanted.as_str())?;
    let wanted = format!(in alloc; "{{\"time\":[5,{shown}]}}\n")?;
    expect_line(rt, Version::V1, &between, wanted.as_str())?;
    let wanted = format!(in alloc; "{{\"time\":[{time},5000]}}\n")?;
    expect_line(rt, Version::V2, &left, wanted.as_str())?;
    let wanted = format!(in alloc; "{{\"time\":[5000,{time}]}}\n")?;
    expect_line(rt, Version::V2, &between, wanted.as_str())
}

#[test]
fn shows_times(rt: HostRuntime) -> Result<(), Fail> {
    for (time, shown) in SHOWN {
        expect_shown(&rt, time, shown)?;
    }
    Ok(())
}

#[test]
fn shows_other_numbers_alike(rt: HostRuntime) -> Result<(), Fail> {
    for version in [Version::V1, Version::V2] {
        expect_line(&rt, version, &Answer::Num(1_001), "{\"num\":1001}\n")?;
        let refused = Answer::Refused(Errno::Einval);
        expect_line(&rt, version, &refused, "{\"err\":[22,\"EINVAL\"]}\n")?;
    }
    Ok(())
}
