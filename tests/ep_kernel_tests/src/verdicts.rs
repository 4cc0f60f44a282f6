//! What `epaudit` writes for a history, and its status.

use crate::program::{Failing, words};
use ep_audit_program::{Files, run_with};
use std::alloc::Global;
use std::io::{self, ErrorKind, Read};
use std::process::Abort;
use std::test::Fail;

/// A pipe is answered 3 and 4.
const PIPE: &str =
    "{\"answer\":{\"two\":[3,4]},\"caller\":0,\"event\":{\"call\":{\"cloexec\":false,\"op\":\"pipe\"},\"pid\":1},\"picked\":[]}\n";

/// The next one is answered 3 and 5.
const WRONG: &str =
    "{\"answer\":{\"two\":[3,4]},\"caller\":0,\"event\":{\"call\":{\"cloexec\":false,\"op\":\"pipe\"},\"pid\":1},\"picked\":[]}
{\"answer\":{\"two\":[3,5]},\"caller\":0,\"event\":{\"call\":{\"cloexec\":false,\"op\":\"pipe\"},\"pid\":1},\"picked\":[]}
";

const ILLEGAL_AT_1: &str = "illegal at record 1: the machine does not allow this answer here
{\"answer\":{\"two\":[3,5]},\"caller\":0,\"event\":{\"call\":{\"cloexec\":false,\"op\":\"pipe\"},\"pid\":1},\"picked\":[]}
it allows {\"answer\":{\"two\":[5,6]},\"caller\":0,\"event\":{\"call\":{\"cloexec\":false,\"op\":\"pipe\"},\"pid\":1},\"picked\":[]}
";

const ILLEGAL_AT_0: &str = "illegal at record 0: the machine does not allow this answer here
{\"answer\":{\"two\":[3,4]},\"caller\":0,\"event\":{\"call\":{\"cloexec\":false,\"op\":\"pipe\"},\"pid\":1},\"picked\":[]}
it allows {\"answer\":{\"err\":[24,\"EMFILE\"]},\"caller\":0,\"event\":{\"call\":{\"cloexec\":false,\"op\":\"pipe\"},\"pid\":1},\"picked\":[]}
";

/// A record that no run begins with, and a line that is none, which is told first.
const CUT: &str =
    "{\"answer\":{\"two\":[3,5]},\"caller\":0,\"event\":{\"call\":{\"cloexec\":false,\"op\":\"pipe\"},\"pid\":1},\"picked\":[]}
{\"answer\":";

/// A pipe takes the two bytes of the second record, which has its members in another order and one of them twice,
/// blanks between and behind them, and capitals as digits. The third is none of a run either.
const SPELLED: &str =
    "{\"answer\":{\"two\":[3,4]},\"caller\":0,\"event\":{\"call\":{\"cloexec\":false,\"op\":\"pipe\"},\"pid\":1},\"picked\":[]}
{\"picked\": [],\"event\":{\"pid\":1, \"call\":{\"op\":\"write\",\"hex\":\"4aBC\",\"fd\":4}},\"caller\":0,\"caller\":0,\"answer\":{\"num\":3}} \t
{\"answer\":{\"two\":[8,9]},\"caller\":0,\"event\":{\"call\":{\"cloexec\":false,\"op\":\"pipe\"},\"pid\":1},\"picked\":[]}
";

const ILLEGAL_AS_SPELLED: &str = "illegal at record 1: the machine does not allow this answer here
{\"picked\": [],\"event\":{\"pid\":1, \"call\":{\"op\":\"write\",\"hex\":\"4aBC\",\"fd\":4}},\"caller\":0,\"caller\":0,\"answer\":{\"num\":3}} \t
it allows {\"answer\":{\"num\":2},\"caller\":0,\"event\":{\"call\":{\"fd\":4,\"hex\":\"4abc\",\"op\":\"write\"},\"pid\":1},\"picked\":[]}
";

/// The last line has no byte 10, and stands behind a blank.
const UNENDED: &str =
    "{\"answer\":{\"two\":[3,4]},\"caller\":0,\"event\":{\"call\":{\"cloexec\":false,\"op\":\"pipe\"},\"pid\":1},\"picked\":[]}
 {\"answer\":{\"num\":9},\"caller\":0,\"event\":{\"call\":{\"cloexec\":false,\"op\":\"epoll\"},\"pid\":1},\"picked\":[]}";

const ILLEGAL_UNENDED: &str = "illegal at record 1: the machine does not allow this answer here
 {\"answer\":{\"num\":9},\"caller\":0,\"event\":{\"call\":{\"cloexec\":false,\"op\":\"epoll\"},\"pid\":1},\"picked\":[]}
it allows {\"answer\":{\"num\":5},\"caller\":0,\"event\":{\"call\":{\"cloexec\":false,\"op\":\"epoll\"},\"pid\":1},\"picked\":[]}
";

/// A wait that reports nothing has no registration that it reports.
const PICKED: &str =
    "{\"answer\":{\"num\":3},\"caller\":0,\"event\":{\"call\":{\"cloexec\":false,\"op\":\"epoll\"},\"pid\":1},\"picked\":[]}
{\"answer\":{\"events\":[]},\"caller\":0,\"event\":{\"call\":{\"ep\":3,\"max\":1,\"op\":\"wait\",\"timeout\":0},\"pid\":1},\"picked\":[7]}
";

const ILLEGAL_PICK: &str = "illegal at record 1: the machine does not allow this answer here
{\"answer\":{\"events\":[]},\"caller\":0,\"event\":{\"call\":{\"ep\":3,\"max\":1,\"op\":\"wait\",\"timeout\":0},\"pid\":1},\"picked\":[7]}
it allows {\"answer\":{\"events\":[]},\"caller\":0,\"event\":{\"call\":{\"ep\":3,\"max\":1,\"op\":\"wait\",\"timeout\":0},\"pid\":1},\"picked\":[]}
";

/// Of two counters that are ready a wait reports the second, as it may. But its data is 8.
const REPORTED: &str =
    "{\"answer\":{\"num\":3},\"caller\":0,\"event\":{\"call\":{\"cloexec\":false,\"op\":\"epoll\"},\"pid\":1},\"picked\":[]}
{\"answer\":{\"num\":4},\"caller\":0,\"event\":{\"call\":{\"cloexec\":false,\"init\":1,\"op\":\"eventfd\",\"sem\":false},\"pid\":1},\"picked\":[]}
{\"answer\":{\"num\":5},\"caller\":0,\"event\":{\"call\":{\"cloexec\":false,\"init\":1,\"op\":\"eventfd\",\"sem\":false},\"pid\":1},\"picked\":[]}
{\"answer\":{\"done\":true},\"caller\":0,\"event\":{\"call\":{\"act\":1,\"data\":7,\"ep\":3,\"fd\":4,\"mask\":1,\"op\":\"ctl\"},\"pid\":1},\"picked\":[]}
{\"answer\":{\"done\":true},\"caller\":0,\"event\":{\"call\":{\"act\":1,\"data\":8,\"ep\":3,\"fd\":5,\"mask\":1,\"op\":\"ctl\"},\"pid\":1},\"picked\":[]}
{\"answer\":{\"events\":[[1,9]]},\"caller\":0,\"event\":{\"call\":{\"ep\":3,\"max\":1,\"op\":\"wait\",\"timeout\":0},\"pid\":1},\"picked\":[2]}
";

const ILLEGAL_REPORT: &str = "illegal at record 5: the machine does not allow this answer here
{\"answer\":{\"events\":[[1,9]]},\"caller\":0,\"event\":{\"call\":{\"ep\":3,\"max\":1,\"op\":\"wait\",\"timeout\":0},\"pid\":1},\"picked\":[2]}
it allows {\"answer\":{\"events\":[[1,8]]},\"caller\":0,\"event\":{\"call\":{\"ep\":3,\"max\":1,\"op\":\"wait\",\"timeout\":0},\"pid\":1},\"picked\":[2]}
";

/// A folder with three histories, one of which can't be read.
struct Folder;

/// A history of the folder, or one whose bytes can't be had.
#[derive(Drop)]
enum InFolder {
    Bytes(&'static [u8]),
    Unreadable(Failing),
}

impl Read for InFolder {
    fn read(&mut self, buf: &mut [u8]) -> io::Result<usize> {
        match self {
            InFolder::Bytes(bytes) => bytes.read(buf),
            InFolder::Unreadable(file) => file.read(buf),
        }
    }
}

impl Files for Folder {
    type History = InFolder;

    fn open(&self, path: &str) -> io::Result<InFolder> {
        match path {
            "pipe" => Ok(InFolder::Bytes(PIPE.as_bytes())),
            "wrong" => Ok(InFolder::Bytes(WRONG.as_bytes())),
            "unreadable" => Ok(InFolder::Unreadable(Failing)),
            _ => Err(io::Error::from(ErrorKind::NotFound)),
        }
    }
}

/// What is written of a file that isn't there.
const NO_FILE: &str = "epaudit: cannot read the history \"-pipe\": entity not found\n";

/// What is written of six numbers the first of which is too low.
const BAD_LIMITS: &str = "epaudit: bad limits: descriptors is 2, and goes from 3 to 65536\n";

/// Words that name a history, the status, what is written, and what is written of a fault. Standard input has WRONG.
const NAMED: [(&[&str], u8, &str, &str); 6] = [
    (&["pipe"], 0, "ok 1 records\n", ""),
    (
        &["wrong", "--limits", "4,9,2,8,4096,1"],
        1,
        ILLEGAL_AT_0,
        "",
    ),
    (&["-"], 1, ILLEGAL_AT_1, ""),
    (&["--", "-pipe"], 2, "", NO_FILE),
    (&["unreadable"], 2, "", "epaudit: cannot read the history\n"),
    (&["--limits", "2,5,2,8,4096,1", "absent"], 2, "", BAD_LIMITS),
];

/// Words, a history, the status, what is written, and what is written of a fault.
const VERDICTS: [(&[&str], &str, u8, &str, &str); 10] = [
    (&[], "", 0, "ok 0 records\n", ""),
    (&[], PIPE, 0, "ok 1 records\n", ""),
    (&[], WRONG, 1, ILLEGAL_AT_1, ""),
    (&[], SPELLED, 1, ILLEGAL_AS_SPELLED, ""),
    (&[], UNENDED, 1, ILLEGAL_UNENDED, ""),
    (&[], PICKED, 1, ILLEGAL_PICK, ""),
    (&[], REPORTED, 1, ILLEGAL_REPORT, ""),
    (&["--limits", "4,9,2,8,4096,1"], PIPE, 1, ILLEGAL_AT_0, ""),
    (&[], "\n", 2, "", "epaudit: line 1 is no record\n"),
    (&[], CUT, 2, "", "epaudit: line 2 is no record\n"),
];

fn expect_verdict<R: Read + Drop>(
    rt: &(impl AllocGlobal + Abort),
    given: &[&str],
    reader: R,
    status: u8,
    output: &str,
    error: &str,
) -> Result<(), Fail> {
    let alloc = rt.alloc();
    let mut written = Vec::new(alloc);
    let mut errors = Vec::new(alloc);
    let line = words(alloc, "epaudit", given)?;
    let found = run_with(alloc, line, reader, &mut written, &mut errors, &Folder);
    assert_eq!(rt; found, status);
    assert_eq!(rt; written.as_slice(), output.as_bytes());
    assert_eq!(rt; errors.as_slice(), error.as_bytes());
    Ok(())
}

#[test]
fn judges_histories(rt: HostRuntime) -> Result<(), Fail> {
    for (given, history, status, output, error) in VERDICTS {
        expect_verdict(&rt, given, history.as_bytes(), status, output, error)?;
    }
    Ok(())
}

#[test]
fn judges_named_histories(rt: HostRuntime) -> Result<(), Fail> {
    for (given, status, output, error) in NAMED {
        expect_verdict(&rt, given, WRONG.as_bytes(), status, output, error)?;
    }
    Ok(())
}

#[test]
fn has_no_verdict(rt: HostRuntime) -> Result<(), Fail> {
    let limits = ["--limits", "2,5,2,8,4096,1"];
    expect_verdict(&rt, &limits, Failing, 2, "", BAD_LIMITS)?;
    let error = "epaudit: cannot read the history\n";
    expect_verdict(&rt, &[], Failing, 2, "", error)
}

/// Of a line as long as one may be, and of one byte more: a record with blanks behind it.
#[test]
fn reads_the_longest_line(rt: HostRuntime) -> Result<(), Fail> {
    let mut line = Vec::new(rt.alloc());
    line.extend_from_slice(PIPE.as_bytes())?;
    // The byte 10 at its end.
    line.pop();
    line.resize(56_000_000, b' ')?;
    expect_verdict(&rt, &[], line.as_slice(), 0, "ok 1 records\n", "")?;
    line.push(b' ')?;
    let error = "epaudit: line 1 is longer than 56000000 bytes\n";
    expect_verdict(&rt, &[], line.as_slice(), 2, "", error)
}

/// An auditor takes its records out of the kernel as it is told the next one behind so many.
const PIECE: u64 = 256;

/// Places before, at and behind those at which records are taken out for the first and for the second time.
const PLACES: [u64; 9] = [
    0,
    1,
    PIECE - 1,
    PIECE,
    PIECE + 1,
    2 * PIECE - 1,
    2 * PIECE,
    2 * PIECE + 1,
    3 * PIECE,
];

/// Of a record that opens an instance, what stands before and behind its number.
const OPENED: (&str, &str) = (
    "{\"answer\":{\"num\":",
    "},\"caller\":0,\"event\":{\"call\":{\"cloexec\":false,\"op\":\"epoll\"},\"pid\":1},\"picked\":[]}",
);

/// The line of a record that opens an instance at this number.
fn opened(alloc: Global, number: u64) -> Result<String, Fail> {
    let (front, rest) = OPENED;
    Ok(format!(in alloc; "{front}{number}{rest}\n")?)
}

/// A history of so many instances, which get the numbers from 3 on, and of a last one, for which it says this number.
fn opened_until(alloc: Global, count: u64, last: u64) -> Result<String, Fail> {
    let mut history = String::new(alloc);
    for number in 3..count.saturating_add(3) {
        history.push_str(opened(alloc, number)?.as_str())?;
    }
    history.push_str(opened(alloc, last)?.as_str())?;
    Ok(history)
}

/// What is written if the last one has this number, and this one is the lowest that is free.
fn opened_at_another(alloc: Global, place: u64, last: u64, free: u64) -> Result<String, Fail> {
    let head = "the machine does not allow this answer here";
    let (line, other) = (opened(alloc, last)?, opened(alloc, free)?);
    Ok(format!(in alloc; "illegal at record {place}: {head}\n{line}it allows {other}")?)
}

/// The illegal record is told, with what is allowed there, wherever records were taken out.
#[test]
fn tells_what_is_allowed_at_each_place(rt: HostRuntime) -> Result<(), Fail> {
    for place in PLACES {
        let free = place.saturating_add(3);
        let wrong = opened_until(rt.alloc(), place, 2)?;
        let told = opened_at_another(rt.alloc(), place, 2, free)?;
        expect_verdict(&rt, &[], wrong.as_bytes(), 1, told.as_str(), "")?;
        let right = opened_until(rt.alloc(), place, free)?;
        let count = place.saturating_add(1);
        let told = format!(in rt.alloc(); "ok {count} records\n")?;
        expect_verdict(&rt, &[], right.as_bytes(), 0, told.as_str(), "")?;
    }
    Ok(())
}

/// A pipe, of which 65,536 bytes are written and read.
const LONG: (&str, &str, &str, &str, &str) = (
    PIPE,
    "{\"answer\":{\"num\":65536},\"caller\":0,\"event\":{\"call\":{\"fd\":4,\"hex\":\"",
    "\",\"op\":\"write\"},\"pid\":1},\"picked\":[]}\n",
    "{\"answer\":{\"bytes\":\"",
    "\"},\"caller\":0,\"event\":{\"call\":{\"fd\":3,\"n\":65536,\"op\":\"read\"},\"pid\":1},\"picked\":[]}\n",
);

/// So many times the byte 255, in digits.
fn digits(alloc: Global, count: usize) -> Result<String, Fail> {
    let mut digits = String::new(alloc);
    for _ in 0..count {
        digits.push_str("ff")?;
    }
    Ok(digits)
}

/// A record of so many bytes is taken out at once.
#[test]
fn tells_what_is_allowed_behind_long_records(rt: HostRuntime) -> Result<(), Fail> {
    let alloc = rt.alloc();
    let (pipe, write, written, read, asked) = LONG;
    let (all, less) = (digits(alloc, 65_536)?, digits(alloc, 65_535)?);
    let begun = format!(in alloc; "{pipe}{write}{all}{written}")?;
    let again = format!(in alloc; "{begun}{read}{all}{asked}{read}{asked}")?;
    let illegal = format!(in alloc; "{begun}{read}{less}{asked}")?;
    let head = "illegal at record 2: the machine does not allow this answer here";
    let told = format!(in alloc; "{head}\n{read}{less}{asked}it allows {read}{all}{asked}")?;
    expect_verdict(&rt, &[], illegal.as_bytes(), 1, told.as_str(), "")?;
    let head = "illegal at record 3: the machine does not allow this answer here";
    let empty =
        "{\"answer\":{\"err\":[11,\"EAGAIN\"]},\"caller\":0,\"event\":{\"call\":{\"fd\":3,\"n\":65536,\"op\":\"read\"},\"pid\":1},\"picked\":[]}";
    let told = format!(in alloc; "{head}\n{read}{asked}it allows {empty}\n")?;
    expect_verdict(&rt, &[], again.as_bytes(), 1, told.as_str(), "")
}
