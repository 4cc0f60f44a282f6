//! Records of every kind, put into a history and read again.

use ep_base::Record;
use ep_history::{print_record, read_record};
use ep_printed::PRINTED;
use ep_records::{Entry, History};
use std::alloc::{AllocError, Global};
use std::process::Abort;
use std::test::Fail;

/// Records as lines, beside those that are printed: numbers and bytes at the ends of their ranges.
const MORE: [&str; 27] = [
    "{\"answer\":{\"num\":16},\"caller\":7,\"event\":{\"call\":{\"fd\":4,\"hex\":\"6162636465666768696a6b6c6d6e6f70\",\"op\":\"write\"},\"pid\":1},\"picked\":[]}",
    "{\"answer\":{\"num\":17},\"caller\":7,\"event\":{\"call\":{\"fd\":4,\"hex\":\"6162636465666768696a6b6c6d6e6f7071\",\"op\":\"write\"},\"pid\":1},\"picked\":[]}",
    "{\"answer\":{\"num\":4294967296},\"caller\":7,\"event\":{\"call\":{\"fd\":4,\"hex\":\"61\",\"op\":\"write\"},\"pid\":1},\"picked\":[]}",
    "{\"answer\":{\"num\":1},\"caller\":7,\"event\":{\"call\":{\"fd\":4,\"hex\":\"61\",\"op\":\"write\"},\"pid\":4294967296},\"picked\":[]}",
    "{\"answer\":{\"bytes\":\"61616161616161616161616161616161\"},\"caller\":7,\"event\":{\"call\":{\"fd\":4,\"n\":16,\"op\":\"read\"},\"pid\":1},\"picked\":[]}",
    "{\"answer\":{\"bytes\":\"6161616161616161616161616161616161\"},\"caller\":7,\"event\":{\"call\":{\"fd\":4,\"n\":17,\"op\":\"read\"},\"pid\":1},\"picked\":[]}",
    "{\"answer\":{\"err\":[11,\"EAGAIN\"]},\"caller\":7,\"event\":{\"call\":{\"fd\":4,\"n\":17,\"op\":\"read\"},\"pid\":1},\"picked\":[]}",
    "{\"answer\":{\"events\":[[5,18446744073709551615]]},\"caller\":7,\"event\":{\"call\":{\"ep\":5,\"max\":8,\"op\":\"wait\",\"timeout\":-9223372036854775808},\"pid\":1},\"picked\":[18446744073709551615]}",
    "{\"answer\":{\"events\":[[5,9]]},\"caller\":7,\"event\":{\"resume\":true},\"picked\":[3]}",
    "{\"answer\":{\"events\":[]},\"caller\":7,\"event\":{\"resume\":true},\"picked\":[]}",
    "{\"answer\":{\"events\":[[5,9],[1,2]]},\"caller\":7,\"event\":{\"resume\":true},\"picked\":[3,4]}",
    "{\"answer\":{\"time\":[4294967295,4294967295]},\"caller\":7,\"event\":{\"call\":{\"abs\":false,\"fd\":7,\"interval\":18446744073709551615,\"op\":\"settime\",\"value\":18446744073709551615},\"pid\":4294967295},\"picked\":[]}",
    "{\"answer\":{\"time\":[4294967296,0]},\"caller\":7,\"event\":{\"call\":{\"abs\":false,\"fd\":7,\"interval\":6,\"op\":\"settime\",\"value\":5},\"pid\":1},\"picked\":[]}",
    "{\"answer\":{\"err\":[17,\"EEXIST\"]},\"caller\":7,\"event\":{\"call\":{\"act\":-2147483648,\"data\":18446744073709551615,\"ep\":-5,\"fd\":2147483647,\"mask\":4294967295,\"op\":\"ctl\"},\"pid\":4294967295},\"picked\":[]}",
    "{\"answer\":{\"err\":[22,\"EINVAL\"]},\"caller\":7,\"event\":{\"tick\":18446744073709551615},\"picked\":[]}",
    "{\"answer\":{\"num\":5},\"caller\":0,\
     \"event\":{\"call\":{\"act\":255,\"data\":0,\"ep\":5,\"fd\":3,\"mask\":0,\"op\":\"ctl\"},\"pid\":1},\"picked\":[]}",
    "{\"answer\":{\"done\":true},\"caller\":0,\
     \"event\":{\"call\":{\"act\":256,\"data\":0,\"ep\":5,\"fd\":3,\"mask\":0,\"op\":\"ctl\"},\"pid\":1},\"picked\":[]}",
    "{\"answer\":{\"two\":[-2147483648,2147483647]},\"caller\":0,\"event\":{\"call\":{\"cloexec\":true,\"op\":\"socketpair\"},\"pid\":1},\"picked\":[]}",
    "{\"answer\":{\"two\":[3,4]},\"caller\":0,\"event\":{\"call\":{\"fd\":7,\"op\":\"close\"},\"pid\":1},\"picked\":[]}",
    "{\"answer\":{\"time\":[18446744073709551615,4294967295]},\"caller\":0,\"event\":{\"call\":{\"fd\":7,\"op\":\"gettime\"},\"pid\":1},\"picked\":[]}",
    "{\"answer\":{\"time\":[0,4294967296]},\"caller\":0,\"event\":{\"call\":{\"fd\":7,\"op\":\"gettime\"},\"pid\":1},\"picked\":[]}",
    "{\"answer\":{\"bytes\":\"0102030405060708\"},\"caller\":7,\"event\":{\"call\":{\"fd\":4,\"n\":8,\"op\":\"read\"},\"pid\":1},\"picked\":[]}",
    "{\"answer\":{\"num\":8},\"caller\":7,\"event\":{\"call\":{\"fd\":4,\"hex\":\"0102030405060708\",\"op\":\"write\"},\"pid\":1},\"picked\":[]}",
    "{\"answer\":{\"num\":9},\"caller\":7,\"event\":{\"call\":{\"fd\":4,\"hex\":\"010203040506070809\",\"op\":\"write\"},\"pid\":1},\"picked\":[]}",
    "{\"answer\":{\"num\":18446744073709551615},\"caller\":7,\"event\":{\"call\":{\"fd\":7,\"op\":\"dup\"},\"pid\":1},\"picked\":[]}",
    "{\"answer\":{\"events\":[[5,9]]},\"caller\":7,\"event\":{\"call\":{\"ep\":5,\"max\":8,\"op\":\"wait\",\"timeout\":0},\"pid\":4294967296},\"picked\":[3]}",
    "{\"answer\":{\"num\":100000},\"caller\":7,\"event\":{\"call\":{\"fd\":4,\"fill\":[97,100000],\"op\":\"write\"},\"pid\":1},\"picked\":[]}",
];

fn all_lines<'a>(alloc: Global) -> Result<Vec<&'a str>, AllocError> {
    let mut lines = Vec::from_slice(alloc, &PRINTED)?;
    lines.extend_from_slice(&MORE)?;
    Ok(lines)
}

fn record_of(alloc: Global, line: &str) -> Result<Record, Fail> {
    match read_record(alloc, line.as_bytes())? {
        Some(entry) => Ok(entry),
        None => Err(Fail::from("no record")),
    }
}

fn fill(alloc: Global, history: &mut History, lines: &[&str]) -> Result<(), Fail> {
    for line in lines {
        let one = record_of(alloc, line)?;
        history.reserve(1)?;
        history.push_reserved(one);
    }
    Ok(())
}

// Whether what an entry tells of its parts is what this record has.
fn is_told(entry: &Entry, wanted: &Record) -> Result<bool, AllocError> {
    Ok(
        entry.caller() == wanted.caller
            && entry.event()? == wanted.event
            && entry.answer().is_same(&wanted.answer)
            && entry.picked().as_slice() == wanted.picked.as_slice(),
    )
}

// Whether an entry is the record of this line, and no other's.
fn is_line(alloc: Global, entry: &Entry, lines: &[&str], index: usize) -> Result<bool, Fail> {
    let copy = entry.copy()?;
    if print_record(alloc, &copy)?.as_slice() != lines[index].as_bytes() {
        return Ok(false);
    }
    for (place, other) in lines.iter().enumerate() {
        let one = record_of(alloc, other)?;
        if entry.is_same(&one) != (place == index) || is_told(entry, &one)? != (place == index) {
            return Ok(false);
        }
    }
    Ok(true)
}

// The first line whose record is not there, or that another record is the same as.
fn first_wrong(alloc: Global, history: &History, lines: &[&str]) -> Result<Option<usize>, Fail> {
    for index in 0..lines.len() {
        let Some(entry) = history.get(index) else {
            return Ok(Some(index));
        };
        if !is_line(alloc, &entry, lines, index)? {
            return Ok(Some(index));
        }
    }
    Ok(None)
}

#[test]
fn gives_back_what_was_pushed(rt: HostRuntime) -> Result<(), Fail> {
    let alloc = rt.alloc();
    let lines = all_lines(alloc)?;
    let mut history = History::new(alloc);
    fill(alloc, &mut history, &lines)?;
    assert_eq!(rt; history.len(), lines.len());
    assert_eq!(rt; first_wrong(alloc, &history, &lines)?, None);
    assert!(rt; history.get(lines.len()).is_none());
    let copies = history.copies()?;
    assert_eq!(rt; copies.len(), lines.len());
    assert!(rt; history.reserve(usize::MAX).is_err());
    assert_eq!(rt; history.len(), lines.len());
    assert_eq!(rt; first_wrong(alloc, &history, &lines)?, None);
    Ok(())
}

#[test]
fn gives_back_what_stands_aside(rt: HostRuntime) -> Result<(), Fail> {
    let alloc = rt.alloc();
    let lines = all_lines(alloc)?;
    let mut history = History::new(alloc);
    history.reserve_parts(64, 4_096);
    fill(alloc, &mut history, &lines)?;
    assert_eq!(rt; first_wrong(alloc, &history, &lines)?, None);
    Ok(())
}

#[test]
fn goes_on_from_a_place(rt: HostRuntime) -> Result<(), Fail> {
    let alloc = rt.alloc();
    let lines = all_lines(alloc)?;
    let mut history = History::new(alloc);
    assert!(rt; history.is_empty() && history.last().is_none());
    fill(alloc, &mut history, &lines)?;
    let from = lines.len() - 3;
    let copies = history.copies_from(from)?;
    assert_eq!(rt; copies.len(), 3);
    for (copy, entry) in copies.iter().zip(history.iter_from(from)) {
        assert!(rt; entry.is_same(copy));
    }
    let Some(last) = history.last() else {
        return Err(Fail::from("no record"));
    };
    assert!(rt; !history.is_empty() && last.is_same(&copies[2]));
    assert_eq!(rt; history.copies_from(lines.len() + 1)?.len(), 0);
    Ok(())
}
