//! What takes room, and what is left of it.

use ep_base::{
    Answer, Buffer, Bytes, Call, CallerId, EntryNumber, Event, Fd, Mask, Picked, Pid, Record,
    Report, Reports, Timeout,
};
use ep_records::{Entry, History};
use smallvec::SmallVec;
use std::alloc::{AllocError, Global};
use std::process::Abort;
use std::test::Fail;

const CALLER: CallerId = CallerId(3);

fn write_of(bytes: Buffer) -> Event {
    Event::Call {
        pid: Pid(1),
        call: Call::Write { fd: Fd(4), bytes },
    }
}

fn letters(alloc: Global, count: usize) -> Result<Buffer, AllocError> {
    let mut bytes = Vec::new(alloc);
    for k in 0..count {
        bytes.push(b'a'.wrapping_add(k as u8))?;
    }
    Ok(Buffer::new(bytes))
}

fn wait() -> Event {
    Event::Call {
        pid: Pid(1),
        call: Call::EpollWait {
            epfd: Fd(5),
            max: 8,
            timeout: Timeout(-1),
        },
    }
}

fn reports(alloc: Global, count: usize) -> Result<Answer, AllocError> {
    let mut reports = SmallVec::new(alloc);
    for k in 0..count {
        reports.push(Report {
            bits: Mask::IN,
            tag: k as u64,
        })?;
    }
    Ok(Answer::Events(Reports::new(reports)))
}

fn nines(alloc: Global) -> Result<Answer, AllocError> {
    Ok(Answer::Bytes(Bytes::new(SmallVec::from_slice(alloc, &[9; 17])?)))
}

// The record of an event that reports nothing.
fn quiet(alloc: Global, event: Event, answer: Answer) -> Record {
    Record {
        caller: CALLER,
        event,
        answer,
        picked: Picked::empty(alloc),
    }
}

fn first(history: &History) -> Result<Entry<'_>, Fail> {
    match history.get(0) {
        Some(entry) => Ok(entry),
        None => Err(Fail::from("no record")),
    }
}

#[test]
fn sixteen_bytes_are_short(rt: HostRuntime) -> Result<(), Fail> {
    let alloc = rt.alloc();
    let mut history = History::new(alloc);
    history.reserve(3)?;
    let few = write_of(letters(alloc, 16)?);
    let many = write_of(letters(alloc, 17)?);
    let other = quiet(alloc, many.copy()?, Answer::Num(17));
    assert!(rt; history.push_short(CALLER, &few, &Answer::Num(16), &[]));
    assert!(rt; !history.push_short(CALLER, &many, &Answer::Num(17), &[]));
    assert_eq!(rt; history.len(), 1);
    history.push_reserved(quiet(alloc, many, Answer::Num(17)));
    let mut same = Vec::new(alloc);
    for entry in history.iter() {
        same.push(entry.is_same(&other))?;
    }
    assert_eq!(rt; same.as_slice(), [false, true].as_slice());
    Ok(())
}

#[test]
fn one_byte_over_and_over_is_short(rt: HostRuntime) -> Result<(), Fail> {
    let alloc = rt.alloc();
    let mut history = History::new(alloc);
    history.reserve(1)?;
    let fill = write_of(Buffer::filled(b'a', 20));
    assert!(rt; history.push_short(CALLER, &fill, &Answer::Num(20), &[]));
    let listed = |last: u8| -> Result<Record, AllocError> {
        let mut bytes = [b'a'; 20];
        bytes[19] = last;
        let event = write_of(Buffer::new(Vec::from_slice(alloc, &bytes)?));
        Ok(quiet(alloc, event, Answer::Num(20)))
    };
    let entry = first(&history)?;
    assert!(rt; entry.is_same(&listed(b'a')?));
    assert!(rt; !entry.is_same(&listed(b'b')?));
    Ok(())
}

#[test]
fn one_report_is_short(rt: HostRuntime) -> Result<(), Fail> {
    let alloc = rt.alloc();
    let mut history = History::new(alloc);
    history.reserve(2)?;
    assert!(rt; history.push_short(CALLER, &wait(), &reports(alloc, 1)?, &[EntryNumber(7)]));
    // A report and no number is no record of a kernel, so it has no short form.
    assert!(rt; !history.push_short(CALLER, &wait(), &reports(alloc, 1)?, &[]));
    assert!(rt; history.push_short(CALLER, &wait(), &reports(alloc, 0)?, &[]));
    let copies = history.copies()?;
    assert_eq!(rt; copies[0].picked.as_slice(), [EntryNumber(7)].as_slice());
    assert!(rt; copies[0].answer.is_same(&reports(alloc, 1)?));
    assert!(rt; copies[1].answer.is_same(&reports(alloc, 0)?));
    Ok(())
}

#[test]
fn cleared_room_stays(rt: HostRuntime) -> Result<(), Fail> {
    let alloc = rt.alloc();
    let mut history = History::new(alloc);
    history.reserve(2)?;
    history.push_reserved(quiet(alloc, Event::Resume, nines(alloc)?));
    history.clear();
    assert_eq!(rt; history.len(), 0);
    assert!(rt; history.get(0).is_none());
    assert!(rt; history.push_short(CALLER, &Event::Resume, &Answer::Still, &[]));
    assert_eq!(rt; first(&history)?.caller(), CALLER);
    Ok(())
}

// The numbers of so many registrations, from 7 on.
fn numbers(alloc: Global, count: usize) -> Result<Picked, AllocError> {
    let mut numbers = SmallVec::new(alloc);
    for k in 0..count {
        numbers.push(EntryNumber(7 + k as u64))?;
    }
    Ok(Picked::new(numbers))
}

fn read() -> Event {
    Event::Call {
        pid: Pid(1),
        call: Call::Read { fd: Fd(4), n: 20 },
    }
}

// Whether each record of a history is the one in its place, and no other.
fn are_each(history: &History, wanted: &[Record]) -> bool {
    for (index, entry) in history.iter().enumerate() {
        for (place, one) in wanted.iter().enumerate() {
            if entry.is_same(one) != (place == index) {
                return false;
            }
        }
    }
    history.len() == wanted.len()
}

#[test]
fn many_stand_aside(rt: HostRuntime) -> Result<(), Fail> {
    let alloc = rt.alloc();
    let mut history = History::new(alloc);
    history.reserve(4)?;
    let (nine, twelve) = (numbers(alloc, 9)?, numbers(alloc, 12)?);
    let long = write_of(letters(alloc, 17)?);
    assert!(rt; !history.push_short(CALLER, &wait(), &reports(alloc, 12)?, twelve.as_slice()));
    assert!(rt; !history.push_short(CALLER, &long, &Answer::Num(17), &[]));
    history.reserve_parts(21, 40);
    let bytes = nines(alloc)?;
    assert!(rt; history.push_short(CALLER, &wait(), &reports(alloc, 12)?, twelve.as_slice()));
    assert!(rt; history.push_short(CALLER, &Event::Resume, &reports(alloc, 9)?, nine.as_slice()));
    assert!(rt; history.push_short(CALLER, &long, &Answer::Num(17), &[]));
    assert!(rt; history.push_short(CALLER, &read(), &bytes, &[]));
    let copies = history.copies()?;
    assert_eq!(rt; copies[0].picked.as_slice(), twelve.as_slice());
    assert!(rt; copies[0].answer.is_same(&reports(alloc, 12)?));
    assert_eq!(rt; copies[1].picked.as_slice(), nine.as_slice());
    assert!(rt; copies[1].answer.is_same(&reports(alloc, 9)?));
    assert!(rt; copies[2].event == write_of(letters(alloc, 17)?));
    assert!(rt; copies[3].answer.is_same(&bytes));
    assert!(rt; are_each(&history, copies.as_slice()));
    Ok(())
}

#[test]
fn few_reports_keep_their_lists(rt: HostRuntime) -> Result<(), Fail> {
    let alloc = rt.alloc();
    let mut history = History::new(alloc);
    history.reserve(1)?;
    history.reserve_parts(8, 0);
    let eight = numbers(alloc, 8)?;
    assert!(rt; !history.push_short(CALLER, &wait(), &reports(alloc, 8)?, eight.as_slice()));
    assert_eq!(rt; history.len(), 0);
    Ok(())
}

#[test]
fn long_records_find_their_own_room(rt: HostRuntime) -> Result<(), Fail> {
    let alloc = rt.alloc();
    let mut history = History::new(alloc);
    history.reserve(5)?;
    let waited = |count: usize| -> Result<Record, AllocError> {
        Ok(Record {
            caller: CALLER,
            event: wait(),
            answer: reports(alloc, count)?,
            picked: numbers(alloc, count)?,
        })
    };
    let written = |count: usize| -> Result<Record, AllocError> {
        let event = write_of(letters(alloc, count)?);
        Ok(quiet(alloc, event, Answer::Num(count as u64)))
    };
    let wanted = || -> Result<Vec<Record>, AllocError> {
        let mut wanted = Vec::new(alloc);
        wanted.push(waited(8)?)?;
        wanted.push(waited(9)?)?;
        wanted.push(written(17)?)?;
        wanted.push(quiet(alloc, read(), nines(alloc)?))?;
        wanted.push(written(100)?)?;
        Ok(wanted)
    };
    for one in wanted()? {
        history.push_reserved(one);
    }
    assert!(rt; are_each(&history, wanted()?.as_slice()));
    assert!(rt; are_each(&history, history.copies()?.as_slice()));
    Ok(())
}
