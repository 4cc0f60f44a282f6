//! Records that are put by what was answered: those of the commonest events are taken, and no others.

use ep_base::{
    Answer, Buffer, Call, CallerId, EntryNumber, Event, Fd, Mask, Picked, Pid, Record, Report,
    Timeout,
};
use ep_records::History;
use std::alloc::{AllocError, Global};
use std::test::Fail;

const CALLER: CallerId = CallerId(3);

/// The first process whose number has no room in 48 bytes.
const FAR: u64 = 1 << 32;

fn write_of(alloc: Global, pid: u64, count: usize) -> Result<Event, AllocError> {
    let mut bytes = Vec::new(alloc);
    for k in 0..count {
        bytes.push(k as u8)?;
    }
    let call = Call::Write {
        fd: Fd(4),
        bytes: Buffer::new(bytes),
    };
    Ok(Event::Call {
        pid: Pid(pid),
        call,
    })
}

fn read_of(pid: u64) -> Event {
    Event::Call {
        pid: Pid(pid),
        call: Call::Read { fd: Fd(3), n: 64 },
    }
}

fn wait_of(pid: u64) -> Event {
    Event::Call {
        pid: Pid(pid),
        call: Call::EpollWait {
            epfd: Fd(5),
            max: 8,
            timeout: Timeout(-1),
        },
    }
}

#[test]
fn a_short_write_is_taken(rt: HostRuntime) -> Result<(), Fail> {
    let alloc = rt.alloc();
    let mut history = History::new(alloc);
    history.reserve(1)?;
    let short = write_of(alloc, 1, 16)?;
    assert!(rt; !history.push_written(CALLER, &write_of(alloc, 1, 17)?, 17));
    assert!(rt; !history.push_written(CALLER, &write_of(alloc, FAR, 1)?, 1));
    assert!(rt; !history.push_written(CALLER, &read_of(1), 1));
    assert_eq!(rt; history.len(), 0);
    assert!(rt; history.push_written(CALLER, &short, 9));
    let wanted = Record {
        caller: CALLER,
        event: short,
        answer: Answer::Num(9),
        picked: Picked::empty(alloc),
    };
    match history.get(0) {
        Some(entry) => assert!(rt; entry.is_same(&wanted)),
        None => return Err(Fail::from("no record")),
    }
    assert_eq!(rt; history.len(), 1);
    Ok(())
}

#[test]
fn a_short_read_is_taken(rt: HostRuntime) -> Result<(), Fail> {
    let alloc = rt.alloc();
    let mut history = History::new(alloc);
    history.reserve(2)?;
    assert!(rt; !history.push_given(CALLER, &read_of(1), &[9; 17]));
    assert!(rt; !history.push_given(CALLER, &read_of(FAR), &[9; 1]));
    assert!(rt; !history.push_given(CALLER, &Event::Resume, &[9; 1]));
    assert_eq!(rt; history.len(), 0);
    assert!(rt; history.push_given(CALLER, &read_of(1), &[9; 16]));
    assert!(rt; history.push_given(CALLER, &read_of(1), &[]));
    assert_eq!(rt; history.len(), 2);
    Ok(())
}

#[test]
fn one_report_is_taken(rt: HostRuntime) -> Result<(), Fail> {
    let alloc = rt.alloc();
    let mut history = History::new(alloc);
    history.reserve(2)?;
    let report = Report {
        bits: Mask::IN,
        tag: 11,
    };
    assert!(rt; !history.push_report(CALLER, &wait_of(FAR), report, EntryNumber(7)));
    assert!(rt; !history.push_report(CALLER, &read_of(1), report, EntryNumber(7)));
    assert_eq!(rt; history.len(), 0);
    assert!(rt; history.push_report(CALLER, &wait_of(1), report, EntryNumber(7)));
    assert!(rt; history.push_report(CALLER, &Event::Resume, report, EntryNumber(8)));
    let copies = history.copies()?;
    assert_eq!(rt; copies[0].picked.as_slice(), [EntryNumber(7)].as_slice());
    assert_eq!(rt; copies[1].picked.as_slice(), [EntryNumber(8)].as_slice());
    Ok(())
}
