//! Copies with ample memory, and limits.
use ep_base::{
    Answer, Buffer, Bytes, Call, EntryNumber, Errno, Event, Fd, Limits, Mask, Picked, Pid, Report,
    Reports, Span,
};
use smallvec::SmallVec;
use std::test::Fail;

#[test]
fn copies_of_events(rt: HostRuntime) -> Result<(), Fail> {
    let alloc = rt.alloc();
    let event = Event::Call {
        pid: Pid(1),
        call: Call::Write {
            fd: Fd(4),
            bytes: Buffer::new([97, 98, 99].to_vec(alloc)?),
        },
    };
    let Event::Call { pid, call } = event.copy()? else {
        return Err(Fail::from("another event"));
    };
    assert_eq!(rt; pid, Pid(1));
    let Call::Write { fd, bytes } = call else {
        return Err(Fail::from("another call"));
    };
    assert_eq!(rt; fd, Fd(4));
    assert!(rt; bytes == Buffer::new(b"abc".to_vec(alloc)?));
    let tick = Event::Tick { n: Span(5) };
    assert!(rt; matches!(tick.copy()?, Event::Tick { n: Span(5) }));
    assert!(rt; matches!(Event::Resume.copy()?, Event::Resume));
    Ok(())
}

#[test]
fn copies_of_bytes(rt: HostRuntime) -> Result<(), Fail> {
    let long = SmallVec::from_slice(rt.alloc(), [7; 17].as_slice())?;
    let answer = Answer::Bytes(Bytes::new(long));
    assert!(rt; are_sevens(&answer.copy()?));
    Ok(())
}

fn are_sevens(answer: &Answer) -> bool {
    match answer {
        Answer::Bytes(bytes) => bytes.as_slice() == [7; 17].as_slice(),
        _ => false,
    }
}

#[test]
fn copies_of_reports(rt: HostRuntime) -> Result<(), Fail> {
    let reports = SmallVec::from_slice(rt.alloc(), [IN_OF_3; 5].as_slice())?;
    let answer = Answer::Events(Reports::new(reports));
    assert!(rt; are_of_3(&answer.copy()?));
    Ok(())
}

const IN_OF_3: Report = Report {
    bits: Mask::IN,
    tag: 3,
};

fn are_of_3(answer: &Answer) -> bool {
    match answer {
        Answer::Events(reports) => reports.as_slice() == [IN_OF_3; 5].as_slice(),
        _ => false,
    }
}

#[test]
fn copies_of_picked(rt: HostRuntime) -> Result<(), Fail> {
    let picked = Picked::new(SmallVec::from_slice(
        rt.alloc(),
        [EntryNumber(1), EntryNumber(2)].as_slice(),
    )?);
    assert_eq!(rt;
        picked.copy()?.as_slice(),
        [EntryNumber(1), EntryNumber(2)].as_slice()
    );
    Ok(())
}

#[test]
fn ranges_of_limits(rt: HostRuntime) {
    let tight = Limits::new(6, 5, 2, 8, 4_096, 1);
    assert!(rt; tight.is_some());
    assert!(rt; Limits::new(2, 5, 2, 8, 4_096, 1).is_none());
    assert_eq!(rt; Limits::default().pipe_bytes(), 65_536);
    assert_eq!(rt; Errno::Enotsock.number(), 88);
}

/// The numbers of Linux's errno-base.h and errno.h.
#[test]
fn numbers_of_errors_of_sockets(rt: HostRuntime) {
    assert_eq!(rt; Errno::Eafnosupport.number(), 97);
    assert_eq!(rt; Errno::Eaddrinuse.number(), 98);
    assert_eq!(rt; Errno::Eaddrnotavail.number(), 99);
    assert_eq!(rt; Errno::Econnaborted.number(), 103);
    assert_eq!(rt; Errno::Econnreset.number(), 104);
    assert_eq!(rt; Errno::Eisconn.number(), 106);
    assert_eq!(rt; Errno::Enotconn.number(), 107);
    assert_eq!(rt; Errno::Econnrefused.number(), 111);
    assert_eq!(rt; Errno::Ealready.number(), 114);
}
