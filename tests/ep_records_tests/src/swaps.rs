//! Records that are taken out, and the numbers of events.

use ep_base::{Answer, CallerId, Event, EventNumber, Span};
use ep_records::History;
use std::alloc::{AllocError, Global};
use std::process::Abort;
use std::test::Fail;

/// Ticks of these lengths, in a history of their own.
fn ticks(alloc: Global, lengths: &[u64]) -> Result<History, AllocError> {
    let mut history = History::new(alloc);
    add_ticks(&mut history, lengths)?;
    Ok(history)
}

fn add_ticks(history: &mut History, lengths: &[u64]) -> Result<(), AllocError> {
    history.reserve(lengths.len())?;
    for n in lengths {
        let tick = Event::Tick { n: Span(*n) };
        history.push_short(CallerId(1), &tick, &Answer::Done, &[]);
    }
    Ok(())
}

/// How long the tick of this number was, if its record is there.
fn length_of(history: &History, number: u64) -> Option<u64> {
    match history.numbered(EventNumber(number))?.event() {
        Ok(Event::Tick { n }) => Some(n.0),
        _ => None,
    }
}

#[test]
fn the_records_go_over(rt: HostRuntime) -> Result<(), Fail> {
    let mut history = ticks(rt.alloc(), &[5, 6, 7])?;
    let mut other = History::new(rt.alloc());
    assert!(rt; history.swap(&mut other).is_ok());
    assert_eq!(rt; (history.len(), other.len()), (0, 3));
    let found = (1..5).map(|number| length_of(&other, number));
    assert!(rt; found.eq([Some(5), Some(6), Some(7), None].into_iter()));
    Ok(())
}

#[test]
fn events_are_numbered_on(rt: HostRuntime) -> Result<(), Fail> {
    let mut history = ticks(rt.alloc(), &[5, 6])?;
    let mut other = History::new(rt.alloc());
    for lengths in [[7, 8], [9, 10]] {
        let before = history.next_number();
        assert!(rt; history.swap(&mut other).is_ok());
        assert!(rt; history.next_number() == before);
        other.clear();
        add_ticks(&mut history, &lengths)?;
    }
    assert!(rt; history.next_number() == EventNumber(7));
    let found = (0..8).map(|number| length_of(&history, number));
    let wanted = [None, None, None, None, None, Some(9), Some(10), None];
    assert!(rt; found.eq(wanted.into_iter()));
    Ok(())
}

#[test]
fn room_goes_with_the_histories(rt: HostRuntime) -> Result<(), Fail> {
    let mut history = ticks(rt.alloc(), &[5])?;
    let mut other = History::new(rt.alloc());
    other.reserve(2)?;
    assert!(rt; history.swap(&mut other).is_ok());
    let tick = Event::Tick { n: Span(1) };
    for _ in 0..2 {
        assert!(rt; history.push_short(CallerId(1), &tick, &Answer::Done, &[]));
    }
    assert!(rt; history.next_number() == EventNumber(4));
    Ok(())
}
