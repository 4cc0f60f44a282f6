//! A counter and a timer: each call once. Their bounds are in the scripts of `ep_examples`.

use ep_base::{Answer, Buffer, Errno, Mask, Moment, Raised, Span};
use ep_counters::{EventFd, Timer};
use std::test::Fail;

/// These bits at the one end.
fn at_first(bits: Mask) -> Raised {
    Raised {
        first: bits,
        second: Mask(0),
    }
}

/// The moment so many microseconds after the clock began.
pub(crate) fn at(n: u64) -> Moment {
    Moment::new(n).unwrap()
}

/// Whether an answer is a number below 256, as 8 bytes, the lowest first.
pub(crate) fn is_value(answer: &Answer, number: u8) -> bool {
    match answer {
        Answer::Bytes(bytes) => bytes.as_slice() == [number, 0, 0, 0, 0, 0, 0, 0].as_slice(),
        _ => false,
    }
}

#[test]
fn a_counter_adds_and_gives_its_sum(rt: HostRuntime) -> Result<(), Fail> {
    let mut counter = EventFd::new(rt.alloc(), 2, false);
    let three = Buffer::new([3, 0, 0, 0, 0, 0, 0, 0].to_vec(rt.alloc())?);
    let (written, raised) = counter.write(&three);
    assert!(rt; written == Answer::Num(8) && raised == at_first(Mask::IN));
    assert!(rt; counter.present() == Mask(5));
    let (read, raised) = counter.read(8);
    assert!(rt; is_value(&read, 5) && raised == at_first(Mask::OUT));
    Ok(())
}

/// 9 times the byte 1 is 72,340,172,838,076,673, of which the ninth is left out; 7 bytes are too few, and 255 over and
/// over is 2^64 - 1.
#[test]
fn a_counter_adds_one_byte_over_and_over(rt: HostRuntime) {
    let mut counter = EventFd::new(rt.alloc(), 0, false);
    let (written, _) = counter.write(&Buffer::filled(1, 9));
    assert!(rt; written == Answer::Num(8));
    let (read, _) = counter.read(8);
    assert!(rt; is_ones(&read));
    let (refused, _) = counter.write(&Buffer::filled(0, 7));
    assert!(rt; refused == Answer::Refused(Errno::Einval));
    let (refused, _) = counter.write(&Buffer::filled(255, 8));
    assert!(rt; refused == Answer::Refused(Errno::Einval));
}

fn is_ones(answer: &Answer) -> bool {
    match answer {
        Answer::Bytes(bytes) => bytes.as_slice() == [1; 8].as_slice(),
        _ => false,
    }
}

/// Set at 10, it expires at 15 and then after each 2.
#[test]
fn a_timer_expires_and_is_read(rt: HostRuntime) {
    let mut timer = Timer::new(rt.alloc());
    let (before, raised) = timer.settime(at(10), false, Span(5), Span(2));
    let unset = Answer::Time {
        value: Span(0),
        interval: Span(0),
    };
    assert!(rt; before == unset && raised == at_first(Mask(0)));
    assert!(rt; timer.next(at(10)) == Some(15) && timer.advance(at(10), at(15)) == Mask::IN);
    let left = Answer::Time {
        value: Span(1),
        interval: Span(2),
    };
    assert!(rt; timer.gettime(at(16)) == left && timer.present(at(16)) == Mask::IN);
    let (read, raised) = timer.read(at(17), 8);
    assert!(rt; is_value(&read, 2) && raised == at_first(Mask(0)));
}
