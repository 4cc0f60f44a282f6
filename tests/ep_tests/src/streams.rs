//! A pipe and a pair: each call once, with reads that are too long to be kept inline. Their bounds are in the scripts
//! of `ep_examples`.

use ep_base::End::{First, Second};
use ep_base::{Answer, Buffer, End, Errno, How, Mask, Name, Raised, Space};
use ep_stream::{Pipe, SockPair};
use std::alloc::AllocError;
use std::process::Abort;
use std::test::Fail;

/// More bytes than an answer keeps inline.
pub(crate) const MANY: [u8; 20] = [7; 20];

pub(crate) fn are_many(answer: &Answer) -> bool {
    match answer {
        Answer::Bytes(bytes) => bytes.as_slice() == MANY.as_slice(),
        _ => false,
    }
}

/// A call that answers this and raises these bits at the two ends.
fn is_so(made: (Answer, Raised), answer: Answer, first: u32, second: u32) -> bool {
    let (given, raised) = made;
    given == answer && raised.first == Mask(first) && raised.second == Mask(second)
}

/// Bytes go through a pipe; then its writer closes, which raises HUP (16).
#[test]
fn a_pipe_carries_bytes(rt: HostRuntime) -> Result<(), Fail> {
    let mut pipe = Pipe::new(rt.alloc(), 4_096)?;
    goes_through(&rt, &mut pipe)?;
    Ok(())
}

fn goes_through(rt: &(impl Abort + AllocGlobal), pipe: &mut Pipe) -> Result<(), AllocError> {
    let many = Buffer::new(MANY.to_vec(rt.alloc())?);
    assert!(rt; is_so(pipe.write(Second, &many), Answer::Num(20), 1, 0));
    assert!(rt; pipe.waiting(First) == 20 && pipe.present(First) == Mask::IN);
    let (read, _) = pipe.read(First, 64)?;
    assert!(rt; are_many(&read));
    assert!(rt; pipe.close_end(Second).first == Mask::HUP);
    Ok(())
}

/// Bytes go through a pair; then their writer shuts it, which raises IN and RDHUP (8,193) at the reader. Once the
/// reader shuts it too, HUP is raised at both, at the writer with IN and RDHUP (8,209). The close of an end raises
/// all three at the other.
#[test]
fn a_pair_carries_bytes(rt: HostRuntime) -> Result<(), Fail> {
    let mut pair = SockPair::new(rt.alloc(), 64)?;
    goes_across(&rt, &mut pair)?;
    Ok(())
}

fn goes_across(rt: &(impl Abort + AllocGlobal), pair: &mut SockPair) -> Result<(), AllocError> {
    let many = Buffer::new(MANY.to_vec(rt.alloc())?);
    assert!(rt; is_so(pair.write(Second, &many), Answer::Num(20), 1, 0));
    assert!(rt; pair.waiting(First) == 20 && pair.present(First) == Mask(5));
    let (read, _) = pair.read(First, 64)?;
    assert!(rt; are_many(&read));
    assert!(rt; is_so(pair.shutdown(Second, How::Write), Answer::Done, 8_193, 0));
    assert!(rt; is_so(pair.shutdown(First, How::Write), Answer::Done, 16, 8_209));
    assert!(rt; pair.close_end(Second).first == Mask(8_209));
    Ok(())
}

/// A step of a table of half closes: at which end what is shut, what that raises at the first end and at the second,
/// and what each shows then.
struct Half {
    end: End,
    how: How,
    raised: [u32; 2],
    shown: [u32; 2],
}

/// An end that shut its reading reads the end of the stream: IN, OUT and RDHUP (8,197). HUP (16) comes to an end once
/// neither direction is left there. So it comes to both ends if both shut their reading, or if one shuts both ways, and
/// with IN, OUT and RDHUP they show 8,213. What is shut already raises nothing.
const READING: [Half; 3] = [
    Half {
        end: First,
        how: How::Read,
        raised: [8_193, 0],
        shown: [8_197, 4],
    },
    Half {
        end: First,
        how: How::Read,
        raised: [0, 0],
        shown: [8_197, 4],
    },
    Half {
        end: Second,
        how: How::Read,
        raised: [16, 8_209],
        shown: [8_213, 8_213],
    },
];

const BOTH_WAYS: [Half; 3] = [
    Half {
        end: Second,
        how: How::Both,
        raised: [8_209, 8_209],
        shown: [8_213, 8_213],
    },
    Half {
        end: Second,
        how: How::Write,
        raised: [0, 0],
        shown: [8_213, 8_213],
    },
    Half {
        end: First,
        how: How::Both,
        raised: [8_193, 8_193],
        shown: [8_213, 8_213],
    },
];

/// One end shuts its writing, so the other reads the end, and then its reading, so that neither direction is left.
const ONE_BY_ONE: [Half; 2] = [
    Half {
        end: First,
        how: How::Write,
        raised: [0, 8_193],
        shown: [4, 8_197],
    },
    Half {
        end: First,
        how: How::Read,
        raised: [8_209, 16],
        shown: [8_213, 8_213],
    },
];

#[test]
fn a_pair_is_shut_by_halves(rt: HostRuntime) -> Result<(), Fail> {
    shuts(&rt, &READING)?;
    shuts(&rt, &BOTH_WAYS)?;
    shuts(&rt, &ONE_BY_ONE)?;
    Ok(())
}

fn shuts(rt: &(impl Abort + AllocGlobal), halves: &[Half]) -> Result<(), AllocError> {
    let mut pair = SockPair::new(rt.alloc(), 64)?;
    for half in halves {
        let made = pair.shutdown(half.end, half.how);
        assert!(rt; is_so(made, Answer::Done, half.raised[0], half.raised[1]));
        assert!(rt; pair.present(First) == Mask(half.shown[0]));
        assert!(rt; pair.present(Second) == Mask(half.shown[1]));
    }
    Ok(())
}

/// What waits at an end that shut its reading is still read, and then the end of the stream. A write to it is EPIPE.
#[test]
fn a_deaf_end_reads_what_waits(rt: HostRuntime) -> Result<(), Fail> {
    let mut pair = SockPair::new(rt.alloc(), 64)?;
    let many = Buffer::new(MANY.to_vec(rt.alloc())?);
    assert!(rt; pair.write(Second, &many).0 == Answer::Num(20));
    let _ = pair.shutdown(First, How::Read);
    assert!(rt;
        is_so(
            pair.write(Second, &many),
            Answer::Refused(Errno::Epipe),
            0,
            0
        )
    );
    assert!(rt; pair.write(Second, &Buffer::filled(1, 0)).0 == Answer::Num(0));
    let (read, _) = pair.read(First, 64)?;
    assert!(rt; are_many(&read));
    let (read, _) = pair.read(First, 64)?;
    assert!(rt; are_all(&read, 0, 0));
    assert!(rt; pair.write(First, &many).0 == Answer::Num(20));
    Ok(())
}

/// A peek gives what waits and leaves it; where nothing waits it is EAGAIN, and the end once that came.
#[test]
fn a_peek_leaves_the_bytes(rt: HostRuntime) -> Result<(), Fail> {
    let mut pair = SockPair::new(rt.alloc(), 64)?;
    assert!(rt; is_so(pair.peek(First, 1)?, Answer::Refused(Errno::Eagain), 0, 0));
    let (none, _) = pair.peek(First, 0)?;
    assert!(rt; are_all(&none, 0, 0));
    assert!(rt; pair.write(Second, &Buffer::filled(7, 64)).0 == Answer::Num(64));
    let (seen, raised) = pair.peek(First, 20)?;
    assert!(rt; are_many(&seen) && raised.second == Mask(0) && pair.waiting(First) == 64);
    assert!(rt; pair.present(Second) == Mask(0));
    let (read, _) = pair.read(First, 99)?;
    assert!(rt; are_all(&read, 7, 64));
    let _ = pair.shutdown(Second, How::Write);
    let (none, _) = pair.peek(First, 1)?;
    assert!(rt; are_all(&none, 0, 0));
    Ok(())
}

/// A pair of socketpair(2) has no name, and no error while an end lives: bytes that nobody read are lost without a
/// word. Whichever end closes first, nobody can tell once both are closed.
#[test]
fn a_pair_tells_no_loss(rt: HostRuntime) -> Result<(), Fail> {
    let mut pair = SockPair::new(rt.alloc(), 64)?;
    assert!(rt; pair.name(First, true).is_none() && pair.take_error(First) == Answer::Num(0));
    assert!(rt; pair.write(Second, &Buffer::filled(7, 1)).0 == Answer::Num(1));
    assert!(rt; pair.close_end(First).second == Mask(8_209));
    assert!(rt; pair.present(Second) == Mask(8_213));
    assert!(rt; pair.take_error(Second) == Answer::Num(0));
    let last = pair.close_end(Second);
    assert!(rt; last.first == Mask(0) && last.second == Mask(0));
    assert!(rt; pair.present(First) == pair.present(Second));
    Ok(())
}

/// A connection has the listener's name at its second end, and tells once that bytes were lost with that.
#[test]
fn a_connection_tells_its_loss(rt: HostRuntime) -> Result<(), Fail> {
    let name = Name {
        space: Space::Local,
        number: 7,
    };
    let mut pair = SockPair::connection(rt.alloc(), 64, None, name)?;
    assert!(rt; pair.is_waiting() && pair.name(First, false) == None);
    assert!(rt; pair.name(First, true) == Some(name) && pair.name(Second, false) == Some(name));
    assert!(rt; pair.write(First, &Buffer::filled(7, 1)).0 == Answer::Num(1));
    pair.accept();
    assert!(rt; !pair.is_waiting());
    assert!(rt; pair.close_end(Second).first == Mask(8_217));
    assert!(rt; pair.present(First) == Mask(8_221));
    assert!(rt; pair.take_error(First) == Answer::Num(104));
    assert!(rt; pair.take_error(First) == Answer::Num(0));
    Ok(())
}

/// Whether an answer is so many bytes, all of them this one.
fn are_all(answer: &Answer, byte: u8, count: usize) -> bool {
    match answer {
        Answer::Bytes(bytes) => {
            let bytes = bytes.as_slice();
            bytes.len() == count && bytes.iter().all(|each| *each == byte)
        }
        _ => false,
    }
}

/// One byte, over and over, goes through a pipe behind two others, with pieces of it round the end of its room.
#[test]
fn a_pipe_carries_a_run(rt: HostRuntime) -> Result<(), Fail> {
    for count in [0, 1, 255, 256, 257, 4_096] {
        let mut pipe = Pipe::new(rt.alloc(), 5_000)?;
        assert!(rt; pipe.write(Second, &Buffer::filled(1, 2_000)).0 == Answer::Num(2_000));
        let (before, _) = pipe.read(First, 1_998)?;
        assert!(rt; are_all(&before, 1, 1_998));
        let wanted = if count == 0 { 0 } else { 1 };
        assert!(rt;
            is_so(
                pipe.write(Second, &Buffer::filled(9, count)),
                Answer::Num(count as u64),
                wanted,
                0
            )
        );
        let (before, _) = pipe.read(First, 2)?;
        assert!(rt; are_all(&before, 1, 2) && pipe.waiting(First) == count);
        let (read, _) = pipe.read(First, 5_000)?;
        if count > 0 {
            assert!(rt; are_all(&read, 9, count));
        }
    }
    Ok(())
}

/// Of more than 4,096 bytes as many are taken as fit, of fewer all or none; then none fits.
#[test]
fn a_pipe_takes_what_fits_of_a_run(rt: HostRuntime) -> Result<(), Fail> {
    let mut pipe = Pipe::new(rt.alloc(), 5_000)?;
    assert!(rt; pipe.write(Second, &Buffer::filled(7, 3_000)).0 == Answer::Num(3_000));
    let full = Answer::Refused(Errno::Eagain);
    assert!(rt; is_so(pipe.write(Second, &Buffer::filled(7, 4_096)), full, 0, 0));
    assert!(rt; pipe.write(Second, &Buffer::filled(7, usize::MAX)).0 == Answer::Num(2_000));
    let full = Answer::Refused(Errno::Eagain);
    assert!(rt;
        is_so(
            pipe.write(Second, &Buffer::filled(7, usize::MAX)),
            full,
            0,
            0
        )
    );
    let (read, _) = pipe.read(First, 9_999)?;
    assert!(rt; are_all(&read, 7, 5_000));
    Ok(())
}

/// A pair takes as many as fit of any write.
#[test]
fn a_pair_takes_what_fits_of_a_run(rt: HostRuntime) -> Result<(), Fail> {
    let mut pair = SockPair::new(rt.alloc(), 600)?;
    assert!(rt; pair.write(First, &Buffer::filled(3, 500)).0 == Answer::Num(500));
    assert!(rt; pair.write(First, &Buffer::filled(3, 500)).0 == Answer::Num(100));
    let full = Answer::Refused(Errno::Eagain);
    assert!(rt; is_so(pair.write(First, &Buffer::filled(3, 1)), full, 0, 0));
    let (read, _) = pair.read(Second, 9_999)?;
    assert!(rt; are_all(&read, 3, 600));
    Ok(())
}
