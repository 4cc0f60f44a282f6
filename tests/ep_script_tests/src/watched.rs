//! A watched reader and a watched writer, beside the same ones unwatched.

use crate::stand_ins::{Failure, Narrow, Pieces};
use ep_script::Watched;
use std::alloc::Global;
use std::io::{ErrorKind, Read, Write};

fn pieces(fails: bool) -> Pieces<'static> {
    Pieces {
        text: b"abcde",
        piece: 2,
        fails,
    }
}

fn narrow(alloc: Global, failure: Failure) -> Narrow {
    Narrow {
        taken: Vec::new(alloc),
        piece: 2,
        room: 5,
        failure,
    }
}

/// What four reads of at most 3 bytes answer, and their bytes.
fn four_reads<R: Read>(reader: &mut R) -> [(Result<usize, ErrorKind>, [u8; 3]); 4] {
    let mut answers = [(Ok(0), [0; 3]); 4];
    for (answer, bytes) in &mut answers {
        *answer = reader.read(bytes).map_err(|error| error.kind());
    }
    answers
}

/// What four writes of 3 bytes and a flush answer.
fn four_writes<W: Write>(writer: &mut W) -> ([Result<usize, ErrorKind>; 4], bool) {
    let mut answers = [Ok(0); 4];
    for answer in &mut answers {
        *answer = writer.write(b"abc").map_err(|error| error.kind());
    }
    (answers, writer.flush().is_ok())
}

#[test]
fn reads_as_the_one_inside(rt: HostRuntime) {
    for fails in [false, true] {
        let wanted = four_reads(&mut pieces(fails));
        assert!(rt; four_reads(&mut Watched::new(pieces(fails))) == wanted);
    }
}

#[test]
fn writes_as_the_one_inside(rt: HostRuntime) {
    for failure in [Failure::Write, Failure::NoByte, Failure::Flush] {
        let mut plain = narrow(rt.alloc(), failure);
        let mut watched = Watched::new(narrow(rt.alloc(), failure));
        assert!(rt; four_writes(&mut watched) == four_writes(&mut plain));
        assert!(rt; watched.into_inner().taken == plain.taken);
    }
}
