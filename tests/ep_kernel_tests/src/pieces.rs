//! The records of a kernel, taken out piece by piece while it runs: put together they are those of a run.

use crate::kernels::{Script, on_both_kernels};
use ep_audit::Auditor;
use ep_base::{EntryNumber, EventNumber};
use ep_plain::Kernel;
use ep_records::{Entry, History};
use ep_text::{Version, read_line};
use std::alloc::{AllocError, Global};
use std::process::Abort;
use std::sync::Wait;
use std::test::Fail;

/// The first registration is reported by events 5, 8 and 11, which stand in the second and the third piece.
const SCRIPT: &str = "{\"op\":\"eventfd\",\"init\":0}
{\"op\":\"epoll\"}
{\"op\":\"ctl\",\"ep\":4,\"act\":\"add\",\"fd\":3,\"mask\":1,\"data\":7}
{\"op\":\"write\",\"fd\":3,\"hex\":\"0100000000000000\"}
{\"op\":\"wait\",\"ep\":4,\"max\":8,\"timeout\":0}
{\"op\":\"read\",\"fd\":3,\"n\":8}
{\"op\":\"write\",\"fd\":3,\"hex\":\"0100000000000000\"}
{\"op\":\"wait\",\"ep\":4,\"max\":8,\"timeout\":0}
{\"op\":\"read\",\"fd\":3,\"n\":8}
{\"op\":\"write\",\"fd\":3,\"hex\":\"0200000000000000\"}
{\"op\":\"wait\",\"ep\":4,\"max\":8,\"timeout\":0}
{\"op\":\"close\",\"fd\":3}
";

/// How many records are taken out at once.
const PIECE: usize = 4;

/// The events that report the registration.
const REPORTING: [u64; 3] = [5, 8, 11];

/// Hands a line to the kernel.
fn ask<K: Kernel>(alloc: Global, kernel: &mut K, line: &str) -> Result<(), AllocError> {
    if let Some((caller, event)) = read_line(alloc, Version::V1, line.as_bytes())? {
        let _answer = kernel.step(caller, event);
    }
    Ok(())
}

/// Whether the record of an event reports the registration exactly if it should.
fn is_reported(number: u64, entry: &Entry<'_>) -> bool {
    let picked = entry.picked();
    if REPORTING.contains(&number) {
        return picked.as_slice() == [EntryNumber(1)].as_slice();
    }
    picked.as_slice().is_empty()
}

/// Whether a piece has the records of the events from this one on, which go on a run.
fn goes_on(auditor: &mut Auditor, piece: &History, from: u64) -> Result<bool, AllocError> {
    for number in from..from.saturating_add(PIECE as u64) {
        let Some(entry) = piece.numbered(EventNumber(number)) else {
            return Ok(false);
        };
        if !is_reported(number, &entry) || !auditor.allows(&entry.copy()?)? {
            return Ok(false);
        }
    }
    Ok(piece.len() == PIECE)
}

/// The script above, whose records are taken out after each fourth line.
struct Pieces;

impl Script for Pieces {
    fn run<K: Kernel + Drop, R: Abort + AllocGlobal + Wait>(
        &self,
        rt: &R,
        mut kernel: K,
    ) -> Result<(), AllocError> {
        let mut auditor = Auditor::new(rt.alloc(), kernel.limits())?;
        let mut piece = History::new(rt.alloc());
        for (place, line) in SCRIPT.lines().enumerate() {
            ask(rt.alloc(), &mut kernel, line)?;
            let next = (place as u64).saturating_add(2);
            assert!(rt; kernel.history().next_number() == EventNumber(next));
            if place % PIECE < PIECE - 1 {
                continue;
            }
            assert!(rt; kernel.swap_history(&mut piece).is_ok());
            assert!(rt; kernel.history().is_empty());
            assert!(rt; kernel.history().next_number() == EventNumber(next));
            let from = next.saturating_sub(PIECE as u64);
            assert!(rt; goes_on(&mut auditor, &piece, from)?, "from event {from}");
            piece.clear();
        }
        Ok(())
    }
}

#[test]
fn each_kernel_gives_its_records_out(rt: HostRuntime) -> Result<(), Fail> {
    Ok(on_both_kernels(&rt, &Pieces)?)
}
