//! Room for records, and records that are taken out.

use crate::asker::{Asker, Counts, Way};
use crate::fault::Fault;
use crate::seen::Seen;
use ep_plain::Kernel;
use ep_records::History;
use std::alloc::{AllocError, Global};

/// An eventfd that an instance watches.
const OPENS: &str = "{\"op\":\"eventfd\",\"init\":0}
{\"op\":\"epoll\"}
{\"op\":\"ctl\",\"ep\":4,\"act\":\"add\",\"fd\":3,\"mask\":1,\"data\":3}
";

const OPENED: &str = "{\"num\":3}
{\"num\":4}
{\"done\":true}
";

/// Five events that need nothing but their records.
const CALLS: &str = "{\"op\":\"write\",\"fd\":3,\"hex\":\"0100000000000000\"}
{\"op\":\"ctl\",\"ep\":4,\"act\":\"mod\",\"fd\":3,\"mask\":1,\"data\":5}
{\"op\":\"tick\",\"n\":1}
{\"op\":\"ctl\",\"ep\":4,\"act\":\"del\",\"fd\":3}
{\"op\":\"close\",\"fd\":3}
";

const CALLED: &str = "{\"num\":8}
{\"done\":true}
{\"done\":true}
{\"done\":true}
{\"done\":true}
";

/// How many these are.
const FIVE: usize = 5;

/// Asks for more room than any memory has, which changes nothing.
fn ask_too_much<K: Kernel>(kernel: &mut K) -> Result<(), Fault> {
    let before = Seen::of(kernel);
    if kernel.reserve(usize::MAX).is_ok() || Seen::of(kernel) != before {
        return Err(Fault::Room);
    }
    Ok(())
}

/// Takes the records out, by which nothing else changes that a caller can see.
fn take_out<K: Kernel>(alloc: Global, kernel: &mut K) -> Result<History, Fault> {
    let before = Seen::of(kernel);
    let mut taken = History::new(alloc);
    if kernel.swap_history(&mut taken).is_err() || Seen::of(kernel) != before {
        return Err(Fault::Taken);
    }
    Ok(taken)
}

/// Asks for too much room, then takes the records out and asks for the room of five, with which five events are never
/// answered ENOMEM.
fn run<K: Kernel>(asker: &mut Asker, kernel: &mut K) -> Result<(), Fault> {
    ask_too_much(kernel)?;
    asker.ask_all(kernel, OPENS, OPENED)?;
    ask_too_much(kernel)?;
    let taken = take_out(asker.alloc, kernel)?;
    asker.reserve(kernel, FIVE)?;
    let refused = asker.counts.refused;
    asker.ask_all(kernel, CALLS, CALLED)?;
    if asker.counts.refused != refused {
        return Err(Fault::Spared(asker.place()));
    }
    let kept = kernel.history().len();
    if (taken.len(), kept) != (asker.counts.steps.saturating_sub(FIVE), FIVE) {
        return Err(Fault::History);
    }
    Ok(())
}

/// The same on a new kernel, if there was memory to make it.
pub(crate) fn run_on<K: Kernel + Drop>(
    alloc: Global,
    made: Result<K, AllocError>,
) -> Result<Counts, Fault> {
    let mut kernel = made?;
    let mut asker = Asker::new(alloc, Way::Step);
    run(&mut asker, &mut kernel)?;
    Ok(asker.counts)
}
