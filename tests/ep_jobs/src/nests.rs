//! Jobs over instances that watch instances: a loop at the outer of two, and a big nest that is built.

use crate::fault::Fault;
use crate::kernels::Done;
use crate::run::{CLIENT, Run};
use ep_base::{Call, Fd, Mask, Timeout};
use ep_plain::Kernel;
use std::alloc::AllocError;

/// How many levels a nest has: the longest chain that epoll_ctl(2) allows.
const LEVELS: u32 = 5;

/// Opens so many descriptors of a kind.
fn open_many<K: Kernel>(
    run: &mut Run,
    kernel: &mut K,
    count: u32,
    is_instance: bool,
) -> Result<Vec<Fd>, AllocError> {
    let mut opened = Vec::new(run.alloc);
    for _ in 0..count {
        let call = if is_instance {
            Call::EpollCreate { cloexec: false }
        } else {
            Call::EventFd {
                init: 0,
                semaphore: false,
                cloexec: false,
            }
        };
        opened.push(run.open(kernel, call))?;
    }
    Ok(opened)
}

/// Lets an instance watch each of these descriptors.
fn watch_each<K: Kernel>(run: &mut Run, kernel: &mut K, epfd: Fd, targets: &[Fd]) {
    for fd in targets {
        run.watch(kernel, epfd, *fd, Mask::IN);
    }
}

/// One round: a leaf is signalled, the loop waits at the outer instance, and the leaf is read.
fn round<K: Kernel>(
    run: &mut Run,
    kernel: &mut K,
    outer: Fd,
    leaves: &[Fd],
) -> Result<(), AllocError> {
    let place = run.draw.place(leaves.len());
    let Some(leaf) = leaves.get(place) else {
        return Ok(());
    };
    run.signal(kernel, *leaf)?;
    let wait = Call::EpollWait {
        epfd: outer,
        max: 8,
        timeout: Timeout(0),
    };
    run.ask(kernel, CLIENT, wait);
    run.ask(kernel, CLIENT, Call::Read { fd: *leaf, n: 8 });
    Ok(())
}

/// Rounds over so many leaves of an instance that another watches.
pub(crate) fn loop_outside<K: Kernel>(
    run: &mut Run,
    kernel: &mut K,
    leaves: u32,
    rounds: u32,
) -> Result<Done, Fault> {
    let outer = run.open(kernel, Call::EpollCreate { cloexec: false });
    let inner = run.open(kernel, Call::EpollCreate { cloexec: false });
    run.watch(kernel, outer, inner, Mask::IN);
    let leaves = open_many(run, kernel, leaves, false)?;
    watch_each(run, kernel, inner, leaves.as_slice());
    for _ in 0..rounds {
        round(run, kernel, outer, leaves.as_slice())?;
    }
    Ok(Done {
        count: u64::from(rounds),
        digest: run.digest,
    })
}

/// The same on a kernel that it owns.
pub(crate) fn loop_outside_on<K: Kernel + Drop>(
    run: &mut Run,
    made: Result<K, AllocError>,
    leaves: u32,
    rounds: u32,
) -> Result<Done, Fault> {
    let mut kernel = made?;
    loop_outside(run, &mut kernel, leaves, rounds)
}

/// Puts what stands in a list into an order that is drawn.
fn shuffle<T: Drop>(run: &mut Run, values: &mut [T]) {
    for place in 0..values.len() {
        let other = run.draw.place(values.len());
        if place < values.len() && other < values.len() {
            values.swap(place, other);
        }
    }
}

/// Lets each instance of a level watch each of the level below it.
fn join_levels<K: Kernel>(run: &mut Run, kernel: &mut K, upper: &[Fd], lower: &[Fd]) {
    for epfd in upper {
        watch_each(run, kernel, *epfd, lower);
    }
}

/// Builds a nest of five levels of so many instances, and an eventfd at its foot; then the foot is signalled and the
/// first of the top level looked at.
pub(crate) fn build<K: Kernel>(run: &mut Run, kernel: &mut K, width: u32) -> Result<Done, Fault> {
    let mut upper = open_many(run, kernel, width, true)?;
    let top = upper.first().copied().unwrap_or(Fd(-1));
    for _ in 1..LEVELS {
        let mut lower = open_many(run, kernel, width, true)?;
        shuffle(run, lower.as_mut_slice());
        join_levels(run, kernel, upper.as_slice(), lower.as_slice());
        upper = lower;
    }
    let leaves = open_many(run, kernel, 1, false)?;
    join_levels(run, kernel, upper.as_slice(), leaves.as_slice());
    round(run, kernel, top, leaves.as_slice())?;
    Ok(Done {
        count: kernel.history().len() as u64,
        digest: run.digest,
    })
}

/// The same on a kernel that it owns.
pub(crate) fn build_on<K: Kernel + Drop>(
    run: &mut Run,
    made: Result<K, AllocError>,
    width: u32,
) -> Result<Done, Fault> {
    let mut kernel = made?;
    build(run, &mut kernel, width)
}
