//! Gates of the tests' own.

use ep_base::CallerId;
use ep_pool::Gate;
use std::sync::atomic::{AtomicU64, Ordering};
use std::thread;

/// How long a question waits for the other job's first question.
const TURNS: u32 = 10_000_000;

/// A job's first question is answered only once the other job's first question has come in: one thread that asks in
/// turn for both jobs is answered false each time. The first step of caller 2 goes once caller 1 is parked.
#[derive(Drop)]
pub(crate) struct BothHere {
    pub(crate) first: AtomicU64,
    pub(crate) second: AtomicU64,
    pub(crate) alone: AtomicU64,
}

impl BothHere {
    /// Nobody has asked.
    pub(crate) fn new() -> BothHere {
        BothHere {
            first: AtomicU64::new(0),
            second: AtomicU64::new(0),
            alone: AtomicU64::new(0),
        }
    }

    /// Waits until the other job has asked too; not again where it once did not in time.
    fn both_asked(&self, mine: &AtomicU64, other: &AtomicU64) -> bool {
        mine.store(1, Ordering::SeqCst);
        for _ in 0..TURNS {
            if self.alone.load(Ordering::SeqCst) == 1 {
                return false;
            }
            if other.load(Ordering::SeqCst) == 1 {
                return true;
            }
            thread::yield_now();
        }
        self.alone.store(1, Ordering::SeqCst);
        false
    }
}

impl Gate for BothHere {
    fn may_go(&self, caller: CallerId, step: usize, parked: &[CallerId]) -> bool {
        if step > 0 {
            return true;
        }
        if caller == CallerId(1) {
            return self.both_asked(&self.first, &self.second);
        }
        self.both_asked(&self.second, &self.first) && parked == [CallerId(1)].as_slice()
    }
}

/// Lets nobody go.
#[derive(Drop)]
pub(crate) struct Shut;

impl Gate for Shut {
    fn may_go(&self, _caller: CallerId, _step: usize, _parked: &[CallerId]) -> bool {
        false
    }
}

/// Lets everybody go at once.
#[derive(Drop)]
pub(crate) struct Open;

impl Gate for Open {
    fn may_go(&self, _caller: CallerId, _step: usize, _parked: &[CallerId]) -> bool {
        true
    }
}

/// How many workers there are: callers 1 to 4.
pub(crate) const WORKERS: usize = 4;

/// Rounds of callers 1 to 4, who wait and read in each, and of caller 5, who writes once for each of them. A worker
/// begins a round, and the writer writes, only once all workers have read in the round before, and the first write of a
/// round only once all of them are parked.
#[derive(Drop)]
pub(crate) struct InRounds {
    /// How many rounds each worker has made.
    first: AtomicU64,
    second: AtomicU64,
    third: AtomicU64,
    fourth: AtomicU64,
    /// How many rounds the writer has seen all workers make, before it asked again.
    seen: AtomicU64,
}

impl InRounds {
    /// Nobody has made a round.
    pub(crate) fn new() -> InRounds {
        InRounds {
            first: AtomicU64::new(0),
            second: AtomicU64::new(0),
            third: AtomicU64::new(0),
            fourth: AtomicU64::new(0),
            seen: AtomicU64::new(0),
        }
    }

    /// Notes that a worker has made so many rounds.
    fn note(&self, worker: CallerId, rounds: u64) {
        match worker.0 {
            1 => self.first.store(rounds, Ordering::SeqCst),
            2 => self.second.store(rounds, Ordering::SeqCst),
            3 => self.third.store(rounds, Ordering::SeqCst),
            _ => self.fourth.store(rounds, Ordering::SeqCst),
        }
    }

    /// Whether all workers have made so many rounds.
    fn have_made(&self, rounds: u64) -> bool {
        self.first.load(Ordering::SeqCst) >= rounds
            && self.second.load(Ordering::SeqCst) >= rounds
            && self.third.load(Ordering::SeqCst) >= rounds
            && self.fourth.load(Ordering::SeqCst) >= rounds
    }

    /// Whether the writer may make this step, if so many callers are parked.
    ///
    /// Who is parked was told before this question, when the workers may still have been in the round before. So a
    /// question that finds that all of them have made it is answered no, and only what the next one was told counts.
    fn may_write(&self, step: usize, parked: usize) -> bool {
        if step % WORKERS > 0 {
            return true;
        }
        let rounds = (step / WORKERS) as u64;
        if self.seen.load(Ordering::SeqCst) == rounds {
            return parked == WORKERS;
        }
        if self.have_made(rounds) {
            self.seen.store(rounds, Ordering::SeqCst);
        }
        false
    }
}

impl Gate for InRounds {
    fn may_go(&self, caller: CallerId, step: usize, parked: &[CallerId]) -> bool {
        if caller.0 > 4 {
            return self.may_write(step, parked.len());
        }
        if step % 2 > 0 {
            return true;
        }
        let rounds = (step / 2) as u64;
        self.note(caller, rounds);
        self.have_made(rounds)
    }
}
