//! What a caller can see of a kernel.

use ep_base::{CallerId, Limits, Moment};
use ep_plain::Kernel;

/// How many callers are looked at, from 0 on: all that the scripts name.
const CALLERS: u32 = 32;

/// What a caller can see of a kernel without a call that leaves a record. The callers are bits, by their numbers.
#[derive(Clone, Copy, PartialEq, Eq)]
pub(crate) struct Seen {
    /// How many records there have been, those among them that were taken out.
    pub(crate) records: usize,
    now: Moment,
    parked: u64,
    marked: u64,
    first_marked: Option<CallerId>,
    next_moment: Option<Moment>,
    limits: Limits,
}

/// How many records a kernel has had.
pub(crate) fn records_of<K: Kernel>(kernel: &K) -> usize {
    (kernel.history().next_number().0 as usize).saturating_sub(1)
}

impl Seen {
    /// What there is to see now.
    pub(crate) fn of<K: Kernel>(kernel: &K) -> Seen {
        let mut parked = 0u64;
        let mut marked = 0u64;
        for number in 0..CALLERS {
            parked |= u64::from(kernel.is_parked(CallerId(number))) << number;
            marked |= u64::from(kernel.is_marked(CallerId(number))) << number;
        }
        Seen {
            records: records_of(kernel),
            now: kernel.now(),
            parked,
            marked,
            first_marked: kernel.first_marked(),
            next_moment: kernel.next_moment(),
            limits: *kernel.limits(),
        }
    }
}
