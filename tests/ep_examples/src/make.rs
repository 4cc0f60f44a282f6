//! The kernels that the examples are run over.

use ep_base::Limits;
use ep_kernel::ReadyKernel;
use ep_plain::{Kernel, PlainKernel};
use std::alloc::{AllocError, Global};

/// A kernel of which new ones can be made.
pub(crate) trait Make: Kernel + Drop {
    /// A kernel in the opening state. An `Err` is want of memory.
    fn make(alloc: Global, limits: Limits) -> Result<Self, AllocError>;
}

impl Make for PlainKernel {
    fn make(alloc: Global, limits: Limits) -> Result<PlainKernel, AllocError> {
        PlainKernel::new(alloc, limits)
    }
}

impl Make for ReadyKernel {
    fn make(alloc: Global, limits: Limits) -> Result<ReadyKernel, AllocError> {
        ReadyKernel::new(alloc, limits)
    }
}
