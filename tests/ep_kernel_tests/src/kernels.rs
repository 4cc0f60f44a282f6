//! What is asked of each kernel.

use ep_audit::audit_history;
use ep_base::Limits;
use ep_kernel::ReadyKernel;
use ep_plain::{Kernel, PlainKernel};
use std::alloc::{AllocError, Global};
use std::process::Abort;
use std::sync::Wait;

/// What is asked of a new kernel.
pub trait Script {
    /// Asks it, and ends the process at an answer that is not the one that the script says. An `Err` is want of memory.
    fn run<K: Kernel + Drop, R: Abort + AllocGlobal + Wait>(
        &self,
        rt: &R,
        kernel: K,
    ) -> Result<(), AllocError>;
}

/// Asks a kernel, as one of any kind, where there was memory to make it.
fn on_made<S: Script, K: Kernel + Drop, R: Abort + AllocGlobal + Wait>(
    rt: &R,
    script: &S,
    made: Result<K, AllocError>,
) -> Result<(), AllocError> {
    match made {
        Ok(kernel) => script.run(rt, kernel),
        Err(_) => Err(AllocError),
    }
}

/// Asks the kernel that scans.
pub fn on_scanning_kernel<S: Script, R: Abort + AllocGlobal + Wait>(
    rt: &R,
    script: &S,
) -> Result<(), AllocError> {
    on_made(rt, script, PlainKernel::new(rt.alloc(), Limits::default()))
}

/// Asks the kernel with ready lists.
pub fn on_ready_kernel<S: Script, R: Abort + AllocGlobal + Wait>(
    rt: &R,
    script: &S,
) -> Result<(), AllocError> {
    on_made(rt, script, ReadyKernel::new(rt.alloc(), Limits::default()))
}

/// Asks both kernels.
pub fn on_both_kernels<S: Script, R: Abort + AllocGlobal + Wait>(
    rt: &R,
    script: &S,
) -> Result<(), AllocError> {
    on_scanning_kernel(rt, script)?;
    on_ready_kernel(rt, script)
}

/// Whether a kernel has a history of so many records, which is a run. Where memory for the audit is refused, it is
/// asked for again.
pub fn is_run<K: Kernel>(alloc: Global, kernel: &K, records: usize) -> bool {
    let judged = || audit_history(alloc, kernel.limits(), kernel.history());
    kernel.history().len() == records && judged().or_else(|_| judged()).is_ok()
}
