//! Descriptors that close themselves.

use crate::{Errno, Fd, Task};

/// A descriptor that its task closes when it is dropped.
///
/// The closing is a call as any other. So it is refused, and the descriptor stays, while the task's
/// caller is parked.
///
/// ```
/// use nippersage::{Errno, Flags, Kernel};
///
/// let kernel = Kernel::new()?;
/// let task = kernel.task(0);
/// let counter = task.own(task.eventfd(0, Flags::CLOEXEC)?);
/// let number = counter.fd();
/// task.write(&counter, &1u64.to_ne_bytes())?;
/// drop(counter);
/// assert_eq!(task.close(number), Err(Errno::EBADF));
/// # Ok::<(), Errno>(())
/// ```
#[derive(Debug)]
pub struct Owned<'k> {
    task: Task<'k>,
    fd: Fd,
}

impl<'k> Owned<'k> {
    pub(crate) fn new(task: Task<'k>, fd: Fd) -> Owned<'k> {
        Owned { task, fd }
    }

    /// Its number.
    pub fn fd(&self) -> Fd {
        self.fd
    }

    /// Its number, which is no longer closed.
    pub fn into_fd(self) -> Fd {
        let fd = self.fd;
        std::mem::forget(self);
        fd
    }

    /// Closes it now, and tells what was answered. After an error it isn't closed.
    pub fn close(self) -> Result<(), Errno> {
        let task = self.task;
        task.close(self.into_fd())
    }
}

impl Drop for Owned<'_> {
    fn drop(&mut self) {
        // A refusal has no one to tell it to; the history has it.
        let _ = self.task.close(self.fd);
    }
}

impl From<&Owned<'_>> for Fd {
    fn from(owned: &Owned<'_>) -> Fd {
        owned.fd
    }
}
