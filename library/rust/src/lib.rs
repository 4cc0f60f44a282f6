//! A simulated Linux kernel for pipes, socket pairs, eventfds, timers and epoll, in the process
//! that uses it. It is there to test event loops: a test decides who runs when, and the clock moves
//! only when nothing else can happen.
//!
//! ```
//! use nippersage::{Event, Events, Flags, Kernel};
//! use std::task::Poll;
//!
//! let kernel = Kernel::new()?;
//! let (test, thread) = (kernel.task(0), kernel.task(1)); // two callers in the first process
//! let (reader, writer) = test.pipe2(Flags::CLOEXEC)?;
//! let instance = test.epoll_create1(Flags::CLOEXEC)?;
//! test.epoll_add(instance, reader, Events::IN, 7)?;
//!
//! let mut events = [Event::default(); 8];
//! assert_eq!(thread.wait_start(instance, &mut events, None), Ok(Poll::Pending)); // caller 1 waits
//! test.write(writer, b"abc")?;
//! assert!(kernel.is_marked(1)); // and has been woken
//! assert_eq!(thread.resume(&mut events), Ok(Poll::Ready(1)));
//! assert_eq!(events[0], Event::new(Events::IN, 7));
//! # Ok::<(), nippersage::Errno>(())
//! ```
//!
//! **Who calls** is a [`Task`]: a caller and its process. The [`Kernel`] may be shared among
//! threads, of which each needs a caller of its own.
//!
//! **Time** stands still between calls. [`Task::epoll_wait`] moves it by itself, so a wait for an
//! hour takes no time:
//!
//! ```
//! use nippersage::{Event, Flags, Kernel};
//! use std::time::Duration;
//!
//! let kernel = Kernel::new()?;
//! let task = kernel.task(0);
//! let instance = task.epoll_create1(Flags::CLOEXEC)?;
//! let hour = Duration::from_secs(3_600);
//! assert_eq!(task.epoll_wait(instance, &mut [Event::default()], Some(hour)), Ok(0));
//! assert_eq!(kernel.now(), hour);
//! # Ok::<(), nippersage::Errno>(())
//! ```
//!
//! The kernel's unit is the microsecond. Each time that it takes is rounded up to one, and each that
//! it gives is a whole number of them. Its clock goes up to 1,000,000,000 seconds.
//!
//! **Every order.** [`orders`] tries the orders of what tasks do, and shows the first that fails.
//!
//! **What is proved.** Behind the answers is a kernel. If [`version`] says `proved`, a prover has
//! shown that a reference model allows each of them. That this crate and the C library below it ask
//! for what their functions' names say is tested and not proved.
//!
//! **The library.** The crate links `libnippersage.a`, or else the shared library. The folder of it
//! is the one that the variable `NIPPERSAGE_LIB` names, or else that of the package which this
//! crate lies in, or what pkg-config tells.
#![deny(missing_docs)]

mod errno;
mod events;
mod ffi;
mod kernel;
pub mod orders;
mod owned;
pub mod poll;
mod task;
mod time;
mod watch;

pub use errno::Errno;
pub use events::{Event, Events};
pub use kernel::{Kernel, Limits, Part, Waiter};
pub use owned::Owned;
pub use task::{Clock, Family, Fd, Flags, Name, Pid, Space, Task};
pub use time::Setting;
pub use watch::Watch;

/// The version of the library, and whether it was proved: `0.2.0, proved in logic ..` or
/// `0.2.0, unproved`.
pub fn version() -> &'static str {
    // The library answers a text of its own, which lives as long as it does, and ends with a 0.
    let text = unsafe { std::ffi::CStr::from_ptr(ffi::nippersage_version()) };
    text.to_str().unwrap_or_default()
}
