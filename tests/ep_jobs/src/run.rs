//! Calls on a kernel, of which the answers are noted.

use crate::digest::Digest;
use crate::draw::Draw;
use ep_base::{Answer, Buffer, Call, CallerId, Event, Fd, Mask, Pid};
use ep_plain::Kernel;
use std::alloc::{AllocError, Global};

/// Who calls where no worker does.
pub(crate) const CLIENT: CallerId = CallerId(0);

/// What a run draws on, and what was answered in it.
#[derive(Drop)]
pub(crate) struct Run {
    pub(crate) alloc: Global,
    pub(crate) draw: Draw,
    pub(crate) digest: Digest,
}

impl Run {
    /// A run of a seed.
    pub(crate) fn new(alloc: Global, seed: u32) -> Run {
        Run {
            alloc,
            draw: Draw::new(seed),
            digest: Digest::new(),
        }
    }

    /// Makes an event.
    pub(crate) fn make<K: Kernel>(
        &mut self,
        kernel: &mut K,
        caller: CallerId,
        event: Event,
    ) -> Answer {
        let answer = kernel.step(caller, event);
        self.digest.note_answer(&answer);
        answer
    }

    /// Makes a call of process 1.
    pub(crate) fn ask<K: Kernel>(
        &mut self,
        kernel: &mut K,
        caller: CallerId,
        call: Call,
    ) -> Answer {
        let event = Event::Call { pid: Pid(1), call };
        self.make(kernel, caller, event)
    }

    /// Makes a call that opens one descriptor. The answer is its number, and -1 where it was refused.
    pub(crate) fn open<K: Kernel>(&mut self, kernel: &mut K, call: Call) -> Fd {
        match self.ask(kernel, CLIENT, call) {
            Answer::Num(number) => Fd(i32::try_from(number).unwrap_or(-1)),
            _ => Fd(-1),
        }
    }

    /// Makes a pair of sockets. The answer is their numbers, and -1 twice where it was refused.
    pub(crate) fn open_pair<K: Kernel>(&mut self, kernel: &mut K) -> (Fd, Fd) {
        match self.ask(kernel, CLIENT, Call::SocketPair { cloexec: false }) {
            Answer::Two(first, second) => (first, second),
            _ => (Fd(-1), Fd(-1)),
        }
    }

    /// Lets an instance watch a descriptor, with the number of that as the data.
    pub(crate) fn watch<K: Kernel>(&mut self, kernel: &mut K, epfd: Fd, fd: Fd, mask: Mask) {
        let call = Call::EpollCtl {
            epfd,
            op: 1,
            fd,
            mask,
            tag: u64::from(fd.0.unsigned_abs()),
        };
        self.ask(kernel, CLIENT, call);
    }

    /// Writes so many bytes.
    pub(crate) fn write<K: Kernel>(
        &mut self,
        kernel: &mut K,
        caller: CallerId,
        fd: Fd,
        count: usize,
    ) -> Result<(), AllocError> {
        let byte = u8::try_from(self.draw.below(256)).unwrap_or(0);
        let bytes = vec![in self.alloc; byte; count]?;
        let call = Call::Write {
            fd,
            bytes: Buffer::new(bytes),
        };
        self.ask(kernel, caller, call);
        Ok(())
    }

    /// Adds a number to an eventfd, 1 to 255.
    pub(crate) fn signal<K: Kernel>(&mut self, kernel: &mut K, fd: Fd) -> Result<(), AllocError> {
        let number = 1 + u64::from(self.draw.below(255));
        let bytes = number.to_le_bytes().to_vec(self.alloc)?;
        let call = Call::Write {
            fd,
            bytes: Buffer::new(bytes),
        };
        self.ask(kernel, CLIENT, call);
        Ok(())
    }
}
