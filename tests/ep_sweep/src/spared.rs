//! Which events need nothing but the room for their record.

use ep_base::{Call, Event};

/// A read or a peek of so many bytes takes no memory, and a write of so many isn't copied.
const SHORT: u32 = 16;

/// Whether an event needs nothing but its record, whatever the kernel holds.
pub(crate) fn is_spared(event: &Event) -> bool {
    match event {
        Event::Call { pid: _, call } => is_spared_call(call),
        Event::Resume => false,
        Event::Tick { .. } => true,
    }
}

fn is_spared_call(call: &Call) -> bool {
    match call {
        Call::EpollCtl { op, .. } => *op != 1,
        Call::Read { n, .. } | Call::Peek { n, .. } => *n <= SHORT,
        Call::Write { .. }
        | Call::Shutdown { .. }
        | Call::TakeError { .. }
        | Call::SocketName { .. }
        | Call::SetTime { .. }
        | Call::GetTime { .. }
        | Call::Close { .. }
        | Call::Exec
        | Call::Exit => true,
        _ => false,
    }
}

/// Whether an event of a process below 2^32 is copied if it is lent.
pub(crate) fn is_copied(event: &Event) -> bool {
    match event {
        Event::Call {
            pid: _,
            call: Call::Write { bytes, .. },
        } => bytes.len() > SHORT as usize,
        _ => false,
    }
}
