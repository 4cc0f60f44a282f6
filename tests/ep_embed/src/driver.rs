//! The loop that goes on until nothing but a call ends a wait.
ghost use Rattle.std.specs.Prelude.{◌≡◌, None, true, false};
ghost use Rattle.ep_calls.specs.Driver.{HasNoEffect, first_marked};

use ep_base::{CallerId, Event, Span};
use ep_plain::Kernel;

/// Resumes a marked caller, the one that was parked first. If nobody is marked, it moves the clock to the next moment.
/// False if there is neither; then nothing is done.
fn turn<K: Kernel>(kernel: &mut K, clock: CallerId) -> bool
    ensures marked { result ≡ false → first_marked (K.state kernel.new) ≡ None }
    ensures effect { result ≡ false → HasNoEffect (K.state kernel.new) }
{
    if let Some(caller) = kernel.first_marked() {
        kernel.step(caller, Event::Resume);
        return true;
    }
    let Some(moment) = kernel.next_moment() else {
        return false;
    };
    let n = Span(moment.at() - kernel.now().at());
    kernel.step(clock, Event::Tick { n });
    true
}

/// Takes such turns until there is none left, or until so many are taken. True if none is left. Then nobody is marked,
/// and no tick raises a bit or marks a caller: who is parked stays so until somebody makes a call.
pub fn drive<K: Kernel>(kernel: &mut K, clock: CallerId, turns: usize) -> bool
    ensures marked { result ≡ true → first_marked (K.state kernel.new) ≡ None }
    ensures effect { result ≡ true → HasNoEffect (K.state kernel.new) }
{
    for _ in 0..turns {
        if !turn(kernel, clock) {
            return true;
        }
    }
    false
}
