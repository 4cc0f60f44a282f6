//! The clock, as a test moves it.
ghost use Rattle.std.specs.Prelude.{◌≡◌, ◌+◌, true, false};

use ep_base::{Answer, CallerId, Event, Span};
use ep_plain::Kernel;

/// Moves the clock by `n` microseconds. False, and it stands still, where it would pass its last moment or
/// the history found no memory.
pub fn advance<K: Kernel>(kernel: &mut K, caller: CallerId, n: Span) -> bool
    ensures moved { result ≡ true → (K.state kernel.new).now ≡ (K.state kernel.old).now + n }
    ensures stayed { result ≡ false → (K.state kernel.new).now ≡ (K.state kernel.old).now }
{
    match kernel.step(caller, Event::Tick { n }) {
        Answer::Done => true,
        _ => false,
    }
}
