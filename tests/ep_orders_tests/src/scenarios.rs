//! Scripts as scenarios, and both kernels.
ghost use Rattle.std.specs.Prelude.{◌≡◌, ◌+◌};
ghost use Rattle.ep_base.specs.Limits.{default_limits};

use ep_base::{CallerId, Event, Limits, Record};
use ep_calls::Kernel;
use ep_kernel::ReadyKernel;
use ep_orders::{Fault, Line, Makes, Rules, Scenario, Turn, Visitor, explore};
use ep_plain::PlainKernel;
use ep_text::{Version, read_line};
use std::alloc::{AllocError, Global};

/// Makes kernels that scan.
pub(crate) struct Plain;

impl Makes<PlainKernel> for Plain {
    ghost limits = { λ _. default_limits };

    fn make(&self, alloc: Global) -> Result<PlainKernel, AllocError> {
        PlainKernel::new(alloc, Limits::default())
    }
}

/// Makes kernels with ready lists.
pub(crate) struct Ready;

impl Makes<ReadyKernel> for Ready {
    ghost limits = { λ _. default_limits };

    fn make(&self, alloc: Global) -> Result<ReadyKernel, AllocError> {
        ReadyKernel::new(alloc, Limits::default())
    }
}

/// Counts orders, and the most turns of one.
#[derive(Drop)]
pub(crate) struct Count {
    pub(crate) orders: u64,
    pub(crate) longest: usize,
}

impl Visitor for Count {
    ghost notes = { λ a ms b. b.orders ≡ a.orders + 1 };

    fn visit(&mut self, turns: &[Turn], records: &[Record]) -> Result<(), AllocError> {
        if turns.len() == records.len() {
            self.orders = self.orders.saturating_add(1);
        }
        self.longest = self.longest.max(turns.len());
        Ok(())
    }
}

/// Puts an event into the line of its caller, or makes one.
fn add(
    alloc: Global,
    lines: &mut Vec<Line>,
    caller: CallerId,
    event: Event,
) -> Result<(), AllocError> {
    for line in lines.iter_mut() {
        if line.caller == caller {
            line.events.push(event)?;
            return Ok(());
        }
    }
    let mut events = Vec::new(alloc);
    events.push(event)?;
    lines.push(Line { caller, events })?;
    Ok(())
}

/// The scenario of a script: what caller 0 asks for is the setup.
pub(crate) fn scenario(alloc: Global, script: &str) -> Result<Scenario, AllocError> {
    let mut setup = Vec::new(alloc);
    let mut lines = Vec::new(alloc);
    for line in script.lines() {
        if let Some((caller, event)) = read_line(alloc, Version::V1, line.as_bytes())? {
            if caller == CallerId(0) {
                setup.push((caller, event))?;
            } else {
                add(alloc, &mut lines, caller, event)?;
            }
        }
    }
    Ok(Scenario { setup, lines })
}

/// How many orders a script has on a kernel of this kind, and the most turns of one.
pub(crate) fn count<M: Makes<K>, K: Kernel + Drop>(
    alloc: Global,
    maker: &M,
    script: &str,
    rules: Rules,
    most: u64,
) -> Result<(Count, Result<bool, Fault>), AllocError> {
    let scenario = scenario(alloc, script)?;
    let found = explore(
        alloc,
        &scenario,
        maker,
        rules,
        most,
        Count {
            orders: 0,
            longest: 0,
        },
    );
    Ok((found.visitor, found.end))
}
