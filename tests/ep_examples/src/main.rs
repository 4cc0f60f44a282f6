//! Runs the examples of the folder that it is run in, over the kernel that scans and over the one with ready lists,
//! each over a new one, and names those whose answers are not the ones of the file beside them, or whose history the
//! audit finds illegal: by the line of the script, its call, the answer wanted and the answer given. It has to be run
//! in a folder with examples, as `data/`: where there are none, it says so and its status is 2.
#![tactic(auto)]

mod cuts;
mod difference;
mod events;
mod example;
mod files;
mod forged;
mod make;
mod script;
mod waiters;

use crate::example::fault_in;
use crate::files::names;
use crate::make::Make;
use ep_kernel::ReadyKernel;
use ep_plain::PlainKernel;
use std::io;
use std::process::ExitCode;

/// The status where the folder has no examples.
const NO_EXAMPLES: u8 = 2;

/// Names the examples that differ over kernels of this type, each with where it does, and says how
/// many do.
fn print_differing<K: Make>(rt: &HostRuntime, names: &[String], kernel: &str) -> io::Result<()> {
    let mut differing = 0u64;
    for name in names {
        if let Some(told) = fault_in::<K>(rt, name.as_str())? {
            println!(rt; "{name}: {told}")?;
            differing = differing.saturating_add(1);
        }
    }
    println!(rt; "{kernel}: {} examples, {differing} differ", names.len())
}

/// Compares each example of this folder over both kernels. False where there are none.
fn compare(rt: &HostRuntime) -> io::Result<bool> {
    let names = names(rt)?;
    if names.is_empty() {
        return Ok(false);
    }
    print_differing::<PlainKernel>(rt, &names, "PlainKernel")?;
    print_differing::<ReadyKernel>(rt, &names, "ReadyKernel")?;
    Ok(true)
}

fn main(rt: HostRuntime) -> io::Result<ExitCode> {
    if compare(&rt)? {
        return Ok(ExitCode::SUCCESS);
    }
    eprintln!(rt; "ep_examples: this folder has no examples: run it in tests/ep_examples/data")?;
    Ok(ExitCode::from(NO_EXAMPLES))
}
