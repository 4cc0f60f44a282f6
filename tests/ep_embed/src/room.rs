//! Room for records.

use ep_plain::Kernel;
use std::io;

/// Asks for room for 8 records, and then for more than any memory has, which is refused and adds no record.
pub(crate) fn print_room<K: Kernel>(rt: &HostRuntime, kernel: &mut K) -> io::Result<()> {
    println!(rt; "room for 8 records: {}", kernel.reserve(8).is_ok())?;
    println!(rt; "for 2^64 - 1: {}", kernel.reserve(usize::MAX).is_ok())?;
    println!(rt; "{} records", kernel.history().len())
}
