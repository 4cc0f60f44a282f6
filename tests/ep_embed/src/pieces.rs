//! Records that leave a kernel while it runs.

use ep_plain::Kernel;
use ep_records::History;
use std::io;

/// Takes the records out, and prints how many they are, how many are left, and the number of the next event.
pub(crate) fn print_piece<K: Kernel>(rt: &HostRuntime, kernel: &mut K) -> io::Result<()> {
    let mut piece = History::new(rt.alloc());
    if kernel.swap_history(&mut piece).is_err() {
        return println!(rt; "no more events can be numbered");
    }
    let left = kernel.history();
    println!(rt; "{} records taken out, {} left", piece.len(), left.len())?;
    println!(rt; "the next event is number {}", left.next_number().0)
}
