//! Descriptors come and go.

use ep_base::{Answer, Fd, Limits, Pid};
use ep_object::Object;
use ep_table::Tables;
use std::alloc::{AllocError, Global};

/// The process that opens and closes.
const PROCESS: Pid = Pid(1);

/// The most descriptor numbers that limits allow a process.
const MOST: u32 = 65_536;

/// Limits that only the range of descriptor numbers keeps from more.
fn limits() -> Limits {
    Limits::new(MOST, 1_000_000, 1, 0, 4_096, 1).unwrap()
}

/// Whether the process got a descriptor of a new instance.
fn open(tables: &mut Tables) -> Result<bool, AllocError> {
    if !tables.has_process(PROCESS) {
        return Ok(false);
    }
    let answer = tables.create(PROCESS, false, Object::instance())?;
    Ok(matches!(answer, Answer::Num(_)))
}

/// Opens so many descriptors, or as many as the limits allow, and answers how many.
fn open_all(tables: &mut Tables, count: u32) -> Result<u32, AllocError> {
    let mut opened = 0;
    for number in 0..count {
        if open(tables)? {
            opened += 1;
        }
    }
    Ok(opened)
}

/// Closes the numbers below `end`, and ends each description with its last.
fn close_below(tables: &mut Tables, end: u32) {
    for number in 0..end {
        if tables.has_process(PROCESS) {
            tables.close(PROCESS, Fd(number as i32));
        }
        tables.take_dead();
    }
}

/// How many descriptions live.
fn count_live(tables: &Tables) -> u64 {
    let mut count: u64 = 0;
    for _ in tables.live() {
        count = count.saturating_add(1);
    }
    count
}

/// Opens so many descriptors in one process and closes them and its first three. The answer is how many
/// were opened, and how many descriptions are left.
pub fn open_and_close(alloc: Global, count: u32) -> Result<(u32, u64), AllocError> {
    let mut tables = Tables::new(alloc, limits())?;
    let opened = open_all(&mut tables, count)?;
    close_below(&mut tables, opened.min(MOST) + 3);
    Ok((opened, count_live(&tables)))
}
