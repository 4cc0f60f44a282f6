//! Room for dates.

use ep_base::{DescId, EntryId, EntryNumber};
use ep_dates::Dates;
use std::process::Abort;
use std::test::Fail;

#[test]
fn has_room_and_no_date(rt: HostRuntime) -> Result<(), Fail> {
    let mut dates = Dates::new(rt.alloc());
    dates.make_room(DescId(2), EntryId(5), EntryNumber(1))?;
    has_no_date(&rt, &dates);
    Ok(())
}

fn has_no_date(rt: &impl Abort, dates: &Dates) {
    for number in 0..3 {
        assert!(rt; !dates.is_dated(EntryNumber(number)));
    }
    assert!(rt; !dates.is_ready(DescId(2)));
    assert!(rt; !dates.is_ready(DescId(7)));
}
