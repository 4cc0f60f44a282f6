//! Texts of limits.

use ep_base::Limits;
use ep_text::parse_limits;

#[test]
fn reads_six_numbers_in_range(rt: HostRuntime) {
    let wanted = Limits::new(6, 5, 2, 8, 4_096, 1);
    assert!(rt; wanted.is_some());
    assert!(rt; parse_limits("6,5,2,8,4096,1") == wanted);
    assert!(rt; parse_limits("0006,05,2,00000000000000000000008,4096,1") == wanted);
}

/// Not six runs of digits, out of range, and what would be in range if it wrapped at 32 or 64 bits.
const REFUSED: [&str; 9] = [
    "",
    "6,5,2,8,4096",
    "6,5,2,8,4096,1,1",
    "6,,2,8,4096,1",
    "+6,5,2,8,4096,1",
    "٦,5,2,8,4096,1",
    "2,5,2,8,4096,1",
    "4294967302,5,2,8,4096,1",
    "6,18446744073709551621,2,8,4096,1",
];

#[test]
fn refuses_what_is_no_limits(rt: HostRuntime) {
    for text in REFUSED {
        assert!(rt; parse_limits(text).is_none(), "at {text}");
    }
}
