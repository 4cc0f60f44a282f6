//! Numbers that a seed gives.

/// The numbers that a seed gives, one after another: a counter of odd steps, whose bits are mixed by the finaliser of
/// SplitMix64 (Steele, Lea and Flood, 2014).
#[derive(Drop)]
pub(crate) struct Draw {
    state: u64,
}

impl Draw {
    /// The first numbers of a seed.
    pub(crate) fn new(seed: u32) -> Draw {
        Draw {
            state: u64::from(seed),
        }
    }

    /// The next number.
    pub(crate) fn next(&mut self) -> u64 {
        self.state = self.state.wrapping_add(0x9e37_79b9_7f4a_7c15);
        let mut mixed = self.state;
        mixed = (mixed ^ (mixed >> 30)).wrapping_mul(0xbf58_476d_1ce4_e5b9);
        mixed = (mixed ^ (mixed >> 27)).wrapping_mul(0x94d0_49bb_1331_11eb);
        mixed ^ (mixed >> 31)
    }

    /// A number below `most`; 0 where that is 0.
    pub(crate) fn below(&mut self, most: u32) -> u32 {
        if most == 0 {
            return 0;
        }
        (self.next() % u64::from(most)) as u32
    }

    /// Whether one of so many draws is had.
    pub(crate) fn one_in(&mut self, many: u32) -> bool {
        self.below(many) == 0
    }

    /// A place of a list of this length; 0 of an empty one.
    pub(crate) fn place(&mut self, length: usize) -> usize {
        if length == 0 {
            return 0;
        }
        (self.next() % length as u64) as usize
    }
}
