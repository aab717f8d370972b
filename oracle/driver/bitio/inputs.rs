// The inputs on which the bit reader's calls are compared, in the order in which they come.

mod drawn;
mod edges;
mod longest;
mod short;

use super::Call::*;
use super::{CALLS, Call, Case};
use crate::compare::Comparing;
use crate::random::Random;
use crate::share::Share;

pub struct Inputs {
    comparing: Comparing<Case>,
    random: Random,
    case: Case,
    share: Share,
    long: bool,
}

const WIDTHS: [u64; 30] = [
    0, 1, 2, 3, 7, 8, 9, 15, 16, 17, 31, 32, 33, 55, 56, 57, 58, 59, 60, 61, 62, 63, 64, 65, 66, 127, 128, 256, 1 << 31,
    u32::MAX as u64,
];

/// A maximum around a power of two.
fn around_a_power(random: &mut Random) -> u64 {
    ((1u64 << random.below(33)) + random.below(5)).saturating_sub(2).min(u64::from(u32::MAX))
}

/// A count around a multiple of a size that a copy may treat apart.
fn around_a_multiple(random: &mut Random) -> u64 {
    let size = random.one_of(&[8, 64, 128, 1024]);
    (size * random.below(6) + random.below(5)).saturating_sub(2)
}

impl Inputs {
    pub fn new(seed: u64, share: u64, long: bool) -> Self {
        let case = Case::new(New, &[], [0; 3], 0);
        Self { comparing: Comparing::new(), random: Random::new(seed), case, share: Share::new(share, seed), long }
    }

    fn stages(&mut self) {
        self.short_data();
        self.two_bytes();
        self.every_window();
        self.packed();
        self.serialized();
        self.copies();
        self.floats();
        self.damaged_windows();
        self.random_data();
        self.too_long();
    }

    pub fn run(mut self) {
        self.stages();
        self.comparing.summary();
    }

    pub fn assert_met(mut self) {
        self.comparing.be_quiet();
        self.stages();
        self.comparing.assert_met();
    }

    fn check(&mut self, call: Call, argument: u64) {
        self.case.call = call;
        self.case.argument = argument;
        self.comparing.compared(&self.case);
    }

    fn check_target(&mut self, count: u64, m: usize) {
        // A pattern that differs from byte to byte and from zeros.
        self.case.target.clear();
        self.case.target.extend((0..m).map(|index| 0xc3 ^ (index as u8).wrapping_mul(7)));
        self.check(CopyBitsTo, count);
        self.case.target.clear();
    }

    /// A copy to a target that is too long, exact, one short, and empty.
    fn check_copy(&mut self, count: u64) {
        let exact = count.div_ceil(8);
        if exact <= 4096 {
            self.check_target(count, exact as usize + 3);
            self.check_target(count, exact as usize);
        }
        if exact > 1 {
            self.check_target(count, (exact - 1).min(40) as usize);
        }
        self.check_target(count, 0);
    }

    fn check_without_argument(&mut self) {
        for (call, _) in CALLS.into_iter().filter(|(call, _)| call.argument().is_none()) {
            self.check(call, 0);
        }
    }

    /// Every call, with all arguments up to a bound.
    fn check_small_arguments(&mut self, most: u64) {
        self.check_without_argument();
        for number in 0..=most {
            for call in [WithBitLen, ReadBits, SubReader, SkipBits, ReadSerializedInt] {
                self.check(call, number);
            }
            self.check_copy(number);
        }
        for number in most + 1..=2 * most {
            self.check(ReadSerializedInt, number);
        }
        self.check(ReadBits, 64);
        self.check(ReadBits, 65);
    }

    /// Calls with an argument, each with a few of the numbers that matter at this window.
    fn random_arguments(&mut self, times: u32) {
        let [_, position, length] = self.case.window;
        let left = length.saturating_sub(position);
        for _ in 0..times {
            let near = left.saturating_add(self.random.below(3)).saturating_sub(1);
            let count = match self.random.below(6) {
                0 => near,
                1 => self.random.below(131),
                2 => around_a_multiple(&mut self.random),
                3 => self.random.one_of(&[0, 1, u64::MAX, u64::MAX - 7, 1 << 63, left / 2]),
                _ => self.random.upto(left.min(4096)),
            };
            let width = match self.random.below(3) {
                0 => near.min(u64::from(u32::MAX)),
                1 => self.random.below(70),
                _ => self.random.one_of(&WIDTHS),
            };
            let max = match self.random.below(3) {
                0 => self.random.below(300),
                1 => around_a_power(&mut self.random),
                _ => self.random.upto(u64::from(u32::MAX)),
            };
            let bits = 8 * self.case.data.len() as u64;
            let before = bits.saturating_sub(1);
            let bit_len = self.random.one_of(&[0, 1, before, bits, bits + 1, bits / 2, count, u64::MAX]);
            self.check(WithBitLen, bit_len);
            self.check(ReadBits, width);
            self.check(ReadSerializedInt, max);
            self.check(SubReader, count);
            self.check(SkipBits, count);
            let exact = count.div_ceil(8).min(4096) as usize;
            let m = self.random.one_of(&[exact, exact, exact + 1, exact + 9, exact.saturating_sub(1), 0]);
            self.check_target(count, m);
        }
    }
}
