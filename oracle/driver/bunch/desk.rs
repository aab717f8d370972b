// The two desk checks of document 01 that a program makes: a fragment and then another on its channel.

use super::{Call, Case, memory, streams};
use crate::header::{FINAL, INITIAL, SEQUENCE};

pub struct Check {
    pub name: &'static str,
    /// Bits, and which of the header's flags are set.
    pub fragments: [(u64, &'static [usize]); 2],
    /// Words of the second answer, and what they are.
    pub told: &'static [(usize, u64)],
}

pub const CHECKS: [Check; 2] = [
    Check {
        name: "16 unfinished bits, initial and final of 8: errors 1, two displaced, 24 discarded",
        fragments: [(16, &[INITIAL]), (8, &[INITIAL, FINAL])],
        told: &[(0, 0), (29, 1), (32, 2), (26, 24)],
    },
    Check {
        name: "16 finished bits, continuation of 8: missing initial, 24 discarded",
        fragments: [(16, &[INITIAL, FINAL]), (8, &[])],
        told: &[(0, 0), (27, 1), (26, 24)],
    },
];

impl Check {
    /// Two channels and 40 bits, in the smallest memory for them.
    pub fn opened() -> Case {
        Case::new(2, 40, [2, 2, memory::smallest_arena(2, 40)])
    }

    /// Makes the case the fragment, on the state that it has.
    pub fn next(&self, index: usize, case: &mut Case) {
        let (bits, flags) = self.fragments[index];
        case.call = Call::AddFragment;
        case.ch_index = 3;
        case.header = [0; 20];
        case.header[1] = 3;
        case.header[SEQUENCE] = 5 + index as u64;
        for &flag in flags {
            case.header[flag] = 1;
        }
        case.bits = bits;
        case.payload = (0..bits as u8 / 8).map(|byte| 0x11 * (1 + byte)).collect();
        streams::lend(case, 3, 0);
    }

    pub fn hold(&self, words: &[u64]) {
        let right = self.told.iter().all(|&(index, word)| words[index] == word);
        assert!(right, "the desk check: {}", self.name);
    }
}
