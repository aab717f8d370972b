// What the compared bunches had, so that it is seen that each case occurred.

use super::{Answer, BUNCH, Case, MALFORMED};
use crate::text;

const NAMES: [&str; 20] = [
    "open", "close", "dormant", "paused", "reliable", "partial", "initial", "final", "exports", "mapped", "partial error",
    "completed", "channel limit", "malformed under the limit", "retired a sequence", "retired a fragment", "a full table",
    "the last sequence", "a negative sequence", "no payload",
];

#[derive(Default)]
pub struct Met([u64; NAMES.len()]);

impl Met {
    pub fn count(&mut self, case: &Case, answer: &Answer) {
        let words = &answer.words;
        if words[0] != 0 {
            return;
        }
        if words[3] != BUNCH {
            self.0[13] += u64::from(words[3] == MALFORMED && words[8] > 0);
            return;
        }
        let flags = [13, 14, 15, 16, 17, 18, 19, 20, 21, 22, 27, 29, 30].map(|index| words[index]);
        for (count, flag) in self.0.iter_mut().zip(flags) {
            *count += flag;
        }
        let (channel, sequence) = (words[12] as u32, words[23] as u32);
        let retires = words[14] == 1 && words[15] == 0;
        let [sequences, partials] = case.live;
        self.0[14] += u64::from(retires && case.columns[0][..sequences].contains(&channel));
        self.0[15] += u64::from(retires && case.columns[2][..partials].contains(&channel));
        self.0[16] += u64::from(sequences == case.limit || partials == case.limit);
        self.0[17] += u64::from(sequence == i32::MAX as u32);
        self.0[18] += u64::from(sequence > i32::MAX as u32);
        self.0[19] += u64::from(words[25] == 0);
    }

    pub fn print(&self) {
        text::met("bunches", &NAMES, &self.0);
    }

    pub fn assert(&self) {
        text::assert_met("bunches", &NAMES, &self.0);
    }
}
