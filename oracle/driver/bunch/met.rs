// What the compared calls had, so that it is seen that each case occurred.

use super::{Answer, Call, Case};
use crate::header::{ERROR, FINAL, INITIAL, SEQUENCE};
use crate::text;

const NAMES: [&str; 17] = [
    "overlapping initial", "a finished message displaced", "two displaced", "two errors", "a flagged final", "bits that no one reports",
    "no bits", "16,383 bits", "a last byte with spare bits", "the last sequence", "the limit exactly", "a full table", "a table of 0",
    "freed room used again", "a message of 0 bits handed out", "several drained", "a header of other words",
];

#[derive(Default)]
pub struct Met([u64; NAMES.len()]);

impl Met {
    pub fn count(&mut self, case: &Case, answer: &Answer) {
        let words = &answer.words;
        if words[0] != 0 {
            return;
        }
        let mut met = |index: usize, it: bool| self.0[index] += u64::from(it);
        let held = case.accumulator.total;
        match case.call {
            Call::AddFragment => {
                let (discarded, errors, fragments) = (words[26], words[29], words[30]);
                let (initial, last, error) = (words[4 + INITIAL] == 1, words[4 + FINAL] == 1, words[4 + ERROR] == 1);
                met(0, words[28] == 1);
                met(1, initial && words[32] > 0 && errors == 0);
                met(2, words[32] == 2);
                met(3, errors == 2);
                met(4, last && error && fragments == 1 && errors == 0);
                let unreported = held + case.bits != words[3] + discarded;
                let exception = !initial && last && case.bits == 0 && case.header[ERROR] != 0 && fragments == 1;
                assert!(unreported <= exception, "the ledger, with document 01's one exception");
                met(5, unreported);
                met(6, case.bits == 0 && fragments == 1);
                met(7, case.bits == 16_383 && fragments == 1);
                met(8, case.bits % 8 != 0 && words[31] == 1);
                met(9, words[4 + SEQUENCE] == i32::MAX as u64);
                met(10, fragments == 1 && case.bits > 0 && words[3] == case.accumulator.max_buffered_bits);
                met(11, words[2] > 0 && words[2] == case.accumulator.max_active as u64);
                met(12, case.accumulator.max_active == 0);
                // Memory that was never used has words that no header has.
                let index = case.accumulator.active;
                met(13, words[2] as usize > index && case.memory.places[index][0] < 1 << 32);
                met(16, case.header.iter().enumerate().any(|(index, &word)| (2..12).contains(&index) && word > 1));
            }
            Call::TakeCompleted | Call::RetireChannel => met(14, words[4] == 1 && words[25] == 0),
            Call::DrainUnfinished => met(15, words[4] > 1),
            Call::WithLimits => {}
        }
    }

    pub fn print(&self) {
        text::met("calls", &NAMES, &self.0);
    }

    pub fn assert(&self) {
        text::assert_met("calls", &NAMES, &self.0);
    }
}
