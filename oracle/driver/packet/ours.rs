// Our answers: the C functions called with the same input, and the memory that they must leave alone looked at.

use super::expected::expected;
use super::{Answer, Call, Case, Words};
use crate::abi::*;
use crate::compare;
use crate::lent::{PATTERN, UNWRITTEN, changed, guarded, lent, unguarded};

/// A place before and after each lent column, to see writes past it.
const GUARD: [u32; 1] = [u32::from_ne_bytes([PATTERN; 4])];

fn opened(case: &Case, columns: &mut [Vec<u32>; 5], words: &mut Words) {
    let [a, b, c, d, e] = columns.each_ref().map(|column| column[1..].as_ptr());
    let [i, j, k, l, m] = case.columns.each_ref().map(Vec::len);
    let mut out = [UNWRITTEN; 4];
    unsafe { gritwheel_with_max_channels(case.limit, a, i, b, j, c, k, d, l, e, m, &mut out) };
    *words = [0; 34];
    words[..4].copy_from_slice(&out);
}

fn read(case: &Case, packet: &[u8], columns: &mut [Vec<u32>; 5], words: &mut Words) {
    let [a, b, c, d, e] = columns.each_mut().map(|column| column[1..].as_mut_ptr());
    let [i, j, k, l, m] = case.columns.each_ref().map(Vec::len);
    let (bytes, n) = (packet.as_ptr(), packet.len());
    let [sequences, partials] = case.live;
    *words = [UNWRITTEN; 34];
    unsafe {
        gritwheel_read_bunch(
            bytes, n, case.id, case.at, case.limit, sequences, partials, a, i, b, j, c, k, d, l, e, m, words,
        );
    }
}

impl compare::Case for Case {
    const CASES: &[&str] = &["bunch or opened", "end", "malformed"];
    const MET: &[(&str, &str)] = &[
        ("with_max_channels", "refusal 9, bunch or opened"),
        ("read_bunch", "refusal 5, refusal 8, refusal 10, bunch or opened, end, malformed"),
    ];

    fn expected(&self, answer: &mut Answer) {
        expected(self, answer);
    }

    fn ours(&self, answer: &mut Answer, room: &mut Vec<u8>) {
        let Answer { words, columns, damage } = answer;
        let packet = lent(&self.packet, room);
        for (column, before) in columns.iter_mut().zip(&self.columns) {
            guarded(column, before.iter().copied(), &GUARD);
        }
        match self.call {
            Call::WithMaxChannels => opened(self, columns, words),
            Call::ReadBunch => read(self, packet, columns, words),
        }
        *damage = changed(packet, &self.packet);
        for column in columns {
            if !unguarded(column, &GUARD) {
                *damage = Some("memory around a column");
            }
        }
    }

    fn call(&self) -> usize {
        self.call as usize
    }

    fn name(call: usize) -> &'static str {
        if call == Call::ReadBunch as usize { "read_bunch" } else { "with_max_channels" }
    }

    fn told(answer: &Answer) -> (u64, u64) {
        (answer.words[0], answer.words[3])
    }
}
