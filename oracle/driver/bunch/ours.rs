// Our answers: the C functions called with the same input, and the memory that they must leave alone looked at.

use super::expected::expected;
use super::memory::{Memory, Place};
use super::{Accumulator, Answer, Call, Case, Listed};
use crate::abi::*;
use crate::compare;
use crate::header::{ERROR, FINAL};
use crate::lent::{PATTERN, UNWRITTEN, changed, guarded, lent, unguarded};

/// Before and after each lent slice, to see writes past it.
const CHANNEL: [u32; 1] = [u32::from_ne_bytes([PATTERN; 4])];
const PLACE: [Place; 1] = [[UNWRITTEN; 24]];
const LIST: [Listed; 1] = [[UNWRITTEN; 22]];
const BYTES: [u8; 16] = [PATTERN; 16];

fn called(case: &Case, payload: &[u8], answer: &mut Answer) {
    let Accumulator { max_active: a, max_buffered_bits: b, active: c, total: d } = case.accumulator;
    let Memory { channels, places, arena } = &mut answer.memory;
    let (channels, i) = (channels[CHANNEL.len()..].as_mut_ptr(), case.memory.channels.len());
    let (places, j) = (places[PLACE.len()..].as_mut_ptr(), case.memory.places.len());
    let (arena, k) = (arena[BYTES.len()..].as_mut_ptr(), case.memory.arena.len());
    let (output, l) = (answer.output[BYTES.len()..].as_mut_ptr(), case.output.len());
    let (list, m) = (answer.list[LIST.len()..].as_mut_ptr(), case.list.len());
    let (bytes, n, ch_index) = (payload.as_ptr(), payload.len(), case.ch_index);
    answer.words.clear();
    answer.words.resize(case.call.words(), UNWRITTEN);
    let out = answer.words.as_mut_ptr();
    unsafe {
        match case.call {
            Call::WithLimits => gritwheel_with_limits(a, b, channels, i, places, j, arena, k, out.cast()),
            Call::AddFragment => gritwheel_add_fragment(
                a, b, c, d, ch_index, &case.header, bytes, n, case.bits, channels, i, places, j, arena, k, output, l, out.cast(),
            ),
            Call::TakeCompleted => {
                gritwheel_take_completed(a, b, c, d, ch_index, channels, i, places, j, arena, k, output, l, out.cast())
            }
            Call::RetireChannel => {
                gritwheel_retire_channel(a, b, c, d, ch_index, channels, i, places, j, arena, k, output, l, out.cast())
            }
            Call::DrainUnfinished => {
                gritwheel_drain_unfinished(a, b, c, d, channels, i, places, j, arena, k, output, l, list, m, out.cast())
            }
        }
    }
}

/// Which of `CASES` an add's words tell.
fn fate(words: &[u64]) -> u64 {
    let (limit, kind, fragments, completed) = (words[25], words[27], words[30], words[31]);
    let fell = words[4 + FINAL] == 1 && words[4 + ERROR] == 1;
    match (limit, fragments, completed) {
        (1, ..) => 4,
        (2, ..) => 8,
        (_, 0, _) => [0, 5, 0, 6, 7][kind as usize],
        (.., 1) => 2,
        _ => 1 + 2 * u64::from(fell),
    }
}

impl compare::Case for Case {
    const CASES: &[&str] = &[
        "opened", "joined", "finished", "an erring final", "active limit", "missing initial", "mismatched", "not aligned",
        "buffered limit", "nothing", "a message", "drained",
    ];
    const MET: &[(&str, &str)] = &[
        ("with_limits", "refusal 9, opened"),
        ("add_fragment", "refusal 10, refusal 11, refusal 12, refusal 13, joined, finished, an erring final, active limit, \
            missing initial, mismatched, not aligned, buffered limit"),
        ("take_completed", "refusal 10, refusal 13, nothing, a message"),
        ("retire_channel", "refusal 10, refusal 13, nothing, a message"),
        ("drain_unfinished", "refusal 10, refusal 13, refusal 14, drained"),
    ];

    fn expected(&self, answer: &mut Answer) {
        expected(self, answer);
    }

    fn ours(&self, answer: &mut Answer, room: &mut Vec<u8>) {
        let payload = lent(&self.payload, room);
        guarded(&mut answer.memory.channels, self.memory.channels.iter().copied(), &CHANNEL);
        guarded(&mut answer.memory.places, self.memory.places.iter().copied(), &PLACE);
        guarded(&mut answer.memory.arena, self.memory.arena.iter().copied(), &BYTES);
        guarded(&mut answer.output, self.output.iter().copied(), &BYTES);
        guarded(&mut answer.list, self.list.iter().copied(), &LIST);
        called(self, payload, answer);
        let stood = unguarded(&mut answer.memory.channels, &CHANNEL)
            & unguarded(&mut answer.memory.places, &PLACE)
            & unguarded(&mut answer.memory.arena, &BYTES)
            & unguarded(&mut answer.output, &BYTES)
            & unguarded(&mut answer.list, &LIST);
        answer.damage = changed(payload, &self.payload).or((!stood).then_some("memory around what is lent"));
    }

    fn call(&self) -> usize {
        self.call as usize
    }

    fn name(call: usize) -> &'static str {
        let first = Call::WithLimits as usize;
        ["with_limits", "add_fragment", "take_completed", "retire_channel", "drain_unfinished"][call - first]
    }

    fn told(answer: &Answer) -> (u64, u64) {
        let words = &answer.words;
        let case = match words.len() {
            5 => 0,
            79 => fate(words),
            26 => 9 + words[4],
            _ => 11,
        };
        (words[0], if words[0] == 0 { case } else { 0 })
    }
}
