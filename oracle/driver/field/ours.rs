// Our answers: the C functions called with the same input, and the memory that they must leave alone looked at.

use super::Call::*;
use super::expected::{expected, refused_word};
use super::{Answer, CALLS, Case, Record, before};
use crate::abi::*;
use crate::compare;
use crate::lent::{PATTERN, UNWRITTEN, changed, guarded, lent, unguarded};

/// A place before and after the lent list, to see writes past it.
const GUARD: [Record; 1] = [[u64::from_ne_bytes([PATTERN; 8]); 4]];

fn once(case: &Case, data: &[u8], records: &mut [Record], out: &mut WalkOut) {
    let (bytes, n, list, k) = (data.as_ptr(), data.len(), records.as_mut_ptr(), records.len());
    let [start, position, length] = case.window;
    unsafe {
        match case.call {
            RepLayout => gritwheel_parse_rep_layout(bytes, n, start, position, length, list, k, out),
            RepLayoutContentBlock => {
                gritwheel_parse_rep_layout_content_block(bytes, n, start, position, length, list, k, out);
            }
            ClassNetCache => {
                let count = case.function_count;
                gritwheel_parse_class_net_cache(bytes, n, start, position, length, count, list, k, out);
            }
        }
    }
}

/// What stands in a field record's place before the call, and around the list.
const RECORD: FieldRecord = FieldRecord { handle: 0xc3a5_c3a5, bit_count: 0x5a3c_5a3c, in_window: UNWRITTEN, in_packet: UNWRITTEN };

/// Both lists as `list_records` leaves them, one or the other a little longer than the walk's, and its words; None where it wrote
/// around them.
fn lists(case: &Case, data: &[u8], word: u32) -> Option<(Vec<Record>, Vec<FieldRecord>, WalkOut)> {
    let (bytes, n) = (data.as_ptr(), data.len());
    let [start, position, length] = case.window;
    let (more, longer) = if n % 2 == 0 { (n % 3, 0) } else { (0, n % 3) };
    let mut out = [UNWRITTEN; 8];
    let (mut numbers, mut records) = (Vec::new(), Vec::new());
    guarded(&mut numbers, (0..case.places + more).map(before), &GUARD);
    guarded(&mut records, vec![RECORD; case.places + longer], &[RECORD]);
    let (list, i) = (records[1..].as_mut_ptr(), case.places + longer);
    let (on, k) = (numbers[1..].as_mut_ptr(), case.places + more);
    unsafe {
        gritwheel_list_records(bytes, n, start, position, length, word, case.function_count, list, i, on, k, &mut out);
    }
    let stood = unguarded(&mut numbers, &GUARD) & unguarded(&mut records, &[RECORD]);
    stood.then_some((numbers, records, out))
}

/// The same walk into a list of field records: whether it agrees with the walk on numbers.
fn listed(case: &Case, data: &[u8], words: &WalkOut, places: &[Record]) -> bool {
    let Some((numbers, records, out)) = lists(case, data, case.call as u32 - RepLayout as u32) else { return false };
    let written = words[7] as usize;
    let as_told = |index: usize, record: &FieldRecord| match places.get(index).filter(|_| index < written) {
        Some(&[handle, bit_count, in_window, in_packet]) => {
            let [handle, bit_count] = [handle, bit_count].map(|word| u32::try_from(word).ok());
            handle == Some(record.handle)
                && bit_count == Some(record.bit_count)
                && (in_window, in_packet) == (record.in_window, record.in_packet)
        }
        None => *record == RECORD,
    };
    out == *words
        && numbers.starts_with(places)
        && (case.places..).zip(&numbers[case.places..]).all(|(index, place)| *place == before(index))
        && records.iter().enumerate().all(|(index, record)| as_told(index, record))
}

/// With a word that says no stream: whether it is refused by 7 or 5, else by 255 and the word, and nothing is written.
fn unlisted(case: &Case, data: &[u8]) -> bool {
    let word = [3, 4, 255, 1 << 16, u32::MAX - 1, u32::MAX][data.len() % 6];
    let Some((numbers, records, out)) = lists(case, data, word) else { return false };
    out == refused_word(data.len() as u64, case.window, word)
        && (0..).zip(&numbers).all(|(index, place)| *place == before(index))
        && records.iter().all(|record| *record == RECORD)
}

impl compare::Case for Case {
    const CASES: &[&str] = &["ended", "tail", "abandoned"];
    const MET: &[(&str, &str)] = &[
        ("parse_rep_layout", "refusal 1, refusal 2, refusal 3, refusal 5, refusal 7, refusal 14, ended, tail, abandoned"),
        ("parse_rep_layout_content_block", "refusal 1, refusal 2, refusal 3, refusal 5, refusal 7, refusal 14, ended, tail, abandoned"),
        ("parse_class_net_cache", "refusal 1, refusal 2, refusal 3, refusal 5, refusal 7, refusal 14, refusal 15, ended, abandoned"),
    ];

    fn expected(&self, answer: &mut Answer) {
        expected(self, answer);
    }

    fn ours(&self, answer: &mut Answer, room: &mut Vec<u8>) {
        let Answer { words, places, damage } = answer;
        let data = lent(&self.data, room);
        guarded(places, (0..self.places).map(before), &GUARD);
        *words = [UNWRITTEN; 8];
        once(self, data, &mut places[1..=self.places], words);
        *damage = changed(data, &self.data);
        if !unguarded(places, &GUARD) {
            *damage = Some("memory around the list");
        }
        if !listed(self, data, words, places) {
            *damage = Some("the list of field records");
        }
        if !unlisted(self, data) {
            *damage = Some("a word that says no stream");
        }
    }

    fn call(&self) -> usize {
        self.call as usize
    }

    fn name(call: usize) -> &'static str {
        CALLS[call - RepLayout as usize].1
    }

    fn told(answer: &Answer) -> (u64, u64) {
        (answer.words[0], answer.words[1])
    }
}
