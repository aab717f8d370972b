// The expected answers: the Rust's on its domain, and document 01's refusals 7, 5 and 14, which the Rust hasn't.

use super::{Answer, Call, Case, Record, before};
use crate::window::{Window, Words, refusal, unsound};
use vrf_bitio::BitReader;
use vrf_net::error::NetError;
use vrf_net::field::{
    FieldSink, RepLayoutRemainder, Walk, parse_class_net_cache_content_block, parse_rep_layout_impl,
};

/// Stores each record, and sees where the first stands that finds no place.
struct Sink<'a> {
    places: &'a mut [Record],
    window_start: u64,
    records: usize,
    /// Where the next record starts.
    next: u64,
    full_at: Option<u64>,
}

impl Sink<'_> {
    fn found(&mut self, handle: u32, bit_count: u32, payload: &BitReader<'_>) {
        assert!(payload.pos == 0 && payload.len == u64::from(bit_count), "the payload's reader isn't the payload");
        let in_window = payload.start_bit - self.window_start;
        match self.places.get_mut(self.records) {
            Some(place) => *place = [u64::from(handle), u64::from(bit_count), in_window, payload.start_bit],
            None => self.full_at = self.full_at.or(Some(self.next)),
        }
        self.records += 1;
        self.next = in_window + u64::from(bit_count);
    }
}

impl FieldSink for Sink<'_> {
    fn on_field(&mut self, handle: u32, bit_count: u32, reader: BitReader<'_>) {
        self.found(handle, bit_count, &reader);
    }

    fn on_rpc(&mut self, handle: u32, bit_count: u32, reader: BitReader<'_>) {
        self.found(handle, bit_count, &reader);
    }
}

/// "15 function count 0: nothing"
fn refused(error: &NetError) -> Words {
    match error {
        NetError::Bit(error) => refusal(error),
        NetError::UnresolvedFunctionCount => [15, 0, 0, 0],
        _ => unreachable!("no walk gives another"),
    }
}

/// A word that says no stream, in 15's place: after 7 and 5 it is 255 and the word.
pub fn refused_word(n: u64, window: Window, word: u32) -> [u64; 8] {
    let [number, a, b, c] = unsound(n, window).unwrap_or([255, u64::from(word), 0, 0]);
    let [start, position, length] = window;
    [number, a, b, c, start, position, length, 0]
}

fn rep_layout((count, outcome): Walk<RepLayoutRemainder>) -> (u64, Words) {
    let words = match outcome {
        Ok(RepLayoutRemainder::None) => [0; 4],
        Ok(RepLayoutRemainder::ClassNetCache(bits)) => [0, 1, bits, 0],
        Ok(RepLayoutRemainder::Malformed(bits)) => [0, 2, bits, 0],
        Err(error) => refused(&error),
    };
    (u64::from(count), words)
}

fn class_net_cache((count, outcome): Walk<u64>) -> (u64, Words) {
    let words = match outcome {
        Ok(0) => [0; 4],
        Ok(bits) => [0, 2, bits, 0],
        Err(error) => refused(&error),
    };
    (u64::from(count), words)
}

/// The count, word 0 to 3, and the position afterwards.
fn asked(case: &Case, places: &mut [Record]) -> (u64, Words, u64) {
    let [start_bit, pos, len] = case.window;
    let mut reader = BitReader { data: &case.data, start_bit, pos, len };
    let ignored = u64::from(case.call != Call::ClassNetCache);
    let mut sink = Sink { places, window_start: start_bit, records: 0, next: pos + ignored, full_at: None };
    let (count, words) = match case.call {
        Call::RepLayout => rep_layout(parse_rep_layout_impl(&mut reader, &mut sink, None, false)),
        Call::RepLayoutContentBlock => rep_layout(parse_rep_layout_impl(&mut reader, &mut sink, None, true)),
        Call::ClassNetCache => {
            class_net_cache(parse_class_net_cache_content_block(&mut reader, case.function_count, &mut sink, None))
        }
    };
    assert!(count == sink.records as u64, "the Rust's count isn't that of its records");
    // "14+ record list full: cursor at that record's start"
    match sink.full_at {
        Some(at) => (case.places as u64, [14, at, 0, 0], at),
        None => (count, words, reader.pos),
    }
}

pub fn expected(case: &Case, answer: &mut Answer) {
    answer.damage = None;
    answer.places.clear();
    answer.places.extend((0..case.places).map(before));
    let [start, position, length] = case.window;
    let (count, words, position) = match unsound(case.data.len() as u64, case.window) {
        Some(words) => (0, words, position),
        None => asked(case, &mut answer.places),
    };
    answer.words[..4].copy_from_slice(&words);
    answer.words[4..].copy_from_slice(&[start, position, length, count]);
}
