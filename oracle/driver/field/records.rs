// A fixed list of the Rust's answers to walks, one record a line (line.rs). What is lent is the answer's eighth word and the
// places, as big-endian words.

use super::Call::*;
use super::expected::{expected, refused_word};
use super::{Answer, CALLS, Call, Case, before, streams};
use crate::line::Line;
use crate::random::Random;
use crate::window::{self, Window};
use std::collections::HashSet;
use std::io::Write;

const SEED: u64 = 2025;
const LONGEST_DATA: usize = 40;
const MOST_PLACES: usize = 7;

/// What stands in the eighth word before the call.
const UNWRITTEN: u64 = 0xa5a5_a5a5_a5a5_a5a5;

type Apart = (Call, &'static [u8], Window, u32, usize);

/// The desk checks of document 01, and what is easily got wrong.
const APART: [Apart; 34] = [
    // nine zero bits, and eight; nine of one function
    (RepLayout, &[0, 0], [0, 0, 9], 0, 1),
    (RepLayoutContentBlock, &[0, 0], [0, 0, 9], 0, 1),
    (ClassNetCache, &[0], [0, 0, 8], 2, 1),
    (ClassNetCache, &[0, 0], [0, 0, 9], 1, 1),
    // a list without a place, for a record and for none
    (ClassNetCache, &[0, 0], [0, 0, 9], 1, 0),
    (RepLayout, &[0, 0], [0, 0, 9], 0, 0),
    (RepLayout, &[0x04, 0x00, 0x00, 0x00], [0, 0, 25], 0, 0),
    (RepLayout, &[0x04, 0x00, 0x00, 0x00], [0, 0, 25], 0, 1),
    // empty windows, and one bit
    (RepLayout, &[], [0, 0, 0], 0, 1),
    (RepLayoutContentBlock, &[0xff], [0, 1, 1], 0, 1),
    (RepLayout, &[0xff], [0, 0, 1], 0, 1),
    (ClassNetCache, &[], [0, 0, 0], 5, 1),
    (ClassNetCache, &[0xff], [3, 0, 1], 2, 1),
    // the function count 0, also where nothing is to be read and where the window is unsound
    (ClassNetCache, &[], [0, 0, 0], 0, 1),
    (ClassNetCache, &[0, 0], [0, 0, 16], 0, 1),
    (ClassNetCache, &[0], [0, 0, 9], 0, 1),
    (ClassNetCache, &[0], [0, 9, 8], 0, 1),
    // handle 1 of one function; a handle of one bit and of two
    (ClassNetCache, &[0x01, 0x00], [0, 0, 9], 1, 1),
    (ClassNetCache, &[0x01, 0x00], [0, 0, 9], 3, 1),
    (ClassNetCache, &[0x02, 0x00], [0, 0, 10], 3, 1),
    (ClassNetCache, &[0xff, 0xff, 0xff, 0x7f, 0x00], [0, 0, 39], u32::MAX, 1),
    // the end in its long form, with bits after it skipped and retained
    (RepLayout, &[0x02, 0x00, 0x00], [0, 0, 17], 0, 1),
    (RepLayout, &[0x00, 0x00, 0xff], [0, 0, 24], 0, 1),
    (RepLayoutContentBlock, &[0x00, 0x00, 0xff], [0, 0, 24], 0, 1),
    // an overlong count
    (RepLayout, &[0x04, 0x04, 0x00], [0, 0, 17], 0, 1),
    (ClassNetCache, &[0x04, 0x00], [0, 0, 9], 2, 1),
    // a number that goes on too long, or is too large, as handle and as count
    (RepLayout, &[0xff, 0xff, 0xff, 0xff, 0xff, 0xff], [0, 0, 48], 0, 1),
    (RepLayout, &[0xfe, 0xff, 0xff, 0xff, 0x41, 0x00], [0, 0, 48], 0, 1),
    (ClassNetCache, &[0xfe, 0xff, 0xff, 0xff, 0xff, 0xff], [0, 0, 48], 2, 1),
    (ClassNetCache, &[0xfe, 0xff, 0xff, 0xff, 0x41, 0x00], [0, 0, 48], 2, 1),
    // no end
    (RepLayout, &[0x04, 0x00, 0x00], [0, 0, 17], 0, 1),
    // unsound windows
    (RepLayout, &[0], [0, 0, 9], 0, 1),
    (RepLayoutContentBlock, &[0], [9, 0, 1], 0, 1),
    (RepLayout, &[0], [u64::MAX, 1, 0], 0, 1),
];

/// The number of `list_records` by its word, which stands above the function count in the argument.
const BY_WORD: u8 = 25;

/// Words that say no stream, in sound windows and in others.
const NO_STREAM: [(u32, &[u8], Window, u32, usize); 8] = [
    (3, &[0, 0], [0, 0, 9], 1, 1),
    (4, &[0x04, 0x00, 0x00, 0x00], [0, 0, 25], 0, 1),
    (255, &[], [0, 0, 0], 2, 0),
    (1 << 31, &[0xff, 0xff], [3, 5, 13], 7, 2),
    (u32::MAX, &[0x00, 0x00, 0xff], [0, 24, 24], u32::MAX, 1),
    (3, &[0], [0, 0, 9], 0, 1),
    (u32::MAX, &[0], [9, 0, 1], 0, 2),
    (5, &[0], [0, 9, 8], 0, 1),
];

fn refused((word, data, window, count, places): (u32, &[u8], Window, u32, usize)) -> String {
    let [words @ .., written] = refused_word(data.len() as u64, window, word);
    let untouched: Vec<_> = (0..places).map(before).collect();
    let line = Line {
        call: BY_WORD,
        data,
        window,
        argument: u64::from(word) << 32 | u64::from(count),
        before: &bytes(UNWRITTEN, &untouched),
        words,
        after: &bytes(written, &untouched),
    };
    line.text()
}

fn random_case(random: &mut Random, round: usize) -> Case {
    let call = CALLS[round % 3].0;
    let count = match (call, random.below(3)) {
        (ClassNetCache, 0) => random.one_of(&[1, 2, 3, 4, 5, 255, 1 << 31, u32::MAX]),
        (ClassNetCache, _) => 1 + random.below(60) as u32,
        _ => 0,
    };
    let records = random.below(5);
    let (mut data, mut window) = streams::stream(random, call, count, records);
    match random.below(8) {
        0 => window = window::drawn(random, 8 * data.len() as u64),
        1..4 => streams::damage(random, &mut data, &mut window),
        _ => {}
    }
    let mut case = Case::new(call, &data, window, count, MOST_PLACES);
    let mut answer = Answer::default();
    expected(&case, &mut answer);
    let found = answer.words[7] as usize;
    case.places = random.one_of(&[found, found + 1, found.saturating_sub(1), 0]).min(MOST_PLACES);
    case
}

fn bytes(first: u64, places: &[super::Record]) -> Vec<u8> {
    [first].iter().chain(places.as_flattened()).flat_map(|word| word.to_be_bytes()).collect()
}

fn record(case: &Case) -> String {
    let mut answer = Answer::default();
    expected(case, &mut answer);
    let [words @ .., count] = answer.words;
    let untouched: Vec<_> = (0..case.places).map(before).collect();
    let line = Line {
        call: case.call as u8,
        data: &case.data,
        window: case.window,
        argument: u64::from(case.function_count),
        before: &bytes(UNWRITTEN, &untouched),
        words,
        after: &bytes(count, &answer.places),
    };
    line.text()
}

/// Prints so many records, always the same ones, and then those of words that say no stream.
pub fn print(wanted: usize) {
    walks(wanted);
    for case in NO_STREAM {
        println!("{}", refused(case));
    }
}

fn walks(wanted: usize) {
    let mut random = Random::new(SEED);
    let apart = APART.map(|(call, data, window, count, places)| Case::new(call, data, window, count, places));
    let drawn = (0..).map(|round| random_case(&mut random, round)).filter(|case| case.data.len() <= LONGEST_DATA);
    let mut printed = HashSet::new();
    let mut out = std::io::stdout().lock();
    for case in apart.into_iter().chain(drawn) {
        if printed.len() >= wanted {
            return;
        }
        let line = record(&case);
        if printed.insert(line.clone()) && writeln!(out, "{line}").is_err() {
            return;
        }
    }
}
