// The inputs on which the record walks are compared, in the order in which they come.

use super::Call::*;
use super::expected::expected;
use super::{Answer, Call, Case, streams};
use crate::compare::Comparing;
use crate::lent::LONGEST_COPIED;
use crate::random::Random;
use crate::share::Share;
use crate::window;

const COUNTS: [u32; 12] = [1, 2, 3, 4, 5, 8, 9, 255, 256, 1 << 31, (1 << 31) + 1, u32::MAX];

pub struct Inputs {
    comparing: Comparing<Case>,
    random: Random,
    case: Case,
    share: Share,
    long: bool,
}

impl Inputs {
    pub fn new(seed: u64, share: u64, long: bool) -> Self {
        let case = Case::new(RepLayout, &[], [0; 3], 0, 0);
        Self { comparing: Comparing::new(), random: Random::new(seed), case, share: Share::new(share, seed), long }
    }

    fn stages(&mut self) {
        self.every_window();
        self.at_offsets();
        self.drawn();
        self.damaged_windows();
        self.too_long();
    }

    pub fn run(mut self) {
        self.stages();
        self.comparing.summary();
    }

    pub fn assert_met(mut self) {
        self.comparing.be_quiet();
        self.stages();
        self.comparing.assert_met();
    }

    fn check(&mut self, call: Call, function_count: u32, places: usize) {
        self.case.call = call;
        self.case.function_count = function_count;
        self.case.places = places;
        self.comparing.compared(&self.case);
    }

    /// Every call, the class net cache's with each of some function counts.
    fn check_calls(&mut self, counts: &[u32], places: usize) {
        for call in [RepLayout, RepLayoutContentBlock] {
            self.check(call, 0, places);
        }
        for &count in counts {
            self.check(ClassNetCache, count, places);
        }
    }

    /// All data of up to 19 bits, with a list for all its records, which are at most two, and with a list of 0 or 1 places.
    fn every_window(&mut self) {
        self.comparing.stage("all windows up to 19 bits");
        for bits in 0..=19usize {
            for word in self.share.among(0..1u32 << bits) {
                self.case.data.clear();
                self.case.data.extend_from_slice(&word.to_le_bytes()[..bits.div_ceil(8)]);
                self.case.window = [0, 0, bits as u64];
                self.check_calls(&COUNTS, 3);
                self.check_calls(&COUNTS, word.count_ones() as usize % 2);
            }
        }
        self.check_calls(&[0], 1);
    }

    /// All windows up to a number of bits, at a start and a position, with other bits around them.
    fn at_offsets(&mut self) {
        self.comparing.stage("windows at an offset");
        let most = if self.long { 19 } else { 14 };
        for start in [0, 1, 3, 7, 8, 13] {
            for position in [0, 1, 5, 9] {
                for bits in 0..=most {
                    for word in self.share.among(0..1u64 << bits) {
                        let before = start + position;
                        let kept = ((1 << bits) - 1) << before;
                        let around = self.random.next() & !kept;
                        self.case.data.clear();
                        self.case.data.extend_from_slice(&(around | word << before).to_le_bytes());
                        self.case.window = [start, position, position + bits];
                        let count = self.random.one_of(&COUNTS);
                        self.check_calls(&[count], 2);
                        let places = self.random.below(2) as usize;
                        self.check_calls(&[2, count], places);
                    }
                }
            }
        }
    }

    fn function_count(&mut self) -> u32 {
        match self.random.below(4) {
            0 => self.random.one_of(&COUNTS),
            1 => 1 + self.random.below(1 << 31) as u32,
            _ => 1 + self.random.below(300) as u32,
        }
    }

    /// Streams of records, half of them damaged; lists that are longer, exact, one too short, and empty.
    fn drawn(&mut self) {
        self.comparing.stage("streams of records");
        let mut answer = Answer::default();
        let rounds = if self.long { 20_000_000 } else { 1_000_000 };
        for round in 0..self.share.of(rounds) as usize {
            let call = [RepLayout, RepLayoutContentBlock, ClassNetCache][round % 3];
            let count = if call == ClassNetCache { self.function_count() } else { 0 };
            let records = if round % 97 == 0 { 60 } else { self.random.below(8) };
            let (data, window) = streams::stream(&mut self.random, call, count, records);
            (self.case.data, self.case.window) = (data, window);
            if self.random.below(2) == 0 {
                streams::damage(&mut self.random, &mut self.case.data, &mut self.case.window);
            }
            self.case.call = call;
            self.case.function_count = count;
            // Enough for all, since each record takes at least nine bits.
            self.case.places = 1 + self.case.data.len();
            expected(&self.case, &mut answer);
            let found = answer.words[7] as usize;
            for places in [found + 2, found, found.saturating_sub(1), self.random.upto(found as u64) as usize] {
                self.check(call, count, places);
            }
        }
    }

    /// Any number in start, position and length; a function count of 0 beside them.
    fn damaged_windows(&mut self) {
        self.comparing.stage("damaged windows");
        for n in [0, 1, 2, 7, 8, 9, 16] {
            let numbers = window::edges(8 * n);
            for &start in &numbers {
                for &position in &numbers {
                    for &length in &numbers {
                        self.refill(n as usize);
                        self.case.window = [start, position, length];
                        self.check_calls(&[0, 1, 3, u32::MAX], 2);
                    }
                }
            }
        }
        let rounds = if self.long { 4_000_000 } else { 400_000 };
        for round in 0..self.share.of(rounds) as usize {
            let n = round % 40;
            self.refill(n);
            self.case.window = window::drawn(&mut self.random, 8 * n as u64);
            let places = self.random.below(5) as usize;
            let count = self.function_count();
            self.check_calls(&[0, count], places);
        }
    }

    fn refill(&mut self, n: usize) {
        self.case.data.resize(n, 0);
        self.random.fill(&mut self.case.data);
    }

    /// One byte above the longest data, and the longest data itself walked at its end.
    fn too_long(&mut self) {
        self.comparing.stage("the longest data, and one byte more");
        let most = window::MOST_BYTES as usize;
        let mut end = [0; 300];
        self.random.fill(&mut end);
        self.case.data = vec![0; most + 1];
        self.case.data[most - 299..].copy_from_slice(&end);
        let bits = 8 * window::MOST_BYTES;
        for m in [most + 1, most] {
            self.case.data.truncate(m);
            for before in [0, 1, 8, 9, 17, 65, 2000] {
                for window in [
                    [bits - before, 0, before],
                    [bits - before, 0, before + 1],
                    [0, bits - before, bits],
                    [3, bits - 3 - before, bits - 3],
                    [u64::MAX, 0, 0],
                    [0, 1, 0],
                ] {
                    self.case.window = window;
                    self.check_calls(&[0, 1, 5, 300], 40);
                }
            }
        }
        // Such data is lent without a copy, so whether it was left alone is seen here.
        assert!(self.case.data.len() > LONGEST_COPIED);
        let (zeros, tail) = self.case.data.split_at(most - 299);
        assert!(zeros.iter().all(|&byte| byte == 0) && *tail == end[..299], "the longest data was changed");
    }
}
