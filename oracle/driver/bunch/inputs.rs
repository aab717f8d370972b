// The inputs on which the accumulator is compared, in the order in which they come.

use super::desk::{CHECKS, Check};
use super::expected::said;
use super::memory::{self, MOST_BITS, Memory};
use super::met::Met;
use super::shuffles::Shuffles;
use super::spoil::spoil;
use super::{Answer, Call, Case, streams};
use crate::compare::Comparing;
use crate::packet::streams::{ENDS, channels};
use crate::random::Random;
use crate::share::Share;
use std::collections::BTreeSet;

pub struct Inputs {
    comparing: Comparing<Case>,
    random: Random,
    met: Met,
    share: Share,
    long: bool,
    /// Of the changed states, how many were sound and how many weren't.
    changed: [u64; 2],
    /// Of the shuffles under limits that are too small, how many gave something else.
    narrow: [u64; 2],
}

impl Inputs {
    pub fn new(seed: u64, share: u64, long: bool) -> Self {
        let (comparing, share) = (Comparing::new(), Share::new(share, seed));
        Self { comparing, random: Random::new(seed), met: Met::default(), share, long, changed: [0; 2], narrow: [0; 2] }
    }

    fn stages(&mut self) {
        self.desk_checks();
        self.openings();
        self.scripts();
        self.long_scripts();
        self.full_tables();
        self.changed_states();
        self.several_causes();
        self.shuffles();
    }

    pub fn run(mut self) {
        self.stages();
        self.largest();
        self.comparing.summary();
        self.met.print();
        let [sound, unsound] = self.changed;
        println!("changed states: {sound} still sound, {unsound} not");
    }

    pub fn assert_met(mut self) {
        self.comparing.be_quiet();
        self.stages();
        self.comparing.assert_met();
        self.met.assert();
        assert!(self.changed.iter().all(|&count| count > 0), "changed states, some sound and some not");
        assert!(self.narrow.iter().all(|&count| count > 0), "the limits of demand 3 are needed");
    }

    fn rounds(&self, short: u64, long: u64) -> u64 {
        self.share.of(if self.long { long } else { short })
    }

    fn check(&mut self, case: &Case) -> &Answer {
        let answer = self.comparing.compared(case);
        self.met.count(case, answer);
        answer
    }

    fn desk_checks(&mut self) {
        self.comparing.stage("document 01's desk checks");
        for check in CHECKS {
            let mut case = Check::opened();
            for index in 0..2 {
                check.next(index, &mut case);
                let answer = self.check(&case).clone();
                case.go_on(&answer);
                if index == 1 {
                    check.hold(&answer.words);
                    self.comparing.say(&format!("desk check: {}", check.name));
                }
            }
        }
    }

    fn openings(&mut self) {
        self.comparing.stage("openings");
        for active in [0, 1, 2, 4095, 4096, 4097, usize::MAX] {
            for buffered in [0, 1, 7, 8, 9, 63, 20_000, MOST_BITS, MOST_BITS + 1, u64::MAX] {
                let table = active.min(4097);
                let arena = memory::smallest_arena(table, buffered.min(20_000));
                for (channels, places, bytes) in [(0, 0, 0), (1, 1, 1), (1, 0, 0), (0, 1, 0), (0, 0, 1)] {
                    let sizes = [table + 1 - channels, table + 1 - places, arena + 1 - bytes];
                    self.check(&Case::new(active, buffered, sizes));
                    let sizes = [table.saturating_sub(channels), table.saturating_sub(places), arena.saturating_sub(bytes)];
                    self.check(&Case::new(active, buffered, sizes));
                }
            }
        }
    }

    /// Calls in a row on one memory, beside one accumulator of the Rust that goes through all of them.
    fn script(&mut self, case: &mut Case, channels: &[u32], calls: u64) {
        let mut whole = memory::accumulator(case);
        for _ in 0..calls {
            streams::draw(&mut self.random, channels, case);
            let answer = self.check(case);
            if answer.words[0] == 0 {
                let said = said(&mut whole, case);
                let as_told = answer.words[4..].starts_with(&said.words) && answer.output.starts_with(&said.bytes);
                assert!(as_told, "what the Rust says in the middle of the script");
            }
            case.go_on(answer);
        }
        assert!(memory::same(&whole, &memory::accumulator(case)), "what the Rust holds at the script's end");
    }

    fn opened(&mut self, active: u64, buffered: u64) -> Case {
        let case = streams::opening(&mut self.random, active, buffered);
        self.check(&case);
        case
    }

    fn scripts(&mut self) {
        self.comparing.stage("scripts");
        for _ in 0..self.rounds(60_000, 1_000_000) {
            let buffered = streams::small_limit(&mut self.random);
            let mut case = self.opened(5, buffered);
            let count = 1 + self.random.below(7);
            let channels = channels(&mut self.random, count);
            self.script(&mut case, &channels, 80);
        }
    }

    /// So long that each place and byte is vacated and used again many times; and payloads of every length.
    fn long_scripts(&mut self) {
        self.comparing.stage("long scripts");
        for round in 0..self.rounds(800, 15_000) {
            let buffered = self.random.one_of(&[100, 400, 2_000, 20_000, 70_000]);
            let mut case = self.opened(5 + 20 * (round % 2), buffered);
            let count = 3 + self.random.below(30);
            let channels = channels(&mut self.random, count);
            self.script(&mut case, &channels, 2_000);
        }
    }

    /// Tables of 4,096 messages, full or nearly.
    fn full_tables(&mut self) {
        self.comparing.stage("scripts on large tables");
        for round in 0..self.rounds(20, 300) {
            let mut named: Vec<u32> = (0..4097).map(|index| 7 * index + 3).collect();
            named.extend(ENDS);
            let buffered = 40_000 + self.random.below(9);
            let sizes = [4096, 4096 + round as usize % 2, memory::smallest_arena(4096, buffered)];
            let mut case = Case::new(4096, buffered, sizes);
            let live = 4096 - self.random.below(3) as usize;
            let held: Vec<u32> = BTreeSet::from_iter(named.iter().copied()).into_iter().take(live).collect();
            self.fill(&mut case, &held);
            self.script(&mut case, &named, 60);
        }
    }

    /// A message of up to two bytes for each channel.
    fn fill(&mut self, case: &mut Case, held: &[u32]) {
        let Memory { channels, places, arena } = &mut case.memory;
        let mut at = 0;
        for (index, channel) in held.iter().enumerate() {
            let finished = self.random.below(2);
            let bits = if finished == 1 { self.random.below(9) } else { 8 * self.random.below(2) };
            channels[index] = *channel;
            places[index] = [0; 24];
            places[index][..4].copy_from_slice(&[bits, finished, self.random.below(2), self.random.below(9)]);
            if bits > 0 {
                arena[at] = (self.random.next() & ((1 << bits) - 1)) as u8;
                at += 1;
            }
            case.accumulator.total += bits;
        }
        case.accumulator.active = held.len();
    }

    /// States that calls have left, then changed at random or where the rules look: by document 01 sound or not.
    fn changed_states(&mut self) {
        self.comparing.stage("changed states");
        for _ in 0..self.rounds(50_000, 1_000_000) {
            let buffered = 24 + streams::small_limit(&mut self.random);
            let mut case = self.opened(5, buffered);
            let channels = channels(&mut self.random, 6);
            self.script(&mut case, &channels, 12);
            for _ in 0..16 {
                let mut other = case.clone();
                streams::draw(&mut self.random, &channels, &mut other);
                spoil(&mut self.random, &mut other);
                if self.random.below(8) == 0 {
                    spoil(&mut self.random, &mut other);
                }
                self.changed[usize::from(!memory::sound(&other))] += 1;
                self.check(&other);
            }
        }
    }

    /// Each refusal's cause in one call of three, so that their order is seen.
    fn several_causes(&mut self) {
        self.comparing.stage("several causes to refuse");
        for _ in 0..self.rounds(28_000, 500_000) {
            let mut case = self.opened(4, 300);
            let channels = channels(&mut self.random, 3);
            self.script(&mut case, &channels, 8);
            for _ in 0..16 {
                let mut other = case.clone();
                streams::draw(&mut self.random, &channels, &mut other);
                let mut cause = || self.random.below(3) == 0;
                let [unsound, too_long, short, no_output, no_list] = std::array::from_fn(|_| cause());
                if short {
                    other.payload.pop();
                }
                if too_long {
                    other.bits = self.random.one_of(&[16_383, 16_384, 1 << 20, 1 << 32 | 9, u64::MAX]);
                }
                if no_output {
                    other.output.clear();
                }
                if no_list {
                    other.list.pop();
                }
                if unsound {
                    spoil(&mut self.random, &mut other);
                }
                self.check(&other);
            }
        }
    }

    /// The largest limits, in the smallest memory for them and in one byte or place less.
    fn largest(&mut self) {
        self.comparing.stage("the largest limits");
        let arena = memory::smallest_arena(4096, MOST_BITS);
        for (short, table) in [(0, 0), (1, 0), (0, 1)] {
            let mut case = Case::new(4096, MOST_BITS, [4096, 4096 - table, arena - short]);
            self.check(&case);
            for _ in 0..2 {
                case.ch_index = self.random.next() as u32;
                case.call = Call::AddFragment;
                case.header = [0; 20];
                case.header[crate::header::INITIAL] = 1;
                case.bits = 16_376;
                streams::payload(&mut self.random, &mut case);
                streams::lend(&mut case, 0, 0);
                let answer = self.check(&case).clone();
                case.go_on(&answer);
            }
        }
    }

    /// Demand 3.
    fn shuffles(&mut self) {
        self.comparing.stage("demand 3's shuffles");
        let rounds = self.rounds(30_000, 500_000);
        let mut shuffles = Shuffles::new(&mut self.comparing, &mut self.random);
        for _ in 0..rounds {
            shuffles.round();
        }
        self.narrow = shuffles.print();
    }
}
