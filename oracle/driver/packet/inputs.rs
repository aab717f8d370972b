// The inputs on which the packet reader is compared, in the order in which they come.

use super::Call::*;
use super::expected::{bunch_words, data_bits};
use super::met::Met;
use super::{Answer, BUNCH, Case, streams, tables};
use crate::compare::Comparing;
use crate::random::Random;
use crate::share::Share;
use std::collections::BTreeSet;
use vrf_net::packet::RawPacketReader;

const LIMITS: [usize; 5] = [0, 1, 2, 3, 16];

/// Sequences on either side of what the Rust tests.
const SEQUENCES: [u32; 8] = [0, 1, i32::MAX as u32 - 1, i32::MAX as u32, 1 << 31, (1 << 31) + 1, u32::MAX - 1, u32::MAX];

pub struct Inputs {
    comparing: Comparing<Case>,
    random: Random,
    met: Met,
    share: Share,
    long: bool,
}

impl Inputs {
    pub fn new(seed: u64, share: u64, long: bool) -> Self {
        let (comparing, share) = (Comparing::new(), Share::new(share, seed));
        Self { comparing, random: Random::new(seed), met: Met::default(), share, long }
    }

    fn stages(&mut self) {
        self.openings();
        self.every_packet();
        self.logs();
        self.full_logs();
        self.every_cursor();
        self.unsound();
        self.longest();
        self.dense_logs();
    }

    pub fn run(mut self) {
        self.stages();
        self.comparing.summary();
        self.met.print();
    }

    pub fn assert_met(mut self) {
        self.comparing.be_quiet();
        self.stages();
        self.comparing.assert_met();
        self.met.assert();
    }

    fn rounds(&self, short: u64, long: u64) -> u64 {
        self.share.of(if self.long { long } else { short })
    }

    fn check(&mut self, case: &Case) -> &Answer {
        let answer = self.comparing.compared(case);
        self.met.count(case, answer);
        answer
    }

    fn openings(&mut self) {
        self.comparing.stage("openings");
        for limit in [0, 1, 2, 16, 4095, 4096, 4097, usize::MAX] {
            for short in 0..6 {
                for places in [0, 1, 2, 15, 16, 4096, 4097] {
                    let most = std::array::from_fn(|column| if column == short { places } else { 4100 });
                    let columns = tables::untouched(most);
                    self.check(&Case { call: WithMaxChannels, columns, ..Case::new(limit, 0) });
                }
            }
        }
    }

    /// Reads a packet to its end, bunch after bunch, and holds the whole to one call of the Rust. The case is then as the last
    /// bunch left it.
    fn read(&mut self, case: &mut Case, whole: &mut RawPacketReader) {
        let mut expected = Vec::new();
        let result = whole.read_packet(&case.packet, case.id, |header, payload| {
            expected.push(bunch_words(header, &payload, 0));
        });
        let counts = [result.bunch_count, result.is_malformed.into(), result.partial_error_count, result.channel_limit_count];
        let mut rises = [0; 4];
        let mut bunches = expected.iter();
        case.at = 0;
        loop {
            let Answer { words, columns, .. } = self.check(case);
            for (sum, rise) in rises.iter_mut().zip(&words[5..9]) {
                *sum += rise;
            }
            if words[3] == BUNCH {
                assert!(bunches.next().map(|bunch| bunch.as_slice()) == Some(&words[11..]), "a bunch of the whole packet");
            }
            case.columns.clone_from(columns);
            case.live = [words[9] as usize, words[10] as usize];
            case.at = words[4];
            if words[3] != BUNCH {
                break;
            }
        }
        assert!(bunches.next().is_none() && rises == counts.map(u64::from), "the whole packet's bunches and counts");
        let mut left = case.columns.clone();
        let live = tables::lay(whole, None, case.live[1], &mut left);
        assert!(live == case.live && left == case.columns, "the whole packet's tables");
    }

    /// Channels with any sequence, and any word where a fragment is reliable, in both tables.
    fn filled(&mut self, limit: usize, places: usize, channels: &[u32]) -> Case {
        let mut case = Case::new(limit, places);
        for table in [0, 1] {
            let wanted = self.random.upto(limit.min(channels.len()) as u64) as usize;
            let held: BTreeSet<u32> = (0..wanted).map(|_| self.random.one_of(channels)).collect();
            for (index, channel) in held.iter().enumerate() {
                case.columns[2 * table][index] = *channel;
                case.columns[2 * table + 1][index] =
                    if self.random.below(2) == 0 { self.random.one_of(&SEQUENCES) } else { self.random.below(9) as u32 };
                if table == 1 {
                    case.columns[4][index] = self.random.one_of(&[0, 0, 1, 1, 2, 1 << 31, u32::MAX]);
                }
            }
            case.live[table] = held.len();
        }
        case
    }

    fn every_packet(&mut self) {
        self.comparing.stage("all packets up to 2 bytes");
        let states: Vec<_> =
            [0, 1, 2, 3, 16].into_iter().map(|limit| self.filled(limit, limit + 1, &[0, 1, 2, 3, 63, 64, 127])).collect();
        for n in 0..=2 {
            for word in self.share.among(0..1u32 << (8 * n)) {
                for state in &states {
                    let packet = word.to_le_bytes()[..n].to_vec();
                    let mut case = Case { packet, id: word as i32 - 9, ..state.clone() };
                    let mut whole = tables::reader(&case);
                    self.read(&mut case, &mut whole);
                }
            }
        }
    }

    /// Packets in a row on one reader, some damaged, with ids that mostly rise by 1.
    fn log(&mut self, case: &mut Case, channels: &[u32], packets: u64, bunches: u64) {
        let mut whole = tables::reader(case);
        let any = self.random.next() as i32;
        case.id = self.random.one_of(&[0, 1, -3, i32::MAX - 2, i32::MIN, any]);
        for _ in 0..packets {
            let count = self.random.upto(bunches);
            case.packet = streams::packet(&mut self.random, channels, count);
            if self.random.below(4) == 0 {
                streams::damage(&mut self.random, &mut case.packet);
            }
            self.read(case, &mut whole);
            case.id = if self.random.below(8) == 0 { self.random.next() as i32 } else { case.id.wrapping_add(1) };
        }
    }

    fn logs(&mut self) {
        self.comparing.stage("logs");
        for round in 0..self.rounds(60_000, 800_000) {
            let limit = LIMITS[round as usize % LIMITS.len()];
            let count = 1 + self.random.below(12);
            let channels = streams::channels(&mut self.random, count);
            let places = limit + self.random.below(3) as usize;
            let mut case = if round % 3 == 0 { Case::new(limit, places) } else { self.filled(limit, places, &channels) };
            self.log(&mut case, &channels, 8, 8);
        }
    }

    /// Both tables with these channels, by ascending number.
    fn holding(&mut self, limit: usize, places: usize, held: &[u32]) -> Case {
        let mut case = Case::new(limit, places);
        for (column, of) in case.columns.iter_mut().enumerate() {
            if column == 0 || column == 2 {
                of[..held.len()].copy_from_slice(held);
            } else {
                of[..held.len()].fill_with(|| self.random.one_of(&SEQUENCES));
            }
        }
        case.live = [held.len(); 2];
        case
    }

    /// Tables of 4,096 channels, full or nearly.
    fn full_logs(&mut self) {
        self.comparing.stage("logs on large tables");
        for round in 0..self.rounds(120, 2_000) {
            let mut channels: Vec<u32> = (0..4097).map(|index| 7 * index + 3).collect();
            channels.extend(streams::ENDS);
            let live = 4096 - self.random.below(3) as usize;
            let held: Vec<u32> = BTreeSet::from_iter(channels.iter().copied()).into_iter().take(live).collect();
            let mut case = self.holding(4096, 4096 + round as usize % 2, &held);
            self.log(&mut case, &channels, 2, 6);
        }
    }

    /// Tables that leave few numbers free up to their last channel, on both sides of where a channel is found without a step.
    fn dense_logs(&mut self) {
        self.comparing.stage("logs on tables with few free numbers");
        for round in 0..self.rounds(12_000, 200_000) {
            let live = 28 + self.random.below(if round % 40 == 0 { 4_000 } else { 90 }) as usize;
            let numbers = live as u64 + self.random.below(14);
            let mut held: BTreeSet<u32> = (0..numbers as u32).collect();
            while held.len() > live {
                held.remove(&(self.random.below(numbers) as u32));
            }
            let mut case = self.holding(live + 2, live + 2, &Vec::from_iter(held));
            let channels: Vec<u32> = (0..12).map(|_| self.random.below(numbers + 3) as u32).collect();
            self.log(&mut case, &channels, 2, 6);
        }
    }

    /// Every cursor of a packet, and some past its end.
    fn every_cursor(&mut self) {
        self.comparing.stage("every cursor");
        for round in 0..self.rounds(3_000, 60_000) {
            let channels = streams::channels(&mut self.random, 6);
            let mut case = self.filled(LIMITS[round as usize % LIMITS.len()], 20, &channels);
            let bunches = self.random.below(6);
            case.packet = streams::packet(&mut self.random, &channels, bunches);
            if round % 3 == 0 {
                streams::damage(&mut self.random, &mut case.packet);
            }
            case.id = self.random.next() as i32;
            let bits = data_bits(&case.packet);
            for at in (0..=bits + 9).chain([1 << 19, 1 << 32, u64::MAX]) {
                case.at = at;
                self.check(&case);
            }
        }
    }

    /// Tables that no call leaves, beside packets that are too long and cursors past the end, so that the order of tests is seen.
    fn unsound(&mut self) {
        self.comparing.stage("tables that aren't sound");
        for round in 0..self.rounds(150_000, 3_000_000) {
            let channels = streams::channels(&mut self.random, 9);
            let mut case = self.filled(LIMITS[1 + round as usize % 4], 17, &channels);
            case.packet = streams::packet(&mut self.random, &channels, 2);
            self.spoil(&mut case);
            if round % 2000 == 0 {
                case.packet.resize(65_536, 1);
            }
            if round % 7 == 0 {
                case.at = self.random.one_of(&[1, 200, 1 << 20, u64::MAX]);
            }
            self.check(&case);
        }
    }

    fn spoil(&mut self, case: &mut Case) {
        let table = self.random.below(2) as usize;
        let live = case.live[table];
        match self.random.below(6) {
            0 if live > 1 => {
                let index = self.random.below(live as u64 - 1) as usize;
                case.columns[2 * table].swap(index, index + 1);
            }
            1 if live > 1 => {
                let index = self.random.below(live as u64 - 1) as usize;
                case.columns[2 * table][index + 1] = case.columns[2 * table][index];
            }
            2 => case.live[table] = case.limit + 1 + self.random.below(3) as usize,
            3 => case.live[table] = self.random.next() as usize,
            4 => {
                let column = self.random.below(5) as usize;
                let short = self.random.upto(case.limit as u64) as usize;
                case.columns[column].truncate(short);
            }
            5 => case.limit = self.random.one_of(&[4097, 18, usize::MAX, case.limit]),
            _ => {}
        }
    }

    /// Packets of 65,535 and 65,536 bytes, at cursors near both ends.
    fn longest(&mut self) {
        self.comparing.stage("the longest packet, and one byte more");
        let channels = streams::channels(&mut self.random, 5);
        for n in [65_534, 65_535, 65_536, 65_537, 70_000] {
            for round in 0..if self.long { 20 } else { 6 } {
                let mut case = self.filled(16, 16, &channels);
                case.packet = streams::packet(&mut self.random, &channels, 30);
                case.packet.resize(n, 0);
                let end = streams::packet(&mut self.random, &channels, 2);
                case.packet[n - end.len()..].copy_from_slice(&end);
                let bits = data_bits(&case.packet);
                let start = 8 * (n - end.len()) as u64;
                for at in (0..40).chain(start - 3..start + 20).chain(bits - 20..bits + 3) {
                    case.at = at;
                    self.check(&case);
                }
                if round == 0 {
                    case.packet[n - 1] = 0;
                    case.at = 0;
                    self.check(&case);
                }
            }
        }
    }
}
