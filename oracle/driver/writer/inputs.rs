// The inputs on which the writer is compared, in the order in which they come.

use super::expected::header_bits;
use super::rows::Row;
use super::streams::{self, CHANNELS, bunch_of};
use super::*;
use crate::compare::Comparing;
use crate::random::Random;
use crate::share::Share;

const COUNTS: [u64; 20] = [
    127, 128, 129, 255, 256, 257, 1_023, 1_024, 1_025, 4_095, 8_191, 16_319, 16_320, 16_382, 16_383, 16_384, 16_385, 1 << 32,
    1 << 63, u64::MAX,
];

/// Around the most that a packet may have, and what can be lent beyond.
const LONGEST: [usize; 5] = [65_534, 65_535, 65_536, 65_537, 70_000];

pub struct Inputs {
    comparing: Comparing<Case>,
    rows: Comparing<Row>,
    random: Random,
    share: Share,
    long: bool,
    /// How many bunches with each flag were read back, and how many in all.
    flags: [u64; FLAG_NAMES.len()],
    read_back: u64,
}

impl Inputs {
    pub fn new(seed: u64, share: u64, long: bool) -> Self {
        let (comparing, rows, share) = (Comparing::new(), Comparing::new(), Share::new(share, seed));
        Self { comparing, rows, random: Random::new(seed), share, long, flags: Default::default(), read_back: 0 }
    }

    fn calls(&mut self) {
        self.every_header();
        self.every_count();
        self.room_edges();
        self.longest();
        self.refusals();
        self.random_bunches();
        self.closings();
    }

    fn packets(&mut self) {
        self.rows_in("rows into small packets", self.rounds(100_000, 1_000_000), 160);
        self.rows_in("rows into larger packets", self.rounds(3_000, 30_000), 6_000);
        self.rows_in("rows into the longest packets", self.rounds(200, 2_000), 0);
    }

    pub fn run(mut self) {
        self.calls();
        self.comparing.summary();
        self.packets();
        self.rows.summary();
        self.print_read_back();
    }

    pub fn assert_met(mut self) {
        self.comparing.be_quiet();
        self.rows.be_quiet();
        self.calls();
        self.comparing.assert_met();
        self.packets();
        self.rows.assert_met();
        assert!(self.flags.iter().all(|&count| count > 0), "a flag didn't occur");
    }

    fn rounds(&self, short: u64, long: u64) -> u64 {
        self.share.of(if self.long { long } else { short })
    }

    fn check(&mut self, bunch: &Bunch, packet: &[u8], at: u64) {
        self.comparing.compared(&Case { bunch: Some(bunch.clone()), packet: packet.to_vec(), at });
    }

    fn every_header(&mut self) {
        self.comparing.stage("every flag, channels of each length, at each bit");
        for flags in 0..1 << 11 {
            for ch_index in CHANNELS {
                for at in 0..8 {
                    let count = self.random.one_of(&[0, 0, 1, 9, 56, 64, 65]);
                    let bunch = bunch_of(&mut self.random, Header { ch_index, flags }, count, 0);
                    let packet = streams::room(&mut self.random, 22);
                    self.check(&bunch, &packet, at);
                }
            }
        }
    }

    /// Payloads that are as long as their bits need, longer, a byte short, and empty.
    fn every_count(&mut self) {
        self.comparing.stage("every count of payload bits");
        for _ in 0..if self.long { 80 } else { 8 } {
            for count in (0..127).chain(COUNTS) {
                for at in 0..8 {
                    let header = streams::header(&mut self.random);
                    let bytes = count.min(20_000).div_ceil(8);
                    let packet = streams::room(&mut self.random, bytes as usize + 12);
                    for n in [bytes, bytes + 1, bytes.saturating_sub(1), 0] {
                        let mut bunch = bunch_of(&mut self.random, header, 8 * n, 0);
                        bunch.count = count;
                        self.check(&bunch, &packet, at);
                    }
                }
            }
        }
    }

    /// Packets in which the bunch ends some bits before the end, at it, and past it.
    fn room_edges(&mut self) {
        self.comparing.stage("packets that are just large enough, or not");
        for _ in 0..self.rounds(150_000, 2_000_000) {
            let bunch = streams::bunch(&mut self.random, 700);
            let bits = header_bits(bunch.header, bunch.count).count + bunch.count;
            let size = bits.div_ceil(8) + 2 + self.random.below(3);
            let packet = streams::room(&mut self.random, size as usize);
            for at in 8 * size - bits - 9..=8 * size - bits + 2 {
                self.check(&bunch, &packet, at);
            }
        }
    }

    fn longest(&mut self) {
        self.comparing.stage("packets of about 65,535 bytes");
        for size in LONGEST {
            let packet = streams::room(&mut self.random, size);
            let room = 8 * size.min(65_535) as u64;
            for round in 0..if self.long { 1_000 } else { 150 } {
                let bunch = streams::bunch(&mut self.random, if round % 3 == 0 { 16_383 } else { 80 });
                let fits = room - header_bits(bunch.header, bunch.count).count - bunch.count;
                let end = 8 * size as u64;
                let far = [end - 1, end, end + 1, 1 << 32, u64::MAX];
                for at in (fits - 2..fits + 3).chain(room - 1..room + 2).chain(far) {
                    self.check(&bunch, &packet, at);
                }
            }
        }
    }

    /// Each refusal's cause in one input of three, so that their order is seen.
    fn refusals(&mut self) {
        self.comparing.stage("several causes to refuse");
        for _ in 0..self.rounds(1_500_000, 20_000_000) {
            let mut bunch = streams::bunch(&mut self.random, 90);
            let bits = header_bits(bunch.header, bunch.count).count + bunch.count;
            let size = bits / 8 + 2;
            let packet = streams::room(&mut self.random, size as usize);
            let mut at = self.random.upto(8 * size - bits);
            let mut cause = || self.random.below(3) == 0;
            let [past, unwritable, too_long, short, no_room] = std::array::from_fn(|_| cause());
            if no_room {
                at = 8 * size - self.random.below(20);
            }
            if short {
                let n = self.random.below(bunch.payload.len() as u64 + 1);
                bunch.payload.truncate(n as usize);
            }
            if too_long {
                bunch.count = self.random.one_of(&[16_383, 16_384, 1 << 20, 1 << 32 | 9, u64::MAX]);
            }
            if unwritable {
                bunch.header.flags = self.random.below(1 << 11) as u16;
            }
            if past {
                at = 8 * size + self.random.one_of(&[0, 1, 2, 1 << 32, u64::MAX - 8 * size]);
            }
            self.check(&bunch, &packet, at);
        }
    }

    fn random_bunches(&mut self) {
        self.comparing.stage("random bunches");
        for round in 0..self.rounds(1_000_000, 12_000_000) {
            let most = if round % 50 == 0 { 16_383 } else { 300 };
            let bunch = streams::bunch(&mut self.random, most);
            let size = self.random.below(90) + if round % 50 == 0 { 2_048 } else { 0 };
            let packet = streams::room(&mut self.random, size as usize);
            let at = self.random.upto(8 * size + 1);
            self.check(&bunch, &packet, at);
        }
    }

    fn closings(&mut self) {
        self.comparing.stage("closing calls");
        for size in (0..200).chain(LONGEST) {
            let packet = streams::room(&mut self.random, size);
            let (end, most) = (8 * size as u64, 8 * 65_535);
            let all = if size < 200 { 0..end } else { most - 20..end.min(most + 20) };
            for at in all.chain([end, end + 1, end + 9, 1 << 32, u64::MAX]) {
                self.comparing.compared(&Case { bunch: None, packet: packet.clone(), at });
            }
        }
    }

    /// With 0 for the size the lent packet is among the longest.
    fn rows_in(&mut self, stage: &'static str, rounds: u64, size: u64) {
        self.rows.stage(stage);
        for _ in 0..rounds {
            let bytes = if size == 0 { self.random.one_of(&LONGEST) } else { self.random.upto(size) as usize };
            let mut room = 8 * bytes as u64 + 1;
            let most = if size == 160 { 200 } else { 16_383 };
            let mut bunches = Vec::new();
            // A bunch has at least 28 bits, so there are more than fit.
            while room > 0 {
                let bunch = streams::bunch(&mut self.random, most);
                room = room.saturating_sub(28 + bunch.count);
                bunches.push(bunch);
            }
            let row = Row { bunches, packet: streams::room(&mut self.random, bytes) };
            let read = &self.rows.compared(&row).read[0];
            for bunch in read.iter().flatten() {
                self.read_back += 1;
                for (index, count) in self.flags.iter_mut().enumerate() {
                    *count += u64::from(bunch.header.has(1 << index));
                }
            }
        }
    }

    fn print_read_back(&self) {
        let list: Vec<_> = FLAG_NAMES.iter().zip(self.flags).map(|(name, count)| format!("{name} {count}")).collect();
        println!("bunches read back {}: {}", self.read_back, list.join(", "));
    }
}
