// A fixed list of document 01's answers to the writer's calls, bunches in a row into lent packets, one record a line (line.rs).
// The data is the payload, start the channel, position the cursor, length the flags, the argument the count, and what is lent the
// packet. Each closed packet is read by the Rust before it is printed.

use super::expected::expected;
use super::rows::{self, Row};
use super::*;
use crate::line::Line;
use crate::random::Random;
use std::collections::BTreeSet;
use std::io::Write;

const SEED: u64 = 2027;
const LONGEST_PACKET: u64 = 64;

/// The two packets of the log in document 01, in the parts that they are written from.
const APART: [(Header, &[u8], &[u8]); 2] = [
    (Header { ch_index: 3, flags: 0 }, &[0xa5], &[0x30, 0x00, 0x04, 0xa0, 0x34]),
    (Header { ch_index: 0, flags: RELIABLE | PARTIAL | INITIAL | FINAL }, &[], &[0x04, 0xa0, 0x01, 0x00, 0x00, 0x01]),
];

struct Recorded {
    random: Random,
    lines: Vec<String>,
    /// Call and number of each answer.
    met: BTreeSet<(usize, u64)>,
}

impl Recorded {
    fn answered(&mut self, case: &Case) -> Answer {
        let mut answer = Answer::default();
        expected(case, &mut answer);
        let call = if case.bunch.is_some() { WRITE_BUNCH } else { CLOSE_PACKET };
        let Bunch { header, payload, count } = case.bunch.clone().unwrap_or_default();
        let [number, a, b] = answer.words;
        let line = Line {
            call: call as u8,
            data: &payload,
            window: [header.ch_index.into(), case.at, header.flags.into()],
            argument: count,
            before: &case.packet,
            words: [number, a, b, 0, 0, 0, 0],
            after: &answer.packet,
        };
        self.lines.push(line.text());
        self.met.insert((call, number));
        answer
    }

    /// The same call with something that is refused; where the packet has no room besides, the order shows.
    fn refused(&mut self, mut case: Case) {
        let bits = 8 * case.packet.len() as u64;
        let cause = self.random.below(6);
        match &mut case.bunch {
            Some(bunch) if cause == 0 => bunch.count = self.random.one_of(&[16_384, 1 << 32, u64::MAX]),
            Some(bunch) if cause == 1 => bunch.count = 8 * bunch.payload.len() as u64 + 1 + self.random.below(9),
            Some(bunch) if cause == 2 => bunch.header.flags = INITIAL | self.random.one_of(&[0, OPEN, CLOSE, FINAL]),
            Some(bunch) if cause == 3 => {
                bunch.header.flags = self.random.one_of(&[DORMANT, DORMANCY, CLOSE | DORMANCY, CLOSE | DORMANT])
            }
            _ if cause == 4 => case.at = bits - self.random.below(bits.min(2) + 1),
            _ => case.at = bits + self.random.one_of(&[1, 8, 1 << 32, u64::MAX - bits]),
        }
        self.answered(&case);
    }

    /// A row's calls, and before some of them one that is refused.
    fn row(&mut self, row: &Row, refuse: bool) -> Vec<u8> {
        let mut packet = row.packet.clone();
        let written = rows::write(row, &mut packet, |bunch, packet, at| {
            let case = Case { bunch: bunch.cloned(), packet: packet.to_vec(), at };
            if refuse && self.random.below(3) == 0 {
                self.refused(case.clone());
            }
            let answer = self.answered(&case);
            packet.copy_from_slice(&answer.packet);
            answer.words
        });
        packet.truncate(written.bytes);
        let held = row.bunches[..written.held].iter().map(read::written).collect();
        assert!(read::by_the_rust(&packet) == Some(held), "the Rust reads what was written");
        packet
    }
}

/// Prints so many records, always the same ones.
pub fn print(wanted: usize) {
    let mut recorded = Recorded { random: Random::new(SEED), lines: Vec::new(), met: BTreeSet::new() };
    for (header, payload, packet) in APART {
        let bunch = Bunch { header, payload: payload.to_vec(), count: 8 * payload.len() as u64 };
        let row = Row { bunches: vec![bunch], packet: streams::room(&mut recorded.random, 9) };
        assert!(recorded.row(&row, false) == packet, "the packet of document 01");
    }
    while recorded.lines.len() < wanted {
        let size = recorded.random.upto(LONGEST_PACKET) as usize;
        let most = recorded.random.one_of(&[20, 90, 200]);
        let bunches = (0..4).map(|_| streams::bunch(&mut recorded.random, most)).collect();
        let row = Row { bunches, packet: streams::room(&mut recorded.random, size) };
        recorded.row(&row, true);
    }
    let mut all = BTreeSet::from([0, 5, 11, 12, 16, 17].map(|number| (WRITE_BUNCH, number)));
    all.extend([0, 5, 17].map(|number| (CLOSE_PACKET, number)));
    assert!(wanted < 200 || recorded.met == all, "each answer is met");
    let mut out = std::io::stdout().lock();
    for line in recorded.lines {
        if writeln!(out, "{line}").is_err() {
            return;
        }
    }
}
