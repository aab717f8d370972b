// A fixed list of the Rust's answers to reading calls, packets in a row on one reader's tables, one record a line (line.rs). Start
// is the packet id's word, position the cursor, length the limit, the argument the live places, 256 times those of the partial
// tracker and those of the sequences. What is lent is words 7 to 33 of the answer and the five columns, as big-endian words of 32
// bits.

use super::expected::expected;
use super::tables::Columns;
use super::{Answer, BUNCH, Call, Case, streams};
use crate::line::Line;
use crate::random::Random;
use std::collections::HashSet;
use std::io::Write;

const SEED: u64 = 2026;
const LONGEST_PACKET: usize = 60;
const PLACES: usize = 5;

/// Desk checks of document 01, and packets that are easily got wrong.
const APART: [&[u8]; 12] = [
    // empty, without an end mark, with nothing before it
    &[],
    &[0x00],
    &[0xff, 0x00],
    &[0x01],
    &[0x80],
    // the two packets of the log in document 01
    &[0x30, 0x00, 0x04, 0xa0, 0x34],
    &[0x04, 0xa0, 0x01, 0x00, 0x00, 0x01],
    // the second again, with an end mark one bit later: a header of one bit doesn't read
    &[0x04, 0xa0, 0x01, 0x00, 0x00, 0x02],
    // a reliable bunch whose payload overruns, and one that closes after it
    &[0x04, 0x00, 0x00, 0x80, 0x01],
    &[0x2d, 0x00, 0x00, 0x00, 0x00, 0x10],
    // a channel in five packed bytes, and in five that go on
    &[0xfc, 0xff, 0xff, 0xff, 0x1f, 0x00, 0x00, 0x00, 0x00, 0x01],
    &[0xff, 0xff, 0xff, 0xff, 0xff, 0xff, 0xff, 0xff],
];

fn bytes(words: &[u64], columns: &Columns) -> Vec<u8> {
    let narrow = words.iter().map(|&word| u32::try_from(word).expect("no such word in a list"));
    narrow.chain(columns.iter().flatten().copied()).flat_map(u32::to_be_bytes).collect()
}

fn record(case: &Case, answer: &Answer) -> String {
    let line = Line {
        call: Call::ReadBunch as u8,
        data: &case.packet,
        window: [u64::from(case.id as u32), case.at, case.limit as u64],
        argument: (case.live[0] + 256 * case.live[1]) as u64,
        before: &bytes(&[0xa5a5_a5a5; 27], &case.columns),
        words: *answer.words.first_chunk().expect("34 words"),
        after: &bytes(&answer.words[7..], &answer.columns),
    };
    line.text()
}

/// The answers to a packet's bunches, its end included; sometimes the first at a cursor or with tables that are refused.
fn read(random: &mut Random, case: &mut Case, lines: &mut Vec<String>) {
    let mut answer = Answer::default();
    if random.below(6) == 0 {
        let mut refused = case.clone();
        match random.below(4) {
            0 => refused.at = 8 * refused.packet.len() as u64 + random.below(9),
            1 => refused.live[random.below(2) as usize] = refused.limit + 1,
            2 => refused.columns[0].fill(7),
            _ => refused.limit = PLACES + 1,
        }
        expected(&refused, &mut answer);
        lines.push(record(&refused, &answer));
    }
    case.at = 0;
    loop {
        expected(case, &mut answer);
        lines.push(record(case, &answer));
        case.columns.clone_from(&answer.columns);
        case.live = [answer.words[9] as usize, answer.words[10] as usize];
        case.at = answer.words[4];
        if answer.words[3] != BUNCH {
            case.id = case.id.wrapping_add(1);
            return;
        }
    }
}

/// Prints so many records, always the same ones.
pub fn print(wanted: usize) {
    let mut random = Random::new(SEED);
    let mut lines = Vec::new();
    let mut case = Case { id: 7, ..Case::new(3, PLACES) };
    for packet in APART {
        case.packet = packet.to_vec();
        read(&mut random, &mut case, &mut lines);
    }
    while lines.len() < wanted {
        let limit = random.below(PLACES as u64 + 1) as usize;
        let channels = streams::channels(&mut random, 6);
        case = Case { id: random.one_of(&[0, -2, i32::MAX - 1, 900]), ..Case::new(limit, PLACES) };
        for _ in 0..6 {
            let bunches = random.below(4);
            case.packet = streams::packet(&mut random, &channels, bunches);
            if random.below(5) == 0 {
                streams::damage(&mut random, &mut case.packet);
            }
            if case.packet.len() <= LONGEST_PACKET {
                read(&mut random, &mut case, &mut lines);
            }
        }
    }
    let mut printed = HashSet::new();
    let mut out = std::io::stdout().lock();
    for line in lines {
        if printed.len() < wanted && printed.insert(line.clone()) && writeln!(out, "{line}").is_err() {
            return;
        }
    }
}
