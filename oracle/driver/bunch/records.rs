// A fixed list of the Rust's answers to the accumulator's calls, scripts in a row on lent memory, one record a line (line.rs).
//
// Start is the channel, position the payload's bits, length 2^32 times the most places that may count and the most bits, the
// argument 2^32 times the places that count and their bits. The seven words are the answer's first (5 or 6 of them where it has no
// more, then zeros).
//
// The data is five bytes, the payload, the header's words if it is an add, and the answer's words from the eighth to its last one
// that isn't 0. The five bytes are how many bytes the payload has, places the table (as many channels), bytes the arena and the
// output, and places the list of a drain. What is lent is the channels, the places, the list, the arena and the output, in this
// order. All words but the seven are of 16 bits, big-endian; one from 0x8000 on stands for itself and 0x7fff4000, so that
// sequences around 2^31 can be in the list.

use super::desk::{CHECKS, Check};
use super::expected::expected;
use super::memory::Memory;
use super::{Accumulator, Answer, Call, Case, Listed, streams};
use crate::line::Line;
use crate::random::Random;
use std::collections::BTreeSet;
use std::io::Write;

const SEED: u64 = 2028;

/// Lent memory of more bytes has no room in a line.
const MOST_LENT: usize = 255;

/// From here on a word stands for one around 2^31.
const HIGH: u64 = 0x8000;
const RAISED: u64 = 0x7fff_4000;

/// None where a word has no 16 bits that stand for it.
fn pair(word: u64) -> Option<[u8; 2]> {
    let short = if word < HIGH { word } else { word.checked_sub(RAISED).filter(|&short| short >= HIGH)? };
    Some(u16::try_from(short).ok()?.to_be_bytes())
}

fn pairs(words: impl IntoIterator<Item = u64>) -> Option<Vec<u8>> {
    let pairs: Option<Vec<_>> = words.into_iter().map(pair).collect();
    Some(pairs?.concat())
}

fn lent(Memory { channels, places, arena }: &Memory, list: &[Listed], output: &[u8]) -> Option<Vec<u8>> {
    let words = channels.iter().map(|&channel| channel.into()).chain(places.iter().flatten().copied());
    let mut bytes = pairs(words.chain(list.iter().flatten().copied()))?;
    bytes.extend_from_slice(arena);
    bytes.extend_from_slice(output);
    Some(bytes).filter(|bytes| bytes.len() <= MOST_LENT)
}

fn both(count: usize, bits: u64) -> Option<u64> {
    Some(u64::from(u32::try_from(count).ok()?) << 32 | u64::from(u32::try_from(bits).ok()?))
}

/// None where the call doesn't go into a line.
fn record(case: &Case, answer: &Answer) -> Option<String> {
    let Accumulator { max_active, max_buffered_bits, active, total } = case.accumulator;
    let mut words = answer.words.clone();
    words.resize(words.len().max(7), 0);
    let rest = &words[7..];
    let last = rest.iter().rposition(|&word| word != 0).map_or(0, |last| last + 1);
    let places = case.memory.places.len();
    let sizes = [case.payload.len(), places, case.memory.arena.len(), case.output.len(), case.list.len()];
    let mut data: Vec<u8> = sizes.iter().map(|&size| u8::try_from(size).ok()).collect::<Option<_>>()?;
    data.extend_from_slice(&case.payload);
    if case.call == Call::AddFragment {
        data.extend(pairs(case.header)?);
    }
    data.extend(pairs(rest[..last].iter().copied())?);
    let line = Line {
        call: case.call as u8,
        data: &data,
        window: [case.ch_index.into(), case.bits, both(max_active, max_buffered_bits)?],
        argument: both(active, total)?,
        before: &lent(&case.memory, &case.list, &case.output)?,
        words: *words.first_chunk().expect("at least 7"),
        after: &lent(&answer.memory, &answer.list, &answer.output)?,
    };
    (places == case.memory.channels.len()).then(|| line.text())
}

struct Recorded {
    random: Random,
    lines: Vec<String>,
    /// Call and number of each answer.
    met: BTreeSet<(u8, u64)>,
}

impl Recorded {
    /// The answer to a call, where it goes into a line.
    fn answered(&mut self, case: &Case) -> Option<Answer> {
        let mut answer = Answer::default();
        expected(case, &mut answer);
        self.lines.push(record(case, &answer)?);
        self.met.insert((case.call as u8, answer.words[0]));
        Some(answer)
    }

    fn desk_checks(&mut self) {
        for check in CHECKS {
            let mut case = short(Check::opened());
            for index in 0..2 {
                check.next(index, &mut case);
                let answer = self.answered(&case).expect("it is short");
                case.go_on(&answer);
                if index == 1 {
                    check.hold(&answer.words);
                }
            }
        }
    }

    fn opened(&mut self) -> Case {
        let active = 1 + self.random.below(3) as usize;
        let arena = 11 + self.random.below(6);
        let buffered = 8 * arena - 7 * active as u64;
        let case = short(Case::new(active, buffered, [active, active, arena as usize]));
        self.answered(&case);
        let mut refused = case.clone();
        match self.random.below(3) {
            0 => refused.accumulator.max_active += 1,
            1 => refused.accumulator.max_buffered_bits += 1,
            _ => refused.accumulator.max_active = 4097,
        }
        if self.random.below(4) == 0 {
            self.answered(&refused);
        }
        case
    }

    /// A call of the script with words that a line can have; others than adds mostly where something is held.
    fn draw(&mut self, case: &mut Case) {
        let held = &case.memory.channels[..case.accumulator.active];
        let finished: Vec<bool> = case.memory.places[..held.len()].iter().map(|place| place[1] == 1).collect();
        let slot = self.random.below(held.len().max(1) as u64) as usize;
        let call = match self.random.below(10) {
            0 if finished.contains(&false) => Call::DrainUnfinished,
            1 if !held.is_empty() => Call::RetireChannel,
            2 => Call::TakeCompleted,
            3..6 if finished.get(slot) == Some(&true) => Call::TakeCompleted,
            _ => Call::AddFragment,
        };
        if call != Call::AddFragment {
            case.ch_index = held.get(slot).copied().unwrap_or(2);
            return streams::made(&mut self.random, call, case);
        }
        case.ch_index = self.random.one_of(&[2, 3, 1 << 31]);
        streams::made(&mut self.random, call, case);
        for index in [0, 14, 15] {
            case.header[index] = self.random.below(HIGH);
        }
        for word in &mut case.header {
            if pair(*word).is_none() {
                *word = self.random.below(2);
            }
        }
        case.bits %= 60;
        streams::payload(&mut self.random, case);
        streams::outputs(&mut self.random, case);
    }

    /// The same call with something that is refused, mostly a state that isn't sound; or with a header's word that is no flag's.
    fn changed(&mut self, mut case: Case) {
        let last = case.accumulator.active.saturating_sub(1);
        let add = case.call == Call::AddFragment;
        match self.random.below(9) {
            0 => case.accumulator.total += 1,
            1 => case.accumulator.active += 1,
            2 if last > 0 => case.memory.channels[last] = case.memory.channels[last - 1],
            3 => case.memory.places[last][1] ^= 1,
            4 => case.memory.places[last][4 + self.random.below(12) as usize] = 9,
            5 if add => case.bits = 16_384 + self.random.below(2),
            6 if add => case.bits = 8 * case.payload.len() as u64 + 1,
            7 => streams::lend(&mut case, 0, 0),
            _ => case.memory.arena[0] ^= 0x80,
        }
        self.answered(&case);
    }

    fn script(&mut self) {
        let mut case = self.opened();
        for _ in 0..14 {
            self.draw(&mut case);
            let one_in = if case.call == Call::AddFragment { 6 } else { 2 };
            if self.random.below(one_in) == 0 {
                self.changed(case.clone());
            }
            if let Some(answer) = self.answered(&case) {
                case.go_on(&answer);
            }
        }
    }
}

/// What stands in memory before anything is put there, in words that a line can have.
fn short(mut case: Case) -> Case {
    for (index, channel) in case.memory.channels.iter_mut().enumerate() {
        *channel = 0x3c3 + index as u32;
    }
    for (index, word) in case.memory.places.as_flattened_mut().iter_mut().enumerate() {
        *word = 0x3c00 + index as u64;
    }
    case
}

/// Prints about so many records, always the same ones.
pub fn print(wanted: usize) {
    let mut recorded = Recorded { random: Random::new(SEED), lines: Vec::new(), met: BTreeSet::new() };
    recorded.desk_checks();
    while recorded.lines.len() < wanted {
        recorded.script();
    }
    let answers: [(Call, &[u64]); 5] = [
        (Call::WithLimits, &[0, 9]),
        (Call::AddFragment, &[0, 10, 11, 12, 13]),
        (Call::TakeCompleted, &[0, 10, 13]),
        (Call::RetireChannel, &[0, 10, 13]),
        (Call::DrainUnfinished, &[0, 10, 13, 14]),
    ];
    let all = answers.iter().flat_map(|(call, numbers)| numbers.iter().map(|&number| (*call as u8, number)));
    for answer in all.filter(|_| wanted >= 300) {
        assert!(recorded.met.contains(&answer), "an answer isn't met: {answer:?}");
    }
    let mut out = std::io::stdout().lock();
    for line in recorded.lines {
        if writeln!(out, "{line}").is_err() {
            return;
        }
    }
}
