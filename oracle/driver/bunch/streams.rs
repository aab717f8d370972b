// Calls to make: fragments that mostly continue what their channel holds, and memory to lend for them.

use super::memory::{self, Place};
use super::{Call, Case};
use crate::header::{self, COMPLETED, ERROR, FINAL, INITIAL, KIND, RELIABLE, SEQUENCE};
use crate::random::Random;

/// Sequences on either side of what the Rust tests.
const SEQUENCES: [u64; 6] = [0, 1, i32::MAX as u64 - 1, i32::MAX as u64, 1 << 31, u32::MAX as u64];

/// Around the most bits that a payload may have.
const LONGEST: [u64; 8] = [16_376, 16_383, 16_383, 16_382, 16_384, 16_392, 1 << 32, u64::MAX];

/// An opening with limits and memory of the smallest size for them, or a little more.
pub fn opening(random: &mut Random, most_active: u64, buffered: u64) -> Case {
    let active = if random.below(12) == 0 { 0 } else { 1 + random.below(most_active) as usize };
    let mut more = || random.one_of(&[0, 0, 0, 1, 2]);
    let sizes = [active + more(), active + more(), memory::smallest_arena(active, buffered) + more()];
    Case::new(active, buffered, sizes)
}

pub fn small_limit(random: &mut Random) -> u64 {
    match random.below(4) {
        0 => random.below(50),
        1 => 8 * random.below(60),
        _ => random.below(500),
    }
}

fn held(case: &Case) -> Option<Place> {
    let live = &case.memory.channels[..case.accumulator.active];
    live.binary_search(&case.ch_index).ok().map(|slot| case.memory.places[slot])
}

fn sequence(random: &mut Random, held: Option<Place>) -> u64 {
    match (held, random.below(16)) {
        (Some(place), 3..) => (place[3] + 1) & 0xffff_ffff,
        (Some(place), 2) => place[3],
        (Some(place), 1) => (place[3] + 2) & 0xffff_ffff,
        (None, 8..) => random.below(9),
        _ => random.one_of(&SEQUENCES),
    }
}

fn header(random: &mut Random, ch_index: u32, held: Option<Place>) -> header::Words {
    let mut words: header::Words = std::array::from_fn(|_| random.below(2));
    let mut one_in = |count: u64| u64::from(random.below(count) == 0);
    words[INITIAL] = if held.is_some() { one_in(5) } else { 1 - one_in(8) };
    words[FINAL] = one_in(3);
    words[ERROR] = one_in(10);
    words[COMPLETED] = one_in(4);
    words[RELIABLE] = held.map_or(one_in(2), |place| place[2] ^ one_in(16));
    words[SEQUENCE] = sequence(random, held);
    words[KIND] = if random.below(6) == 0 { random.below(5) } else { 0 };
    words[0] = u64::from(random.next() as u32 >> random.below(32));
    words[1] = if random.below(4) == 0 { random.below(9) } else { ch_index.into() };
    words[14] = u64::from(random.next() as u32 >> random.below(32));
    words[15] = random.next() >> random.below(64);
    // Any words are a header.
    if random.below(12) == 0 {
        words[random.below(20) as usize] = random.next() >> random.below(64);
    }
    words
}

fn bits(random: &mut Random, case: &Case) -> u64 {
    let left = case.accumulator.max_buffered_bits - case.accumulator.total;
    match random.below(32) {
        0..4 => 0,
        4..7 => left,
        7 => left + 1,
        8 => left.next_multiple_of(8),
        9 => left.saturating_sub(8),
        10 => random.one_of(&LONGEST),
        11 => 8 * random.below(120),
        12..15 => random.below(70),
        15.. if case.header[FINAL] != 0 => random.below(40),
        _ => 8 * random.below(7),
    }
}

/// So many bits, of a payload that has as many bytes as they need and some more, or in one of 50 a byte less.
pub fn payload(random: &mut Random, case: &mut Case) {
    let n = case.bits.min(20_000).div_ceil(8) as usize;
    let length = if random.below(50) == 0 { n.saturating_sub(1) } else { n + random.one_of(&[0, 0, 1, 2]) };
    case.payload = vec![0; length];
    random.fill(&mut case.payload);
}

fn fragment(random: &mut Random, case: &mut Case) {
    case.header = header(random, case.ch_index, held(case));
    case.bits = bits(random, case);
    // Mostly there is room, and the count is one that goes.
    let most = if random.below(16) == 0 { u64::MAX } else { 16_383.min(case.accumulator.max_buffered_bits + 8) };
    if case.bits > most {
        case.bits = 8 * random.below(7);
    }
    payload(random, case);
}

/// Mostly enough, else as much as there can be need for, or one less.
fn room(random: &mut Random, needed: usize) -> usize {
    match random.below(8) {
        0 => needed.saturating_sub(1),
        1..5 => needed,
        _ => needed + 1 + random.below(4) as usize,
    }
}

/// An output and a list: bytes and words, in each place something else.
pub fn lend(case: &mut Case, output: usize, list: usize) {
    case.output = (0..output).map(|index| 0x5a ^ index as u8).collect();
    let place = |index: usize| std::array::from_fn(|word| (0x3000 + 22 * index + word) as u64);
    case.list = (0..list).map(place).collect();
}

/// What is lent for the answer, by what the channel or, for a drain, every one holds.
pub fn outputs(random: &mut Random, case: &mut Case) {
    if case.call == Call::DrainUnfinished {
        let unfinished = case.memory.places[..case.accumulator.active].iter().filter(|place| place[1] == 0);
        let (bytes, count) = unfinished.fold((0, 0), |(bytes, count), place| (bytes + place[0].div_ceil(8), count + 1));
        let (output, list) = (room(random, bytes as usize), room(random, count));
        return lend(case, output, list);
    }
    let mut needed = held(case).map_or(0, |place| place[0].div_ceil(8)) as usize;
    if case.call == Call::AddFragment && random.below(3) > 0 {
        needed += case.payload.len();
    }
    let output = room(random, needed);
    lend(case, output, 0);
}

/// A call on the case's state and channel.
pub fn made(random: &mut Random, call: Call, case: &mut Case) {
    case.call = call;
    case.payload.clear();
    case.bits = 0;
    case.header = [0; 20];
    if call == Call::AddFragment {
        fragment(random, case);
    }
    outputs(random, case);
}

/// One more call on the case's state, mostly an add.
pub fn draw(random: &mut Random, channels: &[u32], case: &mut Case) {
    case.ch_index = random.one_of(channels);
    let finished = held(case).is_some_and(|place| place[1] == 1);
    let call = match random.below(64) {
        0 => Call::DrainUnfinished,
        1..3 => Call::RetireChannel,
        3..5 => Call::TakeCompleted,
        5..30 if finished => Call::TakeCompleted,
        _ => Call::AddFragment,
    };
    made(random, call, case);
}
