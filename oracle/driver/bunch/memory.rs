// The lent memory: what it holds as the Rust's accumulator, and the accumulator put back.

use super::{Accumulator, Case};
use crate::header;
use std::collections::BTreeMap;
use vrf_net::bunch::{AccumulatorState, PartialBunchAccumulator, PreservedPartial};

/// The most places that an opening takes, and the most buffered bits.
pub const MOST_ACTIVE: usize = 4096;
pub const MOST_BITS: u64 = 536_870_912;

/// Bits, finished, reliable, sequence, the header's words.
pub type Place = [u64; 24];

#[derive(Clone, Default, PartialEq, PartialOrd)]
pub struct Memory {
    pub channels: Vec<u32>,
    pub places: Vec<Place>,
    pub arena: Vec<u8>,
}

/// What stands in so many channels, places and bytes before anything is put there: in each something else.
pub fn untouched([channels, places, arena]: [usize; 3]) -> Memory {
    let place = |index: usize| std::array::from_fn(|word| 0xc3a0_0000_0000_0000 | (index << 8 | word) as u64);
    Memory {
        channels: (0..channels as u32).map(|index| 0xc3a0_0000 | index).collect(),
        places: (0..places).map(place).collect(),
        arena: (0..arena).map(|index| 0xc3 ^ index as u8).collect(),
    }
}

/// The smallest arena: "8 x arena bytes >= buffered bits + 7 x active"
pub fn smallest_arena(active: usize, buffered: u64) -> usize {
    (buffered + 7 * active as u64).div_ceil(8) as usize
}

fn bytes(bits: u64) -> usize {
    bits.div_ceil(8) as usize
}

/// "active 0 to 4,096; buffered bits 0 to 536,870,912; 8 x arena bytes >= buffered bits + 7 x active; the lent table has at least
/// active places"
pub fn fit(case: &Case) -> bool {
    let Accumulator { max_active, max_buffered_bits, .. } = case.accumulator;
    let Memory { channels, places, arena } = &case.memory;
    max_active <= MOST_ACTIVE
        && max_buffered_bits <= MOST_BITS
        && max_active <= channels.len().min(places.len())
        && smallest_arena(max_active, max_buffered_bits) <= arena.len()
}

/// The live places with their channels and bytes, where the bits are within the total.
fn live(case: &Case) -> Option<Vec<(u32, &Place, &[u8])>> {
    let mut list = Vec::new();
    let (mut left, mut at) = (case.accumulator.total, 0);
    let Memory { channels, places, arena } = &case.memory;
    for (channel, place) in channels.iter().zip(places).take(case.accumulator.active) {
        left = left.checked_sub(place[0])?;
        list.push((*channel, place, &arena[at..at + bytes(place[0])]));
        at += bytes(place[0]);
    }
    (left == 0).then_some(list)
}

/// "spare bits zero, unfinished messages a multiple of 8 bits", and words that a call can have left.
fn place_sound(place: &Place, bytes: &[u8]) -> bool {
    let [bits, finished, reliable, sequence, ..] = *place;
    let spare = if bits % 8 == 0 { 0 } else { bytes[bytes.len() - 1] >> (bits % 8) };
    finished <= 1 && reliable <= 1 && sequence < 1 << 32 && spare == 0 && (finished == 1 || bits % 8 == 0)
}

/// "the rules of opening hold, no channel twice, live count and total within limits, total equal to the sum of the held bits", and
/// by ascending channel, as a call leaves them.
pub fn sound(case: &Case) -> bool {
    let Accumulator { max_active, max_buffered_bits, active, total } = case.accumulator;
    if !fit(case) || active > max_active || total > max_buffered_bits {
        return false;
    }
    let ascending = case.memory.channels[..active].windows(2).all(|pair| pair[0] < pair[1]);
    ascending && live(case).is_some_and(|list| list.iter().all(|(_, place, bytes)| place_sound(place, bytes)))
}

/// The Rust's accumulator with what sound memory holds.
pub fn accumulator(case: &Case) -> PartialBunchAccumulator {
    let Accumulator { max_active, max_buffered_bits, total, .. } = case.accumulator;
    let mut accumulator = PartialBunchAccumulator::with_limits(max_active, max_buffered_bits as usize);
    for (channel, place, bytes) in live(case).expect("it is sound") {
        let header = header::header(place[4..].try_into().expect("20 words"));
        let state = AccumulatorState {
            ch_sequence: place[3] as i32,
            reliable: place[2] == 1,
            is_complete: place[1] == 1,
            partial: PreservedPartial { header, buffer: bytes.to_vec(), bit_count: place[0] as usize },
        };
        accumulator.fragments.insert(channel, state);
    }
    accumulator.total_buffered_bits = total as usize;
    accumulator
}

/// Puts what the accumulator holds first in the memory, by ascending channel. A header stays in the words that stand for it, but
/// on the channel where a message began `anew`.
pub fn lay(accumulator: &PartialBunchAccumulator, case: &Case, anew: Option<u32>, memory: &mut Memory) {
    let before = case.memory.channels.iter().zip(&case.memory.places).take(case.accumulator.active);
    let words: BTreeMap<u32, &[u64]> = before.map(|(channel, place)| (*channel, &place[4..])).collect();
    let mut held: Vec<_> = accumulator.fragments.iter().collect();
    held.sort_unstable_by_key(|(channel, _)| **channel);
    let mut at = 0;
    for (index, (channel, state)) in held.into_iter().enumerate() {
        let AccumulatorState { ch_sequence, reliable, is_complete, partial } = state;
        memory.channels[index] = *channel;
        let place = &mut memory.places[index];
        place[..4].copy_from_slice(&[
            partial.bit_count as u64,
            u64::from(*is_complete),
            u64::from(*reliable),
            u64::from(*ch_sequence as u32),
        ]);
        match words.get(channel) {
            Some(words) if anew != Some(*channel) => place[4..].copy_from_slice(words),
            _ => place[4..].copy_from_slice(&header::words(&partial.header)),
        }
        memory.arena[at..at + partial.buffer.len()].copy_from_slice(&partial.buffer);
        at += partial.buffer.len();
    }
}

/// Whether both hold the same.
pub fn same(a: &PartialBunchAccumulator, b: &PartialBunchAccumulator) -> bool {
    a.total_buffered_bits == b.total_buffered_bits
        && a.fragments.len() == b.fragments.len()
        && a.fragments.iter().all(|(channel, x)| {
            b.fragments.get(channel).is_some_and(|y| {
                let flags = (x.ch_sequence, x.reliable, x.is_complete) == (y.ch_sequence, y.reliable, y.is_complete);
                let bits = x.partial.bit_count == y.partial.bit_count && x.partial.buffer == y.partial.buffer;
                flags && bits && header::words(&x.partial.header) == header::words(&y.partial.header)
            })
        })
}
