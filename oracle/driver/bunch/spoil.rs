// Changes to a state, at random or where document 01's rules look: some leave it sound.

use super::memory::{MOST_BITS, Memory};
use super::{Accumulator, Case};
use crate::random::Random;

pub fn spoil(random: &mut Random, case: &mut Case) {
    let Accumulator { max_active, max_buffered_bits, active, total } = &mut case.accumulator;
    let Memory { channels, places, arena } = &mut case.memory;
    let live = (*active).min(channels.len()).min(places.len());
    let any = if live > 0 { random.below(live as u64) as usize } else { 0 };
    match random.below(20) {
        0 if live > 1 => channels.swap(any.saturating_sub(1), any.max(1)),
        1 if live > 1 => channels[any.max(1)] = channels[any.max(1) - 1],
        2 if live > 0 => channels[any] = random.next() as u32 >> random.below(32),
        3 => *total = total.wrapping_add(random.one_of(&[1, u64::MAX, 8, 1 << 32])),
        4 => *active = active.wrapping_add(random.one_of(&[1, usize::MAX, 2])),
        5 => *active = random.next() as usize >> random.below(64),
        6 => *total = random.next() >> random.below(64),
        // "an unfinished message of 9 bits", and any other number with the total to match
        7 if live > 0 => {
            let bits = random.one_of(&[9, 7, 8, places[any][0] + 1, places[any][0] + 8]);
            *total = total.wrapping_sub(places[any][0]).wrapping_add(bits);
            places[any][0] = bits;
        }
        8 if live > 0 => places[any][0] = random.next() >> random.below(64),
        // spare bits of a message's last byte, where it has some
        9 if live > 0 => {
            let end: u64 = places[..=any].iter().fold(0, |sum: u64, place| sum.saturating_add(place[0].div_ceil(8)));
            if let Some(byte) = (end as usize).checked_sub(1).and_then(|last| arena.get_mut(last)) {
                *byte ^= 0x80 >> random.below(8);
            }
        }
        10 if live > 0 => places[any][1] = random.one_of(&[0, 1, 2, 1 << 32, u64::MAX]),
        11 if live > 0 => places[any][2] = random.one_of(&[0, 1, 2, 1 << 32, u64::MAX]),
        12 if live > 0 => places[any][3] = random.one_of(&[0, 1 << 31, (1 << 32) - 1, 1 << 32, u64::MAX]),
        // a header of any words, which is sound
        13 | 14 if live > 0 => places[any][4 + random.below(20) as usize] = random.next() >> random.below(64),
        15 if !arena.is_empty() => {
            let index = random.below(arena.len() as u64) as usize;
            arena[index] ^= 1 << random.below(8);
        }
        16 => *max_active = random.one_of(&[0, live, live + 1, 4097, usize::MAX]),
        17 => *max_buffered_bits = random.one_of(&[0, *total, total.saturating_sub(1), MOST_BITS + 1, u64::MAX]),
        18 => {
            let short = random.upto(arena.len() as u64) as usize;
            arena.truncate(short);
        }
        19 => {
            let short = random.upto(channels.len().min(places.len()) as u64) as usize;
            if random.below(2) == 0 { channels.truncate(short) } else { places.truncate(short) }
        }
        _ => {}
    }
}
