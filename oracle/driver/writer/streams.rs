// Bunches to write.

use super::*;
use crate::random::Random;

/// The ends of each packed length.
pub const CHANNELS: [u32; 11] = [0, 1, 127, 128, 16_383, 16_384, (1 << 21) - 1, 1 << 21, (1 << 28) - 1, 1 << 28, u32::MAX];

/// The same with flags that can be written.
pub fn writable(flags: u16) -> u16 {
    let mut flags = flags & !DORMANT;
    if flags & PARTIAL == 0 {
        flags &= !(INITIAL | FINAL);
    }
    if flags & CLOSE == 0 {
        flags &= !DORMANCY;
    }
    if flags & DORMANCY != 0 {
        flags |= DORMANT;
    }
    flags
}

pub fn header(random: &mut Random) -> Header {
    let ch_index = match random.below(3) {
        0 => random.one_of(&CHANNELS),
        1 => random.next() as u32 >> random.below(32),
        _ => random.below(20) as u32,
    };
    Header { ch_index, flags: writable(random.below(1 << 11) as u16) }
}

/// So many bits under a header, of a payload that has as many bytes as they need and some more.
pub fn bunch_of(random: &mut Random, header: Header, count: u64, more: u64) -> Bunch {
    let mut payload = vec![0; (count.div_ceil(8) + more) as usize];
    random.fill(&mut payload);
    Bunch { header, payload, count }
}

fn count(random: &mut Random, most: u64) -> u64 {
    match random.below(8) {
        0 => 0,
        1 => random.upto(most),
        2 => 8 * random.below(9),
        3 => random.one_of(&[1, 7, 8, 9, 55, 56, 57, 63, 64, 65]),
        _ => random.below(130),
    }
    .min(most)
}

/// A bunch that can be written, of at most so many payload bits.
pub fn bunch(random: &mut Random, most: u64) -> Bunch {
    let (header, count) = (header(random), count(random, most));
    let more = random.below(3);
    bunch_of(random, header, count, more)
}

/// What stands in a packet before the call.
pub fn room(random: &mut Random, bytes: usize) -> Vec<u8> {
    let mut packet = vec![0; bytes];
    random.fill(&mut packet);
    packet
}
