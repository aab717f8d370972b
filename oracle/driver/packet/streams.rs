// Packets to read: bunches written as the Rust reads them, and damage to them.

use crate::bits::Bits;
use crate::random::Random;

pub const ENDS: [u32; 8] = [0, 1, 127, 128, 1 << 28, i32::MAX as u32, 1 << 31, u32::MAX];

/// Some channels, of which the bunches are.
pub fn channels(random: &mut Random, count: u64) -> Vec<u32> {
    let drawn = |random: &mut Random| match random.below(4) {
        0 => random.one_of(&ENDS),
        1 => random.next() as u32,
        _ => random.below(40) as u32,
    };
    (0..count.max(1)).map(|_| drawn(random)).collect()
}

fn payload_bits(random: &mut Random) -> u64 {
    match random.below(24) {
        0 => random.below(2_000),
        1..4 => 0,
        4..9 => 8 * random.below(6),
        _ => random.below(60),
    }
}

/// One bunch in a few of the forms that the header has; half of them fragments.
fn bunch(random: &mut Random, bits: &mut Bits, channels: &[u32]) {
    let mut one_in = |count: u64| random.below(count) == 0;
    let (control, paused, reliable, partial) = (one_in(3), one_in(8), one_in(2), one_in(2));
    let (opens, closes) = (control && one_in(2), control && one_in(2));
    let (exports, mapped, initial, last) = (one_in(4), one_in(4), one_in(2), one_in(3));
    bits.push(control.into(), 1);
    if control {
        bits.push(opens.into(), 1);
        bits.push(closes.into(), 1);
    }
    if closes {
        let reason = random.below(15);
        let reason = if random.below(2) == 0 { 1 } else { reason };
        bits.serialized(reason, 15);
    }
    bits.push(paused.into(), 1);
    bits.push(reliable.into(), 1);
    let least = random.one_of(&[0, 0, 0, 0, 2, 5]);
    bits.packed(random.one_of(channels).into(), least);
    bits.push(exports.into(), 1);
    bits.push(mapped.into(), 1);
    bits.push(partial.into(), 1);
    bits.push(random.below(2), 1);
    if partial {
        bits.push(initial.into(), 1);
        bits.push(last.into(), 1);
    }
    if reliable || opens {
        bits.push(random.below(2), 1);
        let name = random.next() as u32 >> random.below(32);
        bits.packed(name.into(), 0);
    }
    let count = payload_bits(random);
    bits.serialized(count, 16_384);
    bits.noise(random, count);
}

pub fn packet(random: &mut Random, channels: &[u32], bunches: u64) -> Vec<u8> {
    let mut bits = Bits::default();
    for _ in 0..bunches {
        bunch(random, &mut bits, channels);
    }
    bits.push(1, 1);
    bits.bytes
}

/// Flips some bits, cuts or adds bytes, or draws them all anew.
pub fn damage(random: &mut Random, packet: &mut Vec<u8>) {
    match random.below(5) {
        0 => {
            let n = random.upto(packet.len() as u64);
            packet.truncate(n as usize);
        }
        1 => {
            let n = random.below(4);
            packet.extend((0..n).map(|_| random.next() as u8));
        }
        2 => random.fill(packet),
        _ => {
            for _ in 0..=random.below(3) {
                if !packet.is_empty() {
                    let index = random.below(packet.len() as u64) as usize;
                    packet[index] ^= 1 << random.below(8);
                }
            }
        }
    }
}
