// Streams of records, made bit by bit: mostly valid ones, and damage to them.

use super::Call;
use crate::bits::Bits;
use crate::random::Random;
use crate::window::Window;

fn least_bytes(random: &mut Random) -> u64 {
    if random.below(12) == 0 { 1 + random.below(5) } else { 1 }
}

fn payload_bits(random: &mut Random) -> u64 {
    match random.below(64) {
        0 => random.below(3000),
        1..8 => random.below(300),
        8..16 => 0,
        _ => random.below(20),
    }
}

fn handle(random: &mut Random, below: u64) -> u64 {
    let most = if random.below(8) == 0 { below } else { below.min(200) };
    random.below(most)
}

fn record(bits: &mut Bits, random: &mut Random, call: Call, maximum: u64) {
    if call == Call::ClassNetCache {
        bits.serialized(handle(random, maximum), maximum);
    } else {
        let code = 1 + handle(random, u64::from(u32::MAX));
        bits.packed(code, least_bytes(random));
    }
    let width = payload_bits(random);
    bits.packed(width, least_bytes(random));
    bits.noise(random, width);
}

/// What a walk ends with: the end of RepLayout and bits after it, an overlong count, a cut record, or nothing.
fn ending(bits: &mut Bits, random: &mut Random, call: Call, maximum: u64) {
    let kind = random.below(8);
    match (call, kind) {
        (_, 0) => {
            let cut = random.below(24);
            bits.noise(random, cut);
        }
        (Call::ClassNetCache, 1) => {
            bits.serialized(handle(random, maximum), maximum);
            bits.packed(1 + random.below(1 << 20), 1);
        }
        (Call::ClassNetCache, _) => {}
        (_, 1) => {
            bits.packed(1 + random.below(300), 1);
            bits.packed(1 + random.below(1 << 20), 1);
        }
        _ => {
            bits.packed(0, least_bytes(random));
            let tail = if kind < 5 { 0 } else { random.below(60) };
            bits.noise(random, tail);
        }
    }
}

/// A stream of so many records somewhere in its data, with other bits around its window.
pub fn stream(random: &mut Random, call: Call, function_count: u32, records: u64) -> (Vec<u8>, Window) {
    let maximum = u64::from(function_count.max(2));
    let (start, position) = (random.below(20), if random.below(2) == 0 { 0 } else { random.below(20) });
    let mut bits = Bits::default();
    bits.noise(random, start + position);
    if call != Call::ClassNetCache {
        bits.noise(random, 1);
    }
    for _ in 0..records {
        record(&mut bits, random, call, maximum);
    }
    ending(&mut bits, random, call, maximum);
    let length = bits.count - start;
    let after = random.below(20);
    bits.noise(random, after);
    (bits.bytes, [start, position, length])
}

/// Some bits turned, a packed number without an end, or the window cut.
pub fn damage(random: &mut Random, data: &mut [u8], window: &mut Window) {
    let [_, position, length] = *window;
    match random.below(4) {
        0 => window[2] = length.saturating_sub(random.below(30)).max(position),
        1 if data.len() > 6 => {
            let at = random.below(data.len() as u64 - 5) as usize;
            data[at..at + 4].fill(0xff);
            data[at + 4] = random.next() as u8;
        }
        _ if !data.is_empty() => {
            for _ in 0..=random.below(3) {
                data[random.below(data.len() as u64) as usize] ^= 1 << random.below(8);
            }
        }
        _ => {}
    }
}
