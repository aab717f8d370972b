// What is read: bit streams made with fixed seeds.

use crate::random::Random;

/// The first reads start inside a byte, as most of a packet's do.
pub const FIRST_BIT: u64 = 3;

pub struct Input {
    pub data: Vec<u8>,
    /// The widths, maxima or counts, one for each operation; empty where the call takes none.
    pub narrow: Vec<u32>,
    pub wide: Vec<u64>,
    pub operations: usize,
}

fn random_bytes(random: &mut Random, count: usize) -> Vec<u8> {
    (0..count).map(|_| random.next() as u8).collect()
}

pub fn bits(operations: usize) -> Input {
    let data = random_bytes(&mut Random::new(1), operations / 8 + 8);
    Input { data, narrow: Vec::new(), wide: Vec::new(), operations }
}

/// Reads with an argument from `draw`, none of which takes more than 64 bits.
pub fn with_arguments(operations: usize, draw: impl Fn(&mut Random) -> u64) -> Input {
    let mut random = Random::new(2);
    let narrow: Vec<u32> = (0..operations).map(|_| draw(&mut random) as u32).collect();
    Input { data: random_bytes(&mut random, operations * 8 + 8), narrow, wide: Vec::new(), operations }
}

/// Packed numbers whose lengths in bytes `draw` gives.
pub fn packed(operations: usize, draw: impl Fn(&mut Random) -> u64) -> Input {
    let mut random = Random::new(3);
    let mut bytes = Vec::new();
    for _ in 0..operations {
        let length = draw(&mut random);
        for index in 1..=length {
            let chunk = if index == 5 { random.below(16) } else { random.below(128) };
            bytes.push((chunk << 1) as u8 | u8::from(index < length));
        }
    }
    Input { data: moved(&bytes), narrow: Vec::new(), wide: Vec::new(), operations }
}

/// The bytes with their first bit at FIRST_BIT.
fn moved(bytes: &[u8]) -> Vec<u8> {
    let mut data = vec![0; bytes.len() + 1];
    for (index, &byte) in bytes.iter().enumerate() {
        let word = u16::from(byte) << FIRST_BIT;
        data[index] |= word as u8;
        data[index + 1] |= (word >> 8) as u8;
    }
    data
}

pub fn copies(size: usize) -> Input {
    let operations = (65536 / size).min(1024);
    let data = random_bytes(&mut Random::new(4), operations * size + 8);
    Input { data, narrow: Vec::new(), wide: vec![8 * size as u64; operations], operations }
}

/// Mostly one byte, some two, few longer: channel numbers, handles and payload counts.
pub fn realistic_length(random: &mut Random) -> u64 {
    match random.below(100) {
        0..70 => 1,
        70..95 => 2,
        95..99 => 3,
        _ => 4,
    }
}

/// From 1 to 2^20, of every width about equally often.
pub fn mixed_maximum(random: &mut Random) -> u64 {
    let most = 1 << (1 + random.below(20));
    1 + random.below(most)
}
