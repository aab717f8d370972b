// What the calls on a window share: the refusals of document 01 that the Rust hasn't, the Rust's own in its words, and windows to try.

use crate::random::Random;
use vrf_bitio::BitError;

/// Start, position, length.
pub type Window = [u64; 3];

/// Word 0 to 3 of an answer.
pub type Words = [u64; 4];

pub const MOST_BYTES: u64 = 67_108_864;

/// "In a read, copy or walk 7 comes first, then 5": the data's length.
pub fn too_long(n: u64) -> Option<Words> {
    (n > MOST_BYTES).then_some([7, n, 0, 0])
}

/// "A window past its data is 5, with its length and the data bits from its start (0 if none); next a cursor past its
/// window, 5 with its place and the window's length".
pub fn unsound(n: u64, [start, position, length]: Window) -> Option<Words> {
    let available = (8 * n).saturating_sub(start);
    if n > MOST_BYTES {
        too_long(n)
    } else if length > available {
        Some([5, length, available, 0])
    } else {
        (position > length).then_some([5, position, length, 0])
    }
}

pub fn refusal(error: &BitError) -> Words {
    match *error {
        BitError::Eof { position, length, requested } => [1, position, length, requested],
        BitError::MalformedIntPacked { position } => [2, position, 0, 0],
        BitError::IntPackedOverflow { position } => [3, position, 0, 0],
        BitError::InvalidSerializedIntMax { max } => [4, u64::from(max), 0, 0],
        BitError::InvalidBitLength { requested, available } => [5, requested, available, 0],
        BitError::InvalidLength { .. } | BitError::InvalidString { .. } => unreachable!("only strings give these"),
    }
}

/// Numbers for a damaged window of data with so many bits.
pub fn edges(bits: u64) -> Vec<u64> {
    let mut numbers = vec![0, 1, 2, 8, 9, bits, bits + 1, 1 << 31, 1 << 32, 1 << 61, 1 << 63, u64::MAX];
    numbers.extend([bits.saturating_sub(1), (1 << 63) - 1, u64::MAX - 1, u64::MAX - bits, (1 << 63) - bits]);
    numbers.sort_unstable();
    numbers.dedup();
    numbers
}

/// A window of data with so many bits, around every boundary.
pub fn drawn(random: &mut Random, bits: u64) -> Window {
    let start = match random.below(4) {
        0 => random.below(8),
        1 => (bits + 2).saturating_sub(random.below(70)),
        _ => random.upto(bits),
    };
    let available = bits.saturating_sub(start);
    let length = match random.below(8) {
        0 => available + 1,
        1 => random.upto(available),
        2 => available.saturating_sub(random.below(10)),
        _ => available,
    };
    let position = match random.below(8) {
        0 => length + random.below(2),
        1 => length.saturating_sub(random.one_of(&[7, 8, 9, 16, 31, 32, 33, 63, 64, 65])),
        2 => length.saturating_sub(random.below(70)),
        3 => 0,
        _ => random.upto(length),
    };
    [start, position, length]
}
