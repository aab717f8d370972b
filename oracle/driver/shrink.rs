// The simpler inputs that shrinking tries, for the calls on a window.

use crate::window::Window;

/// What all these calls take; an argument that a call hasn't is 0.
#[derive(Clone)]
pub struct Parts {
    pub data: Vec<u8>,
    pub window: Window,
    pub argument: u64,
}

/// A number's smaller forms: less by a half, a quarter and so on, so that few steps lead down to any number.
pub fn smaller(number: u64) -> Vec<u64> {
    let mut list = vec![0, 1];
    list.extend((1..64).map(|shift| number - (number >> shift)));
    list.extend([number.saturating_sub(8), number.saturating_sub(1)]);
    list.retain(|&other| other < number);
    list.dedup();
    list
}

pub fn smaller_bytes(bytes: &[u8]) -> Vec<Vec<u8>> {
    let n = bytes.len();
    if n == 0 {
        return Vec::new();
    }
    let mut list = vec![bytes[..n / 2].to_vec(), bytes[..n - 1].to_vec()];
    if n > 4096 {
        return list;
    }
    list.extend([bytes[n / 2..].to_vec(), bytes[1..].to_vec()]);
    list.retain(|shorter| shorter.len() < n);
    for (index, bit) in (0..n).flat_map(|index| (0..9).map(move |bit| (index, bit))) {
        let mut fewer = bytes.to_vec();
        // The whole byte first, then each bit of it.
        fewer[index] &= if bit == 0 { 0 } else { !(1 << (bit - 1)) };
        if fewer[index] != bytes[index] {
            list.push(fewer);
        }
    }
    list
}

/// The same bits, one place further down.
fn shifted(bytes: &[u8]) -> Vec<u8> {
    (0..bytes.len()).map(|index| bytes[index] >> 1 | bytes.get(index + 1).map_or(0, |next| next << 7)).collect()
}

/// Shorter data, fewer set bits, smaller numbers. Each form lowers a number, a length or a count of set bits and raises
/// none, but that a position may go over into the start; so shrinking ends.
pub fn simpler(case: &Parts) -> Vec<Parts> {
    let mut list = Vec::new();
    let mut with = |change: &dyn Fn(&mut Parts)| {
        let mut other = case.clone();
        change(&mut other);
        list.push(other);
    };
    for bytes in smaller_bytes(&case.data) {
        with(&|other| other.data.clone_from(&bytes));
    }
    for index in 0..3 {
        for number in smaller(case.window[index]) {
            with(&|other| other.window[index] = number);
        }
    }
    for number in smaller(case.argument) {
        with(&|other| other.argument = number);
    }
    // Data and window often can shrink only together.
    let [start, position, length] = case.window;
    if position > 0 && position <= length && start.checked_add(position).is_some() {
        with(&|other| other.window = [start + position, 0, length - position]);
    }
    if start > 0 && case.data.len() < 100 {
        with(&|other| {
            other.data = shifted(&case.data);
            other.window[0] -= 1;
        });
    }
    if case.window[0] >= 8 && !case.data.is_empty() {
        with(&|other| {
            other.data.remove(0);
            other.window[0] -= 8;
        });
    }
    if case.window[2] >= 8 && !case.data.is_empty() {
        with(&|other| {
            other.data.pop();
            other.window[2] -= 8;
        });
    }
    for (a, b) in [(0, 1), (0, 2), (1, 2)] {
        if case.window[a] > 0 && case.window[b] > 0 {
            with(&|other| {
                other.window[a] -= 1;
                other.window[b] -= 1;
            });
        }
    }
    for index in 1..3 {
        if case.window[index] > 0 && case.argument > 0 {
            with(&|other| {
                other.window[index] -= 1;
                other.argument -= 1;
            });
        }
    }
    list
}
