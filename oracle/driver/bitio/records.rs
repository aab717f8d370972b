// A fixed list of the Rust's answers, one record a line (line.rs). A float that is a number has its bits in word 2.

use super::Call::*;
use super::expected::expected;
use super::{Answer, Call, Case, NO_FLOAT};
use crate::line::Line;
use crate::random::Random;
use crate::window::Window;
use std::collections::HashSet;
use std::io::Write;

const SEED: u64 = 2024;
const LONGEST_DATA: u64 = 40;

/// How often each call comes in a turn of the list: those with more ways to answer come more often.
const TURN: [(Call, u32); 21] = [
    (New, 1),
    (WithBitLen, 1),
    (Position, 1),
    (LenBits, 1),
    (BitsRemaining, 1),
    (AtEnd, 1),
    (ReadBit, 3),
    (ReadBits, 6),
    (ReadU8, 1),
    (ReadU16, 1),
    (ReadU32, 1),
    (ReadI32, 1),
    (ReadU64, 2),
    (ReadF32, 3),
    (ReadF64, 3),
    (ReadIntPacked, 6),
    (ReadSerializedInt, 8),
    (CopyBitsTo, 10),
    (SubReader, 3),
    (SkipBits, 3),
    (SkipRemaining, 2),
];

/// How many bits the call asks for first, where its input doesn't say.
fn asks_for(call: Call) -> u64 {
    match call {
        ReadBit => 1,
        ReadU8 | ReadIntPacked => 8,
        ReadU16 => 16,
        ReadU64 | ReadF64 => 64,
        ReadU32 | ReadI32 | ReadF32 => 32,
        _ => 21,
    }
}

/// The windows at each boundary of twelve bytes, for a read of `width` bits.
fn windows(width: u64) -> [Window; 14] {
    [
        [3, 5, 93],
        [0, 96 - width, 96],
        [0, 97 - width, 96],
        [0, 0, 97],
        [0, 9, 8],
        [7, 0, width],
        [7, 0, width - 1],
        [97, 0, 0],
        [97, 0, 1],
        [u64::MAX, 0, 0],
        [u64::MAX, 0, 1],
        [1, 0, u64::MAX],
        [0, u64::MAX, 96],
        [96, 0, 0],
    ]
}

/// The list that comes before random inputs, for one call.
fn boundaries(call: Call, random: &mut Random) -> Vec<Case> {
    let mut list = Vec::new();
    let width = asks_for(call);
    let mut data = [0; 12];
    for (index, window) in windows(width).into_iter().enumerate() {
        random.fill(&mut data);
        let argument = match call {
            ReadSerializedInt => (1 << 20) + 1 + index as u64,
            _ => width,
        };
        list.push(with_target(Case::new(call, &data, window, argument), 3));
        for (data, window, argument, m) in apart(call).into_iter().skip(2 * index).take(2) {
            list.push(with_target(Case::new(call, data, window, argument), m));
        }
    }
    list.push(with_target(Case::new(call, &[], [0; 3], 0), 0));
    list
}

fn with_target(mut case: Case, m: usize) -> Case {
    if case.call.takes_target() {
        case.target = (0..m).map(|index| 0xff ^ index as u8).collect();
    }
    if case.call.argument().is_none() {
        case.argument = 0;
    }
    if !case.call.takes_window() {
        case.window = [0; 3];
    }
    case
}

type Apart = (&'static [u8], Window, u64, usize);

const EIGHT: &[u8] = &[0xb5, 0x3c, 0xf0, 0x81, 0x7e, 0x42, 0x99, 0xe7];
const NINE: &[u8] = &[0xb5, 0x3c, 0xf0, 0x81, 0x7e, 0x42, 0x99, 0xe7, 0x5a];

/// What is particular to a call; the desk checks of document 01 are among them.
fn apart(call: Call) -> Vec<Apart> {
    match call {
        WithBitLen => [64, 65, 0, u64::MAX, 63, 1].map(|bits| (EIGHT, [0; 3], bits, 0)).to_vec(),
        ReadBits => [0, 64, 65, 63, 57, 58, u64::from(u32::MAX), 66, 1]
            .iter()
            .flat_map(|&width| [(NINE, [0, 7, 72], width, 0), (NINE, [1, 0, 64], width, 0)])
            .chain([(EIGHT, [0, 64, 64], 0, 0), (EIGHT, [0, 64, 64], 1, 0)])
            .collect(),
        ReadF32 => vec![
            (&[0x00, 0x00, 0xc0, 0x7f], [0, 0, 32], 0, 0),
            (&[0x01, 0x00, 0x80, 0xff], [0, 0, 32], 0, 0),
            (&[0x00, 0x00, 0x80, 0x7f], [0, 0, 32], 0, 0),
            (&[0x00, 0x00, 0x00, 0x80], [0, 0, 32], 0, 0),
            (&[0x01, 0x00, 0x00, 0x00], [0, 0, 32], 0, 0),
            (&[0xf8, 0xff, 0xff, 0xff, 0x07], [3, 0, 37], 0, 0),
        ],
        ReadF64 => vec![
            (&[0, 0, 0, 0, 0, 0, 0xf8, 0x7f], [0, 0, 64], 0, 0),
            (&[1, 0, 0, 0, 0, 0, 0xf0, 0xff], [0, 0, 64], 0, 0),
            (&[0, 0, 0, 0, 0, 0, 0xf0, 0xff], [0, 0, 64], 0, 0),
            (&[0, 0, 0, 0, 0, 0, 0, 0x80], [0, 0, 64], 0, 0),
            (&[1, 0, 0, 0, 0, 0, 0, 0], [0, 0, 64], 0, 0),
            (&[0xf8, 0xff, 0xff, 0xff, 0xff, 0xff, 0xff, 0xff, 0x07], [3, 0, 69], 0, 0),
        ],
        ReadIntPacked => vec![
            (&[0x06], [0, 0, 8], 0, 0),
            (&[0x01, 0x00], [0, 0, 16], 0, 0),
            (&[0xff, 0xff, 0xff, 0xff, 0x20], [0, 0, 40], 0, 0),
            (&[0xff, 0xff, 0xff, 0xff, 0x21], [0, 0, 40], 0, 0),
            (&[0xff, 0xff, 0xff, 0xff, 0x1e], [0, 0, 40], 0, 0),
            (&[0xff, 0xff, 0xff, 0xff, 0x1f], [0, 0, 40], 0, 0),
            (&[0x01, 0x01, 0x01, 0x01, 0xfe, 0x77], [0, 0, 48], 0, 0),
            (&[0x08, 0x08, 0x08, 0x08, 0x08, 0x01, 0x77], [3, 0, 48], 0, 0),
            (&[0x77, 0xff, 0xff, 0xff, 0xff, 0xff], [4, 4, 44], 0, 0),
            (&[0xff, 0xff, 0xff, 0xff, 0x1e], [0, 0, 39], 0, 0),
            (&[0xff, 0xff, 0xff, 0xff], [0, 0, 32], 0, 0),
            (&[0x01], [0, 0, 8], 0, 0),
        ],
        ReadSerializedInt => vec![
            (&[], [0, 0, 0], 1, 0),
            (&[0x02], [0, 0, 2], 3, 0),
            (&[0x01], [0, 0, 1], 3, 0),
            (&[0x00], [0, 0, 8], 0, 0),
            (&[0x00], [0, 0, 1], 3, 0),
            (&[0x07], [0, 0, 8], 15, 0),
            (&[0x0e], [0, 0, 8], 15, 0),
            (&[0xff, 0x3f], [0, 0, 16], 16384, 0),
            (&[0x00, 0x00], [0, 0, 13], 16384, 0),
            (&[0xff, 0xff, 0xff, 0xff], [0, 0, 32], 0xffff_ffff, 0),
            (&[0xff, 0xff, 0xff, 0x7f], [0, 0, 31], 0xffff_ffff, 0),
            (&[0xfe, 0xff, 0xff, 0xff], [0, 0, 32], 0xffff_ffff, 0),
            (&[0x00, 0x00, 0x00, 0x80], [0, 0, 32], 0x8000_0000, 0),
            (&[0x00, 0x00, 0x00, 0x80], [0, 0, 32], 0x8000_0001, 0),
            (&[], [0, 0, 0], 0, 0),
            (&[], [0, 0, 0], 2, 0),
        ],
        CopyBitsTo => [0, 1, 7, 8, 9, 63, 64, 65, 72]
            .iter()
            .flat_map(|&count| {
                let exact = u64::div_ceil(count, 8) as usize;
                [
                    (NINE, [0, 0, 72], count, exact + 2),
                    (NINE, [3, 0, 69], count, exact),
                    (NINE, [0, 1, 72], count, exact.saturating_sub(1)),
                ]
            })
            .chain([(EIGHT, [0, 0, 64], u64::MAX, 8), (EIGHT, [0, 0, 64], u64::MAX, 0)])
            .collect(),
        SubReader | SkipBits => [0, 1, 63, 64, 65, u64::MAX]
            .iter()
            .flat_map(|&count| [(EIGHT, [0, 0, 64], count, 0), (EIGHT, [2, 1, 62], count, 0)])
            .collect(),
        _ => Vec::new(),
    }
}

fn random_case(call: Call, random: &mut Random) -> Case {
    let mut data = vec![0; random.upto(LONGEST_DATA) as usize];
    random.fill(&mut data);
    let bits = 8 * data.len() as u64;
    let start = random.upto(bits);
    let length = match random.below(10) {
        0 => bits - start + 1 + random.below(9),
        1 => random.upto(bits - start),
        _ => bits - start,
    };
    let position = match random.below(10) {
        0 => length + 1 + random.below(3),
        1 => length.saturating_sub(asks_for(call)),
        2 => length,
        _ => random.upto(length),
    };
    let left = length.saturating_sub(position);
    let argument = match call {
        WithBitLen => random.upto(bits + 8),
        ReadBits => random.below(68),
        ReadSerializedInt if random.below(2) == 0 => random.below(70),
        ReadSerializedInt => (1 << random.below(32)) + random.below(3),
        _ if random.below(4) == 0 => left.saturating_add(random.below(3)).saturating_sub(1),
        _ => random.upto(left),
    };
    let exact = argument.div_ceil(8) as usize;
    let m = random.one_of(&[exact, exact + 1, exact + 3, exact.saturating_sub(1)]);
    with_target(Case::new(call, &data, [start, position, length], argument), m)
}

fn record(case: &Case, answer: &mut Answer) -> String {
    expected(case, answer);
    let mut words = answer.words;
    if answer.beside != NO_FLOAT {
        words[2] = answer.beside;
    }
    let Case { call, data, window, argument, target } = case;
    let line = Line { call: *call as u8, data, window: *window, argument: *argument, before: target, words, after: &answer.bytes };
    line.text()
}

/// Prints about `wanted` records, always the same ones.
pub fn print(wanted: usize) {
    let mut random = Random::new(SEED);
    let mut lists: Vec<_> = TURN.iter().map(|&(call, _)| boundaries(call, &mut random).into_iter()).collect();
    let mut printed = HashSet::new();
    let mut answer = Answer::default();
    let mut out = std::io::stdout().lock();
    while printed.len() < wanted {
        for ((call, times), list) in TURN.iter().zip(&mut lists) {
            for _ in 0..*times {
                let case = list.next().unwrap_or_else(|| random_case(*call, &mut random));
                let line = record(&case, &mut answer);
                if printed.insert(line.clone()) && writeln!(out, "{line}").is_err() {
                    return;
                }
            }
        }
    }
}
