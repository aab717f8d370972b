// The expected answers: the Rust's on its domain, and document 01's refusals 5, 6 and 7 where the Rust isn't asked.

use super::Call::*;
use super::{Answer, Call, Case, NO_FLOAT};
use crate::window::{Window, Words, refusal, too_long, unsound};
use vrf_bitio::BitReader;

/// "then 5, 6": a width. The short copy target, 4 and 1 to 3 are the Rust's own.
fn refused_before_the_rust(call: Call, n: u64, window: Window, argument: u64) -> Option<Words> {
    if !call.takes_window() {
        return too_long(n);
    }
    unsound(n, window).or((call == ReadBits && argument > 64).then_some([6, argument, 0, 0]))
}

fn value(number: u64) -> Words {
    [0, number, 0, 0]
}

/// A float's words, and its bits beside them where it is a number.
fn float(bits: u64, is_nan: bool, beside: &mut u64) -> Words {
    if is_nan {
        return [0, 1, bits, 0];
    }
    *beside = bits;
    [0; 4]
}

/// One call that reads, of the Rust: its words, with the window moved.
fn asked(call: Call, data: &[u8], window: &mut Window, argument: u64, target: &mut [u8], beside: &mut u64) -> Words {
    let [start_bit, pos, len] = *window;
    let mut reader = BitReader { data, start_bit, pos, len };
    let answer = match call {
        ReadBit => reader.read_bit().map(|bit| value(u64::from(bit))),
        ReadBits => reader.read_bits(argument as u32).map(value),
        ReadU8 => reader.read_u8().map(|v| value(u64::from(v))),
        ReadU16 => reader.read_u16().map(|v| value(u64::from(v))),
        ReadU32 => reader.read_u32().map(|v| value(u64::from(v))),
        ReadI32 => reader.read_i32().map(|v| value(u64::from(v as u32))),
        ReadU64 => reader.read_u64().map(value),
        ReadF32 => reader.read_f32().map(|v| float(u64::from(v.to_bits()), v.is_nan(), beside)),
        ReadF64 => reader.read_f64().map(|v| float(v.to_bits(), v.is_nan(), beside)),
        ReadIntPacked => reader.read_int_packed().map(|v| value(u64::from(v))),
        ReadSerializedInt => reader.read_serialized_int(argument as u32).map(|v| value(u64::from(v))),
        CopyBitsTo => reader.copy_bits_to(target, argument).map(|()| [0; 4]),
        SubReader => reader.sub_reader(argument).map(|child| [0, child.start_bit, child.pos, child.len]),
        SkipBits => reader.skip_bits(argument).map(|()| [0; 4]),
        SkipRemaining => {
            reader.skip_remaining();
            Ok([0; 4])
        }
        _ => unreachable!("answered without reading"),
    };
    *window = [reader.start_bit, reader.pos, reader.len];
    answer.unwrap_or_else(|error| refusal(&error))
}

fn one(case: &Case, window: &mut Window, target: &mut [u8], beside: &mut u64) -> Words {
    match refused_before_the_rust(case.call, case.data.len() as u64, *window, case.argument) {
        Some(words) => words,
        None => asked(case.call, &case.data, window, case.argument, target, beside),
    }
}

fn made(case: &Case, window: &mut Window) -> Words {
    *window = [0; 3];
    if let Some(words) = refused_before_the_rust(case.call, case.data.len() as u64, *window, 0) {
        return words;
    }
    let reader = match case.call {
        New => Ok(BitReader::new(&case.data)),
        _ => BitReader::with_bit_len(&case.data, case.argument),
    };
    match reader {
        Ok(reader) => {
            *window = [reader.start_bit, reader.pos, reader.len];
            [0; 4]
        }
        Err(error) => refusal(&error),
    }
}

/// The calls on a window without its data.
fn told(case: &Case) -> Words {
    let [start_bit, pos, len] = case.window;
    let reader = BitReader { data: &[], start_bit, pos, len };
    match case.call {
        Position => value(reader.position()),
        LenBits => value(reader.len_bits()),
        AtEnd => value(u64::from(reader.at_end())),
        _ if pos > len => [5, pos, len, 0],
        _ => value(reader.bits_remaining()),
    }
}

pub fn expected(case: &Case, answer: &mut Answer) {
    let mut window = case.window;
    answer.beside = NO_FLOAT;
    answer.bytes.clear();
    answer.damage = None;
    let words = match case.call {
        New | WithBitLen => made(case, &mut window),
        Position | LenBits | BitsRemaining | AtEnd => told(case),
        _ => {
            let Answer { bytes, beside, .. } = answer;
            bytes.extend_from_slice(&case.target);
            one(case, &mut window, bytes, beside)
        }
    };
    answer.words[..4].copy_from_slice(&words);
    answer.words[4..].copy_from_slice(&window);
}
