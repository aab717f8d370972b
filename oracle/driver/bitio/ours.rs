// Our answers: the C functions called with the same input, and the memory that they must leave alone looked at.

use super::Call::*;
use super::expected::expected;
use super::{Answer, CALLS, Case, NO_FLOAT};
use crate::abi::*;
use crate::compare;
use crate::lent::{PATTERN, UNWRITTEN, changed, guarded, lent, unguarded};

/// Before and after a lent target, to see writes past it.
const GUARD: [u8; 8] = [PATTERN; 8];

type Calls = unsafe fn(&Case, &[u8], &mut [u8], &mut f32, &mut f64, &mut Out);

/// The calls that are handed a window.
unsafe fn windows(case: &Case, data: &[u8], target: &mut [u8], single: &mut f32, double: &mut f64, out: &mut Out) {
    let (bytes, n) = (data.as_ptr(), data.len());
    let [start, position, length] = case.window;
    let narrow = case.argument as u32;
    let wide = case.argument;
    unsafe {
        match case.call {
            New => gritwheel_new(bytes, n, out),
            WithBitLen => gritwheel_with_bit_len(bytes, n, wide, out),
            BitsRemaining => gritwheel_bits_remaining(start, position, length, out),
            ReadBit => gritwheel_read_bit(bytes, n, start, position, length, out),
            ReadBits => gritwheel_read_bits(bytes, n, start, position, length, narrow, out),
            ReadU8 => gritwheel_read_u8(bytes, n, start, position, length, out),
            ReadU16 => gritwheel_read_u16(bytes, n, start, position, length, out),
            ReadU32 => gritwheel_read_u32(bytes, n, start, position, length, out),
            ReadI32 => gritwheel_read_i32(bytes, n, start, position, length, out),
            ReadU64 => gritwheel_read_u64(bytes, n, start, position, length, out),
            ReadF32 => gritwheel_read_f32(bytes, n, start, position, length, single, out),
            ReadF64 => gritwheel_read_f64(bytes, n, start, position, length, double, out),
            ReadIntPacked => gritwheel_read_int_packed(bytes, n, start, position, length, out),
            ReadSerializedInt => gritwheel_read_serialized_int(bytes, n, start, position, length, narrow, out),
            CopyBitsTo => {
                gritwheel_copy_bits_to(bytes, n, start, position, length, target.as_mut_ptr(), target.len(), wide, out);
            }
            SubReader => gritwheel_sub_reader(bytes, n, start, position, length, wide, out),
            SkipBits => gritwheel_skip_bits(bytes, n, start, position, length, wide, out),
            SkipRemaining => gritwheel_skip_remaining(bytes, n, start, position, length, out),
            Position => told(case, gritwheel_position(start, position, length), out),
            LenBits => told(case, gritwheel_len_bits(start, position, length), out),
            AtEnd => told(case, u64::from(gritwheel_at_end(start, position, length)), out),
        }
    }
}

/// The same through the reader that keeps its slice: a call for each of its methods.
unsafe fn reader(case: &Case, data: &[u8], target: &mut [u8], single: &mut f32, double: &mut f64, out: &mut Out) {
    let (bytes, n) = (data.as_ptr(), data.len());
    let [start, position, length] = case.window;
    let narrow = case.argument as u32;
    let wide = case.argument;
    unsafe {
        match case.call {
            New => gritwheel_reader_new(bytes, n, out),
            WithBitLen => gritwheel_reader_with_bit_len(bytes, n, wide, out),
            BitsRemaining => gritwheel_reader_bits_remaining(bytes, n, start, position, length, out),
            ReadBit => gritwheel_reader_read_bit(bytes, n, start, position, length, out),
            ReadBits => gritwheel_reader_read_bits(bytes, n, start, position, length, narrow, out),
            ReadU8 => gritwheel_reader_read_u8(bytes, n, start, position, length, out),
            ReadU16 => gritwheel_reader_read_u16(bytes, n, start, position, length, out),
            ReadU32 => gritwheel_reader_read_u32(bytes, n, start, position, length, out),
            ReadI32 => gritwheel_reader_read_i32(bytes, n, start, position, length, out),
            ReadU64 => gritwheel_reader_read_u64(bytes, n, start, position, length, out),
            ReadF32 => gritwheel_reader_read_f32(bytes, n, start, position, length, single, out),
            ReadF64 => gritwheel_reader_read_f64(bytes, n, start, position, length, double, out),
            ReadIntPacked => gritwheel_reader_read_int_packed(bytes, n, start, position, length, out),
            ReadSerializedInt => gritwheel_reader_read_serialized_int(bytes, n, start, position, length, narrow, out),
            CopyBitsTo => {
                gritwheel_reader_copy_bits_to(bytes, n, start, position, length, target.as_mut_ptr(), target.len(), wide, out);
            }
            SubReader => gritwheel_reader_sub_reader(bytes, n, start, position, length, wide, out),
            SkipBits => gritwheel_reader_skip_bits(bytes, n, start, position, length, wide, out),
            SkipRemaining => gritwheel_reader_skip_remaining(bytes, n, start, position, length, out),
            Position => told(case, gritwheel_reader_position(bytes, n, start, position, length), out),
            LenBits => told(case, gritwheel_reader_len_bits(bytes, n, start, position, length), out),
            AtEnd => told(case, u64::from(gritwheel_reader_at_end(bytes, n, start, position, length)), out),
        }
    }
}

/// The calls that answer with a number alone, in the other calls' form.
fn told(case: &Case, number: u64, out: &mut Out) {
    let [start, position, length] = case.window;
    *out = [0, number, 0, 0, start, position, length];
}

fn once(calls: Calls, case: &Case, data: &[u8], target: &mut [u8], beside: &mut u64, out: &mut Out) {
    let mut single = f32::from_bits(NO_FLOAT as u32);
    let mut double = f64::from_bits(NO_FLOAT);
    unsafe { calls(case, data, target, &mut single, &mut double, out) };
    if case.call == ReadF32 && single.to_bits() != NO_FLOAT as u32 {
        *beside = u64::from(single.to_bits());
    }
    if case.call == ReadF64 {
        *beside = double.to_bits();
    }
}

/// The call with a target, which stands between guards.
fn copy(calls: Calls, case: &Case, data: &[u8], answer: &mut Answer, out: &mut Out) {
    let Answer { bytes, beside, .. } = answer;
    guarded(bytes, case.target.iter().copied(), &GUARD);
    let target = &mut bytes[GUARD.len()..][..case.target.len()];
    once(calls, case, data, target, beside, out);
    if !unguarded(bytes, &GUARD) {
        answer.damage = Some("memory around the target");
    }
}

fn answered(calls: Calls, case: &Case, data: &[u8], answer: &mut Answer) {
    answer.beside = NO_FLOAT;
    answer.bytes.clear();
    answer.damage = None;
    let mut out = [UNWRITTEN; 7];
    match case.call {
        CopyBitsTo => copy(calls, case, data, answer, &mut out),
        _ => once(calls, case, data, &mut [], &mut answer.beside, &mut out),
    }
    answer.words = out;
    answer.damage = answer.damage.or(changed(data, &case.data));
}

impl compare::Case for Case {
    const CASES: &[&str] = &["value"];
    const MET: &[(&str, &str)] = &[
        ("new", "refusal 7, value"),
        ("with_bit_len", "refusal 5, refusal 7, value"),
        ("position", "value"),
        ("len_bits", "value"),
        ("bits_remaining", "refusal 5, value"),
        ("at_end", "value"),
        ("read_bit", "refusal 1, refusal 5, refusal 7, value"),
        ("read_bits", "refusal 1, refusal 5, refusal 6, refusal 7, value"),
        ("read_u8", "refusal 1, refusal 5, refusal 7, value"),
        ("read_u16", "refusal 1, refusal 5, refusal 7, value"),
        ("read_u32", "refusal 1, refusal 5, refusal 7, value"),
        ("read_i32", "refusal 1, refusal 5, refusal 7, value"),
        ("read_u64", "refusal 1, refusal 5, refusal 7, value"),
        ("read_f32", "refusal 1, refusal 5, refusal 7, value"),
        ("read_f64", "refusal 1, refusal 5, refusal 7, value"),
        ("read_int_packed", "refusal 1, refusal 2, refusal 3, refusal 5, refusal 7, value"),
        ("read_serialized_int", "refusal 1, refusal 4, refusal 5, refusal 7, value"),
        ("copy_bits_to", "refusal 1, refusal 5, refusal 7, value"),
        ("sub_reader", "refusal 1, refusal 5, refusal 7, value"),
        ("skip_bits", "refusal 1, refusal 5, refusal 7, value"),
        ("skip_remaining", "refusal 5, refusal 7, value"),
    ];

    fn expected(&self, answer: &mut Answer) {
        expected(self, answer);
    }

    fn ours(&self, answer: &mut Answer, room: &mut Vec<u8>) {
        let data = lent(&self.data, room);
        let mut through = Answer::default();
        answered(reader, self, data, &mut through);
        answered(windows, self, data, answer);
        if through != *answer {
            answer.damage = Some("the reader that keeps its slice");
        }
    }

    fn call(&self) -> usize {
        self.call as usize
    }

    fn name(call: usize) -> &'static str {
        CALLS[call - 1].1
    }

    fn told(answer: &Answer) -> (u64, u64) {
        (answer.words[0], 0)
    }
}
