// One call at a time: ours through the C functions, the Rust's behind a wrapper that isn't inlined.

use crate::abi::*;
use crate::inputs::{self, FIRST_BIT, Input};
use crate::timing::Timing;
use vrf_bitio::{BitReader, Result};

#[inline(never)]
fn read_bit(reader: &mut BitReader<'_>) -> Result<bool> {
    reader.read_bit()
}

#[inline(never)]
fn read_bits(reader: &mut BitReader<'_>, count: u32) -> Result<u64> {
    reader.read_bits(count)
}

#[inline(never)]
fn read_int_packed(reader: &mut BitReader<'_>) -> Result<u32> {
    reader.read_int_packed()
}

#[inline(never)]
fn read_serialized_int(reader: &mut BitReader<'_>, max: u32) -> Result<u32> {
    reader.read_serialized_int(max)
}

#[inline(never)]
fn copy_bits_to(reader: &mut BitReader<'_>, target: &mut [u8], count: u64) -> Result<()> {
    reader.copy_bits_to(target, count)
}

/// A refused read's part in the sum; the inputs give none, so one shows as a difference.
const REFUSED: u64 = 0x5eed;

/// The sum of all values and of the place where the reader then stands.
fn rust_reads(data: &[u8], operations: usize, mut read: impl FnMut(&mut BitReader<'_>, usize) -> Result<u64>) -> u64 {
    let len = 8 * data.len() as u64 - FIRST_BIT;
    let mut reader = BitReader { data, start_bit: FIRST_BIT, pos: 0, len };
    let mut sum = 0u64;
    for index in 0..operations {
        sum = sum.wrapping_add(read(&mut reader, index).unwrap_or(REFUSED));
    }
    sum.wrapping_add(reader.pos << 40)
}

fn our_reads(data: &[u8], operations: usize, mut read: impl FnMut(&mut Out, usize)) -> u64 {
    let mut out = [0, 0, 0, 0, FIRST_BIT, 0, 8 * data.len() as u64 - FIRST_BIT];
    let mut sum = 0u64;
    for index in 0..operations {
        read(&mut out, index);
        sum = sum.wrapping_add(if out[0] == 0 { out[1] } else { !REFUSED });
    }
    sum.wrapping_add(out[5] << 40)
}

/// One C call whose window is the one that the call before left in `out`.
macro_rules! call {
    ($name:ident, $data:expr, $out:expr $(, $argument:expr)*) => {{
        let (data, out): (&[u8], &mut Out) = ($data, $out);
        let [_, _, _, _, start, position, length] = *out;
        unsafe { $name(data.as_ptr(), data.len(), start, position, length, $($argument,)* out) }
    }};
}

pub fn run(timing: &Timing) {
    let Input { data, operations, .. } = inputs::bits(16384);
    timing.compare(
        "read_bit, single calls",
        operations,
        || rust_reads(&data, operations, |reader, _| read_bit(reader).map(u64::from)),
        || our_reads(&data, operations, |out, _| call!(gritwheel_read_bit, &data, out)),
    );
    let Input { data, narrow, operations, .. } = inputs::with_arguments(4096, |random| 1 + random.below(64));
    timing.compare(
        "read_bits, single calls, widths 1 to 64",
        operations,
        || rust_reads(&data, operations, |reader, index| read_bits(reader, narrow[index])),
        || our_reads(&data, operations, |out, index| call!(gritwheel_read_bits, &data, out, narrow[index])),
    );
    packed(timing, "read_int_packed, single calls", 4096);
    serialized(timing, "read_serialized_int, single calls, mixed", 4096);
    // So long that a processor can't learn the branches by heart.
    packed(timing, "read_int_packed, single calls, 65536", 65536);
    serialized(timing, "read_serialized_int, single calls, mixed, 65536", 65536);
    copies(timing, 256);
}

fn packed(timing: &Timing, name: &str, reads: usize) {
    let Input { data, operations, .. } = inputs::packed(reads, inputs::realistic_length);
    timing.compare(
        name,
        operations,
        || rust_reads(&data, operations, |reader, _| read_int_packed(reader).map(u64::from)),
        || our_reads(&data, operations, |out, _| call!(gritwheel_read_int_packed, &data, out)),
    );
}

fn serialized(timing: &Timing, name: &str, reads: usize) {
    let Input { data, narrow, operations, .. } = inputs::with_arguments(reads, inputs::mixed_maximum);
    timing.compare(
        name,
        operations,
        || rust_reads(&data, operations, |reader, index| read_serialized_int(reader, narrow[index]).map(u64::from)),
        || our_reads(&data, operations, |out, index| call!(gritwheel_read_serialized_int, &data, out, narrow[index])),
    );
}

fn rust_copies(Input { data, wide, operations, .. }: &Input, target: &mut [u8]) -> u64 {
    rust_reads(data, *operations, |reader, index| copy_bits_to(reader, target, wide[index]).map(|()| 0))
}

fn our_copies(Input { data, wide, operations, .. }: &Input, target: &mut [u8]) -> u64 {
    our_reads(data, *operations, |out, index| {
        call!(gritwheel_copy_bits_to, data, out, target.as_mut_ptr(), target.len(), wide[index]);
    })
}

fn copies(timing: &Timing, size: usize) {
    let input = inputs::copies(size);
    let (mut first, mut second) = (vec![0; size], vec![0; size]);
    rust_copies(&input, &mut first);
    our_copies(&input, &mut second);
    if first != second {
        println!("copy_bits_to: the copies differ");
        std::process::exit(1);
    }
    timing.compare(
        &format!("copy_bits_to, single calls, {size} bytes"),
        input.operations,
        || rust_copies(&input, &mut first),
        || our_copies(&input, &mut second),
    );
}
