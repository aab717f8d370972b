// Many reads in one call, so that the cost of a foreign call doesn't show; the Rust does the same loop.

use crate::inputs::{self, FIRST_BIT, Input};
use crate::timing::Timing;
use vrf_bitio::{BitReader, Result};

macro_rules! loops {
    ($($name:ident($($argument:ident: $kind:ty),*);)*) => {
        unsafe extern "C" {
            $(fn $name(
                bytes: *const u8, n: usize, start: u64, position: u64, length: u64, $($argument: $kind,)*
            ) -> u64;)*
        }
    };
}

// The functions of the crates bench_bitio and bench_reader. Nothing checks these lines against their source.
loops! {
    timing_read_bit(reads: u64);
    timing_read_bits(widths: *const u32, k: usize);
    timing_read_int_packed(reads: u64);
    timing_read_serialized_int(maxima: *const u32, k: usize);
    timing_copy(counts: *const u64, k: usize, target: *mut u8, m: usize);
    timing_reader_read_bits(widths: *const u32, k: usize);
    timing_reader_read_int_packed(reads: u64);
}

// A loop over bytes, a window and one width for each read; and over a number of reads.
type Bits = unsafe extern "C" fn(*const u8, usize, u64, u64, u64, *const u32, usize) -> u64;
type Packed = unsafe extern "C" fn(*const u8, usize, u64, u64, u64, u64) -> u64;

/// The data with its window from `start` to the end, as the C functions take them.
macro_rules! ours {
    ($name:ident, $data:expr, $start:expr, $($argument:expr),*) => {{
        let (data, start): (&[u8], u64) = ($data, $start);
        unsafe { $name(data.as_ptr(), data.len(), start, 0, 8 * data.len() as u64 - start, $($argument),*) }
    }};
}

fn reader(data: &[u8], start_bit: u64) -> BitReader<'_> {
    BitReader { data, start_bit, pos: 0, len: 8 * data.len() as u64 - start_bit }
}

/// The Rust's loop: the sum of what is read, until one is refused or there are no more to read.
#[inline(always)]
fn sum<A>(
    data: &[u8],
    arguments: impl Iterator<Item = A>,
    read: &impl Fn(&mut BitReader<'_>, A) -> Result<u64>,
) -> u64 {
    let mut reader = reader(data, FIRST_BIT);
    let mut sum = 0u64;
    for argument in arguments {
        match read(&mut reader, argument) {
            Ok(value) => sum = sum.wrapping_add(value),
            Err(_) => return sum,
        }
    }
    sum
}

/// Both sides' sums, of reads none of which may be refused.
fn compare<A>(
    timing: &Timing,
    name: &str,
    data: &[u8],
    arguments: impl ExactSizeIterator<Item = A> + Clone,
    read: impl Fn(&mut BitReader<'_>, A) -> Result<u64>,
    ours: impl Fn() -> u64,
) {
    let mut once = reader(data, FIRST_BIT);
    if !arguments.clone().all(|argument| read(&mut once, argument).is_ok()) {
        println!("{name}: the Rust refuses a read");
        std::process::exit(1);
    }
    timing.compare(name, arguments.len(), || sum(data, arguments.clone(), &read), ours);
}

fn bit_case(timing: &Timing, name: &str, Input { data, operations, .. }: Input) {
    let n = operations as u64;
    compare(
        timing,
        name,
        &data,
        0..operations,
        |reader, _| reader.read_bit().map(u64::from),
        || ours!(timing_read_bit, &data, FIRST_BIT, n),
    );
}

fn bits_case(timing: &Timing, name: &str, Input { data, narrow, .. }: Input, ours: Bits) {
    compare(
        timing,
        name,
        &data,
        narrow.iter(),
        |reader, &width| reader.read_bits(width),
        || ours!(ours, &data, FIRST_BIT, narrow.as_ptr(), narrow.len()),
    );
}

fn packed_case(timing: &Timing, name: &str, Input { data, operations, .. }: Input, ours: Packed) {
    let n = operations as u64;
    compare(
        timing,
        name,
        &data,
        0..operations,
        |reader, _| reader.read_int_packed().map(u64::from),
        || ours!(ours, &data, FIRST_BIT, n),
    );
}

fn serialized_case(timing: &Timing, name: &str, Input { data, narrow, .. }: Input) {
    compare(
        timing,
        name,
        &data,
        narrow.iter(),
        |reader, &max| reader.read_serialized_int(max).map(u64::from),
        || ours!(timing_read_serialized_int, &data, FIRST_BIT, narrow.as_ptr(), narrow.len()),
    );
}

#[inline(never)]
fn rust_copies(data: &[u8], start: u64, counts: &[u64], target: &mut [u8]) -> u64 {
    let mut reader = reader(data, start);
    for (index, &count) in counts.iter().enumerate() {
        if reader.copy_bits_to(target, count).is_err() {
            return index as u64;
        }
    }
    counts.len() as u64
}

fn our_copies(data: &[u8], start: u64, counts: &[u64], target: &mut [u8]) -> u64 {
    ours!(timing_copy, data, start, counts.as_ptr(), counts.len(), target.as_mut_ptr(), target.len())
}

fn copy_case(timing: &Timing, size: usize, start: u64) {
    let Input { data, wide, operations, .. } = inputs::copies(size);
    let aligned = if start == 0 { "aligned" } else { "unaligned" };
    let name = format!("copy_bits_to, loop, {size} bytes, {aligned}");
    let (mut first, mut second) = (vec![0; size], vec![0; size]);
    let made = rust_copies(&data, start, &wide, &mut first);
    our_copies(&data, start, &wide, &mut second);
    if made != operations as u64 || first != second {
        println!("{name}: the copies differ, or the Rust refuses one");
        std::process::exit(1);
    }
    timing.compare(
        &name,
        operations,
        || rust_copies(&data, start, &wide, &mut first),
        || our_copies(&data, start, &wide, &mut second),
    );
}

pub fn run(timing: &Timing) {
    bit_case(timing, "read_bit, loop", inputs::bits(16384));
    let widths = |most| inputs::with_arguments(4096, move |random| 1 + random.below(most));
    bits_case(timing, "read_bits, loop, widths 1 to 64", widths(64), timing_read_bits);
    bits_case(timing, "read_bits, loop, widths 1 to 16", widths(16), timing_read_bits);
    bits_case(timing, "read_bits, loop, reader, widths 1 to 64", widths(64), timing_reader_read_bits);
    let short = |reads| inputs::packed(reads, inputs::realistic_length);
    packed_case(timing, "read_int_packed, loop, mostly 1 or 2 bytes", short(4096), timing_read_int_packed);
    let every = inputs::packed(4096, |random| 1 + random.below(5));
    packed_case(timing, "read_int_packed, loop, 1 to 5 bytes", every, timing_read_int_packed);
    // So long that a processor can't learn the branches by heart.
    packed_case(timing, "read_int_packed, loop, mostly 1 or 2, 65536", short(65536), timing_read_int_packed);
    packed_case(timing, "read_int_packed, loop, reader, mostly 1 or 2", short(4096), timing_reader_read_int_packed);
    let mixed = inputs::with_arguments(4096, inputs::mixed_maximum);
    serialized_case(timing, "read_serialized_int, loop, mixed maxima", mixed);
    let long = inputs::with_arguments(65536, inputs::mixed_maximum);
    serialized_case(timing, "read_serialized_int, loop, mixed, 65536", long);
    serialized_case(timing, "read_serialized_int, loop, 16384", inputs::with_arguments(4096, |_| 16384));
    for size in [16, 64, 256, 1024, 2048] {
        copy_case(timing, size, 0);
        copy_case(timing, size, FIRST_BIT);
    }
}
