// The record walks: one call for a long stream, ours through the C functions, the Rust's into a sink that stores the same four
// numbers for each record.

use crate::abi::*;
use crate::bits::Bits;
use crate::inputs::{FIRST_BIT, realistic_length};
use crate::random::Random;
use crate::timing::Timing;
use vrf_bitio::BitReader;
use vrf_net::field::{FieldSink, parse_class_net_cache_content_block, parse_rep_layout_impl};

type Record = [u64; 4];

/// A processor can learn the branches of a short stream by heart when it is walked again and again, so longer ones are timed too.
const SIZES: [usize; 3] = [4096, 16384, 65536];

struct Store<'a> {
    places: &'a mut [Record],
    count: usize,
}

impl Store<'_> {
    #[inline(always)]
    fn found(&mut self, handle: u32, bit_count: u32, payload: &BitReader<'_>) {
        if let Some(place) = self.places.get_mut(self.count) {
            let at = payload.start_bit;
            *place = [u64::from(handle), u64::from(bit_count), at - FIRST_BIT, at];
        }
        self.count += 1;
    }
}

impl FieldSink for Store<'_> {
    fn on_field(&mut self, handle: u32, bit_count: u32, reader: BitReader<'_>) {
        self.found(handle, bit_count, &reader);
    }

    fn on_rpc(&mut self, handle: u32, bit_count: u32, reader: BitReader<'_>) {
        self.found(handle, bit_count, &reader);
    }
}

/// A number whose packed form has mostly one byte, some two, few more.
fn small(random: &mut Random) -> u64 {
    let most = 1 << (7 * realistic_length(random).min(2));
    1 + random.below(most - 1)
}

struct Stream {
    records: usize,
    data: Vec<u8>,
    /// From FIRST_BIT on.
    length: u64,
    /// None where the records are RepLayout's.
    function_count: Option<u32>,
    retain: bool,
}

fn stream(records: usize, function_count: Option<u32>, retain: bool) -> Stream {
    let mut random = Random::new(5);
    let mut bits = Bits::default();
    bits.noise(&mut random, FIRST_BIT + u64::from(function_count.is_none()));
    for _ in 0..records {
        match function_count {
            None => bits.packed(small(&mut random), 1),
            Some(count) => bits.serialized(random.below(u64::from(count)), u64::from(count.max(2))),
        }
        let width = small(&mut random).min(400);
        bits.packed(width, 1);
        bits.noise(&mut random, width);
    }
    if function_count.is_none() {
        bits.packed(0, 1);
    }
    Stream { records, data: bits.bytes, length: bits.count - FIRST_BIT, function_count, retain }
}

/// What both sides answer: the count, and where the reader then stands.
fn told(count: u64, position: u64) -> u64 {
    count << 40 | position
}

fn rust(stream: &Stream, places: &mut [Record]) -> u64 {
    let mut reader = BitReader { data: &stream.data, start_bit: FIRST_BIT, pos: 0, len: stream.length };
    let mut sink = Store { places, count: 0 };
    let count = match stream.function_count {
        None => parse_rep_layout_impl(&mut reader, &mut sink, None, stream.retain).0,
        Some(functions) => parse_class_net_cache_content_block(&mut reader, functions, &mut sink, None).0,
    };
    told(u64::from(count), reader.pos)
}

fn ours(stream: &Stream, places: &mut [Record]) -> u64 {
    let (bytes, n, list, k) = (stream.data.as_ptr(), stream.data.len(), places.as_mut_ptr(), places.len());
    let length = stream.length;
    let mut out = [0; 8];
    unsafe {
        match stream.function_count {
            Some(functions) => {
                gritwheel_parse_class_net_cache(bytes, n, FIRST_BIT, 0, length, functions, list, k, &mut out);
            }
            None if stream.retain => {
                gritwheel_parse_rep_layout_content_block(bytes, n, FIRST_BIT, 0, length, list, k, &mut out);
            }
            None => gritwheel_parse_rep_layout(bytes, n, FIRST_BIT, 0, length, list, k, &mut out),
        }
    }
    told(out[7], out[5])
}

/// Ours into a list of field records, after the walk on numbers.
fn listed(stream: &Stream, records: &mut [FieldRecord], numbers: &mut [Record]) -> u64 {
    let (bytes, n, length) = (stream.data.as_ptr(), stream.data.len(), stream.length);
    let (kind, functions) = match stream.function_count {
        Some(functions) => (2, functions),
        None => (u32::from(stream.retain), 0),
    };
    let (list, i, on, k) = (records.as_mut_ptr(), records.len(), numbers.as_mut_ptr(), numbers.len());
    let mut out = [0; 8];
    unsafe { gritwheel_list_records(bytes, n, FIRST_BIT, 0, length, kind, functions, list, i, on, k, &mut out) };
    told(out[7], out[5])
}

fn case(timing: &Timing, name: &str, stream: &Stream) {
    let name = &format!("{name}, {}", stream.records);
    let (mut first, mut second) = (vec![[0; 4]; stream.records], vec![[1; 4]; stream.records]);
    let whole = told(stream.records as u64, stream.length);
    if rust(stream, &mut first) != whole || ours(stream, &mut second) != whole || first != second {
        println!("{name}: the records differ, or a walk doesn't reach the end");
        std::process::exit(1);
    }
    timing.compare(name, stream.records, || rust(stream, &mut first), || ours(stream, &mut second));
    let mut records = vec![FieldRecord { handle: 0, bit_count: 0, in_window: 0, in_packet: 0 }; stream.records];
    let numbers = |r: &FieldRecord| [u64::from(r.handle), u64::from(r.bit_count), r.in_window, r.in_packet];
    let name = &format!("{name}, into field records");
    if listed(stream, &mut records, &mut second) != whole || !records.iter().map(numbers).eq(first.iter().copied()) {
        println!("{name}: the records differ");
        std::process::exit(1);
    }
    timing.compare(name, stream.records, || rust(stream, &mut first), || listed(stream, &mut records, &mut second));
}

pub fn run(timing: &Timing) {
    for size in SIZES {
        case(timing, "parse_rep_layout", &stream(size, None, false));
        case(timing, "parse_rep_layout_content_block", &stream(size, None, true));
        for count in [1, 48, 60, 1000] {
            case(timing, &format!("parse_class_net_cache of {count}"), &stream(size, Some(count), false));
        }
    }
}
