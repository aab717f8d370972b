// The packet reader: packets in a row on one reader's tables, ours through the C function, one bunch a call, the Rust's with a
// callback. Both add up every field of every header.

use crate::abi::*;
use crate::bits::Bits;
use crate::header;
use crate::inputs::realistic_length;
use crate::random::Random;
use crate::timing::Timing;
use vrf_bitio::BitReader;
use vrf_net::bunch::RawBunchHeader;
use vrf_net::packet::RawPacketReader;

// The crate bench_packet's function: one bunch over tables that were tested. Nothing checks these lines against its source.
unsafe extern "C" {
    #[rustfmt::skip]
    fn timing_read_bunch(
        packet: *const u8, n: usize, id: u32, at: u64, max_channels: usize, sequences: usize, partials: usize,
        sequence_channels: *mut u32, i: usize, sequence_numbers: *mut u32, j: usize, partial_channels: *mut u32, k: usize,
        partial_sequences: *mut u32, l: usize, partial_reliables: *mut u32, m: usize, out: *mut BunchOut,
    );
}

const BUNCHES: usize = 15_000;

struct Packets {
    /// So many channels are open before the first packet, and none is closed.
    channels: usize,
    list: Vec<Vec<u8>>,
    bunches: usize,
}

fn bunch(random: &mut Random, bits: &mut Bits, channel: u64) {
    let (reliable, partial) = (random.below(2) == 0, random.below(4) == 0);
    bits.push(0, 2);
    bits.push(reliable.into(), 1);
    bits.packed(channel, 1);
    bits.push(random.below(4), 2);
    bits.push(partial.into(), 1);
    bits.push(0, 1);
    if partial {
        bits.push(random.below(4), 2);
    }
    if reliable {
        bits.push(1, 1);
        bits.packed(random.below(200), 1);
    }
    let width = 8 * realistic_length(random) * random.below(12);
    bits.serialized(width, 16_384);
    bits.noise(random, width);
}

/// Some ten bunches a packet; every channel is about as often met. Their numbers are so far apart.
fn packets(channels: usize, apart: u64) -> Packets {
    let mut random = Random::new(6);
    let mut list = Vec::new();
    let mut bunches = 0;
    while bunches < BUNCHES {
        let mut bits = Bits::default();
        let count = 5 + random.below(11);
        for _ in 0..count {
            let channel = apart * random.below(channels as u64);
            bunch(&mut random, &mut bits, channel);
        }
        bits.push(1, 1);
        list.push(bits.bytes);
        bunches += count as usize;
    }
    Packets { channels, list, bunches }
}

fn mixed(sum: u64, field: u64) -> u64 {
    sum.rotate_left(1).wrapping_add(field)
}

fn header_sum(sum: u64, header: &RawBunchHeader, payload: &BitReader<'_>) -> u64 {
    let fields = header::words(header).into_iter().chain([payload.start_bit, payload.pos, payload.len]);
    fields.fold(sum, mixed)
}

fn rust(packets: &Packets, reader: &mut RawPacketReader) -> u64 {
    for number in reader.in_reliable_sequence.values_mut() {
        *number = 0;
    }
    reader.partial_bunches.clear();
    let mut sum = 0;
    for (id, packet) in packets.list.iter().enumerate() {
        let result = reader.read_packet(packet, id as i32, |header, payload| sum = header_sum(sum, header, &payload));
        sum = mixed(sum, u64::from(result.bunch_count) + u64::from(result.partial_error_count));
    }
    sum
}

fn ours(packets: &Packets, columns: &mut [Vec<u32>; 5], tested: bool) -> u64 {
    let n = packets.channels;
    columns[1][..n].fill(0);
    let [a, b, c, d, e] = columns.each_mut().map(Vec::as_mut_ptr);
    let k = columns[0].len();
    let (mut sequences, mut partials) = (n, 0);
    let mut sum = 0;
    let mut out = [0; 34];
    for (id, packet) in packets.list.iter().enumerate() {
        let (mut at, mut counted) = (0, 0);
        loop {
            let (bytes, n) = (packet.as_ptr(), packet.len());
            unsafe {
                if tested {
                    timing_read_bunch(bytes, n, id as u32, at, k, sequences, partials, a, k, b, k, c, k, d, k, e, k, &mut out);
                } else {
                    gritwheel_read_bunch(bytes, n, id as i32, at, k, sequences, partials, a, k, b, k, c, k, d, k, e, k, &mut out);
                }
            }
            (at, sequences, partials) = (out[4], out[9] as usize, out[10] as usize);
            counted += out[5] + out[7];
            if out[3] != 0 {
                break;
            }
            sum = out[11..].iter().copied().fold(sum, mixed);
        }
        sum = mixed(sum, counted);
    }
    sum
}

pub fn run(timing: &Timing) {
    for (channels, apart) in [(16, 1), (232, 1), (232, 3), (4096, 1), (4096, 3)] {
        let packets = packets(channels, apart);
        let mut reader = RawPacketReader::new();
        let mut columns: [Vec<u32>; 5] = std::array::from_fn(|_| vec![0; 4096]);
        for place in 0..channels {
            let channel = apart as u32 * place as u32;
            reader.in_reliable_sequence.insert(channel, 0);
            columns[0][place] = channel;
        }
        for (how, tested) in [("inner", true), ("by the public call", false)] {
            let name = format!("read_bunch, {channels} channels{}, {how}", if apart == 1 { "" } else { " with gaps" });
            timing.compare(&name, packets.bunches, || rust(&packets, &mut reader), || ours(&packets, &mut columns, tested));
        }
    }
}
