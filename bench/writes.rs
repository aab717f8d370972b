// The bunch writer: packets filled with bunches and closed, ours through the C functions. The Rust has no writer; two plain ones
// (pushers.rs) stand for it. They test nothing, ours makes all its tests in each call.

use crate::abi::*;
use crate::inputs::realistic_length;
use crate::pushers::{ByBytes, ByWords, Pusher};
use crate::random::Random;
use crate::timing::Timing;

const PACKET_BYTES: usize = 8_192;
const PACKETS: usize = 16;

struct Bunch {
    ch_index: u32,
    open: bool,
    close: bool,
    dormant: bool,
    paused: bool,
    reliable: bool,
    partial: bool,
    initial: bool,
    last: bool,
    exports: bool,
    mapped: bool,
    payload: Vec<u8>,
    count: usize,
}

impl Bunch {
    fn drawn(random: &mut Random, bytes: usize) -> Self {
        let channels = 1 << (7 * realistic_length(random));
        let ch_index = random.below(channels) as u32;
        let mut one_in = |count: u64| random.below(count) == 0;
        let (close, partial) = (one_in(16), one_in(4));
        Self {
            ch_index,
            open: one_in(16),
            close,
            dormant: close && one_in(2),
            paused: one_in(16),
            reliable: one_in(2),
            partial,
            initial: partial && one_in(2),
            last: partial && one_in(2),
            exports: one_in(8),
            mapped: one_in(8),
            payload: (0..bytes).map(|_| random.next() as u8).collect(),
            count: 8 * bytes - random.below(8) as usize,
        }
    }

    #[inline(never)]
    fn write<'a>(&self, bits: &mut impl Pusher<'a>) {
        bits.push_flag(self.open || self.close);
        if self.open || self.close {
            bits.push_flag(self.open);
            bits.push_flag(self.close);
        }
        if self.close {
            bits.push_bits(self.dormant.into(), 4);
        }
        bits.push_flag(self.paused);
        bits.push_flag(self.reliable);
        bits.push_packed(self.ch_index);
        bits.push_flag(self.exports);
        bits.push_flag(self.mapped);
        bits.push_flag(self.partial);
        bits.push_flag(false);
        if self.partial {
            bits.push_flag(self.initial);
            bits.push_flag(self.last);
        }
        if self.reliable || self.open {
            bits.push_flag(false);
            bits.push_packed(0);
        }
        bits.push_bits(self.count as u64, 14);
        bits.push_payload(&self.payload, self.count);
    }

    #[rustfmt::skip]
    fn write_ours(&self, packet: &mut [u8], at: u64, out: &mut WriteOut) {
        let (payload, n, bytes, m) = (self.payload.as_ptr(), self.payload.len(), packet.as_mut_ptr(), packet.len());
        unsafe {
            gritwheel_write_bunch(
                self.ch_index, self.open, self.close, self.dormant, self.dormant, self.paused, self.reliable, self.partial,
                self.initial, self.last, self.exports, self.mapped, payload, n, self.count as u64, bytes, m, at, out,
            );
        }
    }
}

/// Bunches that fit into each packet with its end mark.
fn rows(bytes: usize) -> Vec<Vec<Bunch>> {
    let mut random = Random::new(7);
    let most_header = 86;
    let count = 8 * PACKET_BYTES / (8 * bytes + most_header);
    (0..PACKETS).map(|_| (0..count).map(|_| Bunch::drawn(&mut random, bytes)).collect()).collect()
}

/// Each row's packet in its place, and the sum of their lengths in bytes.
fn plain<'a, P: Pusher<'a>>(rows: &[Vec<Bunch>], packets: &'a mut [u8]) -> u64 {
    let mut sum = 0;
    for (row, packet) in rows.iter().zip(packets.chunks_mut(PACKET_BYTES)) {
        let mut bits = P::new(packet);
        for bunch in row {
            bunch.write(&mut bits);
        }
        sum += bits.close();
    }
    sum
}

fn ours(rows: &[Vec<Bunch>], packets: &mut [u8]) -> u64 {
    let mut sum = 0;
    let mut out = [0; 3];
    for (row, packet) in rows.iter().zip(packets.chunks_mut(PACKET_BYTES)) {
        let mut at = 0;
        for bunch in row {
            bunch.write_ours(packet, at, &mut out);
            at = out[1];
        }
        unsafe { gritwheel_close_packet(packet.as_mut_ptr(), packet.len(), at, &mut out) };
        sum += out[1] / 8;
    }
    sum
}

fn case(timing: &Timing, name: &str, rows: &[Vec<Bunch>], plain: impl Fn(&[Vec<Bunch>], &mut [u8]) -> u64) {
    let (mut first, mut second) = (vec![0; PACKETS * PACKET_BYTES], vec![0; PACKETS * PACKET_BYTES]);
    let written = plain(rows, &mut first);
    if ours(rows, &mut second) != written || first != second {
        println!("{name}: the packets differ");
        std::process::exit(1);
    }
    timing.rates(name, written, || plain(rows, &mut first), || ours(rows, &mut second));
}

pub fn run(timing: &Timing) {
    for bytes in [16, 100, 1_000] {
        let rows = rows(bytes);
        case(timing, &format!("write_bunch, {bytes} bytes, Rust by bytes"), &rows, |rows, to| plain::<ByBytes>(rows, to));
        case(timing, &format!("write_bunch, {bytes} bytes, Rust by words"), &rows, |rows, to| plain::<ByWords>(rows, to));
    }
}
