// The accumulator: chains of 8 fragments of 1,000 bytes, so many of them in flight in turn, each taken when it is finished; ours
// in a loop through the inner forms, with --cfg chains and their library, and through the C functions. Both sides go on from
// where they stood, and the chains stand at different fragments. The Rust's messages grow on the heap, ours don't: it is timed
// before the other cases, on an empty heap, where a message needn't move as it grows, and after them.

use crate::abi::*;
use crate::header;
use crate::random::Random;
use crate::timing::Timing;
use vrf_net::bunch::{PartialBunchAccumulator, RawBunchHeader};

/// Through which functions ours is called.
#[derive(Clone, Copy)]
enum How {
    Public,
    #[cfg(chains)]
    Inner,
}

#[cfg(chains)]
const HOW: [(&str, How); 2] = [("inner", How::Inner), ("public", How::Public)];
#[cfg(not(chains))]
const HOW: [(&str, How); 1] = [("public", How::Public)];

const FRAGMENTS: usize = 8;
const BYTES: usize = 1_000;
const MESSAGE: usize = FRAGMENTS * BYTES;
/// `timing_chains` takes as many in turn.
const PAYLOADS: usize = 61;

/// The fragments' headers, for ours as words; after the last the first comes again.
#[derive(Clone)]
struct Chains {
    flights: usize,
    headers: Vec<RawBunchHeader>,
    words: Vec<header::Words>,
    payloads: Vec<[u8; BYTES]>,
    next: usize,
}

impl Chains {
    fn new(flights: usize, adds: usize) -> Self {
        let mut random = Random::new(8);
        let payloads = (0..PAYLOADS).map(|_| std::array::from_fn(|_| random.next() as u8)).collect();
        let count = adds.max(FRAGMENTS * flights);
        let headers: Vec<_> = (0..count).map(|turn| fragment(flights, turn)).collect();
        let words = headers.iter().map(header::words).collect();
        Self { flights, headers, words, payloads, next: 0 }
    }

    /// The places of so many; their number divides that of the headers.
    fn turns(&mut self, adds: usize) -> std::ops::Range<usize> {
        let first = self.next;
        self.next = (first + adds) % self.headers.len();
        first..first + adds
    }
}

/// Channels in an order of their own, so that neighbours in turn aren't neighbours in the table.
fn fragment(flights: usize, turn: usize) -> RawBunchHeader {
    let (round, flight) = (turn / flights, turn % flights);
    let step = (round + flight) % FRAGMENTS;
    RawBunchHeader {
        packet_id: round as i32,
        ch_index: 7 + 3 * (flight * 1_001 % flights) as u32,
        b_reliable: true,
        b_partial: true,
        b_partial_initial: step == 0,
        b_partial_final: step == FRAGMENTS - 1,
        ch_sequence: step as i32,
        payload_bit_count: 8 * BYTES as i32,
        ..Default::default()
    }
}

fn total(words: &[u64]) -> u64 {
    words.iter().fold(0, |sum, &word| sum.wrapping_add(word))
}

struct Rust {
    chains: Chains,
    accumulator: PartialBunchAccumulator,
}

impl Rust {
    /// With every chain under way.
    fn new(flights: usize, adds: usize) -> Self {
        let accumulator = PartialBunchAccumulator::with_limits(flights, 8 * MESSAGE * flights);
        let mut rust = Self { chains: Chains::new(flights, adds), accumulator };
        (0..(2 * FRAGMENTS * flights).div_ceil(adds)).for_each(|_| assert!(rust.run(adds) > 0));
        rust
    }

    /// The sum of all answers' words.
    fn run(&mut self, adds: usize) -> u64 {
        let (mut errors, mut fragments, mut completed) = (0, 0, 0);
        let accumulator = &mut self.accumulator;
        let turns = self.chains.turns(adds);
        let mut sum: u64 = 0;
        for (k, given) in self.chains.headers[turns].iter().enumerate() {
            let payload = &self.chains.payloads[k % PAYLOADS];
            let (ch_index, bits, last) = (given.ch_index, given.payload_bit_count as usize, given.b_partial_final);
            let result =
                accumulator.add_fragment(ch_index, given.clone(), payload, bits, &mut errors, &mut fragments, &mut completed);
            let flags = u64::from(result.should_process) + u64::from(result.overlapping_initial);
            let kinds = header::kind_word(result.error_kind) + u64::from(result.resource_limit.is_some());
            sum = sum.wrapping_add(total(&header::words(&result.header)));
            sum = sum.wrapping_add(flags + kinds + result.discarded_bits as u64);
            if last && let Some((_, bits, header)) = accumulator.take_completed(ch_index) {
                sum = sum.wrapping_add(bits as u64).wrapping_add(total(&header::words(&header)));
            }
        }
        sum.wrapping_add(errors + fragments + completed)
    }
}

struct Ours {
    chains: Chains,
    how: How,
    lent: Lent,
}

/// The memory that ours is lent, and its counts.
struct Lent {
    channels: Vec<u32>,
    places: Vec<[u64; 24]>,
    arena: Vec<u8>,
    output: Vec<u8>,
    active: usize,
    total: u64,
    used: usize,
}

impl Lent {
    /// With what the Rust holds.
    fn new(rust: &Rust) -> Self {
        let flights = rust.chains.flights;
        let mut held: Vec<_> = rust.accumulator.fragments.iter().collect();
        held.sort_unstable_by_key(|(channel, _)| **channel);
        let (mut channels, mut places, mut arena) = (Vec::new(), Vec::new(), Vec::new());
        for (channel, state) in &held {
            let mut place = [0; 24];
            let bits = state.partial.bit_count as u64;
            place[..4].copy_from_slice(&[bits, state.is_complete.into(), state.reliable.into(), state.ch_sequence as u64]);
            place[4..].copy_from_slice(&header::words(&state.partial.header));
            channels.push(**channel);
            places.push(place);
            arena.extend_from_slice(&state.partial.buffer);
        }
        let used = arena.len();
        channels.resize(flights, 0);
        places.resize(flights, [0; 24]);
        arena.resize(flights * (MESSAGE + 1), 0);
        let (active, total) = (held.len(), rust.accumulator.total_buffered_bits() as u64);
        Self { channels, places, arena, output: vec![0; MESSAGE], active, total, used }
    }

    fn add(&mut self, header: &header::Words, payload: &[u8; BYTES], out: &mut FragmentOut) {
        let (a, b) = (self.channels.len(), 8 * (MESSAGE * self.channels.len()) as u64);
        let (c, d, bytes, bits) = (self.active, self.total, payload.as_ptr(), header[14]);
        let (channels, places, arena) = (self.channels.as_mut_ptr(), self.places.as_mut_ptr(), self.arena.as_mut_ptr());
        let (k, output, l, channel) = (self.arena.len(), self.output.as_mut_ptr(), self.output.len(), header[1] as u32);
        unsafe {
            gritwheel_add_fragment(
                a, b, c, d, channel, header, bytes, BYTES, bits, channels, a, places, a, arena, k, output, l, out,
            )
        }
        (self.active, self.total) = (out[2] as usize, out[3]);
    }

    fn take(&mut self, ch_index: u32, out: &mut HandedOut) {
        let (a, b) = (self.channels.len(), 8 * (MESSAGE * self.channels.len()) as u64);
        let (c, d) = (self.active, self.total);
        let (channels, places, arena) = (self.channels.as_mut_ptr(), self.places.as_mut_ptr(), self.arena.as_mut_ptr());
        let (k, output, l) = (self.arena.len(), self.output.as_mut_ptr(), self.output.len());
        unsafe { gritwheel_take_completed(a, b, c, d, ch_index, channels, a, places, a, arena, k, output, l, out) }
        (self.active, self.total) = (out[2] as usize, out[3]);
    }

    /// The same messages on the same channels.
    fn holds(&self, other: &Lent) -> bool {
        let (n, used) = (other.active, other.used);
        (self.active, self.total) == (n, other.total)
            && self.channels[..n] == other.channels[..n]
            && self.places[..n] == other.places[..n]
            && self.arena[..used] == other.arena[..used]
    }
}

impl Ours {
    fn new(rust: &Rust, how: How) -> Self {
        Self { chains: rust.chains.clone(), how, lent: Lent::new(rust) }
    }

    fn run(&mut self, adds: usize) -> u64 {
        match self.how {
            How::Public => self.public(adds),
            #[cfg(chains)]
            How::Inner => self.inner(adds),
        }
    }

    fn public(&mut self, adds: usize) -> u64 {
        let (mut out, mut handed) = ([0; 79], [0; 26]);
        let turns = self.chains.turns(adds);
        let mut sum: u64 = 0;
        for (k, header) in self.chains.words[turns].iter().enumerate() {
            self.lent.add(header, &self.chains.payloads[k % PAYLOADS], &mut out);
            sum = sum.wrapping_add(total(&out[4..32]));
            if header[header::FINAL] != 0 {
                self.lent.take(header[1] as u32, &mut handed);
                sum = sum.wrapping_add(total(&handed[5..26]));
            }
        }
        sum
    }

    #[cfg(chains)]
    fn inner(&mut self, adds: usize) -> u64 {
        let turns = self.chains.turns(adds);
        let (headers, payloads) = (&self.chains.words[turns], self.chains.payloads.as_flattened());
        let lent = &mut self.lent;
        let (a, b) = (lent.channels.len(), 8 * (MESSAGE * lent.channels.len()) as u64);
        let (channels, places, arena) = (lent.channels.as_mut_ptr(), lent.places.as_mut_ptr(), lent.arena.as_mut_ptr());
        let (h, n, p, m) = (headers.as_ptr(), headers.len(), payloads.as_ptr(), payloads.len());
        let (k, output, l) = (lent.arena.len(), lent.output.as_mut_ptr(), lent.output.len());
        let mut out = [0; 3];
        lent.used = unsafe {
            timing_chains(
                a, b, lent.active, lent.total, lent.used, h, n, p, m, channels, a, places, a, arena, k, output, l, &mut out,
            )
        };
        (lent.active, lent.total) = (out[1] as usize, out[2]);
        out[0]
    }
}

/// How many adds a sample has: a power of two, whose headers stay in the nearer caches.
fn adds(flights: usize) -> usize {
    if flights < 4_096 { 2_048 } else { 512 }
}

pub fn run(timing: &Timing, when: &str) {
    for flights in [1, 4, 16, 64, 256, 4_096] {
        for (name, how) in HOW {
            let name = format!("chains, {flights} in flight, {name}, {when}");
            if !timing.wants(&name) {
                continue;
            }
            let adds = adds(flights);
            let mut rust = Rust::new(flights, adds);
            let mut ours = Ours::new(&rust, how);
            if rust.run(adds) != ours.run(adds) || !ours.lent.holds(&Lent::new(&rust)) {
                println!("{name}: the answers or the messages differ");
                std::process::exit(1);
            }
            timing.compare_once(&name, adds, || rust.run(adds), || ours.run(adds));
        }
    }
}
