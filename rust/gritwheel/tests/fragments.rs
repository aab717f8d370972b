//! The accumulator at its edges: document 01's desk checks, each refusal with its values, what refused calls leave, and that no
//! channel's bits come out on another.

use gritwheel::bunch::{PartialDiscardCause, PartialResourceLimit};
use gritwheel::{Error, PartialBunchAccumulator, PartialBunchResult, PartialSequenceKind, RawBunchHeader};

fn fragment(ch_sequence: i32, b_partial_initial: bool, b_partial_final: bool) -> RawBunchHeader {
    RawBunchHeader {
        b_partial: true,
        b_reliable: true,
        ch_sequence,
        b_partial_initial,
        b_partial_final,
        ..Default::default()
    }
}

const OVERLAPPING: PartialDiscardCause = PartialDiscardCause::Sequence(PartialSequenceKind::OverlappingInitial);
const MISSING: PartialDiscardCause = PartialDiscardCause::Sequence(PartialSequenceKind::MissingInitial);

/// A displaced message's bytes, bits and cause.
fn displaced(result: &PartialBunchResult) -> Vec<(&[u8], u64, PartialDiscardCause)> {
    result.displaced.iter().map(|(message, cause)| (&message.buffer[..], message.bit_count, *cause)).collect()
}

/// "16 unfinished bits, initial and final of 8: errors 1, two displaced, 24 discarded."
/// "16 finished bits, continuation of 8: missing initial, 24 discarded."
#[test]
fn desk_checks() {
    let mut accumulator = PartialBunchAccumulator::with_limits(2, 40).expect("within the limits");
    accumulator.add_fragment(3, fragment(5, true, false), &[0x11, 0x22], 16).expect("no refusal");
    let result = accumulator.add_fragment(3, fragment(6, true, true), &[0x33], 8).expect("no refusal");
    assert_eq!((result.errors, result.discarded_bits, result.should_process), (1, 24, false));
    assert_eq!(displaced(&result), [(&[0x11, 0x22][..], 16, OVERLAPPING), (&[0x33], 8, OVERLAPPING)]);
    assert_eq!((accumulator.active_count(), accumulator.total_buffered_bits()), (0, 0));

    let result = accumulator.add_fragment(3, fragment(5, true, true), &[0x11, 0x22], 16).expect("no refusal");
    assert!(result.should_process && result.completed == 1);
    let result = accumulator.add_fragment(3, fragment(6, false, false), &[0x33], 8).expect("no refusal");
    assert_eq!((result.error_kind, result.discarded_bits), (Some(PartialSequenceKind::MissingInitial), 24));
    assert_eq!(displaced(&result), [(&[0x11, 0x22][..], 16, MISSING)]);
}

#[test]
fn openings() {
    for (active, bits) in [(4_097, 0), (0, 536_870_913), (usize::MAX, u64::MAX)] {
        assert_eq!(PartialBunchAccumulator::with_limits(active, bits).unwrap_err(), Error::Unfit);
    }
    let mut none = PartialBunchAccumulator::with_limits(0, 0).expect("0 is within the limits");
    let result = none.add_fragment(3, fragment(1, true, true), &[], 0).expect("no refusal");
    assert_eq!(result.resource_limit, Some(PartialResourceLimit::ActiveStates));
    assert_eq!((none.take_completed(3), none.retire_channel(3), none.drain_unfinished()), (None, None, vec![]));
}

/// A final that keeps the packet reader's error flag is discarded; cleared, it is a message.
#[test]
fn the_readers_flags() {
    let mut accumulator = PartialBunchAccumulator::new();
    for clears in [false, true] {
        let mut header = RawBunchHeader { has_partial_error: true, ..fragment(1, true, true) };
        if clears {
            header.clear_tracking();
        }
        let result = accumulator.add_fragment(3, header, &[0x11], 8).expect("no refusal");
        assert_eq!((result.should_process, result.discarded_bits), (clears, if clears { 0 } else { 8 }));
        assert_eq!(accumulator.take_completed(3).is_some(), clears);
    }
}

/// After refused calls, and after ones that first had too little output, every message is what it was.
#[test]
fn refused_calls_change_nothing() {
    let mut accumulator = PartialBunchAccumulator::with_limits(4, 1_000).expect("within the limits");
    for channel in [9, 3, 5] {
        let bytes = [channel as u8; 10];
        accumulator.add_fragment(channel, fragment(1, true, false), &bytes, 80).expect("no refusal");
    }
    for channel in [3, 5, 7, 9] {
        let header = fragment(2, false, true);
        let refused = accumulator.add_fragment(channel, header.clone(), &[0; 2_048], 16_384);
        assert_eq!(refused, Err(Error::PayloadTooLong { count: 16_384 }));
        let refused = accumulator.add_fragment(channel, header, &[0; 2], 17);
        assert_eq!(refused, Err(Error::PayloadShort { count: 17 }));
        assert!(accumulator.take_completed(channel).is_none());
    }
    assert_eq!((accumulator.active_count(), accumulator.total_buffered_bits()), (3, 240));
    for channel in [5, 9, 3] {
        let result = accumulator.add_fragment(channel, fragment(2, false, true), &[0xff], 3).expect("no refusal");
        assert!(result.should_process);
        let (bytes, bits, header) = accumulator.take_completed(channel).expect("it is finished");
        let mut joined = vec![channel as u8; 10];
        joined.push(0b111);
        assert_eq!((bytes, bits, header.ch_sequence), (joined, 83, 1));
    }
    assert_eq!((accumulator.active_count(), accumulator.total_buffered_bits()), (0, 0));
}

#[test]
fn limits() {
    let mut accumulator = PartialBunchAccumulator::with_limits(1, 16).expect("within the limits");
    accumulator.add_fragment(3, fragment(1, true, false), &[0x11], 8).expect("no refusal");
    let result = accumulator.add_fragment(4, fragment(1, true, false), &[0x22], 8).expect("no refusal");
    assert_eq!((result.resource_limit, result.discarded_bits), (Some(PartialResourceLimit::ActiveStates), 8));
    assert_eq!((result.fragments, result.displaced.len()), (0, 0));
    let result = accumulator.add_fragment(3, fragment(2, false, false), &[0x22, 0x33], 16).expect("no refusal");
    assert_eq!((result.resource_limit, result.discarded_bits), (Some(PartialResourceLimit::BufferedBits), 24));
    let cause = PartialDiscardCause::Resource(PartialResourceLimit::BufferedBits);
    assert_eq!(displaced(&result), [(&[0x11][..], 8, cause)]);
    assert_eq!(accumulator.total_buffered_bits(), 0);
}

/// Unfinished messages by ascending channel, finished ones not at all; then the accumulator is empty and goes on.
#[test]
fn drains() {
    let mut accumulator = PartialBunchAccumulator::new();
    for channel in [70, 1, u32::MAX, 0, 2] {
        let header = RawBunchHeader { packet_id: channel as i32, ..fragment(1, true, channel == 2) };
        accumulator.add_fragment(channel, header, &[channel as u8, 0xee], 16).expect("no refusal");
    }
    let drained = accumulator.drain_unfinished();
    let told: Vec<_> =
        drained.iter().map(|(channel, message)| (*channel, message.buffer[0], message.bit_count)).collect();
    assert_eq!(told, [(0, 0, 16), (1, 1, 16), (70, 70, 16), (u32::MAX, 255, 16)]);
    assert_eq!(drained[3].1.header.packet_id, -1);
    assert_eq!((accumulator.active_count(), accumulator.total_buffered_bits()), (0, 0));
    assert!(accumulator.take_completed(2).is_none() && accumulator.drain_unfinished().is_empty());
    accumulator.add_fragment(2, fragment(1, true, false), &[7], 8).expect("no refusal");
    let retired = accumulator.retire_channel(2).expect("it holds a message");
    assert_eq!((retired.buffer, retired.bit_count), (vec![7], 8));
}

/// A message that is longer than any output so far.
#[test]
fn long_messages() {
    let mut accumulator = PartialBunchAccumulator::new();
    let part = vec![0x5a; 2_047];
    for (sequence, last) in (1..=200).map(|sequence| (sequence, sequence == 200)) {
        accumulator.add_fragment(3, fragment(sequence, sequence == 1, last), &part, 16_376).expect("no refusal");
        accumulator
            .add_fragment(2, fragment(sequence, sequence == 1, false), &[sequence as u8], 8)
            .expect("no refusal");
    }
    let (bytes, bits, _) = accumulator.take_completed(3).expect("it is finished");
    assert_eq!((bytes, bits), (vec![0x5a; 200 * 2_047], 200 * 16_376));
    let result = accumulator.add_fragment(2, fragment(1, true, false), &[], 0).expect("no refusal");
    let bytes: Vec<u8> = (1..=200).collect();
    assert_eq!(displaced(&result), [(&bytes[..], 1_600, OVERLAPPING)]);
}

/// Numbers from a fixed seed (xorshift).
struct Random(u64);

impl Random {
    fn below(&mut self, most: u64) -> u64 {
        self.0 ^= self.0 << 13;
        self.0 ^= self.0 >> 7;
        self.0 ^= self.0 << 17;
        self.0 % most
    }
}

/// Chains on many channels, shuffled: each comes out as its own fragments joined, with freed room used again.
#[test]
fn shuffled_chains() {
    let mut random = Random(0x9e37_79b9_7f4a_7c15);
    let mut accumulator = PartialBunchAccumulator::with_limits(40, 40 * 2_000).expect("within the limits");
    let mut sent: Vec<(i32, Vec<u8>, u64)> = vec![(0, Vec::new(), 0); 40];
    let mut taken = 0;
    for _ in 0..20_000 {
        let channel = random.below(40) as usize;
        let (sequence, bytes, bits) = &mut sent[channel];
        let (initial, last) = (*bits == 0 && bytes.is_empty(), random.below(5) == 0 || *bits > 1_500);
        let count = if last { random.below(100) } else { 8 * (1 + random.below(12)) };
        let payload: Vec<u8> = (0..count.div_ceil(8)).map(|_| random.below(256) as u8).collect();
        *sequence += 1;
        let header =
            RawBunchHeader { packet_id: *sequence, ch_index: channel as u32, ..fragment(*sequence, initial, last) };
        let result = accumulator.add_fragment(channel as u32, header, &payload, count).expect("no refusal");
        assert_eq!((result.errors, result.discarded_bits, result.should_process), (0, 0, last));
        bytes.extend(&payload);
        *bits += count;
        if count % 8 != 0 {
            *bytes.last_mut().expect("it has bits") &= (1 << (count % 8)) - 1;
        }
        if last {
            let got = accumulator.take_completed(channel as u32).expect("it is finished");
            assert_eq!((&got.0, got.1, got.2.ch_index), (&*bytes, *bits, channel as u32));
            bytes.clear();
            *bits = 0;
            taken += 1;
        }
    }
    assert!(taken > 1_000);
    let left: u64 = sent.iter().map(|(_, _, bits)| bits).sum();
    assert_eq!(accumulator.total_buffered_bits(), left);
}
