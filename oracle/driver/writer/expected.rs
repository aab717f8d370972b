// The expected answers. The Rust has no writer: these are document 01's, a list of bits put one by one.

use super::*;
use crate::bits::Bits;

/// "Refusal 16: initial or final without partial; a reason other than Destroyed without close; dormant unequal to close with
/// Dormancy."
fn writable(header: Header) -> bool {
    let apart = header.has(INITIAL | FINAL) && !header.has(PARTIAL);
    let without_close = header.has(DORMANCY) && !header.has(CLOSE);
    !apart && !without_close && header.has(DORMANT) == (header.has(CLOSE) && header.has(DORMANCY))
}

/// The header as document 01 lists it, with "shortest packed numbers and zeros for ignored parts; control is open or close".
pub fn header_bits(header: Header, count: u64) -> Bits {
    let mut bits = Bits::default();
    let control = header.has(OPEN | CLOSE);
    bits.push(control.into(), 1);
    if control {
        bits.push(header.has(OPEN).into(), 1);
        bits.push(header.has(CLOSE).into(), 1);
    }
    if header.has(CLOSE) {
        bits.serialized(header.has(DORMANCY).into(), 15);
    }
    bits.push(header.has(PAUSED).into(), 1);
    bits.push(header.has(RELIABLE).into(), 1);
    bits.packed(header.ch_index.into(), 1);
    bits.push(header.has(EXPORTS).into(), 1);
    bits.push(header.has(MAPPED).into(), 1);
    bits.push(header.has(PARTIAL).into(), 1);
    bits.push(0, 1);
    if header.has(PARTIAL) {
        bits.push(header.has(INITIAL).into(), 1);
        bits.push(header.has(FINAL).into(), 1);
    }
    if header.has(RELIABLE | OPEN) {
        bits.push(0, 1);
        bits.packed(0, 1);
    }
    bits.serialized(count, 16_384);
    bits
}

fn bit(bytes: &[u8], k: u64) -> u8 {
    bytes[(k / 8) as usize] >> (k % 8) & 1
}

/// "Bits before the cursor and bytes past the last one written stay; that byte's spare bits are zero."
fn put(packet: &mut [u8], at: u64, bits: impl Iterator<Item = u8>) {
    for (k, bit) in (at..).zip(bits) {
        let byte = &mut packet[(k / 8) as usize];
        *byte = *byte & ((1 << (k % 8)) - 1) | bit << (k % 8);
    }
}

/// "A packet stays within 65,535 bytes, else 17."
fn no_room(packet: &[u8], with: u64) -> Option<Words> {
    (with > 8 * (packet.len() as u64).min(65_535)).then_some([17, with, 0])
}

fn bunch(bunch: &Bunch, packet: &mut [u8], at: u64) -> Words {
    let &Bunch { header, ref payload, count } = bunch;
    if !writable(header) {
        return [16, 0, 0];
    }
    if count > 16_383 {
        return [11, count, 0];
    }
    if count > 8 * payload.len() as u64 {
        return [12, count, 0];
    }
    let head = header_bits(header, count);
    let to = at + head.count + count;
    if let Some(refused) = no_room(packet, to) {
        return refused;
    }
    let bits = (0..head.count).map(|k| bit(&head.bytes, k)).chain((0..count).map(|k| bit(payload, k)));
    put(packet, at, bits);
    [0, to, 0]
}

/// "After the last bunch a closing call adds the end mark and zeros to the byte's end; it may give 17."
fn end_mark(packet: &mut [u8], at: u64) -> Words {
    if let Some(refused) = no_room(packet, at + 1) {
        return refused;
    }
    put(packet, at, [1].into_iter());
    [0, 8 * (at / 8 + 1), 0]
}

/// One call. "a writer cursor past its room is 5, before 16, with its place and the room's bits"; "the writer 16, 11, 12, 17"
pub fn called(wanted: Option<&Bunch>, packet: &mut [u8], at: u64) -> Words {
    let room = 8 * packet.len() as u64;
    if at > room {
        return [5, at, room];
    }
    match wanted {
        Some(wanted) => bunch(wanted, packet, at),
        None => end_mark(packet, at),
    }
}

pub fn expected(case: &Case, answer: &mut Answer) {
    answer.damage = None;
    answer.packet.clone_from(&case.packet);
    answer.words = called(case.bunch.as_ref(), &mut answer.packet, case.at);
}
