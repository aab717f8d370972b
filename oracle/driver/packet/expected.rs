// The expected answers: the Rust's, one bunch at a time, and document 01's refusals 9, 10, 8 and 5, which the Rust hasn't.
//
// The Rust reads a whole packet. So the bits from the cursor on are made a packet of their own, whose first bunch is the answer;
// that bunch alone, again as a packet of its own, leaves the tables.

use super::{Answer, BUNCH, Call, Case, END, MALFORMED, tables};
use crate::bits::Bits;
use crate::header;
use vrf_bitio::BitReader;
use vrf_net::bunch::RawBunchHeader;
use vrf_net::packet::{PacketReadResult, RawPacketReader};

/// "bits before it are data"; "bit 0 without an end mark"
pub fn data_bits(packet: &[u8]) -> u64 {
    match packet.last() {
        None | Some(0) => 0,
        Some(last) => 8 * packet.len() as u64 - 1 - u64::from(last.leading_zeros()),
    }
}

/// So many bits of a packet, and an end mark.
fn part(packet: &[u8], from: u64, to: u64) -> Vec<u8> {
    let mut bits = Bits::default();
    let mut at = from;
    while at < to {
        let (index, shift) = ((at / 8) as usize, at % 8);
        let width = (8 - shift).min(to - at);
        bits.push(u64::from(packet[index] >> shift), width);
        at += width;
    }
    bits.push(1, 1);
    bits.bytes
}

/// A header's twenty fields, and its payload's window; both places counted from the bit `from` of the packet.
pub fn bunch_words(header: &RawBunchHeader, payload: &BitReader<'_>, from: u64) -> [u64; 23] {
    assert!(header.partial_error_kind.is_none(), "the Rust's packet reader gives no kind");
    let mut words = [0; 23];
    words[..20].copy_from_slice(&header::words(header));
    words[15] += from;
    words[20..].copy_from_slice(&[payload.start_bit + from, payload.pos, payload.len]);
    words
}

struct Alone {
    words: [u64; 23],
    header: RawBunchHeader,
    result: PacketReadResult,
    /// The tables before and after a close retires its channel.
    held: RawPacketReader,
    left: RawPacketReader,
}

/// The bunch from one bit to another.
fn alone(case: &Case, to: u64) -> Alone {
    let packet = part(&case.packet, case.at, to);
    let mut held = tables::reader(case);
    // The Rust lets the callback alter the header before the close test.
    held.read_packet(&packet, case.id, |header, _| header.b_close = false);
    let mut left = tables::reader(case);
    let mut found = None;
    let result = left.read_packet(&packet, case.id, |header, payload| {
        found = Some((bunch_words(header, &payload, case.at), header.clone()));
    });
    assert!(result.bunch_count == 1 && !result.is_malformed, "the bunch is a packet of its own");
    let (words, header) = found.expect("it was read");
    Alone { words, header, result, held, left }
}

fn asked(case: &Case, bits: u64, answer: &mut Answer) {
    let mut reader = tables::reader(case);
    // A packet without data and one without an end mark go in as they are.
    let rest = if bits == 0 { case.packet.clone() } else { part(&case.packet, case.at, bits) };
    let mut next = None;
    let result = reader.read_packet(&rest, case.id, |_, payload| {
        next = next.or(Some(case.at + payload.start_bit + payload.len));
    });
    let (outcome, next, result, live) = match next {
        None => {
            let outcome = if result.is_malformed { MALFORMED } else { END };
            let live = tables::lay(&reader, None, case.live[1], &mut answer.columns);
            (outcome, bits, result, live)
        }
        Some(next) => {
            let Alone { words, header, result, held, left } = alone(case, next);
            let tracked = (header.b_partial && !header.has_channel_limit_error).then_some(header.ch_index);
            let [_, partials] = tables::lay(&held, tracked, case.live[1], &mut answer.columns);
            let live = tables::lay(&left, None, partials, &mut answer.columns);
            answer.words[11..].copy_from_slice(&words);
            (BUNCH, next, result, live)
        }
    };
    let counts = [result.bunch_count, result.is_malformed.into(), result.partial_error_count, result.channel_limit_count];
    answer.words[3] = outcome;
    answer.words[4] = next;
    answer.words[5..9].copy_from_slice(&counts.map(u64::from));
    answer.words[9..11].copy_from_slice(&live.map(|count| count as u64));
}

/// "Calls on state or packets test 10, 8"; "A packet cursor past the data's end … is 5 likewise, after 8"
fn refusal(case: &Case, bits: u64) -> Option<[u64; 3]> {
    let length = case.packet.len() as u64;
    if !tables::sound(case) {
        Some([10, 0, 0])
    } else if length > 65_535 {
        Some([8, length, 0])
    } else {
        (case.at > bits).then_some([5, case.at, bits])
    }
}

pub fn expected(case: &Case, answer: &mut Answer) {
    answer.damage = None;
    answer.words = [0; 34];
    answer.columns.clone_from(&case.columns);
    if case.call == Call::WithMaxChannels {
        match tables::fit(case) {
            true => answer.words[1] = RawPacketReader::with_max_channels(case.limit).max_channels as u64,
            false => answer.words[0] = 9,
        }
        return;
    }
    let bits = data_bits(&case.packet);
    match refusal(case, bits) {
        Some(words) => {
            answer.words[..3].copy_from_slice(&words);
            answer.words[4] = case.at;
            answer.words[9..11].copy_from_slice(&case.live.map(|count| count as u64));
        }
        None => asked(case, bits, answer),
    }
}
