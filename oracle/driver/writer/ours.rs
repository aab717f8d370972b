// Our answers: the C functions called with the same input, and the memory that they must leave alone looked at.

use super::expected::{called, expected};
use super::rows::{self, Row};
use super::*;
use crate::abi::*;
use crate::compare;
use crate::lent::{PATTERN, UNWRITTEN, changed, guarded, lent, unguarded};

/// Before and after the lent packet, to see writes past it.
const GUARD: [u8; 16] = [PATTERN; 16];

fn once(bunch: Option<&Bunch>, payload: &[u8], packet: &mut [u8], at: u64) -> Words {
    let (bytes, n) = (packet.as_mut_ptr(), packet.len());
    let mut out = [UNWRITTEN; 3];
    match bunch {
        None => unsafe { gritwheel_close_packet(bytes, n, at, &mut out) },
        Some(&Bunch { header: h, count, .. }) => unsafe {
            gritwheel_write_bunch(
                h.ch_index,
                h.has(OPEN),
                h.has(CLOSE),
                h.has(DORMANT),
                h.has(DORMANCY),
                h.has(PAUSED),
                h.has(RELIABLE),
                h.has(PARTIAL),
                h.has(INITIAL),
                h.has(FINAL),
                h.has(EXPORTS),
                h.has(MAPPED),
                payload.as_ptr(),
                payload.len(),
                count,
                bytes,
                n,
                at,
                &mut out,
            );
        },
    }
    out
}

/// One call, with a payload that is looked at afterwards.
fn watched(
    bunch: Option<&Bunch>,
    packet: &mut [u8],
    at: u64,
    room: &mut Vec<u8>,
    damage: &mut Option<&'static str>,
) -> Words {
    let data = bunch.map_or(&[][..], |bunch| &bunch.payload);
    let payload = lent(data, room);
    let words = once(bunch, payload, packet, at);
    *damage = damage.or(changed(payload, data));
    words
}

/// What `work` does with a packet between guards.
fn with_packet<T>(
    before: &[u8],
    packet: &mut Vec<u8>,
    damage: &mut Option<&'static str>,
    work: impl FnOnce(&mut [u8], &mut Option<&'static str>) -> T,
) -> T {
    *damage = None;
    guarded(packet, before.iter().copied(), &GUARD);
    let done = work(&mut packet[GUARD.len()..][..before.len()], damage);
    if !unguarded(packet, &GUARD) {
        *damage = Some("memory around the packet");
    }
    done
}

impl compare::Case for Case {
    const CASES: &[&str] = &["written"];
    const MET: &[(&str, &str)] = &[
        ("write_bunch", "refusal 5, refusal 11, refusal 12, refusal 16, refusal 17, written"),
        ("close_packet", "refusal 5, refusal 17, written"),
    ];

    fn expected(&self, answer: &mut Answer) {
        expected(self, answer);
    }

    fn ours(&self, answer: &mut Answer, room: &mut Vec<u8>) {
        let Answer { words, packet, damage } = answer;
        *words = with_packet(&self.packet, packet, damage, |packet, damage| {
            watched(self.bunch.as_ref(), packet, self.at, room, damage)
        });
    }

    fn call(&self) -> usize {
        if self.bunch.is_some() { WRITE_BUNCH } else { CLOSE_PACKET }
    }

    fn name(call: usize) -> &'static str {
        if call == WRITE_BUNCH { "write_bunch" } else { "close_packet" }
    }

    fn told(answer: &Answer) -> (u64, u64) {
        (answer.words[0], 0)
    }
}

impl compare::Case for Row {
    const CASES: &[&str] = &["closed", "closed without its last bunch", "no room for an end mark"];
    const MET: &[(&str, &str)] =
        &[("packets written and read back", "closed, closed without its last bunch, no room for an end mark")];

    fn expected(&self, answer: &mut rows::Answer) {
        answer.damage = None;
        answer.packet.clone_from(&self.packet);
        answer.written = rows::write(self, &mut answer.packet, called);
        let held: Vec<_> = self.bunches[..answer.written.held].iter().map(read::written).collect();
        answer.read = [Some(held.clone()), Some(held)];
    }

    fn ours(&self, answer: &mut rows::Answer, room: &mut Vec<u8>) {
        let rows::Answer { written, packet, damage, .. } = answer;
        *written = with_packet(&self.packet, packet, damage, |packet, damage| {
            rows::write(self, packet, |bunch, packet, at| watched(bunch, packet, at, room, damage))
        });
        let closed = &answer.packet[..answer.written.bytes];
        answer.read = [read::by_the_rust(closed), read::by_ours(closed)];
    }

    fn call(&self) -> usize {
        0
    }

    fn name(_: usize) -> &'static str {
        "packets written and read back"
    }

    fn told(answer: &rows::Answer) -> (u64, u64) {
        match answer.written.words.last() {
            Some([0, ..]) => (0, (answer.written.closings > 1).into()),
            _ => (0, 2),
        }
    }
}
