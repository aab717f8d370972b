// The expected answers: the Rust's on what the memory holds, and document 01's refusals 9 to 14, which the Rust hasn't.

use super::memory::{self, accumulator};
use super::{Answer, Call, Case, Listed};
use crate::header;
use vrf_net::bunch::*;

/// What a call on the Rust's accumulator says: the words after the first four, the bytes for the output, and the drained messages.
#[derive(Default, PartialEq)]
pub struct Said {
    pub words: Vec<u64>,
    pub bytes: Vec<u8>,
    pub listed: Vec<Listed>,
}

fn limit_word(limit: Option<PartialResourceLimit>) -> u64 {
    match limit {
        None => 0,
        Some(PartialResourceLimit::ActiveStates) => 1,
        Some(PartialResourceLimit::BufferedBits) => 2,
        Some(PartialResourceLimit::Allocation) => panic!("the Rust ran out of memory"),
    }
}

fn cause_words(cause: PartialDiscardCause) -> [u64; 2] {
    match cause {
        PartialDiscardCause::Sequence(kind) => [0, header::kind_word(Some(kind))],
        PartialDiscardCause::Resource(limit) => [1, limit_word(Some(limit))],
    }
}

fn add(accumulator: &mut PartialBunchAccumulator, case: &Case) -> Said {
    let (mut errors, mut fragments, mut completed) = (0, 0, 0);
    let given = header::header(&case.header);
    let (payload, bits) = (&case.payload, case.bits as usize);
    let result = accumulator.add_fragment(case.ch_index, given, payload, bits, &mut errors, &mut fragments, &mut completed);
    let mut words = header::words(&result.header).to_vec();
    words.extend([
        result.should_process.into(),
        limit_word(result.resource_limit),
        result.discarded_bits as u64,
        header::kind_word(result.error_kind),
        result.overlapping_initial.into(),
        errors,
        fragments,
        completed,
        result.displaced.len() as u64,
    ]);
    let mut bytes = Vec::new();
    for (message, cause) in &result.displaced {
        words.extend(header::words(&message.header));
        words.push(message.bit_count as u64);
        words.extend(cause_words(*cause));
        bytes.extend_from_slice(&message.buffer);
    }
    Said { words, bytes, listed: Vec::new() }
}

/// "With nothing to hand out, taking and retiring answer none."
fn handed(message: Option<(Vec<u8>, usize, RawBunchHeader)>) -> Said {
    let Some((bytes, bits, header)) = message else {
        return Said::default();
    };
    let mut words = vec![1];
    words.extend(header::words(&header));
    words.push(bits as u64);
    Said { words, bytes, listed: Vec::new() }
}

/// "Draining lists unfinished messages by ascending channel (the Rust's order is arbitrary)". The Rust's messages don't name the
/// channel that they were held for, so their headers do for the call.
fn drain(accumulator: &mut PartialBunchAccumulator) -> Said {
    let mut named = std::collections::BTreeMap::new();
    for (channel, state) in &mut accumulator.fragments {
        named.insert(*channel, state.partial.header.ch_index);
        state.partial.header.ch_index = *channel;
    }
    let mut drained = accumulator.drain_unfinished();
    drained.sort_unstable_by_key(|message| message.header.ch_index);
    let mut said = Said::default();
    for mut message in drained {
        let channel = message.header.ch_index;
        message.header.ch_index = named[&channel];
        let mut listed = [0; 22];
        listed[..2].copy_from_slice(&[channel.into(), message.bit_count as u64]);
        listed[2..].copy_from_slice(&header::words(&message.header));
        said.listed.push(listed);
        said.bytes.extend_from_slice(&message.buffer);
    }
    said.words = vec![said.listed.len() as u64, said.bytes.len() as u64];
    said
}

/// The call on any accumulator of the Rust.
pub fn said(accumulator: &mut PartialBunchAccumulator, case: &Case) -> Said {
    match case.call {
        Call::WithLimits => unreachable!("it has no accumulator yet"),
        Call::AddFragment => add(accumulator, case),
        Call::TakeCompleted => handed(accumulator.take_completed(case.ch_index)),
        Call::RetireChannel => {
            let retired = accumulator.retire_channel(case.ch_index);
            handed(retired.map(|message| (message.buffer, message.bit_count, message.header)))
        }
        Call::DrainUnfinished => drain(accumulator),
    }
}

/// "Calls on state … test 10, 8, 11, 12, 13 in that order, those that apply": what comes before the Rust is asked.
fn refusal(case: &Case) -> Option<[u64; 2]> {
    if !memory::sound(case) {
        Some([10, 0])
    } else if case.call != Call::AddFragment {
        None
    } else if case.bits > 16_383 {
        Some([11, case.bits])
    } else {
        (case.bits > 8 * case.payload.len() as u64).then_some([12, case.bits])
    }
}

/// "draining tests 10, 13, 14"
fn no_room(case: &Case, said: &Said) -> Option<[u64; 2]> {
    if said.bytes.len() > case.output.len() {
        Some([13, said.bytes.len() as u64])
    } else {
        (said.listed.len() > case.list.len()).then_some([14, said.listed.len() as u64])
    }
}

/// A drained message's header stands in the list in the words that stood for it in its place.
fn list(case: &Case, said: &Said, list: &mut [Listed]) {
    let held = case.memory.channels.iter().zip(&case.memory.places).take(case.accumulator.active);
    let unfinished = held.filter(|(_, place)| place[1] == 0);
    for ((to, listed), (channel, place)) in list.iter_mut().zip(&said.listed).zip(unfinished) {
        assert!(listed[0] == u64::from(*channel), "the Rust drains the unfinished messages");
        *to = *listed;
        to[2..].copy_from_slice(&place[4..]);
    }
}

fn asked(case: &Case, answer: &mut Answer) -> Result<(), [u64; 2]> {
    if let Some(refused) = refusal(case) {
        return Err(refused);
    }
    let mut accumulator = accumulator(case);
    let said = said(&mut accumulator, case);
    if let Some(refused) = no_room(case, &said) {
        return Err(refused);
    }
    let begins = case.call == Call::AddFragment && case.header[header::INITIAL] != 0;
    memory::lay(&accumulator, case, begins.then_some(case.ch_index), &mut answer.memory);
    answer.output[..said.bytes.len()].copy_from_slice(&said.bytes);
    list(case, &said, &mut answer.list);
    answer.words[2] = accumulator.active_count() as u64;
    answer.words[3] = accumulator.total_buffered_bits() as u64;
    answer.words[4..4 + said.words.len()].copy_from_slice(&said.words);
    Ok(())
}

fn opened(case: &Case, words: &mut [u64]) {
    if !memory::fit(case) {
        words[0] = 9;
        return;
    }
    let max_buffered_bits = case.accumulator.max_buffered_bits as usize;
    let accumulator = PartialBunchAccumulator::with_limits(case.accumulator.max_active, max_buffered_bits);
    let counts = [accumulator.active_count(), accumulator.total_buffered_bits()];
    let limits = [accumulator.max_active, accumulator.max_buffered_bits];
    words[1..3].copy_from_slice(&limits.map(|limit| limit as u64));
    words[3..].copy_from_slice(&counts.map(|count| count as u64));
}

pub fn expected(case: &Case, answer: &mut Answer) {
    answer.damage = None;
    answer.words.clear();
    answer.words.resize(case.call.words(), 0);
    answer.memory.clone_from(&case.memory);
    answer.output.clone_from(&case.output);
    answer.list.clone_from(&case.list);
    if case.call == Call::WithLimits {
        return opened(case, &mut answer.words);
    }
    // "These change no lent byte or state."
    answer.words[2] = case.accumulator.active as u64;
    answer.words[3] = case.accumulator.total;
    if let Err(refused) = asked(case, answer) {
        answer.words[..2].copy_from_slice(&refused);
    }
}
