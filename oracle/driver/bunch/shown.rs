// An input and its answers in words, and simpler inputs.

use super::memory::Memory;
use super::{Answer, Call, Case};
use crate::compare::Shown;
use crate::shrink::{smaller, smaller_bytes};
use crate::text::{damage, hex};

fn words(list: &[u64]) -> String {
    let shown: Vec<_> = list.iter().map(|word| format!("{word:x}")).collect();
    shown.join(" ")
}

/// The words of an answer, which begin alike in all calls but the opening.
fn told(list: &[u64]) -> String {
    let [number, returned, active, total, rest @ ..] = list else {
        return words(list);
    };
    if list.len() == 5 {
        return format!("number {number}; limits and counts {}", words(&list[1..]));
    }
    let text = format!("number {number}, returns {returned}; {active} held, {total} bits");
    if list.len() != 79 {
        return format!("{text}; {}", words(rest));
    }
    let names = ["process", "limit", "discarded", "kind", "overlapping", "errors", "fragments", "completed", "displaced"];
    let fields: Vec<_> = names.iter().zip(&rest[20..]).map(|(name, word)| format!("{name} {word}")).collect();
    let displaced: String =
        rest[29..].chunks(23).map(|message| format!("\n            displaced {}", words(message))).collect();
    format!("{text}; {}\n            header {}{displaced}", fields.join(", "), words(&rest[..20]))
}

/// So many places, and the bytes of all.
fn memory(memory: &Memory, count: usize) -> String {
    let (i, j, k) = (memory.channels.len(), memory.places.len(), memory.arena.len());
    let mut text = format!("            {i} channels, {j} places, {k} bytes {}\n", hex(&memory.arena));
    for (channel, place) in memory.channels.iter().zip(&memory.places).take(count.min(12)) {
        text += &format!("            channel {channel:x}: {}\n", words(place));
    }
    text
}

/// With only so many bits of a live place's message; with none, without the place.
fn cut(case: &Case, index: usize, left: Option<u64>) -> Option<Case> {
    let mut fewer = case.clone();
    let Memory { channels, places, arena } = &mut fewer.memory;
    let bits = places[index][0];
    let ends = places[..=index].iter().try_fold(0_u64, |sum, place| sum.checked_add(place[0].div_ceil(8)))? as usize;
    let gone = (bits.div_ceil(8) - left.unwrap_or(0).div_ceil(8)) as usize;
    if ends > arena.len() {
        return None;
    }
    arena[ends - gone..].rotate_left(gone);
    fewer.accumulator.total = fewer.accumulator.total.checked_sub(bits - left.unwrap_or(0))?;
    match left {
        Some(left) => {
            places[index][0] = left;
            if left % 8 != 0 {
                arena[ends - gone - 1] &= (1 << (left % 8)) - 1;
            }
        }
        None => {
            channels[index..].rotate_left(1);
            places[index..].rotate_left(1);
            fewer.accumulator.active -= 1;
        }
    }
    Some(fewer)
}

fn smaller_messages(case: &Case, list: &mut Vec<Case>) {
    let live = case.accumulator.active;
    if live > case.memory.places.len().min(case.memory.channels.len()) {
        return;
    }
    list.extend((0..live.min(64)).filter_map(|index| cut(case, index, None)));
    for index in 0..live.min(8) {
        let [bits, finished, ..] = case.memory.places[index];
        let fewer = smaller(bits).into_iter().filter(|bits| finished == 1 || bits % 8 == 0);
        list.extend(fewer.filter_map(|bits| cut(case, index, Some(bits))));
    }
    for index in (0..case.memory.arena.len().min(64)).filter(|&index| case.memory.arena[index] != 0) {
        let mut other = case.clone();
        other.memory.arena[index] = 0;
        list.push(other);
    }
}

/// With channels 0, 1, 2 and so on.
fn renamed(case: &Case) -> Option<Case> {
    let mut other = case.clone();
    let held = case.memory.channels.get(..case.accumulator.active)?;
    other.ch_index = held.binary_search(&case.ch_index).unwrap_or_else(|slot| slot + held.len()) as u32;
    for (index, channel) in other.memory.channels[..held.len()].iter_mut().enumerate() {
        *channel = index as u32;
    }
    let smaller = held.is_sorted_by(|a, b| a < b) && (other.ch_index, &other.memory) < (case.ch_index, &case.memory);
    smaller.then_some(other)
}

/// With a word of the live places, or of the header, that is smaller.
fn smaller_words(case: &Case, list: &mut Vec<Case>) {
    for index in 0..20 {
        for word in smaller(case.header[index]) {
            let mut other = case.clone();
            other.header[index] = word;
            list.push(other);
        }
    }
    for index in 0..case.accumulator.active.min(case.memory.places.len()).min(4) {
        for (at, &word) in case.memory.places[index].iter().enumerate().skip(1) {
            for word in smaller(word) {
                let mut other = case.clone();
                other.memory.places[index][at] = word;
                list.push(other);
            }
        }
    }
}

/// With smaller limits, and with the memory cut to what they need.
fn smaller_limits(case: &Case, list: &mut Vec<Case>) {
    let a = case.accumulator;
    for max_active in smaller(a.max_active as u64) {
        let mut other = case.clone();
        other.accumulator.max_active = max_active as usize;
        list.push(other);
    }
    for max_buffered_bits in smaller(a.max_buffered_bits) {
        let mut other = case.clone();
        other.accumulator.max_buffered_bits = max_buffered_bits;
        list.push(other);
    }
    for n in smaller(case.memory.arena.len() as u64) {
        let mut other = case.clone();
        other.memory.arena.truncate(n as usize);
        list.push(other);
    }
    for n in smaller(case.memory.channels.len() as u64) {
        let mut other = case.clone();
        other.memory.channels.truncate(n as usize);
        other.memory.places.truncate(n as usize);
        list.push(other);
    }
}

impl Shown for Case {
    type Answer = Answer;

    fn simpler(&self) -> Vec<Case> {
        let mut list = Vec::new();
        smaller_messages(self, &mut list);
        list.extend(renamed(self));
        smaller_limits(self, &mut list);
        list.extend(smaller(self.bits).into_iter().map(|bits| Case { bits, ..self.clone() }));
        list.extend(smaller_bytes(&self.payload).into_iter().map(|payload| Case { payload, ..self.clone() }));
        list.extend(smaller_bytes(&self.output).into_iter().map(|output| Case { output, ..self.clone() }));
        for n in smaller(self.list.len() as u64) {
            list.push(Case { list: self.list[..n as usize].to_vec(), ..self.clone() });
        }
        smaller_words(self, &mut list);
        list
    }

    fn input_in_words(&self) -> String {
        let mut text = format!("  call      {:?}, channel {:x}, {:?}\n", self.call, self.ch_index, self.accumulator);
        text += &format!("  lent      {} bytes of output, {} of a list\n", self.output.len(), self.list.len());
        if self.call == Call::AddFragment {
            text += &format!("  header    {}\n", words(&self.header));
            text += &format!("  payload   {} bits of {} ({} bytes)\n", self.bits, hex(&self.payload), self.payload.len());
        }
        text + &memory(&self.memory, self.accumulator.active)
    }

    fn answer_in_words(&self, answer: &Answer) -> String {
        let mut text = format!("{}{}\n", told(&answer.words), damage(answer.damage));
        text += &format!("            output {}\n", hex(&answer.output));
        for listed in answer.list.iter().take(6) {
            text += &format!("            listed {}\n", words(listed));
        }
        text + &memory(&answer.memory, self.accumulator.active + 1)
    }
}
