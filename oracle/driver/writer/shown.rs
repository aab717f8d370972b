// An input and its answers in words, and simpler inputs.

use super::rows::{self, Row};
use super::*;
use crate::compare::Shown;
use crate::shrink::{smaller, smaller_bytes};
use crate::text::{damage, hex};

fn bunch_line(Bunch { header, payload, count }: &Bunch) -> String {
    let flags: Vec<_> =
        FLAG_NAMES.iter().enumerate().filter(|(index, _)| header.has(1 << index)).map(|(_, name)| *name).collect();
    let channel = header.ch_index;
    format!("channel {channel} [{}], {count} bits of {} ({} bytes)", flags.join(" "), hex(payload), payload.len())
}

fn words_line(words: &Words) -> String {
    let [number, a, b] = words;
    if *number == 0 { format!("written to {a}, {b}") } else { format!("refusal {number}: {a}, {b}") }
}

fn packet_line(packet: &[u8]) -> String {
    format!("  packet    {} ({} bytes)\n", hex(packet), packet.len())
}

fn simpler_bunches(bunch: &Bunch) -> Vec<Bunch> {
    let Header { ch_index, flags } = bunch.header;
    let with = |header| Bunch { header, ..bunch.clone() };
    let fewer = (0..11).map(|index| flags & !(1 << index)).filter(|&fewer| fewer != flags);
    let mut list: Vec<_> = fewer.map(|flags| with(Header { ch_index, flags })).collect();
    list.extend(smaller(ch_index.into()).into_iter().map(|ch_index| with(Header { ch_index: ch_index as u32, flags })));
    list.extend(smaller(bunch.count).into_iter().map(|count| Bunch { count, ..bunch.clone() }));
    list.extend(smaller_bytes(&bunch.payload).into_iter().map(|payload| Bunch { payload, ..bunch.clone() }));
    list
}

impl Shown for Case {
    type Answer = Answer;

    fn simpler(&self) -> Vec<Case> {
        let bunches = self.bunch.iter().flat_map(simpler_bunches).map(|bunch| Case { bunch: Some(bunch), ..self.clone() });
        let packets = smaller_bytes(&self.packet).into_iter().map(|packet| Case { packet, ..self.clone() });
        let cursors = smaller(self.at).into_iter().map(|at| Case { at, ..self.clone() });
        packets.chain(cursors).chain(bunches).collect()
    }

    fn input_in_words(&self) -> String {
        let call = self.bunch.as_ref().map_or("close_packet".into(), |bunch| format!("write_bunch, {}", bunch_line(bunch)));
        format!("  call      {call}\n{}  cursor    {}\n", packet_line(&self.packet), self.at)
    }

    fn answer_in_words(&self, answer: &Answer) -> String {
        format!("{}; packet then {}{}", words_line(&answer.words), hex(&answer.packet), damage(answer.damage))
    }
}

impl Shown for Row {
    type Answer = rows::Answer;

    fn simpler(&self) -> Vec<Row> {
        let n = self.bunches.len();
        let mut list = vec![Row { bunches: self.bunches[..n / 2].to_vec(), ..self.clone() }];
        list.retain(|_| n > 0);
        for index in 0..n.min(400) {
            let mut fewer = self.clone();
            fewer.bunches.remove(index);
            list.push(fewer);
        }
        list.extend(smaller_bytes(&self.packet).into_iter().map(|packet| Row { packet, ..self.clone() }));
        for index in 0..n.min(4) {
            for bunch in simpler_bunches(&self.bunches[index]) {
                let mut other = self.clone();
                other.bunches[index] = bunch;
                list.push(other);
            }
        }
        list
    }

    fn input_in_words(&self) -> String {
        let lines = self.bunches.iter().take(40).map(|bunch| format!("  bunch     {}\n", bunch_line(bunch)));
        packet_line(&self.packet) + &lines.collect::<String>()
    }

    fn answer_in_words(&self, rows::Answer { written, packet, read, damage: damaged }: &rows::Answer) -> String {
        let (held, bytes) = (written.held, written.bytes);
        let mut text = format!("{held} bunches in {bytes} bytes; packet then {}{}\n", hex(packet), damage(*damaged));
        for words in written.words.iter().take(40) {
            text += &format!("            {}\n", words_line(words));
        }
        for (who, list) in ["the Rust", "ours"].iter().zip(read) {
            text += &format!("            {who} reads {}\n", if list.is_some() { "to the end" } else { "malformed" });
            for bunch in list.iter().flatten().take(40) {
                text += &format!("              {}\n", bunch_line(bunch));
            }
        }
        text
    }
}
