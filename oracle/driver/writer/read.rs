// A closed packet read back: the bunches as they were handed to the writer, as far as a packet holds them.

use super::*;
#[cfg(ours)]
use crate::abi::{gritwheel_copy_bits_to, gritwheel_read_bunch};
use crate::packet::expected::bunch_words;
use vrf_net::packet::RawPacketReader;

/// A header's words (packet/expected.rs) at which the flags stand, from OPEN to MAPPED.
const FLAG_WORDS: [usize; 11] = [2, 3, 4, 13, 5, 6, 7, 8, 9, 10, 11];

fn bunch(words: &[u64], payload: Vec<u8>) -> Bunch {
    let flags = FLAG_WORDS.iter().rev().fold(0, |flags, &index| flags << 1 | words[index] as u16);
    Bunch { header: Header { ch_index: words[1] as u32, flags }, payload, count: words[14] }
}

/// A bunch's payload without what isn't written of it.
pub fn written(bunch: &Bunch) -> Bunch {
    let mut payload = bunch.payload[..bunch.count.div_ceil(8) as usize].to_vec();
    if let Some(last) = payload.last_mut().filter(|_| bunch.count % 8 != 0) {
        *last &= (1 << (bunch.count % 8)) - 1;
    }
    Bunch { payload, ..bunch.clone() }
}

/// None where the packet is malformed.
pub fn by_the_rust(packet: &[u8]) -> Option<Vec<Bunch>> {
    let mut list = Vec::new();
    let result = RawPacketReader::new().read_packet(packet, 0, |header, mut payload| {
        let words = bunch_words(header, &payload, 0);
        let mut bytes = vec![0; words[22].div_ceil(8) as usize];
        payload.copy_bits_to(&mut bytes, words[22]).expect("a payload's own bits");
        list.push(bunch(&words, bytes));
    });
    (!result.is_malformed && result.bunch_count as usize == list.len()).then_some(list)
}

#[cfg(ours)]
pub fn by_ours(packet: &[u8]) -> Option<Vec<Bunch>> {
    const PLACES: usize = 16;
    let mut columns = [[0u32; PLACES]; 5];
    let [a, b, c, d, e] = columns.each_mut().map(|column| column.as_mut_ptr());
    let (bytes, n, k) = (packet.as_ptr(), packet.len(), PLACES);
    let mut list = Vec::new();
    let mut words = [0; 34];
    loop {
        let [at, sequences, partials] = [words[4], words[9], words[10]];
        let (i, j) = (sequences as usize, partials as usize);
        unsafe { gritwheel_read_bunch(bytes, n, 0, at, PLACES, i, j, a, k, b, k, c, k, d, k, e, k, &mut words) };
        match [words[0], words[3]] {
            [0, crate::packet::BUNCH] => {}
            [0, crate::packet::END] => return Some(list),
            _ => return None,
        }
        let [start, position, length] = [words[31], words[32], words[33]];
        let mut payload = vec![0; length.div_ceil(8) as usize];
        let (target, m) = (payload.as_mut_ptr(), payload.len());
        unsafe { gritwheel_copy_bits_to(bytes, n, start, position, length, target, m, length, &mut [0; 7]) };
        list.push(bunch(&words[11..], payload));
    }
}
