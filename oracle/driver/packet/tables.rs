// The five lent columns: what they hold as the Rust's maps, and the maps put back.

use super::Case;
use std::collections::BTreeMap;
use vrf_net::packet::{PartialState, RawPacketReader};

/// Channels and sequences; channels, sequences and reliables of the partial tracker.
pub type Columns = [Vec<u32>; 5];

/// What stands in a column before anything is put there: in each place something else.
pub fn untouched(places: [usize; 5]) -> Columns {
    std::array::from_fn(|column| {
        (0..places[column]).map(|index| 0xc3a0_0000 | (column as u32) << 16 | index as u32).collect()
    })
}

fn ascending(channels: &[u32]) -> bool {
    channels.windows(2).all(|pair| pair[0] < pair[1])
}

/// "the limit at most 4,096 and the lent tables' size"
pub fn fit(case: &Case) -> bool {
    case.limit <= 4096 && case.columns.iter().all(|column| case.limit <= column.len())
}

/// "no channel twice, each within the limit", and by ascending channel, as a call leaves them.
pub fn sound(case: &Case) -> bool {
    let [sequences, partials] = case.live;
    fit(case)
        && sequences <= case.limit
        && partials <= case.limit
        && ascending(&case.columns[0][..sequences])
        && ascending(&case.columns[2][..partials])
}

/// The Rust's reader with what the live places hold.
pub fn reader(case: &Case) -> RawPacketReader {
    let [sequences, partials] = case.live;
    let [channels, numbers, partial_channels, partial_sequences, reliables] = &case.columns;
    let mut reader = RawPacketReader::with_max_channels(case.limit);
    for index in 0..sequences {
        reader.in_reliable_sequence.insert(channels[index], numbers[index] as i32);
    }
    for index in 0..partials {
        let state = PartialState { ch_sequence: partial_sequences[index] as i32, reliable: reliables[index] != 0 };
        reader.partial_bunches.insert(partial_channels[index], state);
    }
    reader
}

/// Puts the reader's tables first in the columns, by ascending channel, and says how many places then count. A reliable that
/// stands stays as its word; that of `tracked`, whose fragment was tracked, is 0 or 1.
pub fn lay(reader: &RawPacketReader, tracked: Option<u32>, live: usize, columns: &mut Columns) -> [usize; 2] {
    let words: BTreeMap<u32, u32> = columns[2][..live].iter().copied().zip(columns[4][..live].iter().copied()).collect();
    let mut sequences: Vec<_> = reader.in_reliable_sequence.iter().map(|(channel, number)| (*channel, *number)).collect();
    sequences.sort_unstable();
    for (index, (channel, number)) in sequences.iter().enumerate() {
        columns[0][index] = *channel;
        columns[1][index] = *number as u32;
    }
    let mut partials: Vec<_> = reader.partial_bunches.iter().collect();
    partials.sort_unstable_by_key(|(channel, _)| **channel);
    for (index, (channel, state)) in partials.iter().enumerate() {
        columns[2][index] = **channel;
        columns[3][index] = state.ch_sequence as u32;
        columns[4][index] = match words.get(channel) {
            Some(word) if tracked != Some(**channel) => *word,
            _ => u32::from(state.reliable),
        };
    }
    [sequences.len(), partials.len()]
}
