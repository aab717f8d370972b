// A bunch's header as twenty words in its order (crates/words), and the Rust's header that any words say.

use vrf_net::bunch::RawBunchHeader;
use vrf_net::error::PartialSequenceKind;
use vrf_net::types::ChannelCloseReason;

pub type Words = [u64; 20];

// Where in the words a field stands.
pub const RELIABLE: usize = 6;
pub const INITIAL: usize = 8;
pub const FINAL: usize = 9;
pub const SEQUENCE: usize = 12;
pub const ERROR: usize = 16;
pub const KIND: usize = 17;
pub const COMPLETED: usize = 18;

const KINDS: [PartialSequenceKind; 4] = [
    PartialSequenceKind::MissingInitial,
    PartialSequenceKind::OverlappingInitial,
    PartialSequenceKind::MismatchedContinuation,
    PartialSequenceKind::NonByteAlignedFragment,
];

/// 0 for none, else a kind's place in the Rust's list, counted from 1.
pub fn kind_word(kind: Option<PartialSequenceKind>) -> u64 {
    kind.map_or(0, |kind| 1 + KINDS.iter().position(|&other| other == kind).expect("one of four") as u64)
}

pub fn words(header: &RawBunchHeader) -> Words {
    [
        u64::from(header.packet_id as u32),
        u64::from(header.ch_index),
        header.b_open.into(),
        header.b_close.into(),
        header.b_dormant.into(),
        header.b_is_replication_paused.into(),
        header.b_reliable.into(),
        header.b_partial.into(),
        header.b_partial_initial.into(),
        header.b_partial_final.into(),
        header.b_has_package_map_exports.into(),
        header.b_has_must_be_mapped_guids.into(),
        u64::from(header.ch_sequence as u32),
        u64::from(header.close_reason == ChannelCloseReason::Dormancy),
        u64::from(header.payload_bit_count as u32),
        header.payload_bit_offset as u64,
        header.has_partial_error.into(),
        kind_word(header.partial_error_kind),
        header.is_partial_completed.into(),
        header.has_channel_limit_error.into(),
    ]
}

/// A flag is any word but 0, a field of 32 bits the word's low ones, a word that is no kind's is none.
pub fn header(words: &Words) -> RawBunchHeader {
    let flag = |index: usize| words[index] != 0;
    RawBunchHeader {
        packet_id: words[0] as i32,
        ch_index: words[1] as u32,
        b_open: flag(2),
        b_close: flag(3),
        b_dormant: flag(4),
        b_is_replication_paused: flag(5),
        b_reliable: flag(RELIABLE),
        b_partial: flag(7),
        b_partial_initial: flag(INITIAL),
        b_partial_final: flag(FINAL),
        b_has_package_map_exports: flag(10),
        b_has_must_be_mapped_guids: flag(11),
        ch_sequence: words[SEQUENCE] as i32,
        close_reason: if words[13] == 1 { ChannelCloseReason::Dormancy } else { ChannelCloseReason::Destroyed },
        payload_bit_count: words[14] as i32,
        payload_bit_offset: words[15] as i64,
        has_partial_error: flag(ERROR),
        partial_error_kind: words[KIND].checked_sub(1).and_then(|kind| KINDS.get(kind as usize).copied()),
        is_partial_completed: flag(COMPLETED),
        has_channel_limit_error: flag(19),
    }
}
