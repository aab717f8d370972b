//! Constants, the close reason, kinds and the bunch header: vrf-net's types.rs, error.rs and bunch.rs.

use crate::ffi::HeaderWords;
use std::fmt;

/// The serialized maximum of a bunch's payload count; a payload has at most one bit less.
pub const MAX_PACKET_SIZE_BITS: u32 = 16_384;

/// The most channels that a packet reader may track.
pub const MAX_ACTIVE_CHANNELS: usize = 4_096;

/// The most messages that an accumulator may hold.
pub const MAX_ACTIVE_PARTIAL_BUNCHES: usize = 4_096;

/// The most bits that an accumulator may hold (64 MiB).
pub const MAX_BUFFERED_PARTIAL_BITS: u64 = 536_870_912;

/// The most bytes of a packet.
pub const MAX_PACKET_BYTES: usize = 65_535;

/// Why a channel was closed.
#[derive(Debug, Clone, Copy, PartialEq, Eq, Hash, Default)]
pub enum ChannelCloseReason {
    /// The actor was destroyed: every reason on the wire but 1.
    #[default]
    Destroyed,
    /// The actor is dormant and lives on.
    Dormancy,
}

/// What was wrong with a fragment.
#[derive(Debug, Clone, Copy, PartialEq, Eq, Hash)]
pub enum PartialSequenceKind {
    /// A continuation without an unfinished message.
    MissingInitial,
    /// An initial while a message was unfinished.
    OverlappingInitial,
    /// A continuation of another reliability or sequence.
    MismatchedContinuation,
    /// A fragment before the last whose bits don't fill its bytes.
    NonByteAlignedFragment,
}

impl PartialSequenceKind {
    /// Counted from 1; 0 is none.
    pub(crate) fn from_word(word: u64) -> Option<Self> {
        match word {
            1 => Some(Self::MissingInitial),
            2 => Some(Self::OverlappingInitial),
            3 => Some(Self::MismatchedContinuation),
            4 => Some(Self::NonByteAlignedFragment),
            _ => None,
        }
    }
}

impl fmt::Display for PartialSequenceKind {
    fn fmt(&self, f: &mut fmt::Formatter<'_>) -> fmt::Result {
        f.write_str(match self {
            Self::MissingInitial => "continuation without initial",
            Self::OverlappingInitial => "overlapping initial",
            Self::MismatchedContinuation => "mismatched continuation",
            Self::NonByteAlignedFragment => "non-byte-aligned non-final fragment",
        })
    }
}

/// A bunch's header, in the Rust's fields. (`payload_bit_count` and `payload_bit_offset` can't be negative here.)
#[derive(Debug, Clone, PartialEq, Eq, Default)]
#[allow(missing_docs)]
pub struct RawBunchHeader {
    pub packet_id: i32,
    pub ch_index: u32,
    pub b_open: bool,
    pub b_close: bool,
    /// The close reason is Dormancy.
    pub b_dormant: bool,
    pub b_is_replication_paused: bool,
    pub b_reliable: bool,
    pub b_partial: bool,
    pub b_partial_initial: bool,
    pub b_partial_final: bool,
    pub b_has_package_map_exports: bool,
    pub b_has_must_be_mapped_guids: bool,
    /// The channel's reliable sequence, or of an unreliable fragment the packet id.
    pub ch_sequence: i32,
    pub close_reason: ChannelCloseReason,
    pub payload_bit_count: u32,
    /// Where the payload begins, counted from the packet's first bit.
    pub payload_bit_offset: u64,
    /// The packet reader's tracker, or the accumulator, found an error with this fragment.
    pub has_partial_error: bool,
    pub partial_error_kind: Option<PartialSequenceKind>,
    /// This fragment finished a message.
    pub is_partial_completed: bool,
    /// The reader's table could not admit or advance this channel.
    pub has_channel_limit_error: bool,
}

impl RawBunchHeader {
    /// Clears what the packet reader's tracker set, its error and its completion, as the Rust's pipeline does before it hands a
    /// fragment to the accumulator. The tracker is advice; the accumulator judges for itself, and discards a message whose final
    /// comes in with the error flag.
    pub fn clear_tracking(&mut self) {
        self.has_partial_error = false;
        self.is_partial_completed = false;
    }

    /// The twenty words of the C calls.
    pub(crate) fn to_words(&self) -> HeaderWords {
        [
            u64::from(self.packet_id as u32),
            self.ch_index.into(),
            self.b_open.into(),
            self.b_close.into(),
            self.b_dormant.into(),
            self.b_is_replication_paused.into(),
            self.b_reliable.into(),
            self.b_partial.into(),
            self.b_partial_initial.into(),
            self.b_partial_final.into(),
            self.b_has_package_map_exports.into(),
            self.b_has_must_be_mapped_guids.into(),
            u64::from(self.ch_sequence as u32),
            (self.close_reason == ChannelCloseReason::Dormancy).into(),
            self.payload_bit_count.into(),
            self.payload_bit_offset,
            self.has_partial_error.into(),
            self.partial_error_kind.map_or(0, |kind| 1 + kind as u64),
            self.is_partial_completed.into(),
            self.has_channel_limit_error.into(),
        ]
    }

    /// Twenty words of an answer, from one of them on.
    pub(crate) fn from_words(words: &[u64]) -> Self {
        let flag = |index: usize| words[index] != 0;
        Self {
            packet_id: words[0] as u32 as i32,
            ch_index: words[1] as u32,
            b_open: flag(2),
            b_close: flag(3),
            b_dormant: flag(4),
            b_is_replication_paused: flag(5),
            b_reliable: flag(6),
            b_partial: flag(7),
            b_partial_initial: flag(8),
            b_partial_final: flag(9),
            b_has_package_map_exports: flag(10),
            b_has_must_be_mapped_guids: flag(11),
            ch_sequence: words[12] as u32 as i32,
            close_reason: if words[13] == 1 { ChannelCloseReason::Dormancy } else { ChannelCloseReason::Destroyed },
            payload_bit_count: words[14] as u32,
            payload_bit_offset: words[15],
            has_partial_error: flag(16),
            partial_error_kind: PartialSequenceKind::from_word(words[17]),
            is_partial_completed: flag(18),
            has_channel_limit_error: flag(19),
        }
    }
}

#[cfg(test)]
mod tests {
    use super::*;

    /// Each word stands for one field, and comes back from it.
    #[test]
    fn words() {
        let most = [
            u64::from(u32::MAX),
            u64::from(u32::MAX),
            1,
            1,
            1,
            1,
            1,
            1,
            1,
            1,
            1,
            1,
            u64::from(u32::MAX),
            1,
            u64::from(u32::MAX),
            u64::MAX,
            1,
            4,
            1,
            1,
        ];
        for index in 0..20 {
            let mut words = [0; 20];
            words[index] = most[index];
            let header = RawBunchHeader::from_words(&words);
            assert_ne!(header, RawBunchHeader::default(), "word {index}");
            assert_eq!(header.to_words(), words);
        }
        assert_eq!(RawBunchHeader::from_words(&most).packet_id, -1);
        for kind in 0..5 {
            assert_eq!(PartialSequenceKind::from_word(kind).map_or(0, |kind| 1 + kind as u64), kind);
        }
    }
}
