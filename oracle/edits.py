# The oracle copy's edits, for each source file: how often the text must occur, the text, and what stands in its place.
# They open what isn't public and take out what needs crates that aren't here. None changes what a call does.

EDITS = {
    "crates/vrf-bitio/src/lib.rs": [
        # The driver makes any window, so the reader's four fields are opened.
        (1, "pub struct BitReader<'a> {\n    data: &'a [u8],\n", "pub struct BitReader<'a> {\n    pub data: &'a [u8],\n"),
        (1, "\n    start_bit: u64,\n", "\n    pub start_bit: u64,\n"),
        (1, "\n    pos: u64,\n", "\n    pub pos: u64,\n"),
        (1, "\n    len: u64,\n", "\n    pub len: u64,\n"),
    ],
    "crates/vrf-net/src/error.rs": [
        # Without thiserror: the messages stay as comments, Display and From stand in the crate root.
        (1, "#[derive(Debug, Clone, PartialEq, Eq, thiserror::Error)]", "#[derive(Debug, Clone, PartialEq, Eq)]"),
        (8, "    #[error(", "    // #[error("),
        (1, "Bit(#[from] BitError)", "Bit(BitError)"),
        (1, "    UnsupportedBranch(#[from] vrf_transform::UnsupportedBranch),\n", ""),
    ],
    "crates/vrf-net/src/packet.rs": [
        (1, "\nstruct PartialState {\n    ch_sequence: i32,\n    reliable: bool,\n", "\npub struct PartialState {\n    pub ch_sequence: i32,\n    pub reliable: bool,\n"),
        (1, "\n    partial_bunches: FxHashMap<u32, PartialState>,\n", "\n    pub partial_bunches: FxHashMap<u32, PartialState>,\n"),
        (1, "\n    in_reliable_sequence: FxHashMap<u32, i32>,\n", "\n    pub in_reliable_sequence: FxHashMap<u32, i32>,\n"),
        (1, "\n    max_channels: usize,\n", "\n    pub max_channels: usize,\n"),
        (1, "pub(crate) fn with_max_channels(", "pub fn with_max_channels("),
    ],
    "crates/vrf-net/src/bunch.rs": [
        (1, "\n    fragments: vrf_schema::FxHashMap<u32, AccumulatorState>,\n", "\n    pub fragments: vrf_schema::FxHashMap<u32, AccumulatorState>,\n"),
        (1, "\n    total_buffered_bits: usize,\n", "\n    pub total_buffered_bits: usize,\n"),
        (1, "\n    max_active: usize,\n", "\n    pub max_active: usize,\n"),
        (1, "\n    max_buffered_bits: usize,\n", "\n    pub max_buffered_bits: usize,\n"),
        (1, "\nstruct AccumulatorState {\n    ch_sequence: i32,\n    reliable: bool,\n    is_complete: bool,\n", "\npub struct AccumulatorState {\n    pub ch_sequence: i32,\n    pub reliable: bool,\n    pub is_complete: bool,\n"),
        (1, "\n    partial: PreservedPartial,\n", "\n    pub partial: PreservedPartial,\n"),
        (1, "\n    fn with_limits(", "\n    pub fn with_limits("),
    ],
    "crates/vrf-net/src/field.rs": [
        (1, "pub(crate) fn bit_count(self)", "pub fn bit_count(self)"),
        (1, "pub(crate) type Walk<R>", "pub type Walk<R>"),
        (1, "pub(crate) fn parse_rep_layout_content_block(", "pub fn parse_rep_layout_content_block("),
        (1, "\nfn parse_rep_layout_impl(", "\npub fn parse_rep_layout_impl("),
        (1, "pub(crate) fn parse_class_net_cache_content_block(", "pub fn parse_class_net_cache_content_block("),
    ],
}
