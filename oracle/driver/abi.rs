// The C functions of our static libraries, as the driver and the timing program call them.
//
// A window is start, position, length. An `Out` has 7 words: 0 or the refusal's number, three words of the value or
// of the refusal, and the window afterwards. Nothing checks these lines against the libraries' sources.

pub type Out = [u64; 7];

/// A walk's: the seven, then how many records were written.
pub type WalkOut = [u64; 8];

/// A record in a list of field records (crates/field_records).
#[repr(C)]
#[derive(Clone, Copy, PartialEq)]
pub struct FieldRecord {
    pub handle: u32,
    pub bit_count: u32,
    pub in_window: u64,
    pub in_packet: u64,
}

/// A packet reader's opening: 0 or the refusal's number, the limit, and the live places of both tables.
pub type ReaderOut = [u64; 4];

/// A reading call's (crates/exports_packet/specs/Packets.antt).
pub type BunchOut = [u64; 34];

/// The accumulator's calls: 0 or the refusal's number and what it returns, how many places and bits then count (not of an opening,
/// which has its limits first), and the answer (crates/exports_bunch).
pub type LimitsOut = [u64; 5];
pub type FragmentOut = [u64; 79];
pub type HandedOut = [u64; 26];
pub type DrainedOut = [u64; 6];

/// A writing call's: 0 and up to which bit the packet is written, or the refusal's number and what it returns.
pub type WriteOut = [u64; 3];

macro_rules! handing {
    ($($name:ident;)*) => {
        unsafe extern "C" {
            $(pub fn $name(
                max_active: usize, max_buffered_bits: u64, active: usize, total: u64, ch_index: u32, channels: *mut u32, i: usize,
                places: *mut [u64; 24], j: usize, arena: *mut u8, k: usize, output: *mut u8, l: usize, out: *mut HandedOut,
            );)*
        }
    };
}

macro_rules! reads {
    ($out:ty; $($name:ident($($argument:ident: $kind:ty),*);)*) => {
        unsafe extern "C" {
            $(pub fn $name(
                bytes: *const u8, n: usize, start: u64, position: u64, length: u64, $($argument: $kind,)* out: *mut $out,
            );)*
        }
    };
}

unsafe extern "C" {
    pub fn gritwheel_new(bytes: *const u8, n: usize, out: *mut Out);
    pub fn gritwheel_with_bit_len(bytes: *const u8, n: usize, bit_len: u64, out: *mut Out);
    pub fn gritwheel_position(start: u64, position: u64, length: u64) -> u64;
    pub fn gritwheel_len_bits(start: u64, position: u64, length: u64) -> u64;
    pub fn gritwheel_bits_remaining(start: u64, position: u64, length: u64, out: *mut Out);
    // A bool, declared as its byte so that one which is neither 0 nor 1 is seen as a difference.
    pub fn gritwheel_at_end(start: u64, position: u64, length: u64) -> u8;
    #[rustfmt::skip]
    pub fn gritwheel_with_max_channels(
        max_channels: usize, sequence_channels: *const u32, i: usize, sequence_numbers: *const u32, j: usize,
        partial_channels: *const u32, k: usize, partial_sequences: *const u32, l: usize, partial_reliables: *const u32, m: usize,
        out: *mut ReaderOut,
    );
    #[rustfmt::skip]
    pub fn gritwheel_read_bunch(
        packet: *const u8, n: usize, packet_id: i32, at: u64, max_channels: usize, sequences: usize, partials: usize,
        sequence_channels: *mut u32, i: usize, sequence_numbers: *mut u32, j: usize, partial_channels: *mut u32, k: usize,
        partial_sequences: *mut u32, l: usize, partial_reliables: *mut u32, m: usize, out: *mut BunchOut,
    );
    #[rustfmt::skip]
    pub fn gritwheel_write_bunch(
        ch_index: u32, b_open: bool, b_close: bool, b_dormant: bool, dormancy: bool, b_is_replication_paused: bool,
        b_reliable: bool, b_partial: bool, b_partial_initial: bool, b_partial_final: bool, b_has_package_map_exports: bool,
        b_has_must_be_mapped_guids: bool, payload: *const u8, n: usize, count: u64, packet: *mut u8, m: usize, at: u64,
        out: *mut WriteOut,
    );
    pub fn gritwheel_close_packet(packet: *mut u8, m: usize, at: u64, out: *mut WriteOut);
    #[rustfmt::skip]
    pub fn gritwheel_with_limits(
        max_active: usize, max_buffered_bits: u64, channels: *const u32, i: usize, places: *const [u64; 24], j: usize,
        arena: *const u8, k: usize, out: *mut LimitsOut,
    );
    #[rustfmt::skip]
    pub fn gritwheel_add_fragment(
        max_active: usize, max_buffered_bits: u64, active: usize, total: u64, ch_index: u32, header: *const [u64; 20],
        payload: *const u8, n: usize, bits: u64, channels: *mut u32, i: usize, places: *mut [u64; 24], j: usize, arena: *mut u8,
        k: usize, output: *mut u8, l: usize, out: *mut FragmentOut,
    );
    #[rustfmt::skip]
    pub fn gritwheel_drain_unfinished(
        max_active: usize, max_buffered_bits: u64, active: usize, total: u64, channels: *const u32, i: usize,
        places: *const [u64; 24], j: usize, arena: *const u8, k: usize, output: *mut u8, l: usize, list: *mut [u64; 22], m: usize,
        out: *mut DrainedOut,
    );
}

handing! {
    gritwheel_take_completed;
    gritwheel_retire_channel;
}

// Many fragments in a row over memory that was tested, which only the timing program calls: it takes and answers how many bytes of
// the arena are used.
#[cfg(chains)]
unsafe extern "C" {
    #[rustfmt::skip]
    pub fn timing_chains(
        max_active: usize, max_buffered_bits: u64, active: usize, total: u64, used: usize, headers: *const [u64; 20], h: usize,
        payloads: *const u8, p: usize, channels: *mut u32, i: usize, places: *mut [u64; 24], j: usize, arena: *mut u8, k: usize,
        output: *mut u8, l: usize, out: *mut [u64; 3],
    ) -> usize;
}

reads! {
    Out;
    gritwheel_read_bit();
    gritwheel_read_bits(count: u32);
    gritwheel_read_u8();
    gritwheel_read_u16();
    gritwheel_read_u32();
    gritwheel_read_i32();
    gritwheel_read_u64();
    gritwheel_read_f32(value: *mut f32);
    gritwheel_read_f64(value: *mut f64);
    gritwheel_read_int_packed();
    gritwheel_read_serialized_int(max: u32);
    gritwheel_copy_bits_to(target: *mut u8, m: usize, count: u64);
    gritwheel_sub_reader(count: u64);
    gritwheel_skip_bits(count: u64);
    gritwheel_skip_remaining();
}

// Through the reader that keeps its slice (crates/bitio_reader).
unsafe extern "C" {
    pub fn gritwheel_reader_new(bytes: *const u8, n: usize, out: *mut Out);
    pub fn gritwheel_reader_with_bit_len(bytes: *const u8, n: usize, bit_len: u64, out: *mut Out);
    pub fn gritwheel_reader_position(bytes: *const u8, n: usize, start: u64, position: u64, length: u64) -> u64;
    pub fn gritwheel_reader_len_bits(bytes: *const u8, n: usize, start: u64, position: u64, length: u64) -> u64;
    pub fn gritwheel_reader_at_end(bytes: *const u8, n: usize, start: u64, position: u64, length: u64) -> u8;
}

reads! {
    Out;
    gritwheel_reader_bits_remaining();
    gritwheel_reader_read_bit();
    gritwheel_reader_read_bits(count: u32);
    gritwheel_reader_read_u8();
    gritwheel_reader_read_u16();
    gritwheel_reader_read_u32();
    gritwheel_reader_read_i32();
    gritwheel_reader_read_u64();
    gritwheel_reader_read_f32(value: *mut f32);
    gritwheel_reader_read_f64(value: *mut f64);
    gritwheel_reader_read_int_packed();
    gritwheel_reader_read_serialized_int(max: u32);
    gritwheel_reader_copy_bits_to(target: *mut u8, m: usize, count: u64);
    gritwheel_reader_sub_reader(count: u64);
    gritwheel_reader_skip_bits(count: u64);
    gritwheel_reader_skip_remaining();
}

reads! {
    WalkOut;
    gritwheel_list_records(
        stream: u32, function_count: u32, records: *mut FieldRecord, i: usize, numbers: *mut [u64; 4], k: usize
    );
    gritwheel_parse_rep_layout(records: *mut [u64; 4], k: usize);
    gritwheel_parse_rep_layout_content_block(records: *mut [u64; 4], k: usize);
    gritwheel_parse_class_net_cache(function_count: u32, records: *mut [u64; 4], k: usize);
}
