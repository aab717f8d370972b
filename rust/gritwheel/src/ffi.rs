//! The library's C functions, and a safe function over each: all of this crate's `unsafe`.
//!
//! Every call answers on all numbers, lengths and contents, so what it takes to be safe is what no call can test
//! (include/gritwheel.h): pointers that are valid for their lengths, aligned and not null, and written memory that overlaps
//! nothing else. A Rust reference or slice is the first, also an empty one; that the safe functions take what is written as
//! `&mut`, or make it themselves, is the second. `include/check` holds the declarations to the library's sources.
#![allow(unsafe_code)]

/// A place in data: where the window starts, the bits consumed, and its bits.
#[derive(Debug, Clone, Copy, PartialEq, Eq)]
pub struct Window {
    pub start: u64,
    pub position: u64,
    pub length: u64,
}

pub type Answer = [u64; 7];
pub type Walked = [u64; 8];
pub type OpenedReader = [u64; 4];
pub type Read = [u64; 34];
pub type Written = [u64; 3];
pub type Limits = [u64; 5];
pub type Fragment = [u64; 79];
pub type Handed = [u64; 26];
pub type Drained = [u64; 6];

pub type HeaderWords = [u64; 20];
pub type Record = [u64; 4];
pub type Place = [u64; 24];
pub type Listed = [u64; 22];

#[rustfmt::skip]
unsafe extern "C" {
    fn gritwheel_new(bytes: *const u8, n: usize, out: *mut [u64; 7]);
    fn gritwheel_with_bit_len(bytes: *const u8, n: usize, bit_len: u64, out: *mut [u64; 7]);
    fn gritwheel_position(start: u64, position: u64, length: u64) -> u64;
    fn gritwheel_len_bits(start: u64, position: u64, length: u64) -> u64;
    fn gritwheel_at_end(start: u64, position: u64, length: u64) -> bool;
    fn gritwheel_bits_remaining(start: u64, position: u64, length: u64, out: *mut [u64; 7]);
    fn gritwheel_read_bit(bytes: *const u8, n: usize, start: u64, position: u64, length: u64, out: *mut [u64; 7]);
    fn gritwheel_read_bits(bytes: *const u8, n: usize, start: u64, position: u64, length: u64, count: u32, out: *mut [u64; 7]);
    fn gritwheel_read_u8(bytes: *const u8, n: usize, start: u64, position: u64, length: u64, out: *mut [u64; 7]);
    fn gritwheel_read_u16(bytes: *const u8, n: usize, start: u64, position: u64, length: u64, out: *mut [u64; 7]);
    fn gritwheel_read_u32(bytes: *const u8, n: usize, start: u64, position: u64, length: u64, out: *mut [u64; 7]);
    fn gritwheel_read_i32(bytes: *const u8, n: usize, start: u64, position: u64, length: u64, out: *mut [u64; 7]);
    fn gritwheel_read_u64(bytes: *const u8, n: usize, start: u64, position: u64, length: u64, out: *mut [u64; 7]);
    fn gritwheel_read_f32(bytes: *const u8, n: usize, start: u64, position: u64, length: u64, value: *mut f32, out: *mut [u64; 7]);
    fn gritwheel_read_f64(bytes: *const u8, n: usize, start: u64, position: u64, length: u64, value: *mut f64, out: *mut [u64; 7]);
    fn gritwheel_read_int_packed(bytes: *const u8, n: usize, start: u64, position: u64, length: u64, out: *mut [u64; 7]);
    fn gritwheel_read_serialized_int(
        bytes: *const u8, n: usize, start: u64, position: u64, length: u64, max: u32, out: *mut [u64; 7],
    );
    fn gritwheel_copy_bits_to(
        bytes: *const u8, n: usize, start: u64, position: u64, length: u64, target: *mut u8, m: usize, count: u64, out: *mut [u64; 7],
    );
    fn gritwheel_sub_reader(bytes: *const u8, n: usize, start: u64, position: u64, length: u64, count: u64, out: *mut [u64; 7]);
    fn gritwheel_skip_bits(bytes: *const u8, n: usize, start: u64, position: u64, length: u64, count: u64, out: *mut [u64; 7]);
    fn gritwheel_skip_remaining(bytes: *const u8, n: usize, start: u64, position: u64, length: u64, out: *mut [u64; 7]);
    fn gritwheel_parse_rep_layout(
        bytes: *const u8, n: usize, start: u64, position: u64, length: u64, records: *mut [u64; 4], k: usize, out: *mut [u64; 8],
    );
    fn gritwheel_parse_rep_layout_content_block(
        bytes: *const u8, n: usize, start: u64, position: u64, length: u64, records: *mut [u64; 4], k: usize, out: *mut [u64; 8],
    );
    fn gritwheel_parse_class_net_cache(
        bytes: *const u8, n: usize, start: u64, position: u64, length: u64, function_count: u32, records: *mut [u64; 4], k: usize,
        out: *mut [u64; 8],
    );
    fn gritwheel_with_max_channels(
        max_channels: usize, sequence_channels: *const u32, i: usize, sequence_numbers: *const u32, j: usize,
        partial_channels: *const u32, k: usize, partial_sequences: *const u32, l: usize, partial_reliables: *const u32, m: usize,
        out: *mut [u64; 4],
    );
    fn gritwheel_read_bunch(
        packet: *const u8, n: usize, packet_id: i32, at: u64, max_channels: usize, sequences: usize, partials: usize,
        sequence_channels: *mut u32, i: usize, sequence_numbers: *mut u32, j: usize, partial_channels: *mut u32, k: usize,
        partial_sequences: *mut u32, l: usize, partial_reliables: *mut u32, m: usize, out: *mut [u64; 34],
    );
    fn gritwheel_write_bunch(
        ch_index: u32, b_open: bool, b_close: bool, b_dormant: bool, dormancy: bool, b_is_replication_paused: bool,
        b_reliable: bool, b_partial: bool, b_partial_initial: bool, b_partial_final: bool, b_has_package_map_exports: bool,
        b_has_must_be_mapped_guids: bool, payload: *const u8, n: usize, count: u64, packet: *mut u8, m: usize, at: u64,
        out: *mut [u64; 3],
    );
    fn gritwheel_close_packet(packet: *mut u8, m: usize, at: u64, out: *mut [u64; 3]);
    fn gritwheel_with_limits(
        max_active: usize, max_buffered_bits: u64, channels: *const u32, i: usize, places: *const [u64; 24], j: usize,
        arena: *const u8, k: usize, out: *mut [u64; 5],
    );
    fn gritwheel_add_fragment(
        max_active: usize, max_buffered_bits: u64, active: usize, total: u64, ch_index: u32, header: *const [u64; 20],
        payload: *const u8, n: usize, bits: u64, channels: *mut u32, i: usize, places: *mut [u64; 24], j: usize,
        arena: *mut u8, k: usize, output: *mut u8, l: usize, out: *mut [u64; 79],
    );
    fn gritwheel_take_completed(
        max_active: usize, max_buffered_bits: u64, active: usize, total: u64, ch_index: u32, channels: *mut u32, i: usize,
        places: *mut [u64; 24], j: usize, arena: *mut u8, k: usize, output: *mut u8, l: usize, out: *mut [u64; 26],
    );
    fn gritwheel_retire_channel(
        max_active: usize, max_buffered_bits: u64, active: usize, total: u64, ch_index: u32, channels: *mut u32, i: usize,
        places: *mut [u64; 24], j: usize, arena: *mut u8, k: usize, output: *mut u8, l: usize, out: *mut [u64; 26],
    );
    fn gritwheel_drain_unfinished(
        max_active: usize, max_buffered_bits: u64, active: usize, total: u64, channels: *const u32, i: usize,
        places: *const [u64; 24], j: usize, arena: *const u8, k: usize, output: *mut u8, l: usize, list: *mut [u64; 22], m: usize,
        out: *mut [u64; 6],
    );
}

/// A call that reads data: the slice, numbers, and the answer.
macro_rules! reads {
    ($($safe:ident = $call:ident($($number:ident: $kind:ty),*);)*) => {$(
        pub fn $safe(data: &[u8], w: Window $(, $number: $kind)*) -> Answer {
            let mut out = [0; 7];
            // SAFETY: `data` is a slice, `out` is ours; see the module's first lines.
            unsafe { $call(data.as_ptr(), data.len(), w.start, w.position, w.length $(, $number)*, &mut out) };
            out
        }
    )*};
}

reads! {
    read_bit = gritwheel_read_bit();
    read_bits = gritwheel_read_bits(count: u32);
    read_u8 = gritwheel_read_u8();
    read_u16 = gritwheel_read_u16();
    read_u32 = gritwheel_read_u32();
    read_i32 = gritwheel_read_i32();
    read_u64 = gritwheel_read_u64();
    read_int_packed = gritwheel_read_int_packed();
    read_serialized_int = gritwheel_read_serialized_int(max: u32);
    sub_reader = gritwheel_sub_reader(count: u64);
    skip_bits = gritwheel_skip_bits(count: u64);
    skip_remaining = gritwheel_skip_remaining();
}

/// A float goes out beside the answer.
macro_rules! floats {
    ($($safe:ident = $call:ident($kind:ty);)*) => {$(
        pub fn $safe(data: &[u8], w: Window) -> ($kind, Answer) {
            let (mut value, mut out) = (0.0, [0; 7]);
            // SAFETY: `data` is a slice, `value` and `out` are two variables of ours.
            unsafe { $call(data.as_ptr(), data.len(), w.start, w.position, w.length, &mut value, &mut out) };
            (value, out)
        }
    )*};
}

floats! {
    read_f32 = gritwheel_read_f32(f32);
    read_f64 = gritwheel_read_f64(f64);
}

/// A walk writes to a list that is lent.
macro_rules! walks {
    ($($safe:ident = $call:ident($($number:ident: $kind:ty),*);)*) => {$(
        pub fn $safe(data: &[u8], w: Window $(, $number: $kind)*, list: &mut [Record]) -> Walked {
            let mut out = [0; 8];
            let (records, k) = (list.as_mut_ptr(), list.len());
            // SAFETY: `data` is a slice, `list` one that nothing else refers to, `out` is ours.
            unsafe { $call(data.as_ptr(), data.len(), w.start, w.position, w.length $(, $number)*, records, k, &mut out) };
            out
        }
    )*};
}

walks! {
    parse_rep_layout = gritwheel_parse_rep_layout();
    parse_rep_layout_content_block = gritwheel_parse_rep_layout_content_block();
    parse_class_net_cache = gritwheel_parse_class_net_cache(function_count: u32);
}

pub fn new(data: &[u8]) -> Answer {
    let mut out = [0; 7];
    // SAFETY: `data` is a slice, `out` is ours.
    unsafe { gritwheel_new(data.as_ptr(), data.len(), &mut out) };
    out
}

pub fn with_bit_len(data: &[u8], bit_len: u64) -> Answer {
    let mut out = [0; 7];
    // SAFETY: `data` is a slice, `out` is ours.
    unsafe { gritwheel_with_bit_len(data.as_ptr(), data.len(), bit_len, &mut out) };
    out
}

pub fn position(w: Window) -> u64 {
    // SAFETY: numbers alone.
    unsafe { gritwheel_position(w.start, w.position, w.length) }
}

pub fn len_bits(w: Window) -> u64 {
    // SAFETY: numbers alone.
    unsafe { gritwheel_len_bits(w.start, w.position, w.length) }
}

pub fn at_end(w: Window) -> bool {
    // SAFETY: numbers alone; the answer is a proved bool, 0 or 1.
    unsafe { gritwheel_at_end(w.start, w.position, w.length) }
}

pub fn bits_remaining(w: Window) -> Answer {
    let mut out = [0; 7];
    // SAFETY: numbers, and `out` is ours.
    unsafe { gritwheel_bits_remaining(w.start, w.position, w.length, &mut out) };
    out
}

pub fn copy_bits_to(data: &[u8], w: Window, target: &mut [u8], count: u64) -> Answer {
    let mut out = [0; 7];
    let (to, m) = (target.as_mut_ptr(), target.len());
    // SAFETY: `data` is a slice, `target` one that nothing else refers to, `out` is ours.
    unsafe { gritwheel_copy_bits_to(data.as_ptr(), data.len(), w.start, w.position, w.length, to, m, count, &mut out) };
    out
}

/// The packet reader's five columns.
#[derive(Debug, Clone, Default)]
pub struct Columns {
    pub sequence_channels: Vec<u32>,
    pub sequence_numbers: Vec<u32>,
    pub partial_channels: Vec<u32>,
    pub partial_sequences: Vec<u32>,
    pub partial_reliables: Vec<u32>,
}

/// The limit, and how many places of each table count.
#[derive(Debug, Clone, Copy)]
pub struct Reader {
    pub max_channels: usize,
    pub sequences: usize,
    pub partials: usize,
}

#[rustfmt::skip]
pub fn with_max_channels(max_channels: usize, columns: &Columns) -> OpenedReader {
    let mut out = [0; 4];
    let (a, b, c) = (&columns.sequence_channels, &columns.sequence_numbers, &columns.partial_channels);
    let (d, e) = (&columns.partial_sequences, &columns.partial_reliables);
    // SAFETY: five slices that are read, `out` is ours.
    unsafe {
        gritwheel_with_max_channels(
            max_channels, a.as_ptr(), a.len(), b.as_ptr(), b.len(), c.as_ptr(), c.len(), d.as_ptr(), d.len(), e.as_ptr(), e.len(),
            &mut out,
        );
    }
    out
}

#[rustfmt::skip]
pub fn read_bunch(packet: &[u8], packet_id: i32, at: u64, reader: Reader, columns: &mut Columns) -> Read {
    let mut out = [0; 34];
    let Reader { max_channels, sequences, partials } = reader;
    let (a, b, c) = (&mut columns.sequence_channels, &mut columns.sequence_numbers, &mut columns.partial_channels);
    let (d, e) = (&mut columns.partial_sequences, &mut columns.partial_reliables);
    // SAFETY: `packet` is a slice; five vectors of their own, borrowed for writing; `out` is ours.
    unsafe {
        gritwheel_read_bunch(
            packet.as_ptr(), packet.len(), packet_id, at, max_channels, sequences, partials, a.as_mut_ptr(), a.len(), b.as_mut_ptr(),
            b.len(), c.as_mut_ptr(), c.len(), d.as_mut_ptr(), d.len(), e.as_mut_ptr(), e.len(), &mut out,
        );
    }
    out
}

/// A header's parts that are written or judged, in the call's order; the fourth flag is the close reason.
pub type WrittenFlags = [bool; 11];

#[rustfmt::skip]
pub fn write_bunch(ch_index: u32, f: WrittenFlags, payload: &[u8], count: u64, packet: &mut [u8], at: u64) -> Written {
    let mut out = [0; 3];
    // SAFETY: `payload` is a slice, `packet` one that nothing else refers to, `out` is ours.
    unsafe {
        gritwheel_write_bunch(
            ch_index, f[0], f[1], f[2], f[3], f[4], f[5], f[6], f[7], f[8], f[9], f[10], payload.as_ptr(), payload.len(), count,
            packet.as_mut_ptr(), packet.len(), at, &mut out,
        );
    }
    out
}

pub fn close_packet(packet: &mut [u8], at: u64) -> Written {
    let mut out = [0; 3];
    // SAFETY: `packet` is a slice that nothing else refers to, `out` is ours.
    unsafe { gritwheel_close_packet(packet.as_mut_ptr(), packet.len(), at, &mut out) };
    out
}

/// The accumulator's memory.
#[derive(Debug, Clone, Default)]
pub struct Held {
    pub channels: Vec<u32>,
    pub places: Vec<Place>,
    pub arena: Vec<u8>,
}

/// The limits, and how many places and bits count.
#[derive(Debug, Clone, Copy)]
pub struct Accumulator {
    pub max_active: usize,
    pub max_buffered_bits: u64,
    pub active: usize,
    pub total: u64,
}

#[rustfmt::skip]
pub fn with_limits(max_active: usize, max_buffered_bits: u64, held: &Held) -> Limits {
    let mut out = [0; 5];
    let (c, p, a) = (&held.channels, &held.places, &held.arena);
    // SAFETY: three slices that are read, `out` is ours.
    unsafe {
        gritwheel_with_limits(
            max_active, max_buffered_bits, c.as_ptr(), c.len(), p.as_ptr(), p.len(), a.as_ptr(), a.len(), &mut out,
        );
    }
    out
}

/// A fragment that is handed in.
pub struct Given<'a> {
    pub ch_index: u32,
    pub header: HeaderWords,
    pub payload: &'a [u8],
    pub bits: u64,
}

#[rustfmt::skip]
pub fn add_fragment(a: Accumulator, given: &Given<'_>, held: &mut Held, output: &mut [u8]) -> Fragment {
    let mut out = [0; 79];
    let Held { channels, places, arena } = held;
    // SAFETY: the header and `payload` are read; three vectors of their own and `output`, all borrowed for writing; `out` is ours.
    unsafe {
        gritwheel_add_fragment(
            a.max_active, a.max_buffered_bits, a.active, a.total, given.ch_index, &given.header, given.payload.as_ptr(),
            given.payload.len(), given.bits, channels.as_mut_ptr(), channels.len(), places.as_mut_ptr(), places.len(),
            arena.as_mut_ptr(), arena.len(), output.as_mut_ptr(), output.len(), &mut out,
        );
    }
    out
}

/// A call that hands out a channel's message.
macro_rules! hands {
    ($($safe:ident = $call:ident;)*) => {$(
        pub fn $safe(a: Accumulator, ch_index: u32, held: &mut Held, output: &mut [u8]) -> Handed {
            let mut out = [0; 26];
            let Held { channels, places, arena } = held;
            // SAFETY: three vectors of their own and `output`, all borrowed for writing; `out` is ours.
            unsafe {
                $call(
                    a.max_active, a.max_buffered_bits, a.active, a.total, ch_index, channels.as_mut_ptr(), channels.len(),
                    places.as_mut_ptr(), places.len(), arena.as_mut_ptr(), arena.len(), output.as_mut_ptr(), output.len(), &mut out,
                );
            }
            out
        }
    )*};
}

hands! {
    take_completed = gritwheel_take_completed;
    retire_channel = gritwheel_retire_channel;
}

#[rustfmt::skip]
pub fn drain_unfinished(a: Accumulator, held: &Held, output: &mut [u8], list: &mut [Listed]) -> Drained {
    let mut out = [0; 6];
    let Held { channels, places, arena } = held;
    // SAFETY: three slices that are read; `output` and `list` are borrowed for writing; `out` is ours.
    unsafe {
        gritwheel_drain_unfinished(
            a.max_active, a.max_buffered_bits, a.active, a.total, channels.as_ptr(), channels.len(), places.as_ptr(), places.len(),
            arena.as_ptr(), arena.len(), output.as_mut_ptr(), output.len(), list.as_mut_ptr(), list.len(), &mut out,
        );
    }
    out
}
