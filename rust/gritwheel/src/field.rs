//! The two record walks: vrf-net/src/field.rs, into a list in place of its sink.

use crate::bitio::{BitReader, left};
use crate::error::{Error, Result};
use crate::ffi::{self, Record, Walked, Window};

/// A record: a property of a RepLayout, or a call of a class net cache.
#[derive(Debug, Clone)]
pub struct FieldRecord<'a> {
    /// Which property or function.
    pub handle: u32,
    /// The payload's bits.
    pub bit_count: u32,
    /// The payload's first bit, counted from the walked window's first; `payload.start_bit()` counts from the data's.
    pub position: u64,
    /// Over exactly the payload's bits.
    pub payload: BitReader<'a>,
}

/// What remains after a RepLayout walk.
#[derive(Debug, Clone, Copy, PartialEq, Eq)]
pub enum RepLayoutRemainder {
    /// The window ended at the zero handle.
    None,
    /// So many bits stand after it, a class net cache.
    ClassNetCache(u64),
    /// A record's payload overran the window: so many bits, from the record's start on, are abandoned.
    Malformed(u64),
}

/// The records that a walk found, also where it then refused, and its outcome.
pub type Walk<'a, R> = (Vec<FieldRecord<'a>>, Result<R>);

/// Walks a RepLayout and stands at the window's end afterwards. Refuses 1, 2, 3.
///
/// ```
/// use gritwheel::BitReader;
/// use gritwheel::field::{RepLayoutRemainder, parse_rep_layout};
///
/// // One ignored bit; handle 1 (written as 2), 3 bits, 111; the end; 4 bits more.
/// let mut reader = BitReader::new(&[0x08, 0x0c, 0x0e, 0x00])?;
/// let (records, outcome) = parse_rep_layout(&mut reader);
/// assert_eq!(outcome?, RepLayoutRemainder::ClassNetCache(4));
/// assert_eq!((records.len(), records[0].handle, records[0].bit_count), (1, 1, 3));
/// assert_eq!(records[0].payload.clone().read_bits(3)?, 0b111);
/// # Ok::<(), gritwheel::Error>(())
/// ```
pub fn parse_rep_layout<'a>(reader: &mut BitReader<'a>) -> Walk<'a, RepLayoutRemainder> {
    remainder(walk(reader, ffi::parse_rep_layout))
}

/// Walks a RepLayout and leaves the reader where the class net cache after it starts.
pub fn parse_rep_layout_content_block<'a>(reader: &mut BitReader<'a>) -> Walk<'a, RepLayoutRemainder> {
    remainder(walk(reader, ffi::parse_rep_layout_content_block))
}

/// Walks a class net cache to the window's end; answers how many bits were abandoned there. Refuses 15, 1, 2, 3.
///
/// ```
/// use gritwheel::BitReader;
/// use gritwheel::field::parse_class_net_cache;
///
/// let (records, abandoned) = parse_class_net_cache(&mut BitReader::with_bit_len(&[0, 0], 9)?, 1);
/// assert_eq!((records.len(), records[0].bit_count, abandoned), (1, 0, Ok(0)));
/// let (records, abandoned) = parse_class_net_cache(&mut BitReader::new(&[0])?, 2);
/// assert_eq!((records.len(), abandoned), (0, Ok(8)));
/// # Ok::<(), gritwheel::Error>(())
/// ```
pub fn parse_class_net_cache<'a>(reader: &mut BitReader<'a>, function_count: u32) -> Walk<'a, u64> {
    let call = |data: &[u8], w, list: &mut [Record]| ffi::parse_class_net_cache(data, w, function_count, list);
    let (records, outcome) = walk(reader, call);
    (records, outcome.map(|(_, bits)| bits))
}

fn remainder<'a>((records, outcome): Walk<'a, (u64, u64)>) -> Walk<'a, RepLayoutRemainder> {
    let named = |(stop, bits)| match stop {
        0 => RepLayoutRemainder::None,
        1 => RepLayoutRemainder::ClassNetCache(bits),
        _ => RepLayoutRemainder::Malformed(bits),
    };
    (records, outcome.map(named))
}

/// Walks, and walks again from the same place with a list twice as long while it is full (14): no window has more records than
/// bits, so this ends, and all walks together take less than twice the last one's time. The outcome is the stop and its bits.
fn walk<'a>(reader: &mut BitReader<'a>, call: impl Fn(&[u8], Window, &mut [Record]) -> Walked) -> Walk<'a, (u64, u64)> {
    let (data, window) = (reader.data(), reader.window());
    let mut list: Vec<Record> = vec![[0; 4]; 32];
    loop {
        let answer = call(data, window, &mut list);
        let outcome = Error::check(&answer);
        if let Err(Error::ListFull { .. }) = outcome {
            list.resize(2 * list.len(), [0; 4]);
            continue;
        }
        reader.set_window(left(&answer));
        list.truncate(answer[7] as usize);
        let records = list.iter().map(|place| record(data, place)).collect();
        return (records, outcome.map(|()| (answer[1], answer[2])));
    }
}

fn record<'a>(data: &'a [u8], &[handle, bit_count, position, start]: &Record) -> FieldRecord<'a> {
    let payload = BitReader::over(data, Window { start, position: 0, length: bit_count });
    FieldRecord { handle: handle as u32, bit_count: bit_count as u32, position, payload }
}
