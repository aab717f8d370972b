//! The packet reader: vrf-net/src/packet.rs.

use crate::bitio::BitReader;
use crate::error::{Error, Result};
use crate::ffi::{self, Columns, Reader, Window};
use crate::types::{MAX_ACTIVE_CHANNELS, RawBunchHeader};

/// A packet reader, one for each replay: it knows each channel's reliable sequence and the messages in flight.
///
/// ```
/// use gritwheel::RawPacketReader;
///
/// let mut reader = RawPacketReader::new();
/// let mut bunches = reader.bunches(&[0x30, 0x00, 0x04, 0xa0, 0x34], 7);
/// let mut bunch = bunches.next().expect("it has one")?;
/// assert_eq!((bunch.header.ch_index, bunch.header.payload_bit_offset), (3, 29));
/// assert_eq!(bunch.payload.read_u8()?, 0xa5);
/// assert!(bunches.next().is_none());
/// assert!(!bunches.result().is_malformed);
/// # Ok::<(), gritwheel::Error>(())
/// ```
#[derive(Debug, Clone)]
pub struct RawPacketReader {
    reader: Reader,
    columns: Columns,
}

/// A bunch of a packet.
#[derive(Debug, Clone)]
pub struct Bunch<'p> {
    /// With what the reader's tracker found; see [`RawBunchHeader::clear_tracking`].
    pub header: RawBunchHeader,
    /// Over exactly the payload's bits.
    pub payload: BitReader<'p>,
}

/// What was read of a packet.
#[derive(Debug, Clone, Copy, PartialEq, Eq, Default)]
pub struct PacketReadResult {
    /// Bunches that were handed out.
    pub bunch_count: u32,
    /// No end mark, a header that doesn't read, or a payload beyond the packet. The bunches before it stand.
    pub is_malformed: bool,
    /// Errors that the tracker found.
    pub partial_error_count: u32,
    /// Bunches whose channel the table could not admit or advance.
    pub channel_limit_count: u32,
}

impl RawPacketReader {
    /// A reader of 4,096 channels that knows none yet.
    #[must_use]
    pub fn new() -> Self {
        Self::with_max_channels(MAX_ACTIVE_CHANNELS).expect("4,096 is within the limit")
    }

    /// A reader of so many channels, at most 4,096 (else 9).
    ///
    /// ```
    /// use gritwheel::{Error, RawPacketReader};
    ///
    /// assert_eq!(RawPacketReader::with_max_channels(4_097).unwrap_err(), Error::Unfit);
    /// ```
    pub fn with_max_channels(max_channels: usize) -> Result<Self> {
        // Above the limit nothing is allocated, and the library refuses.
        let room = if max_channels <= MAX_ACTIVE_CHANNELS { max_channels } else { 0 };
        let column = || vec![0; room];
        let columns = Columns {
            sequence_channels: column(),
            sequence_numbers: column(),
            partial_channels: column(),
            partial_sequences: column(),
            partial_reliables: column(),
        };
        let answer = ffi::with_max_channels(max_channels, &columns);
        Error::check(&answer)?;
        let reader = Reader { max_channels, sequences: answer[2] as usize, partials: answer[3] as usize };
        Ok(Self { reader, columns })
    }

    /// The packet's bunches, each read when it is asked for. What isn't asked for isn't read: the reader then knows nothing of
    /// the packet's later bunches. A packet above 65,535 bytes gives refusal 8 as its one item, and the reader stays as it was.
    pub fn bunches<'r, 'p>(&'r mut self, packet: &'p [u8], packet_id: i32) -> Bunches<'r, 'p> {
        Bunches { reader: self, packet, packet_id, at: 0, ended: false, result: PacketReadResult::default() }
    }

    /// Reads a packet whole, and hands each bunch to the callback, as the Rust's call of this name does. (The Rust's callback may
    /// alter the header before the close is tested; this one gets it afterwards.)
    ///
    /// ```
    /// use gritwheel::RawPacketReader;
    ///
    /// let mut reader = RawPacketReader::new();
    /// let mut channels = Vec::new();
    /// let packet = [0x04, 0xa0, 0x01, 0x00, 0x00, 0x01];
    /// let result = reader.read_packet(&packet, 8, |header, _payload| channels.push(header.ch_index))?;
    /// assert_eq!((result.bunch_count, channels), (1, vec![0]));
    /// assert!(reader.read_packet(&[0x00], 9, |_, _| ())?.is_malformed);
    /// # Ok::<(), gritwheel::Error>(())
    /// ```
    pub fn read_packet(
        &mut self,
        packet: &[u8],
        packet_id: i32,
        mut callback: impl FnMut(&mut RawBunchHeader, BitReader<'_>),
    ) -> Result<PacketReadResult> {
        let mut bunches = self.bunches(packet, packet_id);
        for bunch in &mut bunches {
            let mut bunch = bunch?;
            callback(&mut bunch.header, bunch.payload);
        }
        Ok(bunches.result())
    }
}

impl Default for RawPacketReader {
    fn default() -> Self {
        Self::new()
    }
}

/// The bunches of a packet: [`RawPacketReader::bunches`].
#[derive(Debug)]
pub struct Bunches<'r, 'p> {
    reader: &'r mut RawPacketReader,
    packet: &'p [u8],
    packet_id: i32,
    at: u64,
    ended: bool,
    result: PacketReadResult,
}

impl Bunches<'_, '_> {
    /// The counts of what was read so far; whether the packet is malformed is known at its end.
    #[must_use]
    pub fn result(&self) -> PacketReadResult {
        self.result
    }
}

impl<'p> Iterator for Bunches<'_, 'p> {
    type Item = Result<Bunch<'p>>;

    fn next(&mut self) -> Option<Self::Item> {
        if self.ended {
            return None;
        }
        let RawPacketReader { reader, columns } = &mut *self.reader;
        let answer = ffi::read_bunch(self.packet, self.packet_id, self.at, *reader, columns);
        self.at = answer[4];
        reader.sequences = answer[9] as usize;
        reader.partials = answer[10] as usize;
        self.result.bunch_count += answer[5] as u32;
        self.result.is_malformed |= answer[6] != 0;
        self.result.partial_error_count += answer[7] as u32;
        self.result.channel_limit_count += answer[8] as u32;
        if let Err(refused) = Error::check(&answer) {
            self.ended = true;
            return Some(Err(refused));
        }
        if answer[3] != 0 {
            self.ended = true;
            return None;
        }
        let window = Window { start: answer[31], position: answer[32], length: answer[33] };
        let header = RawBunchHeader::from_words(&answer[11..31]);
        Some(Ok(Bunch { header, payload: BitReader::over(self.packet, window) }))
    }
}

impl std::iter::FusedIterator for Bunches<'_, '_> {}
