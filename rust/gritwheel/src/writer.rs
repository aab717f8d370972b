//! The bunch writer, which the Rust has none of.

use crate::error::{Error, Result};
use crate::ffi;
use crate::types::{ChannelCloseReason, MAX_PACKET_BYTES, RawBunchHeader};

/// Writes bunches one behind the other into a packet.
///
/// ```
/// use gritwheel::{PacketWriter, RawBunchHeader};
///
/// let mut writer = PacketWriter::new();
/// writer.write_bunch(&RawBunchHeader { ch_index: 3, ..Default::default() }, &[0xa5], 8)?;
/// assert_eq!(writer.bits(), 37);
/// assert_eq!(writer.close()?, [0x30, 0x00, 0x04, 0xa0, 0x34]);
/// # Ok::<(), gritwheel::Error>(())
/// ```
#[derive(Debug, Clone)]
pub struct PacketWriter {
    packet: Vec<u8>,
    at: u64,
}

impl PacketWriter {
    /// Into a packet of at most 65,535 bytes.
    #[must_use]
    pub fn new() -> Self {
        Self::with_room(MAX_PACKET_BYTES)
    }

    /// Into a packet of at most so many bytes; more than 65,535 are never used.
    #[must_use]
    pub fn with_room(bytes: usize) -> Self {
        Self { packet: vec![0; bytes.min(MAX_PACKET_BYTES)], at: 0 }
    }

    /// The bits written so far.
    #[must_use]
    pub fn bits(&self) -> u64 {
        self.at
    }

    /// Writes a bunch: the header's flags, channel and close reason, and `payload_bit_count` bits of the payload. The header's
    /// other fields are neither written nor judged. Refuses, in this order: 16 where initial or final stand without partial,
    /// Dormancy without close, or `b_dormant` isn't close with Dormancy; 11; 12; 17. Nothing is written then.
    ///
    /// ```
    /// use gritwheel::{Error, PacketWriter, RawBunchHeader};
    ///
    /// let mut writer = PacketWriter::with_room(4);
    /// let refused = writer.write_bunch(&RawBunchHeader::default(), &[0xff], 8).unwrap_err();
    /// assert_eq!(refused, Error::NoRoom { bits: 37 });
    /// assert_eq!(writer.bits(), 0);
    /// ```
    pub fn write_bunch(&mut self, header: &RawBunchHeader, payload: &[u8], payload_bit_count: u64) -> Result<()> {
        let flags = [
            header.b_open,
            header.b_close,
            header.b_dormant,
            header.close_reason == ChannelCloseReason::Dormancy,
            header.b_is_replication_paused,
            header.b_reliable,
            header.b_partial,
            header.b_partial_initial,
            header.b_partial_final,
            header.b_has_package_map_exports,
            header.b_has_must_be_mapped_guids,
        ];
        let answer = ffi::write_bunch(header.ch_index, flags, payload, payload_bit_count, &mut self.packet, self.at);
        Error::check(&answer)?;
        self.at = answer[1];
        Ok(())
    }

    /// Adds the end mark, hands out the packet, and begins the next one with the same room. Refuses 17 where there is no room
    /// for the mark; the bunches then stay.
    pub fn close(&mut self) -> Result<Vec<u8>> {
        let answer = ffi::close_packet(&mut self.packet, self.at);
        Error::check(&answer)?;
        self.at = 0;
        Ok(self.packet[..(answer[1] / 8) as usize].to_vec())
    }
}

impl Default for PacketWriter {
    fn default() -> Self {
        Self::new()
    }
}
