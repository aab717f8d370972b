//! The packet log. The library exports no call for it, so what is here is this crate's own and **not proved**: a version byte 1,
//! then for each packet a 2-byte length, a 4-byte signed packet id, both big-endian, and the packet.

use crate::error::{Error, Result};
use std::fmt;

const VERSION: u8 = 1;

/// A record's length and packet id.
const HEAD: usize = 6;

/// A packet of a log.
#[derive(Debug, Clone, Copy, PartialEq, Eq)]
pub struct LoggedPacket<'a> {
    /// Where its record starts; the version byte is at 0.
    pub offset: usize,
    /// The packet's id.
    pub packet_id: i32,
    /// The packet.
    pub data: &'a [u8],
}

/// Why a log can't be read on; the listing program's V and X.
#[derive(Debug, Clone, Copy, PartialEq, Eq)]
pub enum LogError {
    /// Another version than 1.
    Version(u8),
    /// A record is cut, or the log has no version byte.
    Cut {
        /// Where it starts.
        offset: usize,
    },
}

impl fmt::Display for LogError {
    fn fmt(&self, f: &mut fmt::Formatter<'_>) -> fmt::Result {
        match self {
            Self::Version(version) => write!(f, "a log of version {version}, and not 1"),
            Self::Cut { offset } => write!(f, "the record at byte {offset} is cut"),
        }
    }
}

impl std::error::Error for LogError {}

/// A log's packets in order.
///
/// ```
/// use gritwheel::log::{LogError, PacketLog};
///
/// let mut log = PacketLog::new(&[1, 0, 1, 0, 0, 0, 7, 0x01, 0, 2])?;
/// let packet = log.next().expect("it has one")?;
/// assert_eq!((packet.offset, packet.packet_id, packet.data), (1, 7, &[0x01][..]));
/// assert_eq!(log.next(), Some(Err(LogError::Cut { offset: 8 })));
/// assert_eq!(log.next(), None);
/// # Ok::<(), LogError>(())
/// ```
#[derive(Debug, Clone)]
pub struct PacketLog<'a> {
    data: &'a [u8],
    at: usize,
}

impl<'a> PacketLog<'a> {
    /// Over a whole log.
    pub fn new(data: &'a [u8]) -> std::result::Result<Self, LogError> {
        match data.first() {
            Some(&VERSION) => Ok(Self { data, at: 1 }),
            Some(&other) => Err(LogError::Version(other)),
            None => Err(LogError::Cut { offset: 0 }),
        }
    }
}

impl<'a> Iterator for PacketLog<'a> {
    type Item = std::result::Result<LoggedPacket<'a>, LogError>;

    fn next(&mut self) -> Option<Self::Item> {
        let offset = self.at;
        let rest = &self.data[offset..];
        if rest.is_empty() {
            return None;
        }
        let packet = rest.split_first_chunk::<HEAD>().and_then(|(&[a, b, c, d, e, f], after)| {
            let data = after.get(..usize::from(u16::from_be_bytes([a, b])))?;
            Some(LoggedPacket { offset, packet_id: i32::from_be_bytes([c, d, e, f]), data })
        });
        // After a cut record there is nothing to go on at.
        self.at = packet.map_or(self.data.len(), |packet| offset + HEAD + packet.data.len());
        Some(packet.ok_or(LogError::Cut { offset }))
    }
}

impl std::iter::FusedIterator for PacketLog<'_> {}

/// A log that is being made.
///
/// ```
/// use gritwheel::log::PacketLogWriter;
///
/// let mut log = PacketLogWriter::new();
/// log.push(-2, &[0x01])?;
/// assert_eq!(log.into_bytes(), [1, 0, 1, 0xff, 0xff, 0xff, 0xfe, 0x01]);
/// # Ok::<(), gritwheel::Error>(())
/// ```
#[derive(Debug, Clone)]
pub struct PacketLogWriter {
    bytes: Vec<u8>,
}

impl PacketLogWriter {
    /// A log of no packets.
    #[must_use]
    pub fn new() -> Self {
        Self { bytes: vec![VERSION] }
    }

    /// Adds a packet. One above 65,535 bytes is refused (8).
    pub fn push(&mut self, packet_id: i32, packet: &[u8]) -> Result<()> {
        let length = u16::try_from(packet.len()).map_err(|_| Error::PacketTooLong { length: packet.len() as u64 })?;
        self.bytes.extend_from_slice(&length.to_be_bytes());
        self.bytes.extend_from_slice(&packet_id.to_be_bytes());
        self.bytes.extend_from_slice(packet);
        Ok(())
    }

    /// The log.
    #[must_use]
    pub fn into_bytes(self) -> Vec<u8> {
        self.bytes
    }
}

impl Default for PacketLogWriter {
    fn default() -> Self {
        Self::new()
    }
}
