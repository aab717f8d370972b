// The root of the oracle's vrf_net: the modules that the port follows, and what thiserror would derive for NetError.

pub mod bunch;
pub mod error;
pub mod field;
pub mod packet;
pub mod types;

use error::NetError;

impl From<vrf_bitio::BitError> for NetError {
    fn from(error: vrf_bitio::BitError) -> Self {
        Self::Bit(error)
    }
}

impl core::fmt::Display for NetError {
    fn fmt(&self, f: &mut core::fmt::Formatter<'_>) -> core::fmt::Result {
        match self {
            Self::Bit(error) => write!(f, "bit read error: {error}"),
            Self::MalformedPacket => write!(f, "malformed packet: last byte is zero (no sentinel)"),
            Self::PartialSequence { channel, kind } => {
                write!(f, "partial bunch sequence error on channel {channel}: {kind}")
            }
            Self::PayloadOverrun { declared, available } => {
                write!(f, "content block payload overrun: declared {declared} bits, only {available} remain")
            }
            Self::GuidRecursionLimit { depth } => write!(f, "net GUID recursion depth exceeded {depth}"),
            Self::InvalidGuidCount { count, max } => {
                write!(f, "package-map export declared {count} GUIDs (max {max})")
            }
            Self::UnresolvedFunctionCount => {
                write!(f, "ClassNetCache block for an unresolved group: function count unknown")
            }
        }
    }
}

impl core::error::Error for NetError {}
