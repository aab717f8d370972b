//! Why a call refused: document 01's refusals by name, each with what it returns.

use std::fmt;

/// A refusal. [`Error::number`] is its number in document 01; later ones may come.
#[derive(Debug, Clone, Copy, PartialEq, Eq, Hash)]
#[non_exhaustive]
pub enum Error {
    /// 1: too few bits. Positions are counted from the window's first bit.
    Eof {
        /// Where the read that failed began.
        position: u64,
        /// The window's bits.
        length: u64,
        /// The bits it asked for.
        requested: u64,
    },
    /// 2: a packed number's fifth byte continues.
    MalformedIntPacked {
        /// Where the number starts.
        position: u64,
    },
    /// 3: a packed number's fifth chunk is above 15.
    IntPackedOverflow {
        /// Where the number starts.
        position: u64,
    },
    /// 4: a serialized maximum of 0.
    InvalidSerializedIntMax {
        /// The maximum.
        max: u32,
    },
    /// 5: a window longer than its data, a cursor past its end, or a copy target that is short.
    InvalidBitLength {
        /// In bits, as is `available`.
        requested: u64,
        /// What there is.
        available: u64,
    },
    /// 6: a width above 64.
    InvalidWidth {
        /// The width.
        width: u32,
    },
    /// 7: data above 67,108,864 bytes.
    DataTooLong {
        /// In bytes.
        length: u64,
    },
    /// 8: a packet above 65,535 bytes.
    PacketTooLong {
        /// In bytes.
        length: u64,
    },
    /// 9: limits that can't be opened with.
    Unfit,
    /// 10: memory that no call left. This crate's types own theirs and never give it.
    Unsound,
    /// 11: a payload above 16,383 bits.
    PayloadTooLong {
        /// Its bits.
        count: u64,
    },
    /// 12: payload data shorter than its bits.
    PayloadShort {
        /// Its bits.
        count: u64,
    },
    /// 13: too few bytes for the output. This crate's types make them and never give it.
    OutputShort {
        /// The bytes needed.
        bytes: u64,
    },
    /// 14: a list is full. This crate's calls grow theirs and never give it.
    ListFull {
        /// Of a walk: where the record without a place starts. Of a drain: the places needed.
        value: u64,
    },
    /// 15: function count 0, a group that isn't resolved.
    UnresolvedFunctionCount,
    /// 16: a header that can't be written.
    Unwritable,
    /// 17: no room for the bunch or the end mark.
    NoRoom {
        /// The packet's bits with it.
        bits: u64,
    },
}

/// A call's answer.
pub type Result<T> = std::result::Result<T, Error>;

impl Error {
    /// Document 01's number of the refusal, from 1 to 17.
    ///
    /// ```
    /// use gritwheel::{BitReader, Error};
    ///
    /// let mut reader = BitReader::new(&[0x20])?;
    /// reader.skip_bits(5)?;
    /// let refused = reader.read_u8().unwrap_err();
    /// assert_eq!(refused, Error::Eof { position: 5, length: 8, requested: 8 });
    /// assert_eq!(refused.number(), 1);
    /// assert_eq!(refused.to_string(), "too few bits (refusal 1): 8 requested at position 5 of 8");
    /// # Ok::<(), Error>(())
    /// ```
    #[must_use]
    pub const fn number(&self) -> u8 {
        match self {
            Self::Eof { .. } => 1,
            Self::MalformedIntPacked { .. } => 2,
            Self::IntPackedOverflow { .. } => 3,
            Self::InvalidSerializedIntMax { .. } => 4,
            Self::InvalidBitLength { .. } => 5,
            Self::InvalidWidth { .. } => 6,
            Self::DataTooLong { .. } => 7,
            Self::PacketTooLong { .. } => 8,
            Self::Unfit => 9,
            Self::Unsound => 10,
            Self::PayloadTooLong { .. } => 11,
            Self::PayloadShort { .. } => 12,
            Self::OutputShort { .. } => 13,
            Self::ListFull { .. } => 14,
            Self::UnresolvedFunctionCount => 15,
            Self::Unwritable => 16,
            Self::NoRoom { .. } => 17,
        }
    }

    /// The words of an answer after its first, or the refusal that they say. Answers shorter than four words return less.
    pub(crate) fn check<const N: usize>(words: &[u64; N]) -> Result<()> {
        let word = |index: usize| words.get(index).copied().unwrap_or(0);
        let (first, second, third) = (word(1), word(2), word(3));
        Err(match words[0] {
            0 => return Ok(()),
            1 => Self::Eof { position: first, length: second, requested: third },
            2 => Self::MalformedIntPacked { position: first },
            3 => Self::IntPackedOverflow { position: first },
            4 => Self::InvalidSerializedIntMax { max: first as u32 },
            5 => Self::InvalidBitLength { requested: first, available: second },
            6 => Self::InvalidWidth { width: first as u32 },
            7 => Self::DataTooLong { length: first },
            8 => Self::PacketTooLong { length: first },
            9 => Self::Unfit,
            10 => Self::Unsound,
            11 => Self::PayloadTooLong { count: first },
            12 => Self::PayloadShort { count: first },
            13 => Self::OutputShort { bytes: first },
            14 => Self::ListFull { value: first },
            15 => Self::UnresolvedFunctionCount,
            16 => Self::Unwritable,
            17 => Self::NoRoom { bits: first },
            number => panic!("the library answers refusal {number}: it is not the one that this crate was written for"),
        })
    }
}

impl fmt::Display for Error {
    fn fmt(&self, f: &mut fmt::Formatter<'_>) -> fmt::Result {
        let number = self.number();
        match self {
            Self::Eof { position, length, requested } => {
                write!(f, "too few bits (refusal {number}): {requested} requested at position {position} of {length}")
            }
            Self::MalformedIntPacked { position } => {
                write!(f, "fifth packed byte continues (refusal {number}): the number starts at position {position}")
            }
            Self::IntPackedOverflow { position } => {
                write!(f, "fifth packed chunk above 15 (refusal {number}): the number starts at position {position}")
            }
            Self::InvalidSerializedIntMax { max } => write!(f, "serialized maximum {max} (refusal {number})"),
            Self::InvalidBitLength { requested, available } => {
                write!(f, "not so many bits (refusal {number}): {requested} requested, {available} available")
            }
            Self::InvalidWidth { width } => write!(f, "width above 64 (refusal {number}): {width}"),
            Self::DataTooLong { length } => write!(f, "data above 67,108,864 bytes (refusal {number}): {length}"),
            Self::PacketTooLong { length } => write!(f, "packet above 65,535 bytes (refusal {number}): {length}"),
            Self::Unfit => write!(f, "limits unfit for opening (refusal {number})"),
            Self::Unsound => write!(f, "state not sound (refusal {number})"),
            Self::PayloadTooLong { count } => write!(f, "payload above 16,383 bits (refusal {number}): {count}"),
            Self::PayloadShort { count } => write!(f, "payload data shorter than its bits (refusal {number}): {count}"),
            Self::OutputShort { bytes } => write!(f, "output bytes too few (refusal {number}): {bytes} needed"),
            Self::ListFull { value } => write!(f, "list full (refusal {number}): {value}"),
            Self::UnresolvedFunctionCount => write!(f, "function count 0 (refusal {number})"),
            Self::Unwritable => write!(f, "header can't be written (refusal {number})"),
            Self::NoRoom { bits } => {
                write!(f, "no room for the bunch or end mark (refusal {number}): the packet has {bits} bits with it")
            }
        }
    }
}

impl std::error::Error for Error {}

#[cfg(test)]
mod tests {
    use super::*;

    /// Each number from 1 to 17 is one refusal's, which says so.
    #[test]
    fn numbers() {
        for number in 1..=17 {
            let error = Error::check(&[number, 81, 82, 83]).unwrap_err();
            assert_eq!(u64::from(error.number()), number);
            assert!(error.to_string().contains(&format!("(refusal {number})")), "{error}");
        }
        assert_eq!(Error::check(&[0, 81, 82, 83]), Ok(()));
    }

    /// The values stand in the text in document 01's order.
    #[test]
    fn texts() {
        let text = |number| Error::check(&[number, 81, 82, 83]).unwrap_err().to_string();
        for (number, values) in
            [(1, &["83", "81", "82"][..]), (5, &["81", "82"]), (9, &[]), (10, &[]), (15, &[]), (16, &[])]
        {
            let text = text(number);
            let found: Vec<_> = text.match_indices('8').map(|(at, _)| &text[at..at + 2]).collect();
            assert_eq!(found, values, "{text}");
        }
        for number in [2, 3, 4, 6, 11, 12, 13, 14, 17] {
            assert!(text(number).contains("81"), "{}", text(number));
        }
        for number in [7, 8] {
            assert!(text(number).ends_with(": 81"));
        }
    }

    #[test]
    #[should_panic(expected = "refusal 18")]
    fn another_library() {
        let _ = Error::check(&[18, 0, 0]);
    }
}
