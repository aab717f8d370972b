// The bit reader's calls: what an input is, its answer, and how both are shown and shrunk.

pub mod expected;
#[cfg(ours)]
pub mod inputs;
#[cfg(ours)]
pub mod ours;
#[cfg(not(ours))]
pub mod records;
#[cfg(ours)]
mod shown;

/// The numbers are those of the recorded answers.
#[derive(Clone, Copy, PartialEq, Eq, Debug)]
pub enum Call {
    New = 1,
    WithBitLen,
    Position,
    LenBits,
    BitsRemaining,
    AtEnd,
    ReadBit,
    ReadBits,
    ReadU8,
    ReadU16,
    ReadU32,
    ReadI32,
    ReadU64,
    ReadF32,
    ReadF64,
    ReadIntPacked,
    ReadSerializedInt,
    CopyBitsTo,
    SubReader,
    SkipBits,
    SkipRemaining,
}

use crate::window::Window;
use Call::*;

pub const CALLS: [(Call, &str); 21] = [
    (New, "new"),
    (WithBitLen, "with_bit_len"),
    (Position, "position"),
    (LenBits, "len_bits"),
    (BitsRemaining, "bits_remaining"),
    (AtEnd, "at_end"),
    (ReadBit, "read_bit"),
    (ReadBits, "read_bits"),
    (ReadU8, "read_u8"),
    (ReadU16, "read_u16"),
    (ReadU32, "read_u32"),
    (ReadI32, "read_i32"),
    (ReadU64, "read_u64"),
    (ReadF32, "read_f32"),
    (ReadF64, "read_f64"),
    (ReadIntPacked, "read_int_packed"),
    (ReadSerializedInt, "read_serialized_int"),
    (CopyBitsTo, "copy_bits_to"),
    (SubReader, "sub_reader"),
    (SkipBits, "skip_bits"),
    (SkipRemaining, "skip_remaining"),
];

impl Call {
    /// What the argument is, where the call takes one.
    pub fn argument(self) -> Option<&'static str> {
        match self {
            WithBitLen => Some("bit_len"),
            ReadBits | CopyBitsTo | SubReader | SkipBits => Some("count"),
            ReadSerializedInt => Some("max"),
            _ => None,
        }
    }

    pub fn takes_window(self) -> bool {
        !matches!(self, New | WithBitLen)
    }

    pub fn takes_target(self) -> bool {
        self == CopyBitsTo
    }
}

#[derive(Clone)]
pub struct Case {
    pub call: Call,
    pub data: Vec<u8>,
    pub window: Window,
    pub argument: u64,
    pub target: Vec<u8>,
}

impl Case {
    pub fn new(call: Call, data: &[u8], window: Window, argument: u64) -> Self {
        Self { call, data: data.to_vec(), window, argument, target: Vec::new() }
    }
}

/// What stands in a float's place before the call. It isn't a number, so no read stores it.
pub const NO_FLOAT: u64 = 0x7ff4_a5a5_7fa5_a5a5;

#[derive(Clone, Default, PartialEq)]
pub struct Answer {
    pub words: [u64; 7],
    /// The bits of the float handed out beside the words, else NO_FLOAT's.
    pub beside: u64,
    /// The target afterwards.
    pub bytes: Vec<u8>,
    /// Memory that must stay as it was and didn't: the data, or bytes around the target.
    pub damage: Option<&'static str>,
}
