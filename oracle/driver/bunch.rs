// The accumulator of fragments: what an input is, and its answer.

mod desk;
pub mod expected;
#[cfg(bunch)]
pub mod inputs;
mod memory;
#[cfg(bunch)]
mod met;
#[cfg(bunch)]
mod ours;
#[cfg(not(ours))]
pub mod records;
#[cfg(bunch)]
mod shown;
#[cfg(bunch)]
mod shuffles;
#[cfg(bunch)]
mod spoil;
mod streams;

use crate::header;
use memory::Memory;

/// The numbers are those of the recorded answers.
#[derive(Clone, Copy, PartialEq, Eq, Debug)]
pub enum Call {
    WithLimits = 29,
    AddFragment,
    TakeCompleted,
    RetireChannel,
    DrainUnfinished,
}

impl Call {
    /// How many words the call's answer has.
    pub fn words(self) -> usize {
        match self {
            Call::WithLimits => 5,
            Call::AddFragment => 79,
            Call::TakeCompleted | Call::RetireChannel => 26,
            Call::DrainUnfinished => 6,
        }
    }
}

/// By value: the limits, and how many places and bits count.
#[derive(Clone, Copy, PartialEq, Debug)]
pub struct Accumulator {
    pub max_active: usize,
    pub max_buffered_bits: u64,
    pub active: usize,
    pub total: u64,
}

/// Channel, bits, the header's words.
pub type Listed = [u64; 22];

#[derive(Clone)]
pub struct Case {
    pub call: Call,
    pub accumulator: Accumulator,
    pub memory: Memory,
    pub ch_index: u32,
    /// Of an add.
    pub header: header::Words,
    pub payload: Vec<u8>,
    pub bits: u64,
    /// Of all but the opening.
    pub output: Vec<u8>,
    /// Of a drain.
    pub list: Vec<Listed>,
}

impl Case {
    /// An opening in memory of these sizes (memory.rs: untouched).
    pub fn new(max_active: usize, max_buffered_bits: u64, sizes: [usize; 3]) -> Self {
        Self {
            call: Call::WithLimits,
            accumulator: Accumulator { max_active, max_buffered_bits, active: 0, total: 0 },
            memory: memory::untouched(sizes),
            ch_index: 0,
            header: [0; 20],
            payload: Vec::new(),
            bits: 0,
            output: Vec::new(),
            list: Vec::new(),
        }
    }

    /// The state that the call left, for the next one.
    pub fn go_on(&mut self, answer: &Answer) {
        self.memory.clone_from(&answer.memory);
        if self.call != Call::WithLimits {
            self.accumulator.active = answer.words[2] as usize;
            self.accumulator.total = answer.words[3];
        }
    }
}

#[derive(Clone, Default, PartialEq)]
pub struct Answer {
    /// 0 or the refusal's number, and the rest in the order of the C function; how many there are tells the call.
    pub words: Vec<u64>,
    /// Every place and byte afterwards.
    pub memory: Memory,
    pub output: Vec<u8>,
    pub list: Vec<Listed>,
    /// Memory that must stay as it was and didn't: the payload, or what stands around what is lent.
    pub damage: Option<&'static str>,
}
