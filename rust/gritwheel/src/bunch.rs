//! The accumulator of fragments: `PartialBunchAccumulator` of vrf-net/src/bunch.rs.

use crate::error::{Error, Result};
use crate::ffi::{self, Accumulator, Fragment, Given, Handed, Held};
use crate::types::{MAX_ACTIVE_PARTIAL_BUNCHES, MAX_BUFFERED_PARTIAL_BITS, PartialSequenceKind, RawBunchHeader};
use std::fmt;

/// Joins fragments to messages, each channel's on its own. It owns the memory in which it holds them.
///
/// ```
/// use gritwheel::{PartialBunchAccumulator, RawBunchHeader};
///
/// let fragment = |ch_sequence, b_partial_initial, b_partial_final| {
///     RawBunchHeader { b_partial: true, b_reliable: true, ch_sequence, b_partial_initial, b_partial_final, ..Default::default() }
/// };
/// let mut accumulator = PartialBunchAccumulator::new();
/// accumulator.add_fragment(3, fragment(1, true, false), b"sel", 24)?;
/// accumulator.add_fragment(5, fragment(1, true, false), b"other", 40)?;
/// let result = accumulator.add_fragment(3, fragment(2, false, true), b"ected", 40)?;
/// assert!(result.should_process);
/// let (bytes, bits, _header) = accumulator.take_completed(3).expect("it is finished");
/// assert_eq!((bytes.as_slice(), bits), (&b"selected"[..], 64));
/// assert_eq!((accumulator.active_count(), accumulator.total_buffered_bits()), (1, 40));
/// # Ok::<(), gritwheel::Error>(())
/// ```
#[derive(Debug, Clone)]
pub struct PartialBunchAccumulator {
    accumulator: Accumulator,
    held: Held,
    /// Where the library hands out messages; it grows to the longest.
    output: Vec<u8>,
}

/// A message that left the accumulator.
#[derive(Debug, Clone, PartialEq, Eq)]
pub struct PreservedPartial {
    /// The initial fragment's.
    pub header: RawBunchHeader,
    /// The bits in bytes, the last one's spare bits 0.
    pub buffer: Vec<u8>,
    /// How many bits.
    pub bit_count: u64,
}

/// Which limit refused a fragment.
#[derive(Debug, Clone, Copy, PartialEq, Eq, Hash)]
pub enum PartialResourceLimit {
    /// Too many messages held at once.
    ActiveStates,
    /// Too many bits held at once.
    BufferedBits,
}

impl fmt::Display for PartialResourceLimit {
    fn fmt(&self, f: &mut fmt::Formatter<'_>) -> fmt::Result {
        f.write_str(match self {
            Self::ActiveStates => "too many messages held",
            Self::BufferedBits => "too many bits held",
        })
    }
}

/// Why a message was displaced.
#[derive(Debug, Clone, Copy, PartialEq, Eq, Hash)]
pub enum PartialDiscardCause {
    /// A fragment that doesn't fit.
    Sequence(PartialSequenceKind),
    /// A limit.
    Resource(PartialResourceLimit),
}

impl fmt::Display for PartialDiscardCause {
    fn fmt(&self, f: &mut fmt::Formatter<'_>) -> fmt::Result {
        match self {
            Self::Sequence(kind) => kind.fmt(f),
            Self::Resource(limit) => limit.fmt(f),
        }
    }
}

/// What became of a fragment.
#[derive(Debug, Clone, PartialEq, Eq)]
pub struct PartialBunchResult {
    /// The fragment's header, with the accumulator's flags.
    pub header: RawBunchHeader,
    /// The message is finished and can be taken.
    pub should_process: bool,
    /// The limit that refused the fragment.
    pub resource_limit: Option<PartialResourceLimit>,
    /// The bits of all that the call displaced or didn't keep, each once: a fragment that isn't kept can be the second displaced
    /// message. None are counted of a message that a continuing final of no bits retires, where that came in with the error flag.
    pub discarded_bits: u64,
    /// What was wrong with the fragment.
    pub error_kind: Option<PartialSequenceKind>,
    /// It replaced an unfinished message, or that kind came in with the header.
    pub overlapping_initial: bool,
    /// Messages that it displaced, at most two, the first displaced first.
    pub displaced: Vec<(PreservedPartial, PartialDiscardCause)>,
    /// By how much the Rust's count of errors rises.
    pub errors: u64,
    /// By how much the Rust's count of fragments rises: 0 where this one was refused.
    pub fragments: u64,
    /// By how much the Rust's count of finished messages rises.
    pub completed: u64,
}

impl PartialBunchAccumulator {
    /// An accumulator of 4,096 messages and 536,870,912 bits, the largest limits. It takes 65 MiB, of which the system hands out
    /// what is used.
    #[must_use]
    pub fn new() -> Self {
        Self::with_limits(MAX_ACTIVE_PARTIAL_BUNCHES, MAX_BUFFERED_PARTIAL_BITS).expect("the largest limits")
    }

    /// An accumulator that holds at most so many messages, finished and untaken ones with them, and so many bits. Limits above
    /// those of [`Self::new`] are refused (9).
    pub fn with_limits(max_active: usize, max_buffered_bits: u64) -> Result<Self> {
        // Above the limits nothing is allocated, and the library refuses.
        let fit = max_active <= MAX_ACTIVE_PARTIAL_BUNCHES && max_buffered_bits <= MAX_BUFFERED_PARTIAL_BITS;
        let (places, arena) =
            if fit { (max_active, (max_buffered_bits + 7 * max_active as u64).div_ceil(8) as usize) } else { (0, 0) };
        let held = Held { channels: vec![0; places], places: vec![[0; 24]; places], arena: vec![0; arena] };
        let answer = ffi::with_limits(max_active, max_buffered_bits, &held);
        Error::check(&answer)?;
        let accumulator = Accumulator { max_active, max_buffered_bits, active: answer[3] as usize, total: answer[4] };
        Ok(Self { accumulator, held, output: Vec::new() })
    }

    /// Messages held, finished and untaken ones with them.
    #[must_use]
    pub fn active_count(&self) -> usize {
        self.accumulator.active
    }

    /// Bits held.
    #[must_use]
    pub fn total_buffered_bits(&self) -> u64 {
        self.accumulator.total
    }

    /// Adds a fragment of so many bits on a channel. Refuses a payload above 16,383 bits (11), and one whose data is shorter
    /// than its bits (12); nothing is changed then. A fragment that doesn't fit is no refusal: the result says what became of it.
    ///
    /// Of the packet reader's bunches hand in those with `b_partial` alone, which isn't looked at here: any other would be judged
    /// as a continuation. Clear the reader's flags before ([`RawBunchHeader::clear_tracking`]). [The crate's page](crate) shows it.
    ///
    /// ```
    /// use gritwheel::{Error, PartialBunchAccumulator, PartialSequenceKind, RawBunchHeader};
    ///
    /// let mut accumulator = PartialBunchAccumulator::new();
    /// let refused = accumulator.add_fragment(3, RawBunchHeader::default(), &[0], 9).unwrap_err();
    /// assert_eq!(refused, Error::PayloadShort { count: 9 });
    /// let result = accumulator.add_fragment(3, RawBunchHeader::default(), &[0], 8)?;
    /// assert_eq!(result.error_kind, Some(PartialSequenceKind::MissingInitial));
    /// assert_eq!(result.discarded_bits, 8);
    /// # Ok::<(), Error>(())
    /// ```
    pub fn add_fragment(
        &mut self,
        ch_index: u32,
        header: RawBunchHeader,
        payload_data: &[u8],
        payload_bit_count: u64,
    ) -> Result<PartialBunchResult> {
        let given = Given { ch_index, header: header.to_words(), payload: payload_data, bits: payload_bit_count };
        let answer = self.call(|a, held, output| ffi::add_fragment(a, &given, held, output))?;
        Ok(self.result(&answer))
    }

    /// A channel's finished message: its bytes, its bits, its initial fragment's header.
    pub fn take_completed(&mut self, ch_index: u32) -> Option<(Vec<u8>, u64, RawBunchHeader)> {
        let taken = self.hand(|a, held, output| ffi::take_completed(a, ch_index, held, output))?;
        Some((taken.buffer, taken.bit_count, taken.header))
    }

    /// Whatever a channel holds, finished or not: to be called before a bunch that opens the channel, and after one that closes it
    /// and isn't dormant. Else a fragment of the channel's next life can join what is held of the life before.
    pub fn retire_channel(&mut self, ch_index: u32) -> Option<PreservedPartial> {
        self.hand(|a, held, output| ffi::retire_channel(a, ch_index, held, output))
    }

    /// Empties the accumulator, and hands out the unfinished messages by ascending channel, which stands beside each. Finished
    /// ones that nobody took are dropped without a word: they stand in no answer and no count.
    pub fn drain_unfinished(&mut self) -> Vec<(u32, PreservedPartial)> {
        let mut list = vec![[0; 22]; self.accumulator.active];
        let answer = self.call(|a, held, output| ffi::drain_unfinished(a, held, output, &mut list));
        let count = never_refused(answer)[4] as usize;
        let mut bytes = Bytes(&self.output);
        let handed = |place: &[u64; 22]| (place[0] as u32, bytes.message(&place[2..], place[1]));
        list[..count].iter().map(handed).collect()
    }

    /// A call, made again with the output that it asks for (13), after which nothing was changed.
    fn call<const N: usize>(
        &mut self,
        mut call: impl FnMut(Accumulator, &mut Held, &mut [u8]) -> [u64; N],
    ) -> Result<[u64; N]> {
        loop {
            let answer = call(self.accumulator, &mut self.held, &mut self.output);
            match Error::check(&answer) {
                Err(Error::OutputShort { bytes }) => self.output.resize(bytes as usize, 0),
                Err(refused) => return Err(refused),
                Ok(()) => {
                    self.accumulator.active = answer[2] as usize;
                    self.accumulator.total = answer[3];
                    return Ok(answer);
                }
            }
        }
    }

    fn hand(&mut self, call: impl FnMut(Accumulator, &mut Held, &mut [u8]) -> Handed) -> Option<PreservedPartial> {
        let answer = never_refused(self.call(call));
        (answer[4] != 0).then(|| Bytes(&self.output).message(&answer[5..25], answer[25]))
    }

    fn result(&self, answer: &Fragment) -> PartialBunchResult {
        let mut bytes = Bytes(&self.output);
        let displaced = answer[33..].chunks_exact(23).take(answer[32] as usize);
        PartialBunchResult {
            header: RawBunchHeader::from_words(&answer[4..24]),
            should_process: answer[24] != 0,
            resource_limit: limit(answer[25]),
            discarded_bits: answer[26],
            error_kind: PartialSequenceKind::from_word(answer[27]),
            overlapping_initial: answer[28] != 0,
            displaced: displaced.map(|words| (bytes.message(words, words[20]), cause(words[21], words[22]))).collect(),
            errors: answer[29],
            fragments: answer[30],
            completed: answer[31],
        }
    }
}

impl Default for PartialBunchAccumulator {
    fn default() -> Self {
        Self::new()
    }
}

/// What stands in the output: messages one behind the other, each rounded up to a byte.
struct Bytes<'a>(&'a [u8]);

impl Bytes<'_> {
    fn message(&mut self, header: &[u64], bit_count: u64) -> PreservedPartial {
        let (buffer, rest) = self.0.split_at(bit_count.div_ceil(8) as usize);
        self.0 = rest;
        PreservedPartial { header: RawBunchHeader::from_words(header), buffer: buffer.to_vec(), bit_count }
    }
}

/// Of a call that can refuse nothing but memory that is not sound, and its output's and list's room, which it is given.
fn never_refused<T>(answer: Result<T>) -> T {
    answer.expect("memory that only the library wrote")
}

fn limit(word: u64) -> Option<PartialResourceLimit> {
    match word {
        1 => Some(PartialResourceLimit::ActiveStates),
        2 => Some(PartialResourceLimit::BufferedBits),
        _ => None,
    }
}

fn cause(which: u64, value: u64) -> PartialDiscardCause {
    let kind = PartialSequenceKind::from_word(value).map(PartialDiscardCause::Sequence);
    let reached = limit(value).map(PartialDiscardCause::Resource);
    if which == 0 { kind } else { reached }.expect("a displaced message has a cause")
}
