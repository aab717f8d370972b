// The Rust under the names of rust/gritwheel, as far as its worked example uses them: the example built with this crate in place
// of ours is the whole chain by the Rust. The log is read by our crate's own file, since the Rust has none.

use std::fmt;
use std::ops::Deref;
use vrf_net::bunch as theirs;

#[path = "../../rust/gritwheel/src/error.rs"]
mod error;
#[path = "../../rust/gritwheel/src/log.rs"]
pub mod log;

pub use bunch::{PartialBunchAccumulator, PartialBunchResult};
pub use error::Error;
pub use log::{LogError, PacketLog};

#[derive(Clone)]
pub struct Header(theirs::RawBunchHeader);

impl Header {
    pub fn clear_tracking(&mut self) {
        self.0.has_partial_error = false;
        self.0.is_partial_completed = false;
    }
}

impl Deref for Header {
    type Target = theirs::RawBunchHeader;

    fn deref(&self) -> &Self::Target {
        &self.0
    }
}

pub struct Payload<'p>(vrf_bitio::BitReader<'p>);

impl Payload<'_> {
    pub fn len_bits(&self) -> u64 {
        self.0.len_bits()
    }

    pub fn copy_remaining(&mut self) -> Result<Vec<u8>, Error> {
        let bits = self.0.bits_remaining();
        let mut bytes = vec![0; bits.div_ceil(8) as usize];
        self.0.copy_bits_to(&mut bytes, bits).expect("they are there");
        Ok(bytes)
    }
}

pub struct Bunch<'p> {
    pub header: Header,
    pub payload: Payload<'p>,
}

pub struct RawPacketReader(vrf_net::packet::RawPacketReader);

/// A whole packet's: the Rust hands them to a callback, each with a reader that lives no longer.
pub struct Bunches<'p> {
    bunches: std::vec::IntoIter<Bunch<'p>>,
    result: vrf_net::packet::PacketReadResult,
}

impl RawPacketReader {
    pub fn new() -> Self {
        Self(vrf_net::packet::RawPacketReader::new())
    }

    pub fn bunches<'p>(&mut self, packet: &'p [u8], id: i32) -> Bunches<'p> {
        let mut bunches = Vec::new();
        let result = self.0.read_packet(packet, id, |header, _| {
            let mut whole = vrf_bitio::BitReader::new(packet);
            whole.skip_bits(header.payload_bit_offset as u64).expect("it is in the packet");
            let payload = whole.sub_reader(header.payload_bit_count as u64).expect("it is in the packet");
            bunches.push(Bunch { header: Header(header.clone()), payload: Payload(payload) });
        });
        Bunches { bunches: bunches.into_iter(), result }
    }
}

impl Bunches<'_> {
    pub fn result(&self) -> &vrf_net::packet::PacketReadResult {
        &self.result
    }
}

impl<'p> Iterator for Bunches<'p> {
    type Item = Result<Bunch<'p>, Error>;

    fn next(&mut self) -> Option<Self::Item> {
        self.bunches.next().map(Ok)
    }
}

pub mod bunch {
    use super::*;

    pub struct PreservedPartial {
        pub header: Header,
        pub buffer: Vec<u8>,
        pub bit_count: u64,
    }

    impl From<theirs::PreservedPartial> for PreservedPartial {
        fn from(message: theirs::PreservedPartial) -> Self {
            let theirs::PreservedPartial { header, buffer, bit_count } = message;
            Self { header: Header(header), buffer, bit_count: bit_count as u64 }
        }
    }

    /// The Rust has no words for it.
    #[derive(Clone, Copy)]
    pub struct Limit(theirs::PartialResourceLimit);

    impl fmt::Display for Limit {
        fn fmt(&self, f: &mut fmt::Formatter<'_>) -> fmt::Result {
            f.write_str(match self.0 {
                theirs::PartialResourceLimit::ActiveStates => "too many messages held",
                theirs::PartialResourceLimit::BufferedBits => "too many bits held",
                theirs::PartialResourceLimit::Allocation => "no memory",
            })
        }
    }

    pub struct PartialBunchResult {
        pub should_process: bool,
        pub resource_limit: Option<Limit>,
        pub error_kind: Option<vrf_net::error::PartialSequenceKind>,
        pub displaced: Vec<(PreservedPartial, String)>,
        pub fragments: u64,
    }

    pub struct PartialBunchAccumulator(theirs::PartialBunchAccumulator);

    impl PartialBunchAccumulator {
        pub fn new() -> Self {
            Self(theirs::PartialBunchAccumulator::new())
        }

        pub fn add_fragment(&mut self, ch_index: u32, header: Header, data: &[u8], bits: u64) -> Result<PartialBunchResult, Error> {
            let (mut errors, mut fragments, mut completed) = (0, 0, 0);
            let bits = bits as usize;
            let result = self.0.add_fragment(ch_index, header.0, data, bits, &mut errors, &mut fragments, &mut completed);
            let displaced = result.displaced.into_iter().map(|(message, cause)| {
                let cause = match cause {
                    theirs::PartialDiscardCause::Sequence(kind) => kind.to_string(),
                    theirs::PartialDiscardCause::Resource(limit) => Limit(limit).to_string(),
                };
                (message.into(), cause)
            });
            Ok(PartialBunchResult {
                should_process: result.should_process,
                resource_limit: result.resource_limit.map(Limit),
                error_kind: result.error_kind,
                displaced: displaced.collect(),
                fragments,
            })
        }

        pub fn take_completed(&mut self, ch_index: u32) -> Option<(Vec<u8>, u64, Header)> {
            self.0.take_completed(ch_index).map(|(bytes, bits, header)| (bytes, bits as u64, Header(header)))
        }

        pub fn retire_channel(&mut self, ch_index: u32) -> Option<PreservedPartial> {
            self.0.retire_channel(ch_index).map(Into::into)
        }

        /// In the order of ours; the Rust's is arbitrary. The example hands in each header's own channel.
        pub fn drain_unfinished(&mut self) -> Vec<(u32, PreservedPartial)> {
            let mut drained: Vec<_> = self.0.drain_unfinished().into_iter().map(|m| (m.header.ch_index, m.into())).collect();
            drained.sort_unstable_by_key(|(channel, _)| *channel);
            drained
        }
    }
}
