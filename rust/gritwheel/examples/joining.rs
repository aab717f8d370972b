//! From packets to messages: `joining FILE` has a line for each message of a packet log, and for each part of one that is lost.

use gritwheel::{Bunch, PacketLog, PartialBunchAccumulator, RawPacketReader};
use std::error::Error;

struct Joining<'t> {
    accumulator: PartialBunchAccumulator,
    tell: &'t mut dyn FnMut(String),
}

impl Joining<'_> {
    fn packets(&mut self, log: &[u8]) -> Result<(), Box<dyn Error>> {
        let mut reader = RawPacketReader::new();
        for packet in PacketLog::new(log)? {
            let packet = packet?;
            let mut bunches = reader.bunches(packet.data, packet.packet_id);
            for bunch in &mut bunches {
                self.bunch(bunch?)?;
            }
            if bunches.result().is_malformed {
                (self.tell)(format!("malformed {}", packet.packet_id));
            }
        }
        Ok(())
    }

    fn bunch(&mut self, mut bunch: Bunch<'_>) -> Result<(), Box<dyn Error>> {
        let bytes = bunch.payload.copy_remaining()?;
        let (header, bits) = (&bunch.header, bunch.payload.len_bits());
        let (channel, opens, partial) = (header.ch_index, header.b_open, header.b_partial);
        let closes = header.b_close && !header.b_dormant;
        // A channel that opens begins anew: what it still holds is of its life before, and may not be joined to.
        if opens {
            self.retire(channel, "its channel opened anew");
        }
        if header.has_channel_limit_error {
            // The reader has no sequence for it, so whether a fragment fits can't be said.
            self.told("refused", channel, bits, &bytes, "the channel limit");
        } else if partial {
            self.fragment(bunch, &bytes)?;
        } else {
            self.told("message", channel, bits, &bytes, "");
        }
        // Not before: the bunch that closes a channel may end its message.
        if closes {
            self.retire(channel, "its channel closed");
        }
        Ok(())
    }

    fn fragment(&mut self, mut bunch: Bunch<'_>, bytes: &[u8]) -> Result<(), Box<dyn Error>> {
        let (channel, bits) = (bunch.header.ch_index, bunch.payload.len_bits());
        bunch.header.clear_tracking(); // the accumulator judges by itself
        let result = self.accumulator.add_fragment(channel, bunch.header, bytes, bits)?;
        for (held, cause) in &result.displaced {
            self.told("lost", channel, held.bit_count, &held.buffer, &cause.to_string());
        }
        if result.fragments == 0 {
            let kind = result.error_kind.map(|kind| kind.to_string());
            let why = kind.or_else(|| result.resource_limit.map(|limit| limit.to_string()));
            self.told("refused", channel, bits, bytes, &why.unwrap_or_default());
        }
        if result.should_process
            && let Some((bytes, bits, _)) = self.accumulator.take_completed(channel)
        {
            self.told("message", channel, bits, &bytes, "");
        }
        Ok(())
    }

    /// What the channel holds is lost: a finished message would have been taken.
    fn retire(&mut self, channel: u32, why: &str) {
        if let Some(held) = self.accumulator.retire_channel(channel) {
            self.told("lost", channel, held.bit_count, &held.buffer, why);
        }
    }

    fn told(&mut self, what: &str, channel: u32, bits: u64, bytes: &[u8], why: &str) {
        let colon = if why.is_empty() { "" } else { ": " };
        (self.tell)(format!("{what} {channel} {bits} \"{}\"{colon}{why}", bytes.escape_ascii()));
    }
}

/// Tells the lines of a log; what it holds at its end is lost, also where it is cut.
pub fn joining(log: &[u8], tell: &mut dyn FnMut(String)) -> Result<(), Box<dyn Error>> {
    let mut joining = Joining { accumulator: PartialBunchAccumulator::new(), tell };
    let ending = joining.packets(log);
    for (channel, held) in joining.accumulator.drain_unfinished() {
        joining.told("lost", channel, held.bit_count, &held.buffer, "the log ended");
    }
    ending
}

fn main() -> Result<(), Box<dyn Error>> {
    let file = std::env::args().nth(1).ok_or("joining FILE")?;
    joining(&std::fs::read(file)?, &mut |line| println!("{line}"))
}
