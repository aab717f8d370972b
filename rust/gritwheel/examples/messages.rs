//! The whole chain: a packet log in, for each channel its messages out. `messages [FILE]`; without a file it reads standard input.
//!
//! Packets are read bunch by bunch. A bunch that is no fragment is a message itself; fragments go to the accumulator, with the
//! packet reader's error and completed flags cleared, as the Rust's pipeline does, and a finished message is taken at once. A
//! channel is retired before a bunch that opens it, and after one that closes it and isn't dormant. Nothing is left out: each payload
//! bit that was read on a channel is in one of that channel's messages, or in a line that says why it isn't. The program holds itself
//! to that by sums, channel by channel, and stops where a channel's lines have more or fewer bits than were read on it. An exchange of
//! equally many bits doesn't change a sum, and a packet that the log lacks was never read: neither stops it.

use gritwheel::bunch::PreservedPartial;
use gritwheel::{Bunch, Error, LogError, PacketLog, PartialBunchAccumulator, PartialBunchResult, RawPacketReader};
use std::collections::BTreeMap;
use std::fmt;
use std::process::ExitCode;

/// What became of some payload bits.
enum Fate {
    Message,
    /// In the words of whoever discarded them.
    Discarded(String),
    /// The log ended before the message did.
    Unfinished,
}

/// A message, or a part of one that came to nothing.
struct Line {
    fate: Fate,
    /// The packet of its first fragment, and the one with which it ended.
    packets: (i32, i32),
    bits: u64,
    bytes: Vec<u8>,
}

/// The first bytes in hex, with dots where there are more.
struct Hex<'a>(&'a [u8]);

impl fmt::Display for Hex<'_> {
    fn fmt(&self, f: &mut fmt::Formatter<'_>) -> fmt::Result {
        let shown = &self.0[..self.0.len().min(8)];
        shown.iter().try_for_each(|byte| write!(f, "{byte:02x}"))?;
        f.write_str(if shown.len() < self.0.len() { ".." } else { "" })
    }
}

impl fmt::Display for Line {
    fn fmt(&self, f: &mut fmt::Formatter<'_>) -> fmt::Result {
        let fate = match &self.fate {
            Fate::Message => "message",
            Fate::Discarded(_) => "discarded",
            Fate::Unfinished => "unfinished",
        };
        let (first, last) = self.packets;
        write!(f, "  {fate} {first}..{last} {} bits [{}]", self.bits, Hex(&self.bytes))?;
        if let Fate::Discarded(why) = &self.fate {
            write!(f, ": {why}")?;
        }
        writeln!(f)
    }
}

/// What is known of a channel.
#[derive(Default)]
struct Channel {
    /// Payload bits that were read on it.
    bits: u64,
    lines: Vec<Line>,
}

impl Channel {
    /// The lines with a fate: how many, and their bits.
    fn sum(&self, is: impl Fn(&Fate) -> bool) -> (usize, u64) {
        let lines = self.lines.iter().filter(|line| is(&line.fate));
        lines.fold((0, 0), |(count, bits), line| (count + 1, bits + line.bits))
    }

    fn told(&self, number: u32) -> String {
        let (messages, whole) = self.sum(|fate| matches!(fate, Fate::Message));
        let (_, discarded) = self.sum(|fate| matches!(fate, Fate::Discarded(_)));
        let (_, unfinished) = self.sum(|fate| matches!(fate, Fate::Unfinished));
        let bits = self.bits;
        assert_eq!(bits, whole + discarded + unfinished, "channel {number}: the bits read, and those of its lines");
        let lines: String = self.lines.iter().map(Line::to_string).collect();
        format!(
            "channel {number}: {bits} bits, {whole} in {messages} message(s), {discarded} discarded, {unfinished} unfinished\n{lines}"
        )
    }
}

/// The state over a whole log.
struct Chain {
    accumulator: PartialBunchAccumulator,
    channels: BTreeMap<u32, Channel>,
}

impl Chain {
    fn line(&mut self, channel: u32, fate: Fate, packets: (i32, i32), bits: u64, bytes: Vec<u8>) {
        self.channels.entry(channel).or_default().lines.push(Line { fate, packets, bits, bytes });
    }

    /// A message that the accumulator gave up, with the packet in which it did.
    fn lost(&mut self, channel: u32, message: PreservedPartial, last: i32, why: &str) {
        let packets = (message.header.packet_id, last);
        self.line(channel, Fate::Discarded(why.to_string()), packets, message.bit_count, message.buffer);
    }

    fn bunch(&mut self, mut bunch: Bunch<'_>) -> Result<(), Error> {
        let header = &bunch.header;
        let (channel, id, bits) = (header.ch_index, header.packet_id, bunch.payload.len_bits());
        let (opens, closes) = (header.b_open, header.b_close && !header.b_dormant);
        let bytes = bunch.payload.copy_remaining()?;
        self.channels.entry(channel).or_default().bits += bits;
        if opens {
            self.retire(channel, id, "its channel opened anew");
        }
        if header.has_channel_limit_error {
            // The reader has no sequence for it, so whether a fragment fits can't be said.
            self.line(channel, Fate::Discarded("the channel limit".into()), (id, id), bits, bytes);
        } else if header.b_partial {
            self.fragment(bunch, bytes)?;
        } else {
            self.line(channel, Fate::Message, (id, id), bits, bytes);
        }
        if closes {
            self.retire(channel, id, "its channel closed");
        }
        Ok(())
    }

    /// What a life of the channel leaves unfinished is joined to nothing of the next.
    fn retire(&mut self, channel: u32, id: i32, why: &str) {
        if let Some(message) = self.accumulator.retire_channel(channel) {
            self.lost(channel, message, id, why);
        }
    }

    fn fragment(&mut self, mut bunch: Bunch<'_>, bytes: Vec<u8>) -> Result<(), Error> {
        let (channel, id, bits) = (bunch.header.ch_index, bunch.header.packet_id, bunch.payload.len_bits());
        bunch.header.clear_tracking();
        let result = self.accumulator.add_fragment(channel, bunch.header, &bytes, bits)?;
        let refused = why_refused(&result);
        for (message, cause) in result.displaced {
            self.lost(channel, message, id, &cause.to_string());
        }
        if let Some(why) = refused {
            self.line(channel, Fate::Discarded(why), (id, id), bits, bytes);
        }
        if result.should_process
            && let Some((bytes, bits, header)) = self.accumulator.take_completed(channel)
        {
            self.line(channel, Fate::Message, (header.packet_id, id), bits, bytes);
        }
        Ok(())
    }

    /// What the log's end leaves, by ascending channel.
    fn end(&mut self, last: i32) {
        for (channel, message) in self.accumulator.drain_unfinished() {
            let packets = (message.header.packet_id, last);
            self.line(channel, Fate::Unfinished, packets, message.bit_count, message.buffer);
        }
    }
}

/// Why the fragment itself wasn't kept, if it wasn't: then the count of fragments doesn't rise.
fn why_refused(result: &PartialBunchResult) -> Option<String> {
    if result.fragments != 0 {
        return None;
    }
    let kind = result.error_kind.map(|kind| kind.to_string());
    kind.or_else(|| result.resource_limit.map(|limit| limit.to_string()))
}

/// The text for a log, and how the log ended.
pub fn messages(log: &[u8]) -> Result<(String, Result<(), LogError>), Error> {
    let mut reader = RawPacketReader::new();
    let mut chain = Chain { accumulator: PartialBunchAccumulator::new(), channels: BTreeMap::new() };
    let (mut packets, mut malformed, mut last, mut ending) = (0, 0, 0, Ok(()));
    let logged = PacketLog::new(log).map_err(|fault| ending = Err(fault));
    for packet in logged.into_iter().flatten() {
        let packet = match packet {
            Ok(packet) => packet,
            Err(fault) => {
                ending = Err(fault);
                break;
            }
        };
        (packets, last) = (packets + 1, packet.packet_id);
        let mut bunches = reader.bunches(packet.data, packet.packet_id);
        for bunch in &mut bunches {
            chain.bunch(bunch?)?;
        }
        malformed += u32::from(bunches.result().is_malformed);
    }
    chain.end(last);
    let channels: String = chain.channels.iter().map(|(number, channel)| channel.told(*number)).collect();
    Ok((format!("{channels}{packets} packet(s), {malformed} malformed\n"), ending))
}

fn read(file: Option<String>) -> std::io::Result<Vec<u8>> {
    match file {
        Some(file) if file != "-" => std::fs::read(file),
        _ => {
            let mut log = Vec::new();
            std::io::Read::read_to_end(&mut std::io::stdin().lock(), &mut log)?;
            Ok(log)
        }
    }
}

fn run() -> Result<(), Box<dyn std::error::Error>> {
    let log = read(std::env::args().nth(1))?;
    let (text, ending) = messages(&log)?;
    std::io::Write::write_all(&mut std::io::stdout().lock(), text.as_bytes())?;
    Ok(ending?)
}

#[allow(dead_code, reason = "the tests take this file in as a module")]
fn main() -> ExitCode {
    match run() {
        Ok(()) => ExitCode::SUCCESS,
        Err(fault) => {
            eprintln!("messages: {fault}");
            ExitCode::FAILURE
        }
    }
}
