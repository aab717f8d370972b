//! The logs of samples/logs, whose listings beside them are the Rust's own: what this crate reads must list the same.

use gritwheel::{LogError, PacketLog, RawBunchHeader, RawPacketReader};
use std::path::{Path, PathBuf};

#[path = "../examples/messages.rs"]
mod messages;

fn samples() -> Vec<PathBuf> {
    let folder = Path::new(env!("CARGO_MANIFEST_DIR")).join("../../samples/logs");
    let entries = std::fs::read_dir(&folder).expect("samples/logs is there");
    let mut logs: Vec<_> = entries.map(|entry| entry.expect("an entry").path()).collect();
    logs.retain(|path| path.extension().is_some_and(|extension| extension == "log"));
    logs.sort();
    assert!(logs.len() > 10, "there are samples");
    logs
}

fn listing(log: &Path) -> String {
    std::fs::read_to_string(log.with_extension("txt")).expect("its listing is there")
}

fn bunch_line(h: &RawBunchHeader) -> String {
    let flags = [(h.b_reliable, 'R'), (h.b_partial, 'P'), (h.b_partial_initial, 'I'), (h.b_partial_final, 'F')];
    let flags: String = flags.into_iter().map(|(set, letter)| if set { letter } else { '-' }).collect();
    let letter = match (h.has_channel_limit_error, h.has_partial_error, h.is_partial_completed) {
        (true, _, _) => 'L',
        (_, true, _) => 'E',
        (_, _, true) => 'K',
        _ => '-',
    };
    let (count, offset) = (h.payload_bit_count, h.payload_bit_offset);
    format!("B {} {} {} {flags} {count} {offset} {letter}\n", h.packet_id, h.ch_index, h.ch_sequence)
}

fn fault_line(fault: LogError) -> String {
    match fault {
        LogError::Version(version) => format!("V {version}\n"),
        LogError::Cut { offset } => format!("X {offset}\n"),
    }
}

/// Document 01's listing, by this crate.
fn listed(log: &[u8]) -> String {
    let mut reader = RawPacketReader::new();
    let mut text = String::new();
    let packets = match PacketLog::new(log) {
        Ok(packets) => packets,
        Err(fault) => return fault_line(fault),
    };
    for packet in packets {
        let packet = match packet {
            Ok(packet) => packet,
            Err(fault) => return text + &fault_line(fault),
        };
        let mut bunches = reader.bunches(packet.data, packet.packet_id);
        for bunch in &mut bunches {
            let bunch = bunch.expect("a log's packet is never too long");
            assert_eq!(bunch.payload.start_bit(), bunch.header.payload_bit_offset);
            assert_eq!(bunch.payload.len_bits(), u64::from(bunch.header.payload_bit_count));
            text += &bunch_line(&bunch.header);
        }
        let r = bunches.result();
        let malformed = u8::from(r.is_malformed);
        let (id, errors, limits) = (packet.packet_id, r.partial_error_count, r.channel_limit_count);
        text += &format!("P {id} {} {malformed} {errors} {limits}\n", r.bunch_count);
    }
    text
}

#[test]
fn listings_are_the_rusts() {
    for log in samples() {
        let bytes = std::fs::read(&log).expect("it can be read");
        assert_eq!(listed(&bytes), listing(&log), "{}", log.display());
    }
}

/// The worked example counts what the Rust's listing has: packets, malformed ones, each channel's payload bits, and the end.
#[test]
fn the_example_leaves_nothing_out() {
    for log in samples() {
        let bytes = std::fs::read(&log).expect("it can be read");
        let (text, ending) = messages::messages(&bytes).expect("no refusal");
        let listing = listing(&log);
        let fields: Vec<Vec<&str>> = listing.lines().map(|line| line.split(' ').collect()).collect();
        let of = |letter| fields.iter().filter(move |line| line[0] == letter);
        let malformed = of("P").filter(|line| line[3] == "1").count();
        assert!(
            text.ends_with(&format!("{} packet(s), {malformed} malformed\n", of("P").count())),
            "{}",
            log.display()
        );
        let mut bits = std::collections::BTreeMap::<u32, u64>::new();
        for line in of("B") {
            *bits.entry(line[2].parse().expect("a channel")).or_default() += line[5].parse::<u64>().expect("a count");
        }
        let told: Vec<_> = text.lines().filter(|line| line.starts_with("channel ")).collect();
        assert_eq!(told.len(), bits.len(), "{}", log.display());
        for (line, (channel, bits)) in told.iter().zip(&bits) {
            assert!(line.starts_with(&format!("channel {channel}: {bits} bits, ")), "{line}");
        }
        let fault = ending.err().map(fault_line).unwrap_or_default();
        let last = fields.last().filter(|line| line[0] == "V" || line[0] == "X");
        assert_eq!(fault, last.map(|line| line.join(" ") + "\n").unwrap_or_default(), "{}", log.display());
    }
}
