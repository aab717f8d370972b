//! The worked example on a log whose messages are known: chains of eight channels, fragment by fragment in turn.

use gritwheel::log::PacketLogWriter;
use gritwheel::{LogError, PacketLog, PacketWriter, RawBunchHeader};

#[path = "../examples/messages.rs"]
mod messages;

fn header(ch_index: u32, b_reliable: bool) -> RawBunchHeader {
    RawBunchHeader { ch_index, b_reliable, ..Default::default() }
}

fn fragment(ch_index: u32, b_reliable: bool, b_partial_initial: bool, b_partial_final: bool) -> RawBunchHeader {
    RawBunchHeader { b_partial: true, b_partial_initial, b_partial_final, ..header(ch_index, b_reliable) }
}

/// A log that is made packet by packet, ids from 100 on.
struct Log {
    packets: PacketLogWriter,
    writer: PacketWriter,
    id: i32,
}

impl Log {
    fn packet(&mut self, bunches: &[(RawBunchHeader, &[u8], u64)]) {
        for (header, payload, bits) in bunches {
            self.writer.write_bunch(header, payload, *bits).expect("it can be written");
        }
        let packet = self.writer.close().expect("there is room");
        self.raw(&packet);
    }

    fn raw(&mut self, packet: &[u8]) {
        self.packets.push(self.id, packet).expect("it isn't too long");
        self.id += 1;
    }
}

/// Channels 3, 4 and 5 send "three", "four" and "five" in fragments that stand in turn; 6 loses one, 7 closes before its end, 8 is
/// cut by the log's end, and 9 begins anew before its end. Channel 10 begins off the byte, which the accumulator refuses and the
/// packet reader's tracker doesn't see: it calls the whole message after it an error, and its flag must be cleared.
fn interleaved() -> Vec<u8> {
    let mut log = Log { packets: PacketLogWriter::new(), writer: PacketWriter::new(), id: 100 };
    log.packet(&[
        (fragment(3, true, true, false), b"th", 16),
        (fragment(4, false, true, false), b"f", 8),
        (fragment(5, true, true, false), b"f", 8),
    ]);
    log.packet(&[
        (fragment(5, true, false, false), b"iv", 16),
        (fragment(4, false, false, false), b"ou", 16),
        (fragment(6, false, true, false), b"six", 24),
        (fragment(3, true, false, false), b"re", 16),
    ]);
    // Channel 6's next fragment is in a packet without an end mark, which is malformed.
    log.raw(&[0xff, 0x00]);
    log.packet(&[
        (fragment(6, false, false, true), b"!", 8),
        (fragment(7, true, true, false), b"seven", 40),
        (fragment(5, true, false, true), b"e", 7),
    ]);
    log.packet(&[
        (RawBunchHeader { b_close: true, ..header(7, true) }, b"", 0),
        (fragment(3, true, false, true), b"e", 8),
        (header(3, true), b"plain", 40),
    ]);
    // Channel 4 is unreliable: its sequence is the packet's id, and packets 102 to 104 brought none.
    log.packet(&[
        (fragment(4, false, false, true), b"r", 8),
        (fragment(9, true, true, false), b"ni", 16),
        (fragment(10, true, true, false), b"t", 5),
    ]);
    log.packet(&[
        (fragment(9, true, true, false), b"NI", 16),
        (fragment(8, true, true, false), b"eight", 40),
        (fragment(10, true, true, true), b"ten", 24),
    ]);
    log.packet(&[(fragment(9, true, false, true), b"NE", 16), (fragment(4, false, true, true), b"four", 32)]);
    log.packets.into_bytes()
}

/// What the overlapping initial of channel 9 begins is finished by its continuation: the error is the displaced message's.
#[test]
fn each_channels_messages() {
    let (text, ending) = messages::messages(&interleaved()).expect("no refusal");
    assert_eq!(ending, Ok(()));
    assert_eq!(text, include_str!("data/interleaved.txt"));
}

/// The log is kept as a file, for the program.
#[test]
fn the_file_is_the_log() {
    assert_eq!(interleaved(), include_bytes!("data/interleaved.log"));
}

/// "FIRST:" and "OTHER" are of two lives of a channel: whether it closed between them or opened only, both are discarded.
#[test]
fn two_lives() {
    let reopened = &include_bytes!("../../../samples/logs/reopened.log")[..];
    let opened_over = &include_bytes!("../../../samples/logs/opened_over.log")[..];
    for (log, first, why) in
        [(reopened, "2..3", "its channel closed"), (opened_over, "1..2", "its channel opened anew")]
    {
        let (text, _) = messages::messages(log).expect("no refusal");
        assert!(text.contains(&format!("  discarded {first} 48 bits [46495253543a]: {why}\n")), "{text}");
        assert!(text.contains(" 40 bits [4f54484552]: continuation without initial\n"), "{text}");
    }
}

#[test]
fn logs_that_end_early() {
    let log = interleaved();
    let (text, ending) = messages::messages(&log[..log.len() - 1]).expect("no refusal");
    let last = PacketLog::new(&log).expect("version 1").last().expect("it has packets").expect("it is whole");
    assert_eq!(ending, Err(LogError::Cut { offset: last.offset }));
    assert_eq!(ending.unwrap_err().to_string(), format!("the record at byte {} is cut", last.offset));
    assert!(text.ends_with("7 packet(s), 1 malformed\n"), "{text}");
    assert!(text.contains("unfinished 106..106 16 bits [4e49]"), "{text}");
    let (text, ending) = messages::messages(&[2]).expect("no refusal");
    assert_eq!((text.as_str(), ending.is_err()), ("0 packet(s), 0 malformed\n", true));
}
