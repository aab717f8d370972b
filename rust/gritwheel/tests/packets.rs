//! The packet reader and the writer at their edges: document 01's desk checks, each refusal with its values, and what a refused call
//! leaves.

use gritwheel::{ChannelCloseReason, Error, PacketReadResult, PacketWriter, RawBunchHeader, RawPacketReader};

fn packet(bunches: &[(RawBunchHeader, &[u8], u64)]) -> Vec<u8> {
    let mut writer = PacketWriter::new();
    for (header, payload, bits) in bunches {
        writer.write_bunch(header, payload, *bits).expect("it can be written");
    }
    writer.close().expect("there is room")
}

fn reliable(ch_index: u32) -> RawBunchHeader {
    RawBunchHeader { ch_index, b_reliable: true, ..Default::default() }
}

/// The headers of a packet, and its counts.
fn read(reader: &mut RawPacketReader, packet: &[u8], id: i32) -> (Vec<RawBunchHeader>, PacketReadResult) {
    let mut headers = Vec::new();
    let result = reader.read_packet(packet, id, |header, _| headers.push(header.clone())).expect("no refusal");
    assert_eq!(result.bunch_count as usize, headers.len());
    (headers, result)
}

/// "Packet 01: no bunches, sound. Packet 00: malformed." An empty one has no bunches either.
#[test]
fn desk_checks() {
    let mut reader = RawPacketReader::new();
    for (packet, is_malformed) in [(&[0x01][..], false), (&[0x00], true), (&[], false), (&[0xff, 0x00], true)] {
        let (headers, result) = read(&mut reader, packet, 1);
        assert_eq!((headers.len(), result), (0, PacketReadResult { is_malformed, ..Default::default() }));
    }
}

/// What is written is read back: each field that is written, the payload, and nothing else.
#[test]
fn round_trip() {
    let all = RawBunchHeader {
        ch_index: u32::MAX,
        b_open: true,
        b_close: true,
        b_dormant: true,
        b_is_replication_paused: true,
        b_reliable: true,
        b_partial: true,
        b_partial_initial: true,
        b_partial_final: true,
        b_has_package_map_exports: true,
        b_has_must_be_mapped_guids: true,
        close_reason: ChannelCloseReason::Dormancy,
        // Neither written nor judged.
        packet_id: -7,
        ch_sequence: -7,
        payload_bit_count: 7,
        payload_bit_offset: 7,
        has_partial_error: true,
        has_channel_limit_error: true,
        ..Default::default()
    };
    let longest = vec![0x5a; 2_048];
    let bunches = [(all.clone(), &[0xff][..], 3), (reliable(0), &longest[..], 16_383), (reliable(0), &[], 0)];
    let packet = packet(&bunches);
    let mut reader = RawPacketReader::new();
    let mut read = reader.bunches(&packet, i32::MIN);
    let first = read.next().expect("a bunch").expect("no refusal");
    let written = RawBunchHeader {
        packet_id: i32::MIN,
        ch_sequence: 1,
        payload_bit_count: 3,
        payload_bit_offset: first.payload.start_bit(),
        has_partial_error: false,
        has_channel_limit_error: false,
        is_partial_completed: true,
        ..all
    };
    assert_eq!(first.header, written);
    assert_eq!(first.payload.clone().copy_remaining(), Ok(vec![0b111]));
    let second = read.next().expect("a bunch").expect("no refusal");
    let mut bytes = longest.clone();
    bytes[2_047] &= 0x7f;
    assert_eq!((second.header.ch_sequence, second.payload.clone().copy_remaining()), (1, Ok(bytes)));
    assert_eq!(read.next().expect("a bunch").expect("no refusal").header.ch_sequence, 2);
    assert!(read.next().is_none() && read.next().is_none());
    assert_eq!(read.result(), PacketReadResult { bunch_count: 3, ..Default::default() });
}

/// A packet of 65,535 bytes is read; one more is refused, once, and the reader knows what it knew.
#[test]
fn longest() {
    let mut reader = RawPacketReader::new();
    let one = packet(&[(reliable(3), &[], 0)]);
    assert_eq!(read(&mut reader, &one, 1).0[0].ch_sequence, 1);
    let long = vec![0xff; 65_536];
    let mut bunches = reader.bunches(&long, 2);
    assert_eq!(bunches.next().expect("it refuses").unwrap_err(), Error::PacketTooLong { length: 65_536 });
    assert!(bunches.next().is_none());
    assert_eq!(reader.read_packet(&long, 2, |_, _| ()), Err(Error::PacketTooLong { length: 65_536 }));
    assert_eq!(read(&mut reader, &one, 3).0[0].ch_sequence, 2);
    assert!(reader.read_packet(&long[1..], 4, |_, _| ()).is_ok());
}

#[test]
fn limits() {
    for most in [4_097, usize::MAX] {
        assert_eq!(RawPacketReader::with_max_channels(most).unwrap_err(), Error::Unfit);
    }
    let mut none = RawPacketReader::with_max_channels(0).expect("0 is within the limit");
    let (headers, result) = read(&mut none, &packet(&[(reliable(3), &[], 0), (reliable(3), &[], 0)]), 1);
    assert!(headers.iter().all(|header| header.has_channel_limit_error));
    assert_eq!(result.channel_limit_count, 2);
    // All the channels that there may be, highest first, and one more; then one closes and makes room.
    let mut reader = RawPacketReader::new();
    for channel in (0..4_096).rev() {
        let (headers, _) = read(&mut reader, &packet(&[(reliable(1_000 * channel), &[], 0)]), 1);
        assert_eq!((headers[0].ch_sequence, headers[0].has_channel_limit_error), (1, false));
    }
    let more = packet(&[(reliable(7), &[], 0)]);
    assert!(read(&mut reader, &more, 2).0[0].has_channel_limit_error);
    let close = RawBunchHeader { b_close: true, ..reliable(1_000) };
    assert_eq!(read(&mut reader, &packet(&[(close, &[], 0)]), 3).0[0].ch_sequence, 2);
    assert!(!read(&mut reader, &more, 4).0[0].has_channel_limit_error);
}

/// An overrun keeps its sequence number, and the bunches before it.
#[test]
fn overruns() {
    let mut reader = RawPacketReader::new();
    let mut cut = packet(&[(reliable(3), &[1], 8), (reliable(3), &[0xff; 9], 72)]);
    cut.truncate(cut.len() - 2);
    *cut.last_mut().expect("it is long") |= 0x80;
    let (headers, result) = read(&mut reader, &cut, 1);
    assert_eq!((headers.len(), result.is_malformed), (1, true));
    assert_eq!(read(&mut reader, &packet(&[(reliable(3), &[], 0)]), 2).0[0].ch_sequence, 3);
}

/// Bunches that nobody asks for aren't read.
#[test]
fn a_packet_left_early() {
    let mut reader = RawPacketReader::new();
    let two = packet(&[(reliable(3), &[], 0), (reliable(3), &[], 0)]);
    assert!(reader.bunches(&two, 1).next().is_some());
    assert_eq!(reader.bunches(&two, 1).result(), PacketReadResult::default());
    assert_eq!(read(&mut reader, &two, 2).0[0].ch_sequence, 2);
}

/// 16 comes first, then 11, 12, 17; nothing is written, and the next bunch goes where this one would have.
#[test]
fn refused_writes() {
    let mut writer = PacketWriter::with_room(8);
    let plain = RawBunchHeader::default();
    writer.write_bunch(&plain, &[0xa5], 8).expect("it fits");
    let unwritable = [
        RawBunchHeader { b_partial_initial: true, ..plain.clone() },
        RawBunchHeader { b_partial_final: true, ..plain.clone() },
        RawBunchHeader { close_reason: ChannelCloseReason::Dormancy, ..plain.clone() },
        RawBunchHeader { b_dormant: true, ..plain.clone() },
        RawBunchHeader { b_close: true, b_dormant: true, ..plain.clone() },
        RawBunchHeader { b_close: true, close_reason: ChannelCloseReason::Dormancy, ..plain.clone() },
    ];
    for header in &unwritable {
        assert_eq!(writer.write_bunch(header, &[], u64::MAX), Err(Error::Unwritable));
    }
    assert_eq!(writer.write_bunch(&plain, &[], 16_384), Err(Error::PayloadTooLong { count: 16_384 }));
    assert_eq!(writer.write_bunch(&plain, &[0], 9), Err(Error::PayloadShort { count: 9 }));
    assert_eq!(writer.write_bunch(&plain, &[0], 8), Err(Error::NoRoom { bits: 74 }));
    assert_eq!(writer.bits(), 37);
    let mut alone = PacketWriter::new();
    alone.write_bunch(&plain, &[0xa5], 8).expect("it fits");
    assert_eq!(writer.close(), alone.close());
    // The next packet begins at bit 0, whatever stood there.
    assert_eq!((writer.bits(), writer.close()), (0, Ok(vec![0x01])));
}

/// Where the bunches leave no room for the end mark, they stay.
#[test]
fn no_room_for_the_end_mark() {
    assert_eq!(PacketWriter::with_room(0).close(), Err(Error::NoRoom { bits: 1 }));
    let mut writer = PacketWriter::with_room(5);
    writer.write_bunch(&RawBunchHeader::default(), &[0xff, 0xff], 11).expect("it fits");
    assert_eq!(writer.bits(), 40);
    assert_eq!(writer.close(), Err(Error::NoRoom { bits: 41 }));
    assert_eq!(writer.bits(), 40);
    // More room than a packet may have is never used.
    let mut large = PacketWriter::with_room(1 << 20);
    while large.write_bunch(&RawBunchHeader::default(), &[0; 2_048], 16_383).is_ok() {}
    assert!(large.bits() <= 524_280);
    assert!(large.close().expect("there is room for the end mark").len() <= 65_535);
}
