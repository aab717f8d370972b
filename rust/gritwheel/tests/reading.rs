//! The bit reader and the walks at their edges: document 01's desk checks, each refusal with its values, and where the reader then
//! stands.

use gritwheel::field::{RepLayoutRemainder, parse_class_net_cache, parse_rep_layout, parse_rep_layout_content_block};
use gritwheel::{BitReader, Error};

fn over(data: &[u8], bits: u64) -> BitReader<'_> {
    BitReader::with_bit_len(data, bits).expect("there are so many")
}

/// "Packed 06: 3. 01 00: 0 in 16 bits. Fifth byte 20: refusal 3. 21: refusal 2."
#[test]
fn packed() {
    assert_eq!(over(&[0x06], 8).read_int_packed(), Ok(3));
    let mut long = over(&[0x01, 0x00], 16);
    assert_eq!((long.read_int_packed(), long.position()), (Ok(0), 16));
    for (fifth, error) in
        [(0x20, Error::IntPackedOverflow { position: 3 }), (0x21, Error::MalformedIntPacked { position: 3 })]
    {
        // Three bits before the number.
        let bits = u64::from_le_bytes([1, 1, 1, 1, fifth, 0, 0, 0]) << 3;
        let data = bits.to_le_bytes();
        let mut reader = over(&data, 48);
        reader.skip_bits(3).expect("they are there");
        assert_eq!(reader.read_int_packed(), Err(error));
        assert_eq!(reader.position(), 43, "forty bits past the start");
    }
    let mut cut = over(&[0x01, 0x01], 12);
    assert_eq!(cut.read_int_packed(), Err(Error::Eof { position: 8, length: 12, requested: 8 }));
    assert_eq!(cut.position(), 8);
}

/// "Maximum 1, empty window: 0. Maximum 3, bits 0,1: 2; bit 1: 1. Maximum 0: refusal 4."
#[test]
fn serialized() {
    assert_eq!(over(&[], 0).read_serialized_int(1), Ok(0));
    let mut two = over(&[0b10], 2);
    assert_eq!((two.read_serialized_int(3), two.position()), (Ok(2), 2));
    let mut one = over(&[0b1], 1);
    assert_eq!((one.read_serialized_int(3), one.position()), (Ok(1), 1));
    let mut none = over(&[0b1], 1);
    assert_eq!((none.read_serialized_int(0), none.position()), (Err(Error::InvalidSerializedIntMax { max: 0 }), 0));
}

#[test]
fn numbers() {
    let data: Vec<u8> = (0..16).map(|byte| 0x11 * byte).collect();
    let whole = u128::from_le_bytes(data.as_slice().try_into().expect("sixteen"));
    for skipped in 0..64 {
        let at = || {
            let mut reader = BitReader::new(&data).expect("it is short");
            reader.skip_bits(skipped).expect("they are there");
            reader
        };
        let word = (whole >> skipped) as u64;
        assert_eq!(at().read_bit(), Ok(word & 1 == 1));
        assert_eq!(at().read_u8(), Ok(word as u8));
        assert_eq!(at().read_u16(), Ok(word as u16));
        assert_eq!(at().read_u32(), Ok(word as u32));
        assert_eq!(at().read_i32(), Ok(word as i32));
        assert_eq!(at().read_u64(), Ok(word));
        for count in 0..=64 {
            let mut reader = at();
            let low = u128::from(word) & ((1 << count) - 1);
            assert_eq!(reader.read_bits(count).map(u128::from), Ok(low));
            assert_eq!(reader.position(), skipped + u64::from(count));
        }
        // The Rust's floats carry every pattern, a NaN's too.
        assert_eq!(at().read_f32().map(f32::to_bits), Ok(word as u32));
        assert_eq!(at().read_f64().map(f64::to_bits), Ok(word));
    }
    for bits in [0x7f80_0001_u32, 0xffff_ffff, 0x7fc0_0000, 0x7f80_0000, 0x8000_0000, 0x0000_0001] {
        let data = bits.to_le_bytes();
        assert_eq!(over(&data, 32).read_f32().map(f32::to_bits), Ok(bits));
    }
    for bits in [0x7ff0_0000_0000_0001_u64, u64::MAX, 0xfff0_0000_0000_0000, 0x8000_0000_0000_0000] {
        let data = bits.to_le_bytes();
        assert_eq!(over(&data, 64).read_f64().map(f64::to_bits), Ok(bits));
    }
}

/// Width 0 at the end; 6; and an end of data leaves the reader where it was.
#[test]
fn ends() {
    let mut reader = over(&[0xff], 5);
    reader.skip_remaining();
    assert!(reader.at_end());
    assert_eq!((reader.read_bits(0), reader.bits_remaining()), (Ok(0), 0));
    assert_eq!(reader.read_bits(65), Err(Error::InvalidWidth { width: 65 }));
    assert_eq!(reader.read_bit(), Err(Error::Eof { position: 5, length: 5, requested: 1 }));
    assert_eq!(reader.read_f64(), Err(Error::Eof { position: 5, length: 5, requested: 64 }));
    assert_eq!(reader.skip_bits(u64::MAX), Err(Error::Eof { position: 5, length: 5, requested: u64::MAX }));
    assert_eq!(reader.sub_reader(1).unwrap_err(), Error::Eof { position: 5, length: 5, requested: 1 });
    assert_eq!((reader.position(), reader.len_bits()), (5, 5));
    let mut empty = BitReader::new(&[]).expect("no data is data");
    assert!(empty.at_end());
    assert_eq!(empty.copy_remaining(), Ok(Vec::new()));
    assert_eq!(empty.copy_bits_to(&mut [], 0), Ok(()));
    assert_eq!(BitReader::with_bit_len(&[], 1).unwrap_err(), Error::InvalidBitLength { requested: 1, available: 0 });
}

#[test]
fn copies() {
    let data = [0xff; 40];
    for count in 0..200 {
        for skipped in 0..9 {
            let mut reader = over(&data, 320);
            reader.skip_bits(skipped).expect("they are there");
            let mut target = [0xaa; 30];
            assert_eq!(reader.copy_bits_to(&mut target, count), Ok(()));
            assert_eq!(reader.position(), skipped + count);
            for (index, byte) in target.into_iter().enumerate() {
                let bits = count.saturating_sub(8 * index as u64).min(8);
                let written = if bits == 0 { 0xaa } else { (0xff_u16 >> (8 - bits)) as u8 };
                assert_eq!(byte, written, "byte {index} of {count} bits");
            }
        }
    }
    let mut target = [0xaa; 2];
    let mut reader = over(&data, 16);
    let short = Error::InvalidBitLength { requested: 17, available: 16 };
    assert_eq!(reader.copy_bits_to(&mut target, 17), Err(short), "5 before 1");
    assert_eq!((target, reader.position()), ([0xaa; 2], 0));
}

/// A sub-reader reads its own bits alone, and says where they start.
#[test]
fn windows() {
    let data = [0b1010_0101, 0b1100_0011];
    let mut reader = over(&data, 16);
    reader.skip_bits(2).expect("they are there");
    let mut inner = reader.sub_reader(9).expect("they are there");
    assert_eq!((reader.position(), inner.start_bit(), inner.position(), inner.len_bits()), (11, 2, 0, 9));
    inner.skip_bits(1).expect("they are there");
    let mut innermost = inner.sub_reader(8).expect("they are there");
    assert_eq!((innermost.start_bit(), innermost.read_u8()), (3, Ok(0b0111_0100)));
    assert_eq!(innermost.read_bit(), Err(Error::Eof { position: 8, length: 8, requested: 1 }));
}

/// 67,108,864 bytes are read, one more is refused, before anything else.
#[test]
fn longest() {
    let data = vec![0xff; 67_108_865];
    assert_eq!(BitReader::new(&data[1..]).map(|reader| reader.len_bits()), Ok(536_870_912));
    let refused = Error::DataTooLong { length: 67_108_865 };
    assert_eq!(BitReader::new(&data).unwrap_err(), refused);
    assert_eq!(BitReader::with_bit_len(&data, u64::MAX).unwrap_err(), refused);
}

/// "Nine zero bits as RepLayout: no record, nothing left. Eight as class net cache, count 2: 8 abandoned. Nine, count 1: one empty
/// record."
#[test]
fn desk_checks_of_the_walks() {
    let (records, outcome) = parse_rep_layout(&mut over(&[0, 0], 9));
    assert_eq!((records.len(), outcome), (0, Ok(RepLayoutRemainder::None)));
    let (records, outcome) = parse_class_net_cache(&mut over(&[0], 8), 2);
    assert_eq!((records.len(), outcome), (0, Ok(8)));
    let (records, outcome) = parse_class_net_cache(&mut over(&[0, 0], 9), 1);
    assert_eq!((records.len(), outcome), (1, Ok(0)));
    let record = &records[0];
    assert_eq!((record.handle, record.bit_count, record.position, record.payload.len_bits()), (0, 0, 9, 0));
}

#[test]
fn tails() {
    let data = [0x08, 0x0c, 0x0e, 0x00];
    let mut reader = over(&data, 32);
    let (records, outcome) = parse_rep_layout_content_block(&mut reader);
    assert_eq!((records.len(), outcome, reader.position()), (1, Ok(RepLayoutRemainder::ClassNetCache(4)), 28));
    let mut reader = over(&data, 32);
    let (_, outcome) = parse_rep_layout(&mut reader);
    assert_eq!((outcome, reader.position()), (Ok(RepLayoutRemainder::ClassNetCache(4)), 32));
    // A count of 3 where two bits are left: abandoned from the record's start.
    let mut reader = over(&data, 19);
    let (records, outcome) = parse_rep_layout(&mut reader);
    assert_eq!((records.len(), outcome, reader.position()), (0, Ok(RepLayoutRemainder::Malformed(18)), 19));
}

/// More records than the first list has places for: none is lost, and each payload is its own bits.
#[test]
fn many_records() {
    for count in [31, 32, 33, 64, 65, 1_000] {
        // Of each: handle bit, a packed 8, and a payload of 8 bits with the record's number.
        // Five bits stand before the window.
        let mut bits = vec![true; 5];
        for number in 0..count {
            bits.push(number % 2 == 1);
            bits.extend((0..8).map(|bit| 16 >> bit & 1 == 1));
            bits.extend((0..8).map(|bit| number >> bit & 1 == 1));
        }
        let byte = |bits: &[bool]| bits.iter().enumerate().map(|(place, bit)| u8::from(*bit) << place).sum();
        let data: Vec<u8> = bits.chunks(8).map(byte).collect();
        let mut whole = over(&data, bits.len() as u64);
        whole.skip_bits(5).expect("they are there");
        let mut reader = whole.sub_reader(17 * count as u64).expect("they are there");
        let (records, outcome) = parse_class_net_cache(&mut reader, 2);
        assert_eq!((records.len(), outcome, reader.at_end()), (count, Ok(0), true));
        for (number, mut record) in records.into_iter().enumerate() {
            assert_eq!((record.handle, record.position), (number as u32 % 2, 17 * number as u64 + 9));
            assert_eq!(record.payload.start_bit(), record.position + 5);
            assert_eq!(record.payload.read_u8(), Ok(number as u8));
        }
    }
}

/// A refused walk keeps the records before it, and leaves the reader where the Rust does.
#[test]
fn refused_walks() {
    let mut empty = over(&[], 0);
    let (records, outcome) = parse_rep_layout(&mut empty);
    assert_eq!((records.len(), outcome.unwrap_err()), (0, Error::Eof { position: 0, length: 0, requested: 1 }));
    let (records, outcome) = parse_class_net_cache(&mut empty, 0);
    assert_eq!((records.len(), outcome.unwrap_err()), (0, Error::UnresolvedFunctionCount));
    // After the ignored bit a record of no bits, then a handle that runs on.
    let data = (u64::from_le_bytes([0x02, 0x00, 1, 1, 1, 1, 0x21, 0]) << 1).to_le_bytes();
    let mut reader = over(&data, 60);
    let (records, outcome) = parse_rep_layout(&mut reader);
    assert_eq!(outcome, Err(Error::MalformedIntPacked { position: 17 }));
    assert_eq!((records.len(), records[0].handle, reader.position()), (1, 0, 57));
}
