// The edges of each kind of number, and of copies, at every bit offset.

use super::super::Call::{self, *};
use super::Inputs;

impl Inputs {
    /// Packed numbers: every first byte, every fifth byte, at every bit offset, whole and cut.
    pub(super) fn packed(&mut self) {
        self.comparing.stage("packed numbers");
        let later = [0x00, 0x01, 0x02, 0x03, 0x1e, 0x1f, 0x20, 0x21, 0x80, 0xfe, 0xff];
        for first in 0..=255 {
            for second in later {
                for third in [0x00, 0x01, 0xff] {
                    self.packed_bytes([first, second, third, 0xff, 0x1e]);
                }
            }
        }
        for fifth in 0..=255 {
            for fourth in later {
                for early in [[0x01, 0x01, 0x01], [0xff, 0xff, 0xff], [0x03, 0x81, 0x55]] {
                    self.packed_bytes([early[0], early[1], early[2], fourth, fifth]);
                }
            }
        }
    }

    fn packed_bytes(&mut self, bytes: [u8; 5]) {
        for offset in 0..8 {
            let word = bytes.iter().rev().fold(0u64, |all, &byte| all << 8 | u64::from(byte));
            let noise = self.random.next() << (40 + offset);
            self.case.data = (word << offset | noise).to_le_bytes()[..6].to_vec();
            for length in [40, 39, 33, 32, 31, 24, 23, 16, 15, 9, 8, 7, 0] {
                self.case.window = [offset, 0, length];
                self.check(ReadIntPacked, 0);
            }
            self.case.window = [0, offset, 48];
            self.check(ReadIntPacked, 0);
        }
    }

    /// Serialized numbers where the value plus the power of two is at, below and above the maximum.
    pub(super) fn serialized(&mut self) {
        self.comparing.stage("serialized numbers");
        let mut maxima: Vec<u64> = (0..=260).chain([1000, 16383, 16384, 16385, u64::from(u32::MAX)]).collect();
        for power in 9..=32 {
            maxima.extend([(1u64 << power) - 2, (1 << power) - 1, 1 << power, (1 << power) + 1, (1 << power) + 2]);
        }
        maxima.retain(|&max| max <= u64::from(u32::MAX));
        for _ in 0..40 {
            maxima.push(self.random.upto(u64::from(u32::MAX)));
        }
        for max in maxima {
            let width = max.checked_ilog2().unwrap_or(0);
            let edge = max.saturating_sub(1 << width);
            for value in [0, edge.saturating_sub(1), edge, edge + 1, (1 << width) - 1, self.random.upto(max)] {
                self.serialized_bits(max, value & ((1 << width) - 1), u64::from(width));
            }
        }
    }

    fn serialized_bits(&mut self, max: u64, value: u64, width: u64) {
        for offset in 0..8 {
            for top in [0, 1] {
                let noise = u128::from(self.random.next()) << (width + 1);
                let word = (u128::from(value | top << width) | noise) << offset;
                self.case.data = word.to_le_bytes()[..8].to_vec();
                for length in [width.saturating_sub(1), width, width + 1, width + 2] {
                    self.case.window = [offset, 0, length];
                    self.check(ReadSerializedInt, max);
                    self.case.window = [0, offset, offset + length];
                    self.check(ReadSerializedInt, max);
                }
            }
        }
    }

    /// Copies of every small count and around the multiples, at every bit offset, at the data's end and before it.
    pub(super) fn copies(&mut self) {
        self.comparing.stage("copies");
        let mut counts: Vec<u64> = (0..=200).collect();
        for middle in [256, 320, 384, 512, 1024, 2048, 3072, 8192] {
            counts.extend(middle - 2..=middle + 2);
        }
        let rounds = if self.long { 1000 } else { 40 };
        for _ in 0..rounds {
            for &count in &counts {
                for offset in 0..8 {
                    let more = self.random.one_of(&[0, 0, 1, 7, 8, 9, 16]);
                    let mut data = vec![0; (count + offset).div_ceil(8) as usize + more];
                    self.random.fill(&mut data);
                    let length = 8 * data.len() as u64 - offset;
                    self.case.data = data;
                    self.case.window = [offset, 0, count];
                    self.check_copy(count);
                    self.case.window = [0, offset, offset + length];
                    self.check_copy(count);
                    self.check_copy(count + 1);
                    self.check_copy(length);
                    self.check_copy(length + 1);
                }
            }
        }
        for count in [u64::MAX, u64::MAX - 1, u64::MAX - 7, u64::MAX - 8, 1 << 63, (1 << 61) + 1] {
            self.check_copy(count);
        }
    }

    /// Zeros, infinities, the smallest and largest numbers, and NaN patterns of each kind, at every bit offset.
    pub(super) fn floats(&mut self) {
        self.comparing.stage("floats");
        for fraction in [0, 1, 2, 0x12_3456_789a_bcde, 1 << 22, 1 << 51, (1 << 23) - 1, (1 << 52) - 1] {
            for exponent in [0, 1, 127, 254, 255, 1023, 2046, 2047] {
                for sign in [0, 1] {
                    let double = sign << 63 | exponent << 52 | fraction;
                    let single = sign << 31 | (exponent & 255) << 23 | fraction & 0x7f_ffff;
                    self.float_bits(ReadF64, double, 64);
                    self.float_bits(ReadF32, single, 32);
                }
            }
        }
    }

    fn float_bits(&mut self, call: Call, bits: u64, width: u64) {
        for offset in 0..8 {
            let noise = u128::from(self.random.next()) << width;
            let word = (u128::from(bits) | noise) << offset | u128::from(self.random.next() & ((1 << offset) - 1));
            self.case.data = word.to_le_bytes()[..9].to_vec();
            for window in [[offset, 0, width], [0, offset, 72], [offset, 0, width - 1]] {
                self.case.window = window;
                self.check(call, 0);
            }
        }
    }
}
