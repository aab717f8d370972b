// Two plain bit writers for the comparison, as the Rust has none: one pushes a byte at a time into a slice, the other gathers bits
// in a word and stores four bytes whenever it has them.

pub trait Pusher<'a> {
    fn new(bytes: &'a mut [u8]) -> Self;
    /// A number of so many bits, at most 32.
    fn push_bits(&mut self, value: u64, count: usize);
    fn push_payload(&mut self, payload: &[u8], count: usize);
    /// The end mark and zeros to the byte's end; how many bytes were written.
    fn close(self) -> u64;

    fn push_flag(&mut self, flag: bool) {
        self.push_bits(flag.into(), 1);
    }

    fn push_packed(&mut self, mut number: u32) {
        while number >= 128 {
            self.push_bits(u64::from(number % 128) << 1 | 1, 8);
            number /= 128;
        }
        self.push_bits(u64::from(number) << 1, 8);
    }
}

pub struct ByBytes<'a> {
    bytes: &'a mut [u8],
    /// In bits.
    at: usize,
}

impl<'a> Pusher<'a> for ByBytes<'a> {
    fn new(bytes: &'a mut [u8]) -> Self {
        Self { bytes, at: 0 }
    }

    fn push_bits(&mut self, mut value: u64, mut count: usize) {
        while count > 0 {
            let shift = self.at % 8;
            let taken = count.min(8 - shift);
            let byte = &mut self.bytes[self.at / 8];
            let kept = *byte & ((1 << shift) - 1);
            *byte = kept | (value as u8 & (0xff >> (8 - taken))) << shift;
            value >>= taken;
            self.at += taken;
            count -= taken;
        }
    }

    fn push_payload(&mut self, payload: &[u8], count: usize) {
        let (whole, rest) = payload.split_at(count / 8);
        let (first, shift) = (self.at / 8, self.at % 8);
        if shift == 0 {
            self.bytes[first..][..whole.len()].copy_from_slice(whole);
        } else {
            let target = &mut self.bytes[first..][..whole.len() + 1];
            let mut kept = target[0] & ((1 << shift) - 1);
            for (place, &byte) in target.iter_mut().zip(whole) {
                *place = kept | byte << shift;
                kept = byte >> (8 - shift);
            }
            target[whole.len()] = kept;
        }
        self.at += 8 * whole.len();
        if count % 8 > 0 {
            self.push_bits(rest[0].into(), count % 8);
        }
    }

    fn close(mut self) -> u64 {
        self.push_flag(true);
        self.at.div_ceil(8) as u64
    }
}

pub struct ByWords<'a> {
    bytes: &'a mut [u8],
    /// In bytes; the bits after them are in the word.
    at: usize,
    word: u64,
    count: usize,
}

impl<'a> Pusher<'a> for ByWords<'a> {
    fn new(bytes: &'a mut [u8]) -> Self {
        Self { bytes, at: 0, word: 0, count: 0 }
    }

    fn push_bits(&mut self, value: u64, count: usize) {
        self.word |= value << self.count;
        self.count += count;
        if self.count >= 32 {
            self.bytes[self.at..self.at + 4].copy_from_slice(&(self.word as u32).to_le_bytes());
            self.at += 4;
            self.word >>= 32;
            self.count -= 32;
        }
    }

    fn push_payload(&mut self, payload: &[u8], count: usize) {
        let (whole, rest) = payload.split_at(count / 32 * 4);
        for four in whole.chunks_exact(4) {
            self.push_bits(u32::from_le_bytes(four.try_into().unwrap()).into(), 32);
        }
        let mut left = count % 32;
        for &byte in rest {
            let taken = left.min(8);
            self.push_bits(u64::from(byte) & ((1 << taken) - 1), taken);
            left -= taken;
        }
    }

    fn close(mut self) -> u64 {
        self.push_flag(true);
        while self.count > 0 {
            self.bytes[self.at] = self.word as u8;
            self.at += 1;
            self.word >>= 8;
            self.count = self.count.saturating_sub(8);
        }
        self.at as u64
    }
}
