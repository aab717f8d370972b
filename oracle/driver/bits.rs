// A bit writer, for streams to read.

use crate::random::Random;

#[derive(Default)]
pub struct Bits {
    pub bytes: Vec<u8>,
    pub count: u64,
}

impl Bits {
    pub fn push(&mut self, number: u64, width: u64) {
        for index in 0..width {
            if self.count % 8 == 0 {
                self.bytes.push(0);
            }
            *self.bytes.last_mut().unwrap() |= (((number >> index) & 1) as u8) << (self.count % 8);
            self.count += 1;
        }
    }

    pub fn noise(&mut self, random: &mut Random, width: u64) {
        for _ in 0..width / 64 {
            self.push(random.next(), 64);
        }
        self.push(random.next(), width % 64);
    }

    /// In at least so many bytes: longer forms are accepted too.
    pub fn packed(&mut self, mut number: u64, least: u64) {
        for index in 1.. {
            let more = number >> 7 > 0 || index < least;
            self.push((number & 127) << 1 | u64::from(more), 8);
            number >>= 7;
            if !more {
                return;
            }
        }
    }

    /// A number below the maximum, which is above 1.
    pub fn serialized(&mut self, number: u64, maximum: u64) {
        let width = u64::from(maximum.ilog2());
        let low = number & ((1 << width) - 1);
        self.push(low, width);
        if low + (1 << width) < maximum {
            self.push(number >> width, 1);
        }
    }
}
