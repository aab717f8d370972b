// Short data in full: every data, every window, every argument up to a bound, as far as the time allows.

use super::super::Call::*;
use super::Inputs;
use crate::window::Window;

/// All starts and lengths up to a number of bits, with positions to one past the length.
fn windows_of(bits: u64) -> Vec<Window> {
    let pairs = (0..=bits).flat_map(|start| (0..=bits).map(move |length| (start, length)));
    pairs.flat_map(|(start, length)| (0..=length + 1).map(move |position| [start, position, length])).collect()
}

impl Inputs {
    /// Data of 0 and 1 bytes, every window inside and just outside.
    pub(super) fn short_data(&mut self) {
        self.comparing.stage("0 and 1 bytes");
        self.every_window_of(&[], 2, 4);
        for byte in 0..=255 {
            self.every_window_of(&[byte], 9, 10);
        }
    }

    fn every_window_of(&mut self, data: &[u8], bits: u64, most: u64) {
        self.case.data = data.to_vec();
        for window in self.share.among(windows_of(bits).into_iter()) {
            self.case.window = window;
            self.check_small_arguments(most);
        }
    }

    /// Every data of 2 bytes, read at every place to the data's end, and with some of all windows in turn.
    pub(super) fn two_bytes(&mut self) {
        self.comparing.stage("2 bytes, all data");
        let starts: &[u64] = if self.long { &[0, 1, 2, 3, 5, 7, 8, 9] } else { &[0] };
        let turns = if self.long { 20 } else { 1 };
        let mut windows = windows_of(17).into_iter().cycle();
        for word in self.share.among(0..=u16::MAX) {
            self.case.data = word.to_le_bytes().to_vec();
            for &start in starts {
                for position in 0..=16 - start {
                    self.case.window = [start, position, 16 - start];
                    self.two_bytes_at(17 - position);
                }
            }
            for window in windows.by_ref().take(turns) {
                self.case.window = window;
                self.check_small_arguments(17);
            }
        }
    }

    fn two_bytes_at(&mut self, most: u64) {
        for call in [ReadBit, ReadU8, ReadU16, ReadIntPacked] {
            self.check(call, 0);
        }
        for number in 0..=most {
            self.check(ReadBits, number);
            self.check_target(number, 3);
        }
        for number in (0..=33).chain([63, 64, 65, 127, 128, 129, 255, 256, 257, 16384, 32767, 32768, 65535]) {
            self.check(ReadSerializedInt, number);
        }
    }

    /// Every window of some data of 2 and 3 bytes.
    pub(super) fn every_window(&mut self) {
        self.comparing.stage("2 and 3 bytes, all windows");
        let rounds = if self.long { 40 } else { 2 };
        for data in [[0, 0], [0xff, 0xff], [0x01, 0x80], [0x55, 0xaa]] {
            self.every_window_of(&data, 17, 18);
        }
        for _ in 0..rounds {
            let word = self.random.next().to_le_bytes();
            self.every_window_of(&word[..2], 17, 18);
            self.every_window_of(&word[..3], 25, 26);
        }
    }
}
