// Drawn inputs: random data with windows around every boundary, and damaged windows.

use super::Inputs;
use crate::window;

impl Inputs {
    /// Any number in start, position and length.
    pub(super) fn damaged_windows(&mut self) {
        self.comparing.stage("damaged windows");
        for n in [0, 1, 2, 7, 8, 9, 16] {
            let mut data = vec![0; n];
            self.random.fill(&mut data);
            self.case.data = data;
            let numbers = window::edges(8 * n as u64);
            for &start in &numbers {
                for &position in &numbers {
                    for &length in &numbers {
                        self.case.window = [start, position, length];
                        self.check_without_argument();
                        self.random_arguments(1);
                    }
                }
            }
        }
    }

    /// Random data of every length from 0 to 24, and some longer, with windows around every boundary.
    pub(super) fn random_data(&mut self) {
        self.comparing.stage("random data");
        let rounds = if self.long { 32_000_000 } else { 1_200_000 };
        for round in 0..self.share.of(rounds) {
            let n = if round % 16 == 15 { 25 + self.random.below(300) } else { round % 25 };
            self.case.data.resize(n as usize, 0);
            let mut data = std::mem::take(&mut self.case.data);
            self.random.fill(&mut data);
            self.case.data = data;
            for _ in 0..2 {
                self.case.window = window::drawn(&mut self.random, 8 * n);
                self.check_without_argument();
                self.random_arguments(2);
            }
        }
    }
}
