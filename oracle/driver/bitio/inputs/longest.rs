// The longest data that is accepted, and one byte more.

use super::Inputs;
use crate::lent::LONGEST_COPIED;
use crate::window;

const MOST_BYTES: usize = window::MOST_BYTES as usize;

impl Inputs {
    /// One byte above the longest data, and the longest data itself read at its end.
    pub(super) fn too_long(&mut self) {
        self.comparing.stage("the longest data, and one byte more");
        self.case.data = vec![0; MOST_BYTES + 1];
        let mut end = [0; 300];
        self.random.fill(&mut end);
        self.case.data[MOST_BYTES - 299..].copy_from_slice(&end);
        let bits = 8 * MOST_BYTES as u64;
        for m in [MOST_BYTES + 1, MOST_BYTES] {
            self.case.data.truncate(m);
            for before in [0, 1, 7, 8, 63, 64, 65, 2000] {
                for window in [
                    [bits - before, 0, before],
                    [bits - before, 0, before + 1],
                    [0, bits - before, bits],
                    [0, bits + 8 - before, bits + 8],
                    [3, bits - 3 - before, bits - 3],
                    [u64::MAX, 0, 0],
                    [0, 1, 0],
                ] {
                    self.case.window = window;
                    self.check_without_argument();
                    self.random_arguments(4);
                }
            }
        }
        // Such data is lent without a copy, so whether it was left alone is seen here.
        assert!(self.case.data.len() > LONGEST_COPIED);
        let (zeros, tail) = self.case.data.split_at(MOST_BYTES - 299);
        assert!(zeros.iter().all(|&byte| byte == 0) && *tail == end[..299], "the longest data was changed");
    }
}
