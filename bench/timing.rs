// The measuring: both sides in turn, several rounds, the middle one taken.

use std::hint::black_box;
use std::time::Instant;

pub struct Timing {
    pub rounds: usize,
    /// Only the cases whose names hold this text.
    pub only: String,
}

/// A sample is long enough that the clock's own cost doesn't show.
const SAMPLE_SECONDS: f64 = 0.006;

fn seconds(times: u64, work: &mut dyn FnMut() -> u64) -> f64 {
    let started = Instant::now();
    for _ in 0..times {
        black_box(work());
    }
    started.elapsed().as_secs_f64()
}

fn middle(mut numbers: Vec<f64>) -> f64 {
    numbers.sort_by(f64::total_cmp);
    numbers[numbers.len() / 2]
}

impl Timing {
    pub fn title(&self) {
        println!("{:<48}{:>10}{:>10}{:>8}", "case", "Rust ns", "ours ns", "ratio");
    }

    pub fn wants(&self, name: &str) -> bool {
        name.contains(&self.only)
    }

    /// Each side does `operations` operations and answers a number over all its results.
    pub fn compare(&self, name: &str, operations: usize, rust: impl FnMut() -> u64, ours: impl FnMut() -> u64) {
        self.print(name, operations, self.measured(name, SAMPLE_SECONDS, rust, ours));
    }

    /// The same with one run a sample, for operations that are many and may take long.
    pub fn compare_once(&self, name: &str, operations: usize, rust: impl FnMut() -> u64, ours: impl FnMut() -> u64) {
        self.print(name, operations, self.measured(name, 0.0, rust, ours));
    }

    fn print(&self, name: &str, operations: usize, measured: Option<(f64, f64, f64)>) {
        if let Some((first, second, ratio)) = measured {
            let scale = 1e9 / operations as f64;
            println!("{name:<48}{:>10.2}{:>10.2}{ratio:>8.2}", first * scale, second * scale);
        }
    }

    /// Each side writes so many bytes; MB/s of each.
    pub fn rates(&self, name: &str, bytes: u64, rust: impl FnMut() -> u64, ours: impl FnMut() -> u64) {
        if let Some((first, second, ratio)) = self.measured(name, SAMPLE_SECONDS, rust, ours) {
            let megabytes = bytes as f64 / 1e6;
            println!("{name:<48}{:>5.0} MB/s{:>5.0} MB/s{ratio:>8.2}", megabytes / first, megabytes / second);
        }
    }

    /// The seconds of each side, and ours over the Rust's, in samples of at least so many of the Rust's; None where the case isn't
    /// wanted.
    fn measured(
        &self,
        name: &str,
        sample: f64,
        mut rust: impl FnMut() -> u64,
        mut ours: impl FnMut() -> u64,
    ) -> Option<(f64, f64, f64)> {
        if !self.wants(name) {
            return None;
        }
        let (expected, found) = (rust(), ours());
        if expected != found {
            println!("{name}: the results differ, so nothing is timed");
            std::process::exit(1);
        }
        let mut times = 1;
        while sample > 0.0 && seconds(times, &mut rust) < sample {
            times *= 2;
        }
        let (mut first, mut second, mut ratios) = (Vec::new(), Vec::new(), Vec::new());
        for round in 0..self.rounds {
            // In turn, so that what disturbs the machine disturbs both alike.
            let (a, b) = if round % 2 == 0 {
                let a = seconds(times, &mut rust);
                (a, seconds(times, &mut ours))
            } else {
                let b = seconds(times, &mut ours);
                (seconds(times, &mut rust), b)
            };
            first.push(a);
            second.push(b);
            ratios.push(b / a);
        }
        Some((middle(first) / times as f64, middle(second) / times as f64, middle(ratios)))
    }
}
