// Times the Rust and our library, case by case: nanoseconds per operation of each, and ours divided by the Rust's.
//
// Both sides read the same input, and must agree before they are timed. What is timed is what the program was built for: each part
// needs its library (bench/run).

#![cfg_attr(not(all(loops, singles, writes, bunch)), allow(dead_code))]

// The driver uses the rest of these.
#[cfg(any(singles, bunch))]
#[allow(dead_code)]
#[path = "../oracle/driver/abi.rs"]
mod abi;
#[cfg(singles)]
#[path = "../oracle/driver/bits.rs"]
mod bits;
#[cfg(bunch)]
mod chains;
#[cfg(any(bunch, singles))]
#[allow(dead_code)]
#[path = "../oracle/driver/header.rs"]
mod header;
mod inputs;
#[cfg(loops)]
mod loops;
#[cfg(singles)]
mod packets;
#[cfg(writes)]
mod pushers;
#[allow(dead_code)]
#[path = "../oracle/driver/random.rs"]
mod random;
#[cfg(singles)]
mod singles;
mod timing;
#[cfg(singles)]
mod walks;
#[cfg(writes)]
mod writes;

use timing::Timing;

fn given() -> Option<Timing> {
    let mut timing = Timing { rounds: 15, only: String::new() };
    let mut words = std::env::args().skip(1);
    while let Some(word) = words.next() {
        match word.as_str() {
            "--rounds" => timing.rounds = words.next()?.parse().ok().filter(|&rounds| rounds > 0)?,
            "--only" => timing.only = words.next()?,
            _ => return None,
        }
    }
    Some(timing)
}

fn main() {
    let Some(timing) = given() else {
        println!("bench [--rounds N] [--only TEXT]");
        std::process::exit(2);
    };
    timing.title();
    #[cfg(bunch)]
    chains::run(&timing, "first");
    #[cfg(loops)]
    loops::run(&timing);
    #[cfg(singles)]
    {
        singles::run(&timing);
        walks::run(&timing);
        packets::run(&timing);
    }
    #[cfg(writes)]
    writes::run(&timing);
    #[cfg(bunch)]
    chains::run(&timing, "last");
}
