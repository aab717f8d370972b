// Compares our library with the Rust, call by call; without our library it records the Rust's answers.
//
//   driver [--long] [--seed N] [--share N] [--part NAME]     built with --cfg ours, --cfg bunch, or both
//   driver --record N                                        built without
//
// `bunch` is the accumulator and its library, `ours` all the others.

#![cfg_attr(not(all(ours, bunch)), allow(dead_code))]

#[cfg(any(ours, bunch))]
mod abi;
mod bitio;
mod bits;
mod bunch;
#[cfg(any(ours, bunch))]
mod compare;
mod field;
mod header;
#[cfg(any(ours, bunch))]
mod lent;
#[cfg(not(ours))]
mod line;
mod packet;
mod random;
#[cfg(any(ours, bunch))]
mod share;
mod shrink;
mod text;
mod window;
mod writer;

const PARTS: [&str; 5] = ["bitio", "field", "packet", "writer", "bunch"];

struct Given {
    long: bool,
    seed: u64,
    /// One input in so many is compared.
    share: u64,
    /// All parts where none is named.
    part: Option<String>,
    #[cfg_attr(any(ours, bunch), allow(dead_code))]
    record: usize,
}

fn given() -> Option<Given> {
    let mut given = Given { long: false, seed: 1, share: 1, part: None, record: 0 };
    let mut words = std::env::args().skip(1);
    while let Some(word) = words.next() {
        match word.as_str() {
            "--long" => given.long = true,
            "--seed" => given.seed = words.next()?.parse().ok()?,
            "--share" => given.share = words.next()?.parse().ok().filter(|&share| share > 0)?,
            "--part" => given.part = Some(words.next().filter(|part| PARTS.contains(&part.as_str()))?),
            "--record" => given.record = words.next()?.parse().ok()?,
            _ => return None,
        }
    }
    Some(given)
}

/// A part's inputs first by a seed and a share of their own, always the same, in which every answer that a call can give must be met:
/// so this hangs on no run's seed or share. Then the run's.
#[cfg(any(ours, bunch))]
macro_rules! part {
    ($part:ident, $given:expr) => {
        if $given.part.as_deref().is_none_or(|one| one == stringify!($part)) {
            $part::inputs::Inputs::new(1, ALWAYS, false).assert_met();
            $part::inputs::Inputs::new($given.seed, $given.share, $given.long).run();
        }
    };
}

/// One input in so many.
#[cfg(any(ours, bunch))]
const ALWAYS: u64 = 100;

#[cfg(any(ours, bunch))]
fn run(given: &Given) {
    compare::watch_for_crashes();
    #[cfg(ours)]
    {
        part!(bitio, given);
        part!(field, given);
        part!(packet, given);
        part!(writer, given);
    }
    #[cfg(bunch)]
    part!(bunch, given);
}

#[cfg(not(any(ours, bunch)))]
fn run(given: &Given) {
    bitio::records::print(given.record);
    field::records::print(given.record * 2 / 5);
    packet::records::print(given.record / 2);
    writer::records::print(given.record / 5);
    bunch::records::print(given.record * 3 / 10);
}

fn main() {
    let Some(given) = given() else {
        println!("driver [--long] [--seed N] [--share N] [--part NAME] | driver --record N");
        std::process::exit(2);
    };
    run(&given);
}
