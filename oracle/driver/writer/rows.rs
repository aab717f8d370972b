// Bunches in a row into one packet until one finds no room, then the closing call.

use super::*;

#[derive(Clone)]
pub struct Row {
    pub bunches: Vec<Bunch>,
    /// What is lent.
    pub packet: Vec<u8>,
}

#[derive(Default, PartialEq)]
pub struct Written {
    /// Each call's answer, in order.
    pub words: Vec<Words>,
    /// How many bunches the closed packet holds, and its bytes.
    pub held: usize,
    pub bytes: usize,
    /// How often it was closed. Where the bunches leave no room for the end mark, the last one is given up.
    pub closings: usize,
}

/// The row by whoever answers the calls.
pub fn write(row: &Row, packet: &mut [u8], mut called: impl FnMut(Option<&Bunch>, &mut [u8], u64) -> Words) -> Written {
    let mut written = Written::default();
    let mut ends = vec![0];
    for bunch in &row.bunches {
        let answer = called(Some(bunch), packet, ends[ends.len() - 1]);
        written.words.push(answer);
        if answer[0] != 0 {
            break;
        }
        ends.push(answer[1]);
    }
    while let Some(at) = ends.pop() {
        let answer = called(None, packet, at);
        written.words.push(answer);
        written.closings += 1;
        if answer[0] == 0 {
            written.held = ends.len();
            written.bytes = (answer[1] / 8) as usize;
            break;
        }
    }
    written
}

#[cfg(ours)]
#[derive(Default, PartialEq)]
pub struct Answer {
    pub written: Written,
    /// Every byte of the lent packet afterwards.
    pub packet: Vec<u8>,
    /// What the Rust's reader and ours read of the closed packet.
    pub read: [Option<Vec<Bunch>>; 2],
    pub damage: Option<&'static str>,
}
