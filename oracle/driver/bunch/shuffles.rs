// Demand 3 on real memory (crates/claims_isolation/specs): a list of calls for each channel, run channel after channel and then in other
// orders that keep each list. Each call must give the same answer and output bytes, and each channel hold the same in the end.

use super::memory::{self, Place};
use super::{Answer, Call, Case, streams};
use crate::compare::Comparing;
use crate::header::{FINAL, INITIAL, RELIABLE, SEQUENCE};
use crate::random::Random;
use std::collections::BTreeSet;

/// The buffered bits of a channel by itself, by which its calls are drawn.
const ALONE: u64 = 3_000;

/// What a call is compared by: without the live count and the total.
#[derive(PartialEq)]
struct Told {
    words: Vec<u64>,
    output: Vec<u8>,
}

fn told(answer: &Answer) -> Told {
    let mut words = answer.words.clone();
    words.drain(2..4);
    Told { words, output: answer.output.clone() }
}

/// What a channel holds, wherever it stands.
type Held = Option<(Place, Vec<u8>)>;

fn held(case: &Case, ch_index: u32) -> Held {
    let slot = case.memory.channels[..case.accumulator.active].binary_search(&ch_index).ok()?;
    let bytes = |place: &Place| place[0].div_ceil(8) as usize;
    let at = case.memory.places[..slot].iter().map(bytes).sum::<usize>();
    let place = case.memory.places[slot];
    Some((place, case.memory.arena[at..at + bytes(&place)].to_vec()))
}

/// A channel's calls, of which only the arguments count.
struct List {
    ch_index: u32,
    calls: Vec<Case>,
    /// The takes that hand out a whole chain: the call's number, and what is handed out.
    chains: Vec<(usize, Told)>,
}

#[derive(PartialEq)]
struct Outcome {
    /// For each list, what its calls say.
    told: Vec<Vec<Told>>,
    held: Vec<Held>,
}

/// A channel alone: its next call mostly continues what it holds.
struct Alone<'a> {
    random: &'a mut Random,
    state: Case,
    list: List,
}

impl<'a> Alone<'a> {
    fn new(random: &'a mut Random, ch_index: u32) -> Self {
        let mut state = Case::new(1, ALONE, [1, 1, memory::smallest_arena(1, ALONE)]);
        state.ch_index = ch_index;
        Self { random, state, list: List { ch_index, calls: Vec::new(), chains: Vec::new() } }
    }

    fn call(&mut self) -> Answer {
        let mut answer = Answer::default();
        super::expected::expected(&self.state, &mut answer);
        self.list.calls.push(self.state.clone());
        self.state.go_on(&answer);
        answer
    }

    fn any(&mut self) {
        loop {
            streams::draw(self.random, &[self.list.ch_index], &mut self.state);
            // A drain is no channel's call.
            if self.state.call != Call::DrainUnfinished && self.state.bits <= 16_384 {
                break;
            }
        }
        self.call();
    }

    /// "an unbroken chain … with no error flag, aligned before its end, on a channel holding nothing, then taken with room for it"
    fn chain(&mut self) {
        let count = 1 + self.random.below(5);
        let (reliable, first) = (self.random.below(2), self.random.next() & 0xffff_ffff);
        let (mut bytes, mut bits, mut header) = (Vec::new(), 0, [0; 20]);
        for index in 0..count {
            let case = &mut self.state;
            case.call = Call::AddFragment;
            case.header = [0; 20];
            case.header[0] = self.random.below(1_000);
            case.header[1] = self.list.ch_index.into();
            case.header[RELIABLE] = reliable;
            case.header[INITIAL] = u64::from(index == 0);
            case.header[FINAL] = u64::from(index == count - 1);
            case.header[SEQUENCE] = (first + index) & 0xffff_ffff;
            case.bits = if index == count - 1 { self.random.below(70) } else { 8 * self.random.below(9) };
            case.payload = vec![0; case.bits.div_ceil(8) as usize + self.random.below(2) as usize];
            self.random.fill(&mut case.payload);
            streams::lend(case, self.random.below(3) as usize, 0);
            if index == 0 {
                header = case.header;
            }
            bits += case.bits;
            let part = case.bits.div_ceil(8) as usize;
            bytes.extend_from_slice(&case.payload[..part]);
            if case.bits % 8 != 0 {
                bytes[bits as usize / 8] &= (1 << (case.bits % 8)) - 1;
            }
            self.call();
        }
        streams::made(self.random, Call::TakeCompleted, &mut self.state);
        streams::lend(&mut self.state, bytes.len() + self.random.below(3) as usize, 0);
        let mut output = self.state.output.clone();
        output[..bytes.len()].copy_from_slice(&bytes);
        let mut words = vec![0, 0, 1];
        words.extend(header);
        words.push(bits);
        self.list.chains.push((self.list.calls.len(), Told { words, output }));
        self.call();
    }

    /// A channel that holds something is emptied before a chain, as the demand asks.
    fn emptied(&mut self) {
        streams::made(self.random, Call::RetireChannel, &mut self.state);
        let most: u64 = self.list.calls.iter().map(|call| call.bits.div_ceil(8)).sum();
        streams::lend(&mut self.state, most as usize, 0);
        self.call();
    }

    fn list(mut self) -> List {
        for _ in 0..1 + self.random.below(3) {
            if self.random.below(3) == 0 {
                self.emptied();
                self.chain();
            } else {
                for _ in 0..self.random.below(8) {
                    self.any();
                }
            }
        }
        self.list
    }
}

#[derive(Default)]
struct Counts {
    lists: u64,
    orders: u64,
    chains: u64,
    /// Of the orders under limits that are too small, how many gave something else.
    narrow: [u64; 2],
}

pub struct Shuffles<'a> {
    comparing: &'a mut Comparing<Case>,
    random: &'a mut Random,
    counts: Counts,
}

/// "running channel after channel"
fn in_turn(lists: &[List]) -> Vec<usize> {
    lists.iter().enumerate().flat_map(|(index, list)| vec![index; list.calls.len()]).collect()
}

impl<'a> Shuffles<'a> {
    pub fn new(comparing: &'a mut Comparing<Case>, random: &'a mut Random) -> Self {
        Self { comparing, random, counts: Counts::default() }
    }

    /// "every shuffle that keeps each list's order"
    fn shuffled(&mut self, lists: &[List]) -> Vec<usize> {
        let mut order = in_turn(lists);
        for index in (1..order.len()).rev() {
            order.swap(index, self.random.below(index as u64 + 1) as usize);
        }
        order
    }

    /// "Each call finds table and arena as the call before left them"
    fn run(&mut self, opening: &Case, lists: &[List], order: &[usize]) -> Outcome {
        let mut state = opening.clone();
        let mut said: Vec<Vec<Told>> = lists.iter().map(|_| Vec::new()).collect();
        for &list in order {
            let mut case = lists[list].calls[said[list].len()].clone();
            case.accumulator = state.accumulator;
            case.memory = std::mem::take(&mut state.memory);
            let answer = self.comparing.compared(&case);
            said[list].push(told(answer));
            case.go_on(answer);
            state = case;
        }
        let held = lists.iter().map(|list| held(&state, list.ch_index)).collect();
        Outcome { told: said, held }
    }

    fn orders(&mut self, opening: &Case, lists: &[List]) {
        let expected = self.run(opening, lists, &in_turn(lists));
        for _ in 0..4 {
            let order = self.shuffled(lists);
            let found = self.run(opening, lists, &order);
            assert!(found == expected, "demand 3: the order {order:?} gives something else than channel after channel");
            for (list, told) in lists.iter().zip(&found.told) {
                for (call, whole) in &list.chains {
                    assert!(told[*call] == *whole, "demand 3: a chain comes out joined");
                    self.counts.chains += 1;
                }
            }
            self.counts.orders += 1;
        }
    }

    /// The same under limits that are too small: where no order differed, nothing would have been compared.
    fn narrow(&mut self, kind: usize, opening: &Case, lists: &[List]) {
        let expected = self.run(opening, lists, &in_turn(lists));
        let order = self.shuffled(lists);
        self.counts.narrow[kind] += u64::from(self.run(opening, lists, &order) != expected);
    }

    /// Limits and memory that are just enough: as many channels as lists, as many bits as all payloads.
    pub fn round(&mut self) {
        let count = 2 + self.random.below(5);
        let channels = BTreeSet::from_iter(crate::packet::streams::channels(self.random, count));
        let lists: Vec<List> = channels.iter().map(|&channel| Alone::new(self.random, channel).list()).collect();
        let bits = lists.iter().flat_map(|list| &list.calls).map(|call| call.bits).sum();
        let opening = |active: usize, bits: u64| Case::new(active, bits, [active, active, memory::smallest_arena(active, bits)]);
        let count = lists.len();
        self.orders(&opening(count, bits), &lists);
        self.narrow(0, &opening(count - 1, bits), &lists);
        self.narrow(1, &opening(count, bits / 3), &lists);
        self.counts.lists += count as u64;
    }

    /// And of the orders under limits that are too small, how many gave something else.
    pub fn print(self) -> [u64; 2] {
        let Counts { lists, orders, chains, narrow: [active, buffered] } = self.counts;
        self.comparing.say(&format!("demand 3: {lists} lists in {orders} other orders, {chains} chains taken; every order gave the same"));
        self.comparing.say(&format!("with limits too small, orders that gave something else: active {active}, buffered bits {buffered}"));
        [active, buffered]
    }
}
