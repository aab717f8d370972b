// Compares ours with the expected answer, counts, and at the first difference shrinks the input and prints it.

use std::cell::Cell;
use std::panic::{AssertUnwindSafe, catch_unwind};
use std::time::Instant;

/// How an input and its answer are shown, and what simpler inputs there are.
pub trait Shown: Sized {
    type Answer;

    /// Simpler inputs to try, the simplest first. Each must be smaller by some measure, so that shrinking ends.
    fn simpler(&self) -> Vec<Self>;
    /// Lines, each ended.
    fn input_in_words(&self) -> String;
    fn answer_in_words(&self, answer: &Self::Answer) -> String;
}

pub trait Case: Clone + Shown<Answer: Default + PartialEq> {
    /// The ways to answer that aren't refusals.
    const CASES: &[&str];
    /// Each call with all the ways in which it answers, as the summary names them.
    const MET: &[(&str, &str)];

    /// What the Rust answers or, outside its domain, document 01.
    fn expected(&self, answer: &mut Self::Answer);
    /// `room` is memory kept from call to call, for what ours is lent.
    fn ours(&self, answer: &mut Self::Answer, room: &mut Vec<u8>);
    fn call(&self) -> usize;
    fn name(call: usize) -> &'static str;
    /// 0 or the refusal's number, and with 0 which of CASES it is.
    fn told(answer: &Self::Answer) -> (u64, u64);

    /// Which of the ways to answer this is: below OUTCOMES, and what it is called.
    fn outcome(answer: &Self::Answer) -> usize {
        match Self::told(answer) {
            (0, case) => FIRST_CASE + case as usize,
            (number, _) => number as usize,
        }
    }

    fn outcome_name(outcome: usize) -> String {
        match outcome.checked_sub(FIRST_CASE) {
            Some(case) => Self::CASES[case].into(),
            None => format!("refusal {outcome}"),
        }
    }
}

/// Outcomes from here on are cases, those below refusals.
const FIRST_CASE: usize = 20;

const OUTCOMES: usize = 32;

pub struct Comparing<C: Case> {
    expected: C::Answer,
    ours: C::Answer,
    room: Vec<u8>,
    panicked: bool,
    /// Nothing is printed but what differs.
    quiet: bool,
    /// For each call, how often it was compared with each outcome.
    counts: Vec<[u64; OUTCOMES]>,
    stage: (&'static str, u64, Instant),
}

impl<C: Case> Comparing<C> {
    pub fn new() -> Self {
        Self {
            expected: Default::default(),
            ours: Default::default(),
            room: Vec::new(),
            panicked: false,
            quiet: false,
            counts: Vec::new(),
            stage: ("", 0, Instant::now()),
        }
    }

    pub fn compared(&mut self, case: &C) -> &C::Answer {
        if self.differs(case) {
            self.report(case);
        }
        let call = case.call();
        if call >= self.counts.len() {
            self.counts.resize(call + 1, [0; OUTCOMES]);
        }
        self.counts[call][C::outcome(&self.expected)] += 1;
        &self.expected
    }

    fn differs(&mut self, case: &C) -> bool {
        let _watched = Watched::new(case);
        // A panic of the Rust on its own domain would be a finding, and is shown as a difference.
        let asked = catch_unwind(AssertUnwindSafe(|| case.expected(&mut self.expected)));
        self.panicked = asked.is_err();
        case.ours(&mut self.ours, &mut self.room);
        self.panicked || self.expected != self.ours
    }

    fn show(&mut self, title: &str, case: &C) {
        self.differs(case);
        print!("{title}\n{}", case.input_in_words());
        if self.panicked {
            println!("  expected  the Rust panicked");
        } else {
            println!("  expected  {}", case.answer_in_words(&self.expected));
        }
        println!("  ours      {}", case.answer_in_words(&self.ours));
    }

    fn report(&mut self, found: &C) -> ! {
        let mut smallest = found.clone();
        while let Some(next) = smallest.simpler().into_iter().find(|case| self.differs(case)) {
            smallest = next;
        }
        self.show("DIFFERENCE, the smallest input that still differs", &smallest);
        self.show("as it was found", found);
        std::process::exit(1);
    }

    pub fn say(&self, line: &str) {
        if !self.quiet {
            println!("  {line}");
        }
    }

    /// Names the inputs that follow; prints how many the stage before had.
    pub fn stage(&mut self, name: &'static str) {
        let total = self.total();
        let (before, from, started) = self.stage;
        if !before.is_empty() {
            self.say(&format!("{before}: {} inputs, {:.1} s", total - from, started.elapsed().as_secs_f64()));
        }
        self.stage = (name, total, Instant::now());
    }

    pub fn be_quiet(&mut self) {
        self.quiet = true;
    }

    pub fn total(&self) -> u64 {
        self.counts.as_flattened().iter().sum()
    }

    /// A call's outcomes that were met, each with how often.
    fn met(counts: &[u64; OUTCOMES]) -> impl Iterator<Item = (String, u64)> {
        let met = counts.iter().enumerate().filter(|(_, count)| **count > 0);
        met.map(|(outcome, &count)| (C::outcome_name(outcome), count))
    }

    pub fn summary(&mut self) {
        self.stage("");
        for (call, counts) in self.counts.iter().enumerate() {
            let total: u64 = counts.iter().sum();
            if total > 0 {
                let outcomes: Vec<_> = Self::met(counts).map(|(name, count)| format!("{name} {count}")).collect();
                println!("{:<32}{total:>12}: {}", C::name(call), outcomes.join(", "));
            }
        }
        println!("{:<32}{:>12}", "total", self.total());
    }

    /// That each call was met with every outcome that it has, and with no other.
    pub fn assert_met(&self) {
        let calls = self.counts.iter().enumerate().filter(|(_, counts)| counts.iter().sum::<u64>() > 0);
        let met: Vec<_> = calls.map(|(call, counts)| (C::name(call), Vec::from_iter(Self::met(counts).map(|(name, _)| name)).join(", "))).collect();
        for &(name, outcomes) in C::MET {
            let found = met.iter().find(|(call, _)| *call == name).map_or("nothing", |(_, found)| found);
            assert!(found == outcomes, "{name} was met with {found}, and not with {outcomes}");
        }
        assert!(met.len() == C::MET.len(), "a call is met that the list of outcomes lacks");
    }
}

// A crash inside ours ends the process, so the input under way is kept where the signal's handler can print it.
thread_local! {
    static UNDER_WAY: Cell<(*const (), fn(*const ()))> = const { Cell::new((std::ptr::null(), nothing)) };
}

fn nothing(_: *const ()) {}

fn print_case<C: Case>(case: *const ()) {
    let case = unsafe { &*case.cast::<C>() };
    print!("CRASH\n{}", case.input_in_words());
}

struct Watched;

impl Watched {
    #[inline]
    fn new<C: Case>(case: &C) -> Self {
        UNDER_WAY.set((std::ptr::from_ref(case).cast(), print_case::<C>));
        Self
    }
}

impl Drop for Watched {
    #[inline]
    fn drop(&mut self) {
        UNDER_WAY.set((std::ptr::null(), nothing));
    }
}

unsafe extern "C" {
    fn signal(number: i32, handler: usize) -> usize;
    fn _exit(status: i32) -> !;
}

extern "C" fn crashed(number: i32) {
    // Printing can fail too; the second time the process dies as it would have.
    unsafe { signal(number, 0) };
    let (case, print) = UNDER_WAY.get();
    print(case);
    println!("signal {number}");
    unsafe { _exit(1) }
}

/// Prints the input under way when the process is about to die.
pub fn watch_for_crashes() {
    std::panic::set_hook(Box::new(|why| {
        // While a case is under way the panic is the Rust's, and is reported as a difference.
        if UNDER_WAY.get().0.is_null() {
            println!("the driver panicked: {why}");
        }
    }));
    for number in [4, 6, 7, 8, 11] {
        unsafe { signal(number, crashed as extern "C" fn(i32) as usize) };
    }
}
