//! Document 02, One: the names of the rules that a page can break, which call may give which, and how often each was judged.

use std::fmt;

use harness::{Answer, Rule};

/// Which rule was broken.
#[derive(Clone, Copy, Debug, PartialEq)]
pub enum Fault {
    /// The reader's own answer.
    Breaks(Rule),
    Missing,
    WrongLevel,
    EqualDatoms,
    OutOfBounds,
    PastCount,
    TooHigh,
    NothingLeft,
}

impl Fault {
    pub fn number(self) -> u64 {
        match self {
            Fault::Breaks(rule) => rule as u64,
            Fault::Missing => 8,
            Fault::WrongLevel => 9,
            Fault::EqualDatoms => 10,
            Fault::OutOfBounds => 11,
            Fault::PastCount => 12,
            Fault::TooHigh => 13,
            Fault::NothingLeft => 14,
        }
    }
}

/// A page, none for two of the names, and what is wrong with it: what 7 and Unsound carry.
#[derive(Clone, Copy, Debug, PartialEq)]
pub struct Damaged {
    pub page: u64,
    pub fault: Fault,
}

impl Damaged {
    /// The answer of a call that reads and names it.
    pub fn told(self, number: u64) -> Answer {
        Answer { pages: self.fault.number(), ..Answer::told(number, self.page) }
    }
}

/// The calls that name a fault.
#[derive(Clone, Copy, Debug, PartialEq)]
pub enum Naming {
    Start,
    Step,
    Held,
    Check,
    InsertNamed,
}

impl Naming {
    pub const ALL: [Naming; 5] = [Naming::Start, Naming::Step, Naming::Held, Naming::Check, Naming::InsertNamed];

    /// The numbers that a call may give besides those of the reader. A root is below the count, and the children of a readable page
    /// are below its own id: only the pages of a made-up cursor can be missing.
    fn beside_reader(self) -> &'static [u64] {
        match self {
            Naming::Start | Naming::Held => &[9],
            Naming::Step => &[8, 9, 10, 12, 13, 14],
            Naming::Check => &[9, 11],
            Naming::InsertNamed => &[9, 10],
        }
    }

    fn may_give(self, number: u64) -> bool {
        (1..8).contains(&number) || self.beside_reader().contains(&number)
    }
}

const WORDS: [&str; 14] = [
    "Level", "Count", "Form", "Order", "LeafChild", "LastChild", "ChildId", "Missing", "WrongLevel", "EqualDatoms", "OutOfBounds",
    "PastCount", "TooHigh", "NothingLeft",
];

/// How often each call gave each name.
#[derive(Default)]
pub struct Names([[u64; WORDS.len()]; Naming::ALL.len()]);

impl Names {
    pub fn add(&mut self, call: Naming, fault: Fault) {
        assert!(call.may_give(fault.number()), "{:?} cannot give {:?}", call, fault);
        self.0[call as usize][fault.number() as usize - 1] += 1;
    }

    pub fn add_all(&mut self, other: &Names) {
        let sums = self.0.iter_mut().flatten();
        sums.zip(other.0.iter().flatten()).for_each(|(sum, number)| *sum += number);
    }

    pub fn total(&self) -> u64 {
        self.0.iter().flatten().sum()
    }

    /// What a call can give and never gave.
    pub fn missing(&self) -> Vec<String> {
        let never = |&(call, i): &(Naming, usize)| call.may_give(i as u64 + 1) && self.0[call as usize][i] == 0;
        let all = Naming::ALL.into_iter().flat_map(|call| (0..WORDS.len()).map(move |i| (call, i)));
        all.filter(never).map(|(call, i)| format!("{} by {:?}", WORDS[i], call)).collect()
    }
}

impl fmt::Display for Names {
    fn fmt(&self, out: &mut fmt::Formatter) -> fmt::Result {
        let heads: Vec<String> = Naming::ALL.iter().map(|call| format!("{:>12}", format!("{:?}", call))).collect();
        write!(out, "  {:12}{}", "", heads.concat())?;
        for (i, word) in WORDS.iter().enumerate() {
            let cell = |call: Naming| if call.may_give(i as u64 + 1) { self.0[call as usize][i].to_string() } else { "-".to_string() };
            let cells: Vec<String> = Naming::ALL.iter().map(|&call| format!("{:>12}", cell(call))).collect();
            write!(out, "\n  {:12}{}", word, cells.concat())?;
        }
        Ok(())
    }
}
