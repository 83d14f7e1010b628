//! What was compared at one page size.

use std::fmt;

use harness::Order;

use crate::model::Step;
use crate::names::{Names, Naming};

/// How many of the refusals 1 to 13 there are, and Done as 0.
pub const NUMBERS: usize = 14;

const BAD_ORDER: u64 = 13;

/// The calls that take the store's record. A fetch does not look at its order.
#[derive(Clone, Copy, Debug, PartialEq)]
pub enum Asking {
    Initialise,
    Insert,
    InsertNamed,
    Held,
    Check,
    Start,
    Step,
    Fetch,
}

impl Asking {
    pub const IN_ORDER: [Asking; 7] =
        [Asking::Initialise, Asking::Insert, Asking::InsertNamed, Asking::Held, Asking::Check, Asking::Start, Asking::Step];
}

#[derive(Default)]
pub struct Tally {
    pub histories: u64,
    pub batches: u64,
    pub initialised: u64,
    pub branched: u64,
    pub datoms: u64,
    pub pages: u64,
    /// Roots by height, from 1 on.
    pub heights: [u64; 8],
    /// Batches on which the plain Rust answered the same.
    pub by_plain: u64,
    /// Histories in which it lost a datom, and in which it panicked.
    pub plain_lost: u64,
    pub plain_panicked: u64,
    /// Batches sent again, at the root they led to and at later ones.
    pub resent_there: u64,
    pub resent_later: u64,
    /// Batches with one shared datom, or with those of another branch.
    pub shared: u64,
    /// Stores cut at a page of a batch.
    pub cuts: u64,
    pub answers: [u64; NUMBERS],
    /// How often each call was refused for an order that there is not.
    pub bad_orders: [u64; Asking::IN_ORDER.len()],
    /// Batches in stores of each order, and readings of a store in each order that it was not written in.
    pub orders: [u64; Order::ALL.len()],
    pub other_orders: [u64; Order::ALL.len()],
    /// Listings, the datoms that they gave, and how many of them the Rust gave too.
    pub listings: u64,
    pub listed: u64,
    pub listed_by_rust: u64,
    /// Steps that were compared with the rules, cursor and all: yielding, ended, and lost while advancing; how many of all these and of
    /// those that are Damaged were from made-up cursors.
    pub yielded: u64,
    pub ended: u64,
    pub lost_advancing: u64,
    pub made_up: u64,
    /// Batches that were asked for.
    pub held: u64,
    pub not_held: u64,
    pub sound: u64,
    /// What was named by a call that is Damaged or Unsound.
    pub names: Names,
    /// Inserts, refused or not, beside which the entry that names was called.
    pub named_beside: u64,
    pub fetches: u64,
    pub damaged_readable: u64,
    pub damaged_unreadable: u64,
    /// Of the pages that cannot be read: with more than one rule broken, and of another level besides.
    pub broken_twice: u64,
    pub broken_elsewhere: u64,
    /// Inserts that met a page which cannot be read, or an equal datom, when writing had begun; and the pages written until then.
    pub lost_while_writing: u64,
    pub equal_while_writing: u64,
    pub pages_before_damage: u64,
    /// Batches that went in with a value that names a constant.
    pub with_long: u64,
    /// Constants that were appended, and datoms that were sent or asked for by another word of equal content.
    pub appended: u64,
    pub other_words: u64,
    /// Heaps with a constant that is not as it was laid, and heaps that were said to have another length.
    pub spoiled: u64,
    pub other_lengths: u64,
}

impl Tally {
    pub fn judge(&mut self, step: &Step) {
        match step {
            Step::Yields(..) => self.yielded += 1,
            Step::Ended => self.ended += 1,
            Step::Refused(damaged) => self.names.add(Naming::Step, damaged.fault),
            Step::Lost(damaged) => {
                self.lost_advancing += 1;
                self.names.add(Naming::Step, damaged.fault);
            }
        }
    }

    /// An insert that is made by the entry that names, too, is one.
    pub fn answered(&mut self, asking: Asking, number: u64) {
        if asking != Asking::InsertNamed {
            self.answers[number as usize] += 1;
        }
        if number == BAD_ORDER {
            self.bad_orders[asking as usize] += 1;
        }
    }

    fn readings(&self, out: &mut fmt::Formatter) -> fmt::Result {
        writeln!(
            out, "  listings: {} ({} by the Rust too), {} datoms; {} fetches", self.listings, self.listed_by_rust, self.listed, self.fetches,
        )?;
        writeln!(
            out, "  steps by the rules: {} yield, {} ended, {} lost while advancing; {} from made-up cursors",
            self.yielded, self.ended, self.lost_advancing, self.made_up,
        )?;
        writeln!(out, "  asked for: {} batches held, {} not; checks: {} sound", self.held, self.not_held, self.sound)?;
        writeln!(
            out, "  damaged pages: {} readable, {} not, {} of these by several rules and {} of another level too",
            self.damaged_readable, self.damaged_unreadable, self.broken_twice, self.broken_elsewhere,
        )?;
        writeln!(
            out, "  inserts refused while writing, after {} pages: {} by a page that cannot be read, {} by an equal datom",
            self.pages_before_damage, self.lost_while_writing, self.equal_while_writing,
        )?;
        writeln!(
            out, "  long values in {} batches; constants: {} appended, {} sent or asked for by another word, {} spoiled; {} other heap lengths",
            self.with_long, self.appended, self.other_words, self.spoiled, self.other_lengths,
        )?;
        writeln!(
            out, "  batches in the orders {:?}: {:?}; read in another than it was written in: {:?}; no such order, by {:?}: {:?}",
            Order::ALL, self.orders, self.other_orders, Asking::IN_ORDER, self.bad_orders,
        )
    }
}

impl fmt::Display for Tally {
    fn fmt(&self, out: &mut fmt::Formatter) -> fmt::Result {
        let heights: Vec<String> = self.heights.iter().map(u64::to_string).collect();
        let refusals: Vec<String> = (1..NUMBERS).map(|i| format!("{}: {}", i, self.answers[i])).collect();
        writeln!(
            out, "  {} histories, {} batches ({} initialised, {} at older roots), {} datoms, {} pages",
            self.histories, self.batches, self.initialised, self.branched, self.datoms, self.pages,
        )?;
        writeln!(out, "  roots of height 1, 2, ..: {}", heights.join(", "))?;
        writeln!(
            out, "  the plain Rust too: {} batches; it then lost a datom in {} histories and panicked in {}",
            self.by_plain, self.plain_lost, self.plain_panicked,
        )?;
        writeln!(
            out, "  sent again: {} at the root they led to, {} at later roots; {} with a shared datom; {} cuts of the store",
            self.resent_there, self.resent_later, self.shared, self.cuts,
        )?;
        self.readings(out)?;
        write!(out, "  refusals by number: {}; {} inserts by the entry that names too", refusals.join(", "), self.named_beside)
    }
}
