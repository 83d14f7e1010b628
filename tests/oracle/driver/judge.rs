//! What a call that names faults answers over any store, by the model of documents 01 and 02. Where the Rust has an answer, too, it must agree.

use harness::{capacity, Answer, By, Datom, Node, Oracle, Order, Pages, Verdict, Which, NONE};

use crate::model::{batch_fault, Cursor, Looked, Model, Step, CURSOR_BYTES};
use crate::names::{Damaged, Fault, Naming};
use crate::recording::{Question, Stored};

/// How the Rust ends a merge that meets an equal datom.
const EQUAL_MET: &str = "Encountered duplicate datom in htree.";

const PATCHED: Oracle = Oracle { which: Which::Patched, by: By::Rule };

const BAD_STORE: u64 = 1;
const REPEATED: u64 = 6;
const DAMAGED: u64 = 7;
const BAD_BOUND: u64 = 10;
const BAD_ORDER: u64 = 13;
const NOT_HELD: u64 = 16;
const ENDED: u64 = 32;
const UNSOUND: u64 = 33;

/// More bytes than anybody lends as a store or as a heap.
const MOST_BYTES: u128 = 1 << 40;

pub struct Judged {
    pub answer: Answer,
    /// What the answer names, exactly where its number is 7 or 33.
    pub named: Option<Damaged>,
}

impl Judged {
    fn quiet(number: u64, root: u64, detail: u64) -> Judged {
        Judged { answer: Answer { root, ..Answer::told(number, detail) }, named: None }
    }

    fn naming(number: u64, root: u64, damaged: Damaged) -> Judged {
        Judged { answer: Answer { root, ..damaged.told(number) }, named: Some(damaged) }
    }
}

impl Question {
    pub fn naming(&self) -> Naming {
        match self {
            Question::Check => Naming::Check,
            Question::Start { .. } => Naming::Start,
            Question::Step { .. } => Naming::Step,
            Question::Held { .. } => Naming::Held,
            Question::InsertNamed { .. } => Naming::InsertNamed,
        }
    }
}

/// The number that a record is refused by, whatever is lent beside it: "straight after 1".
pub fn record_fault(stored: &Stored) -> Option<u64> {
    let Stored { page_size, page_count, heap_length, order } = *stored;
    let is_too_long = page_count as u128 * page_size as u128 > MOST_BYTES || heap_length as u128 > MOST_BYTES;
    if capacity(page_size as usize).is_none() || is_too_long || heap_length % 8 != 0 {
        Some(BAD_STORE)
    } else if Order::of_number(order).is_none() {
        Some(BAD_ORDER)
    } else {
        None
    }
}

/// The judge's answer; an error for what it has no answer to, as for an insert that would be Done. The store's record is refused, or is true.
pub fn judge(stored: &Stored, pages: &Pages, root: u64, question: &Question) -> Result<Judged, String> {
    let model = Model { pages };
    if let Some(number) = record_fault(stored) {
        return Ok(Judged::quiet(number, root, 0));
    }
    if *stored != Stored::of(pages) {
        return Err(format!("{:?} is not the store's, and not refused whatever is lent", stored));
    }
    if let Some(judged) = given_wrong(pages, root, question) {
        return Ok(judged);
    }
    match question {
        Question::Check => check(pages, root),
        Question::Start { lower, upper } => Ok(match model.start(root, lower, upper) {
            Ok(_) => Judged::quiet(0, 0, 0),
            Err(damaged) => Judged::naming(DAMAGED, root, damaged),
        }),
        Question::Step { cursor } if root == 0 && cursor.len() == CURSOR_BYTES => Ok(match model.step(&Cursor::of_bytes(cursor)) {
            Step::Yields(..) => Judged::quiet(0, 0, 0),
            Step::Ended => Judged::quiet(ENDED, 0, 0),
            Step::Refused(damaged) | Step::Lost(damaged) => Judged::naming(DAMAGED, 0, damaged),
        }),
        Question::Step { cursor } => Err(format!("a step with root {} and a cursor of {} bytes", root, cursor.len())),
        Question::Held { batch } => Ok(match model.first_not_held(root, batch) {
            Ok(None) => Judged::quiet(0, 0, 0),
            looked => lookup(looked, NOT_HELD, root).expect("an index or a fault"),
        }),
        Question::InsertNamed { batch } => match lookup(model.first_met(root, batch), REPEATED, root) {
            Some(judged) => Ok(judged),
            None => equal_met(pages, root, batch),
        },
    }
}

/// What is wrong with bounds or batch by themselves, constants of a heap that is not as it was.
fn given_wrong(pages: &Pages, root: u64, question: &Question) -> Option<Judged> {
    match question {
        Question::Start { lower, upper } if ![lower, upper].into_iter().all(|bound| pages.heap().is_bound(bound)) => {
            Some(Judged::quiet(BAD_BOUND, root, 0))
        }
        Question::Held { batch } | Question::InsertNamed { batch } => {
            batch_fault(pages.order(), pages.heap(), batch).map(|(number, index)| Judged::quiet(number, root, index))
        }
        Question::Check | Question::Start { .. } | Question::Step { .. } => None,
    }
}

/// The answer of a lookup that found what it sought, or was lost.
fn lookup(looked: Looked, number: u64, root: u64) -> Option<Judged> {
    match looked {
        Ok(None) => None,
        Ok(Some(index)) => Some(Judged::quiet(number, root, index)),
        Err(damaged) => Some(Judged::naming(DAMAGED, root, damaged)),
    }
}

/// An insert that its lookups let through: the Rust meets an equal datom in the page that it read last. It tests no level, so that a tree
/// that is not sound is none for it.
fn equal_met(pages: &Pages, root: u64, batch: &[Datom]) -> Result<Judged, String> {
    if root == NONE || (Model { pages }).check(root).is_some() {
        return Err("an insert that comes to writing, at no tree or one that is not sound".to_string());
    }
    match PATCHED.insert(&mut pages.clone(), root, batch) {
        Err(panic) if panic.message == EQUAL_MET => {
            Ok(Judged::naming(DAMAGED, root, Damaged { page: panic.last_read, fault: Fault::EqualDatoms }))
        }
        Err(panic) => Err(panic.message),
        Ok(_) => Err("an insert that is done".to_string()),
    }
}

/// The Rust's check, too, is asked where it has a rule for every page.
fn check(pages: &Pages, root: u64) -> Result<Judged, String> {
    let found = Model { pages }.check(root);
    if root != NONE && (0..pages.count()).all(|page| is_readable(pages, page)) {
        let by_rust = match PATCHED.check(pages, root) {
            Verdict::Sound => None,
            // The message names bounds and a page, or the two levels that it compared.
            Verdict::Unsound(page, message) if message.contains("Violation at page") => Some(Damaged { page, fault: Fault::OutOfBounds }),
            Verdict::Unsound(page, _) => Some(Damaged { page, fault: Fault::WrongLevel }),
        };
        if found != by_rust {
            return Err(format!("the check finds {:?} by the rules and {:?} by the Rust", found, by_rust));
        }
    }
    Ok(found.map_or(Judged::quiet(0, 0, 0), |damaged| Judged::naming(UNSOUND, 0, damaged)))
}

pub fn is_readable(pages: &Pages, page: u64) -> bool {
    pages.page(page).is_some_and(|bytes| Node::read(bytes, page, pages.order(), pages.heap()).is_ok())
}
