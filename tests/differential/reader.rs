//! The library's calls that only read, each compared with the rules of documents 01 and 02.

use harness::{Answer, Datom, Pages, Random, NONE};

use crate::library::{bytes_of, datoms_of, Asked, Beside, Lent, RECORD_BYTES};
use crate::model::{batch_fault, Cursor, Looked, Model, Step, CURSOR_BYTES};
use crate::names::{Damaged, Naming};
use crate::tally::Tally;

/// A difference, in words.
pub type Difference = String;

/// So many steps at the front of a listing are compared with the rules, cursor and all.
const JUDGED: usize = 48;

/// Later on one in so many steps is.
const JUDGED_LATER: usize = 32;

/// A store and a heap that are lent to calls that read, and the same pages, order and constants for the rules. Of the heap more may be lent
/// than is in use.
pub struct Reader<'a> {
    pub store: &'a [u8],
    pub heap: &'a [u8],
    pub pages: &'a Pages,
    pub random: &'a mut Random,
    pub tally: &'a mut Tally,
}

impl<'a> Reader<'a> {
    pub fn asked(&self) -> Asked<'a> {
        let (page_size, page_count) = (self.pages.page_size() as u64, self.pages.count());
        let heap_length = self.pages.heap().bytes().len() as u64;
        let order = self.pages.order().number();
        let beside = Beside { heap: self.heap, page_size, page_count, heap_length, order, record: RECORD_BYTES };
        Asked { store: self.store, beside, area: 32 }
    }

    fn model(&self) -> Model<'a> {
        Model { pages: self.pages }
    }

    /// What a listing by steps gives. It ends by itself, is refused, or is left after so many steps.
    pub fn list(&mut self, root: u64, lower: &Datom, upper: &Datom, most: usize) -> Result<Vec<Datom>, Difference> {
        self.tally.listings += 1;
        let mut cursor = Lent::of_length(CURSOR_BYTES, self.random);
        let mut datom = Lent::of_length(32, self.random);
        let mut listed = Vec::new();
        if !self.start(root, lower, upper, &mut cursor)? {
            return Ok(listed);
        }
        while listed.len() < most {
            let is_judged = listed.len() < JUDGED || self.random.one_in(JUDGED_LATER);
            match self.step(&mut cursor, &mut datom, is_judged)? {
                Some(datom) => listed.push(datom),
                None => break,
            }
        }
        self.tally.listed += listed.len() as u64;
        Ok(listed)
    }

    /// Starts a listing; false if it is refused, and the cursor's bytes must then be as before.
    fn start(&mut self, root: u64, lower: &Datom, upper: &Datom, cursor: &mut Lent) -> Result<bool, Difference> {
        let before = cursor.content().to_vec();
        let is_good = [lower, upper].into_iter().all(|bound| self.pages.heap().is_bound(bound));
        let judged = self.model().start(root, lower, upper);
        let answer = self.asked().list_start(root, &bytes_of(&[*lower]), &bytes_of(&[*upper]), cursor, self.random)?;
        let (expected, kept) = match &judged {
            _ if !is_good => (Answer { root, ..Answer::told(10, 0) }, before),
            Ok(begun) => (Answer::told(0, 0), begun.bytes()),
            Err(damaged) => (Answer { root, ..damaged.told(7) }, before),
        };
        same("the start's answer", &answer, &expected)?;
        same("the start's cursor", &Cursor::of_bytes(cursor.content()), &Cursor::of_bytes(&kept))?;
        match judged {
            _ if !is_good => self.tally.answers[10] += 1,
            Err(damaged) => self.tally.names.add(Naming::Start, damaged.fault),
            Ok(_) => {}
        }
        Ok(is_good && judged.is_ok())
    }

    /// A step with any cursor, and the datom that it yields. Where it ends or is refused, both areas must be as before.
    pub fn step(&mut self, cursor: &mut Lent, datom: &mut Lent, is_judged: bool) -> Result<Option<Datom>, Difference> {
        let given = Cursor::of_bytes(cursor.content());
        let before = datom.content().to_vec();
        let answer = self.asked().list_step(cursor, datom, self.random)?;
        if is_judged {
            let judged = self.model().step(&given);
            self.tally.judge(&judged);
            let (expected, next, yielded) = match judged {
                Step::Yields(datom, next) => (Answer::told(0, 0), next, bytes_of(&[datom])),
                Step::Ended => (Answer::told(32, 0), given, before),
                Step::Refused(damaged) | Step::Lost(damaged) => (damaged.told(7), given, before),
            };
            same("the step's answer", &answer, &expected)?;
            same("the step's cursor", &Cursor::of_bytes(cursor.content()), &next)?;
            same("the step's datom", &datom.content(), &&yielded[..])?;
        }
        Ok(if answer.number == 0 { datoms_of(datom.content()).pop() } else { None })
    }

    /// The check's first fault, or none, as by the rules.
    pub fn check(&mut self, root: u64) -> Result<Option<Damaged>, Difference> {
        let judged = self.model().check(root);
        let answer = self.asked().check(root, self.random)?;
        let expected = judged.map_or(Answer::told(0, 0), |damaged| damaged.told(33));
        same("the check's answer", &answer, &expected)?;
        match judged {
            None => self.tally.sound += 1,
            Some(damaged) => self.tally.names.add(Naming::Check, damaged.fault),
        }
        Ok(judged)
    }

    /// The first datom of a batch that a tree does not hold, or none, or where the lookup is lost, as by the rules; nothing where the batch
    /// is refused by itself.
    pub fn held(&mut self, root: u64, batch: &[Datom]) -> Result<Option<Looked>, Difference> {
        let answer = self.asked().held(root, &bytes_of(batch), self.random)?;
        if let Some((number, index)) = batch_fault(self.pages.order(), self.pages.heap(), batch) {
            self.tally.answers[number as usize] += 1;
            same("the answer to a batch that is asked for", &answer, &Answer { root, ..Answer::told(number, index) })?;
            return Ok(None);
        }
        let judged = self.model().first_not_held(root, batch);
        let expected = match judged {
            Ok(None) => Answer::told(0, 0),
            Ok(Some(index)) => Answer { root, ..Answer::told(16, index) },
            Err(damaged) => Answer { root, ..damaged.told(7) },
        };
        same("the answer to a batch that is asked for", &answer, &expected)?;
        match judged {
            Ok(None) => self.tally.held += 1,
            Ok(Some(_)) => self.tally.not_held += 1,
            Err(damaged) => self.tally.names.add(Naming::Held, damaged.fault),
        }
        Ok(Some(judged))
    }

    /// "A fetch checks 1, 5." "For a fetch, "none" is NoPage."
    pub fn fetch(&mut self, page: u64) -> Result<(), Difference> {
        let expected = if page != NONE && page < self.pages.count() { Answer::told(0, 0) } else { Answer::told(5, 0) };
        let answer = self.asked().fetch(page, self.random)?;
        self.tally.fetches += 1;
        same("the fetch's answer", &answer, &expected)
    }
}

pub fn same<T: std::fmt::Debug + PartialEq>(name: &str, found: &T, expected: &T) -> Result<(), Difference> {
    if found == expected { Ok(()) } else { Err(format!("{} is {:?}, and must be {:?}", name, found, expected)) }
}
