//! Calls that read with wrong sizes, counts, orders, areas, bounds, batches and roots, several at a time: the first number in document 01's order.

use harness::{bad_constant, capacity, Answer, Heap, Order, Random, MALFORMED, MAX_VALUE, NONE};

use super::reading::Reading;
use super::{History, MOST};
use crate::library::{bytes_of, datoms_of, Asked, Beside, Lent, RECORD_BYTES};
use crate::model::{batch_fault, Cursor, CURSOR_BYTES};
use crate::reader::{same, Difference};
use crate::tally::Asking;

/// What the calls are given. Each number is 0 where a call has nothing to refuse here.
struct Wrong<'a> {
    asked: Asked<'a>,
    root: u64,
    bounds: [Vec<u8>; 2],
    batch: Vec<u8>,
    cursor: Vec<u8>,
    datom: usize,
}

impl Wrong<'_> {
    /// "page size unknown, count times size exceeds the slice"; an answer area that is not 32 bytes long "is 1 before all else", and so is
    /// a record of another length. This is all that a fetch looks at.
    fn is_bad_extent(&self) -> bool {
        let Beside { page_size, page_count, record, .. } = self.asked.beside;
        let is_too_long = page_count as u128 * page_size as u128 > self.asked.store.len() as u128;
        capacity(page_size as usize).is_none() || is_too_long || self.asked.area != 32 || record != RECORD_BYTES
    }

    /// "1 also when the heap length passes its slice or is no multiple of 8."
    fn is_bad_store(&self) -> bool {
        let Beside { heap, heap_length, .. } = self.asked.beside;
        self.is_bad_extent() || heap_length > heap.len() as u64 || heap_length % 8 != 0
    }

    /// What every call but a fetch asks of the record, or nothing where it is good: "13 BadOrder for an unknown order number, straight after 1".
    fn record_fault(&self) -> Option<u64> {
        match self.order() {
            _ if self.is_bad_store() => Some(1),
            None => Some(13),
            Some(_) => None,
        }
    }

    fn order(&self) -> Option<Order> {
        Order::of_number(self.asked.beside.order)
    }

    /// What the bounds and the batch name constants of.
    fn heap(&self) -> Heap {
        let Beside { heap, heap_length, .. } = self.asked.beside;
        Heap::of_bytes(&heap[..heap.len().min(heap_length as usize)])
    }

    fn is_bad_root(&self) -> bool {
        self.root != NONE && self.root >= self.asked.beside.page_count
    }

    fn number_of_check(&self) -> u64 {
        self.record_fault().unwrap_or(if self.is_bad_root() { 5 } else { 0 })
    }

    fn number_of_fetch(&self) -> u64 {
        if self.is_bad_extent() { 1 } else if self.root >= self.asked.beside.page_count { 5 } else { 0 }
    }

    fn number_of_start(&self) -> u64 {
        let heap = self.heap();
        let is_bad = |bound: &Vec<u8>| bound.len() != 32 || !datoms_of(bound).iter().all(|bound| heap.is_bound(bound));
        if self.is_bad_store() || self.cursor.len() != CURSOR_BYTES {
            1
        } else if self.order().is_none() {
            13
        } else if self.bounds.iter().any(is_bad) {
            10
        } else {
            self.number_of_check()
        }
    }

    /// "after 1, 2, 3, 4 and 5", with 13 behind 1 and 11 behind 3, and with the index of 3, 11 and 4.
    fn number_of_held(&self) -> (u64, u64) {
        let (datoms, order) = (datoms_of(&self.batch), self.order().unwrap_or_default());
        if let Some(number) = self.record_fault() {
            (number, 0)
        } else if self.batch.len() % 32 != 0 || datoms.len() > MOST {
            (2, 0)
        } else if let Some(refused) = batch_fault(order, &self.heap(), &datoms) {
            refused
        } else {
            (self.number_of_check(), 0)
        }
    }

    fn number_of_step(&self) -> u64 {
        if self.is_bad_store() || self.cursor.len() != CURSOR_BYTES || self.datom != 32 {
            1
        } else if self.order().is_none() {
            13
        } else {
            0
        }
    }

    /// The answer of a refused call; an area that is not written to tells the number alone.
    fn refused(&self, number: u64, root: u64) -> Answer {
        let root = if self.asked.area == 32 { root } else { 0 };
        Answer { root, ..Answer::told(number, 0) }
    }

    /// Makes the calls that are to be refused, and those that leave no area behind in any case; and says which numbers there were.
    fn compare(&self, random: &mut Random) -> Result<[(Asking, u64); 5], Difference> {
        let (held, index) = self.number_of_held();
        let (check, fetch, start, step) = (self.number_of_check(), self.number_of_fetch(), self.number_of_start(), self.number_of_step());
        let refused = Answer { detail: index, ..self.refused(held, self.root) };
        refused_or_not("the answer to a batch that is asked for", &self.asked.held(self.root, &self.batch, random)?, &refused)?;
        refused_or_not("the check's answer", &self.asked.check(self.root, random)?, &self.refused(check, self.root))?;
        refused_or_not("the fetch's answer", &self.asked.fetch(self.root, random)?, &self.refused(fetch, 0))?;
        let mut cursor = Lent::new(&self.cursor, random);
        if start != 0 {
            let answer = self.asked.list_start(self.root, &self.bounds[0], &self.bounds[1], &mut cursor, random)?;
            same("the start's answer", &answer, &self.refused(start, self.root))?;
        }
        let mut datom = Lent::of_length(self.datom, random);
        let before = datom.content().to_vec();
        if step != 0 {
            same("the step's answer", &self.asked.list_step(&mut cursor, &mut datom, random)?, &self.refused(step, 0))?;
        }
        same("the cursor of a refused call", &cursor.content(), &&self.cursor[..])?;
        same("the datom of a refused step", &datom.content(), &&before[..])?;
        Ok([(Asking::Check, check), (Asking::Fetch, fetch), (Asking::Start, start), (Asking::Step, step), (Asking::Held, held)])
    }
}

/// The answer is this refusal; where that has the number 0 it is any but one of those that are told before a page is read.
fn refused_or_not(name: &str, answer: &Answer, refused: &Answer) -> Result<(), Difference> {
    match refused.number {
        0 if [1, 2, 3, 4, 5, 11, 13].contains(&answer.number) => Err(format!("{} is {:?}, and must be no refusal", name, answer)),
        0 => Ok(()),
        _ => same(name, answer, refused),
    }
}

impl History<'_> {
    pub(super) fn wrong_readings(&mut self) -> Result<(), Difference> {
        let at = self.some_tree();
        let (lower, upper) = self.bounds(at);
        let batch = self.asked_batch(at);
        let batch = bytes_of(&self.supply.datoms(&batch));
        let (root, count, size) = (self.trees[at].root, self.patched.count(), self.shape.page_size as u64);
        let random = &mut self.random;
        let (store, heap) = (self.store.shown(random.below(32)), self.heap.shown(random.below(32)));
        let (heap_length, constants) = (self.heap.count, self.patched.heap());
        let order = self.patched.order().number();
        let beside = Beside { heap, page_size: size, page_count: count, heap_length, order, record: RECORD_BYTES };
        let mut wrong = Wrong {
            asked: Asked { store, beside, area: 32 },
            root,
            bounds: [bytes_of(&[lower]), bytes_of(&[upper])],
            batch,
            cursor: Cursor { height: random.word(), ..Cursor::default() }.bytes(),
            datom: 32,
        };
        for _ in 0..1 + random.below(5) {
            let side = random.below(2);
            match random.below(14) {
                0 => wrong.asked.beside.page_size = random.pick(&[0, 1, size - 1, size + 1, 512, 1 << 32, u64::MAX]),
                1 => wrong.asked.beside.page_count = random.pick(&[store.len() as u64 / size + 1, 1 << 56, 1 << 63, u64::MAX]),
                2 => wrong.asked.area = random.pick(&[0, 1, 31, 33, 40]),
                3 => wrong.cursor.resize(random.pick(&[0, 1, 8, 263, 265, 272]), 7),
                4 => wrong.datom = random.pick(&[0, 1, 31, 33, 64]),
                5 => wrong.bounds[side].resize(random.pick(&[0, 1, 31, 33, 64]), 7),
                6 => {
                    let value = if random.one_in(2) { bad_constant(constants, random) } else { random.pick(&MALFORMED) };
                    wrong.bounds[side] = bytes_of(&[[lower[0], lower[1], value, lower[3]]]);
                }
                7 => spoil(&mut wrong.batch, constants, random),
                8 => wrong.batch.resize(random.pick(&[1, 31, 33, 32 * MOST + 32, 32 * MOST + 1]), 7),
                9 => wrong.asked.beside.heap_length = some_heap_length(heap_length, heap.len() as u64, random),
                10 => wrong.asked.beside.record = random.pick(&RECORDS),
                11 | 12 => wrong.asked.beside.order = some_order(random),
                _ => wrong.root = random.pick(&[count, count + 1, NONE - 1]),
            }
        }
        let Beside { page_size, page_count, heap_length, order, record, .. } = wrong.asked.beside;
        self.reading = Some(Reading::Other(format!(
            "check, fetch, start, step and held with page size {}, count {}, heap length {} of {}, order {}, root {}, bounds {:?}, batch {:?}, \
             areas of {}, {} and {} bytes and a record of {}",
            page_size, page_count, heap_length, heap.len(), order, wrong.root, wrong.bounds, wrong.batch, wrong.cursor.len(), wrong.datom,
            wrong.asked.area, record,
        )));
        for (asking, number) in wrong.compare(random)?.into_iter().filter(|(_, number)| *number != 0) {
            self.tally.answered(asking, number);
        }
        Ok(())
    }
}

/// Lengths that no record has; one of 24 bytes is that of before document 02, Three.
pub const RECORDS: [usize; 6] = [0, 8, 24, 31, 33, 40];

/// A number that no order has, of some of which the low bits are those of one; now and then one that an order has.
pub fn some_order(random: &mut Random) -> u64 {
    random.pick(&[0, 1, 2, 3, 3, 4, 255, 256, 257, 1 << 32, (1 << 32) + 2, 1 << 63, u64::MAX, u64::MAX])
}

/// A heap length that is no multiple of 8, passes the slice, or leaves constants out.
pub fn some_heap_length(length: u64, slice: u64, random: &mut Random) -> u64 {
    let past = slice.next_multiple_of(8);
    random.pick(&[
        length + 1, length + 4, length.wrapping_sub(1), past + 8, past + 1, 1 << 62, 1 << 63, u64::MAX, u64::MAX - 7,
        length.saturating_sub(8), length.saturating_sub(16), 0,
    ])
}

/// A datom of the batch gets a malformed value or a constant that is not valid, or one is equal to an earlier one.
fn spoil(batch: &mut [u8], heap: &Heap, random: &mut Random) {
    let count = batch.len() / 32;
    if count < 2 {
        return;
    }
    let later = 1 + random.below(count - 1);
    let mut put = |value: u64| batch[32 * later + 16..32 * later + 24].copy_from_slice(&value.to_le_bytes());
    match random.below(3) {
        0 => put(MAX_VALUE),
        1 => put(bad_constant(heap, random)),
        _ => {
            let earlier = 32 * random.below(later);
            batch.copy_within(earlier..earlier + 32, 32 * later);
        }
    }
}
