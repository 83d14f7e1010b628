//! Replays a file of recorded answers on both oracles.

use std::collections::{BTreeMap, BTreeSet};
use std::fmt;
use std::fs;
use std::rc::Rc;

use harness::{Answer, By, Datom, Heap, Oracle, Order, Pages, Panic, Verdict, Which, PAGE_SIZES};

use crate::history::LARGEST_HEAP;
use crate::judge::{is_readable, judge, record_fault};
use crate::names::{Names, Naming};
use crate::recording::{datom_bytes, digest, Question, Record, Stored, Who, Written};

// The answers were recorded with noblit's own comparators; here those written to the documents must give them too.
const PATCHED: Oracle = Oracle { which: Which::Patched, by: By::Rule };
const PLAIN: Oracle = Oracle { which: Which::Plain, by: By::Rule };

pub fn replay(file: &str) -> Result<(), String> {
    let bytes = fs::read(file).map_err(|error| format!("{}: {}", file, error))?;
    let mut rest = &bytes[..];
    let mut summary = Summary::default();
    let mut store = None;
    while !rest.is_empty() {
        let at = bytes.len() - rest.len();
        Record::decode(&mut rest)
            .and_then(|record| step(&mut store, &mut summary, &record))
            .map_err(|problem| format!("{}, record at byte {}: {}", file, at, problem))?;
    }
    if store.is_some() {
        return Err(format!("{} stops within a history", file));
    }
    println!("{}", summary);
    Ok(())
}

/// Both oracles' stores within a history.
struct Stores {
    patched: Pages,
    /// Given up at the first answer that only the patched oracle gave.
    plain: Option<Pages>,
    /// Pages that cannot be read at present: the Rust has no such notion, and is asked nothing.
    unreadable: BTreeSet<u64>,
    /// What the store's record says, where every call refuses it.
    refused: Option<Stored>,
    room: u64,
    heap_room: u64,
}

fn step(store: &mut Option<Stores>, summary: &mut Summary, record: &Record) -> Result<(), String> {
    if let Record::Begin { page_size, room, heap_room, .. } = record {
        if store.is_some() {
            return Err("a history begins within another".to_string());
        }
        *store = Some(Stores::new(*page_size, *room, *heap_room)?);
        summary.histories += 1;
        return Ok(());
    }
    let stores = store.as_mut().ok_or("no history has begun")?;
    match record {
        Record::Begin { .. } => unreachable!("answered above"),
        Record::Initialise { who, batch, written } => {
            stores.write(*who, written, |oracle, pages| oracle.initialise(pages, batch))?;
            summary.count(stores, *who, |counts| &mut counts.initialise);
            summary.see_height(stores, written.root);
        }
        Record::Insert { who, root, batch, written } => {
            stores.write(*who, written, |oracle, pages| oracle.insert(pages, *root, batch))?;
            summary.count(stores, *who, |counts| &mut counts.insert);
            summary.see_height(stores, written.root);
        }
        Record::List { who, root, lower, upper, count, datoms } => {
            stores.read(*who, |oracle, pages| {
                let listed = list(oracle, pages, *root, lower, upper)?;
                expect(listed.len() as u64 == *count && datoms.stands_for(&datom_bytes(&listed)), "the listing")
            })?;
            summary.count(stores, *who, |counts| &mut counts.list);
        }
        Record::Check { who, root, fault } => {
            stores.read(*who, |oracle, pages| {
                let found = match oracle.check(pages, *root) {
                    Verdict::Sound => None,
                    Verdict::Unsound(page, _) => Some(page),
                };
                expect(found == *fault, "the check")
            })?;
            summary.count(stores, *who, |counts| if fault.is_none() { &mut counts.sound } else { &mut counts.unsound });
        }
        Record::Poke { page, bytes } => {
            stores.poke(*page, bytes)?;
            summary.pokes += 1;
        }
        Record::End { count, digest: expected } => {
            let (found, room) = (stores.patched.count(), stores.room);
            expect(found == *count && found <= room && digest(stores.patched.bytes()) == *expected, "the store at the end")?;
            *store = None;
        }
        Record::Named { root, question, answer } => name(stores, summary, *root, question, answer)?,
        Record::Heap { offset, bytes } => {
            stores.lay(*offset, bytes)?;
            summary.laid += 1;
        }
        Record::Stored(stored) => {
            stores.say(stored)?;
            summary.said += 1;
        }
    }
    Ok(())
}

/// A call that names what is damaged, judged anew.
fn name(stores: &Stores, summary: &mut Summary, root: u64, question: &Question, answer: &Answer) -> Result<(), String> {
    let judged = judge(&stores.stored(), &stores.patched, root, question)?;
    expect(judged.answer == *answer, "what a call names")?;
    match judged.named {
        Some(damaged) => summary.names.add(question.naming(), damaged.fault),
        None => *summary.nameless.entry((question.naming() as usize, answer.number)).or_default() += 1,
    }
    Ok(())
}

fn expect(holds: bool, what: &str) -> Result<(), String> {
    if holds { Ok(()) } else { Err(format!("{} differs from the recorded one", what)) }
}

fn list(oracle: Oracle, pages: &Pages, root: u64, lower: &Datom, upper: &Datom) -> Result<Vec<Datom>, String> {
    let mut listed = Vec::new();
    oracle.list(pages, root, lower, upper, &mut listed).map_err(|panic| panic.message)?;
    Ok(listed)
}

impl Stores {
    fn new(page_size: u64, room: u64, heap_room: u64) -> Result<Stores, String> {
        let size = page_size as usize;
        if !PAGE_SIZES.contains(&size) {
            return Err(format!("there is no page size {}", page_size));
        }
        if heap_room > LARGEST_HEAP as u64 {
            return Err(format!("a heap of {} bytes is too long", heap_room));
        }
        let pages = Pages::new(size, Order::Eavt);
        Ok(Stores { patched: pages.clone(), plain: Some(pages), unreadable: BTreeSet::new(), refused: None, room, heap_room })
    }

    fn stored(&self) -> Stored {
        self.refused.unwrap_or(Stored::of(&self.patched))
    }

    /// The store's record from here on: one that every call refuses, or the store's own, in any order.
    fn say(&mut self, stored: &Stored) -> Result<(), String> {
        self.refused = record_fault(stored).map(|_| *stored);
        let Some(order) = Order::of_number(stored.order).filter(|_| self.refused.is_none()) else {
            return Ok(());
        };
        self.patched.set_order(order);
        self.plain.iter_mut().for_each(|plain| plain.set_order(order));
        self.unreadable = self.all_unreadable();
        if *stored == Stored::of(&self.patched) { Ok(()) } else { Err(format!("{:?} is not the store's", stored)) }
    }

    fn all_unreadable(&self) -> BTreeSet<u64> {
        (0..self.patched.count()).filter(|&page| !is_readable(&self.patched, page)).collect()
    }

    fn write<Call>(&mut self, who: Who, written: &Written, call: Call) -> Result<(), String>
    where Call: Fn(Oracle, &mut Pages) -> Result<u64, Panic> {
        self.drop_plain(who)?;
        for (oracle, pages) in [(PATCHED, Some(&mut self.patched)), (PLAIN, self.plain.as_mut())] {
            let Some(pages) = pages else { continue };
            let before = pages.count();
            let root = call(oracle, pages).map_err(|panic| panic.message)?;
            let same = root == written.root
                && pages.count() - before == written.count
                && written.pages.stands_for(pages.bytes_from(before));
            expect(same, "what is written")?;
        }
        Ok(())
    }

    fn read<Look>(&mut self, who: Who, look: Look) -> Result<(), String>
    where Look: Fn(Oracle, &Pages) -> Result<(), String> {
        self.drop_plain(who)?;
        look(PATCHED, &self.patched)?;
        self.plain.as_ref().map_or(Ok(()), |plain| look(PLAIN, plain))
    }

    /// A history's plain answers stop at the first that only the patched oracle gave.
    fn drop_plain(&mut self, who: Who) -> Result<(), String> {
        if let Some(stored) = self.refused {
            return Err(format!("{:?}, which every call refuses", stored));
        }
        if let Some(page) = self.unreadable.first() {
            return Err(format!("page {} is unreadable, where the Rust has no rule", page));
        }
        match who {
            Who::Patched => self.plain = None,
            Who::Both if self.plain.is_none() => return Err("the plain oracle was given up before".to_string()),
            Who::Both => {}
        }
        Ok(())
    }

    /// Bytes of the heap. What could be read may become what cannot, and the other way round.
    fn lay(&mut self, offset: u64, bytes: &[u8]) -> Result<(), String> {
        let mut heap = self.patched.heap().bytes().to_vec();
        let end = offset.saturating_add(bytes.len() as u64);
        if offset % 8 != 0 || offset > heap.len() as u64 || end > self.heap_room {
            return Err(format!("{} bytes do not go to offset {} of the heap", bytes.len(), offset));
        }
        heap.resize(heap.len().max(end as usize), 0);
        heap[offset as usize..end as usize].copy_from_slice(bytes);
        let heap = Rc::new(Heap::of_bytes(&heap));
        self.patched.set_heap(&heap);
        self.plain.iter_mut().for_each(|plain| plain.set_heap(&heap));
        self.unreadable = self.all_unreadable();
        Ok(())
    }

    fn poke(&mut self, page: u64, bytes: &[u8]) -> Result<(), String> {
        if page >= self.patched.count() || bytes.len() != self.patched.page_size() {
            return Err(format!("{} bytes cannot replace page {}", bytes.len(), page));
        }
        self.patched.replace(page, bytes);
        self.plain.iter_mut().for_each(|plain| plain.replace(page, bytes));
        if is_readable(&self.patched, page) {
            self.unreadable.remove(&page);
        } else {
            self.unreadable.insert(page);
        }
        Ok(())
    }
}

/// How many answers of each kind there were.
#[derive(Default)]
struct Counts {
    initialise: usize,
    insert: usize,
    list: usize,
    sound: usize,
    unsound: usize,
}

#[derive(Default)]
struct Summary {
    histories: usize,
    all: Counts,
    by_both: Counts,
    pokes: usize,
    /// How often the heap grew or was changed.
    laid: usize,
    /// How often the store's record was made another.
    said: usize,
    /// How many answers of the oracles there are in each order.
    orders: [usize; Order::ALL.len()],
    /// How many roots of each height were written, by page size.
    heights: [BTreeMap<u8, usize>; PAGE_SIZES.len()],
    names: Names,
    /// How many calls that can name a fault answered another number, by call and number.
    nameless: BTreeMap<(usize, u64), usize>,
}

impl Summary {
    fn count(&mut self, stores: &Stores, who: Who, kind: impl Fn(&mut Counts) -> &mut usize) {
        self.orders[stores.patched.order() as usize] += 1;
        *kind(&mut self.all) += 1;
        if who == Who::Both {
            *kind(&mut self.by_both) += 1;
        }
    }

    fn see_height(&mut self, stores: &Stores, root: u64) {
        let place = PAGE_SIZES.iter().position(|&size| size == stores.patched.page_size());
        if let (Some(place), Ok(height)) = (place, PATCHED.height(&stores.patched, root)) {
            *self.heights[place].entry(height).or_default() += 1;
        }
    }
}

impl fmt::Display for Summary {
    fn fmt(&self, out: &mut fmt::Formatter) -> fmt::Result {
        let (all, both) = (&self.all, &self.by_both);
        write!(
            out,
            "{} histories agree (all, of these by both oracles): initialise {}, {}; insert {}, {}; list {}, {}; \
             sound {}, {}; unsound {}, {}; pages damaged or repaired {}; parts of heaps {}; other records {}; \
             in the orders {:?} {:?}; roots by height at {:?} bytes {:?}\n\
             {} faults named, by call\n{}",
            self.histories, all.initialise, both.initialise, all.insert, both.insert, all.list, both.list,
            all.sound, both.sound, all.unsound, both.unsound, self.pokes, self.laid, self.said,
            Order::ALL, self.orders, PAGE_SIZES, self.heights,
            self.names.total(), self.names,
        )?;
        for (&(call, number), times) in &self.nameless {
            write!(out, "\n  {:?} answered {}, with no name: {}", Naming::ALL[call], number, times)?;
        }
        Ok(())
    }
}
