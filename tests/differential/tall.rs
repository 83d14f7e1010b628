//! The tallest tree: ascending batches of four until the next one would need a page of level 8.

use harness::{Answer, By, Datom, Node, Oracle, Order, Pages, Random, Verdict, Which, MAX_VALUE};

use crate::history::ask;
use crate::library::{bytes_of, call, call_named, noise, scratch_need, Beside, Call, Entry, Lent};
use crate::reader::Reader;
use crate::store::Store;
use crate::tally::Tally;

const PAGE_SIZE: usize = 256;

/// How many bytes of heap are lent.
const HEAP: usize = 24;

/// After so many batches the whole store is compared, not the new pages alone.
const WHOLE_EVERY: u64 = 2048;

/// By then the tree must have been too tall.
const MOST_BATCHES: u64 = 50_000;

/// How often the tallest tree is listed; the first time whole.
const LISTINGS: usize = 200;

/// What was compared, or the first difference.
pub fn run(random: &mut Random) -> Result<String, String> {
    let oracle = Oracle { which: Which::Patched, by: By::Noblit };
    // The batches rise in any order.
    let order = random.pick(&Order::ALL);
    let mut pages = Pages::new(PAGE_SIZE, order);
    let mut store = Store::new(PAGE_SIZE, random);
    let need = scratch_need(PAGE_SIZE);
    let mut scratch = Lent::of_length(need, random);
    // Nothing on it is in use.
    let heap = noise(HEAP, random);
    let mut entry = Entry::Initialise;
    for batch in 0..MOST_BATCHES {
        let datoms: Vec<Datom> = (4 * batch..4 * batch + 4).map(|k| [k, 1, k, 3]).collect();
        let before = pages.count();
        let root = ask(oracle, &mut pages, entry, &datoms).map_err(|panic| panic.message)?;
        let written = pages.bytes_from(before).to_vec();
        let level = |page: &[u8]| Node::decode(page).expect("a page of the Rust").level;
        let too_tall = written.chunks_exact(PAGE_SIZE).position(|page| level(page) > 7);
        let count = pages.count() - before;
        store.make_room(count as usize, random);
        let beside = Beside::no_heap(&heap, PAGE_SIZE as u64, before, order);
        let given = Call { entry, beside, batch: &bytes_of(&datoms), scratch: need, area: 32 };
        let answer = call(store.lend(count as usize, 0), &given, &mut scratch, random)?;
        let (expected, kept) = match too_tall {
            None => (Answer::done(root, count), &written[..]),
            Some(at) => (entry.refused(8, 0), &written[..at * PAGE_SIZE]),
        };
        if answer != expected {
            return Err(format!("batch {}: the answer is {:?}, and must be {:?}", batch, answer, expected));
        }
        if let Some(fault) = store.fault_past(kept) {
            return Err(format!("batch {}: {}", batch, fault));
        }
        if let Some(at) = too_tall {
            store.restore();
            with_less_room(&mut store, &given, &written[..at * PAGE_SIZE], &mut scratch, random)
                .map_err(|fault| format!("batch {}, {}", batch, fault))?;
            pages.truncate(before);
            let Entry::Insert(root) = entry else {
                return Err("a first batch that is too tall".to_string());
            };
            let read = read(&pages, &store, root, 4 * batch, random)?;
            return match store.fault() {
                None => Ok(format!(
                    "the tallest tree, {}: {} batches of four, {} pages of 256 bytes, height 8; the next one TooTall after {} pages; {}",
                    order.name(), batch, before, at, read,
                )),
                Some(fault) => Err(fault),
            };
        }
        store.grow(&written);
        if batch % WHOLE_EVERY == 0 {
            if let Some(fault) = store.fault() {
                return Err(format!("up to batch {}: {}", batch, fault));
            }
        }
        entry = Entry::Insert(root);
    }
    Err(format!("{} batches, and no page of level 8", MOST_BATCHES))
}

/// With room for fewer pages than come before the one of level 8 the answer is 9, with room for those alone 8; by both inserts.
fn with_less_room(store: &mut Store, given: &Call, written: &[u8], scratch: &mut Lent, random: &mut Random) -> Result<(), String> {
    let at = written.len() / PAGE_SIZE;
    for fit in 0..at + 1 {
        let expected = given.entry.refused(if fit == at { 8 } else { 9 }, 0);
        for is_named in [false, true] {
            let insert = if is_named { call_named } else { call };
            let answer = insert(store.lend(fit, 0), given, scratch, random)?;
            if answer != expected {
                return Err(format!("room for {}: the answer is {:?}, and must be {:?}", fit, answer, expected));
            }
            if let Some(fault) = store.fault_past(&written[..fit * PAGE_SIZE]) {
                return Err(format!("room for {}: {}", fit, fault));
            }
            store.restore();
        }
    }
    Ok(())
}

/// Listings and the check of the tallest tree, of so many datoms, by the Rust and by the library.
fn read(pages: &Pages, store: &Store, root: u64, amount: u64, random: &mut Random) -> Result<String, String> {
    let oracle = Oracle { which: Which::Patched, by: By::Noblit };
    let mut tally = Tally::default();
    for i in 0..LISTINGS {
        let (from, to) = (random.below(amount as usize) as u64, random.below(amount as usize) as u64);
        let (lower, upper) = match i {
            0 => ([0; 4], [u64::MAX, u64::MAX, MAX_VALUE, u64::MAX]),
            _ => ([from, 1, from, 3], [from + to % 1000, 1, from, 3]),
        };
        let mut listed = Vec::new();
        oracle.list(pages, root, &lower, &upper, &mut listed).map_err(|panic| panic.message)?;
        let found = Reader { store: store.shown(0), heap: &[0; HEAP], pages, random, tally: &mut tally }.list(root, &lower, &upper, usize::MAX)?;
        if found != listed || i == 0 && listed.len() as u64 != amount {
            return Err(format!("{} datoms are listed from {:?} to {:?}, and {} by the Rust", found.len(), lower, upper, listed.len()));
        }
    }
    let found = Reader { store: store.shown(0), heap: &[0; HEAP], pages, random, tally: &mut tally }.check(root)?;
    if found.is_some() || oracle.check(pages, root) != Verdict::Sound {
        return Err(format!("the check finds a fault at {:?}", found));
    }
    Ok(format!("{} listings with {} datoms, and sound", tally.listings, tally.listed))
}
