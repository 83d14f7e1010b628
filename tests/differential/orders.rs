//! The same datoms in three stores, one for each order: they list as three sorts of one set.

use std::rc::Rc;

use harness::{Answer, Datom, Held, Kind, Order, Pages, Plan, Random, Supply, MAX_VALUE, NONE, PAGE_SIZES};

use crate::library::{bytes_of, call, scratch_need, Beside, Call, Entry, Lent, RECORD_BYTES};
use crate::reader::{Difference, Reader};
use crate::store::Store;
use crate::tally::Tally;

/// So many datoms there are, and so many of them in one batch at most.
const AMOUNT: usize = 1200;
const LARGEST: usize = 128;

/// How many parts of the set are listed in each of its stores.
const PARTS: usize = 40;

const KINDS: [Kind; 4] = [Kind::Integers, Kind::Mixed, Kind::LongStrings, Kind::LongMixed];

const LOWEST: Datom = [0; 4];
const HIGHEST: Datom = [u64::MAX, u64::MAX, MAX_VALUE, u64::MAX];

/// A store of the library's in one order, and the same pages for the rules.
struct Ordered {
    supply: Supply,
    store: Store,
    pages: Pages,
    root: u64,
}

/// What was compared, or the first difference.
pub fn run(random: &mut Random) -> Result<String, Difference> {
    let mut tally = Tally::default();
    for page_size in PAGE_SIZES {
        for kind in KINDS {
            one_set(page_size, kind, random, &mut tally).map_err(|fault| format!("{:?} in pages of {} bytes: {}", kind, page_size, fault))?;
        }
    }
    Ok(format!("one set in three stores, {} times: {} listings with {} datoms", PAGE_SIZES.len() * KINDS.len(), tally.listings, tally.listed))
}

fn one_set(page_size: usize, kind: Kind, random: &mut Random, tally: &mut Tally) -> Result<(), Difference> {
    let supply = Supply::new(kind, AMOUNT, Order::Eavt, random);
    let mut stores = Vec::new();
    for order in Order::ALL {
        stores.push(Ordered::grown(page_size, order, supply.reordered(order), random)?);
    }
    let mut listings = Vec::new();
    for ordered in &stores {
        listings.push(ordered.list(&LOWEST, &HIGHEST, random, tally)?);
    }
    sorts_of_one_set(&stores, &listings, AMOUNT)?;
    if listings.iter().any(|listing| listings.iter().filter(|other| *other == listing).count() > 1) {
        return Err("two orders list this set alike, so that it tells nothing".to_string());
    }
    for _ in 0..PARTS {
        let attribute = supply.any(random)[1];
        let (lower, upper) = ([0, attribute, 0, 0], [u64::MAX, attribute, MAX_VALUE, u64::MAX]);
        of_an_attribute(&stores, &listings, &lower, &upper, random, tally)?;
    }
    Ok(())
}

/// Each listing is of so many datoms, and is what any other becomes when it is sorted in its order. "Equal only for equal datoms", so that a
/// sort is one alone.
fn sorts_of_one_set(stores: &[Ordered], listings: &[Vec<Datom>], amount: usize) -> Result<(), Difference> {
    for (ordered, listing) in stores.iter().zip(listings) {
        for other in listings {
            let mut sorted = other.clone();
            sorted.sort_by(|left, right| ordered.pages.compare(left, right));
            if sorted != *listing || listing.len() != amount {
                return Err(format!("{} datoms in {} are no sort of {} others", listing.len(), ordered.pages.order().name(), other.len()));
            }
        }
    }
    Ok(())
}

/// "The surveillance screen asks by attribute": in the orders that begin with it two bounds list all of an attribute and nothing else, as a
/// listing of all by entity has it.
fn of_an_attribute(
    stores: &[Ordered], listings: &[Vec<Datom>], lower: &Datom, upper: &Datom, random: &mut Random, tally: &mut Tally,
) -> Result<(), Difference> {
    let expected: Vec<Datom> = listings[0].iter().filter(|datom| datom[1] == lower[1]).copied().collect();
    for ordered in stores.iter().filter(|ordered| ordered.pages.order() != Order::Eavt) {
        let mut listed = ordered.list(lower, upper, random, tally)?;
        listed.sort_by(|left, right| stores[0].pages.compare(left, right));
        if listed != expected {
            return Err(format!("{} datoms of attribute {} in {}, and must be {}", listed.len(), lower[1], ordered.pages.order().name(), expected.len()));
        }
    }
    Ok(())
}

impl Ordered {
    /// All of a supply, by batches of any datoms that rise in its order.
    fn grown(page_size: usize, order: Order, supply: Supply, random: &mut Random) -> Result<Ordered, Difference> {
        let mut pages = Pages::new(page_size, order);
        pages.set_heap(supply.heap());
        let mut ordered = Ordered { store: Store::new(page_size, random), pages, root: NONE, supply };
        let mut held: Held = ordered.supply.nothing_held();
        let mut scratch = Lent::of_length(scratch_need(page_size), random);
        while held.iter().any(|is_held| !is_held) {
            let size = 1 + random.below(LARGEST);
            let batch = ordered.supply.batch(&held, Plan::Scattered, size, random);
            batch.iter().for_each(|&i| held[i] = true);
            ordered.insert(&ordered.supply.datoms(&batch), &mut scratch, random)?;
        }
        Ok(ordered)
    }

    fn insert(&mut self, batch: &[Datom], scratch: &mut Lent, random: &mut Random) -> Result<(), Difference> {
        let heap = Rc::clone(self.pages.heap());
        // A batch of 128 may rewrite so many pages of the smallest size and of their ancestors.
        let room = 8 * LARGEST;
        self.store.make_room(room, random);
        let beside = Beside {
            heap: heap.bytes(),
            page_size: self.pages.page_size() as u64,
            page_count: self.store.count,
            heap_length: heap.bytes().len() as u64,
            order: self.pages.order().number(),
            record: RECORD_BYTES,
        };
        let given = Call { entry: Entry::Insert(self.root), beside, batch: &bytes_of(batch), scratch: scratch.length(), area: 32 };
        let answer = call(self.store.lend(room, 0), &given, scratch, random)?;
        if answer != Answer::done(answer.root, answer.pages) {
            return Err(format!("a batch in {} is answered {:?}", self.pages.order().name(), answer));
        }
        let written = self.store.past()[..answer.pages as usize * self.pages.page_size()].to_vec();
        self.store.grow(&written);
        self.pages.append(&written);
        self.root = answer.root;
        self.store.fault().map_or(Ok(()), Err)
    }

    fn list(&self, lower: &Datom, upper: &Datom, random: &mut Random, tally: &mut Tally) -> Result<Vec<Datom>, Difference> {
        let mut reader = Reader { store: self.store.shown(0), heap: self.pages.heap().bytes(), pages: &self.pages, random, tally };
        reader.list(self.root, lower, upper, usize::MAX)
    }
}
