//! The proved page code against the harness, on every page of the recorded answers and on damaged copies of each.

mod damage;
mod expected;
mod probe;
#[allow(dead_code)]
#[path = "../oracle/driver/recording.rs"]
mod recording;

use std::{env, fs, process};

use harness::{Datom, Node, Order, Random, MAX_VALUE, NONE, PAGE_SIZES};
use probe::{bytes_of, Page, NOTHING};
use recording::{Carried, Record};

const SEED: u64 = 20190607;

/// Numbers that no order has; of some the low bits are those of one.
const UNKNOWN_ORDERS: [u64; 4] = [3, 256, 1 << 32, u64::MAX];

/// How many datoms beside its own are sought in each page.
const SOUGHT: usize = 8;

/// How many failures are told in words.
const TOLD: usize = 20;

fn main() {
    let file = env::args().nth(1).expect("the file of recorded answers");
    let bytes = fs::read(&file).unwrap_or_else(|error| panic!("{}: {}", file, error));
    let pages = recorded_pages(&bytes);
    let mut tally = Tally::default();
    let mut random = Random::new(SEED);
    for (i, Recorded { id, bytes, order }) in pages.iter().enumerate() {
        let page = Page::of(bytes, *id, *order);
        let other = &pages[random.below(pages.len())].bytes;
        tally.case(page, Some(other), &mut random);
        // The same bytes as another page: its children may lie past it.
        tally.case(Page { id: random.pick(&[0, 1, id / 2, id + 1]), ..page }, None, &mut random);
        // The same bytes in the orders that they were not written in.
        for other in Order::ALL.into_iter().filter(|other| other != order) {
            tally.case(Page::of(bytes, *id, other), None, &mut random);
        }
        tally.case(Page { order: random.pick(&UNKNOWN_ORDERS), ..page }, None, &mut random);
        let mut copies = Random::new(SEED + i as u64);
        damage::damaged(bytes, *id, &mut copies, |copy| tally.case(Page::of(copy, *id, *order), None, &mut random));
    }
    lengths(&mut tally);
    fetches(&mut tally, &mut random);
    println!("{} recorded pages; cases by their first broken rule, 0 for readable", pages.len());
    for order in Order::ALL {
        println!("  {}: {:?}", order.name(), tally.rules[order as usize]);
    }
    if tally.rules.as_flattened().contains(&0) {
        tally.fail("a rule that no case breaks in some order".to_string());
    }
    println!("{} passed, {} failed", tally.passed, tally.failed);
    process::exit(if tally.failed == 0 { 0 } else { 1 });
}

/// A page that was recorded, and the order that it was written in.
struct Recorded {
    id: u64,
    bytes: Vec<u8>,
    order: Order,
}

/// Every page that was recorded as bytes, but for those with constants of a heap.
fn recorded_pages(mut file: &[u8]) -> Vec<Recorded> {
    let mut pages = Vec::new();
    let (mut size, mut count, mut is_long, mut order) = (0, 0, false, Order::Eavt);
    while !file.is_empty() {
        match Record::decode(&mut file).expect("a record") {
            Record::Begin { page_size, heap_room, .. } => (size, count, is_long, order) = (page_size as usize, 0, heap_room > 0, Order::Eavt),
            _ if is_long => {}
            Record::Stored(stored) => order = Order::of_number(stored.order).unwrap_or(order),
            Record::Initialise { written, .. } | Record::Insert { written, .. } => {
                if let Carried::Raw(bytes) = written.pages {
                    pages.extend(bytes.chunks_exact(size).zip(count..).map(|(page, id)| Recorded { id, bytes: page.to_vec(), order }));
                }
                count += written.count;
            }
            Record::Poke { page, bytes } if expected::read(Page::of(&bytes, page, order)).is_ok() => {
                pages.push(Recorded { id: page, bytes, order });
            }
            // Damage is done to pages that can be read.
            Record::Poke { .. } | Record::List { .. } | Record::Check { .. } | Record::Named { .. } | Record::End { .. } | Record::Heap { .. } => {}
        }
    }
    pages
}

#[derive(Default)]
struct Tally {
    passed: usize,
    failed: usize,
    /// How many cases broke each rule first, by order.
    rules: [[usize; 8]; Order::ALL.len()],
}

impl Tally {
    fn fail(&mut self, what: String) {
        self.failed += 1;
        if self.failed <= TOLD {
            println!("FAILED  {}", what);
        }
    }

    fn expect(&mut self, outcome: Result<(), String>) {
        match outcome {
            Ok(()) => self.passed += 1,
            Err(what) => self.fail(what),
        }
    }

    /// A page, and where it is readable all that it holds. With `other` also what is sought in it.
    fn case(&mut self, page: Page, other: Option<&[u8]>, random: &mut Random) {
        let Some(order) = Order::of_number(page.order) else {
            return self.expect(broken(page, NOTHING).map_err(|what| tell(page, what)));
        };
        match expected::read(page) {
            Ok(node) => {
                self.rules[order as usize][0] += 1;
                self.expect(holds(page, &node).map_err(|what| tell(page, what)));
                if let Some(other) = other {
                    self.expect(seeks(page, order, &node, other, random).map_err(|what| tell(page, what)));
                }
            }
            Err(rule) => {
                self.rules[order as usize][rule as usize] += 1;
                self.expect(broken(page, rule).map_err(|what| tell(page, what)));
            }
        }
    }
}

fn tell(page: Page, what: String) -> String {
    let bytes: String = page.bytes.iter().map(|byte| format!("{:02x}", byte)).collect();
    format!("{}, in page {} of {} bytes, order {}: {}", what, page.id, page.bytes.len(), page.order, bytes)
}

fn same(what: &str, found: u64, expected: u64) -> Result<(), String> {
    if found == expected { Ok(()) } else { Err(format!("{}: {} and not {}", what, found, expected)) }
}

/// A page that is not readable: the rule, and nothing else to be had from it.
fn broken(page: Page, rule: u64) -> Result<(), String> {
    same("rule", page.rule(), rule)?;
    same("level", page.level(), NOTHING)?;
    same("count", page.count(), NOTHING)?;
    same("word", page.word(0, 0), NOTHING)?;
    same("child", page.child(0), NOTHING)?;
    same("next", page.next(0), NOTHING)?;
    same("first", page.first(&[0; 32]), NOTHING)?;
    let mut free = vec![7; page.bytes.len()];
    same("written", page.write(&mut free) as u64, 0)?;
    same("bytes changed", free.iter().filter(|&&byte| byte != 7).count() as u64, 0)
}

/// A readable page: level, count, every word, every child, the next child from every index, and the page written anew.
fn holds(page: Page, node: &Node) -> Result<(), String> {
    let count = node.datoms.len();
    same("rule", page.rule(), 0)?;
    same("level", page.level(), node.level as u64)?;
    same("count", page.count(), count as u64)?;
    for (i, datom) in node.datoms.iter().enumerate() {
        for (j, &word) in datom.iter().enumerate() {
            same("word", page.word(i, j), word)?;
        }
        same("word past a datom", page.word(i, 4), NOTHING)?;
    }
    same("word past the datoms", page.word(count, 0), NOTHING)?;
    same("word far past the datoms", page.word(usize::MAX, usize::MAX), NOTHING)?;
    for (i, &child) in node.children.iter().enumerate() {
        same("child", page.child(i), child)?;
        same("next", page.next(i), expected::next_child(&node.children, i))?;
    }
    same("child past the children", page.child(count + 1), NONE)?;
    same("next past the children", page.next(count + 1), NONE)?;
    let mut free = vec![7; page.bytes.len()];
    same("written", page.write(&mut free) as u64, 1)?;
    if free != expected::encode(node, page.bytes.len()) {
        return Err("the page written anew".to_string());
    }
    let mut short = vec![7; page.bytes.len() - 1];
    same("written into another length", page.write(&mut short) as u64, 0)
}

/// The page's own datoms, their neighbours, those of another page, and bounds, sought in the page's order and compared in every order.
fn seeks(page: Page, order: Order, node: &Node, other: &[u8], random: &mut Random) -> Result<(), String> {
    let mut sought: Vec<Datom> = vec![[0; 4], [u64::MAX, u64::MAX, MAX_VALUE, u64::MAX]];
    for datom in &node.datoms {
        let [entity, attribute, value, last] = *datom;
        sought.push(*datom);
        sought.push([entity, attribute, value, last.wrapping_add(1)]);
        sought.push([entity, attribute, MAX_VALUE, last.wrapping_sub(1)]);
    }
    let foreign = Node::decode(other).map_or(Vec::new(), |node| node.datoms);
    if !foreign.is_empty() {
        sought.extend((0..SOUGHT).map(|_| random.pick(&foreign)));
    }
    for datom in &sought {
        let bytes = bytes_of(datom);
        same("first not below", page.first(&bytes), expected::first_not_below(order, &node.datoms, datom))?;
        let against = random.pick(&sought);
        for order in Order::ALL {
            same("order", probe::order(&bytes, &bytes_of(&against), order.number()), expected::order(order, datom, &against))?;
        }
    }
    same("sought by 31 bytes", page.first(&[0; 31]), NOTHING)?;
    same("order of 33 bytes", probe::order(&[0; 33], &[0; 32], page.order), NOTHING)?;
    same("no such order", probe::order(&[0; 32], &[0; 32], random.pick(&UNKNOWN_ORDERS)), NOTHING)
}

/// Bytes of which no page has so many.
fn lengths(tally: &mut Tally) {
    for length in [0, 1, 31, 255, 257, 567, 569, 4095, 4097, 8191, 8193, 16384] {
        tally.expect(broken(Page::of(&vec![0; length], 1, Order::Eavt), NOTHING));
    }
}

/// Fetches with good and bad records of the store.
fn fetches(tally: &mut Tally, random: &mut Random) {
    let store = vec![0; 8192 * 3 + 100];
    for size in PAGE_SIZES.iter().map(|&size| size as u64).chain([0, 1, 255, 512, 8191, 16384, u64::MAX]) {
        let most = if size == 0 { 0 } else { store.len() as u64 / size };
        for count in [0, 1, most, most + 1, 1 << 52, 1 << 56, u64::MAX / 4096 + 1, u64::MAX, random.word()] {
            for page in [0, 1, count.wrapping_sub(1), count, count.wrapping_add(1), NONE, random.word()] {
                let found = probe::fetch(&store, size, count, page);
                tally.expect(same("fetch", found, expected::fetch(store.len(), size, count, page)));
            }
        }
    }
}
