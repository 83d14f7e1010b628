//! Times of the library and of the Rust, in turns over the same inputs and the same memory; LMDB and SQLite beside them.

mod feed;
mod florinwick;
mod lmdb;
mod noblit;
mod slab;
mod sqlite;

use std::{env, fs};

use feed::{bytes_of, Datom, Feed, Keys, Order};
use florinwick::Florinwick;
use lmdb::Lmdb;
use noblit::{fact, Noblit};
use noblit_patched::memory_store::MemoryHeap;
use slab::Slab;
use sqlite::Sqlite;

const BATCH: usize = 128;
const NONE: u64 = u64::MAX;

/// A round is so many batches at the same tree, one after the other; then the tree is taken back to where it was.
const BATCHES_A_ROUND: usize = 32;
const SINGLES_A_ROUND: usize = 2048;

/// A round of a feed with texts appends so many to an empty heap, with room for so many bytes of each.
const TEXTS_A_ROUND: usize = 4096;
const ROOM_A_TEXT: usize = 48;

/// The store has room for so many pages past the tree that a round starts with.
const MORE_PAGES: usize = 16384;

/// The page sizes that are timed if not said. LMDB and SQLite stand beside the first.
const FIRST: usize = 4096;
const PAGE_SIZES: [usize; 2] = [FIRST, 8192];

/// What a tree is grown of, in which order, how large, in pages of which size.
#[derive(Clone, Copy, PartialEq)]
struct Case {
    keys: Keys,
    order: Order,
    tree: usize,
    page_size: usize,
}

impl Case {
    /// The keys, with the order where it is not the first.
    fn name(&self) -> String {
        match self.order {
            Order::Eavt => self.keys.name().to_string(),
            order => format!("{}, {}", self.keys.name(), order.name()),
        }
    }

    /// How many pages a tree takes that is grown by batches of 128.
    fn pages(&self) -> usize {
        self.keys.places(self.order).map_or(self.tree, |places| self.tree / 16 * places as usize)
    }
}

/// The times of one operation in every round, in nanoseconds.
struct Times {
    what: &'static str,
    case: Case,
    side: &'static str,
    rounds: Vec<f64>,
}

impl Times {
    fn quartile(&self, quarter: usize) -> f64 {
        let mut sorted = self.rounds.clone();
        sorted.sort_by(f64::total_cmp);
        sorted[(sorted.len() - 1) * quarter / 4]
    }
}

struct Bench {
    rounds: usize,
    times: Vec<Times>,
}

impl Bench {
    fn note(&mut self, what: &'static str, case: Case, side: &'static str, nanoseconds: f64) {
        let is_it = |times: &&mut Times| times.what == what && times.case == case && times.side == side;
        match self.times.iter_mut().find(is_it) {
            Some(times) => times.rounds.push(nanoseconds),
            None => self.times.push(Times { what, case, side, rounds: vec![nanoseconds] }),
        }
    }

    fn tree(&mut self, case: Case) {
        let mut feed = Feed::new(case.keys, case.order, 1);
        let mut ours = grown(&mut feed, case);
        let mut theirs = Noblit { slab: Slab::copy_of(&ours.slab, MORE_PAGES), root: ours.root, order: case.order, heap: MemoryHeap::new() };
        eprintln!("{}, {} datoms: {} pages of {} bytes", case.name(), case.tree, ours.slab.count, case.page_size);
        for round in 0..self.rounds {
            let mut branch = feed.branch(2 + round as u64);
            let batches: Vec<Vec<Datom>> = (0..BATCHES_A_ROUND).map(|_| branch.batch(BATCH)).collect();
            let singles: Vec<Vec<Datom>> = (0..SINGLES_A_ROUND).map(|_| branch.batch(1)).collect();
            let heap = &branch.heap;
            theirs.heap = MemoryHeap::from_vec(heap.clone());
            self.inserts("insert of 128", case, round, heap, &batches, &mut ours, &mut theirs);
            self.receipts("receipt for 128", case, heap, &batches, &mut ours);
            self.inserts("insert of 1", case, round, heap, &singles, &mut ours, &mut theirs);
            self.receipts("receipt for 1", case, heap, &singles, &mut ours);
            if case.keys.has_texts() {
                self.appends(case, round, &branch.texts(TEXTS_A_ROUND));
            }
        }
        for round in 0..readings(self.rounds, case.tree) {
            self.reads(case, round, &feed.heap, &ours, &theirs);
        }
    }

    /// The same batches on both sides, which take turns at being first; both must write the same bytes.
    fn inserts(
        &mut self, what: &'static str, case: Case, round: usize, heap: &[u8], batches: &[Vec<Datom>], ours: &mut Florinwick,
        theirs: &mut Noblit,
    ) {
        let bytes: Vec<Vec<u8>> = batches.iter().map(|batch| bytes_of(batch)).collect();
        let facts: Vec<Vec<_>> = batches.iter().map(|batch| batch.iter().map(fact).collect()).collect();
        let (count, root) = (ours.slab.count, ours.root);
        for turn in 0..2 {
            if (round + turn) % 2 == 0 {
                ours.slab.rewind(count);
                let time = timed(|| bytes.iter().for_each(|batch| ours.insert(heap, batch)));
                self.note(what, case, "Florinwick", time / batches.len() as f64);
            } else {
                theirs.slab.rewind(count);
                let time = timed(|| facts.iter().for_each(|batch| theirs.insert(batch)));
                self.note(what, case, "Rust", time / batches.len() as f64);
            }
        }
        assert!(ours.root == theirs.root && ours.slab.bytes_from(count) == theirs.slab.bytes_from(count), "both write the same pages");
        (ours.root, theirs.root) = (root, root);
        ours.slab.rewind(count);
        theirs.slab.rewind(count);
    }

    /// Each batch again, at the root that it led to.
    fn receipts(&mut self, what: &'static str, case: Case, heap: &[u8], batches: &[Vec<Datom>], ours: &mut Florinwick) {
        let (count, root) = (ours.slab.count, ours.root);
        let mut sent = Vec::new();
        for batch in batches {
            let bytes = bytes_of(batch);
            ours.insert(heap, &bytes);
            sent.push((bytes, ours.root));
        }
        let time = timed(|| sent.iter().for_each(|(batch, root)| ours.resend(heap, batch, *root)));
        self.note(what, case, "Florinwick", time / batches.len() as f64);
        ours.root = root;
        ours.slab.rewind(count);
    }

    /// The same texts onto an empty heap on both sides, each with room for all of them; both must lay the same bytes.
    fn appends(&mut self, case: Case, round: usize, texts: &[Vec<u8>]) {
        let room = texts.len() * ROOM_A_TEXT;
        let mut ours = vec![1; room];
        let mut touched = ours.clone();
        touched.clear();
        let mut theirs = MemoryHeap::from_vec(touched);
        let (mut used, mut by_rust) = (0, 0);
        for turn in 0..2 {
            if (round + turn) % 2 == 0 {
                let time = timed(|| used = florinwick::append(&mut ours, texts));
                self.note("append of a text", case, "Florinwick", time / texts.len() as f64);
            } else {
                let time = timed(|| by_rust = noblit::append(&mut theirs, texts));
                self.note("append of a text", case, "Rust", time / texts.len() as f64);
            }
        }
        assert!(used == by_rust && ours[..used] == noblit::bytes_of(&theirs), "both lay the same constants");
    }

    fn reads(&mut self, case: Case, round: usize, heap: &[u8], ours: &Florinwick, theirs: &Noblit) {
        let (mut listed, mut by_rust) = ((0, 0), (0, 0));
        let tree = case.tree;
        for turn in 0..2 {
            if (round + turn) % 2 == 0 {
                let time = timed(|| listed = ours.list(heap));
                self.note("listed datom", case, "Florinwick", time / tree as f64);
                let time = timed(|| ours.check(heap));
                self.note("checked datom", case, "Florinwick", time / tree as f64);
            } else {
                let time = timed(|| by_rust = theirs.list());
                self.note("listed datom", case, "Rust", time / tree as f64);
                let time = timed(|| theirs.check());
                self.note("checked datom", case, "Rust", time / tree as f64);
            }
        }
        assert!(listed == by_rust && listed.0 == tree as u64, "{:?} and {:?} are listed", listed, by_rust);
    }

    /// LMDB and SQLite grow while they are timed.
    fn others(&mut self, case: Case) {
        let (mut lmdb, mut sqlite) = (Lmdb::new(), Sqlite::new());
        let mut feed = Feed::new(case.keys, case.order, 1);
        let tree = case.tree;
        for _ in 0..tree / BATCH {
            let batch = feed.batch(BATCH);
            assert!(lmdb.insert(&batch) && sqlite.insert(&batch));
        }
        for _ in 0..readings(self.rounds, tree) {
            let (mut one, mut other) = ((0, 0), (0, 0));
            let listed = (tree / BATCH * BATCH) as f64;
            let time = timed(|| one = lmdb.list());
            self.note("listed datom", case, "LMDB", time / listed);
            let time = timed(|| other = sqlite.list());
            self.note("listed datom", case, "SQLite", time / listed);
            assert_eq!(one, other, "LMDB and SQLite list different datoms");
        }
        for _ in 0..self.rounds.div_ceil(8) {
            for (what, receipt, size, amount) in [
                ("insert of 128", "receipt for 128", BATCH, BATCHES_A_ROUND),
                ("insert of 1", "receipt for 1", 1, SINGLES_A_ROUND / 8),
            ] {
                let batches: Vec<Vec<Datom>> = (0..amount).map(|_| feed.batch(size)).collect();
                let times = twice(&batches, |batch| lmdb.insert(batch));
                self.note(what, case, "LMDB", times.0);
                self.note(receipt, case, "LMDB", times.1);
                let times = twice(&batches, |batch| sqlite.insert(batch));
                self.note(what, case, "SQLite", times.0);
                self.note(receipt, case, "SQLite", times.1);
            }
        }
    }

    fn report(&self) -> String {
        let mut text = "what\tkeys\tdatoms\tpage size\tside\tmedian\tquarter\tthree quarters\n".to_string();
        for times in &self.times {
            let [low, median, high] = [1, 2, 3].map(|quarter| times.quartile(quarter));
            let Case { tree, page_size, .. } = times.case;
            let which = format!("{}\t{}\t{}\t{}\t{}", times.what, times.case.name(), tree, page_size, times.side);
            text += &format!("{}\t{:.1}\t{:.1}\t{:.1}\n", which, median, low, high);
        }
        text
    }
}

/// How often a tree is read as a whole: three times or more, but in no more rounds than there are.
fn readings(rounds: usize, tree: usize) -> usize {
    (rounds * 10_000 / tree).max(3).min(rounds)
}

extern "C" {
    fn clock_gettime(clock: i32, time: *mut [i64; 2]) -> i32;
}

const THREAD_CPU_TIME: i32 = 3;

/// The processor time of this thread: it does not count what others do on the same machine.
fn now() -> f64 {
    let mut time = [0; 2];
    assert_eq!(unsafe { clock_gettime(THREAD_CPU_TIME, &mut time) }, 0, "no clock");
    time[0] as f64 * 1e9 + time[1] as f64
}

fn timed(work: impl FnOnce()) -> f64 {
    let started = now();
    work();
    now() - started
}

/// The time of a batch that goes in, and of a batch that is there already.
fn twice(batches: &[Vec<Datom>], mut insert: impl FnMut(&[Datom]) -> bool) -> (f64, f64) {
    let first = timed(|| batches.iter().for_each(|batch| assert!(insert(batch))));
    let again = timed(|| batches.iter().for_each(|batch| assert!(!insert(batch))));
    (first / batches.len() as f64, again / batches.len() as f64)
}

/// A tree of so many datoms, by batches of 128, and room past it.
fn grown(feed: &mut Feed, case: Case) -> Florinwick {
    let mut tree = Florinwick::new(Slab::new(case.page_size, case.pages() + MORE_PAGES), case.order, NONE);
    let mut left = case.tree;
    while left > 0 {
        let size = left.min(BATCH);
        let batch = bytes_of(&feed.batch(size));
        tree.insert(&feed.heap, &batch);
        left -= size;
    }
    tree
}

/// The orders that go by a name; by default all of them for integers, and the first for texts, which take longer.
fn orders(name: &str, keys: Keys) -> Vec<Order> {
    match name {
        "default" if keys.has_texts() => vec![Order::Eavt],
        "default" | "all" => Order::ALL.to_vec(),
        _ => vec![Order::ALL.into_iter().find(|order| order.name() == name).unwrap_or_else(|| panic!("{} is no order", name))],
    }
}

fn main() {
    let word = |i: usize| env::args().nth(i).unwrap_or_else(|| panic!("usage: bench ORDER ROUNDS LARGEST FILE [PAGE_SIZE..]"));
    let number = |i: usize| word(i).parse::<usize>().unwrap_or_else(|_| panic!("{} is no number", word(i)));
    let said: Vec<usize> = (5..env::args().count()).map(number).collect();
    let page_sizes = if said.is_empty() { PAGE_SIZES.to_vec() } else { said };
    let mut bench = Bench { rounds: number(2), times: Vec::new() };
    for page_size in page_sizes {
        for (keys, order) in Keys::ALL.into_iter().flat_map(|keys| orders(&word(1), keys).into_iter().map(move |order| (keys, order))) {
            for tree in [10_000, 100_000, 1_000_000].into_iter().filter(|&tree| tree <= number(3)) {
                let case = Case { keys, order, tree, page_size };
                bench.tree(case);
                if page_size == FIRST && order == Order::Eavt && !keys.has_texts() {
                    bench.others(case);
                }
            }
        }
    }
    fs::write(word(4), bench.report()).unwrap_or_else(|error| panic!("{}: {}", word(4), error));
}
