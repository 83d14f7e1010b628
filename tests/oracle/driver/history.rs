//! One history being recorded: a store, the trees in it, and what both oracles answer.

use std::rc::Rc;

use harness::{
    readable_damage, By, Datom, Held, Kind, Oracle, Order, Pages, Panic, Plan, Random, Supply, Verdict, Which, NONE,
};

use crate::recording::{datom_bytes, digest, heap_records, Carried, Record, Stored, Who, Written, LONGEST_RECORD};

/// A reader may keep a history's store in memory.
const LARGEST_STORE: usize = 1 << 20;
pub const LARGEST_HEAP: usize = 1 << 15;

/// Longer listings are recorded by their digest.
const LISTED_RAW: usize = 40;

/// What a record holds besides the pages written is shorter than this.
const BESIDE_PAGES: usize = 8192;

/// Among how many batches one is sought on which both oracles agree.
const CANDIDATES: usize = 60;

/// One in so many constants of a batch is laid anew before it, so that the heap grows with the trees.
const LAID_ANEW: usize = 4;

const PATCHED: Oracle = Oracle { which: Which::Patched, by: By::Noblit };
const PLAIN: Oracle = Oracle { which: Which::Plain, by: By::Noblit };

/// How a history is made.
#[derive(Clone, Copy)]
pub struct Shape {
    pub page_size: usize,
    pub order: Order,
    pub kind: Kind,
    pub plan: Plan,
    /// How many different datoms there are.
    pub supply: usize,
    /// The size of the first batch.
    pub first: usize,
    /// How many batches follow, and from which sizes.
    pub inserts: usize,
    pub sizes: &'static [usize],
    /// Whether only batches are taken on which both oracles agree.
    pub agreeing: bool,
    /// Whether some batches go to older roots.
    pub branching: bool,
    /// Whether pages and short listings are recorded as they are.
    pub raw: bool,
    /// After how many batches, about, there are listings and checks.
    pub look_every: usize,
    /// How often the store is damaged at the end.
    pub damages: usize,
}

struct Tree {
    root: u64,
    held: Held,
}

struct History {
    shape: Shape,
    random: Random,
    supply: Supply,
    patched: Pages,
    /// The plain oracle's store, as long as it has the same pages.
    plain: Option<Pages>,
    /// How many constants of the supply are on the heap.
    laid: usize,
    trees: Vec<Tree>,
    is_damaged: bool,
    records: Vec<Record>,
}

/// Records the history with this number, which also seeds its random numbers.
pub fn record_history(number: u64, seed: u64, shape: Shape) -> Vec<Record> {
    let mut random = Random::new(seed.wrapping_mul(1_000_003).wrapping_add(number));
    let mut history = History {
        shape,
        supply: Supply::new(shape.kind, shape.supply, shape.order, &mut random),
        random,
        patched: Pages::new(shape.page_size, shape.order),
        plain: Some(Pages::new(shape.page_size, shape.order)),
        laid: 0,
        trees: Vec::new(),
        is_damaged: false,
        records: Vec::new(),
    };
    if shape.order != Order::Eavt {
        history.records.push(Record::Stored(Stored::of(&history.patched)));
    }
    history.lay();
    history.initialise(shape.first);
    history.look();
    for _ in 0..shape.inserts {
        if !history.grow() {
            break;
        }
        if history.random.one_in(shape.look_every) {
            history.look();
        }
    }
    for _ in 0..shape.damages {
        history.damage();
    }
    history.finish(number)
}

impl History {
    /// The heap of both stores is that of the supply from here on. The Rust's own must come to the same bytes by the same words.
    fn lay(&mut self) {
        let (old, new) = (Rc::clone(self.patched.heap()), Rc::clone(self.supply.heap()));
        let constants = &self.supply.constants()[self.laid..];
        for oracle in [PLAIN, PATCHED] {
            let appended = oracle.append(&old, constants).expect("the Rust takes any constant");
            assert!(appended.is_in(&new, constants), "the Rust lays and names constants alike");
        }
        self.laid += constants.len();
        self.records.extend(heap_records(old.bytes(), new.bytes()));
        self.patched.set_heap(&new);
        self.plain.iter_mut().for_each(|plain| plain.set_heap(&new));
    }

    /// Some constants of a batch go to the end of the heap before it, if no tree holds their datoms.
    fn lay_anew(&mut self, batch: &[usize]) {
        for &i in batch {
            let is_free = self.supply.is_long(i) && self.trees.iter().all(|tree| !tree.held[i]);
            if is_free && self.random.one_in(LAID_ANEW) {
                self.supply.lay_anew(i);
            }
        }
        self.lay();
    }

    /// Starts a tree, in a store that may hold others already.
    fn initialise(&mut self, size: usize) {
        let mut held = self.supply.nothing_held();
        let batch = self.supply.batch(&held, self.shape.plan, size, &mut self.random);
        let mut datoms = self.supply.datoms(&batch);
        self.random.shuffle(&mut datoms);
        let call = |oracle: Oracle, pages: &mut Pages| oracle.initialise(pages, &datoms);
        let (who, written) = self.write(call, self.shape.agreeing).expect("room, and agreement where it is asked for");
        mark(&mut held, &batch);
        self.add_tree(written.root, held);
        self.records.push(Record::Initialise { who, batch: datoms, written });
    }

    /// Inserts a batch at the newest root or at an older one; false if there is none to insert at, or no room.
    fn grow(&mut self) -> bool {
        if self.trees.is_empty() {
            return false;
        }
        let at = if self.shape.branching { self.some_tree() } else { self.trees.len() - 1 };
        let candidates = if self.shape.agreeing { CANDIDATES } else { 1 };
        (0..candidates).any(|_| {
            let size = self.random.pick(self.shape.sizes);
            let batch = self.supply.batch(&self.trees[at].held, self.shape.plan, size, &mut self.random);
            if !self.shape.agreeing {
                self.lay_anew(&batch);
            }
            self.insert(at, &batch)
        })
    }

    fn insert(&mut self, at: usize, batch: &[usize]) -> bool {
        let root = self.trees[at].root;
        let datoms = self.supply.datoms(batch);
        let call = |oracle: Oracle, pages: &mut Pages| oracle.insert(pages, root, &datoms);
        let Some((who, written)) = self.write(call, self.shape.agreeing) else {
            return false;
        };
        let mut held = self.trees[at].held.clone();
        mark(&mut held, batch);
        self.add_tree(written.root, held);
        self.records.push(Record::Insert { who, root, batch: datoms, written });
        true
    }

    /// Has both oracles write. The plain one is given up when it differs; if it must not, nothing is
    /// written and there is no answer, as where the store would grow too large.
    fn write<Call>(&mut self, call: Call, must_agree: bool) -> Option<(Who, Written)>
    where Call: Fn(Oracle, &mut Pages) -> Result<u64, Panic> {
        let before = self.patched.count();
        let root = call(PATCHED, &mut self.patched).expect("the patched Rust takes any batch in its domain");
        let agrees = match &mut self.plain {
            Some(plain) => call(PLAIN, plain) == Ok(root) && plain.bytes_from(before) == self.patched.bytes_from(before),
            None => false,
        };
        if self.patched.bytes().len() > LARGEST_STORE || (must_agree && !agrees) {
            self.patched.truncate(before);
            self.plain.iter_mut().for_each(|plain| plain.truncate(before));
            return None;
        }
        if !agrees {
            self.plain = None;
        }
        let pages = self.carry(self.patched.bytes_from(before));
        Some((self.who(), Written { root, count: self.patched.count() - before, pages }))
    }

    /// Lists and checks after a batch, and now and then starts another tree.
    fn look(&mut self) {
        if self.trees.is_empty() {
            return;
        }
        for _ in 0..1 + self.random.below(2) {
            let at = self.some_tree();
            self.list(at);
        }
        if self.random.one_in(3) {
            let at = self.some_tree();
            self.check(self.trees[at].root);
        }
        if self.random.one_in(20) && self.shape.branching && !self.shape.agreeing {
            let size = self.random.pick(self.shape.sizes);
            self.initialise(size);
        }
    }

    fn list(&mut self, at: usize) {
        let tree = &self.trees[at];
        let one = self.supply.bound(&tree.held, &mut self.random);
        let other = self.supply.bound(&tree.held, &mut self.random);
        let (lower, upper) = if self.supply.compare(&one, &other).is_le() { (one, other) } else { (other, one) };
        let listed = listing(PATCHED, &self.patched, tree.root, &lower, &upper);
        assert_eq!(listed, self.supply.listing(&tree.held, &lower, &upper), "a tree lists what was put in");
        if let Some(plain) = &self.plain {
            assert_eq!(listing(PLAIN, plain, tree.root, &lower, &upper), listed, "the plain Rust lists equal pages alike");
        }
        let bytes = datom_bytes(&listed);
        let is_short = self.shape.raw && listed.len() <= LISTED_RAW;
        let datoms = if is_short { Carried::Raw(bytes) } else { Carried::Digest(digest(&bytes)) };
        let count = listed.len() as u64;
        self.records.push(Record::List { who: self.who(), root: tree.root, lower, upper, count, datoms });
    }

    fn check(&mut self, root: u64) {
        let verdict = PATCHED.check(&self.patched, root);
        if let Some(plain) = &self.plain {
            assert_eq!(PLAIN.check(plain, root), verdict, "the plain Rust checks equal pages alike");
        }
        assert!(self.is_damaged || verdict == Verdict::Sound, "a tree is sound until it is damaged");
        let fault = match verdict {
            Verdict::Sound => None,
            Verdict::Unsound(page, _) => Some(page),
        };
        self.records.push(Record::Check { who: self.who(), root, fault });
    }

    /// Damages a page, checks, and mostly repairs it again.
    fn damage(&mut self) {
        let at = self.some_tree();
        let root = self.trees[at].root;
        let Some((page, bytes)) = readable_damage(&self.patched, root, &self.supply, &mut self.random) else {
            return;
        };
        let old = self.patched.page(page).expect("the page to damage").to_vec();
        self.is_damaged = true;
        self.poke(page, bytes);
        self.check(root);
        if self.random.one_in(3) {
            // Any page is the root of the tree below it.
            let elsewhere = self.random.below(self.patched.count() as usize) as u64;
            self.check(elsewhere);
        }
        if !self.random.one_in(4) {
            self.poke(page, old);
        }
    }

    fn poke(&mut self, page: u64, bytes: Vec<u8>) {
        self.patched.replace(page, &bytes);
        self.plain.iter_mut().for_each(|plain| plain.replace(page, &bytes));
        self.records.push(Record::Poke { page, bytes });
    }

    fn finish(self, number: u64) -> Vec<Record> {
        let (page_size, room) = (self.shape.page_size as u64, self.patched.count());
        let heap_room = self.patched.heap().bytes().len();
        assert!(heap_room <= LARGEST_HEAP, "a heap of {} bytes is too long", heap_room);
        let mut records = vec![Record::Begin { page_size, room, history: number, heap_room: heap_room as u64 }];
        records.extend(self.records);
        records.push(Record::End { count: room, digest: digest(self.patched.bytes()) });
        records
    }

    /// The empty tree has no root to go on from.
    fn add_tree(&mut self, root: u64, held: Held) {
        if root != NONE {
            self.trees.push(Tree { root, held });
        }
    }

    /// Mostly the newest tree.
    fn some_tree(&mut self) -> usize {
        if self.random.one_in(4) { self.random.below(self.trees.len()) } else { self.trees.len() - 1 }
    }

    fn who(&self) -> Who {
        if self.plain.is_some() { Who::Both } else { Who::Patched }
    }

    fn carry(&self, bytes: &[u8]) -> Carried {
        if self.shape.raw && bytes.len() + BESIDE_PAGES <= LONGEST_RECORD {
            Carried::Raw(bytes.to_vec())
        } else {
            Carried::Digest(digest(bytes))
        }
    }
}

fn mark(held: &mut Held, batch: &[usize]) {
    for &i in batch {
        held[i] = true;
    }
}

fn listing(oracle: Oracle, pages: &Pages, root: u64, lower: &Datom, upper: &Datom) -> Vec<Datom> {
    let mut listed = Vec::new();
    oracle.list(pages, root, lower, upper, &mut listed).expect("the Rust lists any tree in its domain");
    listed
}
