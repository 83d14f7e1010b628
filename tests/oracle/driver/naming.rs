//! Histories that show the names of faults: a small tree that the patched oracle builds, its pages damaged one at a time, and what the
//! calls that name a fault then answer, by the judge.

use std::rc::Rc;

use harness::{
    bad_constant, spoiled, By, Datom, Heap, Held, Kind, Node, Oracle, Order, Pages, Plan, Random, Rule, Supply, Which, Word, MALFORMED, MAX_VALUE,
    NONE,
};

use crate::harm::{doubled, out_of_bounds, read, real_children, Harm, Harmed, PAIRS};
use crate::judge::judge;
use crate::model::{Cursor, Model, Step};
use crate::names::{Fault, Names};
use crate::recording::{digest, heap_records, Carried, Question, Record, Stored, Who, Written};

const PATCHED: Oracle = Oracle { which: Which::Patched, by: By::Noblit };

/// Among so many bounds or batches one is sought that meets the damage.
const CANDIDATES: usize = 200;

/// After one damage in so many a call is recorded that does not meet it.
const BESIDE_EVERY: usize = 4;

/// How often damage is sought that a step meets as an equal datom.
const DOUBLINGS: usize = 20;

/// How many bounds have a constant that is not valid.
const BAD_BOUNDS: usize = 24;

/// How often the calls are made in each of the other orders.
const OTHER_LOOKS: usize = 4;

/// How many constants are spoiled.
const SPOILED: usize = 12;

/// Numbers that no order has; of some the low bits are those of one.
const UNKNOWN_ORDERS: [u64; 4] = [3, 256, 1 << 32, u64::MAX];

const LOWEST: Datom = [0; 4];
const HIGHEST: Datom = [u64::MAX, u64::MAX, MAX_VALUE, u64::MAX];

/// The tree of a history.
#[derive(Clone, Copy)]
pub struct Planted {
    pub page_size: usize,
    pub order: Order,
    pub kind: Kind,
    /// The sizes of the batches, the first one's that of initialise. There are two or more, so that the root is not page 0.
    pub batches: &'static [usize],
    pub height: usize,
    /// Whether the calls are also made in the other orders, and in those that there are not.
    pub in_all_orders: bool,
    /// Whether its pages are damaged.
    pub is_harmed: bool,
}

struct Scene<'a> {
    random: Random,
    supply: Supply,
    pages: Pages,
    root: u64,
    held: Held,
    /// What the store's record says, where every call refuses it.
    refused: Option<Stored>,
    /// Those of a listing of the whole tree, before any damage.
    cursors: Vec<Cursor>,
    records: Vec<Record>,
    names: &'a mut Names,
}

/// Records the history with this number, which also seeds its random numbers.
pub fn record_names(number: u64, seed: u64, planted: Planted, names: &mut Names) -> Vec<Record> {
    let mut random = Random::new(seed.wrapping_mul(1_000_003).wrapping_add(number));
    let supply = Supply::new(planted.kind, 3 * planted.batches.iter().sum::<usize>(), planted.order, &mut random);
    let mut scene = Scene::new(Pages::new(planted.page_size, planted.order), supply, random, names);
    scene.plant(planted);
    scene.ask_all(1);
    scene.ask_at_none();
    scene.ask_made_up();
    if planted.kind.is_long() {
        scene.ask_constants();
    }
    if planted.in_all_orders {
        scene.ask_in_other_orders();
        scene.ask_in_no_order();
    }
    if planted.is_harmed {
        for (page, bytes) in scene.harms(planted.height) {
            scene.harmed(page, bytes);
        }
        if planted.kind.is_long() {
            scene.spoil();
        }
    }
    scene.finish(number)
}

/// Document 01's Damaged by "a merge into that page meets an equal datom": d0 is pending above page 0, which holds it, and a batch of
/// five more sends it there.
pub fn record_merge(number: u64, names: &mut Names) -> Vec<Record> {
    let example = |k: u64| [k, 1, k, 3];
    let mut random = Random::new(number);
    let supply = Supply::new(Kind::Counted, 8, Order::Eavt, &mut random);
    let mut scene = Scene::new(Pages::new(256, Order::Eavt), supply, random, names);
    scene.write((0..7).map(example).collect());
    scene.write(vec![example(7)]);
    let node = Node { level: 1, datoms: vec![example(0), example(3)], children: vec![NONE, 0, 1] };
    let mut bytes = vec![0; 256];
    node.encode_over(&mut bytes);
    let old = scene.poke(3, bytes);
    let batch: Vec<Datom> = (0..5).map(|k| [0, 2, k, 3]).collect();
    scene.ask(3, Question::InsertNamed { batch: batch.clone() }).expect("equal datoms are met");
    // The tree is sound, and holds none of the batch.
    scene.ask(3, Question::Check).expect("an answer to any check");
    scene.ask(3, Question::Held { batch }).expect("an answer to any batch");
    scene.poke(3, old);
    scene.finish(number)
}

impl<'a> Scene<'a> {
    fn new(pages: Pages, supply: Supply, random: Random, names: &'a mut Names) -> Scene<'a> {
        let (order, held) = (pages.order(), supply.nothing_held());
        let heap = Rc::clone(supply.heap());
        let mut scene = Scene { random, supply, pages, root: NONE, held, refused: None, cursors: Vec::new(), records: Vec::new(), names };
        if order != Order::Eavt {
            scene.set_order(order);
        }
        scene.set_heap(&heap);
        scene
    }

    /// The store's record says this order from here on.
    fn set_order(&mut self, order: Order) {
        self.pages.set_order(order);
        self.refused = None;
        self.records.push(Record::Stored(self.stored()));
    }

    /// The store's record is this one from here on, which every call refuses.
    fn refuse(&mut self, stored: Stored) {
        self.refused = Some(stored);
        self.records.push(Record::Stored(stored));
    }

    fn stored(&self) -> Stored {
        self.refused.unwrap_or(Stored::of(&self.pages))
    }

    /// The heap is this one from here on, which is as long or longer.
    fn set_heap(&mut self, heap: &Rc<Heap>) {
        self.records.extend(heap_records(self.pages.heap().bytes(), heap.bytes()));
        self.pages.set_heap(heap);
    }

    fn plant(&mut self, planted: Planted) {
        for &size in planted.batches {
            let batch = self.supply.batch(&self.held, Plan::Scattered, size, &mut self.random);
            batch.iter().for_each(|&i| self.held[i] = true);
            self.write(self.supply.datoms(&batch));
        }
        assert_eq!(read(&self.pages, self.root).level as usize + 1, planted.height, "the height that is asked for");
        self.cursors = self.listed();
    }

    /// Initialise at first, then insert at the newest root.
    fn write(&mut self, batch: Vec<Datom>) {
        let (given, before, who) = (self.root, self.pages.count(), Who::Patched);
        let root = match given {
            NONE => PATCHED.initialise(&mut self.pages, &batch),
            _ => PATCHED.insert(&mut self.pages, given, &batch),
        };
        self.root = root.expect("the patched Rust takes any batch in its domain");
        let pages = Carried::Digest(digest(self.pages.bytes_from(before)));
        let written = Written { root: self.root, count: self.pages.count() - before, pages };
        self.records.push(match given {
            NONE => Record::Initialise { who, batch, written },
            _ => Record::Insert { who, root: given, batch, written },
        });
    }

    /// Every cursor of a listing of the whole tree, that at the end too.
    fn listed(&self) -> Vec<Cursor> {
        let model = Model { pages: &self.pages };
        let mut cursors = vec![model.start(self.root, &LOWEST, &HIGHEST).expect("a sound tree")];
        while let Step::Yields(_, next) = model.step(&cursors[cursors.len() - 1]) {
            cursors.push(next);
        }
        cursors
    }

    /// Every rule of a readable page at every level, and what else can be wrong with a page.
    fn harms(&mut self, height: usize) -> Vec<Harmed> {
        let mut wanted: Vec<(usize, Harm)> = Vec::new();
        for level in 0..height {
            wanted.extend(Rule::ALL.map(|rule| (level, Harm::One(rule))));
            wanted.extend([(level, Harm::Elsewhere(Rule::Form)), (level, Harm::Misplaced)]);
        }
        // A leaf has no child to keep but the last.
        let twice = PAIRS.into_iter().filter(|&(rule, _)| height > 1 || rule != Rule::LastChild);
        wanted.extend(twice.enumerate().map(|(i, (rule, behind))| (i % height, Harm::Two(rule, behind))));
        let mut harms = Vec::new();
        for (level, harm) in wanted {
            let page = self.some_page(level);
            harms.push(harm.of(&self.pages, page, &mut self.random).unwrap_or_else(|| panic!("no {:?} of page {}", harm, page)));
        }
        if height > 1 {
            harms.extend(self.harms_between_pages(height));
        }
        harms
    }

    /// What can be wrong with a page only beside another.
    fn harms_between_pages(&mut self, amount: usize) -> Vec<Harmed> {
        let mut harms = vec![self.doubled().expect("a pending datom that the page below it has room for")];
        for _ in 0..amount {
            harms.push(out_of_bounds(&self.pages, self.root, &self.supply, &mut self.random).expect("bounds to be broken"));
        }
        harms
    }

    /// A page of this level on some way down, but not page 0, of which any child breaks the rule of child ids.
    fn some_page(&mut self, level: usize) -> u64 {
        let mut page = self.root;
        loop {
            let node = read(&self.pages, page);
            if node.level as usize == level {
                return page;
            }
            let children: Vec<u64> = real_children(&node).into_iter().filter(|&child| child > 0).collect();
            page = self.random.pick(&children);
        }
    }

    /// Damage that a step of the whole listing meets as an equal datom.
    fn doubled(&mut self) -> Option<Harmed> {
        (0..DOUBLINGS).find_map(|_| {
            let (page, bytes) = doubled(&self.pages, self.root, &mut self.random)?;
            let mut pages = self.pages.clone();
            pages.replace(page, &bytes);
            let model = Model { pages: &pages };
            let meets = |cursor: &Cursor| matches!(model.step(cursor), Step::Refused(damaged) if damaged.fault == Fault::EqualDatoms);
            if self.cursors.iter().any(meets) { Some((page, bytes)) } else { None }
        })
    }

    /// The calls while a page is damaged; then it is repaired.
    fn harmed(&mut self, page: u64, bytes: Vec<u8>) {
        let old = self.poke(page, bytes);
        self.ask_all(BESIDE_EVERY);
        self.poke(page, old);
    }

    /// The calls while a constant that the tree holds is not as it was laid, one after the other.
    fn spoil(&mut self) {
        let sound = Rc::clone(self.pages.heap());
        let held: Vec<usize> = (0..self.held.len()).filter(|&i| self.held[i]).collect();
        let words: Vec<u64> = self.supply.datoms(&held).iter().map(|datom| datom[2]).filter(|&word| Word::of(word).is_long()).collect();
        for _ in 0..SPOILED {
            let word = self.random.pick(&words);
            let heap = Rc::new(spoiled(&sound, word, &mut self.random));
            self.set_heap(&heap);
            self.ask_all(BESIDE_EVERY);
            self.set_heap(&sound);
        }
    }

    /// The page's bytes before.
    fn poke(&mut self, page: u64, bytes: Vec<u8>) -> Vec<u8> {
        let old = self.pages.page(page).expect("a page in use").to_vec();
        self.pages.replace(page, &bytes);
        self.records.push(Record::Poke { page, bytes });
        old
    }

    /// Of each call one that names a fault, if there is one, and now and then one that does not.
    fn ask_all(&mut self, beside_every: usize) {
        for questions in [self.checks(), self.starts(), self.steps(), self.asked(), self.inserts()] {
            let is_beside = self.random.one_in(beside_every);
            for is_naming in [true, false] {
                let fits = |(root, question): &&(u64, Question)| {
                    judge(&self.stored(), &self.pages, *root, question).is_ok_and(|judged| judged.named.is_some() == is_naming)
                };
                if let Some((root, question)) = questions.iter().find(fits).filter(|_| is_naming || is_beside) {
                    self.ask(*root, question.clone()).expect("an answer, as before");
                }
            }
        }
    }

    /// At the root; and at other pages, each of which is the root of the tree below it.
    fn checks(&mut self) -> Vec<(u64, Question)> {
        let count = self.pages.count() as usize;
        let roots = (0..CANDIDATES).map(|i| if i == 0 { self.root } else { self.random.below(count) as u64 });
        roots.map(|root| (root, Question::Check)).collect()
    }

    fn starts(&mut self) -> Vec<(u64, Question)> {
        (0..CANDIDATES).map(|_| {
            let one = self.supply.bound(&self.held, &mut self.random);
            let other = self.supply.bound(&self.held, &mut self.random);
            let (lower, upper) = if self.pages.compare(&one, &other).is_le() { (one, other) } else { (other, one) };
            (self.root, Question::Start { lower, upper })
        }).collect()
    }

    /// With cursors that were good before the damage.
    fn steps(&mut self) -> Vec<(u64, Question)> {
        let mut cursors = self.cursors.clone();
        self.random.shuffle(&mut cursors);
        cursors.into_iter().map(step_of).collect()
    }

    fn asked(&mut self) -> Vec<(u64, Question)> {
        self.batches().into_iter().map(|batch| (self.root, Question::Held { batch })).collect()
    }

    /// Inserts that their lookups refuse: one that comes to writing may need room, and the store has none.
    fn inserts(&mut self) -> Vec<(u64, Question)> {
        let mut batches = self.batches();
        batches.retain(|batch| Model { pages: &self.pages }.first_met(self.root, batch) != Ok(None));
        batches.into_iter().map(|batch| (self.root, Question::InsertNamed { batch })).collect()
    }

    /// Batches that the tree held before the damage, or did not hold, or held in part, in turns.
    fn batches(&mut self) -> Vec<Vec<Datom>> {
        let not_held: Held = self.held.iter().map(|is_held| !is_held).collect();
        let none = self.supply.nothing_held();
        (0..CANDIDATES).map(|i| {
            let left_out = [&not_held, &self.held, &none][i % 3];
            let size = 1 + self.random.below(4);
            let mut batch = self.supply.datoms(&self.supply.batch(left_out, Plan::Scattered, size, &mut self.random));
            // It rises in the order that the store is read in, which may be another than the supply's.
            batch.sort_by(|left, right| self.pages.compare(left, right));
            batch
        }).collect()
    }

    /// Root none reads no page.
    fn ask_at_none(&mut self) {
        let batch = vec![self.supply.any(&mut self.random)];
        let (lower, upper) = (LOWEST, HIGHEST);
        for question in [Question::Check, Question::Start { lower, upper }, Question::Held { batch }] {
            self.ask(NONE, question).expect("an answer at root none");
        }
    }

    /// Bounds and batches with a constant that is not valid, and with one that the tree holds at another offset.
    fn ask_constants(&mut self) {
        let places: Vec<usize> = (0..self.held.len()).filter(|&i| self.held[i]).collect();
        let twins = self.supply.datoms(&places).into_iter().find_map(|datom| Some((datom, self.supply.twin(&datom)?)));
        let (datom, twin) = twins.expect("a constant at two offsets");
        let with = |value: u64| [datom[0], datom[1], value, datom[3]];
        let (bad, malformed) = (with(bad_constant(self.pages.heap(), &mut self.random)), with(MAX_VALUE));
        for (lower, upper) in [(LOWEST, twin), (datom, twin), (twin, HIGHEST)] {
            self.ask(self.root, Question::Start { lower, upper }).expect("an answer to any bounds");
        }
        for _ in 0..BAD_BOUNDS {
            let bad = with(bad_constant(self.pages.heap(), &mut self.random));
            let (lower, upper) = if self.random.one_in(2) { (bad, HIGHEST) } else { (LOWEST, bad) };
            self.ask(self.root, Question::Start { lower, upper }).expect("an answer to any bounds");
        }
        let batches =
            [vec![bad], vec![bad, malformed], vec![datom, bad, twin, bad], vec![datom, twin], vec![twin, datom], vec![twin]];
        for batch in batches {
            self.ask(self.root, Question::Held { batch: batch.clone() }).expect("an answer to any batch");
            self.ask(self.root, Question::InsertNamed { batch }).expect("an insert that is refused");
        }
    }

    /// The tree as it is, in each of the orders that it was not built in: what is damaged then, and what happens to be readable.
    fn ask_in_other_orders(&mut self) {
        let own = self.pages.order();
        for order in Order::ALL.into_iter().filter(|&order| order != own) {
            self.set_order(order);
            for _ in 0..OTHER_LOOKS {
                self.ask_all(1);
            }
        }
        self.set_order(own);
    }

    /// Orders that there are not, of a store that is refused by 1 or is not: "13 BadOrder for an unknown order number, straight after 1". What
    /// the calls are given is good, or would be refused behind 13.
    fn ask_in_no_order(&mut self) {
        let good = self.stored();
        for order in UNKNOWN_ORDERS {
            self.refuse(Stored { order, ..good });
            self.ask_whatever();
        }
        let order = UNKNOWN_ORDERS[0];
        for stored in [
            Stored { page_size: 512, order, ..good },
            Stored { page_count: u64::MAX, order, ..good },
            Stored { heap_length: good.heap_length + 4, order, ..good },
        ] {
            self.refuse(stored);
            self.ask_whatever();
        }
        self.set_order(self.pages.order());
    }

    /// Each call, with what is good and with what another number is for: 5, 10, 3, and a cursor that is too high.
    fn ask_whatever(&mut self) {
        let (good, malformed) = (self.supply.any(&mut self.random), [1, 1, MAX_VALUE, 1]);
        let past = self.pages.count();
        let asked = [
            (self.root, Question::Check),
            (past, Question::Check),
            (self.root, Question::Start { lower: LOWEST, upper: HIGHEST }),
            (self.root, Question::Start { lower: LOWEST, upper: [1, 1, MALFORMED[1], 1] }),
            step_of(self.cursors[0]),
            step_of(Cursor { height: 9, ..Cursor::default() }),
            (self.root, Question::Held { batch: vec![good] }),
            (past, Question::Held { batch: vec![malformed] }),
            (self.root, Question::InsertNamed { batch: vec![good] }),
            (past, Question::InsertNamed { batch: vec![malformed] }),
        ];
        for (root, question) in asked {
            self.ask(root, question).expect("an answer of any record");
        }
    }

    /// Cursors that no listing of this tree makes, and the two ways in which one has ended.
    fn ask_made_up(&mut self) {
        let good = self.cursors[self.random.below(self.cursors.len() - 1)];
        for cursor in self.made_up(good) {
            let (root, question) = step_of(cursor);
            self.ask(root, question).expect("an answer to any cursor");
        }
    }

    fn made_up(&self, good: Cursor) -> Vec<Cursor> {
        let (top, count) = (good.height as usize - 1, self.pages.count());
        let with = |change: &dyn Fn(&mut Cursor)| {
            let mut cursor = good;
            change(&mut cursor);
            cursor
        };
        let raised = |index: u64| with(&|cursor| {
            cursor.height = good.height + 1;
            (cursor.begin.pages[top + 1], cursor.begin.indices[top + 1]) = (good.begin.pages[top], index);
            cursor.end.indices[top + 1] = 1;
        });
        let counts: Vec<u64> = good.begin.pages[..top + 1].iter().map(|&page| read(&self.pages, page).datoms.len() as u64).collect();
        vec![
            with(&|cursor| cursor.height = 9),
            with(&|cursor| cursor.height = u64::MAX),
            Cursor { height: 9, ..Cursor::default() },
            with(&|cursor| cursor.begin.pages[top] = count),
            with(&|cursor| cursor.begin.pages[0] = NONE),
            with(&|cursor| cursor.begin.indices[top] = counts[top] + 1),
            with(&|cursor| cursor.begin.indices[0] = u64::MAX),
            // Two pages are at fault: the higher one is opened first.
            with(&|cursor| (cursor.begin.indices[top], cursor.begin.pages[0]) = (counts[top] + 1, NONE)),
            // The page of the top level one level higher; the level is asked before the index.
            raised(0),
            raised(u64::MAX),
            // Behind every datom, and yet not at the end.
            with(&|cursor| {
                cursor.begin.indices[..top + 1].copy_from_slice(&counts);
                cursor.end.indices[0] = counts[0] + 1;
            }),
            // Places past the height are not used.
            with(&|cursor| (cursor.begin.indices[7], cursor.begin.pages[7]) = (77, 777)),
            with(&|cursor| cursor.end = cursor.begin),
            Cursor::default(),
        ]
    }

    /// Records what the judge answers.
    fn ask(&mut self, root: u64, question: Question) -> Result<(), String> {
        let judged = judge(&self.stored(), &self.pages, root, &question)?;
        if let Some(damaged) = judged.named {
            self.names.add(question.naming(), damaged.fault);
        }
        self.records.push(Record::Named { root, question, answer: judged.answer });
        Ok(())
    }

    fn finish(self, number: u64) -> Vec<Record> {
        let (page_size, room) = (self.pages.page_size() as u64, self.pages.count());
        let heap_room = self.pages.heap().bytes().len() as u64;
        let end = Record::End { count: room, digest: digest(self.pages.bytes()) };
        [Record::Begin { page_size, room, history: number, heap_room }].into_iter().chain(self.records).chain([end]).collect()
    }
}

fn step_of(cursor: Cursor) -> (u64, Question) {
    (0, Question::Step { cursor: cursor.bytes() })
}
