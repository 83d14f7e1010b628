//! One random history: a store, the trees in it, and every call made on it answered by both sides.

mod breaking;
mod damage;
mod laying;
mod reading;
mod wrong;

use harness::{
    bad_constant, Answer, By, Datom, Held, Kind, Node, Oracle, Order, Pages, Panic, Plan, Random, Supply, Which, MALFORMED, MAX_VALUE, NONE,
};

use crate::library::{bytes_of, call, call_named, datoms_of, scratch_need, Beside, Call, Entry, Lent, RECORD_BYTES};
use crate::names::{Damaged, Naming};
use crate::reader::{same, Difference};
use crate::store::Store;
use crate::tally::{Asking, Tally};
use damage::Damage;
use reading::Reading;
use wrong::{some_heap_length, some_order, RECORDS};

/// Among how many batches one is sought on which both builds of the Rust agree.
const CANDIDATES: usize = 30;

const MOST: usize = 128;

/// One in so many inserts is made by the entry that names, too; of those that are Damaged each.
const NAMED_BESIDE: usize = 3;

/// How a history is made.
#[derive(Clone, Copy, Debug)]
pub struct Shape {
    pub page_size: usize,
    pub kind: Kind,
    pub plan: Plan,
    pub order: Order,
    /// Whose comparator the Rust is given.
    pub by: By,
    pub supply: usize,
    /// How many batches of 128 come first, with nothing between them: wide pages need so many for a third level.
    pub planted: usize,
    /// How many batches there are at most behind them.
    pub batches: usize,
    /// How large the largest batch is.
    pub largest: usize,
    /// How large the store may get, in bytes.
    pub room: usize,
    /// Whether batches are preferred on which both builds of the Rust agree.
    pub agreeing: bool,
    /// One in so many batches starts another tree in the same store.
    pub restarting: usize,
    /// One in so many batches goes to an older root.
    pub branching: usize,
    /// One in so many batches has the store cut at every page.
    pub cutting: usize,
}

struct Tree {
    root: u64,
    held: Held,
    /// The tree that the batch went to, and the batch.
    parent: Option<usize>,
    batch: Vec<usize>,
}

pub struct History<'a> {
    shape: Shape,
    random: Random,
    supply: Supply,
    store: Store,
    heap: Store,
    /// How many constants of the supply are on the heap.
    laid: usize,
    scratch: Lent,
    need: usize,
    patched: Pages,
    /// The plain build's store, as long as it has the same pages.
    plain: Option<Pages>,
    trees: Vec<Tree>,
    tally: &'a mut Tally,
    /// The calls that wrote, for the report of a difference, and then the last call.
    written: Vec<(Entry, Vec<Datom>)>,
    last: Option<Last>,
    /// The call that reads, if that is the last one, and the page that is not as it was written.
    reading: Option<Reading>,
    damage: Option<Damage>,
    /// What was done to the heap, as commands, where it is not as it was laid.
    spoiled: Option<String>,
}

/// A call to the library.
struct Last {
    entry: Entry,
    batch: Vec<u8>,
    /// Page size, page count, heap length, order, bytes of the record, pages and bytes of room, scratch, area.
    beside: [u64; 9],
}

/// What a call that writes is told of the store and the heap, and how many bytes of the heap it is lent behind its length.
#[derive(Clone, Copy)]
struct Lending {
    page_size: u64,
    page_count: u64,
    heap_length: u64,
    order: u64,
    record: usize,
    heap_behind: usize,
}

/// What a call that writes answered, and what the entry that names answered to the same insert, if it was made beside it.
struct Told {
    asking: Asking,
    answer: Answer,
    named: Option<Answer>,
}

impl<'a> History<'a> {
    pub fn new(shape: Shape, seed: u64, tally: &'a mut Tally) -> History<'a> {
        let mut random = Random::new(seed);
        let supply = Supply::new(shape.kind, shape.supply, shape.order, &mut random);
        let need = scratch_need(shape.page_size);
        History {
            shape,
            supply,
            store: Store::new(shape.page_size, &mut random),
            heap: Store::heap(&mut random),
            laid: 0,
            scratch: Lent::of_length(need + 64, &mut random),
            need,
            patched: Pages::new(shape.page_size, shape.order),
            plain: Some(Pages::new(shape.page_size, shape.order)),
            trees: Vec::new(),
            tally,
            written: Vec::new(),
            last: None,
            reading: None,
            damage: None,
            spoiled: None,
            random,
        }
    }

    /// Runs the history; a difference ends it.
    pub fn run(&mut self) -> Result<(), Difference> {
        self.tally.histories += 1;
        self.lay()?;
        for _ in 0..self.shape.planted {
            self.plant()?;
        }
        for _ in 0..self.shape.batches {
            if self.patched.bytes().len() > self.shape.room {
                break;
            }
            let is_new = self.trees.is_empty() || self.random.one_in(self.shape.restarting);
            if is_new { self.start()? } else { self.grow()? }
            self.refusals()?;
            self.readings()?;
        }
        self.compare_whole()
    }

    /// What shows a difference, as commands of the oracle's driver: the calls that wrote, and the last one.
    pub fn transcript(&self) -> String {
        let mut text = format!("order {}\nsize {}\n", self.shape.order.name(), self.shape.page_size);
        text.push_str(&self.appends());
        for (entry, batch) in &self.written {
            text.push_str(&command(*entry, batch));
        }
        if let Some(damage) = &self.damage {
            text.push_str(&damage.commands());
        }
        text.push_str(self.spoiled.as_deref().unwrap_or(""));
        if self.patched.order() != self.shape.order {
            text.push_str(&format!("order {}\n", self.patched.order().name()));
        }
        if let Some(reading) = &self.reading {
            text.push_str(&reading.command());
        } else if let Some(last) = &self.last {
            let [size, count, heap, order, record, more, rest, scratch, area] = last.beside;
            text.push_str(&command(last.entry, &datoms_of(&last.batch)));
            text.push_str(&format!(
                "# the last with page size {}, count {}, heap length {}, order {}, a record of {} bytes, room for {} pages and {} bytes more, \
                 {} bytes of batch, {} of scratch, {} of area\n",
                size, count, heap, order, record, more, rest, last.batch.len(), scratch, area,
            ));
        }
        text
    }

    /// As much as a batch may have, at the newest root.
    fn plant(&mut self) -> Result<(), Difference> {
        let parent = self.trees.len().checked_sub(1);
        let (entry, held) = match self.trees.last() {
            Some(tree) => (Entry::Insert(tree.root), tree.held.clone()),
            None => (Entry::Initialise, self.supply.nothing_held()),
        };
        self.tally.initialised += parent.is_none() as u64;
        let batch = self.supply.batch(&held, self.shape.plan, MOST, &mut self.random);
        let datoms = self.supply.datoms(&batch);
        self.write(entry, &datoms, parent, batch, held, true).map(|_| ())
    }

    /// A new tree in the store, by initialise or by an insert at none.
    fn start(&mut self) -> Result<(), Difference> {
        let at_none = self.random.one_in(3);
        let entry = if at_none { Entry::Insert(NONE) } else { Entry::Initialise };
        for last in (0..self.candidates()).rev() {
            let held = self.supply.nothing_held();
            let size = self.size();
            let batch = self.supply.batch(&held, self.shape.plan, size, &mut self.random);
            let mut datoms = self.supply.datoms(&batch);
            if !at_none {
                self.random.shuffle(&mut datoms);
            }
            if self.write(entry, &datoms, None, batch, held, last == 0)? {
                self.tally.initialised += 1;
                return Ok(());
            }
        }
        Ok(())
    }

    /// A batch at the newest root, or at an older one.
    fn grow(&mut self) -> Result<(), Difference> {
        let newest = self.trees.len() - 1;
        let at = if self.random.one_in(self.shape.branching) { self.random.below(newest + 1) } else { newest };
        let root = self.trees[at].root;
        for last in (0..self.candidates()).rev() {
            let size = self.size();
            let held = self.trees[at].held.clone();
            let batch = self.supply.batch(&held, self.shape.plan, size, &mut self.random);
            if last == 0 {
                self.lay_anew(&batch)?;
            }
            let datoms = self.supply.datoms(&batch);
            if self.write(Entry::Insert(root), &datoms, Some(at), batch, held, last == 0)? {
                self.tally.branched += (at != newest) as u64;
                return Ok(());
            }
        }
        Ok(())
    }

    fn candidates(&self) -> usize {
        if self.shape.agreeing && self.plain.is_some() { CANDIDATES } else { 1 }
    }

    /// Mostly up to the largest of this history; now and then nothing, or as much as there may be.
    fn size(&mut self) -> usize {
        match self.random.below(40) {
            0 => 0,
            1 => MOST,
            _ => 1 + self.random.below(self.shape.largest),
        }
    }

    /// Has the Rust write a batch, then the library; false if the builds of the Rust do not agree and must.
    fn write(
        &mut self, entry: Entry, datoms: &[Datom], parent: Option<usize>, batch: Vec<usize>, mut held: Held, may_differ: bool,
    ) -> Result<bool, Difference> {
        let before = self.patched.count();
        let patched = Oracle { which: Which::Patched, by: self.shape.by };
        let root = ask(patched, &mut self.patched, entry, datoms)
            .map_err(|panic| format!("the patched Rust panics: {}: {}", panic.message, command(entry, datoms)))?;
        for &i in &batch {
            held[i] = true;
        }
        if !self.ask_plain(entry, datoms, root, before, &held, may_differ)? {
            self.patched.truncate(before);
            return Ok(false);
        }
        let pages = self.patched.bytes_from(before).to_vec();
        let count = self.patched.count() - before;
        self.store.make_room(count as usize, &mut self.random);
        if self.random.one_in(self.shape.cutting) {
            self.cut(entry, datoms, &pages)?;
        }
        let (more, rest) = if self.random.one_in(2) { (count as usize, 0) } else { (count as usize + 1, self.random.below(64)) };
        let answer = self.call(entry, &bytes_of(datoms), more, rest)?;
        self.expect(answer, Answer::done(root, count), &pages)?;
        self.store.grow(&pages);
        self.compare_whole()?;
        self.written.push((entry, datoms.to_vec()));
        self.tally.batches += 1;
        self.tally.orders[self.shape.order as usize] += 1;
        self.tally.with_long += u64::from(batch.iter().any(|&i| self.supply.is_long(i)));
        self.tally.datoms += datoms.len() as u64;
        self.tally.pages += count;
        if root != NONE {
            let level = node(&self.patched, root).level as usize;
            self.tally.heights[level] += 1;
            self.trees.push(Tree { root, held, parent, batch });
        }
        Ok(true)
    }

    /// Whether the plain Rust agrees, or need not. Where it differs it must have lost a datom, which is how it leaves its domain.
    fn ask_plain(
        &mut self, entry: Entry, datoms: &[Datom], root: u64, before: u64, held: &Held, may_differ: bool,
    ) -> Result<bool, Difference> {
        let Some(plain) = &mut self.plain else {
            return Ok(true);
        };
        let oracle = Oracle { which: Which::Plain, by: self.shape.by };
        let answer = ask(oracle, plain, entry, datoms);
        if answer == Ok(root) && plain.bytes_from(before) == self.patched.bytes_from(before) {
            self.tally.by_plain += 1;
            return Ok(true);
        }
        if !may_differ {
            plain.truncate(before);
            return Ok(false);
        }
        match answer {
            Err(_) => self.tally.plain_panicked += 1,
            Ok(root) => {
                let mut listed = Vec::new();
                let ends = oracle.list(plain, root, &[0; 4], &[u64::MAX, u64::MAX, MAX_VALUE, u64::MAX], &mut listed);
                let held = held.iter().filter(|&&is_held| is_held).count();
                if ends.is_ok() && listed.len() >= held {
                    return Err(format!("the plain Rust writes other pages and has lost no datom: {}", command(entry, datoms)));
                }
                self.tally.plain_lost += 1;
            }
        }
        self.plain = None;
        Ok(true)
    }

    /// With room for fewer pages than the batch writes, those that fit are written and the answer is NoRoom.
    fn cut(&mut self, entry: Entry, datoms: &[Datom], pages: &[u8]) -> Result<(), Difference> {
        let size = self.shape.page_size;
        for fit in 0..pages.len() / size {
            let rest = self.random.pick(&[0, 1, size / 2, size - 1]);
            let answer = self.call(entry, &bytes_of(datoms), fit, rest)?;
            self.expect(answer, entry.refused(9, 0), &pages[..fit * size])?;
            self.store.restore();
            self.tally.cuts += 1;
        }
        Ok(())
    }

    /// Some calls that must be refused and leave the store as it is.
    fn refusals(&mut self) -> Result<(), Difference> {
        if self.trees.is_empty() {
            return Ok(());
        }
        self.store.make_room(64, &mut self.random);
        match self.random.below(11) {
            10 => self.bad_order(),
            0 | 1 => self.resend_there(),
            2 | 3 => self.resend_later(),
            4 | 5 => self.share(),
            6 => self.other_branch(),
            7 => self.bad_store(),
            8 => self.bad_batch(),
            _ => self.damaged(),
        }
    }

    fn some_tree(&mut self) -> usize {
        if self.random.one_in(2) { self.random.below(self.trees.len()) } else { self.trees.len() - 1 }
    }

    /// A batch again at the root it led to.
    fn resend_there(&mut self) -> Result<(), Difference> {
        let at = self.some_tree();
        let batch = self.trees[at].batch.clone();
        if batch.is_empty() {
            return Ok(());
        }
        self.tally.resent_there += 1;
        let datoms = self.by_other_words(&batch);
        self.refuse(Entry::Insert(self.trees[at].root), &datoms, 6, 0)
    }

    /// A batch again at a root that came of the one it led to.
    fn resend_later(&mut self) -> Result<(), Difference> {
        let at = self.some_tree();
        let mut line = vec![];
        let mut above = self.trees[at].parent;
        while let Some(tree) = above {
            if !self.trees[tree].batch.is_empty() {
                line.push(tree);
            }
            above = self.trees[tree].parent;
        }
        if line.is_empty() {
            return Ok(());
        }
        let from = self.random.pick(&line);
        self.tally.resent_later += 1;
        let batch = self.trees[from].batch.clone();
        let batch = self.by_other_words(&batch);
        self.refuse(Entry::Insert(self.trees[at].root), &batch, 6, 0)
    }

    /// A batch not held, but for one datom at any place.
    fn share(&mut self) -> Result<(), Difference> {
        let at = self.some_tree();
        let held: Vec<usize> = (0..self.trees[at].held.len()).filter(|&i| self.trees[at].held[i]).collect();
        if held.is_empty() {
            return Ok(());
        }
        let size = self.size().min(MOST - 1);
        let plan = self.random.pick(&[Plan::Scattered, Plan::Clustered]);
        let mut batch = self.supply.batch(&self.trees[at].held, plan, size, &mut self.random);
        batch.push(self.random.pick(&held));
        batch.sort();
        self.tally.shared += 1;
        self.refuse_first_held(at, &batch)
    }

    /// The batch of one branch at the root of another: refused by the first datom that this one has too.
    fn other_branch(&mut self) -> Result<(), Difference> {
        let (at, from) = (self.some_tree(), self.random.below(self.trees.len()));
        let batch = self.trees[from].batch.clone();
        if !batch.iter().any(|&i| self.trees[at].held[i]) {
            return Ok(());
        }
        self.tally.shared += 1;
        self.refuse_first_held(at, &batch)
    }

    fn refuse_first_held(&mut self, at: usize, batch: &[usize]) -> Result<(), Difference> {
        let tree = &self.trees[at];
        let first = batch.iter().position(|&i| tree.held[i]).expect("a datom that the tree holds");
        let root = tree.root;
        let datoms = self.by_other_words(batch);
        self.refuse(Entry::Insert(root), &datoms, 6, first as u64)
    }

    /// A batch with some of its constants at other offsets, where they stand at two.
    fn by_other_words(&mut self, batch: &[usize]) -> Vec<Datom> {
        let mut datoms = self.supply.datoms(batch);
        for datom in &mut datoms {
            if let Some(twin) = self.supply.twin(datom).filter(|_| self.random.one_in(2)) {
                *datom = twin;
                self.tally.other_words += 1;
            }
        }
        datoms
    }

    fn refuse(&mut self, entry: Entry, datoms: &[Datom], number: u64, detail: u64) -> Result<(), Difference> {
        let (more, rest) = (self.random.below(60), self.random.below(64));
        let answer = self.call(entry, &bytes_of(datoms), more, rest)?;
        self.expect(answer, entry.refused(number, detail), &[])
    }

    fn some_entry(&mut self) -> Entry {
        let at = self.some_tree();
        if self.random.one_in(2) { Entry::Initialise } else { Entry::Insert(self.random.pick(&[NONE, self.trees[at].root])) }
    }

    /// An unknown page size, a count past the slice, a wrong heap length, a wrong record, too little scratch, a wrong area, a root that is
    /// no page.
    fn bad_store(&mut self) -> Result<(), Difference> {
        let entry = self.some_entry();
        let datoms = vec![self.supply.any(&mut self.random)];
        let bytes = bytes_of(&datoms);
        let (size, count) = (self.shape.page_size as u64, self.store.count);
        // "Straight after 1": an order that there is not changes nothing here.
        let order = if self.random.one_in(2) { self.patched.order().number() } else { some_order(&mut self.random) };
        let mut lent = Lending { order, heap_behind: 7, ..self.lending() };
        let (mut scratch, mut area) = (self.need, 32);
        match self.random.below(9) {
            0 => lent.page_size = self.random.pick(&[0, 1, size - 1, size + 1, 512, 1 << 32, u64::MAX]),
            1 => lent.page_count = count + 1,
            2 => lent.page_count = self.random.pick(&[1 << 56, 1 << 63, u64::MAX]),
            3 => scratch = self.random.pick(&[0, 1, self.need / 2, self.need - 1]),
            4 => area = self.random.pick(&[0, 1, 31, 33, 40]),
            5 => lent.record = self.random.pick(&RECORDS),
            6 | 7 => {
                let slice = self.heap.count + 7;
                let is_wrong = |length: &u64| length % 8 != 0 || *length > slice;
                let lengths = std::iter::repeat_with(|| some_heap_length(self.heap.count, slice, &mut self.random));
                lent.heap_length = lengths.into_iter().find(is_wrong).expect("one of them is wrong");
            }
            _ => {
                let root = self.random.pick(&[count, count + 1, NONE - 1]);
                return self.refuse(Entry::Insert(root), &datoms, 5, 0);
            }
        };
        let rest = self.random.below(self.shape.page_size);
        let answer = self.call_with(entry, &bytes, lent, [scratch, area], 0, rest)?;
        self.expect(answer, entry.refused(1, 0), &[])
    }

    /// An order that there is not, with anything that is refused behind it.
    fn bad_order(&mut self) -> Result<(), Difference> {
        let entry = match self.some_entry() {
            Entry::Insert(_) if self.random.one_in(4) => Entry::Insert(self.store.count),
            entry => entry,
        };
        let (any, other) = (self.supply.any(&mut self.random), self.supply.any(&mut self.random));
        let malformed = [any[0], any[1], self.random.pick(&MALFORMED), any[3]];
        let bad = [any[0], any[1], bad_constant(self.patched.heap(), &mut self.random), any[3]];
        let mut bytes = bytes_of(&match self.random.below(6) {
            0 => Vec::new(),
            1 => vec![malformed, any],
            2 => vec![any, bad],
            3 => vec![any, other, any],
            4 => vec![any; MOST + 1],
            _ => vec![any],
        });
        bytes.truncate(bytes.len() - self.random.pick(&[0, 0, 0, 5]).min(bytes.len()));
        let is_unknown = |order: &u64| Order::of_number(*order).is_none();
        let order = std::iter::repeat_with(|| some_order(&mut self.random)).find(is_unknown).expect("one of them is unknown");
        let lent = Lending { order, ..self.lending() };
        let (more, rest) = (self.random.below(60), self.random.below(64));
        let answer = self.call_with(entry, &bytes, lent, [self.need, 32], more, rest)?;
        self.expect(answer, entry.refused(13, 0), &[])
    }

    /// Too many datoms, a part of one, a malformed one, a constant that is not valid, one out of order.
    fn bad_batch(&mut self) -> Result<(), Difference> {
        let entry = self.some_entry();
        let size = 2 + self.random.below(MOST - 1);
        let nothing = self.supply.nothing_held();
        let batch = self.supply.batch(&nothing, Plan::Scattered, size, &mut self.random);
        let mut datoms = self.supply.datoms(&batch);
        let i = self.random.below(datoms.len());
        match self.random.below(5) {
            0 => {
                datoms.resize(MOST + 1, datoms[0]);
                self.refuse(entry, &datoms, 2, 0)
            }
            1 => {
                let mut bytes = bytes_of(&datoms);
                bytes.truncate(bytes.len() - 1 - self.random.below(31));
                let answer = self.call(entry, &bytes, 1, 0)?;
                self.expect(answer, entry.refused(2, 0), &[])
            }
            2 => {
                datoms[i][2] = self.random.pick(&MALFORMED);
                self.bad_behind(i, &mut datoms);
                self.refuse(entry, &datoms, 3, i as u64)
            }
            3 => {
                datoms[i][2] = bad_constant(self.patched.heap(), &mut self.random);
                let (number, index) = self.bad_behind(i, &mut datoms).map_or((11, i), |later| (3, later));
                self.refuse(entry, &datoms, number, index as u64)
            }
            _ => {
                let later = 1 + self.random.below(datoms.len() - 1);
                if entry == Entry::Initialise {
                    self.random.shuffle(&mut datoms);
                }
                let earlier = datoms[self.random.below(later)];
                // "Two offsets with equal content are equal datoms."
                datoms[later] = self.supply.twin(&earlier).inspect(|_| self.tally.other_words += 1).unwrap_or(earlier);
                self.refuse(entry, &datoms, 4, later as u64)
            }
        }
    }

    /// A later datom is malformed, too, or has a constant that is not valid, or none is: of each number the first is named, and "3 is given
    /// for the whole batch before 11". The index of one that is malformed.
    fn bad_behind(&mut self, i: usize, datoms: &mut [Datom]) -> Option<usize> {
        let later = i + 1 + self.random.below(datoms.len() - i);
        let datom = datoms.get_mut(later)?;
        match self.random.below(3) {
            0 => datom[2] = MAX_VALUE,
            1 => datom[2] = bad_constant(self.patched.heap(), &mut self.random),
            _ => {}
        }
        if datom[2] == MAX_VALUE { Some(later) } else { None }
    }

    fn call(&mut self, entry: Entry, batch: &[u8], more: usize, rest: usize) -> Result<Told, Difference> {
        let scratch = self.need + self.random.pick(&[0, 0, 1, 64]);
        let lent = self.lending();
        self.call_with(entry, batch, lent, [scratch, 32], more, rest)
    }

    /// What is true of the store and the heap.
    fn lending(&mut self) -> Lending {
        let heap_behind = self.random.pick(&[0, 1, 8, 40]);
        let (page_size, page_count, heap_length) = (self.shape.page_size as u64, self.store.count, self.heap.count);
        Lending { page_size, page_count, heap_length, order: self.patched.order().number(), record: RECORD_BYTES, heap_behind }
    }

    /// With so much scratch and so long an area, and with so many pages and bytes of room.
    fn call_with(
        &mut self, entry: Entry, batch: &[u8], lent: Lending, [scratch, area]: [usize; 2], more: usize, rest: usize,
    ) -> Result<Told, Difference> {
        let Lending { page_size, page_count, heap_length, order, record, heap_behind } = lent;
        self.reading = None;
        self.last = Some(Last {
            entry,
            batch: batch.to_vec(),
            beside: [page_size, page_count, heap_length, order, record as u64, more as u64, rest as u64, scratch as u64, area as u64],
        });
        self.heap.make_room(heap_behind, &mut self.random);
        let beside = Beside { heap: self.heap.shown(heap_behind), page_size, page_count, heap_length, order, record };
        let given = Call { entry, beside, batch, scratch, area };
        let answer = call(self.store.lend(more, rest), &given, &mut self.scratch, &mut self.random)?;
        let asking = if entry == Entry::Initialise { Asking::Initialise } else { Asking::Insert };
        if asking == Asking::Initialise || (answer.number != 7 && !self.random.one_in(NAMED_BESIDE)) {
            return Ok(Told { asking, answer, named: None });
        }
        // The same insert from the same bytes by the entry that names: it leaves the same bytes.
        let left = self.store.past().to_vec();
        self.store.restore();
        let named = call_named(self.store.lend(more, rest), &given, &mut self.scratch, &mut self.random)?;
        self.tally.named_beside += 1;
        if self.store.past() != &left[..] {
            return Err("the insert that names leaves other bytes than insert".to_string());
        }
        Ok(Told { asking, answer, named: Some(named) })
    }

    /// The answer is this one, by both entries, and past the pages in use the store has these pages and nothing else new.
    fn expect(&mut self, told: Told, expected: Answer, pages: &[u8]) -> Result<(), Difference> {
        self.expect_both(told, expected, expected, pages)
    }

    /// The answer is Damaged: insert says nothing but the page, the entry that names has the fault's number besides.
    fn expect_damaged(&mut self, told: Told, entry: Entry, damaged: Damaged, pages: &[u8]) -> Result<(), Difference> {
        let expected = entry.refused(7, damaged.page);
        self.expect_both(told, expected, Answer { pages: damaged.fault.number(), ..expected }, pages)?;
        self.tally.names.add(Naming::InsertNamed, damaged.fault);
        Ok(())
    }

    fn expect_both(&mut self, told: Told, expected: Answer, named: Answer, pages: &[u8]) -> Result<(), Difference> {
        same("the answer", &told.answer, &expected)?;
        told.named.map_or(Ok(()), |answer| same("the answer of the insert that names", &answer, &named))?;
        self.tally.answered(told.asking, expected.number);
        if told.named.is_some() {
            self.tally.answered(Asking::InsertNamed, expected.number);
        }
        self.store.fault_past(pages).map_or(Ok(()), Err)
    }

    /// The store and the heap with what is around them.
    fn compare_whole(&self) -> Result<(), Difference> {
        self.store.fault().or_else(|| self.heap.fault()).map_or(Ok(()), Err)
    }
}

/// What the Rust answers. Root none is outside its domain: there it is asked to initialise.
pub fn ask(oracle: Oracle, pages: &mut Pages, entry: Entry, datoms: &[Datom]) -> Result<u64, Panic> {
    match entry {
        Entry::Initialise | Entry::Insert(NONE) => oracle.initialise(pages, datoms),
        Entry::Insert(root) => oracle.insert(pages, root, datoms),
    }
}

fn node(pages: &Pages, page: u64) -> Node {
    Node::decode(pages.page(page).expect("a page of the tree")).expect("a readable page")
}

/// The pages on a datom's path, to document 01's text.
fn path(pages: &Pages, root: u64, datom: &Datom) -> Vec<u64> {
    let (mut path, mut page) = (vec![root], root);
    loop {
        let node = node(pages, page);
        let first = node.datoms.iter().position(|held| pages.compare(held, datom).is_ge()).unwrap_or(node.datoms.len());
        if node.level == 0 || node.datoms.get(first).is_some_and(|held| pages.compare(held, datom).is_eq()) {
            return path;
        }
        page = node.children[first..].iter().copied().find(|&child| child != NONE).expect("a last child");
        path.push(page);
    }
}

/// A call as a command of the oracle's driver.
pub fn command(entry: Entry, batch: &[Datom]) -> String {
    let mut text = match entry {
        Entry::Initialise => "initialise".to_string(),
        Entry::Insert(NONE) => "insert none".to_string(),
        Entry::Insert(root) => format!("insert {}", root),
    };
    for datom in batch {
        text.push_str(&format!(" {},{},{:#x},{}", datom[0], datom[1], datom[2], datom[3]));
    }
    text + "\n"
}
