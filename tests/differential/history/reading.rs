//! Listings and checks at the roots of a history, and steps from made-up cursors.

use harness::{Datom, Held, Oracle, Plan, Random, Verdict, Which, MAX_VALUE, NONE};

use super::{History, MOST};
use crate::library::Lent;
use crate::model::{Cursor, End, Looked, Model, Step};
use crate::reader::{Difference, Reader};

/// How many held datoms there are around most pairs of bounds.
const WINDOW: usize = 60;

/// How many pages are looked at for one of a level.
const LOOKS: usize = 12;

/// A call that reads.
pub enum Reading {
    List(u64, Datom, Datom),
    Check(u64),
    Held(u64, Vec<Datom>),
    Step(Cursor),
    Other(String),
}

impl Reading {
    /// As a command of the oracle's driver, or as a remark where it has none.
    pub fn command(&self) -> String {
        let text = |datom: &Datom| format!("{},{},{:#x},{}", datom[0], datom[1], datom[2], datom[3]);
        match self {
            Reading::List(root, lower, upper) => format!("list {} {} {}\n", root, text(lower), text(upper)),
            Reading::Check(root) => format!("check {}\n", root),
            Reading::Held(root, batch) => format!("# whether {} holds {:?}\n", root, batch),
            Reading::Step(cursor) => format!("# a step with {:?}\n", cursor),
            Reading::Other(call) => format!("# {}\n", call),
        }
    }
}

impl History<'_> {
    /// Calls that read, on the store as it is or with a damaged page.
    pub(super) fn readings(&mut self) -> Result<(), Difference> {
        if self.trees.is_empty() {
            return Ok(());
        }
        match self.random.below(21) {
            0 | 1 => self.list_between(),
            2 => self.check_some(),
            11 | 12 => self.ask_some(),
            3 => self.fetch_some(),
            4 => self.made_up_cursors(),
            5 | 15 => self.wrong_readings(),
            6 | 7 => self.readable_damage(),
            8 | 13 => self.unreadable_damage(),
            9 | 14 => self.lost_while_writing(),
            10 => self.equal_while_writing(),
            16 | 17 => self.spoiled_constant(),
            18 => self.other_heap_length(),
            19 | 20 => self.other_order(),
            _ => Ok(()),
        }
    }

    pub(super) fn reader(&mut self) -> Reader<'_> {
        let (rest, behind) = (self.random.below(32), self.random.below(32));
        let (store, heap) = (self.store.shown(rest), self.heap.shown(behind));
        Reader { store, heap, pages: &self.patched, random: &mut self.random, tally: self.tally }
    }

    /// The datoms between two bounds at a newer or older root: what the steps hand out, what the Rust lists and what was put in.
    fn list_between(&mut self) -> Result<(), Difference> {
        let at = self.some_tree();
        let (lower, upper) = self.bounds(at);
        let root = self.trees[at].root;
        if self.random.one_in(20) {
            self.reader().list(NONE, &lower, &upper, usize::MAX)?;
        }
        self.reading = Some(Reading::List(root, lower, upper));
        let put_in = self.supply.listing(&self.trees[at].held, &lower, &upper);
        if self.patched.compare(&lower, &upper).is_le() {
            self.list_by_rust(root, &lower, &upper, &put_in)?;
        }
        let listed = self.reader().list(root, &lower, &upper, usize::MAX)?;
        if listed != put_in {
            return Err(format!("{} datoms are listed, and must be {}: {:?}", listed.len(), put_in.len(), listed));
        }
        Ok(())
    }

    fn list_by_rust(&mut self, root: u64, lower: &Datom, upper: &Datom, put_in: &[Datom]) -> Result<(), Difference> {
        let by = self.shape.by;
        for (which, pages) in [(Which::Patched, Some(&self.patched)), (Which::Plain, self.plain.as_ref())] {
            let Some(pages) = pages else {
                continue;
            };
            let mut listed = Vec::new();
            let ends = Oracle { which, by }.list(pages, root, lower, upper, &mut listed);
            if ends.is_err() || listed != put_in {
                return Err(format!("the {:?} Rust lists {} datoms, {:?}, and {} were put in", which, listed.len(), ends, put_in.len()));
            }
        }
        self.tally.listed_by_rust += 1;
        Ok(())
    }

    /// A pair of bounds, mostly around a few held datoms, and in any order.
    pub(super) fn bounds(&mut self, at: usize) -> (Datom, Datom) {
        let held = &self.trees[at].held;
        let places: Vec<usize> = (0..held.len()).filter(|&i| held[i]).collect();
        if places.is_empty() {
            return ([0; 4], [u64::MAX, u64::MAX, MAX_VALUE, u64::MAX]);
        }
        let mut window: Held = self.supply.nothing_held();
        let start = self.random.below(places.len());
        let length = if self.random.one_in(8) { places.len() } else { WINDOW };
        for &place in places[start..].iter().take(length) {
            window[place] = true;
        }
        let (one, other) = (self.supply.bound(&window, &mut self.random), self.supply.bound(&window, &mut self.random));
        if self.patched.compare(&one, &other).is_gt() && !self.random.one_in(8) { (other, one) } else { (one, other) }
    }

    /// A tree that these calls built is sound, by the Rust too.
    fn check_some(&mut self) -> Result<(), Difference> {
        let at = self.some_tree();
        let root = if self.random.one_in(20) { NONE } else { self.trees[at].root };
        self.reading = Some(Reading::Check(root));
        if root != NONE {
            let oracle = Oracle { which: Which::Patched, by: self.shape.by };
            if let Verdict::Unsound(page, message) = oracle.check(&self.patched, root) {
                return Err(format!("the Rust finds a fault at page {}: {}", page, message));
            }
        }
        match self.reader().check(root)? {
            None => Ok(()),
            Some(damaged) => Err(format!("the check finds {:?}", damaged)),
        }
    }

    /// A batch is held exactly if each of its datoms was put in on the way to the root; else the first that was not is named.
    fn ask_some(&mut self) -> Result<(), Difference> {
        let at = self.some_tree();
        let batch = self.asked_batch(at);
        let (root, held) = match self.random.one_in(20) {
            true => (NONE, self.supply.nothing_held()),
            false => (self.trees[at].root, self.trees[at].held.clone()),
        };
        let put_in = Ok(batch.iter().position(|&i| !held[i]).map(|first| first as u64));
        let told = self.ask_for(root, &batch)?;
        if told != Some(put_in) {
            return Err(format!("a batch that is asked for is answered {:?}, and by what was put in it is {:?}", told, put_in));
        }
        Ok(())
    }

    /// Some of the datoms by words of equal content.
    pub(super) fn ask_for(&mut self, root: u64, batch: &[usize]) -> Result<Option<Looked>, Difference> {
        let mut datoms = self.by_other_words(batch);
        // The store may be read in another order than it was written in.
        datoms.sort_by(|left, right| self.patched.compare(left, right));
        self.reading = Some(Reading::Held(root, datoms.clone()));
        self.reader().held(root, &datoms)
    }

    /// A batch of this tree or another, or some of what the tree holds; now and then with datoms that it does not hold.
    pub(super) fn asked_batch(&mut self, at: usize) -> Vec<usize> {
        let from = self.some_tree();
        let places: Vec<usize> = (0..self.trees[at].held.len()).filter(|&i| self.trees[at].held[i]).collect();
        let mut batch = match self.random.below(3) {
            0 => self.trees[from].batch.clone(),
            1 => self.trees[at].batch.clone(),
            _ if places.is_empty() => Vec::new(),
            _ => (0..1 + self.random.below(MOST)).map(|_| self.random.pick(&places)).collect(),
        };
        if self.random.one_in(3) {
            let size = 1 + self.random.below(3);
            batch.extend(self.supply.batch(&self.trees[at].held, Plan::Scattered, size, &mut self.random));
        }
        batch.sort();
        batch.dedup();
        while batch.len() > MOST {
            batch.remove(self.random.below(batch.len()));
        }
        batch
    }

    /// Pages below the count and past it.
    fn fetch_some(&mut self) -> Result<(), Difference> {
        let count = self.patched.count();
        for page in [0, count - 1, count, count + 1, NONE, NONE - 1, self.random.below(count as usize) as u64] {
            self.reading = Some(Reading::Other(format!("fetch {}", page)));
            self.reader().fetch(page)?;
        }
        Ok(())
    }

    /// Steps from cursors that no start gave.
    pub(super) fn made_up_cursors(&mut self) -> Result<(), Difference> {
        for _ in 0..6 {
            let mut made = if self.random.one_in(3) { self.cursor_of_pages() } else { self.altered_cursor() };
            self.lead_to_damage(&mut made);
            let mut cursor = Lent::new(&made.bytes(), &mut self.random);
            let mut datom = Lent::of_length(32, &mut self.random);
            for _ in 0..4 {
                self.reading = Some(Reading::Step(Cursor::of_bytes(cursor.content())));
                self.tally.made_up += 1;
                if self.reader().step(&mut cursor, &mut datom, true)?.is_none() {
                    break;
                }
            }
        }
        Ok(())
    }

    /// Half of the cursors over a damaged page stand in it, at the level where it belongs or at another.
    fn lead_to_damage(&mut self, cursor: &mut Cursor) {
        let Some(damage) = &self.damage else {
            return;
        };
        if self.random.one_in(2) {
            let any = self.random.below(cursor.height.clamp(1, 8) as usize);
            let level = if self.random.one_in(3) { any } else { damage.level() };
            cursor.begin.pages[level] = damage.page;
        }
    }

    /// A cursor on its way through a tree, with some words changed.
    fn altered_cursor(&mut self) -> Cursor {
        let at = self.some_tree();
        let (lower, upper) = self.bounds(at);
        let model = Model { pages: &self.patched };
        let mut cursor = model.start(self.trees[at].root, &lower, &upper).unwrap_or_default();
        for _ in 0..self.random.below(12) {
            if let Step::Yields(_, next) = model.step(&cursor) {
                cursor = next;
            }
        }
        for _ in 0..self.random.below(4) {
            self.alter(&mut cursor);
        }
        cursor
    }

    fn alter(&mut self, cursor: &mut Cursor) {
        let level = if self.random.one_in(4) { self.random.below(8) } else { self.random.below(cursor.height.clamp(1, 8) as usize) };
        let count = self.patched.count();
        let old = cursor.begin.indices[level];
        let count_of = |page: u64| Model { pages: &self.patched }.node(page).map_or(0, |node| node.datoms.len() as u64);
        match self.random.below(12) {
            0 => cursor.height = self.random.pick(&[0, 1, 2, 7, 8, 9, 255, u64::MAX]),
            1 => cursor.height = cursor.height.wrapping_add(self.random.pick(&[1, u64::MAX])),
            2 => cursor.begin.indices[level] = old.wrapping_add(self.random.pick(&[1, 1, u64::MAX])),
            3 => cursor.begin.indices[level] = count_of(cursor.begin.pages[level]),
            4 => cursor.begin.indices[level] = count_of(cursor.begin.pages[level]) + 1,
            5 => cursor.begin.indices[level] = self.random.pick(&[0, 6, 13, 102, 204, 1 << 32, u64::MAX]),
            6 => cursor.begin.pages[level] = self.random.pick(&[count, NONE, NONE - 1, 0]),
            7 => cursor.begin.pages[level] = self.random.below(count as usize) as u64,
            8 => cursor.begin.pages[level] = self.page_of_level(level),
            9 => cursor.end.indices[level] = self.random.pick(&[old, 0, 1, u64::MAX]),
            10 => cursor.end.pages[level] = self.random.word(),
            _ => {
                for level in 0..cursor.height.min(8) as usize {
                    cursor.begin.indices[level] = count_of(cursor.begin.pages[level]);
                }
            }
        }
    }

    /// A page of this level, if one is found.
    fn page_of_level(&mut self, level: usize) -> u64 {
        let count = self.patched.count() as usize;
        let model = Model { pages: &self.patched };
        let is_there = |page: &u64| model.node(*page).map_or(false, |node| node.level as usize == level);
        let mut looks = (0..LOOKS).map(|_| self.random.below(count) as u64);
        looks.find(is_there).unwrap_or(0)
    }

    /// A cursor of any pages of the right levels. Where two of them share a datom both indices may be set to it.
    fn cursor_of_pages(&mut self) -> Cursor {
        let at = self.some_tree();
        let root = Model { pages: &self.patched }.node(self.trees[at].root);
        let height = root.map_or(2, |node| node.level as u64 + 1) - self.random.below(2) as u64;
        let word = |random: &mut Random| random.word() >> random.below(64);
        let mut cursor = Cursor { height, begin: End::default(), end: End::default() };
        for level in 0..8 {
            let page = self.page_of_level(level);
            cursor.begin.pages[level] = page;
            let most = Model { pages: &self.patched }.node(page).map_or(1, |node| node.datoms.len() + 1);
            cursor.begin.indices[level] = self.random.below(most) as u64;
            cursor.end.indices[level] = word(&mut self.random);
            cursor.end.pages[level] = word(&mut self.random);
        }
        if self.random.one_in(2) {
            self.share_datom(&mut cursor);
        }
        cursor
    }

    /// Sets the indices of two levels to a datom that both pages hold.
    fn share_datom(&mut self, cursor: &mut Cursor) {
        let model = Model { pages: &self.patched };
        let datoms = |page: u64| model.node(page).map_or(Vec::new(), |node| node.datoms);
        for upper in 1..cursor.height.min(8) as usize {
            let above = datoms(cursor.begin.pages[upper]);
            for lower in 0..upper {
                let below = datoms(cursor.begin.pages[lower]);
                let is_equal = |held: &Datom, datom: &Datom| self.patched.compare(held, datom).is_eq();
                let shared = above.iter().enumerate().find_map(|(i, datom)| Some((i, below.iter().position(|held| is_equal(held, datom))?)));
                if let Some((i, j)) = shared {
                    cursor.begin.indices[upper] = i as u64;
                    cursor.begin.indices[lower] = j as u64;
                }
            }
        }
    }
}
