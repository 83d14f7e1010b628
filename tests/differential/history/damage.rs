//! Damaged stores: a page that is not as it was written, for the checks, listings and inserts that meet it.

use std::collections::BTreeSet;
use std::rc::Rc;

use harness::{capacity, readable_damage, spoiled, Answer, Datom, Heap, Node, Oracle, Order, Plan, Verdict, Which, NONE};

use super::breaking::{misplaced, Broken};
use super::reading::Reading;
use super::{ask, node, path, History, MOST};
use crate::library::{bytes_of, Entry};
use crate::model::{batch_fault, Model};
use crate::names::{Damaged, Fault};
use crate::reader::Difference;

/// How many pages beside the paths of a batch are tried until the Rust reads one.
const BESIDE: usize = 12;

/// A damaged tree is listed so far.
const STEPS: usize = 200;

/// A page as it was written, and as it is.
pub struct Damage {
    pub page: u64,
    old: Vec<u8>,
    new: Vec<u8>,
}

impl Damage {
    /// The level at which the page belongs.
    pub fn level(&self) -> usize {
        Node::decode(&self.old).expect("a page as it was written").level as usize
    }

    /// As commands of the oracle's driver.
    pub fn commands(&self) -> String {
        let changed = self.old.iter().zip(&self.new).enumerate().filter(|(_, (old, new))| old != new);
        changed.map(|(at, (_, new))| format!("poke {} {} {}\n", self.page, at, new)).collect()
    }
}

impl History<'_> {
    /// Damages a page on both sides.
    pub(super) fn damage(&mut self, page: u64, new: Vec<u8>) {
        let old = self.patched.page(page).expect("a page in use").to_vec();
        self.patched.replace(page, &new);
        self.store.poke(page, &new);
        self.damage = Some(Damage { page, old, new });
    }

    pub(super) fn repair(&mut self) {
        let damage = self.damage.take().expect("a damaged page");
        self.patched.replace(damage.page, &damage.old);
        self.store.poke(damage.page, &damage.old);
    }

    /// A page that stays readable: the check finds what the Rust's finds, and names the page that the Rust's panic names.
    pub(super) fn readable_damage(&mut self) -> Result<(), Difference> {
        let at = self.some_tree();
        let root = self.trees[at].root;
        let damage = match self.random.one_in(3) {
            true => self.damage_at_bounds(root),
            false => readable_damage(&self.patched, root, &self.supply, &mut self.random),
        };
        let Some((page, new)) = damage else {
            return Ok(());
        };
        self.damage(page, new);
        self.reading = Some(Reading::Check(root));
        let oracle = Oracle { which: Which::Patched, by: self.shape.by };
        let by_rust = match oracle.check(&self.patched, root) {
            Verdict::Sound => None,
            // The message names bounds and a page, or the two levels that it compared.
            Verdict::Unsound(page, message) if message.contains("Violation at page") => Some(Damaged { page, fault: Fault::OutOfBounds }),
            Verdict::Unsound(page, _) => Some(Damaged { page, fault: Fault::WrongLevel }),
        };
        let found = self.reader().check(root)?;
        if found != by_rust {
            return Err(format!("the check finds {:?}, and the Rust {:?}", found, by_rust));
        }
        self.tally.damaged_readable += 1;
        self.read_damaged(at)?;
        self.repair();
        Ok(())
    }

    /// A page below the root whose first or last datom is equal to its bound, with a child below it that is outside its own bounds.
    fn damage_at_bounds(&mut self, root: u64) -> Option<(u64, Vec<u8>)> {
        let sought = self.supply.any(&mut self.random);
        let way = path(&self.patched, root, &sought);
        let at = 1 + self.random.below(way.len().max(2) - 1);
        let &page = way.get(at)?;
        let (parent, mut node) = (node(&self.patched, way[at - 1]), node(&self.patched, page));
        let place = parent.children.iter().position(|&child| child == page)?;
        let last = node.datoms.len().checked_sub(1)?;
        if self.random.one_in(3) {
            let before = (0..place).rev().find(|&i| parent.children[i] != NONE)?;
            node.datoms[0] = parent.datoms[before];
        } else {
            node.datoms[last] = *parent.datoms.get(place)?;
        }
        let midpoint = (0..last).find(|&i| node.children[i] != NONE).filter(|_| self.random.one_in(2));
        if let Some(i) = midpoint {
            node.datoms[i] = *super::node(&self.patched, node.children[i]).datoms.last()?;
        }
        let mut new = self.patched.page(page)?.to_vec();
        node.encode_over(&mut new);
        if node.is_readable(page, self.patched.order(), self.patched.heap()) { Some((page, new)) } else { None }
    }

    /// A page that breaks one of the rules of a readable one.
    pub(super) fn unreadable_damage(&mut self) -> Result<(), Difference> {
        let at = self.some_tree();
        let root = self.trees[at].root;
        let sought = self.supply.any(&mut self.random);
        let way = path(&self.patched, root, &sought);
        let page = self.random.pick(&way);
        self.break_page(page);
        self.reading = Some(Reading::Check(root));
        if self.reader().check(root)?.is_none() {
            return Err(format!("page {} cannot be read, and the tree is called sound", page));
        }
        self.read_damaged(at)?;
        self.repair();
        Ok(())
    }

    /// A constant that a tree holds is not as it was laid: a page that names it cannot be read, or is out of order, or nothing is amiss;
    /// bounds and batches with it may be refused. All by the rules.
    pub(super) fn spoiled_constant(&mut self) -> Result<(), Difference> {
        let at = self.some_tree();
        let held: Vec<usize> = (0..self.trees[at].held.len()).filter(|&i| self.trees[at].held[i] && self.supply.is_long(i)).collect();
        if held.is_empty() {
            return Ok(());
        }
        let word = self.supply.datoms(&[self.random.pick(&held)])[0][2];
        let sound = Rc::clone(self.patched.heap());
        let heap = spoiled(&sound, word, &mut self.random);
        self.tally.spoiled += 1;
        self.set_heap(heap, Some(&sound));
        self.read_otherwise(at)?;
        self.set_heap(Heap::clone(&sound), None);
        Ok(())
    }

    /// The heap is said to be shorter than it is, so that what lies behind is none of it; or longer, by noise.
    pub(super) fn other_heap_length(&mut self) -> Result<(), Difference> {
        let at = self.some_tree();
        let sound = Rc::clone(self.patched.heap());
        let length = self.heap.count as usize;
        self.heap.make_room(64, &mut self.random);
        let other = self.random.pick(&[length.saturating_sub(8), length.saturating_sub(16), length / 16 * 8, 0, length + 8, length + 32]);
        let heap = Heap::of_bytes(&self.heap.shown(64)[..other]);
        self.tally.other_lengths += 1;
        self.set_heap(heap, None);
        self.read_otherwise(at)?;
        self.set_heap(Heap::clone(&sound), None);
        Ok(())
    }

    /// The store is said to have another order than the one that it was written in: what is damaged then, and what happens to be readable, by
    /// the rules.
    pub(super) fn other_order(&mut self) -> Result<(), Difference> {
        let at = self.some_tree();
        let others: Vec<Order> = Order::ALL.into_iter().filter(|&order| order != self.shape.order).collect();
        let other = self.random.pick(&others);
        self.tally.other_orders[other as usize] += 1;
        self.patched.set_order(other);
        self.read_otherwise(at)?;
        self.patched.set_order(self.shape.order);
        Ok(())
    }

    /// The heap of the rules and of the library is this one. Where it is one that was changed, which one that is: for the report.
    fn set_heap(&mut self, heap: Heap, sound: Option<&Heap>) {
        self.heap.count = heap.bytes().len() as u64;
        self.heap.poke(0, heap.bytes());
        self.spoiled = sound.map(|sound| commands_to_spoil(sound, &heap));
        self.patched.set_heap(&Rc::new(heap));
    }

    fn read_otherwise(&mut self, at: usize) -> Result<(), Difference> {
        let root = self.trees[at].root;
        self.reading = Some(Reading::Check(root));
        self.reader().check(root)?;
        self.read_damaged(at)?;
        self.compare_whole()
    }

    /// Listings, made-up cursors, batches that are asked for and lookups of inserts over what is damaged, by the rules.
    fn read_damaged(&mut self, at: usize) -> Result<(), Difference> {
        let root = self.trees[at].root;
        for _ in 0..3 {
            let (lower, upper) = self.bounds(at);
            self.reading = Some(Reading::List(root, lower, upper));
            self.reader().list(root, &lower, &upper, STEPS)?;
        }
        self.made_up_cursors()?;
        for _ in 0..3 {
            let batch = self.asked_batch(at);
            // Any answer of the rules will do.
            let _ = self.ask_for(root, &batch)?;
        }
        self.look_up_damaged(at)
    }

    /// A batch whose lookups do not come to their end: 6 and 7 in whichever order they are met.
    fn look_up_damaged(&mut self, at: usize) -> Result<(), Difference> {
        let entry = Entry::Insert(self.trees[at].root);
        let Some(mut datoms) = self.some_batch(at) else {
            return Ok(());
        };
        // The store may be read in another order than it was written in.
        datoms.sort_by(|left, right| self.patched.compare(left, right));
        if let Some((number, index)) = batch_fault(self.patched.order(), self.patched.heap(), &datoms) {
            return self.refuse(entry, &datoms, number, index);
        }
        match (Model { pages: &self.patched }).first_met(self.trees[at].root, &datoms) {
            Err(damaged) => self.refuse_damaged(entry, &datoms, damaged),
            Ok(Some(index)) => self.refuse(entry, &datoms, 6, index),
            Ok(None) => Ok(()),
        }
    }

    /// A page on the path of the first datom that cannot be read or has a wrong level.
    pub(super) fn damaged(&mut self) -> Result<(), Difference> {
        let at = self.some_tree();
        let root = self.trees[at].root;
        let Some(datoms) = self.some_batch(at) else {
            return Ok(());
        };
        let path = path(&self.patched, root, &datoms[0]);
        let page = self.random.pick(&path);
        let damaged = self.close_page(page, page != root)?;
        self.refuse_damaged(Entry::Insert(root), &datoms, damaged)?;
        self.compare_whole()?;
        self.repair();
        Ok(())
    }

    fn refuse_damaged(&mut self, entry: Entry, datoms: &[Datom], damaged: Damaged) -> Result<(), Difference> {
        let (more, rest) = (self.random.below(60), self.random.below(64));
        let told = self.call(entry, &bytes_of(datoms), more, rest)?;
        self.expect_damaged(told, entry, damaged, &[])
    }

    /// Damages a page so that it cannot be read.
    fn break_page(&mut self, page: u64) {
        let broken = Broken::of(&self.patched, page, &mut self.random);
        self.tally.damaged_unreadable += 1;
        self.tally.broken_twice += (broken.rules > 1) as u64;
        self.tally.broken_elsewhere += broken.is_elsewhere as u64;
        self.damage(page, broken.bytes);
    }

    /// Damages a page so that it cannot be read, or has another level where one is asked for; and what that is called.
    fn close_page(&mut self, page: u64, is_level_asked: bool) -> Result<Damaged, Difference> {
        let level = node(&self.patched, page).level as usize;
        let is_misplaced = is_level_asked && self.random.one_in(5);
        match misplaced(&self.patched, page, &mut self.random).filter(|_| is_misplaced) {
            Some(new) => self.damage(page, new),
            None => self.break_page(page),
        }
        let opened = Model { pages: &self.patched }.node_of_level(page, level);
        opened.err().ok_or_else(|| format!("page {} is damaged, and can be opened by the rules", page))
    }

    /// A page that cannot be read or has a wrong level, beside the paths of a batch: the insert is refused when it comes there, and has written what the
    /// Rust writes until it reads that page.
    pub(super) fn lost_while_writing(&mut self) -> Result<(), Difference> {
        let at = self.some_tree();
        let root = self.trees[at].root;
        let Some(datoms) = self.some_batch(at) else {
            return Ok(());
        };
        for page in self.pages_beside(root, &datoms) {
            let before = self.patched.count();
            self.patched.lose(page);
            let oracle = Oracle { which: Which::Patched, by: self.shape.by };
            let outcome = ask(oracle, &mut self.patched, Entry::Insert(root), &datoms);
            self.patched.lose(NONE);
            let written = self.patched.bytes_from(before).to_vec();
            self.patched.truncate(before);
            if outcome.is_err() {
                let damaged = self.close_page(page, true)?;
                self.tally.lost_while_writing += 1;
                return self.refuse_after(Entry::Insert(root), &datoms, damaged, &written);
            }
        }
        Ok(())
    }

    /// Children of the pages on the paths of a batch which are on no path themselves.
    fn pages_beside(&mut self, root: u64, datoms: &[Datom]) -> Vec<u64> {
        let paths: BTreeSet<u64> = datoms.iter().flat_map(|datom| path(&self.patched, root, datom)).collect();
        let children = paths.iter().flat_map(|&page| node(&self.patched, page).children);
        let mut beside: Vec<u64> = children.filter(|child| *child != NONE && !paths.contains(child)).collect();
        self.random.shuffle(&mut beside);
        beside.truncate(BESIDE);
        beside
    }

    /// A datom pending above is in the page that it will be sent to, too: a merge into that page is Damaged, as it is a panic of the
    /// Rust, with the same pages written until then. A batch that merges elsewhere goes in on both sides.
    pub(super) fn equal_while_writing(&mut self) -> Result<(), Difference> {
        let at = self.some_tree();
        let root = self.trees[at].root;
        let Some(datoms) = self.some_batch(at) else {
            return Ok(());
        };
        let Some((page, new)) = self.doubled(root, &datoms[0]) else {
            return Ok(());
        };
        self.damage(page, new);
        let before = self.patched.count();
        let oracle = Oracle { which: Which::Patched, by: self.shape.by };
        let outcome = ask(oracle, &mut self.patched, Entry::Insert(root), &datoms);
        let written = self.patched.bytes_from(before).to_vec();
        self.patched.truncate(before);
        match outcome {
            Err(panic) => {
                self.tally.equal_while_writing += 1;
                let damaged = Damaged { page: panic.last_read, fault: Fault::EqualDatoms };
                self.refuse_after(Entry::Insert(root), &datoms, damaged, &written)
            }
            Ok(root_after) => {
                let count = written.len() / self.shape.page_size;
                self.store.make_room(count, &mut self.random);
                let answer = self.call(Entry::Insert(root), &bytes_of(&datoms), count, 0)?;
                self.expect(answer, Answer::done(root_after, count as u64), &written)?;
                self.store.restore();
                self.repair();
                Ok(())
            }
        }
    }

    /// A page below a datom's path with a datom that is pending above it: the page and its new bytes.
    fn doubled(&mut self, root: u64, datom: &Datom) -> Option<(u64, Vec<u8>)> {
        let capacity = capacity(self.shape.page_size).expect("a known page size");
        let above = path(&self.patched, root, datom).into_iter().map(|page| node(&self.patched, page));
        let pending: Vec<(Datom, u64)> = above.filter(|node| node.level > 0).flat_map(|node| {
            let child_from = |i: usize| node.children[i..].iter().copied().find(|&child| child != NONE).expect("a last child");
            let is_pending = |&i: &usize| node.children[i] == NONE;
            (0..node.datoms.len()).filter(is_pending).map(|i| (node.datoms[i], child_from(i))).collect::<Vec<_>>()
        }).collect();
        if pending.is_empty() {
            return None;
        }
        let (datom, page) = self.random.pick(&pending);
        let mut child = node(&self.patched, page);
        if child.datoms.len() == capacity {
            return None;
        }
        let at = child.datoms.iter().take_while(|held| self.patched.compare(held, &datom).is_lt()).count();
        // The same datom, by another word where there is one.
        child.datoms.insert(at, self.supply.twin(&datom).unwrap_or(datom));
        child.children.insert(at, NONE);
        let mut new = self.patched.page(page).expect("a page in use").to_vec();
        child.encode_over(&mut new);
        Some((page, new))
    }

    /// Damaged, after these pages were written.
    fn refuse_after(&mut self, entry: Entry, datoms: &[Datom], damaged: Damaged, written: &[u8]) -> Result<(), Difference> {
        let more = written.len() / self.shape.page_size + 1 + self.random.below(40);
        self.store.make_room(more, &mut self.random);
        let told = self.call(entry, &bytes_of(datoms), more, 0)?;
        self.expect_damaged(told, entry, damaged, written)?;
        self.tally.pages_before_damage += (written.len() / self.shape.page_size) as u64;
        self.store.restore();
        self.repair();
        Ok(())
    }

    /// A batch that a tree does not hold, rather a large one.
    fn some_batch(&mut self, at: usize) -> Option<Vec<Datom>> {
        let plan = self.random.pick(&[Plan::Scattered, Plan::Clustered]);
        let size = 1 + self.random.below(MOST);
        let batch = self.supply.batch(&self.trees[at].held, plan, size, &mut self.random);
        if batch.is_empty() { None } else { Some(self.supply.datoms(&batch)) }
    }
}

/// As commands of the oracle's driver.
fn commands_to_spoil(sound: &Heap, heap: &Heap) -> String {
    let changed = sound.bytes().iter().zip(heap.bytes()).enumerate().filter(|(_, (old, new))| old != new);
    changed.map(|(at, (_, new))| format!("spoil {} {}\n", at, new)).collect()
}
