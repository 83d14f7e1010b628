//! A store of pages that remembers which page was read last, the order that its trees have, and the heap that its values name constants of.

use std::cell::Cell;
use std::cmp::Ordering;
use std::rc::Rc;
use std::slice;

use crate::datom::{Datom, Order};
use crate::heap::Heap;

/// The page id that means "none".
pub const NONE: u64 = u64::MAX;

/// Pages of one size, numbered from 0.
///
/// The backing is words, because the Rust views pages as datoms and so needs them 8-byte aligned.
#[derive(Clone)]
pub struct Pages {
    page_size: usize,
    words: Vec<u64>,
    order: Order,
    heap: Rc<Heap>,
    last_read: Cell<u64>,
    lost: Cell<u64>,
}

impl Pages {
    /// No pages, and an empty heap.
    pub fn new(page_size: usize, order: Order) -> Pages {
        assert_eq!(page_size % 8, 0, "a page is a whole number of words");
        Pages { page_size, words: Vec::new(), order, heap: Rc::default(), last_read: Cell::new(NONE), lost: Cell::new(NONE) }
    }

    pub fn order(&self) -> Order {
        self.order
    }

    /// The pages are read in this order from here on, whatever they were written in.
    pub fn set_order(&mut self, order: Order) {
        self.order = order;
    }

    /// In the order of the store, by content.
    pub fn compare(&self, left: &Datom, right: &Datom) -> Ordering {
        self.heap.compare(self.order, left, right)
    }

    pub fn heap(&self) -> &Rc<Heap> {
        &self.heap
    }

    /// The heap is this one from here on. It is shared, as one heap may serve several stores.
    pub fn set_heap(&mut self, heap: &Rc<Heap>) {
        self.heap = Rc::clone(heap);
    }

    pub fn page_size(&self) -> usize {
        self.page_size
    }

    pub fn count(&self) -> u64 {
        (self.words.len() * 8 / self.page_size) as u64
    }

    pub fn bytes(&self) -> &[u8] {
        // Any word is eight bytes, and bytes need no alignment.
        unsafe { slice::from_raw_parts(self.words.as_ptr() as *const u8, self.words.len() * 8) }
    }

    /// The bytes of the pages from `first` on.
    pub fn bytes_from(&self, first: u64) -> &[u8] {
        &self.bytes()[first as usize * self.page_size..]
    }

    /// A page's bytes, or nothing if there is no such page.
    pub fn page(&self, page: u64) -> Option<&[u8]> {
        let at = self.offset(page)?;
        Some(&self.bytes()[at..at + self.page_size])
    }

    /// A page's bytes for the Rust. A missing page is a panic, as it is in noblit's own store in memory.
    pub fn read(&self, page: u64) -> &[u8] {
        self.last_read.set(page);
        assert!(page != NONE, "Should never get() PageId::max().");
        assert!(page != self.lost.get(), "Page {} is lost.", page);
        self.page(page).unwrap_or_else(|| panic!("The store has no page {}.", page))
    }

    /// The page that `read` was last asked for, NONE before the first.
    pub fn last_read(&self) -> u64 {
        self.last_read.get()
    }

    pub fn forget_last_read(&self) {
        self.last_read.set(NONE);
    }

    /// From here on it is a panic to read this page; none is lost with NONE.
    pub fn lose(&self, page: u64) {
        self.lost.set(page);
    }

    /// Appends one page or several, and returns the id of the first.
    pub fn append(&mut self, bytes: &[u8]) -> u64 {
        assert_eq!(bytes.len() % self.page_size, 0, "only whole pages are appended");
        let first = self.count();
        self.words.extend(words_of(bytes));
        first
    }

    /// Overwrites an existing page.
    pub fn replace(&mut self, page: u64, bytes: &[u8]) {
        assert_eq!(bytes.len(), self.page_size, "a page is replaced as a whole");
        let at = self.offset(page).unwrap_or_else(|| panic!("there is no page {} to replace", page)) / 8;
        for (word, new) in self.words[at..].iter_mut().zip(words_of(bytes)) {
            *word = new;
        }
    }

    /// Drops the pages from `count` on.
    pub fn truncate(&mut self, count: u64) {
        self.words.truncate(count as usize * self.page_size / 8);
    }

    fn offset(&self, page: u64) -> Option<usize> {
        if page < self.count() { Some(page as usize * self.page_size) } else { None }
    }
}

fn words_of(bytes: &[u8]) -> impl Iterator<Item = u64> + '_ {
    bytes.chunks_exact(8).map(|chunk| u64::from_le_bytes(chunk.try_into().expect("a chunk is 8 bytes long")))
}
