//! The memory of a tree in pages of one size. Both sides have one each, of the same size, touched and cleared the same way.

use std::slice;

pub struct Slab {
    /// Words, as the Rust views pages as datoms.
    words: Vec<u64>,
    pub page_size: usize,
    pub count: u64,
}

impl Slab {
    /// Room for so many pages, all of it touched.
    pub fn new(page_size: usize, pages: usize) -> Slab {
        let mut words = vec![1; pages * page_size / 8];
        words.fill(0);
        Slab { words, page_size, count: 0 }
    }

    pub fn bytes(&self) -> &[u8] {
        unsafe { slice::from_raw_parts(self.words.as_ptr() as *const u8, self.words.len() * 8) }
    }

    pub fn bytes_mut(&mut self) -> &mut [u8] {
        unsafe { slice::from_raw_parts_mut(self.words.as_mut_ptr() as *mut u8, self.words.len() * 8) }
    }

    pub fn page(&self, page: u64) -> &[u8] {
        &self.bytes()[page as usize * self.page_size..][..self.page_size]
    }

    /// The pages from `count` on.
    pub fn bytes_from(&self, count: u64) -> &[u8] {
        &self.bytes()[count as usize * self.page_size..self.count as usize * self.page_size]
    }

    pub fn append(&mut self, page: &[u8]) -> u64 {
        let at = self.count as usize * self.page_size;
        let end = at + self.page_size;
        self.bytes_mut()[at..end].copy_from_slice(page);
        self.count += 1;
        self.count - 1
    }

    /// Forgets the pages from `count` on, and clears them: the room past the pages in use is zero.
    pub fn rewind(&mut self, count: u64) {
        self.words[count as usize * self.page_size / 8..self.count as usize * self.page_size / 8].fill(0);
        self.count = count;
    }

    /// The first pages of a slab, with room for more.
    pub fn copy_of(other: &Slab, more: usize) -> Slab {
        let mut slab = Slab::new(other.page_size, other.count as usize + more);
        let length = other.count as usize * other.page_size;
        slab.bytes_mut()[..length].copy_from_slice(&other.bytes()[..length]);
        slab.count = other.count;
        slab
    }
}
