//! The store as the library has it, beside the bytes that it must have; and the heap.

use harness::Random;

use crate::library::{noise, Lent};

/// How many bytes past the pages in use are kept ready.
const AHEAD: usize = 1 << 16;

pub struct Store {
    /// For the report of a difference.
    name: &'static str,
    pub page_size: usize,
    pub count: u64,
    /// What the library is lent a part of: noise, the pages, noise.
    bytes: Vec<u8>,
    /// What that must be.
    image: Vec<u8>,
    before: usize,
}

impl Store {
    pub fn new(page_size: usize, random: &mut Random) -> Store {
        Store::named("store", page_size, random)
    }

    /// A heap grows byte by byte, so its pages are bytes, and their count is its length.
    pub fn heap(random: &mut Random) -> Store {
        Store::named("heap", 1, random)
    }

    fn named(name: &'static str, page_size: usize, random: &mut Random) -> Store {
        let bytes = Lent::of_length(0, random).all().to_vec();
        let before = bytes.len();
        Store { name, page_size, count: 0, image: bytes.clone(), bytes, before }
    }

    /// The place of a page, which may be the next one to write.
    fn place(&self, page: u64) -> usize {
        self.before + page as usize * self.page_size
    }

    /// Makes room for so many pages more, and for noise past them.
    pub fn make_room(&mut self, pages: usize, random: &mut Random) {
        let needed = self.place(self.count) + (pages + 1) * self.page_size + 64;
        if self.bytes.len() < needed {
            let more = noise(needed - self.bytes.len() + AHEAD, random);
            self.bytes.extend_from_slice(&more);
            self.image.extend_from_slice(&more);
        }
    }

    /// The slice to lend: the pages in use, so many more, and some bytes.
    pub fn lend(&mut self, pages: usize, bytes: usize) -> &mut [u8] {
        let end = self.place(self.count) + pages * self.page_size + bytes;
        &mut self.bytes[self.before..end]
    }

    /// The slice to lend to a call that reads: the pages in use, and some bytes.
    pub fn shown(&self, bytes: usize) -> &[u8] {
        &self.bytes[self.before..self.place(self.count) + bytes]
    }

    /// The bytes from the first free page on, as a call left them.
    pub fn past(&self) -> &[u8] {
        &self.bytes[self.place(self.count)..]
    }

    /// The bytes that a call left, from the first free page on, if they differ from these pages with the old bytes past
    /// them: the number of the first byte, what it is and what it must be.
    pub fn fault_past(&self, pages: &[u8]) -> Option<String> {
        let start = self.place(self.count);
        let end = start + pages.len();
        self.difference(start, &self.bytes[start..end], pages)
            .or_else(|| self.difference(end, &self.bytes[end..], &self.image[end..]))
    }

    /// The same for all bytes, the guard in front among them.
    pub fn fault(&self) -> Option<String> {
        self.difference(0, &self.bytes, &self.image)
    }

    /// Takes back what a call wrote past the pages in use.
    pub fn restore(&mut self) {
        let start = self.place(self.count);
        self.bytes[start..].copy_from_slice(&self.image[start..]);
    }

    /// The pages are written and in use from here on.
    pub fn grow(&mut self, pages: &[u8]) {
        let start = self.place(self.count);
        self.image[start..start + pages.len()].copy_from_slice(pages);
        self.count += (pages.len() / self.page_size) as u64;
    }

    /// A page in use, to be damaged: on both sides.
    pub fn poke(&mut self, page: u64, content: &[u8]) {
        let start = self.place(page);
        self.bytes[start..start + content.len()].copy_from_slice(content);
        self.image[start..start + content.len()].copy_from_slice(content);
    }

    fn difference(&self, from: usize, found: &[u8], expected: &[u8]) -> Option<String> {
        if found == expected {
            return None;
        }
        let at = found.iter().zip(expected).position(|(a, b)| a != b).expect("two slices of one length that differ");
        let byte = (from + at) as i64 - self.before as i64;
        let page = byte.div_euclid(self.page_size as i64);
        Some(format!("byte {} of the {} (in page {}) is {}, and must be {}", byte, self.name, page, found[at], expected[at]))
    }
}
