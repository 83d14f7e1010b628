//! A page's content, read and written to document 01's layout, apart from noblit.

use std::cmp::Ordering;

use crate::datom::{Datom, Order};
use crate::heap::Heap;
use crate::pages::NONE;

pub const PAGE_SIZES: [usize; 4] = [256, 568, 4096, 8192];

const HIGHEST_LEVEL: u8 = 7;

/// How many datoms a page holds; nothing for an unknown size.
pub fn capacity(page_size: usize) -> Option<usize> {
    match page_size {
        256 => Some(6),
        568 => Some(13),
        4096 => Some(102),
        8192 => Some(204),
        _ => None,
    }
}

/// A rule of document 01's "Readable", with the number that document 02, One, gives it.
#[derive(Clone, Copy, Debug, PartialEq)]
pub enum Rule {
    Level = 1,
    Count = 2,
    Form = 3,
    Order = 4,
    LeafChild = 5,
    LastChild = 6,
    ChildId = 7,
}

impl Rule {
    /// "Checked in this order."
    pub const ALL: [Rule; 7] =
        [Rule::Level, Rule::Count, Rule::Form, Rule::Order, Rule::LeafChild, Rule::LastChild, Rule::ChildId];
}

/// What a page holds: one child more than datoms.
#[derive(Clone, Debug, PartialEq)]
pub struct Node {
    pub level: u8,
    pub datoms: Vec<Datom>,
    pub children: Vec<u64>,
}

impl Node {
    /// Reads a page's content; nothing if its count is over the capacity.
    pub fn decode(page: &[u8]) -> Option<Node> {
        let cap = capacity(page.len())?;
        let (level, count) = (page[40 * cap + 8], page[40 * cap + 9] as usize);
        if count > cap {
            return None;
        }
        let word = |at: usize| u64::from_le_bytes(page[at..at + 8].try_into().expect("a word has 8 bytes"));
        let datom = |i: usize| [word(32 * i), word(32 * i + 8), word(32 * i + 16), word(32 * i + 24)];
        Some(Node {
            level,
            datoms: (0..count).map(datom).collect(),
            children: (0..count + 1).map(|i| word(32 * cap + 8 * i)).collect(),
        })
    }

    /// Lays the content over a page, whose other bytes stay as they are.
    pub fn encode_over(&self, page: &mut [u8]) {
        let cap = capacity(page.len()).expect("a page of known size");
        assert!(self.datoms.len() <= cap && self.children.len() == self.datoms.len() + 1, "a node that fits the page");
        let mut put = |at: usize, word: u64| page[at..at + 8].copy_from_slice(&word.to_le_bytes());
        for (i, datom) in self.datoms.iter().enumerate() {
            for (j, &word) in datom.iter().enumerate() {
                put(32 * i + 8 * j, word);
            }
        }
        for (i, &child) in self.children.iter().enumerate() {
            put(32 * cap + 8 * i, child);
        }
        page[40 * cap + 8] = self.level;
        page[40 * cap + 9] = self.datoms.len() as u8;
    }

    /// What the page with this id holds, its datoms in this order and its constants on this heap, or the first rule that it breaks.
    pub fn read(page: &[u8], id: u64, order: Order, heap: &Heap) -> Result<Node, Rule> {
        let cap = capacity(page.len()).expect("a page of known size");
        if page[40 * cap + 8] > HIGHEST_LEVEL {
            return Err(Rule::Level);
        }
        let node = Node::decode(page).ok_or(Rule::Count)?;
        node.broken_rule(id, order, heap).map_or(Ok(node), Err)
    }

    /// Document 01's "Readable" for the page with this id, apart from the count, which `decode` tests.
    pub fn is_readable(&self, id: u64, order: Order, heap: &Heap) -> bool {
        self.broken_rule(id, order, heap).is_none()
    }

    fn broken_rule(&self, id: u64, order: Order, heap: &Heap) -> Option<Rule> {
        Rule::ALL.into_iter().find(|&rule| self.breaks(rule, id, order, heap))
    }

    /// Whether the page with this id breaks a rule. "All datoms' form, constants included, comes before the order of any."
    pub fn breaks(&self, rule: Rule, id: u64, order: Order, heap: &Heap) -> bool {
        let is_real = |&child: &u64| child != NONE;
        match rule {
            Rule::Level => self.level > HIGHEST_LEVEL,
            Rule::Count => false,
            Rule::Form => !self.datoms.iter().all(|datom| heap.is_storable(datom)),
            Rule::Order => self.datoms.windows(2).any(|pair| heap.compare(order, &pair[0], &pair[1]) != Ordering::Less),
            Rule::LeafChild => self.level == 0 && self.children.iter().any(is_real),
            Rule::LastChild => self.level > 0 && !self.children.last().is_some_and(is_real),
            Rule::ChildId => self.children.iter().filter(|child| is_real(child)).any(|&child| child >= id),
        }
    }
}
