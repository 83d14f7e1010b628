//! Document 01's "Listing and check" for any cursor, any store, any order and any heap, and document 02's names of what is damaged and its question
//! whether a batch is held, written to their text: the judge where the Rust has no answer.

use std::cmp::Ordering;

use harness::{is_formed, Datom, Heap, Node, Order, Pages, NONE};

use crate::names::{Damaged, Fault};

const LEVELS: usize = 8;

/// A cursor's bytes in the C interface: a height, then eight indices and eight page ids for each end.
pub const CURSOR_BYTES: usize = 8 * (1 + 4 * LEVELS);

/// One end of a listing, by level.
#[derive(Clone, Copy, Debug, Default, PartialEq)]
pub struct End {
    pub indices: [u64; LEVELS],
    pub pages: [u64; LEVELS],
}

#[derive(Clone, Copy, Debug, Default, PartialEq)]
pub struct Cursor {
    pub height: u64,
    pub begin: End,
    pub end: End,
}

impl Cursor {
    fn words(&self) -> Vec<u64> {
        let ends = [self.begin.indices, self.begin.pages, self.end.indices, self.end.pages];
        [self.height].into_iter().chain(ends.into_iter().flatten()).collect()
    }

    pub fn bytes(&self) -> Vec<u8> {
        self.words().into_iter().flat_map(u64::to_le_bytes).collect()
    }

    /// The cursor in `CURSOR_BYTES` bytes.
    pub fn of_bytes(bytes: &[u8]) -> Cursor {
        let word = |i: usize| u64::from_le_bytes(bytes[8 * i..8 * i + 8].try_into().expect("a word has 8 bytes"));
        let eight = |part: usize| std::array::from_fn(|level| word(1 + LEVELS * part + level));
        Cursor {
            height: word(0),
            begin: End { indices: eight(0), pages: eight(1) },
            end: End { indices: eight(2), pages: eight(3) },
        }
    }
}

#[derive(Clone, Debug, PartialEq)]
pub enum Step {
    Yields(Datom, Cursor),
    Ended,
    /// Before anything is yielded.
    Refused(Damaged),
    /// While advancing past the datom.
    Lost(Damaged),
}

/// The index of the first datom of a batch that a lookup seeks, none if there is none, or where the lookup is lost.
pub type Looked = Result<Option<u64>, Damaged>;

/// The number and the index of what is wrong with an increasing batch by itself. "3 is given for the whole batch before 11", and 11 before 4.
pub fn batch_fault(order: Order, heap: &Heap, batch: &[Datom]) -> Option<(u64, u64)> {
    let malformed = batch.iter().position(|datom| !is_formed(datom)).map(|i| (3, i));
    let constant = || batch.iter().position(|datom| !heap.is_storable(datom)).map(|i| (11, i));
    let unordered = || batch.windows(2).position(|pair| heap.compare(order, &pair[0], &pair[1]).is_ge()).map(|i| (4, i + 1));
    malformed.or_else(constant).or_else(unordered).map(|(number, i)| (number, i as u64))
}

/// The rules over the pages of a store, in its order, and the constants of its heap.
pub struct Model<'a> {
    pub pages: &'a Pages,
}

impl Model<'_> {
    fn compare(&self, left: &Datom, right: &Datom) -> Ordering {
        self.pages.compare(left, right)
    }

    /// A page that is there and readable, or what is wrong with it.
    pub fn node(&self, page: u64) -> Result<Node, Damaged> {
        let bytes = self.pages.page(page).ok_or(Damaged { page, fault: Fault::Missing })?;
        Node::read(bytes, page, self.pages.order(), self.pages.heap()).map_err(|rule| Damaged { page, fault: Fault::Breaks(rule) })
    }

    /// A page is read before its level is asked.
    pub fn node_of_level(&self, page: u64, level: usize) -> Result<Node, Damaged> {
        let node = self.node(page)?;
        if node.level as usize == level { Ok(node) } else { Err(Damaged { page, fault: Fault::WrongLevel }) }
    }

    /// "Starting a listing checks 1, 10, 5, then the bounds' order, then pages": from the bounds' order on.
    pub fn start(&self, root: u64, lower: &Datom, upper: &Datom) -> Result<Cursor, Damaged> {
        if root == NONE || self.compare(lower, upper) != Ordering::Less {
            return Ok(Cursor::default());
        }
        let level = self.node(root)?.level as usize;
        let way = |bound: &Datom| -> Result<End, Damaged> {
            let mut end = End::default();
            let index = |node: &Node| node.datoms.iter().take_while(|held| self.compare(held, bound).is_lt()).count();
            self.go_down(root, level, index, &mut end)?;
            Ok(end)
        };
        Ok(Cursor { height: level as u64 + 1, begin: way(lower)?, end: way(upper)? })
    }

    /// From a page down to level 0, each time to the first real child at or after the index. An error is where it is lost.
    fn go_down(&self, mut page: u64, level: usize, index: impl Fn(&Node) -> usize, end: &mut End) -> Result<(), Damaged> {
        for level in (0..level + 1).rev() {
            let node = self.node_of_level(page, level)?;
            let at = index(&node);
            end.indices[level] = at as u64;
            end.pages[level] = page;
            page = child_from(&node, at);
        }
        Ok(())
    }

    /// "A step checks 1, then a height over 8 (Damaged, id none), then the end, then the begin pages from the top": from the height on.
    pub fn step(&self, cursor: &Cursor) -> Step {
        if cursor.height > LEVELS as u64 {
            return Step::Refused(Damaged { page: NONE, fault: Fault::TooHigh });
        }
        let height = cursor.height as usize;
        if cursor.begin.indices[..height] == cursor.end.indices[..height] {
            return Step::Ended;
        }
        match self.open(cursor, height).and_then(|nodes| Ok((self.smallest(cursor, &nodes)?, nodes))) {
            Err(damaged) => Step::Refused(damaged),
            Ok(((level, datom), nodes)) => self.advance(cursor, level, &nodes[level], datom),
        }
    }

    /// "Then the begin pages from the top: a missing or unreadable page, a wrong level or an index past the count"; by level.
    fn open(&self, cursor: &Cursor, height: usize) -> Result<Vec<Node>, Damaged> {
        let mut nodes = Vec::new();
        for level in (0..height).rev() {
            let page = cursor.begin.pages[level];
            let node = self.node_of_level(page, level)?;
            if cursor.begin.indices[level] > node.datoms.len() as u64 {
                return Err(Damaged { page, fault: Fault::PastCount });
            }
            nodes.push(node);
        }
        nodes.reverse();
        Ok(nodes)
    }

    /// As `Iter::next`: past the datom, and behind a midpoint the levels below are filled from the next child.
    fn advance(&self, cursor: &Cursor, level: usize, node: &Node, datom: Datom) -> Step {
        let mut next = Cursor { height: cursor.height, ..Cursor::default() };
        let used = cursor.height as usize;
        for (new, old) in [(&mut next.begin, &cursor.begin), (&mut next.end, &cursor.end)] {
            new.indices[..used].copy_from_slice(&old.indices[..used]);
            new.pages[..used].copy_from_slice(&old.pages[..used]);
        }
        let index = cursor.begin.indices[level] as usize;
        next.begin.indices[level] += 1;
        if level > 0 && node.children[index] != NONE {
            if let Err(damaged) = self.go_down(child_from(node, index + 1), level - 1, |_| 0, &mut next.begin) {
                return Step::Lost(damaged);
            }
        }
        Step::Yields(datom, next)
    }

    /// "In each page the path finds the first datom not below the one sought; it stops if that is equal or the level is 0, and else goes
    /// on to the first real child at or after that index": whether it ends at an equal datom. An error is where it is lost.
    fn is_met(&self, root: u64, sought: &Datom) -> Result<bool, Damaged> {
        let mut node = self.node(root)?;
        loop {
            let first = node.datoms.iter().take_while(|held| self.compare(held, sought).is_lt()).count();
            let is_equal = node.datoms.get(first).map_or(false, |held| self.compare(held, sought).is_eq());
            if is_equal || node.level == 0 {
                return Ok(is_equal);
            }
            node = self.node_of_level(child_from(&node, first), node.level as usize - 1)?;
        }
    }

    /// The index of the first datom of a batch that is met, or is not, along its path from a root. "Lookup goes datom by datom, so 6 and
    /// 7 come in whichever order they are met"; so do 16 and 7.
    fn first(&self, is_sought: bool, root: u64, batch: &[Datom]) -> Looked {
        for (i, datom) in batch.iter().enumerate() {
            if (root != NONE && self.is_met(root, datom)?) == is_sought {
                return Ok(Some(i as u64));
            }
        }
        Ok(None)
    }

    /// "Before writing, insert looks every batch datom up along its path, in batch order": the index of 6.
    pub fn first_met(&self, root: u64, batch: &[Datom]) -> Looked {
        self.first(true, root, batch)
    }

    /// "0 where the tree holds all its datoms, number 16 NotHeld with the index of the first that it does not hold, .. and 7 as met": the
    /// index of 16, for a batch that 1 to 5 let through.
    pub fn first_not_held(&self, root: u64, batch: &[Datom]) -> Looked {
        self.first(false, root, batch)
    }

    /// The first fault that the check's walk meets. "Root "none" is Sound."
    pub fn check(&self, root: u64) -> Option<Damaged> {
        if root == NONE { None } else { self.check_page(root, None, None, None).err() }
    }

    fn check_page(&self, page: u64, level: Option<usize>, lower: Option<&Datom>, upper: Option<&Datom>) -> Result<(), Damaged> {
        let node = level.map_or_else(|| self.node(page), |level| self.node_of_level(page, level))?;
        let (mut passed, mut midpoint) = (lower, lower);
        // The upper bound and the last child stand at the end as one datom and child more.
        for (datom, &child) in node.datoms.iter().map(Some).chain([upper]).zip(&node.children) {
            if let (Some(passed), Some(datom)) = (passed, datom) {
                if self.compare(passed, datom) != Ordering::Less {
                    return Err(Damaged { page, fault: Fault::OutOfBounds });
                }
            }
            if child != NONE {
                self.check_page(child, Some(node.level as usize - 1), midpoint, datom)?;
                midpoint = datom;
            }
            passed = datom;
        }
        Ok(())
    }

    /// "Candidates are compared from level 0 up; the first equal pair is Damaged, naming the page of the higher level."
    fn smallest(&self, cursor: &Cursor, nodes: &[Node]) -> Result<(usize, Datom), Damaged> {
        let mut best: Option<(usize, Datom)> = None;
        for (level, node) in nodes.iter().enumerate() {
            let Some(&datom) = node.datoms.get(cursor.begin.indices[level] as usize) else {
                continue;
            };
            match best.map(|(_, least)| self.compare(&least, &datom)) {
                Some(Ordering::Less) => {}
                Some(Ordering::Equal) => return Err(Damaged { page: cursor.begin.pages[level], fault: Fault::EqualDatoms }),
                Some(Ordering::Greater) | None => best = Some((level, datom)),
            }
        }
        best.ok_or(Damaged { page: NONE, fault: Fault::NothingLeft })
    }
}

/// The first real child at or after an index; at level 0 there is none.
fn child_from(node: &Node, index: usize) -> u64 {
    node.children[index..].iter().copied().find(|&child| child != NONE).unwrap_or(NONE)
}
