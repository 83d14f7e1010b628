//! Datoms for histories: which there are, which go into a batch, and bounds around them.

use std::cmp::Ordering;
use std::collections::BTreeMap;
use std::rc::Rc;

use crate::datom::{byte_string, Datom, Order, Word, MAX_VALUE};
use crate::heap::{Constant, Heap};
use crate::random::Random;

/// What the datoms of a history look like.
#[derive(Clone, Copy, Debug, PartialEq)]
pub enum Kind {
    /// Document 01's d(0), d(1), ..
    Counted,
    /// Integer values; entities and attributes repeat, so that all four words get to decide.
    Integers,
    /// Byte strings of all lengths under few entities and attributes, many a prefix of another.
    Strings,
    /// One entity and attribute and three values, so that the last word decides.
    LastWords,
    /// All of the above, and the ends of every range.
    Mixed,
    /// Byte strings inline and on the heap, under few entities and attributes; many share their first 7 or 8 bytes.
    LongStrings,
    /// Integers around 2^62 and above, inline and on the heap, under few entities and attributes.
    LongIntegers,
    /// All values, inline and on the heap, and the ends of every range.
    LongMixed,
}

impl Kind {
    /// Whether some of its values are constants on the heap.
    pub fn is_long(self) -> bool {
        matches!(self, Kind::LongStrings | Kind::LongIntegers | Kind::LongMixed)
    }
}

/// One in so many constants stands at two offsets from the start.
const TWINS: usize = 6;

/// One in so many bounds is an edge.
const EDGES: usize = 4;

/// Which of the datoms not yet held go into the next batch.
#[derive(Clone, Copy, Debug, PartialEq)]
pub enum Plan {
    Ascending,
    Descending,
    Scattered,
    /// Up to three runs of neighbours.
    Clustered,
}

/// The datoms that a tree holds: a mark for each datom of the supply.
pub type Held = Vec<bool>;

/// All datoms that a history may use, in its order and without repeats, and the heap with their constants.
#[derive(Clone)]
pub struct Supply {
    order: Order,
    datoms: Vec<Datom>,
    heap: Rc<Heap>,
    /// Every constant of the heap, in its order.
    laid: Vec<Constant>,
    /// Words of equal content, each for the other.
    twins: BTreeMap<u64, u64>,
}

impl Supply {
    pub fn new(kind: Kind, amount: usize, order: Order, random: &mut Random) -> Supply {
        let (mut datoms, mut values) = (Vec::new(), Values::default());
        while datoms.len() < amount {
            while datoms.len() < amount {
                datoms.push(datom(kind, datoms.len() as u64, &mut values, random));
            }
            datoms.sort_by(|left, right| values.heap.compare(order, left, right));
            datoms.dedup_by(|right, left| values.heap.compare(order, left, right).is_eq());
        }
        let mut supply = Supply { order, datoms, heap: Rc::new(values.heap), laid: values.laid, twins: BTreeMap::new() };
        for i in 0..amount {
            if supply.is_long(i) && random.one_in(TWINS) {
                supply.lay_anew(i);
            }
        }
        supply
    }

    /// The same datoms on the same heap in another order.
    pub fn reordered(&self, order: Order) -> Supply {
        let mut supply = Supply { order, ..self.clone() };
        supply.datoms.sort_by(|left, right| self.heap.compare(order, left, right));
        supply
    }

    pub fn heap(&self) -> &Rc<Heap> {
        &self.heap
    }

    /// In the order of the supply, by content.
    pub fn compare(&self, left: &Datom, right: &Datom) -> Ordering {
        self.heap.compare(self.order, left, right)
    }

    /// The constants of the heap, in its order.
    pub fn constants(&self) -> &[Constant] {
        &self.laid
    }

    /// Whether a datom's value is a constant on the heap.
    pub fn is_long(&self, i: usize) -> bool {
        Word::of(self.datoms[i][2]).is_long()
    }

    /// Appends the constant of a datom, which then has another word of the same content. No tree may hold the datom: what it lists is
    /// compared word for word.
    pub fn lay_anew(&mut self, i: usize) {
        let old = self.datoms[i][2];
        let constant = self.heap.constant(old).expect("a long value");
        let new = Rc::make_mut(&mut self.heap).append(&constant);
        self.laid.push(constant);
        self.twins.insert(old, new);
        self.twins.insert(new, old);
        self.datoms[i][2] = new;
    }

    /// The datom with a value of equal content at another offset, if there is one.
    pub fn twin(&self, datom: &Datom) -> Option<Datom> {
        let value = *self.twins.get(&datom[2])?;
        Some([datom[0], datom[1], value, datom[3]])
    }

    pub fn nothing_held(&self) -> Held {
        vec![false; self.datoms.len()]
    }

    /// The held datoms that lie in the listing between these bounds.
    pub fn listing(&self, held: &Held, lower: &Datom, upper: &Datom) -> Vec<Datom> {
        let within = |datom: &Datom| self.compare(lower, datom).is_le() && self.compare(datom, upper).is_lt();
        self.datoms.iter().zip(held).filter(|(datom, &is_held)| is_held && within(datom)).map(|(&datom, _)| datom).collect()
    }

    /// An increasing batch of up to `size` datoms not held, fewer where the plan finds no more.
    pub fn batch(&self, held: &Held, plan: Plan, size: usize, random: &mut Random) -> Vec<usize> {
        let free: Vec<usize> = (0..held.len()).filter(|&i| !held[i]).collect();
        let mut chosen = match plan {
            Plan::Ascending => {
                let above = held.iter().rposition(|&is_held| is_held).map_or(0, |last| last + 1);
                (above..held.len()).take(size).collect()
            }
            Plan::Descending => {
                let below = held.iter().position(|&is_held| is_held).unwrap_or(held.len());
                (0..below).rev().take(size).collect()
            }
            Plan::Scattered => {
                let mut order = free;
                random.shuffle(&mut order);
                order.truncate(size);
                order
            }
            Plan::Clustered => clusters(free, size, random),
        };
        chosen.sort();
        chosen
    }

    pub fn datoms(&self, batch: &[usize]) -> Vec<Datom> {
        batch.iter().map(|&i| self.datoms[i]).collect()
    }

    /// Any datom of the supply, held or not.
    pub fn any(&self, random: &mut Random) -> Datom {
        random.pick(&self.datoms)
    }

    fn any_held(&self, held: &Held, random: &mut Random) -> Datom {
        let places: Vec<usize> = (0..held.len()).filter(|&i| held[i]).collect();
        self.datoms[random.pick(&places)]
    }

    /// A bound below all, above all, at a datom, next to one, or with the value max. Most lie among
    /// the held datoms, of which there must be one. A long value may be that of another datom, or stand at another offset.
    pub fn bound(&self, held: &Held, random: &mut Random) -> Datom {
        let near = if random.one_in(6) { self.any(random) } else { self.any_held(held, random) };
        // In the first order none is made: the recorded answers of before stay as they are.
        if self.order != Order::Eavt && random.one_in(EDGES) {
            return self.edge(&near, random);
        }
        match random.below(9) {
            0 => [0; 4],
            1 => [u64::MAX, u64::MAX, MAX_VALUE, u64::MAX],
            2 => [near[0], near[1], near[2], near[3].saturating_add(1)],
            3 => [near[0], near[1], near[2], near[3].saturating_sub(1)],
            4 => [near[0], near[1], MAX_VALUE, random.pick(&[0, near[3], u64::MAX])],
            5 if Word::of(near[2]).is_long() => [near[0], near[1], self.any(random)[2], near[3]],
            5 => [near[0], near[1], value(random), near[3]],
            _ => self.twin(&near).unwrap_or(near),
        }
    }

    /// The least or the greatest of all datoms that agree with one in the first word that decides, or in the first two: where the datoms of
    /// an attribute begin or end, or those of an attribute and a value.
    fn edge(&self, near: &Datom, random: &mut Random) -> Datom {
        let (agreeing, end) = (1 + random.below(2), random.pick(&[0, u64::MAX]));
        let mut bound = *near;
        self.order.places()[agreeing..].iter().for_each(|&place| bound[place] = end);
        bound
    }
}

/// Words of values of a history, and the heap with their constants.
#[derive(Default)]
struct Values {
    heap: Heap,
    laid: Vec<Constant>,
}

impl Values {
    fn integer(&mut self, number: u64) -> u64 {
        let word = self.heap.value_of_integer(number);
        self.note(word)
    }

    fn bytes(&mut self, bytes: &[u8]) -> u64 {
        let word = self.heap.value_of_bytes(bytes);
        self.note(word)
    }

    fn note(&mut self, word: u64) -> u64 {
        self.laid.extend(self.heap.constant(word));
        word
    }
}

/// Runs of neighbours among the free datoms; as many as `size` unless fewer are free.
fn clusters(mut free: Vec<usize>, size: usize, random: &mut Random) -> Vec<usize> {
    let run = size / (1 + random.below(3)) + 1;
    let mut chosen = Vec::new();
    while chosen.len() < size && !free.is_empty() {
        let start = random.below(free.len());
        let end = free.len().min(start + run.min(size - chosen.len()));
        chosen.extend(free.drain(start..end));
    }
    chosen
}

fn datom(kind: Kind, number: u64, values: &mut Values, random: &mut Random) -> Datom {
    match kind {
        Kind::Counted => [number, 1, number, 3],
        Kind::Integers => [few(random), few(random), integer(random), last_word(random)],
        Kind::Strings => [random.below(3) as u64, random.below(2) as u64, string(random), last_word(random)],
        Kind::LastWords => [9, 9, random.pick(&[7, byte_string(b"ab"), byte_string(b"abc")]), random.word()],
        Kind::Mixed => {
            let (entity, attribute) = ends(random);
            [entity, attribute, value(random), last_word(random)]
        }
        Kind::LongStrings => {
            [random.below(3) as u64, random.below(2) as u64, values.bytes(&some_string(random)), last_word(random)]
        }
        Kind::LongIntegers => {
            [random.below(3) as u64, random.below(2) as u64, values.integer(some_integer(random)), last_word(random)]
        }
        Kind::LongMixed => {
            let (entity, attribute) = ends(random);
            let value = match random.below(4) {
                0 => value(random),
                1 => values.integer(some_integer(random)),
                _ => values.bytes(&some_string(random)),
            };
            [entity, attribute, value, last_word(random)]
        }
    }
}

/// Entities and attributes at the ends of their ranges.
fn ends(random: &mut Random) -> (u64, u64) {
    (random.pick(&[0, 1, 2, 1 << 32, u64::MAX]), random.pick(&[0, 1, 255, 256, u64::MAX]))
}

fn few(random: &mut Random) -> u64 {
    random.below(9) as u64
}

fn value(random: &mut Random) -> u64 {
    if random.one_in(2) { integer(random) } else { string(random) }
}

fn integer(random: &mut Random) -> u64 {
    match random.below(4) {
        0 => random.below(8) as u64,
        1 => (1 << 62) - 1 - random.below(4) as u64,
        _ => random.word() >> (2 + random.below(62)),
    }
}

/// Bytes from a small alphabet make prefixes and shared beginnings; it has bytes above 127 and zero.
fn string(random: &mut Random) -> u64 {
    let length = random.below(8);
    let bytes: Vec<u8> = (0..length).map(|_| random.pick(&[b'a', b'b', b'b', 0x00, 0x7f, 0x80, 0xff])).collect();
    byte_string(&bytes)
}

/// What byte strings begin with, as long as the longest that is inline.
const STEMS: [&[u8; 7]; 5] = [b"aaaaaaa", b"aaaaaab", b"abbbbbb", b"\0\0\0\0\0\0\0", b"\xff\xff\xff\xff\xff\xff\xff"];

/// Lengths on the heap, most of them around a multiple of 8.
const LONG_LENGTHS: [usize; 16] = [8, 8, 8, 9, 10, 15, 15, 16, 16, 17, 23, 24, 25, 32, 39, 40];

/// A byte string of any length up to 40. Those that are inline are beginnings of those that are not, and these differ from the eighth
/// byte on, if at all; some end in zeros, as the padding does.
fn some_string(random: &mut Random) -> Vec<u8> {
    let stem = random.pick(&STEMS);
    if random.one_in(3) {
        let length = if random.one_in(2) { stem.len() } else { random.below(stem.len()) };
        return stem[..length].to_vec();
    }
    let length = random.pick(&LONG_LENGTHS);
    let mut bytes = stem.to_vec();
    bytes.resize_with(length, || random.pick(&[b'a', b'a', b'b', 0x00, 0x80, 0xff]));
    if random.one_in(3) {
        let zeros = 1 + random.below(length.min(9));
        bytes[length - zeros..].fill(0);
    }
    bytes
}

/// An integer at or around the least that has no inline form, or at the upper end.
fn some_integer(random: &mut Random) -> u64 {
    match random.below(4) {
        0 => integer(random),
        1 => random.pick(&[(1 << 62) - 1, 1 << 62, (1 << 62) + 1, 1 << 63, (1 << 63) - 1, u64::MAX, u64::MAX - 1]),
        2 => (1 << 62) + random.below(9) as u64,
        _ => random.word() | random.pick(&[1 << 62, 2 << 62, 3 << 62]),
    }
}

fn last_word(random: &mut Random) -> u64 {
    match random.below(4) {
        0 => u64::MAX - random.below(3) as u64,
        1 => random.word(),
        _ => random.below(16) as u64,
    }
}
