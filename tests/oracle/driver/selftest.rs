//! Compares noblit's orders, byte strings and heap with those written to documents 01 and 02, on random pairs and constants, and some
//! records with the text of their format.

use std::cmp::Ordering;
use std::rc::Rc;

use harness::{
    bad_constant, byte_string, Answer, By, Datom, Heap, Kind, Oracle, Order, Random, Supply, Which, Word, MALFORMED, MAX_VALUE,
};

use crate::model::Cursor;
use crate::recording::{Question, Record, Stored};
use crate::text::show_datom;

const SEED: u64 = 1;
const PAIRS: usize = 400_000;

/// Heaps, datoms with constants on each of them, and pairs of these. The Rust is handed a copy of the heap for each.
const HEAPS: usize = 40;
const LONG: usize = 120;
const LONG_PAIRS: usize = 2_000;

const BUILDS: [Which; 2] = [Which::Plain, Which::Patched];

pub fn selftest() -> Result<(), String> {
    let mut random = Random::new(SEED);
    let (mut outcomes, no_heap) = (Outcomes::default(), Rc::default());
    for _ in 0..PAIRS {
        agreed_string(&bytes(&mut random))?;
        let left = bound(&mut random);
        let right = neighbour(&mut random, &left);
        outcomes.count(agreed_orders(&no_heap, &left, &right)?);
    }
    println!("{} pairs agree: {}", PAIRS, outcomes);
    if outcomes.other == 0 {
        return Err("no pair on which two orders differ".to_string());
    }
    agreed_heaps(&mut random)?;
    known_constants()?;
    agreed_records()
}

/// How pairs compare, a number for each order.
#[derive(Default)]
struct Outcomes {
    less: [usize; Order::ALL.len()],
    equal: usize,
    greater: [usize; Order::ALL.len()],
    /// Pairs of which two orders say something else.
    other: usize,
}

impl Outcomes {
    fn count(&mut self, found: [Ordering; Order::ALL.len()]) {
        for (i, outcome) in found.into_iter().enumerate() {
            self.less[i] += outcome.is_lt() as usize;
            self.greater[i] += outcome.is_gt() as usize;
        }
        self.equal += found[0].is_eq() as usize;
        self.other += found.iter().any(|outcome| *outcome != found[0]) as usize;
    }
}

impl std::fmt::Display for Outcomes {
    fn fmt(&self, out: &mut std::fmt::Formatter) -> std::fmt::Result {
        write!(
            out, "in the orders {:?} {:?} less, {:?} greater, and {} equal; {} less in one and greater in another",
            Order::ALL, self.less, self.greater, self.equal, self.other,
        )
    }
}

/// The words of some records stand where docs/ORACLE.md has them.
fn agreed_records() -> Result<(), String> {
    let batch = vec![[31, 32, 33, 34], [35, 36, 37, 38]];
    let cursor = Cursor { height: 31, ..Cursor::default() }.bytes();
    agreed_named(1, Question::Check, &[])?;
    agreed_named(2, Question::Start { lower: batch[0], upper: batch[1] }, &[31, 32, 33, 34, 35, 36, 37, 38])?;
    agreed_named(3, Question::Step { cursor }, &[&[31][..], &[0; 32]].concat())?;
    agreed_named(4, Question::Held { batch: batch.clone() }, &[31, 32, 33, 34, 35, 36, 37, 38])?;
    agreed_named(5, Question::InsertNamed { batch }, &[31, 32, 33, 34, 35, 36, 37, 38])?;
    println!("5 calls that name a fault are recorded as docs/ORACLE.md says");
    agreed_record(Record::Begin { page_size: 21, room: 22, history: 23, heap_room: 0 }, &[1, 21, 22, 23])?;
    agreed_record(Record::Begin { page_size: 21, room: 22, history: 23, heap_room: 24 }, &[1, 21, 22, 23, 24])?;
    agreed_record(Record::Heap { offset: 21, bytes: vec![1, 0, 0, 0, 0, 0, 0, 0] }, &[9, 21, 1])?;
    agreed_record(Record::Stored(Stored { page_size: 21, page_count: 22, heap_length: 23, order: 24 }), &[10, 21, 22, 23, 24])?;
    println!("so is the beginning of a history with a heap and without, what goes to the heap, and what the store's record says");
    Ok(())
}

fn agreed_named(call: u64, question: Question, given: &[u64]) -> Result<(), String> {
    let record = Record::Named { root: 21, question, answer: Answer { number: 22, root: 23, pages: 24, detail: 25 } };
    agreed_record(record, &[&[8, call, 21, 22, 23, 24, 25][..], given].concat())
}

/// A record is its length and these words, and is read back from there; cut short there is none.
fn agreed_record(record: Record, content: &[u64]) -> Result<(), String> {
    let words = [&[8 * content.len() as u64][..], content].concat();
    let bytes: Vec<u8> = words.iter().flat_map(|word| word.to_le_bytes()).collect();
    if record.encode() != bytes {
        return Err(format!("{:?} is recorded as {:x?}", record, record.encode()));
    }
    let mut rest = &bytes[..];
    let read = Record::decode(&mut rest)?;
    if read != record || !rest.is_empty() || Record::decode(&mut &bytes[..bytes.len() - 8]).is_ok() {
        return Err(format!("{:?} is read as {:?}, or also when cut short", record, read));
    }
    Ok(())
}

/// Both oracles must have the word that document 01 gives a byte string.
fn agreed_string(bytes: &[u8]) -> Result<(), String> {
    for which in BUILDS {
        let found = Oracle { which, by: By::Noblit }.inline_bytes(bytes);
        if found != Some(byte_string(bytes)) {
            return Err(format!("the {:?} Rust has {:x?} for the byte string {:x?}", which, found, bytes));
        }
    }
    Ok(())
}

/// What the documents say of a pair in each order: both oracles must say so both ways round. "Equal only for equal datoms", so in all orders or
/// in none.
fn agreed_orders(heap: &Rc<Heap>, left: &Datom, right: &Datom) -> Result<[Ordering; Order::ALL.len()], String> {
    assert!(heap.is_bound(left) && heap.is_bound(right), "the generator makes well-formed datoms only");
    let ruled = Order::ALL.map(|order| heap.compare(order, left, right));
    for (order, ruled) in Order::ALL.into_iter().zip(ruled) {
        for which in BUILDS {
            agreed_order(which, order, heap, left, right, ruled)?;
            agreed_order(which, order, heap, right, left, ruled.reverse())?;
        }
    }
    if ruled.iter().any(|outcome| outcome.is_eq()) && ruled.iter().any(|outcome| outcome.is_ne()) {
        return Err(format!("{} and {} are equal in some orders alone: {:?}", show_datom(left), show_datom(right), ruled));
    }
    Ok(ruled)
}

fn agreed_order(which: Which, order: Order, heap: &Rc<Heap>, left: &Datom, right: &Datom, ruled: Ordering) -> Result<(), String> {
    let found = Oracle { which, by: By::Noblit }.compare(order, heap, left, right);
    if found == Ok(ruled) {
        return Ok(());
    }
    Err(format!(
        "{} and {} are {:?} by the documents but {:?} in {:?} of the {:?} Rust, heap {:x?}",
        show_datom(left), show_datom(right), ruled, found, order, which, heap.bytes(),
    ))
}

/// The same constants make the same heap and have the same words. Pairs of values on it compare alike, as do those of equal content.
fn agreed_heaps(random: &mut Random) -> Result<(), String> {
    let (mut outcomes, mut constants, mut twins, mut unread) = (Outcomes::default(), 0, 0, 0);
    for i in 0..HEAPS {
        let kind = [Kind::LongStrings, Kind::LongIntegers, Kind::LongMixed][i % 3];
        let supply = Supply::new(kind, LONG, Order::ALL[i / 3 % 3], random);
        let heap = supply.heap();
        agreed_appends(&supply)?;
        constants += supply.constants().len();
        for _ in 0..LONG_PAIRS {
            let left = supply.any(random);
            let right = long_neighbour(&supply, &left, random);
            let found = agreed_orders(heap, &left, &right)?;
            twins += (found[0].is_eq() && left != right) as usize;
            outcomes.count(found);
        }
        for _ in 0..LONG {
            unread += is_unread(heap, bad_constant(heap, random))? as usize;
        }
    }
    println!("{} constants are laid alike; {} pairs of long values agree: {}, {} of these by other words", constants, HEAPS * LONG_PAIRS, outcomes, twins);
    println!("{} constants that are not valid, {} of them a panic of the Rust", HEAPS * LONG, unread);
    if twins == 0 || unread == 0 { Err("no words of equal content, or none that the Rust does not read".to_string()) } else { Ok(()) }
}

fn agreed_appends(supply: &Supply) -> Result<(), String> {
    let (heap, constants) = (supply.heap(), supply.constants());
    for which in BUILDS {
        let appended = Oracle { which, by: By::Noblit }.append(&Heap::default(), constants)?;
        if !appended.is_in(heap, constants) {
            return Err(format!("the {:?} Rust lays {:x?} as {:x?}", which, constants, appended));
        }
    }
    Ok(())
}

/// A datom that agrees with the other one in most places; its value is that of another datom, or of equal content.
fn long_neighbour(supply: &Supply, datom: &Datom, random: &mut Random) -> Datom {
    let other = supply.any(random);
    match random.below(8) {
        0 => supply.twin(datom).unwrap_or(*datom),
        1 => other,
        2 => [datom[0], datom[1], MAX_VALUE, datom[3]],
        3 => [datom[0], datom[1], byte_string(&bytes(random)), datom[3]],
        _ => [datom[0], datom[1], other[2], datom[3]],
    }
}

/// Whether the Rust does not read a constant either that is not valid. It tests less: it must read every one that is.
fn is_unread(heap: &Rc<Heap>, word: u64) -> Result<bool, String> {
    let datom = [0, 0, word, 0];
    if heap.is_storable(&datom) {
        return Err(format!("{:#018x} is a constant of {:x?}", word, heap.bytes()));
    }
    Ok(Oracle { which: Which::Patched, by: By::Noblit }.compare(Order::Eavt, heap, &datom, &datom).is_err())
}

/// Constants that are valid and some that are not, by document 02's text: a heap by its words, a value, whether a page may have it.
fn known_constants() -> Result<(), String> {
    const INT: u64 = 1 << 62;
    const STR: u64 = 3 << 62;
    let cases: &[(&[u64], u64, bool)] = &[
        // "In example j, 2^62 then names offset 0."
        (&[], INT, false),
        (&[1 << 62], INT, true),
        (&[(1 << 62) - 1], INT, false),
        (&[u64::MAX], INT, true),
        (&[u64::MAX, 1 << 63], INT + 8, true),
        (&[u64::MAX, 1 << 63], INT + 16, false),
        (&[u64::MAX, u64::MAX], INT + 1, false),
        (&[u64::MAX, u64::MAX], INT + 4, false),
        (&[u64::MAX], INT + (1 << 62) - 8, false),
        // A length, the bytes, and zeros to a multiple of 8, all of them below the heap's length.
        (&[8, 7], STR, true),
        (&[8], STR, false),
        (&[7, 7], STR, false),
        (&[0], STR, false),
        (&[9, 7, 0xff], STR, true),
        (&[9, 7, 0x1ff], STR, false),
        (&[9, 7, 1 << 63], STR, false),
        (&[9, 7], STR, false),
        (&[15, 7, u64::MAX >> 8], STR, true),
        (&[15, 7, u64::MAX], STR, false),
        (&[16, 7, u64::MAX], STR, true),
        (&[16, 7, u64::MAX], STR + 8, false),
        (&[17, 7, 7, 0], STR, true),
        (&[17, 7, 7], STR, false),
        (&[8, 0], STR, true),
        (&[8, 8, 8], STR + 8, true),
        (&[u64::MAX, 7], STR, false),
        (&[u64::MAX - 7, 7], STR, false),
        (&[1 << 63, 7], STR, false),
        (&[8, 7], MAX_VALUE - 7, false),
        (&[8, 7], MAX_VALUE, false),
        // One kind is not the other.
        (&[8, 7], INT, false),
        (&[1 << 62, 7], STR, false),
    ];
    for (words, value, expected) in cases {
        let bytes: Vec<u8> = words.iter().flat_map(|word| word.to_le_bytes()).collect();
        let heap = Heap::of_bytes(&bytes);
        let (found, is_bound) = (heap.is_storable(&[0, 0, *value, 0]), heap.is_bound(&[0, 0, *value, 0]));
        if found != *expected || is_bound != (*expected || *value == MAX_VALUE) {
            return Err(format!("on a heap of {:x?} {:#018x} is storable: {}", words, value, found));
        }
    }
    for word in MALFORMED {
        if !matches!(Word::of(word), Word::Malformed | Word::Max) {
            return Err(format!("{:#018x} is not malformed", word));
        }
    }
    println!("{} constants are valid or not as document 02 says", cases.len());
    Ok(())
}

fn bound(random: &mut Random) -> Datom {
    [word(random), word(random), value(random), word(random)]
}

/// A datom that agrees with the other one in most places, so that each place gets to decide.
fn neighbour(random: &mut Random, datom: &Datom) -> Datom {
    let mut near = *datom;
    match random.below(8) {
        0 => {}
        1 => near[0] = word(random),
        2 => near[1] = word(random),
        3 => near[3] = word(random),
        4 | 5 => near[2] = value(random),
        6 => near[2] = similar_value(random, datom[2]),
        _ => near = bound(random),
    }
    near
}

fn word(random: &mut Random) -> u64 {
    match random.below(4) {
        0 => random.below(4) as u64,
        1 => u64::MAX - random.below(4) as u64,
        _ => random.word(),
    }
}

fn value(random: &mut Random) -> u64 {
    match random.below(8) {
        0 => MAX_VALUE,
        1 => random.below(3) as u64,
        2 => (1 << 62) - 1 - random.below(3) as u64,
        3 => random.word() >> 2,
        _ => byte_string(&bytes(random)),
    }
}

/// Strings over few letters, so that prefixes and equal beginnings are common.
fn bytes(random: &mut Random) -> Vec<u8> {
    let length = random.below(8);
    (0..length).map(|_| random.pick(&[0x00, 0x01, b'a', b'b', 0x7f, 0x80, 0xff])).collect()
}

/// A byte string that differs in one byte or in length by one; another value for other kinds.
fn similar_value(random: &mut Random, word: u64) -> u64 {
    let Word::Bytes(content, length) = Word::of(word) else {
        return value(random);
    };
    let mut bytes = content[..length].to_vec();
    match random.below(3) {
        0 if length < 7 => bytes.push(random.pick(&[0x00, b'a', 0xff])),
        1 if length > 0 => {
            bytes.pop();
        }
        _ if length > 0 => {
            let at = random.below(length);
            bytes[at] = random.word() as u8;
        }
        _ => {}
    }
    byte_string(&bytes)
}
