//! The record entry against the byte entry, on every batch of the recorded answers and on calls that are refused.

mod entries;
#[allow(dead_code)]
#[path = "../differential/library.rs"]
mod library;
#[allow(dead_code)]
#[path = "../oracle/driver/recording.rs"]
mod recording;

use std::{env, fs, process};

use entries::{insert, Given};
use harness::{capacity, Answer, Datom, Random, MAX_VALUE, NONE};
use library::{bytes_of, call, scratch_need, Beside, Call, Entry, Lent, RECORD_BYTES};
use recording::{Record, Written};

const SEED: u64 = 20190607;

/// A byte string on the heap at an offset that no constant has, and a string of 8 bytes that is no word.
const BESIDE_EIGHT: u64 = (3 << 62) + 4;
const MALFORMED: u64 = 0x8800_0000_0000_0000;

/// How many failures are told in words.
const TOLD: usize = 20;

fn main() {
    let file = env::args().nth(1).expect("the file of recorded answers");
    let bytes = fs::read(&file).unwrap_or_else(|error| panic!("{}: {}", file, error));
    let mut rest = &bytes[..];
    let mut random = Random::new(SEED);
    let mut tally = Tally::default();
    let mut history = None;
    while !rest.is_empty() {
        match Record::decode(&mut rest).expect("a record") {
            Record::Begin { page_size, room, heap_room, .. } => history = Some(History::new(page_size, room, heap_room, &mut random)),
            record => history.as_mut().expect("a history").step(&record, &mut tally, &mut random),
        }
    }
    println!("calls by the number that they gave: {:?}", tally.numbers);
    for number in [0, 1, 2, 3, 4, 5, 6, 7, 9, 11, 13] {
        if tally.numbers[number] == 0 {
            tally.fail(format!("no call gave {}", number));
        }
    }
    println!("{} passed, {} failed", tally.passed, tally.failed);
    process::exit(if tally.failed == 0 { 0 } else { 1 });
}

#[derive(Default)]
struct Tally {
    passed: usize,
    failed: usize,
    /// How many calls gave each number of document 01's table.
    numbers: [usize; 14],
}

impl Tally {
    fn count(&mut self, outcome: Result<Answer, String>) {
        match outcome {
            Ok(answer) => {
                self.passed += 1;
                self.numbers[answer.number as usize] += 1;
            }
            Err(problem) => self.fail(problem),
        }
    }

    fn fail(&mut self, problem: String) {
        self.failed += 1;
        if self.failed <= TOLD {
            println!("FAILED  {}", problem);
        }
    }
}

/// A recorded history, replayed on a store for each entry, and on one heap.
struct History {
    page_size: u64,
    count: u64,
    /// What the store's record says, known or not.
    order: u64,
    /// As much as the history needs, of which so many bytes are in use.
    heap: Vec<u8>,
    heap_length: u64,
    by_bytes: Vec<u8>,
    by_records: Vec<u8>,
    scratch: Lent,
}

impl History {
    fn new(page_size: u64, room: u64, heap_room: u64, random: &mut Random) -> History {
        let (store, heap) = (vec![0; (page_size * room) as usize], vec![0; heap_room as usize]);
        let scratch = Lent::of_length(scratch_need(page_size as usize), random);
        History { page_size, count: 0, order: 0, heap, heap_length: 0, by_bytes: store.clone(), by_records: store, scratch }
    }

    /// What is lent of a heap, and the store's record.
    fn beside<'a>(&self, heap: &'a [u8]) -> Beside<'a> {
        let (page_size, page_count, heap_length) = (self.page_size, self.count, self.heap_length);
        Beside { heap, page_size, page_count, heap_length, order: self.order, record: RECORD_BYTES }
    }

    fn given<'a>(&self, root: u64, batch: &[Datom], heap: &'a [u8]) -> Given<'a> {
        Given { beside: self.beside(heap), root, batch: batch.to_vec(), scratch: self.scratch.length(), area: 32 }
    }

    fn step(&mut self, record: &Record, tally: &mut Tally, random: &mut Random) {
        match record {
            Record::Insert { root, batch, written, .. } => {
                self.refusals(*root, batch, tally, random);
                tally.count(self.damaged(*root, batch, random));
                tally.count(self.insert(*root, batch, written, random));
                self.count += written.count;
            }
            // The record entry is an insert: both stores get what the byte entry makes of the batch.
            Record::Initialise { batch, written, .. } => {
                let (bytes, heap) = (bytes_of(batch), self.heap.clone());
                let entry = Entry::Initialise;
                let given = Call { entry, beside: self.beside(&heap), batch: &bytes, scratch: self.scratch.length(), area: 32 };
                call(&mut self.by_bytes, &given, &mut self.scratch, random).expect("an initialise");
                self.by_records.copy_from_slice(&self.by_bytes);
                self.count += written.count;
            }
            Record::Poke { page, bytes } => {
                let at = (page * self.page_size) as usize;
                self.by_bytes[at..at + bytes.len()].copy_from_slice(bytes);
                self.by_records[at..at + bytes.len()].copy_from_slice(bytes);
            }
            Record::Heap { offset, bytes } => {
                let at = *offset as usize;
                self.heap[at..at + bytes.len()].copy_from_slice(bytes);
                self.heap_length = self.heap_length.max((at + bytes.len()) as u64);
            }
            // What else it says is of no matter: a batch goes in only where it is true.
            Record::Stored(stored) => self.order = stored.order,
            Record::Begin { .. } | Record::List { .. } | Record::Check { .. } | Record::Named { .. } | Record::End { .. } => {}
        }
    }

    /// A recorded insert gives the recorded answer.
    fn insert(&mut self, root: u64, batch: &[Datom], written: &Written, random: &mut Random) -> Result<Answer, String> {
        let heap = self.heap.clone();
        let given = self.given(root, batch, &heap);
        let answer = insert(&given, &mut self.by_bytes, &mut self.by_records, &mut self.scratch, random)?;
        if (answer.number, answer.root, answer.pages) != (0, written.root, written.count) {
            return Err(format!("{:?} and not the recorded answer {:?}", answer, written));
        }
        Ok(answer)
    }

    /// Calls that differ from a recorded one in what a refusal is given for, each on copies of the pages in use and a few more.
    fn refusals(&mut self, root: u64, batch: &[Datom], tally: &mut Tally, random: &mut Random) {
        let used = (self.count * self.page_size) as usize;
        let end = self.by_bytes.len().min(used + 4 * self.page_size as usize);
        let heap = self.heap.clone();
        for (given, length) in self.changed(root, batch, &heap, used, end) {
            let mut by_bytes = self.by_bytes[..length].to_vec();
            let mut by_records = by_bytes.clone();
            tally.count(insert(&given, &mut by_bytes, &mut by_records, &mut self.scratch, random));
        }
    }

    /// On copies in which the root's level is 8: the four words of Damaged, with no name.
    fn damaged(&mut self, root: u64, batch: &[Datom], random: &mut Random) -> Result<Answer, String> {
        let header = 40 * capacity(self.page_size as usize).expect("a known page size") + 8;
        let mut by_bytes = self.by_bytes[..((self.count + 1) * self.page_size) as usize].to_vec();
        by_bytes[(root * self.page_size) as usize + header] = 8;
        let mut by_records = by_bytes.clone();
        let heap = self.heap.clone();
        let answer = insert(&self.given(root, batch, &heap), &mut by_bytes, &mut by_records, &mut self.scratch, random)?;
        let expected = Entry::Insert(root).refused(7, root);
        if answer == expected { Ok(answer) } else { Err(format!("{:?} and not {:?}", answer, expected)) }
    }

    /// Each with the length of the store that is lent.
    fn changed<'a>(&self, root: u64, batch: &[Datom], heap: &'a [u8], used: usize, end: usize) -> Vec<(Given<'a>, usize)> {
        let plain = self.given(root, batch, heap);
        let with = |change: &dyn Fn(&mut Given<'a>)| {
            let mut given = plain.clone();
            change(&mut given);
            (given, end)
        };
        let mut calls = vec![
            with(&|given| given.beside.page_size += 1),
            with(&|given| given.beside.page_count = u64::MAX),
            with(&|given| given.beside.heap_length += 4),
            with(&|given| given.beside.heap_length = heap.len() as u64 + 8),
            with(&|given| given.beside.record = 24),
            with(&|given| given.beside.record = 33),
            with(&|given| given.beside.order = 3),
            with(&|given| given.beside.order = u64::MAX),
            // 1 goes before 13, and 13 before 2 and 5.
            with(&|given| (given.beside.order, given.beside.page_size) = (3, 512)),
            with(&|given| (given.beside.order, given.scratch) = (3, 0)),
            with(&|given| (given.beside.order, given.batch) = (3, ascending(129))),
            with(&|given| (given.beside.order, given.root) = (3, given.beside.page_count)),
            // What is read in another order is answered alike.
            with(&|given| given.beside.order = (given.beside.order + 1) % 3),
            with(&|given| given.beside.order = (given.beside.order + 2) % 3),
            with(&|given| given.scratch -= 1),
            with(&|given| given.scratch = 4095),
            with(&|given| given.scratch = 0),
            with(&|given| given.area = 31),
            with(&|given| given.batch = ascending(129)),
            // 1 goes before 2.
            with(&|given| (given.batch, given.scratch) = (ascending(129), 4096)),
            with(&|given| given.batch = ascending(1000)),
            with(&|given| given.batch.reverse()),
            with(&|given| given.batch.extend_from_slice(batch.last().map(std::slice::from_ref).unwrap_or(&[]))),
            with(&|given| given.root = given.beside.page_count),
            with(&|given| (given.root, given.batch) = (NONE, ascending(128))),
            (plain.clone(), used),
        ];
        if let Some(last) = batch.len().checked_sub(1) {
            calls.push(with(&|given| given.batch[last][2] = BESIDE_EIGHT));
            // 3 goes before 11.
            calls.push(with(&|given| (given.batch[0][2], given.batch[last][2]) = (BESIDE_EIGHT, MALFORMED)));
            calls.push(with(&|given| given.batch[last][2] = MALFORMED));
            // The constants are not there.
            calls.push(with(&|given| given.beside.heap_length = 0));
            calls.push(with(&|given| given.batch[last][2] = MAX_VALUE));
        }
        // A datom that a page in use already has: the first of the root's, if it has one.
        if root < self.count {
            let at = (root * self.page_size) as usize;
            let words: Vec<u64> =
                self.by_bytes[at..at + 32].chunks_exact(8).map(|word| u64::from_le_bytes(word.try_into().expect("a word has 8 bytes"))).collect();
            calls.push(with(&|given| given.batch = vec![[words[0], words[1], words[2], words[3]]]));
        }
        calls
    }
}

/// Datoms of new entities, in order.
fn ascending(n: u64) -> Vec<Datom> {
    (0..n).map(|k| [u64::MAX - 1000 + k, 1, k, 3]).collect()
}
