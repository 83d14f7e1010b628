//! One call of both entries, with a store for each.

use harness::{Answer, Datom, Random};

use crate::library::{bytes_of, call, Beside, Call, Entry, Lent};

/// A datom as a C or C++ program has it.
#[repr(C)]
#[derive(Clone, Copy, PartialEq)]
struct Record {
    entity: u64,
    attribute: u64,
    value: u64,
    transaction_operation: u64,
}

extern "C" {
    fn florinwick_insert_records(
        store: *mut u8, store_length: usize, heap: *const u8, heap_length: usize, record: *const u8, record_length: usize, root: u64,
        batch: *const Record, batch_count: usize, scratch: *mut u8, scratch_length: usize,
        answer: *mut u8, answer_length: usize,
    ) -> u64;
}

/// What both entries are given besides the store.
#[derive(Clone)]
pub struct Given<'a> {
    pub beside: Beside<'a>,
    pub root: u64,
    pub batch: Vec<Datom>,
    /// How much of the scratch is lent.
    pub scratch: usize,
    /// How long the answer area is.
    pub area: usize,
}

/// The answer and the store of both entries must be the same; the answer, then.
pub fn insert(
    given: &Given, by_bytes: &mut [u8], by_records: &mut [u8], scratch: &mut Lent, random: &mut Random,
) -> Result<Answer, String> {
    let bytes = bytes_of(&given.batch);
    let entry = Entry::Insert(given.root);
    let byte_call = Call { entry, beside: given.beside, batch: &bytes, scratch: given.scratch, area: given.area };
    let expected = call(by_bytes, &byte_call, scratch, random)?;
    let answer = insert_records(given, by_records, scratch, random)?;
    if answer != expected {
        return Err(format!("the byte entry answers {:?}, the record entry {:?}", expected, answer));
    }
    if by_records != by_bytes {
        return Err("the two stores differ".to_string());
    }
    Ok(answer)
}

fn insert_records(given: &Given, store: &mut [u8], scratch: &mut Lent, random: &mut Random) -> Result<Answer, String> {
    let records: Vec<Record> = given.batch.iter().map(record_of).collect();
    let mut area = Lent::of_length(given.area, random);
    let before = area.content().to_vec();
    let past = scratch.content()[given.scratch..].to_vec();
    let heap = given.beside.heap;
    let returned = given.beside.recorded(random, |record, _| Ok(unsafe {
        florinwick_insert_records(
            store.as_mut_ptr(), store.len(), heap.as_ptr(), heap.len(), record.as_ptr(), record.len(), given.root,
            records.as_ptr(), records.len(), scratch.content_mut().as_mut_ptr(), given.scratch,
            area.content_mut().as_mut_ptr(), given.area,
        )
    }))?;
    if scratch.content()[given.scratch..] != past[..] {
        return Err("bytes past the scratch were changed".to_string());
    }
    if !records.iter().eq(given.batch.iter().map(record_of).collect::<Vec<_>>().iter()) {
        return Err("the records were changed".to_string());
    }
    if given.area != 32 {
        if area.content() != &before[..] {
            return Err(format!("an answer area of {} bytes was changed", given.area));
        }
        return Ok(Entry::Insert(given.root).refused(returned, 0));
    }
    let word = |i: usize| u64::from_le_bytes(area.content()[8 * i..8 * i + 8].try_into().expect("a word has 8 bytes"));
    if returned != word(0) {
        return Err(format!("{} was returned, and the answer's number is {}", returned, word(0)));
    }
    Ok(Answer { number: word(0), root: word(1), pages: word(2), detail: word(3) })
}

fn record_of(datom: &Datom) -> Record {
    let [entity, attribute, value, transaction_operation] = *datom;
    Record { entity, attribute, value, transaction_operation }
}
