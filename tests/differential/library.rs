//! The archive of crate florinwick, called with slices that have guard bytes on both sides.

use harness::{Answer, Constant, Datom, Order, Random, NONE};

#[path = "../archive.rs"]
mod archive;

/// The entry that is called.
#[derive(Clone, Copy, Debug, PartialEq)]
pub enum Entry {
    Initialise,
    Insert(u64),
}

impl Entry {
    /// The answer of a call that is refused.
    pub fn refused(self, number: u64, detail: u64) -> Answer {
        let root = match self {
            Entry::Initialise => NONE,
            Entry::Insert(root) => root,
        };
        Answer { number, root, pages: 0, detail }
    }
}

pub fn scratch_need(page_size: usize) -> usize {
    unsafe { archive::florinwick_scratch_need(page_size as u64) as usize }
}

/// On each side of a lent slice there are at least as many bytes that no call may change.
const GUARD: usize = 64;

/// Bytes to lend, between guards.
pub struct Lent {
    bytes: Vec<u8>,
    before: usize,
    front: Vec<u8>,
    after: Vec<u8>,
}

impl Lent {
    /// The slice starts at any alignment. Its guards are noise.
    pub fn new(content: &[u8], random: &mut Random) -> Lent {
        let before = GUARD + random.below(16);
        let front = noise(before, random);
        let after = noise(GUARD, random);
        let bytes = [&front[..], content, &after[..]].concat();
        Lent { bytes, before, front, after }
    }

    pub fn of_length(length: usize, random: &mut Random) -> Lent {
        let content = noise(length, random);
        Lent::new(&content, random)
    }

    pub fn length(&self) -> usize {
        self.bytes.len() - self.before - self.after.len()
    }

    pub fn content(&self) -> &[u8] {
        &self.bytes[self.before..self.bytes.len() - self.after.len()]
    }

    pub fn content_mut(&mut self) -> &mut [u8] {
        let end = self.bytes.len() - self.after.len();
        &mut self.bytes[self.before..end]
    }

    /// Everything that a call could reach: the slice and its guards.
    pub fn all(&self) -> &[u8] {
        &self.bytes
    }

    /// Whether the guards are as they were made.
    pub fn is_guarded(&self) -> bool {
        self.bytes.starts_with(&self.front) && self.bytes.ends_with(&self.after)
    }
}

/// Bytes that no call would write by accident.
pub fn noise(length: usize, random: &mut Random) -> Vec<u8> {
    let mut bytes: Vec<u8> = Vec::with_capacity(length + 8);
    while bytes.len() < length {
        bytes.extend(random.word().to_le_bytes());
    }
    bytes.truncate(length);
    bytes
}

pub fn bytes_of(batch: &[Datom]) -> Vec<u8> {
    batch.iter().flatten().flat_map(|word| word.to_le_bytes()).collect()
}

pub fn datoms_of(bytes: &[u8]) -> Vec<Datom> {
    let word = |chunk: &[u8]| u64::from_le_bytes(chunk.try_into().expect("a word has 8 bytes"));
    bytes.chunks_exact(32).map(|datom| [word(&datom[..8]), word(&datom[8..16]), word(&datom[16..24]), word(&datom[24..])]).collect()
}

/// The bytes of a record of the store.
pub const RECORD_BYTES: usize = 32;

/// The heap that a call is lent, and what the store's record says. The heap's guards are the caller's to compare.
#[derive(Clone, Copy, Debug)]
pub struct Beside<'a> {
    pub heap: &'a [u8],
    pub page_size: u64,
    pub page_count: u64,
    pub heap_length: u64,
    /// Any number, of which few are orders.
    pub order: u64,
    /// How long the record is: its words are cut short, or noise follows.
    pub record: usize,
}

impl<'a> Beside<'a> {
    /// An empty heap, at the front of what is lent of it.
    pub fn no_heap(heap: &'a [u8], page_size: u64, page_count: u64, order: Order) -> Beside<'a> {
        Beside { heap, page_size, page_count, heap_length: 0, order: order.number(), record: RECORD_BYTES }
    }

    fn lent_record(&self, random: &mut Random) -> Lent {
        let words = [self.page_size, self.page_count, self.heap_length, self.order];
        let mut bytes: Vec<u8> = words.iter().flat_map(|word| word.to_le_bytes()).collect();
        bytes.resize_with(self.record, || random.word() as u8);
        Lent::new(&bytes, random)
    }

    /// Lends the record to a call, which may not change it.
    pub fn recorded<T>(&self, random: &mut Random, call: impl FnOnce(&[u8], &mut Random) -> Result<T, String>) -> Result<T, String> {
        let record = self.lent_record(random);
        let before = record.all().to_vec();
        let told = call(record.content(), random)?;
        if record.all() == &before[..] { Ok(told) } else { Err("the record or its guards were changed".to_string()) }
    }
}

/// What one call is given besides the store.
#[derive(Clone, Copy)]
pub struct Call<'a> {
    pub entry: Entry,
    pub beside: Beside<'a>,
    pub batch: &'a [u8],
    /// How much of the scratch is lent.
    pub scratch: usize,
    /// How long the answer area is.
    pub area: usize,
}

/// An entry that inserts.
type Insert = unsafe extern "C" fn(
    *mut u8, usize, *const u8, usize, *const u8, usize, u64, *const u8, usize, *mut u8, usize, *mut u8, usize,
) -> u64;

/// Lends the store, the batch, the scratch and an answer area, and says what came back; an error names the slice
/// of which the call changed a byte that it may not. The store is the caller's to compare.
pub fn call(store: &mut [u8], call: &Call, scratch: &mut Lent, random: &mut Random) -> Result<Answer, String> {
    call_by(archive::florinwick_insert, store, call, scratch, random)
}

/// The same, but an insert is made by the entry that names what is damaged.
pub fn call_named(store: &mut [u8], call: &Call, scratch: &mut Lent, random: &mut Random) -> Result<Answer, String> {
    call_by(archive::florinwick_insert_named, store, call, scratch, random)
}

fn call_by(insert: Insert, store: &mut [u8], call: &Call, scratch: &mut Lent, random: &mut Random) -> Result<Answer, String> {
    let batch = Lent::new(call.batch, random);
    let batch_before = batch.all().to_vec();
    let mut area = Lent::of_length(call.area, random);
    let area_before = area.all().to_vec();
    let scratch_before = guards(scratch, call.scratch);
    let (heap, lent, answer) = (call.beside.heap, scratch.content_mut(), area.content_mut());
    let returned = call.beside.recorded(random, |record, _| Ok(unsafe {
        match call.entry {
            Entry::Initialise => archive::florinwick_initialise(
                store.as_mut_ptr(), store.len(), heap.as_ptr(), heap.len(), record.as_ptr(), record.len(),
                batch.content().as_ptr(), batch.length(), lent.as_mut_ptr(), call.scratch, answer.as_mut_ptr(), call.area,
            ),
            Entry::Insert(root) => insert(
                store.as_mut_ptr(), store.len(), heap.as_ptr(), heap.len(), record.as_ptr(), record.len(), root,
                batch.content().as_ptr(), batch.length(), lent.as_mut_ptr(), call.scratch, answer.as_mut_ptr(), call.area,
            ),
        }
    }))?;
    if batch.all() != &batch_before[..] {
        return Err("the batch or its guards were changed".to_string());
    }
    if guards(scratch, call.scratch) != scratch_before {
        return Err("bytes beside the scratch were changed".to_string());
    }
    told(&area, &area_before, returned, call.entry.refused(returned, 0))
}

/// The answer that was written to an area, or this one where the area is not 32 bytes long: it must then be as before.
fn told(area: &Lent, before: &[u8], returned: u64, unwritten: Answer) -> Result<Answer, String> {
    if !area.is_guarded() {
        return Err("bytes beside the answer area were changed".to_string());
    }
    if area.length() != 32 {
        if area.all() != before {
            return Err(format!("an answer area of {} bytes was changed", area.length()));
        }
        return Ok(unwritten);
    }
    let word = |i: usize| u64::from_le_bytes(area.content()[8 * i..8 * i + 8].try_into().expect("a word has 8 bytes"));
    if returned != word(0) {
        return Err(format!("{} was returned, and the answer's number is {}", returned, word(0)));
    }
    Ok(Answer { number: word(0), root: word(1), pages: word(2), detail: word(3) })
}

/// The bytes on both sides of the part of the scratch that is lent.
fn guards(scratch: &Lent, lent: usize) -> Vec<u8> {
    let end = scratch.before + lent;
    [&scratch.all()[..scratch.before], &scratch.all()[end..]].concat()
}

/// Lends the front of a heap to an append, with room for as many bytes as the slice has behind the length. The heap is the caller's to
/// compare.
pub fn append(heap: &mut [u8], heap_length: u64, constant: &Constant, area: usize, random: &mut Random) -> Result<Answer, String> {
    let mut area = Lent::of_length(area, random);
    let before = area.all().to_vec();
    let answer = area.content_mut();
    let returned = match constant {
        Constant::Integer(number) => unsafe {
            archive::florinwick_append_u64(heap.as_mut_ptr(), heap.len(), heap_length, *number, answer.as_mut_ptr(), answer.len())
        },
        Constant::Bytes(bytes) => {
            let lent = Lent::new(bytes, random);
            let lent_before = lent.all().to_vec();
            let returned = unsafe {
                archive::florinwick_append_bytes(
                    heap.as_mut_ptr(), heap.len(), heap_length, lent.content().as_ptr(), lent.length(), answer.as_mut_ptr(), answer.len(),
                )
            };
            if lent.all() != &lent_before[..] {
                return Err("the bytes to append or their guards were changed".to_string());
            }
            returned
        }
    };
    told(&area, &before, returned, Answer::told(returned, 0))
}

/// What a call that only reads is given besides its own arguments.
#[derive(Clone, Copy)]
pub struct Asked<'a> {
    pub store: &'a [u8],
    pub beside: Beside<'a>,
    /// How long the answer area is.
    pub area: usize,
}

impl Asked<'_> {
    /// Lends a record and an answer area to a call that reads.
    fn answered(&self, random: &mut Random, call: impl FnOnce(&[u8], &mut [u8]) -> u64) -> Result<Answer, String> {
        self.beside.recorded(random, |record, random| {
            let mut area = Lent::of_length(self.area, random);
            let before = area.all().to_vec();
            let returned = call(record, area.content_mut());
            told(&area, &before, returned, Answer::told(returned, 0))
        })
    }

    pub fn fetch(&self, page: u64, random: &mut Random) -> Result<Answer, String> {
        self.answered(random, |record, area| unsafe {
            archive::florinwick_fetch(
                self.store.as_ptr(), self.store.len(), record.as_ptr(), record.len(), page, area.as_mut_ptr(), area.len(),
            )
        })
    }

    pub fn held(&self, root: u64, batch: &[u8], random: &mut Random) -> Result<Answer, String> {
        let (batch, heap) = (Lent::new(batch, random), self.beside.heap);
        let before = batch.all().to_vec();
        let answer = self.answered(random, |record, area| unsafe {
            archive::florinwick_held(
                self.store.as_ptr(), self.store.len(), heap.as_ptr(), heap.len(), record.as_ptr(), record.len(), root,
                batch.content().as_ptr(), batch.length(), area.as_mut_ptr(), area.len(),
            )
        })?;
        if batch.all() == &before[..] { Ok(answer) } else { Err("a batch that was asked for or its guards were changed".to_string()) }
    }

    pub fn check(&self, root: u64, random: &mut Random) -> Result<Answer, String> {
        let heap = self.beside.heap;
        self.answered(random, |record, area| unsafe {
            archive::florinwick_check(
                self.store.as_ptr(), self.store.len(), heap.as_ptr(), heap.len(), record.as_ptr(), record.len(), root,
                area.as_mut_ptr(), area.len(),
            )
        })
    }

    /// The bounds are bytes of any length. The cursor is the caller's to compare, its guards are not.
    pub fn list_start(
        &self, root: u64, lower: &[u8], upper: &[u8], cursor: &mut Lent, random: &mut Random,
    ) -> Result<Answer, String> {
        let (lower, upper) = (Lent::new(lower, random), Lent::new(upper, random));
        let bounds_before = [lower.all(), upper.all()].concat();
        let (kept, heap) = (cursor.content_mut(), self.beside.heap);
        let answer = self.answered(random, |record, area| unsafe {
            archive::florinwick_list_start(
                self.store.as_ptr(), self.store.len(), heap.as_ptr(), heap.len(), record.as_ptr(), record.len(), root,
                lower.content().as_ptr(), lower.length(), upper.content().as_ptr(), upper.length(),
                kept.as_mut_ptr(), kept.len(), area.as_mut_ptr(), area.len(),
            )
        })?;
        if [lower.all(), upper.all()].concat() != bounds_before {
            return Err("a bound or its guards were changed".to_string());
        }
        if cursor.is_guarded() { Ok(answer) } else { Err("bytes beside the cursor were changed".to_string()) }
    }

    /// The cursor and the datom are the caller's to compare, their guards are not.
    pub fn list_step(&self, cursor: &mut Lent, datom: &mut Lent, random: &mut Random) -> Result<Answer, String> {
        let (kept, given) = (cursor.content_mut(), datom.content_mut());
        let heap = self.beside.heap;
        let answer = self.answered(random, |record, area| unsafe {
            archive::florinwick_list_step(
                self.store.as_ptr(), self.store.len(), heap.as_ptr(), heap.len(), record.as_ptr(), record.len(),
                kept.as_mut_ptr(), kept.len(), given.as_mut_ptr(), given.len(), area.as_mut_ptr(), area.len(),
            )
        })?;
        let is_guarded = cursor.is_guarded() && datom.is_guarded();
        if is_guarded { Ok(answer) } else { Err("bytes beside the cursor or the datom were changed".to_string()) }
    }
}
