//! The file of recorded answers: a sequence of records of little-endian words (docs/ORACLE.md).

use harness::{Answer, Datom, Pages};

/// A reader may keep one record in memory, so none is longer, its length word not counted.
pub const LONGEST_RECORD: usize = 65_536;

/// How much of a heap one record carries.
const HEAP_PART: usize = 32_768;

/// Which oracles gave an answer.
#[derive(Clone, Copy, Debug, PartialEq)]
pub enum Who {
    Patched,
    Both,
}

/// Bytes as they are, or only their digest.
#[derive(Clone, Debug, PartialEq)]
pub enum Carried {
    Digest(u64),
    Raw(Vec<u8>),
}

impl Carried {
    /// Whether these are the bytes that were carried.
    pub fn stands_for(&self, bytes: &[u8]) -> bool {
        match self {
            Carried::Digest(expected) => digest(bytes) == *expected,
            Carried::Raw(expected) => bytes == &expected[..],
        }
    }
}

/// The answer to a call that writes pages.
#[derive(Clone, Debug, PartialEq)]
pub struct Written {
    pub root: u64,
    pub count: u64,
    pub pages: Carried,
}

/// A call that names what is damaged, with what it is given besides the store and the root.
#[derive(Clone, Debug, PartialEq)]
pub enum Question {
    Check,
    Start { lower: Datom, upper: Datom },
    /// The cursor's bytes; the root of a step is 0.
    Step { cursor: Vec<u8> },
    Held { batch: Vec<Datom> },
    InsertNamed { batch: Vec<Datom> },
}

/// What the store's record says, true or not.
#[derive(Clone, Copy, Debug, PartialEq)]
pub struct Stored {
    pub page_size: u64,
    pub page_count: u64,
    pub heap_length: u64,
    /// Any number, of which few are orders.
    pub order: u64,
}

impl Stored {
    /// What is true of a store.
    pub fn of(pages: &Pages) -> Stored {
        Stored {
            page_size: pages.page_size() as u64,
            page_count: pages.count(),
            heap_length: pages.heap().bytes().len() as u64,
            order: pages.order().number(),
        }
    }
}

#[derive(Clone, Debug, PartialEq)]
pub enum Record {
    /// The room of the heap is in bytes, and not said where it is 0.
    Begin { page_size: u64, room: u64, history: u64, heap_room: u64 },
    Initialise { who: Who, batch: Vec<Datom>, written: Written },
    Insert { who: Who, root: u64, batch: Vec<Datom>, written: Written },
    List { who: Who, root: u64, lower: Datom, upper: Datom, count: u64, datoms: Carried },
    /// The page at fault, or nothing for a sound tree.
    Check { who: Who, root: u64, fault: Option<u64> },
    Poke { page: u64, bytes: Vec<u8> },
    End { count: u64, digest: u64 },
    Named { root: u64, question: Question, answer: Answer },
    /// Bytes of the heap from an offset on; it ends behind them if it ended before.
    Heap { offset: u64, bytes: Vec<u8> },
    /// What the store's record says from here on. A history begins with order 0.
    Stored(Stored),
}

/// What makes one heap of another that is not longer, in as many records as it takes.
pub fn heap_records(old: &[u8], new: &[u8]) -> Vec<Record> {
    let differs = |at: &usize| old.get(*at..*at + 8) != Some(&new[*at..*at + 8]);
    let changed: Vec<usize> = (0..new.len()).step_by(8).filter(differs).collect();
    let (Some(&first), Some(&last)) = (changed.first(), changed.last()) else {
        return Vec::new();
    };
    let parts = new[first..last + 8].chunks(HEAP_PART).enumerate();
    parts.map(|(i, part)| Record::Heap { offset: (first + i * HEAP_PART) as u64, bytes: part.to_vec() }).collect()
}

/// h = (h * 31 + byte) mod 4294967291, from h = 0.
pub fn digest(bytes: &[u8]) -> u64 {
    bytes.iter().fold(0, |h, &byte| (h * 31 + byte as u64) % 4_294_967_291)
}

pub fn datom_bytes(datoms: &[Datom]) -> Vec<u8> {
    datoms.iter().flatten().flat_map(|word| word.to_le_bytes()).collect()
}

impl Record {
    pub fn encode(&self) -> Vec<u8> {
        let mut body = Body::default();
        match self {
            Record::Begin { page_size, room, history, heap_room } => {
                body.words(&[1, *page_size, *room, *history]);
                body.words(if *heap_room > 0 { std::slice::from_ref(heap_room) } else { &[] });
            }
            Record::Initialise { who, batch, written } => {
                body.words(&[2, who.number()]);
                body.batch(batch);
                body.written(written);
            }
            Record::Insert { who, root, batch, written } => {
                body.words(&[3, who.number(), *root]);
                body.batch(batch);
                body.written(written);
            }
            Record::List { who, root, lower, upper, count, datoms } => {
                body.words(&[4, who.number(), *root]);
                body.words(lower);
                body.words(upper);
                body.words(&[*count]);
                body.carried(datoms);
            }
            Record::Check { who, root, fault } => {
                body.words(&[5, who.number(), *root, fault.is_some() as u64, fault.unwrap_or(0)]);
            }
            Record::Poke { page, bytes } => {
                body.words(&[6, *page]);
                body.bytes.extend(bytes);
            }
            Record::End { count, digest } => body.words(&[7, *count, *digest]),
            Record::Named { root, question, answer } => {
                body.words(&[8, question.number(), *root, answer.number, answer.root, answer.pages, answer.detail]);
                body.question(question);
            }
            Record::Heap { offset, bytes } => {
                body.words(&[9, *offset]);
                body.bytes.extend(bytes);
            }
            Record::Stored(Stored { page_size, page_count, heap_length, order }) => {
                body.words(&[10, *page_size, *page_count, *heap_length, *order]);
            }
        }
        assert!(body.bytes.len() <= LONGEST_RECORD, "a record of {} bytes is too long", body.bytes.len());
        let mut record = (body.bytes.len() as u64).to_le_bytes().to_vec();
        record.extend(body.bytes);
        record
    }

    /// Takes the first record off `file`.
    pub fn decode(file: &mut &[u8]) -> Result<Record, String> {
        let length = Fields(file).word()? as usize;
        if length > LONGEST_RECORD || length % 8 != 0 || 8 + length > file.len() {
            return Err(format!("no record has {} bytes here", length));
        }
        let mut fields = Fields(&file[8..8 + length]);
        *file = &file[8 + length..];
        let record = fields.record()?;
        if !fields.0.is_empty() {
            return Err(format!("{} bytes too many in {:?}", fields.0.len(), record));
        }
        Ok(record)
    }
}

impl Who {
    fn number(self) -> u64 {
        match self {
            Who::Patched => 1,
            Who::Both => 3,
        }
    }
}

impl Question {
    fn number(&self) -> u64 {
        match self {
            Question::Check => 1,
            Question::Start { .. } => 2,
            Question::Step { .. } => 3,
            Question::Held { .. } => 4,
            Question::InsertNamed { .. } => 5,
        }
    }
}

/// A record being written.
#[derive(Default)]
struct Body {
    bytes: Vec<u8>,
}

impl Body {
    fn words(&mut self, words: &[u64]) {
        self.bytes.extend(words.iter().flat_map(|word| word.to_le_bytes()));
    }

    fn batch(&mut self, batch: &[Datom]) {
        self.words(&[batch.len() as u64]);
        self.bytes.extend(datom_bytes(batch));
    }

    fn written(&mut self, written: &Written) {
        self.words(&[written.root, written.count]);
        self.carried(&written.pages);
    }

    fn question(&mut self, question: &Question) {
        match question {
            Question::Check => {}
            Question::Start { lower, upper } => self.bytes.extend(datom_bytes(&[*lower, *upper])),
            Question::Step { cursor } => self.bytes.extend(cursor),
            Question::Held { batch } | Question::InsertNamed { batch } => self.bytes.extend(datom_bytes(batch)),
        }
    }

    fn carried(&mut self, carried: &Carried) {
        match carried {
            Carried::Digest(digest) => self.words(&[0, *digest]),
            Carried::Raw(bytes) => {
                self.words(&[1]);
                self.bytes.extend(bytes);
            }
        }
    }
}

/// What is left to read of a record.
struct Fields<'a>(&'a [u8]);

impl<'a> Fields<'a> {
    fn record(&mut self) -> Result<Record, String> {
        Ok(match self.word()? {
            1 => Record::Begin {
                page_size: self.word()?,
                room: self.word()?,
                history: self.word()?,
                heap_room: if self.0.is_empty() { 0 } else { self.word()? },
            },
            2 => Record::Initialise { who: self.who()?, batch: self.batch()?, written: self.written()? },
            3 => Record::Insert { who: self.who()?, root: self.word()?, batch: self.batch()?, written: self.written()? },
            4 => Record::List {
                who: self.who()?,
                root: self.word()?,
                lower: self.datom()?,
                upper: self.datom()?,
                count: self.word()?,
                datoms: self.carried()?,
            },
            5 => Record::Check { who: self.who()?, root: self.word()?, fault: self.fault()? },
            6 => Record::Poke { page: self.word()?, bytes: self.rest() },
            7 => Record::End { count: self.word()?, digest: self.word()? },
            8 => self.named()?,
            9 => Record::Heap { offset: self.word()?, bytes: self.rest() },
            10 => Record::Stored(Stored {
                page_size: self.word()?,
                page_count: self.word()?,
                heap_length: self.word()?,
                order: self.word()?,
            }),
            kind => return Err(format!("there is no kind {}", kind)),
        })
    }

    fn named(&mut self) -> Result<Record, String> {
        let (call, root) = (self.word()?, self.word()?);
        let answer = Answer { number: self.word()?, root: self.word()?, pages: self.word()?, detail: self.word()? };
        let question = match call {
            1 => Question::Check,
            2 => Question::Start { lower: self.datom()?, upper: self.datom()? },
            3 => Question::Step { cursor: self.rest() },
            4 => Question::Held { batch: self.datoms_left()? },
            5 => Question::InsertNamed { batch: self.datoms_left()? },
            call => return Err(format!("there is no call {}", call)),
        };
        Ok(Record::Named { root, question, answer })
    }

    fn word(&mut self) -> Result<u64, String> {
        let (word, rest) = self.0.split_first_chunk().ok_or("the record is too short")?;
        self.0 = rest;
        Ok(u64::from_le_bytes(*word))
    }

    fn datom(&mut self) -> Result<Datom, String> {
        Ok([self.word()?, self.word()?, self.word()?, self.word()?])
    }

    fn batch(&mut self) -> Result<Vec<Datom>, String> {
        (0..self.word()?).map(|_| self.datom()).collect()
    }

    fn datoms_left(&mut self) -> Result<Vec<Datom>, String> {
        let mut datoms = Vec::new();
        while !self.0.is_empty() {
            datoms.push(self.datom()?);
        }
        Ok(datoms)
    }

    fn who(&mut self) -> Result<Who, String> {
        match self.word()? {
            1 => Ok(Who::Patched),
            3 => Ok(Who::Both),
            number => Err(format!("there is no oracle {}", number)),
        }
    }

    fn written(&mut self) -> Result<Written, String> {
        Ok(Written { root: self.word()?, count: self.word()?, pages: self.carried()? })
    }

    fn carried(&mut self) -> Result<Carried, String> {
        match self.word()? {
            0 => Ok(Carried::Digest(self.word()?)),
            1 => Ok(Carried::Raw(self.rest())),
            mode => Err(format!("there is no mode {}", mode)),
        }
    }

    fn fault(&mut self) -> Result<Option<u64>, String> {
        match (self.word()?, self.word()?) {
            (0, 0) => Ok(None),
            (1, page) => Ok(Some(page)),
            (verdict, page) => Err(format!("there is no verdict {} at page {}", verdict, page)),
        }
    }

    fn rest(&mut self) -> Vec<u8> {
        std::mem::take(&mut self.0).to_vec()
    }
}
