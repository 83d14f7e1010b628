//! The heap grows: constants that the library appends, as the Rust's own heap does, and appends that are refused.

use std::rc::Rc;

use harness::{Answer, Appended, Constant, Heap, Oracle, Which};

use super::History;
use crate::library::append;
use crate::reader::{same, Difference};

/// One in so many constants of a batch is laid anew before it, so that the heap grows with the trees.
const LAID_ANEW: usize = 4;

/// One in so many appends comes after some that are refused.
const REFUSED_BEFORE: usize = 12;

/// The part of a value word below its tag.
const OFFSETS: u64 = 1 << 62;

impl History<'_> {
    /// Has the library append what the supply's heap has and its own has not. The Rust's heap says which words and bytes that gives, and
    /// the harness's must be the same.
    pub(super) fn lay(&mut self) -> Result<(), Difference> {
        let (old, new) = (Rc::clone(self.patched.heap()), Rc::clone(self.supply.heap()));
        let constants = self.supply.constants()[self.laid..].to_vec();
        let oracle = Oracle { which: Which::Patched, by: self.shape.by };
        let appended = oracle.append(&old, &constants)?;
        if !appended.is_in(&new, &constants) {
            return Err(format!("the harness lays {:?} otherwise than the Rust", constants));
        }
        for (i, constant) in constants.iter().enumerate() {
            if self.random.one_in(REFUSED_BEFORE) {
                self.refused_appends(constant)?;
            }
            self.append(constant, appended.words[i], part(&appended, i))?;
            self.laid += 1;
        }
        self.patched.set_heap(&new);
        self.plain.iter_mut().for_each(|plain| plain.set_heap(&new));
        Ok(())
    }

    /// Some constants of a batch go to the end of the heap before it, if no tree holds their datoms.
    pub(super) fn lay_anew(&mut self, batch: &[usize]) -> Result<(), Difference> {
        for &i in batch {
            let is_free = self.supply.is_long(i) && self.trees.iter().all(|tree| !tree.held[i]);
            if is_free && self.random.one_in(LAID_ANEW) {
                self.supply.lay_anew(i);
            }
        }
        self.lay()
    }

    /// As commands of the oracle's driver.
    pub(super) fn appends(&self) -> String {
        self.supply.constants()[..self.laid].iter().map(|constant| match constant {
            Constant::Integer(number) => format!("append {:#x}\n", number),
            Constant::Bytes(bytes) => {
                let bytes: String = bytes.iter().map(|byte| format!("\\x{:02x}", byte)).collect();
                format!("append \"{}\"\n", bytes)
            }
        }).collect()
    }

    /// An append with room for it and for nothing else, or for more: the word that names the constant, and these bytes behind the others.
    fn append(&mut self, constant: &Constant, word: u64, bytes: &[u8]) -> Result<(), Difference> {
        let more = bytes.len() + self.random.pick(&[0, 0, 1, 8, 24]);
        let answer = self.call_append(constant, self.heap.count, more, 32)?;
        same("an append's answer", &answer, &Answer { number: 0, root: word, pages: bytes.len() as u64, detail: 0 })?;
        self.heap.fault_past(bytes).map_or(Ok(()), Err)?;
        self.heap.grow(bytes);
        self.tally.appended += 1;
        Ok(())
    }

    /// 1 before 11 before 12; none of them writes.
    fn refused_appends(&mut self, constant: &Constant) -> Result<(), Difference> {
        let (length, need) = (self.heap.count, needed(constant));
        let inline = match constant {
            Constant::Integer(number) => Constant::Integer(self.random.pick(&[0, 1, (1 << 62) - 1, number >> 2])),
            Constant::Bytes(bytes) => Constant::Bytes(bytes[..self.random.below(8)].to_vec()),
        };
        let too_long = [length + 1, length + 7, length + need as u64 + 8, 1 << 62, u64::MAX, u64::MAX - 7];
        let wrong_length = self.random.pick(&too_long);
        let fits = need - 1 - self.random.below(need);
        self.refuse_append(constant, wrong_length, need, 32, 1)?;
        self.refuse_append(&inline, wrong_length, need, 32, 1)?;
        let area = self.random.pick(&[0, 1, 31, 33, 40]);
        self.refuse_append(constant, length, need, area, 1)?;
        self.refuse_append(&inline, length, need, 32, 11)?;
        self.refuse_append(&inline, length, 0, 32, 11)?;
        self.refuse_append(constant, length, fits, 32, 12)
    }

    /// With so many bytes of room behind the heap's length.
    fn refuse_append(&mut self, constant: &Constant, length: u64, more: usize, area: usize, number: u64) -> Result<(), Difference> {
        let answer = self.call_append(constant, length, more, area)?;
        same("a refused append's answer", &answer, &Answer::told(number, 0))?;
        self.tally.answers[number as usize] += 1;
        self.heap.fault_past(&[]).map_or(Ok(()), Err)
    }

    fn call_append(&mut self, constant: &Constant, length: u64, more: usize, area: usize) -> Result<Answer, Difference> {
        self.heap.make_room(more, &mut self.random);
        append(self.heap.lend(more, 0), length, constant, area, &mut self.random)
            .map_err(|fault| format!("{}: append of {:x?} at {} with {} bytes of room", fault, constant, length, more))
    }
}

/// The bytes that an append takes.
fn needed(constant: &Constant) -> usize {
    let mut heap = Heap::default();
    heap.append(constant);
    heap.bytes().len()
}

/// What the Rust appended for one of the constants.
fn part(appended: &Appended, i: usize) -> &[u8] {
    let offset = |i: usize| appended.words.get(i).map_or(appended.bytes.len(), |word| (word % OFFSETS) as usize);
    &appended.bytes[offset(i)..offset(i + 1)]
}
