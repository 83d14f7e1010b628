//! Datoms as words, and the form and the orders that documents 01 and 02 give them over a heap, written to their text and not to noblit.

use std::cmp::Ordering;

use crate::heap::{Constant, Heap};

/// Entity, attribute, value and last word.
pub type Datom = [u64; 4];

/// The value above all others, allowed in a bound and not in a stored datom.
pub const MAX_VALUE: u64 = u64::MAX;

/// The places of a datom's words.
const ENTITY: usize = 0;
const ATTRIBUTE: usize = 1;
const VALUE: usize = 2;
const LAST: usize = 3;

/// Which words of two datoms decide before which, with the number that document 02, Three, gives it.
#[derive(Clone, Copy, Debug, Default, PartialEq)]
pub enum Order {
    #[default]
    Eavt = 0,
    Aevt = 1,
    Avet = 2,
}

impl Order {
    pub const ALL: [Order; 3] = [Order::Eavt, Order::Aevt, Order::Avet];

    pub fn number(self) -> u64 {
        self as u64
    }

    /// Nothing for a number that no order has.
    pub fn of_number(number: u64) -> Option<Order> {
        Order::ALL.into_iter().find(|order| order.number() == number)
    }

    pub fn name(self) -> &'static str {
        match self {
            Order::Eavt => "eavt",
            Order::Aevt => "aevt",
            Order::Avet => "avet",
        }
    }

    /// The places of a datom's words, the one that decides first in front.
    pub fn places(self) -> [usize; 4] {
        match self {
            Order::Eavt => [ENTITY, ATTRIBUTE, VALUE, LAST],
            Order::Aevt => [ATTRIBUTE, ENTITY, VALUE, LAST],
            Order::Avet => [ATTRIBUTE, VALUE, ENTITY, LAST],
        }
    }
}

const INLINE_INTEGERS: u64 = 1 << 62;
const LONGEST_STRING: usize = 7;

/// What a value word says by itself.
#[derive(Clone, Copy, Debug, PartialEq)]
pub enum Word {
    Integer(u64),
    /// The bytes, zero after the length.
    Bytes([u8; LONGEST_STRING], usize),
    /// The offset of an integer on the heap.
    IntegerAt(u64),
    /// The offset of a byte string on the heap.
    BytesAt(u64),
    Max,
    Malformed,
}

impl Word {
    pub fn of(word: u64) -> Word {
        let offset = word % (1 << 62);
        match word >> 62 {
            0b00 => Word::Integer(word),
            0b01 => Word::IntegerAt(offset),
            0b10 => Word::of_inline_bytes(word),
            _ if word == MAX_VALUE => Word::Max,
            _ => Word::BytesAt(offset),
        }
    }

    fn of_inline_bytes(word: u64) -> Word {
        let bytes = word.to_le_bytes();
        let length = (bytes[7] & 0x3f) as usize;
        let mut content = [0; LONGEST_STRING];
        content.copy_from_slice(&bytes[..LONGEST_STRING]);
        if length > LONGEST_STRING || content[length..].iter().any(|&byte| byte != 0) {
            return Word::Malformed;
        }
        Word::Bytes(content, length)
    }

    /// Whether it names a constant, valid or not.
    pub fn is_long(self) -> bool {
        matches!(self, Word::IntegerAt(_) | Word::BytesAt(_))
    }
}

/// What a value stands for.
enum Value<'a> {
    Integer(u64),
    Bytes(Text<'a>),
    Max,
}

/// A byte string, inline or on the heap.
enum Text<'a> {
    Inline([u8; LONGEST_STRING], usize),
    OnHeap(&'a [u8]),
}

impl Text<'_> {
    fn bytes(&self) -> &[u8] {
        match self {
            Text::Inline(bytes, length) => &bytes[..*length],
            Text::OnHeap(bytes) => bytes,
        }
    }
}

impl Value<'_> {
    /// What is not there, or is malformed, has a place, too: that of max.
    fn of_word(word: u64, heap: &Heap) -> Value<'_> {
        match Word::of(word) {
            Word::Integer(number) => Value::Integer(number),
            Word::Bytes(bytes, length) => Value::Bytes(Text::Inline(bytes, length)),
            Word::IntegerAt(offset) => heap.integer_at(offset).map_or(Value::Max, Value::Integer),
            Word::BytesAt(offset) => heap.bytes_at(offset).map_or(Value::Max, |bytes| Value::Bytes(Text::OnHeap(bytes))),
            Word::Max | Word::Malformed => Value::Max,
        }
    }

    fn class(&self) -> u8 {
        match self {
            Value::Integer(_) => 0,
            Value::Bytes(_) => 1,
            Value::Max => 2,
        }
    }
}

/// The word of a byte string of at most seven bytes.
pub fn byte_string(bytes: &[u8]) -> u64 {
    assert!(bytes.len() <= LONGEST_STRING, "an inline byte string has at most 7 bytes, not {}", bytes.len());
    let mut word = [0; 8];
    word[..bytes.len()].copy_from_slice(bytes);
    word[7] = 0x80 | bytes.len() as u8;
    u64::from_le_bytes(word)
}

/// Whether a datom's value word says nothing against it by itself: what 3 is not given for.
pub fn is_formed(datom: &Datom) -> bool {
    !matches!(Word::of(datom[2]), Word::Max | Word::Malformed)
}

impl Heap {
    /// The word of an integer, which goes to the heap if it has no inline form.
    pub fn value_of_integer(&mut self, number: u64) -> u64 {
        if number < INLINE_INTEGERS { number } else { self.append_u64(number) }
    }

    /// The word of a byte string, which goes to the heap if it has no inline form.
    pub fn value_of_bytes(&mut self, bytes: &[u8]) -> u64 {
        if bytes.len() <= LONGEST_STRING { byte_string(bytes) } else { self.append_bytes(bytes) }
    }

    /// What stands where a word names a constant, valid or not; nothing if it names none, or not all of it is there.
    pub fn constant(&self, word: u64) -> Option<Constant> {
        match Word::of(word) {
            Word::IntegerAt(offset) => self.integer_at(offset).map(Constant::Integer),
            Word::BytesAt(offset) => self.bytes_at(offset).map(|bytes| Constant::Bytes(bytes.to_vec())),
            _ => None,
        }
    }

    /// Whether a page or a batch may hold the datom.
    pub fn is_storable(&self, datom: &Datom) -> bool {
        match Word::of(datom[2]) {
            Word::Integer(_) | Word::Bytes(..) => true,
            Word::IntegerAt(offset) => self.has_integer(offset),
            Word::BytesAt(offset) => self.has_bytes(offset),
            Word::Max | Word::Malformed => false,
        }
    }

    /// Whether a listing may have the datom as a bound.
    pub fn is_bound(&self, datom: &Datom) -> bool {
        datom[2] == MAX_VALUE || self.is_storable(datom)
    }

    /// Word for word as the order has them; values by content, of any words.
    pub fn compare(&self, order: Order, left: &Datom, right: &Datom) -> Ordering {
        let at = |place: usize| match place {
            VALUE => self.compare_values(left[VALUE], right[VALUE]),
            _ => left[place].cmp(&right[place]),
        };
        order.places().into_iter().map(at).find(|decided| decided.is_ne()).unwrap_or(Ordering::Equal)
    }

    fn compare_values(&self, left: u64, right: u64) -> Ordering {
        match (Value::of_word(left, self), Value::of_word(right, self)) {
            (Value::Integer(l), Value::Integer(r)) => l.cmp(&r),
            (Value::Bytes(l), Value::Bytes(r)) => compare_bytes(l.bytes(), r.bytes()),
            (l, r) => l.class().cmp(&r.class()),
        }
    }
}

/// By unsigned bytes, a proper prefix first.
fn compare_bytes(left: &[u8], right: &[u8]) -> Ordering {
    for i in 0..left.len().min(right.len()) {
        if left[i] != right[i] {
            return left[i].cmp(&right[i]);
        }
    }
    left.len().cmp(&right.len())
}
