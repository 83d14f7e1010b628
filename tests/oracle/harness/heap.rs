//! The heap of constants, and which of them are valid, written to document 02's text and not to noblit.

/// An integer on the heap has no inline form, and a byte string there has none.
pub const LEAST_INTEGER: u64 = 1 << 62;
pub const LEAST_LENGTH: usize = 8;

/// The top bits of the words that name an integer or a byte string on the heap; the offset stands below.
const NAMES_INTEGER: u64 = 0b01 << 62;
const NAMES_BYTES: u64 = 0b11 << 62;

/// What a heap may hold.
#[derive(Clone, Debug, PartialEq)]
pub enum Constant {
    Integer(u64),
    Bytes(Vec<u8>),
}

/// The bytes of a heap that are in use.
#[derive(Clone, Debug, Default, PartialEq)]
pub struct Heap {
    bytes: Vec<u8>,
}

impl Heap {
    pub fn of_bytes(bytes: &[u8]) -> Heap {
        Heap { bytes: bytes.to_vec() }
    }

    pub fn bytes(&self) -> &[u8] {
        &self.bytes
    }

    /// "An integer as one word." The value word that names it.
    pub fn append_u64(&mut self, number: u64) -> u64 {
        assert!(number >= LEAST_INTEGER, "{} has an inline form", number);
        let word = NAMES_INTEGER | self.bytes.len() as u64;
        self.bytes.extend(number.to_le_bytes());
        word
    }

    /// "A byte string as its length word, its bytes, and zeros to a multiple of 8." The value word that names it.
    pub fn append_bytes(&mut self, string: &[u8]) -> u64 {
        assert!(string.len() >= LEAST_LENGTH, "{:x?} has an inline form", string);
        let word = NAMES_BYTES | self.bytes.len() as u64;
        self.bytes.extend((string.len() as u64).to_le_bytes());
        self.bytes.extend(string);
        self.bytes.resize(self.bytes.len().next_multiple_of(8), 0);
        word
    }

    pub fn append(&mut self, constant: &Constant) -> u64 {
        match constant {
            Constant::Integer(number) => self.append_u64(*number),
            Constant::Bytes(string) => self.append_bytes(string),
        }
    }

    /// "Offsets must be multiples of 8."
    pub fn has_integer(&self, offset: u64) -> bool {
        offset % 8 == 0 && self.reads_as_integer(offset)
    }

    /// "Offsets must be multiples of 8."
    pub fn has_bytes(&self, offset: u64) -> bool {
        offset % 8 == 0 && self.reads_as_bytes(offset)
    }

    /// "Heap integers are 2^62 or more."
    pub fn reads_as_integer(&self, offset: u64) -> bool {
        self.integer_at(offset).is_some_and(|number| number >= LEAST_INTEGER)
    }

    /// "Heap strings 8 bytes or more", with "zeros to a multiple of 8", which the heap has to the last.
    pub fn reads_as_bytes(&self, offset: u64) -> bool {
        let Some(length) = self.integer_at(offset) else {
            return false;
        };
        let (end, padding) = (offset as u128 + 8 + length as u128, (8 - length % 8) % 8);
        let is_padded = || self.part(end, padding as u128).is_some_and(|rest| rest.iter().all(|&byte| byte == 0));
        length >= LEAST_LENGTH as u64 && is_padded()
    }

    /// The word at an offset, of which nothing is asked but that its bytes are there.
    pub fn integer_at(&self, offset: u64) -> Option<u64> {
        let word = self.part(offset as u128, 8)?;
        Some(u64::from_le_bytes(word.try_into().expect("a word has 8 bytes")))
    }

    /// The bytes behind the length at an offset, of which nothing is asked but that all of them are there.
    pub fn bytes_at(&self, offset: u64) -> Option<&[u8]> {
        let length = self.integer_at(offset)?;
        self.part(offset as u128 + 8, length as u128)
    }

    /// So many bytes from a place on, if the heap has them. A length may be any word, and the sum of two needs more bits.
    fn part(&self, from: u128, length: u128) -> Option<&[u8]> {
        if from + length <= self.bytes.len() as u128 { Some(&self.bytes[from as usize..(from + length) as usize]) } else { None }
    }
}
