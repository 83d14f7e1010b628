//! What is fed to every tree: batches that rise in its order, of datoms with ascending or random entities, of fills, or of long values on a heap.

use std::cmp::Ordering;

pub type Datom = [u64; 4];

/// Which words decide before which, with the number that the library has for it.
#[derive(Clone, Copy, Debug, PartialEq)]
pub enum Order {
    Eavt = 0,
    Aevt = 1,
    Avet = 2,
}

impl Order {
    pub const ALL: [Order; 3] = [Order::Eavt, Order::Aevt, Order::Avet];

    pub fn name(self) -> &'static str {
        match self {
            Order::Eavt => "eavt",
            Order::Aevt => "aevt",
            Order::Avet => "avet",
        }
    }

    /// Facts of one last word.
    fn compare(self, left: &Fact, right: &Fact) -> Ordering {
        let (entity, attribute, value) = (left.0.cmp(&right.0), left.1.cmp(&right.1), || left.2.cmp(&right.2));
        match self {
            Order::Eavt => entity.then(attribute).then_with(value),
            Order::Aevt => attribute.then(entity).then_with(value),
            Order::Avet => attribute.then_with(value).then(entity),
        }
    }
}

#[derive(Clone, Copy, Debug, PartialEq)]
pub enum Keys {
    Ascending,
    Random,
    /// Ascending entities of five datoms each, one for each attribute of a fill.
    Fills,
    /// Ascending entities with a text each: no comparison comes to the texts.
    Texts,
    /// One entity and attribute, and texts that ascend: every comparison comes to them.
    ByText,
    /// The same with random texts.
    RandomTexts,
}

impl Keys {
    pub const ALL: [Keys; 6] = [Keys::Ascending, Keys::Fills, Keys::Random, Keys::Texts, Keys::ByText, Keys::RandomTexts];

    pub fn name(self) -> &'static str {
        match self {
            Keys::Ascending => "ascending",
            Keys::Random => "random",
            Keys::Fills => "fills",
            Keys::Texts => "texts",
            Keys::ByText => "by text",
            Keys::RandomTexts => "random texts",
        }
    }

    pub fn has_texts(self) -> bool {
        matches!(self, Keys::Texts | Keys::ByText | Keys::RandomTexts)
    }

    /// At how many places of a tree a batch goes in, each time behind what is there; nothing where it goes in anywhere. The values of random
    /// entities ascend, and fills have so many attributes.
    pub fn places(self, order: Order) -> Option<u64> {
        match (self, order) {
            (Keys::Random, Order::Eavt | Order::Aevt) | (Keys::RandomTexts, _) => None,
            (Keys::Fills, Order::Aevt | Order::Avet) => Some(ATTRIBUTES),
            _ => Some(1),
        }
    }
}

/// How many datoms tell of one fill.
const ATTRIBUTES: u64 = 5;

/// A text begins with its eight digits, and so many bytes more follow at most: 8 to 40 in all.
const TAIL: u64 = 32;

/// The top bits of a word that names a byte string on the heap.
const NAMES_BYTES: u64 = 0b11 << 62;

/// Entity, attribute and value of a datom.
type Fact = (u64, u64, Content);

/// What a value stands for, in the order of values.
#[derive(PartialEq, Eq, PartialOrd, Ord)]
enum Content {
    Number(u64),
    Text(Vec<u8>),
}

/// An endless feed without repeats, and the heap that its values lie on.
pub struct Feed {
    keys: Keys,
    order: Order,
    next: u64,
    state: u64,
    pub heap: Vec<u8>,
}

impl Feed {
    pub fn new(keys: Keys, order: Order, seed: u64) -> Feed {
        Feed { keys, order, next: 0, state: seed, heap: Vec::new() }
    }

    /// The same feed from here on, but for what is random.
    pub fn branch(&self, seed: u64) -> Feed {
        Feed { keys: self.keys, order: self.order, next: self.next, state: seed, heap: self.heap.clone() }
    }

    pub fn batch(&mut self, size: usize) -> Vec<Datom> {
        let mut facts: Vec<Fact> = (0..size).map(|_| self.fact()).collect();
        facts.sort_by(|left, right| self.order.compare(left, right));
        facts.into_iter().map(|(entity, attribute, content)| [entity, attribute, self.value(content), 3]).collect()
    }

    /// Texts of this feed that lie on no heap yet.
    pub fn texts(&mut self, size: usize) -> Vec<Vec<u8>> {
        (0..size as u64).map(|number| self.text(self.next + number)).collect()
    }

    fn fact(&mut self) -> Fact {
        let number = self.next;
        self.next += 1;
        match self.keys {
            Keys::Ascending => (number, 1, Content::Number(number)),
            Keys::Random => (self.word() >> 1, 1, Content::Number(number)),
            Keys::Fills => (number / ATTRIBUTES, 1 + number % ATTRIBUTES, Content::Number(number)),
            Keys::Texts => (number, 1, Content::Text(self.text(number))),
            Keys::ByText | Keys::RandomTexts => (1, 1, Content::Text(self.text(number))),
        }
    }

    /// Eight digits that ascend or eight random letters, of which there are more than enough for no two to be the same, and a tail.
    fn text(&mut self, number: u64) -> Vec<u8> {
        let mut text = match self.keys {
            Keys::RandomTexts => self.letters(8),
            _ => format!("{:08}", number).into_bytes(),
        };
        let length = self.word() % (TAIL + 1);
        text.extend(self.letters(length));
        text
    }

    fn letters(&mut self, length: u64) -> Vec<u8> {
        (0..length).map(|_| b'0' + (self.word() % 64) as u8).collect()
    }

    /// The word of a value; a text goes onto the heap as its length, its bytes and zeros.
    fn value(&mut self, content: Content) -> u64 {
        match content {
            Content::Number(number) => number,
            Content::Text(text) => {
                let word = NAMES_BYTES | self.heap.len() as u64;
                self.heap.extend((text.len() as u64).to_le_bytes());
                self.heap.extend(&text);
                self.heap.resize(self.heap.len().next_multiple_of(8), 0);
                word
            }
        }
    }

    /// The generator splitmix64.
    fn word(&mut self) -> u64 {
        self.state = self.state.wrapping_add(0x9e37_79b9_7f4a_7c15);
        let mut z = self.state;
        z = (z ^ (z >> 30)).wrapping_mul(0xbf58_476d_1ce4_e5b9);
        z = (z ^ (z >> 27)).wrapping_mul(0x94d0_49bb_1331_11eb);
        z ^ (z >> 31)
    }
}

pub fn bytes_of(batch: &[Datom]) -> Vec<u8> {
    batch.iter().flatten().flat_map(|word| word.to_le_bytes()).collect()
}
