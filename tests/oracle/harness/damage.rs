//! Damage to a page that leaves it readable, so that the check has to find the fault in the tree; value words that no page may have; and
//! damage to a constant.

use crate::datom::{Word, MAX_VALUE};
use crate::heap::Heap;
use crate::node::{capacity, Node};
use crate::pages::{Pages, NONE};
use crate::random::Random;
use crate::supply::Supply;

const ATTEMPTS: usize = 60;

/// So many offsets are looked at for one where a constant could be read.
const BESIDE: usize = 200;

/// Value words that no datom may have, whatever the heap holds.
pub const MALFORMED: [u64; 4] = [MAX_VALUE, 0x8100_0000_0000_6161, 0x8800_0000_0000_0000, 0xbfff_ffff_ffff_ffff];

/// Value words that no page may have where the heap is empty.
const WITHOUT_HEAP: [u64; 5] = [MAX_VALUE, 1 << 62, 3 << 62, 0x8100_0000_0000_6161, 0x8800_0000_0000_0000];

/// A page of the tree at `root` and what it is to hold instead: other bytes that are readable too.
/// Nothing if no attempt came to such a page, as may be with a tree of a single page.
pub fn readable_damage(pages: &Pages, root: u64, supply: &Supply, random: &mut Random) -> Option<(u64, Vec<u8>)> {
    (0..ATTEMPTS).find_map(|_| {
        let id = page_below(pages, root, random);
        let old = pages.page(id).expect("a page of the tree");
        let mut page = old.to_vec();
        let mut node = Node::decode(old).expect("a readable page");
        damage(&mut node, id, capacity(old.len())?, supply, random);
        if random.one_in(8) {
            // The reader ignores what lies past the count and around the header.
            page.iter_mut().for_each(|byte| *byte = random.word() as u8);
        }
        node.encode_over(&mut page);
        if page != old && node.is_readable(id, pages.order(), pages.heap()) { Some((id, page)) } else { None }
    })
}

/// A page on a random way down from the root, every level about as likely.
fn page_below(pages: &Pages, root: u64, random: &mut Random) -> u64 {
    let mut id = root;
    loop {
        let node = Node::decode(pages.page(id).expect("a page of the tree")).expect("a readable page");
        let real: Vec<u64> = node.children.into_iter().filter(|&child| child != NONE).collect();
        if real.is_empty() || random.one_in(node.level as usize + 1) {
            return id;
        }
        id = random.pick(&real);
    }
}

fn damage(node: &mut Node, id: u64, cap: usize, supply: &Supply, random: &mut Random) {
    let place = random.below(node.children.len());
    let count = node.datoms.len();
    match random.below(10) {
        0 | 1 => node.children[place] = lower_id(id, random),
        2 => {
            let other = random.below(node.children.len());
            node.children.swap(place, other);
        }
        3 | 4 if place < count => node.datoms[place] = supply.any(random),
        // The ends of a page are what its bounds are compared with.
        5 if count > 0 => node.datoms[random.pick(&[0, count - 1])] = supply.any(random),
        6 if place < count => {
            node.datoms.remove(place);
            node.children.remove(place);
        }
        7 if count < cap => {
            node.datoms.insert(place, supply.any(random));
            node.children.insert(place, NONE);
        }
        8 => relevel(node, id, random),
        9 => {
            node.datoms.clear();
            node.children.drain(..count);
        }
        _ => node.children[place] = NONE,
    }
}

/// Another level, with the children that a page of that level must have to be readable.
pub fn relevel(node: &mut Node, id: u64, random: &mut Random) {
    node.level = random.below(8) as u8;
    let last = node.children.len() - 1;
    if node.level == 0 {
        node.children.fill(NONE);
    } else if node.children[last] == NONE {
        node.children[last] = lower_id(id, random);
    }
}

/// A page id that a child of page `id` may have; page 0 can have none.
fn lower_id(id: u64, random: &mut Random) -> u64 {
    if id == 0 { NONE } else { random.below(id as usize) as u64 }
}

/// A value word that no page may have over this heap.
pub fn bad_value(heap: &Heap, random: &mut Random) -> u64 {
    match heap.bytes() {
        [] => random.pick(&WITHOUT_HEAP),
        _ if random.one_in(3) => random.pick(&MALFORMED),
        _ => bad_constant(heap, random),
    }
}

/// A word that names a constant which is not valid: beside a multiple of 8, past the heap's end, or at what is none of its kind.
pub fn bad_constant(heap: &Heap, random: &mut Random) -> u64 {
    let length = heap.bytes().len() as u64;
    loop {
        let offset = match random.below(4) {
            0 => beside(heap, random),
            1 => random.pick(&[length, length + 1, length + 8, length.saturating_sub(8), (1 << 62) - 8, (1 << 62) - 9, (1 << 62) - 1]),
            _ => 8 * random.below(length as usize / 8 + 1) as u64,
        };
        let word = random.pick(&[1 << 62, 3 << 62]) | offset;
        let is_bad = offset % 8 != 0 || !heap.is_storable(&[0, 0, word, 0]);
        if Word::of(word).is_long() && is_bad {
            return word;
        }
    }
}

/// An offset that is no multiple of 8. Most times one where a byte string could be read, which is rare, or an integer.
fn beside(heap: &Heap, random: &mut Random) -> u64 {
    let is_bytes = random.one_in(2);
    let reads = |offset: &u64| if is_bytes { heap.reads_as_bytes(*offset) } else { heap.reads_as_integer(*offset) };
    let mut offsets = std::iter::repeat_with(|| 8 * random.below(heap.bytes().len() / 8 + 1) as u64 + 1 + random.below(7) as u64);
    let first = offsets.next().expect("an offset");
    offsets.take(BESIDE).find(reads).unwrap_or(first)
}

/// The heap with a constant that is not as it was laid: an integer or a byte string that has an inline form, a byte of padding, or another
/// length.
pub fn spoiled(heap: &Heap, word: u64, random: &mut Random) -> Heap {
    let mut bytes = heap.bytes().to_vec();
    match Word::of(word) {
        Word::IntegerAt(offset) => bytes[offset as usize + 7] &= 0x3f,
        Word::BytesAt(offset) => {
            let (at, length) = (offset as usize, heap.bytes_at(offset).expect("a constant").len());
            let end = at + 8 + length;
            let padding = end.next_multiple_of(8) - end;
            if padding > 0 && random.one_in(2) {
                bytes[end + random.below(padding)] = 1 + random.below(255) as u8;
            } else if random.one_in(3) {
                bytes[at..at + 8].copy_from_slice(&7u64.to_le_bytes());
                bytes[at + 15] = 0;
            } else {
                let lengths = [0, length - 1, length + 1, length + 8, bytes.len() - at - 8, bytes.len() - at - 7, 1 << 62, usize::MAX];
                bytes[at..at + 8].copy_from_slice(&(random.pick(&lengths) as u64).to_le_bytes());
            }
        }
        _ => panic!("{:#018x} names no constant", word),
    }
    Heap::of_bytes(&bytes)
}
