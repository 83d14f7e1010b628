//! Copies of a page with a few bytes changed.

use harness::{capacity, Random, NONE};

const LEVELS: [u8; 7] = [0, 1, 2, 7, 8, 128, 255];
const BYTES: [u8; 5] = [0x00, 0x01, 0x40, 0x80, 0xff];
/// Value words: the ends of each kind, and malformed ones (an external value, a string of length 8, one with bytes past its length).
const VALUES: [u64; 10] = [
    0,
    (1 << 62) - 1,
    1 << 62,
    0xc000_0000_0000_0000,
    u64::MAX,
    u64::MAX - 1,
    0x8000_0000_0000_0000,
    0x8000_0000_0000_0001,
    0x87ff_ffff_ffff_ffff,
    0x8800_0000_0000_0000,
];

/// How many places in each area are changed at random.
const PLACES: usize = 12;

/// Calls `look` with each damaged copy.
pub fn damaged(page: &[u8], id: u64, random: &mut Random, mut look: impl FnMut(&[u8])) {
    let cap = capacity(page.len()).expect("a page of known size");
    let (children, header) = (32 * cap, 40 * cap + 8);
    let count = page[header + 1] as usize;
    let mut copy = page.to_vec();
    let mut with = |changes: &[(usize, &[u8])]| {
        for (at, bytes) in changes {
            copy[*at..*at + bytes.len()].copy_from_slice(bytes);
        }
        look(&copy);
        copy.copy_from_slice(page);
    };
    for level in LEVELS {
        with(&[(header, &[level])]);
    }
    for new in [0, count.wrapping_sub(1), count + 1, cap, cap + 1, 255] {
        with(&[(header + 1, &[new as u8])]);
    }
    for at in header + 2..page.len() {
        with(&[(at, &[random.pick(&BYTES)])]);
    }
    with(&[(header, &[9, 255])]);
    with(&[(header, &[1, count as u8])]);
    for _ in 0..PLACES {
        with(&[(random.below(children), &[random.word() as u8])]);
        with(&[(children + random.below(header - children), &[random.pick(&BYTES)])]);
    }
    for _ in 0..count.min(PLACES) {
        let i = random.below(count);
        let (value, other) = (random.pick(&VALUES), random.below(count));
        with(&[(32 * i + 16, &value.to_le_bytes())]);
        with(&[(32 * i, &page[32 * other..32 * other + 32])]);
        // Malformed and out of order at once: the form goes first.
        with(&[(32 * i + 16, &VALUES[2].to_le_bytes()), (32 * other, &[0xff; 8])]);
    }
    for _ in 0..(count + 1).min(PLACES) {
        let at = children + 8 * random.below(count + 1);
        for child in [NONE, 0, id.wrapping_sub(1), id, id + 1, random.word()] {
            with(&[(at, &child.to_le_bytes())]);
        }
    }
    let last = children + 8 * count;
    with(&[(last, &NONE.to_le_bytes())]);
    with(&[(last, &NONE.to_le_bytes()), (children, &id.to_le_bytes())]);
}
