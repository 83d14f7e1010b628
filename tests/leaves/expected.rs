//! What the answers are to be, from document 01's text by way of the harness and not of the proved code.

use std::cmp::Ordering;

use harness::{capacity, Datom, Heap, Node, Order, NONE};

use crate::probe::{Page, NOTHING};

/// The first rule of "Readable" that a page breaks, numbered 1 to 7 in document 01's order, or the page's content. There is nothing to say of
/// bytes that are no page, and in an order that there is not.
pub fn read(page: Page) -> Result<Node, u64> {
    capacity(page.bytes.len()).ok_or(NOTHING)?;
    let order = Order::of_number(page.order).ok_or(NOTHING)?;
    Node::read(page.bytes, page.id, order, &no_heap()).map_err(|rule| rule as u64)
}

/// Crate probe is lent no heap: a value that names a constant names none that is valid.
fn no_heap() -> Heap {
    Heap::default()
}

pub fn first_not_below(order: Order, datoms: &[Datom], sought: &Datom) -> u64 {
    datoms.iter().take_while(|datom| no_heap().compare(order, datom, sought) == Ordering::Less).count() as u64
}

pub fn order(order: Order, a: &Datom, b: &Datom) -> u64 {
    match no_heap().compare(order, a, b) {
        Ordering::Less => 0,
        Ordering::Equal => 1,
        Ordering::Greater => 2,
    }
}

pub fn next_child(children: &[u64], from: usize) -> u64 {
    children.iter().skip(from).copied().find(|&child| child != NONE).unwrap_or(NONE)
}

/// A fetch checks 1, then 5, in exact arithmetic.
pub fn fetch(length: usize, size: u64, count: u64, page: u64) -> u64 {
    let known = usize::try_from(size).ok().and_then(capacity).is_some();
    if !known || count as u128 * size as u128 > length as u128 {
        return 1;
    }
    if page >= count { 5 } else { 0 }
}

/// The page that a node is written as: zeros where it has nothing.
pub fn encode(node: &Node, page_size: usize) -> Vec<u8> {
    let mut page = vec![0; page_size];
    node.encode_over(&mut page);
    page
}
