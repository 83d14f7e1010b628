//! Times of the proved page code on a full page of 4096 bytes. Nothing is tested here; docs/PERFORMANCE.md has the figures of one run.

mod probe;

use std::hint::black_box;
use std::time::Instant;

use harness::{byte_string, Datom, Node, Order, NONE};
use probe::Page;

const PAGE_SIZE: usize = 4096;
const FULL: u64 = 102;
/// Short runs and many of them: the best one was not disturbed.
const ROUNDS: u32 = 500;
const RUNS: usize = 4000;

/// Nanoseconds of one call, in the best of some runs.
fn nanoseconds(mut call: impl FnMut()) -> f64 {
    (0..RUNS)
        .map(|_| {
            let start = Instant::now();
            (0..ROUNDS).for_each(|_| call());
            start.elapsed().as_nanos() as f64 / ROUNDS as f64
        })
        .fold(f64::INFINITY, f64::min)
}

fn string(i: u64) -> u64 {
    byte_string(format!("fill{:03}", i).as_bytes())
}

fn main() {
    let inputs: [(&str, fn(u64) -> Datom); 4] = [
        ("entities differ", |i| [i, 1, 7, 3]),
        ("only integer values differ", |i| [1, 1, i, 3]),
        ("only strings differ", |i| [1, 1, string(i), 3]),
        ("only last words differ", |i| [1, 1, 7, 2 * i + 1]),
    ];
    // Each of these rises in every order.
    for (order, (name, datom)) in Order::ALL.into_iter().flat_map(|order| inputs.map(|input| (order, input))) {
        let node = Node { level: 0, datoms: (0..FULL).map(datom).collect(), children: vec![NONE; FULL as usize + 1] };
        let mut page = vec![0; PAGE_SIZE];
        node.encode_over(&mut page);
        let page = Page::of(&page, 1, order);
        assert_eq!(page.rule(), 0, "the page is readable");
        let sought: Vec<Vec<u8>> = (0..FULL).map(|i| probe::bytes_of(&datom(i))).collect();
        let read = nanoseconds(|| {
            black_box(black_box(page).rule());
        });
        let mut i = 0;
        let first = nanoseconds(|| {
            // Every datom of the page in turn, so that the ways through the halving differ.
            i = (i + 37) % sought.len();
            black_box(black_box(page).first(black_box(&sought[i])));
        });
        let mut free = vec![0; PAGE_SIZE];
        let write = nanoseconds(|| {
            black_box(black_box(page).write(black_box(&mut free)));
        });
        println!("{}, {}: read {:.0} ns, find {:.0} ns, write {:.0} ns", name, order.name(), read, first - read, write - read);
    }
    let (from, mut to) = (vec![1u8; PAGE_SIZE], vec![0u8; PAGE_SIZE]);
    let copy = nanoseconds(|| {
        black_box(&mut to).copy_from_slice(black_box(&from));
    });
    println!("a copy of 4096 bytes: {:.0} ns", copy);
}
