//! Makes the file of recorded answers: the same bytes every time.

use std::fs;

use harness::{Kind, Order, Plan};

use crate::history::{record_history, Shape};
use crate::names::Names;
use crate::naming::{record_merge, record_names, Planted};
use crate::recording::Record;

const SEED: u64 = 20_190_607;

const KINDS: [Kind; 5] = [Kind::Counted, Kind::Integers, Kind::Strings, Kind::LastWords, Kind::Mixed];
const LONG_KINDS: [Kind; 3] = [Kind::LongStrings, Kind::LongIntegers, Kind::LongMixed];
const PLANS: [Plan; 4] = [Plan::Ascending, Plan::Descending, Plan::Scattered, Plan::Clustered];

/// Sizes of batches around one, two and three pages' worth, and the largest.
const AROUND_256: &[usize] = &[0, 1, 1, 2, 3, 4, 5, 6, 6, 7, 7, 8, 9, 11, 12, 13, 14, 15, 19, 20, 40, 64, 102, 127, 128];
const AROUND_568: &[usize] = &[0, 1, 1, 6, 7, 8, 12, 13, 14, 15, 25, 26, 27, 28, 39, 40, 64, 102, 103, 127, 128];
const AROUND_4096: &[usize] = &[0, 1, 13, 50, 51, 52, 101, 102, 103, 104, 127, 128];
const AROUND_8192: &[usize] = &[0, 1, 26, 75, 76, 77, 78, 101, 102, 103, 127, 128];

/// A first batch, how many follow, and how large these are: 203 to 207 datoms, then 408 to 410.
const GROWN_8192: [(usize, usize, &[usize]); 8] =
    [(128, 1, &[75]), (128, 1, &[76]), (128, 1, &[77]), (128, 1, &[78]), (128, 1, &[79]), (128, 4, &[70]), (127, 3, &[94]), (128, 3, &[94])];

/// What came later stands behind what was there, so that the bytes of before stay: first the oracles' answers, then names of faults, then
/// both for pages of 8192 bytes, then both with long values, on a heap, then both in the two further orders.
pub fn record(file: &str) -> Result<(), String> {
    let mut recording = Recording::default();
    recording.add_histories(shapes());
    let by_oracles = recording.bytes.len();
    recording.add_merge();
    recording.add_names(planted());
    let before_wide = recording.bytes.len();
    recording.add_histories(wide());
    recording.add_names(planted_wide());
    let before_long = recording.bytes.len();
    recording.add_histories(long());
    recording.add_names(planted_long());
    let before_orders = recording.bytes.len();
    recording.add_histories(ordered());
    recording.add_names(planted_ordered());
    let bytes = recording.finish()?;
    fs::write(file, &bytes).map_err(|error| format!("{}: {}", file, error))?;
    let (named, wide, long) = (before_wide - by_oracles, before_long - before_wide, before_orders - before_long);
    println!("{} bytes recorded with seed {} in {}", bytes.len(), SEED, file);
    println!(
        "{} by the oracles, then {} with names of faults, then {} of pages of 8192 bytes, then {} with long values, then {} in the further orders",
        by_oracles, named, wide, long, bytes.len() - before_orders,
    );
    Ok(())
}

#[derive(Default)]
struct Recording {
    histories: u64,
    names: Names,
    bytes: Vec<u8>,
}

impl Recording {
    /// The number of the next history.
    fn next(&mut self) -> u64 {
        self.histories += 1;
        self.histories
    }

    fn add(&mut self, records: Vec<Record>) {
        self.bytes.extend(records.iter().flat_map(Record::encode));
    }

    fn add_histories(&mut self, shapes: Vec<Shape>) {
        for shape in shapes {
            let records = record_history(self.next(), SEED, shape);
            self.add(records);
        }
    }

    fn add_merge(&mut self) {
        let records = record_merge(self.next(), &mut self.names);
        self.add(records);
    }

    fn add_names(&mut self, trees: Vec<Planted>) {
        for planted in trees {
            let records = record_names(self.next(), SEED, planted, &mut self.names);
            self.add(records);
        }
    }

    /// Each call must have given each name that it can give.
    fn finish(self) -> Result<Vec<u8>, String> {
        match self.names.missing() {
            missing if !missing.is_empty() => Err(format!("no record of {}", missing.join(", "))),
            _ => Ok(self.bytes),
        }
    }
}

/// A tree in the first order, whose pages are damaged.
fn plant(page_size: usize, kind: Kind, batches: &'static [usize], height: usize) -> Planted {
    Planted { page_size, order: Order::Eavt, kind, batches, height, in_all_orders: false, is_harmed: true }
}

/// Trees of one to three levels, the higher ones with pending datoms above the leaves.
fn planted() -> Vec<Planted> {
    vec![
        plant(256, Kind::Counted, &[3, 1], 1),
        plant(256, Kind::Mixed, &[60, 3, 2], 3),
        plant(568, Kind::Strings, &[128, 128, 4], 3),
        plant(4096, Kind::Integers, &[120, 3], 2),
    ]
}

/// The same in pages of 8192 bytes.
fn planted_wide() -> Vec<Planted> {
    vec![plant(8192, Kind::Mixed, &[128, 100, 3], 2)]
}

/// Trees with constants of a heap, at all sizes.
fn planted_long() -> Vec<Planted> {
    vec![
        plant(256, Kind::LongMixed, &[60, 3, 2], 3),
        plant(568, Kind::LongStrings, &[128, 128, 4], 3),
        plant(4096, Kind::LongIntegers, &[120, 3], 2),
        plant(8192, Kind::LongMixed, &[128, 100, 3], 2),
    ]
}

fn shapes() -> Vec<Shape> {
    let mut shapes = single_batches();
    shapes.extend(growing());
    shapes.extend(agreeing());
    shapes.extend(deep());
    shapes.extend(damaged());
    shapes
}

fn around(page_size: usize) -> &'static [usize] {
    match page_size {
        256 => AROUND_256,
        568 => AROUND_568,
        4096 => AROUND_4096,
        _ => AROUND_8192,
    }
}

impl Shape {
    /// With so many batches more, in sizes at which no split has a remainder, and so much damage at the end.
    fn agreeing(self, inserts: usize, damages: usize) -> Shape {
        Shape { inserts, agreeing: true, damages, ..self }
    }

    /// With so many batches more, and so much damage at the end.
    fn damaged(self, inserts: usize, damages: usize) -> Shape {
        Shape { inserts, damages, ..self }
    }
}

/// A history of one batch, from which the others are varied.
fn one_batch(page_size: usize, kind: Kind, plan: Plan, first: usize) -> Shape {
    Shape {
        page_size,
        order: Order::Eavt,
        kind,
        plan,
        supply: 1500,
        first,
        inserts: 0,
        sizes: around(page_size),
        agreeing: false,
        branching: true,
        raw: true,
        look_every: 1,
        damages: 0,
    }
}

/// Every size of first batch around the splits.
fn single_batches() -> Vec<Shape> {
    let up_to_three_levels = (0..=50).chain([63, 64, 127, 128]).map(|n| (256, n));
    let around_568 = [0, 1, 12, 13, 14, 15, 16, 26, 27, 28, 29, 39, 40, 41, 64, 103, 127, 128].map(|n| (568, n));
    let around_4096 = [0, 1, 101, 102, 103, 104, 105, 127, 128].map(|n| (4096, n));
    up_to_three_levels.chain(around_568).chain(around_4096).enumerate()
        .map(|(i, (page_size, n))| one_batch(page_size, KINDS[i % KINDS.len()], PLANS[i % PLANS.len()], n))
        .collect()
}

/// Histories of every kind and plan. The first batch splits without a remainder, the later ones as it comes.
fn growing() -> Vec<Shape> {
    let mut shapes = Vec::new();
    for (i, &kind) in KINDS.iter().enumerate() {
        for (j, &plan) in PLANS.iter().enumerate() {
            shapes.push(Shape { inserts: 7, ..one_batch(256, kind, plan, 7) });
            if (i + j) % 2 == 0 {
                shapes.push(Shape { inserts: 5, ..one_batch(568, kind, plan, 15) });
            }
            if (i + j) % 4 == 0 {
                shapes.push(Shape { inserts: 3, ..one_batch(4096, kind, plan, 103) });
            }
        }
    }
    shapes
}

/// Histories without a remainder in any split, so that the plain oracle goes all the way.
fn agreeing() -> Vec<Shape> {
    vec![
        one_batch(256, Kind::Counted, Plan::Ascending, 7).agreeing(20, 0),
        one_batch(256, Kind::Strings, Plan::Scattered, 11).agreeing(16, 20),
        one_batch(256, Kind::Mixed, Plan::Clustered, 47).agreeing(16, 20),
        one_batch(256, Kind::Integers, Plan::Descending, 7).agreeing(16, 20),
        one_batch(568, Kind::Mixed, Plan::Scattered, 15).agreeing(10, 20),
        one_batch(568, Kind::Strings, Plan::Ascending, 25).agreeing(10, 0),
        one_batch(568, Kind::LastWords, Plan::Clustered, 17).agreeing(10, 20),
        one_batch(4096, Kind::Mixed, Plan::Scattered, 103).agreeing(4, 5),
        one_batch(4096, Kind::Strings, Plan::Ascending, 105).agreeing(4, 0),
    ]
}

/// Higher trees, by digest.
fn deep() -> Vec<Shape> {
    let deep = |page_size, kind, plan, sizes, inserts| Shape {
        supply: 9_000,
        inserts,
        sizes,
        branching: false,
        raw: false,
        damages: 30,
        ..one_batch(page_size, kind, plan, sizes[0])
    };
    vec![
        Shape { agreeing: true, look_every: 8, ..deep(256, Kind::Counted, Plan::Ascending, &[7, 1, 2, 3, 4, 5, 6, 8], 500) },
        deep(256, Kind::Mixed, Plan::Scattered, &[128], 17),
        deep(256, Kind::Strings, Plan::Descending, &[128], 33),
        deep(568, Kind::Integers, Plan::Clustered, &[128], 17),
        Shape { damages: 0, look_every: 3, ..deep(4096, Kind::Mixed, Plan::Ascending, &[120], 72) },
    ]
}

/// Trees of two and three levels, then damaged.
fn damaged() -> Vec<Shape> {
    let scattered = |page_size, kind, first| one_batch(page_size, kind, Plan::Scattered, first);
    vec![
        scattered(256, Kind::Counted, 7).damaged(2, 40),
        scattered(256, Kind::Mixed, 47).damaged(2, 60),
        scattered(256, Kind::Strings, 128).damaged(2, 60),
        scattered(256, Kind::LastWords, 35).damaged(3, 60),
        scattered(568, Kind::Mixed, 29).damaged(2, 30),
        scattered(568, Kind::Strings, 128).damaged(2, 30),
        scattered(4096, Kind::Integers, 128).damaged(1, 8),
    ]
}

/// Pages of 8192 bytes. No single batch splits one, so the trees around one and two pages' worth are grown to their size.
fn wide() -> Vec<Shape> {
    let one = |i: usize, first| one_batch(8192, KINDS[i % KINDS.len()], PLANS[i % PLANS.len()], first);
    let single = [0, 1, 127, 128].into_iter().enumerate().map(|(i, n)| one(i, n));
    let around = GROWN_8192.into_iter().enumerate()
        .map(|(i, (first, inserts, sizes))| Shape { inserts, sizes, branching: false, ..one(i, first) });
    let growing = (0..8).map(|i| Shape { inserts: 12, raw: false, look_every: 2, ..one(i, 128) });
    let agreeing = [Kind::Mixed, Kind::Strings].into_iter().map(|kind| {
        Shape { inserts: 6, agreeing: true, raw: false, damages: 4, ..one_batch(8192, kind, Plan::Scattered, 128) }
    });
    let mut shapes: Vec<Shape> = single.chain(around).chain(growing).chain(agreeing).collect();
    shapes.push(Shape { supply: 9_000, inserts: 60, sizes: &[128], branching: false, raw: false, look_every: 6, ..one(3, 128) });
    shapes.push(Shape { inserts: 3, raw: false, damages: 12, ..one_batch(8192, Kind::Integers, Plan::Scattered, 128) });
    shapes
}

/// Long values at every page size: growth of every kind and plan, histories in which both oracles answer to the end, a high tree, and
/// damaged ones. The supply is small, so that the heap is.
fn long() -> Vec<Shape> {
    let one = |page_size, kind, plan, first| Shape { supply: 500, raw: page_size < 4096, ..one_batch(page_size, kind, plan, first) };
    let mut shapes = Vec::new();
    for (i, &kind) in LONG_KINDS.iter().enumerate() {
        for (j, &plan) in PLANS.iter().enumerate() {
            shapes.push(Shape { inserts: 5, ..one(256, kind, plan, 7) });
            shapes.push(match (i + j) % 3 {
                0 => Shape { inserts: 4, ..one(568, kind, plan, 15) },
                1 => Shape { inserts: 3, ..one(4096, kind, plan, 103) },
                _ => Shape { inserts: 4, ..one(8192, kind, plan, 128) },
            });
        }
    }
    let scattered = |page_size, kind, first| one(page_size, kind, Plan::Scattered, first);
    shapes.extend([
        scattered(256, Kind::LongMixed, 11).agreeing(12, 16),
        scattered(256, Kind::LongStrings, 47).agreeing(8, 16),
        scattered(568, Kind::LongStrings, 15).agreeing(8, 12),
        scattered(4096, Kind::LongMixed, 103).agreeing(3, 4),
    ]);
    shapes.push(Shape { supply: 1500, inserts: 9, sizes: &[128], raw: false, ..one(256, Kind::LongMixed, Plan::Scattered, 128) });
    shapes.extend([
        scattered(256, Kind::LongStrings, 47).damaged(2, 30),
        scattered(256, Kind::LongIntegers, 35).damaged(2, 20),
        scattered(568, Kind::LongMixed, 29).damaged(2, 16),
        scattered(8192, Kind::LongMixed, 128).damaged(2, 4),
    ]);
    shapes
}

/// The two further orders at every page size: growth of every kind, by plans in turns, histories in which both oracles answer to the end,
/// high trees, and damaged ones.
fn ordered() -> Vec<Shape> {
    [Order::Aevt, Order::Avet].into_iter().enumerate().flat_map(|(i, order)| {
        ordered_shapes(i).into_iter().map(move |shape| Shape { order, ..shape })
    }).collect()
}

/// In the first order, to be put into another; the plans are turned by so many places.
fn ordered_shapes(turn: usize) -> Vec<Shape> {
    let one = |page_size, kind, plan, first| Shape { supply: 500, raw: page_size == 256, ..one_batch(page_size, kind, plan, first) };
    let kinds = KINDS.into_iter().chain(LONG_KINDS).enumerate();
    let mut shapes: Vec<Shape> = kinds.flat_map(|(i, kind)| {
        let plan = |more: usize| PLANS[(i + turn + more) % PLANS.len()];
        let wider = match i % 3 {
            0 => Shape { inserts: 4, ..one(568, kind, plan(1), 15) },
            1 => Shape { inserts: 4, ..one(4096, kind, plan(1), 103) },
            _ => Shape { inserts: 4, ..one(8192, kind, plan(1), 128) },
        };
        [Shape { inserts: 5, ..one(256, kind, plan(0), 7) }, wider]
    }).collect();
    let scattered = |page_size, kind, first| one(page_size, kind, Plan::Scattered, first);
    shapes.extend([
        scattered(256, Kind::Integers, 11).agreeing(10, 16),
        scattered(256, Kind::LongMixed, 47).agreeing(6, 12),
        scattered(568, Kind::Mixed, 15).agreeing(6, 8),
        scattered(4096, Kind::Mixed, 103).agreeing(3, 2),
        scattered(8192, Kind::Integers, 128).agreeing(3, 2),
    ]);
    let deep = |page_size, kind, plan| Shape { supply: 3000, inserts: 9, sizes: &[128], raw: false, ..one(page_size, kind, plan, 128) };
    shapes.extend([deep(256, Kind::Mixed, Plan::Scattered), deep(568, Kind::Integers, Plan::Clustered)]);
    shapes.extend([scattered(256, Kind::Mixed, 47).damaged(2, 30), scattered(568, Kind::LongStrings, 29).damaged(2, 12)]);
    shapes
}

/// Trees for the names of faults that are read in all orders, and in those that there are not, at every page size. Those of small pages are
/// damaged, too.
fn planted_ordered() -> Vec<Planted> {
    let all = |order, planted: Planted| Planted { order, in_all_orders: true, is_harmed: planted.page_size < 4096 && order != Order::Eavt, ..planted };
    Order::ALL.into_iter().flat_map(|order| [
        all(order, plant(256, Kind::LongMixed, &[60, 3, 2], 3)),
        all(order, plant(568, Kind::Integers, &[120, 3], 2)),
        all(order, plant(4096, Kind::Mixed, &[120, 3], 2)),
        all(order, plant(8192, Kind::LongStrings, &[128, 100, 3], 2)),
    ]).collect()
}
