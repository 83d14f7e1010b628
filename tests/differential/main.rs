//! The library's C entries against both builds of the Rust, over random histories.

mod examples;
mod history;
mod library;
mod model;
mod names;
mod orders;
mod reader;
mod store;
mod tally;
mod tall;

use std::time::{Duration, Instant};
use std::{env, fs, process};

use harness::{By, Kind, Order, Plan, Random, PAGE_SIZES};
use history::{History, Shape};
use names::Names;
use tally::{Asking, Tally, NUMBERS};

/// Where the calls that show a difference go.
const TRANSCRIPT: &str = "build/differential/difference.txt";

/// How many histories of each small shape are tried for a smaller input, and for how long at most.
const SMALLER_SEEDS: u64 = 60;
const SMALLER_FOR: Duration = Duration::from_secs(20);

/// From so many batches on the tallest tree is built, too.
const TALL_FROM: u64 = 50_000;

/// One in so many histories of the widest pages begins with so many batches of 128, ascending ones enough for a third level.
const PLANTED_EVERY: usize = 6;
const PLANTED: usize = 240;

/// From so many batches on each call must have given each name that it can give, and each number must have been given.
const NAMED_FROM: u64 = 2_000;

/// About half of the histories have long values.
const KINDS: [Kind; 9] = [
    Kind::Counted, Kind::Integers, Kind::Strings, Kind::LastWords, Kind::Mixed, Kind::LongStrings, Kind::LongIntegers, Kind::LongMixed,
    Kind::LongMixed,
];

fn main() {
    let number = |i: usize, name: &str| -> u64 {
        let word = env::args().nth(i).unwrap_or_else(|| panic!("usage: differential BATCHES SEED"));
        word.parse().unwrap_or_else(|_| panic!("{} is a number, not {}", name, word))
    };
    let (batches, seed) = (number(1, "BATCHES"), number(2, "SEED"));
    let mut random = Random::new(seed);
    let started = Instant::now();
    tell(examples::run(&mut Random::new(seed)), "document 01's examples");
    let mut tallies = PAGE_SIZES.map(|_| Tally::default());
    let share = batches.div_ceil(PAGE_SIZES.len() as u64);
    // The sizes take turns, and the first histories are short: the first difference is a small one.
    let mut turn = 0;
    while tallies.iter().any(|tally| tally.batches < share) {
        for (&page_size, tally) in PAGE_SIZES.iter().zip(&mut tallies) {
            if tally.batches < share {
                let shape = shape(page_size, turn, &mut random);
                run(shape, random.word(), tally);
            }
        }
        turn += 1;
    }
    for (page_size, tally) in PAGE_SIZES.iter().zip(&tallies) {
        println!("{} bytes a page", page_size);
        println!("{}", tally);
    }
    tell(names(&tallies, batches), "names of faults");
    tell(numbers(&tallies, batches), "refusals");
    tell(orders(&tallies, batches), "orders");
    tell(orders::run(&mut Random::new(seed)), "one set in three stores");
    if batches >= TALL_FROM {
        tell(tall::run(&mut Random::new(seed)), "the tallest tree, ascending batches of four");
    }
    let sum = |of: fn(&Tally) -> u64| tallies.iter().map(of).sum::<u64>();
    println!(
        "no difference: {} batches, {} datoms, {} pages, {} refusals, {} listings, {} names of faults; seed {}, {:.0} s",
        sum(|t| t.batches), sum(|t| t.datoms), sum(|t| t.pages), sum(|t| t.answers[1..].iter().sum()), sum(|t| t.listings),
        sum(|t| t.names.total()), seed, started.elapsed().as_secs_f64(),
    );
}

/// How often each call gave each name, at all page sizes. In a long run a name that never came up is an error, so that no change of the
/// damage done leaves one out unseen.
fn names(tallies: &[Tally], batches: u64) -> Result<String, String> {
    let mut all = Names::default();
    tallies.iter().for_each(|tally| all.add_all(&tally.names));
    match all.missing() {
        missing if batches >= NAMED_FROM && !missing.is_empty() => Err(format!("never given: {}", missing.join(", "))),
        _ => Ok(format!("{} faults named\n{}", all.total(), all)),
    }
}

/// In a long run each of the refusals must have been given but TooTall, which the tallest tree comes to, and constants must have been
/// appended, named by other words, spoiled and left out.
fn numbers(tallies: &[Tally], batches: u64) -> Result<String, String> {
    const TOO_TALL: usize = 8;
    let sum = |of: &dyn Fn(&Tally) -> u64| tallies.iter().map(of).sum::<u64>();
    let numbers: Vec<u64> = (1..NUMBERS).map(|number| sum(&|tally| tally.answers[number])).collect();
    let mut never: Vec<String> = (1..NUMBERS).filter(|&i| i != TOO_TALL && numbers[i - 1] == 0).map(|i| format!("number {}", i)).collect();
    let counts: [(&str, u64); 5] = [
        ("batches with long values", sum(&|tally| tally.with_long)), ("constants", sum(&|tally| tally.appended)), ("other words", sum(&|tally| tally.other_words)),
        ("spoiled constants", sum(&|tally| tally.spoiled)), ("other heap lengths", sum(&|tally| tally.other_lengths)),
    ];
    never.extend(counts.iter().filter(|(_, count)| *count == 0).map(|(name, _)| name.to_string()));
    match never {
        never if batches >= NAMED_FROM && !never.is_empty() => Err(format!("never: {}", never.join(", "))),
        _ => Ok(format!("{} refusals; {:?}", numbers.iter().sum::<u64>(), counts)),
    }
}

/// In a long run each order must have had batches at each page size, have been read in where another was written in, and each call that looks at
/// the order must have refused one that there is not.
fn orders(tallies: &[Tally], batches: u64) -> Result<String, String> {
    let mut never = Vec::new();
    for (page_size, tally) in PAGE_SIZES.iter().zip(tallies) {
        for order in Order::ALL {
            let counts = [("batch", tally.orders[order as usize]), ("reading of another order", tally.other_orders[order as usize])];
            let missing = counts.iter().filter(|(_, count)| *count == 0);
            never.extend(missing.map(|(what, _)| format!("a {} in {} with pages of {} bytes", what, order.name(), page_size)));
        }
    }
    let refused = Asking::IN_ORDER.map(|asking| tallies.iter().map(|tally| tally.bad_orders[asking as usize]).sum::<u64>());
    let unrefused = Asking::IN_ORDER.into_iter().zip(refused).filter(|(_, count)| *count == 0);
    never.extend(unrefused.map(|(asking, _)| format!("13 by {:?}", asking)));
    match never {
        never if batches >= NAMED_FROM && !never.is_empty() => Err(format!("never: {}", never.join(", "))),
        _ => Ok(format!("13 given by {:?}: {:?}", Asking::IN_ORDER, refused)),
    }
}

/// Says what was compared, or ends with the difference.
fn tell(outcome: Result<String, String>, name: &str) {
    match outcome {
        Ok(told) => println!("{}", told),
        Err(fault) => {
            println!("DIFFERENCE: {}: {}", name, fault);
            process::exit(1);
        }
    }
}

fn run(shape: Shape, seed: u64, tally: &mut Tally) {
    let mut history = History::new(shape, seed, tally);
    if let Err(fault) = history.run() {
        println!("DIFFERENCE: {}", fault);
        println!("in {:?}, seed {}", shape, seed);
        let transcript = match smaller(shape) {
            Some((fault, transcript)) => {
                println!("a smaller input that shows one: {}", fault);
                transcript
            }
            None => history.transcript(),
        };
        let lines: Vec<&str> = transcript.lines().collect();
        // The whole if it is short, else its end.
        for line in &lines[lines.len().saturating_sub(12)..] {
            println!("{}", line);
        }
        fs::write(TRANSCRIPT, &transcript).unwrap_or_else(|error| panic!("{}: {}", TRANSCRIPT, error));
        println!("all {} lines, as commands of build/oracle/oracle run: {}", lines.len(), TRANSCRIPT);
        process::exit(1);
    }
}

/// The first difference in histories of few and small batches, the smallest first: what it is, and the input that shows it.
fn smaller(shape: Shape) -> Option<(String, String)> {
    let started = Instant::now();
    for (batches, largest) in [(1, 1), (1, 8), (2, 8), (1, 32), (3, 8), (4, 16), (2, 128), (6, 16), (10, 32)] {
        for seed in 0..SMALLER_SEEDS {
            if started.elapsed() > SMALLER_FOR {
                return None;
            }
            let smaller = Shape { batches, largest, supply: 40 + 2 * batches * largest, planted: 0, cutting: 1, ..shape };
            let mut tally = Tally::default();
            let mut history = History::new(smaller, seed, &mut tally);
            if let Err(fault) = history.run() {
                return Some((fault, history.transcript()));
            }
        }
    }
    None
}

fn shape(page_size: usize, turn: usize, random: &mut Random) -> Shape {
    let planted = if page_size == 8192 && turn >= 50 && random.one_in(PLANTED_EVERY) { PLANTED } else { 0 };
    let batches = match turn {
        0..50 => 2 + turn / 4,
        _ if planted > 0 => 60,
        _ => random.pick(&[20, 60, 150, 400, 800]),
    };
    let largest = random.pick(&[1, 4, 8, 32, 64, 128, 128]);
    let room = match page_size {
        4096 => random.pick(&[1 << 20, 4 << 20, 8 << 20]),
        8192 if planted > 0 => 32 << 20,
        8192 => random.pick(&[1 << 20, 8 << 20, 24 << 20]),
        _ => random.pick(&[1 << 19, 1 << 20, 4 << 20]),
    };
    Shape {
        page_size,
        kind: random.pick(&KINDS),
        plan: random.pick(&[Plan::Ascending, Plan::Descending, Plan::Scattered, Plan::Scattered, Plan::Clustered]),
        order: random.pick(&Order::ALL),
        by: random.pick(&[By::Noblit, By::Rule]),
        supply: 200 + planted * 128 + batches * (largest / 2 + 6),
        planted,
        batches,
        largest,
        room,
        agreeing: random.one_in(3),
        restarting: random.pick(&[30, 200, 5000]),
        branching: random.pick(&[3, 8, 30, 300]),
        cutting: random.pick(&[1, 3, 6]),
    }
}
