//! The oracle's driver: runs both builds of noblit's tree by command, and records their answers.

#[path = "../../differential/history/breaking.rs"]
mod breaking;
mod harm;
mod history;
mod judge;
#[path = "../../differential/model.rs"]
mod model;
#[allow(dead_code)]
#[path = "../../differential/names.rs"]
mod names;
mod naming;
mod record;
mod recording;
mod replay;
mod run;
mod selftest;
mod text;

use std::env;
use std::process::exit;

const USAGE: &str = "usage:
  oracle run [--echo]   answer the commands on standard input
  oracle selftest       compare noblit's orders and heap with those written to the documents, and the format of records with its text
  oracle record FILE    record the fixed list of answers, behind it those with names of faults, both with long values, and both in the further orders
  oracle replay FILE    replay a recorded list on both oracles, and the names of faults on the model";

fn main() {
    let arguments: Vec<String> = env::args().skip(1).collect();
    let words: Vec<&str> = arguments.iter().map(String::as_str).collect();
    let outcome = match words[..] {
        ["run"] => run::run(false),
        ["run", "--echo"] => run::run(true),
        ["selftest"] => selftest::selftest(),
        ["record", file] => record::record(file),
        ["replay", file] => replay::replay(file),
        _ => Err(USAGE.to_string()),
    };
    if let Err(problem) = outcome {
        eprintln!("oracle: {}", problem);
        exit(1);
    }
}
