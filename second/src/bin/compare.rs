//! `compare [SEED]`: compares the board with the model, prints a table and, last, `N passed, M failed`.

use second::comparison::Comparison;
use second::parts::{
    by_hand, cards, columns, orders, plain_agrees, prices, refusals, runs, verdicts,
};
use std::process::ExitCode;
use std::time::Instant;

type Part = fn(&mut Comparison);

const SEED: u64 = 20_011;

fn main() -> ExitCode {
    let seed = match std::env::args().nth(1).map(|given| given.parse()) {
        None => SEED,
        Some(Ok(seed)) => seed,
        Some(Err(_)) => {
            eprintln!("usage: compare [SEED], a whole number");
            return ExitCode::from(2);
        }
    };
    println!("seed {seed}");
    let mut comparison = Comparison::new(seed);
    let parts: [(&str, Part); 9] = [
        ("frames tried by hand", by_hand::compare),
        ("orders", orders::compare),
        ("dependent columns", columns::compare),
        ("refusals", refusals::compare),
        ("verdicts", verdicts::compare),
        ("runs", runs::compare),
        ("cards", cards::compare),
        ("prices", prices::compare),
        ("plain tools", plain_agrees::compare),
    ];
    for (name, compare) in parts {
        let start = Instant::now();
        compare(&mut comparison);
        println!("{name}: {:.1} s", start.elapsed().as_secs_f64());
    }
    println!();
    match comparison.report() {
        true => ExitCode::SUCCESS,
        false => ExitCode::FAILURE,
    }
}
