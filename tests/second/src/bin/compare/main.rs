//! Compares the second implementation with the library (feature `library`), with the document's definitions and laws, and with its written-out cases.
//! The first difference is reported with its seed and input and ends the run with exit code 1, and so does an answer never given or a situation never met.
//!
//! usage: compare            compare
//!        compare charges    compare the charges for all sums, and nothing else

mod answers;
mod blank;
mod charge;
mod comparison;
mod dearest;
mod defined;
mod document;
mod exercise;
mod kinds;
mod passed;
mod relaxed;
mod sheet;

use comparison::Comparison;
use std::env;
use std::time::Instant;

fn main() {
    match env::args().nth(1).as_deref() {
        None => every_kind(),
        Some("charges") => println!("charges compared: {}", charge::every_sum()),
        Some(argument) => panic!("no such argument: {argument}"),
    }
}

/// Goes through every kind of input and prints how many answers were compared.
fn every_kind() {
    let start = Instant::now();
    let mut comparison = Comparison::new();
    document::cases(&mut comparison);
    blank::cases(&mut comparison);
    sheet::cases(&mut comparison);
    dearest::cases(&mut comparison);
    kinds::tasks(&mut comparison);
    kinds::limits(&mut comparison);
    kinds::tiny_tasks(&mut comparison);
    kinds::layers(&mut comparison);
    kinds::relaxed_costs(&mut comparison);
    kinds::estimates(&mut comparison);
    kinds::probes(&mut comparison);
    kinds::long_lists(&mut comparison);
    kinds::damaged_files(&mut comparison);
    let charges = charge::cases();
    comparison.print_answers();
    println!();
    comparison.print_counts();
    println!("charges compared: {charges}");
    println!("seconds: {:.1}", start.elapsed().as_secs_f64());
    comparison.nothing_missing();
}
