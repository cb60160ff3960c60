//! Compares the values that the proved program `value_runs` finds in partial states with those of the second implementation: at every offset of the document's
//! task, of the longest one and of random bytes. The first difference is reported with the bytes and ends the run with exit code 1.
//!
//! usage: values PROGRAM    compare
//!        values < FILE     write what the program has to write

use second::generate::Random;
use second::parts::PartialState;
use second::special;
use std::env;
use std::fmt::Write as _;
use std::io::{self, Read, Write};
use std::process::{self, Command, Stdio};

/// How many files of random bytes there are.
const SEEDS: u64 = 400;

fn main() {
    match env::args().nth(1) {
        Some(program) => compare(&program),
        None => {
            let mut file = Vec::new();
            io::stdin().read_to_end(&mut file).expect("standard input can be read");
            print!("{}", values(&file));
        }
    }
}

/// Goes through all files, and prints how many partial states were looked at.
fn compare(program: &str) {
    let known = [special::task_p().bytes(), special::longest_task().bytes()];
    let random = (0..SEEDS).map(|seed| random_bytes(&mut Random::new(seed)));
    let mut states = 0;
    for file in known.into_iter().chain(random) {
        let (wanted, found) = (values(&file), run(program, &file));
        if wanted != found {
            eprintln!("difference: {file:02x?}\nsecond:\n{wanted}\nprogram:\n{found}");
            process::exit(1);
        }
        states += file.len() + 1;
    }
    println!("partial states whose values were compared: {states}");
}

/// Bytes of which some or many are 0, so that maps have few standing bits or many; up to 300 of them.
fn random_bytes(random: &mut Random) -> Vec<u8> {
    let zeros = random.below(101);
    let length = random.below(301);
    (0..length).map(|_| if random.chance(zeros) { 0 } else { random.below(256) as u8 }).collect()
}

/// A line for each offset of a file, with the values that a partial state there has.
fn values(file: &[u8]) -> String {
    let mut text = String::new();
    for at in 0..=file.len() {
        for (variable, value) in facts_at(file, at) {
            write!(text, " {variable}={value}").expect("a text takes what is written");
        }
        text.push('\n');
    }
    text
}

/// The facts of a partial state at an offset: none if the file ends inside its map, and no more than there are values in the file.
fn facts_at(file: &[u8], at: usize) -> Vec<(usize, u8)> {
    let Some((map, rest)) = file[at..].split_first_chunk() else {
        return Vec::new();
    };
    let map = u64::from_le_bytes(*map);
    let count = rest.len().min(map.count_ones() as usize);
    PartialState { map, values: &rest[..count] }.facts().collect()
}

/// What the program writes for a file on standard input.
fn run(program: &str, file: &[u8]) -> String {
    let mut child =
        Command::new(program).stdin(Stdio::piped()).stdout(Stdio::piped()).spawn().expect("the program can be started");
    child.stdin.take().expect("it has a standard input").write_all(file).expect("it reads all of it");
    let output = child.wait_with_output().expect("it ends");
    String::from_utf8(output.stdout).expect("it writes text")
}
