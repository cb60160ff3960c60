//! One call answered by each side, the answers and the buffers compared and counted.

use crate::answers::{Answers, Situation};
use crate::defined::Known;
use crate::passed;
use second::call::{self, hex, in_words, low, middle, number, Call, Operation};
use second::Reason;
use std::process;

/// How many places before and after an output buffer are watched.
const GUARD: usize = 9;

/// How many calls there were and how many answers were compared, for one kind of input.
#[derive(Default)]
struct Counts {
    kind: &'static str,
    calls: usize,
    library: usize,
    definition: usize,
    law: usize,
    document: usize,
}

/// Output buffers, each with a guard at either end.
#[derive(Clone, PartialEq)]
struct Buffers {
    bytes: Vec<u8>,
    entries: Vec<u16>,
}

/// An answer, and the buffers after it.
#[derive(PartialEq)]
struct Outcome {
    answer: u64,
    buffers: Buffers,
}

/// An answer, and the result that was written with it.
#[derive(PartialEq)]
pub struct Written {
    pub answer: u64,
    pub bytes: Vec<u8>,
    pub entries: Vec<u16>,
}

/// The comparison so far.
pub struct Comparison {
    seed: u64,
    case: &'static str,
    counts: Vec<Counts>,
    answers: Answers,
    known: Known,
}

/// How many bytes and how many entries of a length belong to the output of an operation.
fn lengths(operation: Operation, length: usize) -> (usize, usize) {
    match operation {
        Operation::Compile | Operation::Sheet | Operation::Dearest => (length, 0),
        Operation::Expand | Operation::Contract => (0, length),
        _ => (0, 0),
    }
}

impl Buffers {
    /// Buffers with room for a call's output, filled with a pattern.
    fn for_call(call: &Call, room: usize) -> Buffers {
        let (bytes, entries) = lengths(call.operation, room);
        Buffers {
            bytes: (0..bytes + 2 * GUARD).map(|i| 0xa5 ^ (i * 29) as u8).collect(),
            entries: (0..entries + 2 * GUARD).map(|i| 0xa5c3 ^ (i * 2_909) as u16).collect(),
        }
    }

    /// What comes of these buffers if a tool is lent what lies between the guards.
    fn lent(&self, tool: call::Tool, call: &Call) -> Outcome {
        let mut buffers = self.clone();
        let bytes = GUARD..self.bytes.len() - GUARD;
        let entries = GUARD..self.entries.len() - GUARD;
        let answer = tool(call, &mut buffers.bytes[bytes], &mut buffers.entries[entries]);
        Outcome { answer, buffers }
    }

    /// What comes of these buffers if a result is written at their front, and nothing else.
    fn holding(&self, written: &Written) -> Outcome {
        let mut buffers = self.clone();
        buffers.bytes[GUARD..][..written.bytes.len()].copy_from_slice(&written.bytes);
        buffers.entries[GUARD..][..written.entries.len()].copy_from_slice(&written.entries);
        Outcome { answer: written.answer, buffers }
    }
}

impl Outcome {
    /// The result at the front of the buffers, as long as the answer says.
    fn written(&self, call: &Call) -> Written {
        let length = if number(self.answer) == 0 { middle(self.answer) } else { 0 };
        let (bytes, entries) = lengths(call.operation, length);
        Written {
            answer: self.answer,
            bytes: self.buffers.bytes[GUARD..][..bytes].to_vec(),
            entries: self.buffers.entries[GUARD..][..entries].to_vec(),
        }
    }

    /// The answer and the buffers, in words and in hexadecimal.
    fn shown(&self) -> String {
        let entries: Vec<u8> = self.buffers.entries.iter().flat_map(|entry| entry.to_le_bytes()).collect();
        let (answer, words) = (self.answer, in_words(self.answer));
        format!("{answer:016x}, {words}\n  bytes {}\n  entries {}", hex(&self.buffers.bytes), hex(&entries))
    }
}

impl Comparison {
    /// Nothing compared yet.
    pub fn new() -> Comparison {
        Comparison { seed: 0, case: "", counts: Vec::new(), answers: Answers::default(), known: Known::default() }
    }

    /// Begins a kind of input.
    pub fn kind(&mut self, kind: &'static str) {
        self.counts.push(Counts { kind, ..Counts::default() });
        self.case = "";
        self.seed(0);
    }

    /// Notes the seed that the next inputs are made from.
    pub fn seed(&mut self, seed: u64) {
        self.seed = seed;
    }

    /// The answer to a call that writes nothing, or that has no room to write.
    pub fn answer(&mut self, call: &Call) -> u64 {
        self.with_room(call, 0).answer
    }

    /// The answer to a call with an output buffer of a length, compared with the library's and with the definition's.
    pub fn with_room(&mut self, call: &Call, room: usize) -> Written {
        let before = Buffers::for_call(call, room);
        let outcome = before.lent(call::second, call);
        let written = outcome.written(call);
        self.count().calls += 1;
        self.answers.given(call.operation, outcome.answer);
        self.same("what is beyond the result is kept", call, &outcome, &before.holding(&written));
        #[cfg(feature = "library")]
        {
            self.count().library += 1;
            self.same("the library", call, &outcome, &before.lent(second::library::library, call));
        }
        if let Some(defined) = self.known.defined(call, room) {
            self.count().definition += 1;
            self.same("the definition", call, &outcome, &before.holding(&defined));
        }
        if let (0, Some(task)) = (number(outcome.answer), self.known.task()) {
            for situation in passed::situations(call, task, middle(outcome.answer)) {
                self.answers.met(situation);
            }
        }
        written
    }

    /// The answer to a call with buffers of every interesting length, and what it writes where there is room.
    pub fn every_room(&mut self, call: &Call) -> Written {
        let first = self.with_room(call, 0);
        if number(first.answer) != Reason::BufferTooShort as u8 {
            let more = self.with_room(call, 5);
            self.law("more room, same answer", call, first.answer, more.answer);
            return more;
        }
        let needed = low(first.answer) as usize;
        let short = self.with_room(call, needed - 1);
        self.law("less room, same answer", call, first.answer, short.answer);
        let exact = self.with_room(call, needed);
        self.law("as long as needed", call, needed as u64, middle(exact.answer) as u64);
        for more in [1, 7, 300] {
            let longer = self.with_room(call, needed + more);
            self.law("more room, same answer", call, exact.answer, longer.answer);
        }
        exact
    }

    /// Sees that an answer is what a law says.
    pub fn law(&mut self, law: &'static str, call: &Call, wanted: u64, found: u64) {
        self.count().law += 1;
        if wanted != found {
            let outcome = |answer| Outcome { answer, buffers: Buffers::for_call(call, 0) };
            self.same(law, call, &outcome(found), &outcome(wanted));
        }
    }

    /// Notes a situation that was met.
    pub fn met(&mut self, situation: Situation) {
        self.answers.met(situation);
    }

    /// Sees that a call is answered, and a result written, as the document says.
    pub fn document(&mut self, case: &'static str, call: &Call, room: usize, wanted: Written) {
        self.case = case;
        let found = self.with_room(call, room);
        self.count().document += 1;
        let before = Buffers::for_call(call, room);
        self.same("the document", call, &before.holding(&found), &before.holding(&wanted));
    }

    /// The counts of the kind of input that is under way.
    fn count(&mut self) -> &mut Counts {
        self.counts.last_mut().expect("a kind of input has begun")
    }

    /// Ends the run with a report if two outcomes differ.
    fn same(&self, against: &str, call: &Call, outcome: &Outcome, other: &Outcome) {
        if outcome == other {
            return;
        }
        let kind = self.counts.last().map_or("", |counts| counts.kind);
        eprintln!("difference; compared with: {against}; kind: {kind}; seed: {}; case: {}", self.seed, self.case);
        eprintln!("{call}\nsecond: {}\nother: {}", outcome.shown(), other.shown());
        process::exit(1);
    }

    /// Prints, for each kind of input, how many calls were answered and what the answers were compared with.
    pub fn print_counts(&self) {
        let mut all = [0; 5];
        println!("{:<48}    calls  library  definition     laws  document", "kind of input");
        for counts in &self.counts {
            let row = [counts.calls, counts.library, counts.definition, counts.law, counts.document];
            print_row(counts.kind, &row);
            for (sum, count) in all.iter_mut().zip(row) {
                *sum += count;
            }
        }
        print_row("all", &all);
        println!("comparisons: {}", all[1..].iter().sum::<usize>());
    }

    /// Prints how often each operation gave each kind of answer, and how often each situation was met.
    pub fn print_answers(&self) {
        self.answers.print();
    }

    /// Ends the run with a report if an answer was never given, or a situation never met.
    pub fn nothing_missing(&self) {
        let missing = self.answers.missing();
        if !missing.is_empty() {
            eprintln!("not seen: {}", missing.join("; "));
            process::exit(1);
        }
    }
}

/// Prints a row of counts.
fn print_row(name: &str, [calls, library, definition, laws, document]: &[usize; 5]) {
    println!("{name:<48}{calls:>9}{library:>9}{definition:>12}{laws:>9}{document:>10}");
}
