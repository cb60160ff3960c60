//! How often each operation gave each answer, and how often each situation was met; none may be missing.

use second::call::{middle, number, Operation};

/// The operations, in the order of their numbers, and the answers that each has.
const OPERATIONS: [(Operation, &str); 13] = [
    (Operation::CheckTask, "success 1 2 3 4 5 6"),
    (Operation::CheckProbe, "success 1 2 3 4 5"),
    (Operation::Cost, "success 1 2 3 4 5 6 11 12"),
    (Operation::RelaxedCost, "success 1 2 3 4 5 6 11 12 17"),
    (Operation::RunTask, "success 1 2 3 4 5 6 8 9 10 11"),
    (Operation::RunProbe, "success 1 2 3 4 5 8 9 10 11"),
    (Operation::EstimateTask, "success over never 1 2 3 4 5 6 12"),
    (Operation::EstimateProbe, "success over never 1 2 3 4 5 12"),
    (Operation::Compile, "success 1 2 3 4 5 6 7"),
    (Operation::Expand, "success 1 2 3 4 5 6 7 8 9 10 11"),
    (Operation::Contract, "success 1 2 3 4 5 6 7 8 9 10 11"),
    (Operation::Sheet, "success 1 2 3 4 5 6 7 8 9 10 11"),
    (Operation::Dearest, "success 1 2 3 4 5 6 7 11"),
];

/// The columns of the table of answers: success, estimates that are over or never; then refusals by number.
const ACCEPTED: [&str; 3] = ["success", "over", "never"];
const REFUSED: [u8; 13] = [1, 2, 3, 4, 5, 6, 7, 8, 9, 10, 11, 12, 17];
const COLUMNS: usize = ACCEPTED.len() + REFUSED.len();

/// The situations in which relaxed costs are asked for: what precondition and nodes there are, and whether the sets have the precondition's values or lack some.
/// Then those in which nodes are passed: how many, and which, on the path of one action; how many in a run. Then those of sheets: how many lines, and which
/// numbers; and where a list is found to be no plan after its last action, with room for the sheet. Then those of dearest states: what nodes there are, which other
/// states are as dear, where a walk by the heaviest edges goes wrong, and the limits.
#[derive(Clone, Copy)]
pub enum Situation {
    NoPrecondition,
    NoNodes,
    NoneTested,
    NotRaised,
    Raised,
    AllVariables,
    OneLacking,
    SeveralLacking,
    LackingNoNodes,
    LackingAndWrong,
    NoNodesToPass,
    AllPassed,
    ReachedSkipped,
    UnreachedSkipped,
    OneOfMost,
    MostOfMost,
    EmptyRun,
    NoNodesInRun,
    AllPassedInRun,
    FewerPassedInRun,
    MostInRun,
    NoLines,
    MostLines,
    CostsNothing,
    AllWidest,
    RefusedAtEnd,
    WithoutNodes,
    NoOtherState,
    OtherValue,
    SmallerFromLast,
    TestedSkipped,
    LighterEdge,
    UnreachedDearer,
    NotApplying,
    NothingToPay,
    MostNodes,
    MostValues,
    MostCost,
    MissingNoRoom,
}

/// The situations in words, in their order.
const RELAXED: [&str; 10] = [
    "an empty precondition",
    "a precondition, and no nodes",
    "no precondition variable tested",
    "one tested, and the cost not raised",
    "one tested, and the cost raised",
    "all 24 variables in the precondition",
    "one value lacking",
    "several values lacking",
    "a value lacking, and no nodes",
    "a value lacking, and a wrong set above it",
];
const PASSED: [&str; 11] = [
    "an action without nodes",
    "all nodes of an action",
    "a node skipped that another path passes",
    "a node skipped that nothing reaches",
    "1 of 64 nodes",
    "24 of 64 nodes",
    "an empty run",
    "a run of actions without nodes",
    "a run: all nodes of its diagrams",
    "a run: fewer nodes than its diagrams have",
    "a run: 6,144 nodes",
];
const SHEETS: [&str; 5] = [
    "an empty plan",
    "a plan of 256 actions",
    "an action that costs 0",
    "every number of a line at its widest",
    "refused after the last action, with room",
];
const DEAREST: [&str; 13] = [
    "an action without nodes",
    "no other state as dear",
    "another value as dear at a node passed",
    "another, and smaller read from the last variable",
    "a variable skipped that another node tests",
    "at a node passed, not the heaviest edge",
    "a dearer node that nothing reaches",
    "a state where the action does not apply",
    "nodes, and no cost in any state",
    "64 nodes",
    "24 variables, each at 7",
    "the greatest cost that there is",
    "no such action, and no room",
];
const SITUATIONS: [(&str, &[&str]); 4] =
    [("relaxed costs", &RELAXED), ("nodes passed", &PASSED), ("sheets", &SHEETS), ("dearest states", &DEAREST)];

/// The counts.
pub struct Answers {
    given: [[usize; COLUMNS]; OPERATIONS.len()],
    met: [usize; RELAXED.len() + PASSED.len() + SHEETS.len() + DEAREST.len()],
}

impl Default for Answers {
    fn default() -> Answers {
        Answers {
            given: [[0; COLUMNS]; OPERATIONS.len()],
            met: [0; RELAXED.len() + PASSED.len() + SHEETS.len() + DEAREST.len()],
        }
    }
}

impl Answers {
    /// Counts an answer of an operation.
    pub fn given(&mut self, operation: Operation, answer: u64) {
        self.given[operation as usize][column(operation, answer)] += 1;
    }

    /// Counts a situation.
    pub fn met(&mut self, situation: Situation) {
        self.met[situation as usize] += 1;
    }

    /// Prints how often each operation gave each kind of answer, and how often each situation was met.
    pub fn print(&self) {
        let names: String = names().map(|name| format!("{name:>8}")).collect();
        println!("{:<16}{names}", "operation");
        for ((operation, _), row) in OPERATIONS.iter().zip(&self.given) {
            let row = row.map(|count| format!("{count:>8}")).concat();
            println!("{:<16}{row}", format!("{operation:?}"));
        }
        let mut counts = self.met.iter();
        for (title, situations) in SITUATIONS {
            println!("\n{title:<48}    times");
            for (situation, count) in situations.iter().zip(counts.by_ref()) {
                println!("{situation:<48}{count:>9}");
            }
        }
    }

    /// The answers that an operation has and did not give, and the situations that were not met.
    pub fn missing(&self) -> Vec<String> {
        let mut missing = Vec::new();
        for ((operation, has), row) in OPERATIONS.iter().zip(&self.given) {
            let absent = names().zip(row).filter(|(name, &count)| count == 0 && has.split(' ').any(|has| has == name));
            missing.extend(absent.map(|(name, _)| format!("{operation:?}: {name}")));
        }
        let titled = |(title, situations): (&'static str, &'static [&str])| {
            situations.iter().map(move |situation| format!("{title}: {situation}"))
        };
        let unmet = SITUATIONS.into_iter().flat_map(titled).zip(self.met).filter(|&(_, count)| count == 0);
        missing.extend(unmet.map(|(situation, _)| situation));
        missing
    }
}

/// The names of the columns.
fn names() -> impl Iterator<Item = String> {
    ACCEPTED.iter().map(ToString::to_string).chain(REFUSED.iter().map(ToString::to_string))
}

/// The column of an answer.
fn column(operation: Operation, answer: u64) -> usize {
    match (number(answer), operation) {
        (0, Operation::EstimateTask | Operation::EstimateProbe) => middle(answer),
        (0, _) => 0,
        (number, _) => {
            let place = REFUSED.iter().position(|&refused| refused == number);
            ACCEPTED.len() + place.expect("a refusal of the documents")
        }
    }
}
