//! Times each operation of the library against the second implementation on the same inputs; the command line names more task files.

use second::call::{self, Call, Operation};
use second::generate::{self, goal_in, walk, Random, Shape};
use second::library::{jafrelin_charge, library};
use second::model::{holds, TaskModel};
use second::parts::{Probe, Task};
use second::special::{self, task_p};
use std::hint::black_box;
use std::time::Instant;
use std::{env, fs};

/// How many samples a median is taken of, and how long a sample is to last, in nanoseconds.
const SAMPLES: usize = 61;
const SAMPLE_TIME: f64 = 30_000.0;

/// A task file, what it is called in the table, and a list of actions.
struct Input {
    name: String,
    file: Vec<u8>,
    list: Vec<u16>,
}

/// Prints the tables.
fn main() {
    print_header("every operation");
    let mut inputs = vec![Input::new("P".to_string(), task_p().bytes())];
    for path in env::args().skip(1) {
        let file = fs::read(&path).expect("a task file");
        inputs.push(Input::new(path, file));
    }
    inputs.push(Input::generated("typical, generated", generate::TYPICAL, 40));
    inputs.push(Input::generated("every limit, generated", generate::LIMITS, 256));
    inputs.push(Input {
        name: "the longest task".to_string(),
        file: special::longest_task().bytes(),
        list: (0..8).collect::<Vec<u16>>().repeat(32),
    });
    inputs.push(Input {
        name: "the longest path".to_string(),
        file: special::long_path(8).bytes(),
        list: vec![0; Task::LIST],
    });
    for input in &inputs {
        every_operation(input);
    }
    longest_probe();
    growth();
    charges();
}

impl Input {
    /// A task file with a plan for it, found by random walks.
    fn new(name: String, file: Vec<u8>) -> Input {
        let task = TaskModel::of(&Task::read(&file).expect("an accepted task"));
        let plan = (0..100_000).find_map(|seed| {
            let random = &mut Random::new(seed);
            let length = seed as usize / 2_000;
            let (list, end) = walk(random, &task.initial, &task.operators(), length);
            holds(&task.goal, &end).then_some(list)
        });
        let list = plan.unwrap_or_default();
        Input { name, file, list }
    }

    /// A generated task with a plan of so many actions.
    fn generated(name: &str, shape: Shape, length: usize) -> Input {
        let random = &mut Random::new(7);
        let mut task = generate::task(random, shape);
        task.actions[0].precondition.clear();
        let (list, end) = walk(random, &task.initial, &task.operators(), length);
        task.goal = goal_in(random, &end);
        Input { name: name.to_string(), file: task.bytes(), list }
    }
}

/// Prints the head of a table.
fn print_header(title: &str) {
    println!("\n{title}");
    println!("{:<15}{:<44}{:>12}{:>12}{:>8}", "operation", "input", "ns library", "ns Rust", "ratio");
}

/// Times a call that is not refused, and prints its row.
fn row(call: &Call, input: &str) {
    let mut library_out = (vec![0; Task::COMPILED_BYTES], vec![0; Probe::LIST]);
    let mut second_out = library_out.clone();
    let answer = call::second(call, &mut second_out.0, &mut second_out.1);
    assert_eq!(call::number(answer), 0, "{call}\n{}", call::in_words(answer));
    let [first, other] =
        medians([&mut || library(black_box(call), &mut library_out.0, &mut library_out.1), &mut || {
            call::second(black_box(call), &mut second_out.0, &mut second_out.1)
        }]);
    let operation = format!("{:?}", call.operation);
    let ratio = first / other;
    println!("{operation:<15}{input:<44}{first:>12.0}{other:>12.0}{ratio:>8.2}");
}

/// The median time of each piece of work, in nanoseconds; samples of the two take turns.
fn medians(works: [&mut dyn FnMut() -> u64; 2]) -> [f64; 2] {
    let counts = [calibrated(works[0]), calibrated(works[1])];
    let mut samples = [Vec::new(), Vec::new()];
    for _ in 0..SAMPLES {
        for side in 0..2 {
            samples[side].push(sample(works[side], counts[side]));
        }
    }
    samples.map(|mut times| {
        times.sort_by(f64::total_cmp);
        times[SAMPLES / 2]
    })
}

/// How often a piece of work is done in a sample; finding this out warms up.
fn calibrated(work: &mut dyn FnMut() -> u64) -> usize {
    let mut count = 1;
    while sample(work, count) * (count as f64) < SAMPLE_TIME {
        count *= 2;
    }
    count
}

/// The time of a piece of work, in nanoseconds, done so often in a row.
fn sample(work: &mut dyn FnMut() -> u64, count: usize) -> f64 {
    let start = Instant::now();
    for _ in 0..count {
        black_box(work());
    }
    start.elapsed().as_nanos() as f64 / count as f64
}

/// Times every operation on a task, its compiled file and the lists of a plan; costs where there is an action.
fn every_operation(input: &Input) {
    let Input { name, file, list } = input;
    let mut probe = vec![0; Task::COMPILED_BYTES];
    let length = second::compile(file, &mut probe).expect("an accepted task");
    probe.truncate(length);
    let mut steps = vec![0; Probe::LIST];
    let (length, _) = second::expand(file, list, &mut steps).expect("a plan");
    steps.truncate(length);
    let task = TaskModel::of(&Task::read(file).expect("an accepted task"));
    let (state, sets) = (&task.initial, full_sets(&task.sizes));
    let mut probe_state = state.clone();
    probe_state.resize(usize::from(probe[0]), 0);
    let calls = [
        Call::on(Operation::CheckTask, file),
        Call::on(Operation::Cost, file).state(state),
        Call::on(Operation::RelaxedCost, file).state(&sets),
        Call::on(Operation::Dearest, file),
        Call::on(Operation::RunTask, file).list(list),
        Call::on(Operation::EstimateTask, file).state(state),
        Call::on(Operation::Compile, file),
        Call::on(Operation::Expand, file).list(list),
        Call::on(Operation::Contract, file).list(&steps),
        Call::on(Operation::Sheet, file).list(list),
        Call::on(Operation::CheckProbe, &probe),
        Call::on(Operation::RunProbe, &probe).list(&steps),
        Call::on(Operation::EstimateProbe, &probe).state(&probe_state),
    ];
    let costs = [Operation::Cost, Operation::RelaxedCost, Operation::Dearest];
    for call in calls.iter().filter(|call| !task.actions.is_empty() || !costs.contains(&call.operation)) {
        row(call, &described(name, call));
        if call.operation == Operation::Compile {
            copy_row(&probe);
        }
    }
}

/// The sets with all values.
fn full_sets(sizes: &[u8]) -> Vec<u8> {
    sizes.iter().map(|&size| u8::MAX >> (Task::VALUES - size)).collect()
}

/// An input's name with the lengths that matter.
fn described(name: &str, call: &Call) -> String {
    match call.list.len() {
        0 => format!("{name}: {} bytes", call.file.len()),
        entries => format!("{name}: {} bytes, {entries} entries", call.file.len()),
    }
}

/// Times the mere copying of a file that was written, and prints its row.
fn copy_row(written: &[u8]) {
    let mut out = written.to_vec();
    let mut copy = || {
        black_box(&mut out[..]).copy_from_slice(black_box(written));
        0
    };
    let count = calibrated(&mut copy);
    let mut times: Vec<_> = (0..SAMPLES).map(|_| sample(&mut copy, count)).collect();
    times.sort_by(f64::total_cmp);
    let input = format!("the {} bytes written, copied", written.len());
    println!("{:<15}{input:<44}{:>12}{:>12.0}", "", "", times[SAMPLES / 2]);
}

/// Times the operations on the longest probe file.
fn longest_probe() {
    let probe = special::longest_probe();
    let file = probe.bytes();
    let list: Vec<u16> = (0..66).collect();
    let calls = [
        Call::on(Operation::CheckProbe, &file),
        Call::on(Operation::RunProbe, &file).list(&list),
        Call::on(Operation::EstimateProbe, &file).state(&probe.initial),
    ];
    for call in &calls {
        row(call, &described("the longest probe file", call));
    }
}

/// Times how the cost grows with actions, with nodes, with the length of a list, with the facts of a precondition and with the nodes of one action.
fn growth() {
    print_header("growth with actions (8 variables of 4 values, no nodes)");
    for actions in [1, 2, 4, 8, 16, 32] {
        grow(&format!("{actions} actions"), actions, 0);
    }
    print_header("growth with nodes (8 variables of 4 values, 8 actions)");
    for nodes in [0, 4, 8, 16, 32, 64] {
        grow(&format!("{nodes} nodes"), 8, nodes);
    }
    print_header("growth with the list's length (the longest path)");
    let file = special::long_path(8).bytes();
    for length in [0, 1, 4, 16, 64, 256] {
        let name = format!("{length} actions");
        let list = vec![0; length];
        let mut steps = vec![0; Probe::LIST];
        let expanded = Call::on(Operation::Expand, &file).list(&list);
        let answer = call::second(&expanded, &mut [], &mut steps);
        steps.truncate(call::middle(answer));
        row(&Call::on(Operation::RunTask, &file).list(&list), &name);
        row(&expanded, &name);
        row(&Call::on(Operation::Contract, &file).list(&steps), &name);
        row(&Call::on(Operation::Sheet, &file).list(&list), &name);
    }
    narrowed();
    one_diagram();
}

/// Times relaxed costs where the precondition narrows the sets of so many variables to one value of eight.
fn narrowed() {
    print_header("growth with the precondition (24 variables of 8 values, a node each)");
    for facts in [0, 1, 6, 12, 24] {
        let task = special::narrowed_path(facts);
        let (file, sets) = (task.bytes(), full_sets(&task.sizes));
        row(&Call::on(Operation::RelaxedCost, &file).state(&sets), &format!("{facts} facts"));
    }
}

/// Times dearest states of one action with so many nodes of 8 edges.
fn one_diagram() {
    print_header("growth with the nodes of one action (24 variables of 8 values)");
    for nodes in [0, 1, 4, 16, 64] {
        let shape = Shape { nodes: (nodes, nodes), actions: (1, 1), ..generate::LIMITS };
        let file = generate::task(&mut Random::new(4), shape).bytes();
        row(&Call::on(Operation::Dearest, &file), &format!("{nodes} nodes"));
    }
}

/// Times the operations on a generated task with so many actions and nodes.
fn grow(name: &str, actions: usize, nodes: usize) {
    let shape = Shape { variables: (8, 8), values: (4, 4), actions: (actions, actions), nodes: (nodes, nodes) };
    let task = TaskModel { goal: Vec::new(), ..generate::task(&mut Random::new(3), shape) };
    let file = task.bytes();
    row(&Call::on(Operation::CheckTask, &file), name);
    row(&Call::on(Operation::Compile, &file), name);
    let state = &task.initial;
    row(&Call::on(Operation::EstimateTask, &file).state(state), name);
}

/// Answers the charge for a sum, packed.
type ChargeTool = extern "C" fn(u32) -> u64;

/// Times the charge for one sum again and again, that of the dearest plan and the largest among them, and for sums of all bands in random order: few, which
/// a processor may learn to foretell, and many.
fn charges() {
    print_header("the charge, one of many calls in a row");
    for sum in [0, 15_000, 60_000, 419_424_000, u32::MAX] {
        charge_row(&format!("sum {sum}"), &[sum; 1_024]);
    }
    for count in [1_024, 131_072] {
        charge_row(&format!("{count} sums of all bands"), &mixed_sums(count));
    }
}

/// So many sums, each of a random band.
fn mixed_sums(count: usize) -> Vec<u32> {
    let bands = [(0, 20_000), (20_001, 100_000), (100_001, 419_424_000)];
    let random = &mut Random::new(13);
    let mut sum = || {
        let band = random.pick(&bands);
        random.within(band) as u32
    };
    (0..count).map(|_| sum()).collect()
}

/// Times the charges for sums, and prints the row of one call.
fn charge_row(input: &str, sums: &[u32]) {
    let tools: [ChargeTool; 2] = [jafrelin_charge, second_charge];
    let [library, second] = black_box(tools);
    assert_eq!(total(library, sums), total(second, sums), "{input}");
    let times = medians([&mut || total(library, sums), &mut || total(second, sums)]);
    let [first, other] = times.map(|time| time / sums.len() as f64);
    let ratio = first / other;
    println!("{:<15}{input:<44}{first:>12.2}{other:>12.2}{ratio:>8.2}", "Charge");
}

/// The second implementation's charge, to be called as the library's is.
extern "C" fn second_charge(sum: u32) -> u64 {
    second::charge(sum).into()
}

/// The charges for sums, added up, by a call for each: what is called is not known here.
#[inline(never)]
fn total(tool: ChargeTool, sums: &[u32]) -> u64 {
    black_box(sums).iter().map(|&sum| tool(sum)).sum()
}
