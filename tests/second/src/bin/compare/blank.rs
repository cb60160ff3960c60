//! Document 02's W1: the blank task, whose file has zero bytes, asked about by every operation, and its probe file, the answers written out; and the files near it,
//! which are refused as before.

use crate::comparison::{Comparison, Written};
use crate::document::{bytes, file, list, never, plain, refusal, sheet, sum};
use crate::exercise;
use crate::kinds::{every_damage, on_task};
use crate::sheet::LINE;
use second::call::{Call, Operation};
use second::definition;
use second::generate::Random;
use second::model::TaskModel;
use second::parts::{Probe, Task};
use second::special::blank_task;

/// The blank task's file.
const BLANK: &[u8] = &[];

/// Its probe file: two variables of 2 values at 0; the second, the semaphore, is 0 in the goal; no steps.
const PROBE: &str = "02 | 02 02 | 00 00 | 02 0* 00 | 00 00";

/// What the blank task has before its actions, and an action count of 0: the file of no task.
const COUNTED: &str = "01 02 00 | 00 0* | 00";

/// The operations on tasks, and those on probe files.
const ON_TASKS: [Operation; 10] = [
    Operation::CheckTask,
    Operation::Cost,
    Operation::RelaxedCost,
    Operation::RunTask,
    Operation::EstimateTask,
    Operation::Compile,
    Operation::Expand,
    Operation::Contract,
    Operation::Sheet,
    Operation::Dearest,
];
const ON_PROBES: [Operation; 3] = [Operation::CheckProbe, Operation::RunProbe, Operation::EstimateProbe];

/// Whether an operation writes a result into a buffer.
fn writes(operation: Operation) -> bool {
    matches!(
        operation,
        Operation::Compile | Operation::Expand | Operation::Contract | Operation::Sheet | Operation::Dearest
    )
}

/// The blank task, its probe file, and the files near it.
pub fn cases(comparison: &mut Comparison) {
    comparison.kind("the blank task");
    compiled(comparison);
    actions(comparison);
    estimates(comparison);
    let lists = [
        (Operation::RunTask, Task::LIST),
        (Operation::Expand, Task::LIST),
        (Operation::Contract, Probe::LIST),
        (Operation::Sheet, Task::LIST),
    ];
    for (operation, limit) in lists {
        every_list(comparison, &Call::on(operation, BLANK), limit);
    }
    laws(comparison);
    comparison.kind("the blank task's probe file");
    probe_file(comparison);
    comparison.kind("files near the blank task's");
    lone_bytes(comparison);
    no_actions(comparison);
    cut_and_changed(comparison);
}

/// It is accepted, and compiled to 16 bytes where there is room for them.
fn compiled(comparison: &mut Comparison) {
    comparison.document("zero bytes are accepted", &Call::on(Operation::CheckTask, BLANK), 0, sum(0));
    let (compile, probe) = (Call::on(Operation::Compile, BLANK), bytes(PROBE));
    assert_eq!(probe.len(), 16);
    for room in 0..16 {
        comparison.document("16 bytes needed", &compile, room, refusal(7, 16));
    }
    for room in [16, 17, 18, 106, Task::COMPILED_BYTES] {
        comparison.document("16 bytes written", &compile, room, file(probe.clone()));
    }
}

/// States and relaxed states: of no variable, with every byte for one, with some for two, and of as many variables as a task and a probe file may have.
fn states() -> Vec<Vec<u8>> {
    let mut states = vec![Vec::new()];
    states.extend((0..=255).map(|byte| vec![byte]));
    for first in [0, 1, 2, 3, 255] {
        states.extend([0, 1, 2, 3, 255].map(|second| vec![first, second]));
    }
    states.extend([Task::VARIABLES, Probe::VARIABLES].map(|count| vec![0; count.into()]));
    states
}

/// Every action number is 11 at 0, in every state, and with every room for one.
fn actions(comparison: &mut Comparison) {
    for action in [0, 1, 2, 31, 32, 255, 256, 65_535, 65_536, 1 << 32, 1 << 56, u64::MAX] {
        for operation in [Operation::Cost, Operation::RelaxedCost] {
            let call = Call::on(operation, BLANK).action(action);
            for state in states() {
                comparison.document("no action", &call.state(&state), 0, refusal(11, 0));
            }
        }
        for room in 0..=Task::VARIABLES.into() {
            let call = Call::on(Operation::Dearest, BLANK).action(action);
            comparison.document("no action", &call, room, refusal(11, 0));
        }
    }
}

/// Both states have the estimate 0; others are refused.
fn estimates(comparison: &mut Comparison) {
    for state in states() {
        let wanted = match state[..] {
            [0 | 1] => sum(0),
            [_] => refusal(4, 0),
            _ => refusal(12, 0),
        };
        let call = Call::on(Operation::EstimateTask, BLANK);
        comparison.document("an estimate", &call.state(&state), 0, wanted);
    }
}

/// Lists where there is no action or step, and buffers for what comes of them, of every length up to 2 more than needed: the empty one is a plan of sum 0; others
/// are refused by 11 at 0, and by 8 over the limit.
fn every_list(comparison: &mut Comparison, call: &Call, limit: usize) {
    let mut lists: Vec<Vec<u16>> = (0..=Probe::STEPS + 1).chain([65_535]).map(|entry| vec![entry]).collect();
    for first in [0, 1, 65_535] {
        for second in [0, 1, 65_535] {
            lists.push(vec![first, second]);
            lists.extend([0, 1, 65_535].map(|third| vec![first, second, third]));
        }
    }
    lists.extend((2..=Task::LIST + 2).map(|length| vec![0; length]));
    lists.extend((Probe::LIST - 1..=Probe::LIST + 2).chain([65_536]).map(|length| vec![0; length]));
    let most_room = match call.operation {
        Operation::Sheet => LINE + 2,
        operation if writes(operation) => 2,
        _ => 0,
    };
    for room in 0..=most_room {
        comparison.document("the empty list", &call.list(&[]), room, of_empty_list(call.operation, room));
        for list in &lists {
            let wanted = if list.len() > limit { refusal(8, limit) } else { refusal(11, 0) };
            comparison.document("a list that is not empty", &call.list(list), room, wanted);
        }
    }
}

/// What comes of the empty list in a buffer of a length: its sheet is one line, and nothing else is written.
fn of_empty_list(operation: Operation, room: usize) -> Written {
    match operation {
        Operation::Sheet if room < LINE => refusal(7, LINE),
        Operation::Sheet => sheet("sum                    0\n", 0),
        _ => list(&[], 0),
    }
}

/// What holds for every task.
fn laws(comparison: &mut Comparison) {
    for seed in 0..5 {
        comparison.seed(seed);
        let random = &mut Random::new(seed);
        for list in [&[] as &[u16], &[0], &[0; Task::LIST], &[0; Task::LIST + 1]] {
            exercise::task_of(comparison, random, &blank_task(), BLANK, list);
        }
    }
}

/// The probe file: its plan, its estimates, and every change of one byte; it is no task's, and zero bytes are no probe file.
fn probe_file(comparison: &mut Comparison) {
    let probe = bytes(PROBE);
    comparison.document("the probe file is accepted", &Call::on(Operation::CheckProbe, &probe), 0, sum(0));
    every_list(comparison, &Call::on(Operation::RunProbe, &probe), Probe::LIST);
    for state in states() {
        let wanted = match state[..] {
            [0 | 1, 0] => sum(0),
            [0 | 1, 1] => never(),
            [0 | 1, _] => refusal(4, 1),
            [_, _] => refusal(4, 0),
            _ => refusal(12, 0),
        };
        let call = Call::on(Operation::EstimateProbe, &probe);
        comparison.document("an estimate of the probe file", &call.state(&state), 0, wanted);
    }
    all_refuse(comparison, &ON_TASKS, "the probe file as a task", &probe, (3, 14));
    all_refuse(comparison, &ON_PROBES, "zero bytes as a probe file", &[], (1, 0));
    let model = definition::compile(&blank_task());
    for seed in 0..5 {
        comparison.seed(seed);
        exercise::probe(comparison, &mut Random::new(seed), &model, &[]);
    }
    every_damage(&probe, |damaged| {
        exercise::check(comparison, Operation::CheckProbe, damaged);
        comparison.answer(&Call::on(Operation::RunProbe, damaged));
        comparison.answer(&Call::on(Operation::EstimateProbe, damaged).state(&[1, 0]));
    });
}

/// Sees that operations refuse a file, whatever comes with it.
fn all_refuse(
    comparison: &mut Comparison,
    operations: &[Operation],
    name: &'static str,
    file: &[u8],
    (number, place): (u8, usize),
) {
    for &operation in operations {
        let call = Call::on(operation, file);
        let calls = match operation {
            Operation::CheckTask | Operation::CheckProbe | Operation::Compile => vec![call],
            _ => vec![call, call.list(&[0]).state(&[0]), call.list(&[0; Probe::LIST + 1]).state(&[2, 2]).action(1)],
        };
        let rooms: &[usize] = if writes(operation) { &[0, 18, 50] } else { &[0] };
        for call in calls {
            for &room in rooms {
                comparison.document(name, &call, room, refusal(number, place));
            }
        }
    }
}

/// Each byte alone: a file that ends after its count of variables, or a count that is out of range.
fn lone_bytes(comparison: &mut Comparison) {
    let kinds = [(&ON_TASKS[..], Task::VARIABLES), (&ON_PROBES, Probe::VARIABLES)];
    for (operations, most) in kinds {
        for byte in 0..=255 {
            let refused = if (1..=most).contains(&byte) { (1, 1) } else { (3, 0) };
            all_refuse(comparison, operations, "a lone byte", &[byte], refused);
        }
    }
}

/// Files of zeros, and files with an action count of 0: refused by 3.
fn no_actions(comparison: &mut Comparison) {
    for length in 1..=20 {
        all_refuse(comparison, &ON_TASKS, "zeros", &vec![0; length], (3, 0));
    }
    for variables in 1..=Task::VARIABLES.into() {
        for size in 2..=Task::VALUES {
            let task = TaskModel { actions: Vec::new(), ..plain(variables, size) };
            all_refuse(comparison, &ON_TASKS, "no actions", &task.bytes(), (3, 1 + 2 * variables + 8));
        }
    }
}

/// What the blank task has, with an action count of 0: the whole, cut anywhere, with bytes after it, and with every change of one byte.
fn cut_and_changed(comparison: &mut Comparison) {
    let counted = bytes(COUNTED);
    assert_eq!(counted.len(), 12);
    for length in 1..12 {
        let place = [1, 2, 3, 11].into_iter().filter(|&field| field <= length).max();
        let place = place.expect("the second field is at 1");
        all_refuse(comparison, &ON_TASKS, "no action count", &counted[..length], (1, place));
    }
    for more in 0..=30 {
        let file = [&counted[..], &vec![0; more]].concat();
        all_refuse(comparison, &ON_TASKS, "an action count of 0", &file, (3, 11));
    }
    every_damage(&counted, |damaged| on_task(comparison, damaged));
    for seed in 0..500 {
        comparison.seed(seed);
        let random = &mut Random::new(seed);
        for file in [BLANK, &counted] {
            exercise::damage(comparison, random, Operation::CheckTask, file);
        }
        for file in [BLANK, &bytes(PROBE)] {
            exercise::damage(comparison, random, Operation::CheckProbe, file);
        }
    }
}
