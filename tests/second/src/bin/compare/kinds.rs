//! The kinds of input, each from its own seeds.

use crate::comparison::Comparison;
use crate::exercise;
use crate::relaxed::Relaxed;
use second::call::{middle, Call, Operation};
use second::generate::{self, goal_in, walk, Random, Shape};
use second::model::{ActionModel, Facts, NodeModel, StepModel, TaskModel};
use second::parts::{Probe, Task};
use second::special;

/// Random tasks of every size, each with a list from a random walk, which mostly ends in the goal.
pub fn tasks(comparison: &mut Comparison) {
    let kinds: [(&str, Shape, u64, usize); 4] = [
        ("small tasks", generate::SMALL, 700, 12),
        ("typical tasks", generate::TYPICAL, 500, 40),
        ("large tasks", generate::LARGE, 200, 80),
        ("tasks with every count at its limit", generate::LIMITS, 100, Task::LIST),
    ];
    for (kind, shape, seeds, most) in kinds {
        comparison.kind(kind);
        for seed in 0..seeds {
            comparison.seed(seed);
            let random = &mut Random::new(seed);
            let mut task = generate::task(random, shape);
            let (list, goal) = walk_to_goal(random, &task.initial, &task.operators(), most);
            task.goal = goal.unwrap_or(task.goal);
            exercise::task(comparison, random, &task, &list);
            for _ in 0..20 {
                exercise::damage(comparison, random, Operation::CheckTask, &task.bytes());
            }
        }
    }
}

/// A random walk, and mostly a goal that holds at its end.
fn walk_to_goal(
    random: &mut Random,
    initial: &[u8],
    operators: &[(&Facts, &Facts)],
    most: usize,
) -> (Vec<u16>, Option<Facts>) {
    let most = random.below(most + 1);
    let (list, end) = walk(random, initial, operators, most);
    let goal = random.chance(80).then(|| goal_in(random, &end));
    (list, goal)
}

/// The longest task and the longest path, alone and with damage.
pub fn limits(comparison: &mut Comparison) {
    comparison.kind("the longest task; the longest path");
    let random = &mut Random::new(0);
    let longest = special::longest_task();
    assert_eq!(longest.bytes().len(), Task::BYTES);
    let round: Vec<u16> = (0..u16::from(Task::VALUES)).collect();
    exercise::task(comparison, random, &longest, &round);
    exercise::task(comparison, random, &longest, &round.repeat(Task::LIST / round.len()));
    for values in [2, Task::VALUES] {
        let path = special::long_path(values);
        exercise::task(comparison, random, &path, &[0; Task::LIST]);
        exercise::task(comparison, random, &path, &[0; Task::LIST + 1]);
    }
    for seed in 0..2_000 {
        comparison.seed(seed);
        let random = &mut Random::new(seed);
        exercise::damage(comparison, random, Operation::CheckTask, &longest.bytes());
    }
}

/// Costs in every state of tiny tasks and relaxed costs in every relaxed state, from the empty set on; the value or the set after the last is wrong.
pub fn tiny_tasks(comparison: &mut Comparison) {
    comparison.kind("every state and relaxed state of tiny tasks");
    for seed in 0..100 {
        comparison.seed(seed);
        let task = generate::task(&mut Random::new(seed), generate::TINY);
        let file = task.bytes();
        let stray = task.sizes.iter().map(|size| 1 << size).collect();
        for action in 0..task.actions.len() as u64 {
            for (operation, last) in [(Operation::Cost, &task.sizes), (Operation::RelaxedCost, &stray)] {
                let call = Call::on(operation, &file).action(action);
                every_choice(last, |state| {
                    comparison.answer(&call.state(state));
                });
            }
        }
    }
}

/// Calls `visit` with each choice of a byte for each variable, from 0 to its last.
fn every_choice(last: &[u8], mut visit: impl FnMut(&[u8])) {
    let mut bytes = vec![0; last.len()];
    while let Some(next) = (0..last.len()).find(|&variable| bytes[variable] < last[variable]) {
        visit(&bytes);
        bytes[next] += 1;
        bytes[..next].fill(0);
    }
    visit(&bytes);
}

/// 64 nodes in layers, of which paths pass 1 to 24, skipping some and coming by others that nothing reaches; runs whose actions pass many, few or none.
pub fn layers(comparison: &mut Comparison) {
    comparison.kind("64 nodes, of which 1 to 24 are passed");
    let task = special::layers();
    let file = task.bytes();
    for last in 0..task.sizes.len() {
        let mut state = task.initial.clone();
        state[last] = 3;
        let call = Call::on(Operation::Cost, &file).state(&state);
        let answer = comparison.answer(&call);
        comparison.law("a node a layer passed", &call, last as u64 + 1, middle(answer) as u64);
    }
    exercise::task(comparison, &mut Random::new(0), &task, &[0; Task::LIST]);
    for seed in 0..60 {
        comparison.seed(seed);
        let random = &mut Random::new(seed);
        let most = random.below(Task::LIST + 1);
        let (list, _) = walk(random, &task.initial, &task.operators(), most);
        exercise::task(comparison, random, &task, &list);
        for _ in 0..20 {
            exercise::damage(comparison, random, Operation::CheckTask, &file);
        }
    }
}

/// Relaxed costs of long diagrams, with none, some or all of 24 variables in the precondition.
pub fn relaxed_costs(comparison: &mut Comparison) {
    comparison.kind("relaxed costs of long diagrams");
    for seed in 0..200 {
        comparison.seed(seed);
        let random = &mut Random::new(seed);
        let mut task = generate::task(random, generate::DIAGRAMS);
        let percent = random.pick(&[0, 5, 50, 100]);
        for action in &mut task.actions {
            action.precondition = random.facts(&task.sizes, percent);
        }
        relaxed_costs_of(comparison, random, &task);
    }
    for facts in 0..=Task::VARIABLES {
        relaxed_costs_of(comparison, &mut Random::new(facts.into()), &special::narrowed_path(facts));
    }
}

/// Asks for relaxed costs of each action of a task.
fn relaxed_costs_of(comparison: &mut Comparison, random: &mut Random, task: &TaskModel) {
    let file = task.bytes();
    for action in 0..task.actions.len() {
        let relaxed = Relaxed::of(task, &file, action);
        for _ in 0..6 {
            relaxed.ask(comparison, random);
        }
    }
}

/// Tasks whose estimates are near 4,294,967,295, over, or never.
pub fn estimates(comparison: &mut Comparison) {
    comparison.kind("estimates that are over, exact at most, never");
    for levels in 15..=19 {
        for added in [0, 1, 2, 3] {
            let random = &mut Random::new(added.into());
            exercise::task(comparison, random, &special::doubling(levels, added), &[0, 1, 2]);
        }
    }
    for seed in 0..150 {
        comparison.seed(seed);
        let random = &mut Random::new(seed);
        let task = generate::ladder(random);
        let (list, _) = walk(random, &task.initial, &task.operators(), 8);
        exercise::task(comparison, random, &task, &list);
    }
}

/// Probe files that no task was compiled to, up to the longest.
pub fn probes(comparison: &mut Comparison) {
    let kinds = [
        ("small probe files", 500, (4, 5, 8)),
        ("typical probe files", 200, (20, 20, 100)),
        ("large probe files", 60, (Probe::VARIABLES.into(), Probe::VALUES.into(), Probe::STEPS.into())),
    ];
    for (kind, seeds, (variables, values, steps)) in kinds {
        comparison.kind(kind);
        for seed in 0..seeds {
            comparison.seed(seed);
            let random = &mut Random::new(seed);
            let mut probe = generate::probe(random, variables, values, steps);
            let (list, goal) = walk_to_goal(random, &probe.initial, &probe.operators(), 120);
            probe.goal = goal.unwrap_or(probe.goal);
            exercise::probe(comparison, random, &probe, &list);
            for _ in 0..20 {
                exercise::damage(comparison, random, Operation::CheckProbe, &probe.bytes());
            }
        }
    }
    comparison.kind("the longest probe file");
    let longest = special::longest_probe();
    assert_eq!(longest.bytes().len(), Probe::BYTES);
    let random = &mut Random::new(0);
    let round: Vec<u16> = (0..u16::from(Probe::VALUES)).collect();
    exercise::probe(comparison, random, &longest, &round);
    for seed in 0..300 {
        comparison.seed(seed);
        let random = &mut Random::new(seed);
        exercise::damage(comparison, random, Operation::CheckProbe, &longest.bytes());
    }
}

/// Lists at and over the limits: 256 and 257 actions, 6,656 and 6,657 steps, and more starts than actions may come out.
pub fn long_lists(comparison: &mut Comparison) {
    comparison.kind("lists at and over the limits");
    for seed in 0..12 {
        comparison.seed(seed);
        let random = &mut Random::new(seed);
        let mut task = generate::task(random, generate::TYPICAL);
        task.actions[0].precondition.clear();
        let (list, end) = walk(random, &task.initial, &task.operators(), Task::LIST + 1);
        task.goal = goal_in(random, &end);
        let file = task.bytes();
        let probe = second::definition::compile(&task).bytes();
        for length in Task::LIST - 1..=Task::LIST + 1 {
            exercise::plan(comparison, random, &file, &probe, &list[..length]);
        }
        let starts = second::definition::starts(&task);
        no_nodes(comparison, random, &mut task);
        let over = vec![starts[0]; Probe::LIST + 344];
        comparison.answer(&Call::on(Operation::Contract, &file).list(&over));
        long_probe_list(comparison, random);
    }
}

/// Contracts repeats of an action without nodes, two steps each: 256 come out, 257 and more do not.
fn no_nodes(comparison: &mut Comparison, random: &mut Random, task: &mut TaskModel) {
    task.actions[0].nodes.clear();
    task.goal.clear();
    let file = task.bytes();
    for (repeats, more) in [
        (Task::LIST, 0),
        (Task::LIST, 1),
        (Task::LIST + 1, 0),
        (Task::LIST + 1, 1),
        (Probe::LIST / 2, 0),
        (Probe::LIST / 2, 1),
    ] {
        let mut list = [0, 1].repeat(repeats);
        list.resize(list.len() + more, 0);
        let call = Call::on(Operation::Contract, &file);
        comparison.every_room(&call.list(&list));
        let damaged = generate::damaged_list(random, &list, 5);
        comparison.every_room(&call.list(&damaged));
    }
}

/// Runs lists of 6,655 to 6,657 steps on a probe file.
fn long_probe_list(comparison: &mut Comparison, random: &mut Random) {
    let mut probe = generate::probe(random, 20, 20, 60);
    probe.steps.push(StepModel::default());
    let (list, end) = walk(random, &probe.initial, &probe.operators(), Probe::LIST + 1);
    probe.goal = goal_in(random, &end);
    let file = probe.bytes();
    let call = Call::on(Operation::RunProbe, &file);
    for length in Probe::LIST - 1..=Probe::LIST + 1 {
        comparison.answer(&call.list(&list[..length]));
    }
    for _ in 0..4 {
        let damaged = generate::damaged_list(random, &list[..Probe::LIST], probe.steps.len());
        comparison.answer(&call.list(&damaged));
    }
}

/// Small files with every truncation, with every change of one byte, and with bytes after the end.
pub fn damaged_files(comparison: &mut Comparison) {
    comparison.kind("P with every change of a byte");
    let p = second::special::task_p();
    every_damage(&p.bytes(), |damaged| on_task(comparison, damaged));
    comparison.kind("P's probe file with every change of a byte");
    let compiled = second::definition::compile(&p).bytes();
    every_damage(&compiled, |damaged| on_probe(comparison, damaged));
    comparison.kind("a task with three nodes, likewise");
    every_damage(&three_nodes().bytes(), |damaged| {
        exercise::check(comparison, Operation::CheckTask, damaged);
        comparison.with_room(&Call::on(Operation::Compile, damaged), 1_000);
        comparison.answer(&Call::on(Operation::Cost, damaged).state(&[0, 2]));
        exercise::expansion(comparison, damaged, &[0, 1]);
        // The set of variable 0 lacks the precondition's value.
        comparison.answer(&Call::on(Operation::RelaxedCost, damaged).state(&[0b10, 0b111]));
        for action in 0..3 {
            comparison.with_room(&Call::on(Operation::Dearest, damaged).action(action), 2);
        }
    });
}

/// Two variables and two actions, one of them with three nodes, of which one is reached by nothing and one tests a precondition variable.
fn three_nodes() -> TaskModel {
    let node = |variable, edges: &[(u8, u16)]| NodeModel { variable, edges: edges.to_vec() };
    let action = ActionModel {
        precondition: vec![(0, 0)],
        effect: vec![(0, 1), (1, 2)],
        incoming: 258,
        nodes: vec![node(0, &[(3, 1), (4, 2)]), node(0, &[(3, 7), (4, 65_535)]), node(1, &[(4, 0), (4, 5), (4, 513)])],
    };
    TaskModel {
        sizes: vec![2, 3],
        initial: vec![0, 1],
        goal: vec![(1, 2)],
        actions: vec![action, ActionModel::default()],
    }
}

/// Calls `visit` with each truncation of a file, each change of one byte, and the file with bytes after it.
pub fn every_damage(file: &[u8], mut visit: impl FnMut(&[u8])) {
    for length in 0..file.len() {
        visit(&file[..length]);
    }
    let mut damaged = file.to_vec();
    for at in 0..file.len() {
        for change in 1..=255 {
            damaged[at] = file[at] ^ change;
            visit(&damaged);
        }
        damaged[at] = file[at];
    }
    for after in [0, 1, 255] {
        damaged.push(after);
        visit(&damaged);
    }
}

/// Asks every operation on tasks about a file like P.
pub fn on_task(comparison: &mut Comparison, file: &[u8]) {
    exercise::check(comparison, Operation::CheckTask, file);
    for operation in [Operation::Cost, Operation::RelaxedCost, Operation::EstimateTask] {
        comparison.answer(&Call::on(operation, file).state(&[1]));
    }
    exercise::expansion(comparison, file, &[0]);
    comparison.with_room(&Call::on(Operation::Compile, file), 110);
    comparison.every_room(&Call::on(Operation::Dearest, file));
    comparison.with_room(&Call::on(Operation::Contract, file).list(&[0, 1, 3]), 2);
}

/// Asks every operation on probe files about a file like P's.
fn on_probe(comparison: &mut Comparison, file: &[u8]) {
    exercise::check(comparison, Operation::CheckProbe, file);
    comparison.answer(&Call::on(Operation::RunProbe, file).list(&[0, 1, 3]));
    comparison.answer(&Call::on(Operation::EstimateProbe, file).state(&[0, 0, 0]));
}
