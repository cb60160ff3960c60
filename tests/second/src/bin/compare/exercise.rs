//! What is asked of one task and of one probe file: every operation, with right and wrong lists, states and buffers.

use crate::comparison::{Comparison, Written};
use crate::dearest;
use crate::relaxed::Relaxed;
use crate::sheet;
use second::call::{low, middle, number, packed, refused, Call, Operation};
use second::generate::{damaged_file, damaged_list, Random};
use second::model::{Facts, ProbeModel, TaskModel};
use second::parts::Task;

/// The most steps that an action expands to.
const MOST_STEPS: usize = 26;

/// Asks every operation about a task, for a list of actions that may be a plan.
pub fn task(comparison: &mut Comparison, random: &mut Random, task: &TaskModel, list: &[u16]) {
    task_of(comparison, random, task, &task.bytes(), list);
}

/// Asks every operation about the task of a file, for a list of actions that may be a plan.
pub fn task_of(comparison: &mut Comparison, random: &mut Random, task: &TaskModel, file: &[u8], list: &[u16]) {
    check(comparison, Operation::CheckTask, file);
    let probe = comparison.every_room(&Call::on(Operation::Compile, file)).bytes;
    let accepted = Call::on(Operation::CheckProbe, &probe);
    let answer = comparison.answer(&accepted);
    comparison.law("the compiled file is accepted", &accepted, 0, answer);
    plan(comparison, random, file, &probe, list);
    for _ in 0..4 {
        let damaged = damaged_list(random, list, task.actions.len());
        plan(comparison, random, file, &probe, &damaged);
    }
    costs(comparison, random, task, file);
    dearest::some(comparison, random, task, file);
    estimates(comparison, random, task, file, &probe);
}

/// Asks whether a file is accepted; where it is refused, what comes before the place is a file that ends there, or the blank task's.
pub fn check(comparison: &mut Comparison, operation: Operation, file: &[u8]) -> u64 {
    let call = Call::on(operation, file);
    let answer = comparison.answer(&call);
    let front = low(answer) as usize;
    let wanted = match (number(answer), front) {
        (0, _) => return answer,
        (2, _) => 0,
        (_, 0) if operation == Operation::CheckTask => 0,
        _ => refused(1, front),
    };
    let before = comparison.answer(&Call::on(operation, &file[..front]));
    comparison.law("up to the place nothing is wrong", &call, wanted, before);
    answer
}

/// Runs a list of actions, expands it, runs and contracts the expansion: the sums are the same, and the list comes back.
pub fn plan(comparison: &mut Comparison, random: &mut Random, file: &[u8], probe: &[u8], list: &[u16]) {
    let Some(expanded) = expansion(comparison, file, list) else {
        return;
    };
    let sum = u64::from(low(expanded.answer));
    let steps = &expanded.entries;
    let run = Call::on(Operation::RunProbe, probe).list(steps);
    let answer = comparison.answer(&run);
    comparison.law("the expansion is a plan of the same sum", &run, sum, answer);
    let contract = Call::on(Operation::Contract, file).list(steps);
    let contracted = comparison.every_room(&contract);
    comparison.law("contracting gives the sum", &contract, sum, low(contracted.answer).into());
    let back = u64::from(contracted.entries == list);
    comparison.law("contracting an expansion gives the plan", &contract, 1, back);
    probe_lists(comparison, random, file, probe, steps);
}

/// Runs a list of actions, asks for its sheet and expands it: refused alike, or of the same sum and as long as the actions and the nodes passed say.
pub fn expansion(comparison: &mut Comparison, file: &[u8], list: &[u16]) -> Option<Written> {
    let run = comparison.answer(&Call::on(Operation::RunTask, file).list(list));
    sheet::ask(comparison, file, list, run);
    let expand = Call::on(Operation::Expand, file).list(list);
    let expanded = comparison.every_room(&expand);
    if number(run) != 0 {
        comparison.law("expanding refuses what a run does", &expand, run, expanded.answer);
        return None;
    }
    let steps = 2 * list.len() + middle(run);
    let wanted = packed(Ok((steps, low(run))));
    comparison.law("expanding gives the sum, and two steps an action and one a node", &expand, wanted, expanded.answer);
    let most = MOST_STEPS * list.len();
    comparison.law("at most 26 steps an action", &expand, steps as u64, steps.min(most) as u64);
    Some(expanded)
}

/// Contracts damaged probe lists: refused as a run on the compiled file refuses them, else the sum is the same.
fn probe_lists(comparison: &mut Comparison, random: &mut Random, file: &[u8], probe: &[u8], steps: &[u16]) {
    for _ in 0..4 {
        let count = steps.iter().max().map_or(2, |&most| usize::from(most) + 1);
        let damaged = damaged_list(random, steps, count);
        let run = comparison.answer(&Call::on(Operation::RunProbe, probe).list(&damaged));
        let contract = Call::on(Operation::Contract, file).list(&damaged);
        let contracted = comparison.every_room(&contract).answer;
        let same = match number(contracted) {
            0 => u64::from(low(contracted)),
            8 => run,
            _ => contracted,
        };
        comparison.law("contracting answers as a run does", &contract, run, same);
    }
}

/// Asks for costs and relaxed costs, in right and wrong states, of actions that there are and are not; where there are none, of action 0 all the same.
fn costs(comparison: &mut Comparison, random: &mut Random, task: &TaskModel, file: &[u8]) {
    for _ in 0..6 {
        let action = random.below(task.actions.len().max(1));
        if action < task.actions.len() {
            Relaxed::of(task, file, action).ask(comparison, random);
        }
        let state = random.state(&task.sizes);
        let sets = random.sets_with(&state, &task.sizes);
        let cost = Call::on(Operation::Cost, file).state(&state);
        if action < task.actions.len() {
            alone(comparison, task, cost.action(action as u64));
        }
        let relaxed = Call::on(Operation::RelaxedCost, file).state(&sets);
        for call in [cost, relaxed].map(|call| call.action(action as u64)) {
            comparison.answer(&call);
            wrong_states(comparison, random, call);
            let missing = random.pick(&[task.actions.len() as u64, 255, 1 << 32, u64::MAX]);
            comparison.answer(&call.action(missing));
            comparison.answer(&call.action(missing).state(&[]));
        }
    }
}

/// Asks for a cost, and for the run of the action alone in that state, with no precondition and no goal: cost and nodes are the same.
fn alone(comparison: &mut Comparison, task: &TaskModel, cost: Call) {
    let mut free = TaskModel { initial: cost.state.to_vec(), goal: Facts::new(), ..task.clone() };
    free.actions[cost.action as usize].precondition.clear();
    let (file, list) = (free.bytes(), [cost.action as u16]);
    let run = Call::on(Operation::RunTask, &file).list(&list);
    let wanted = comparison.answer(&cost);
    let answer = comparison.answer(&run);
    comparison.law("alone in a run, the same cost and nodes", &run, wanted, answer);
}

/// Asks with one thing wrong in a state: its length, a value, a set that is empty or has a stray bit.
fn wrong_states(comparison: &mut Comparison, random: &mut Random, call: Call) {
    let mut state = call.state.to_vec();
    let at = random.below(state.len());
    state[at] = random.pick(&[0, 1, 2, 3, 7, 8, 66, 128, 255]);
    comparison.answer(&call.state(&state));
    let other = random.below(state.len());
    state[other] = random.bits() as u8;
    comparison.answer(&call.state(&state));
    comparison.answer(&call.state(&state[1..]));
    state.push(0);
    comparison.answer(&call.state(&state));
}

/// Asks for estimates of a task and of its compiled file, which are the same, and in wrong states.
fn estimates(comparison: &mut Comparison, random: &mut Random, task: &TaskModel, file: &[u8], probe: &[u8]) {
    let call = Call::on(Operation::EstimateTask, file);
    let compiled = Call::on(Operation::EstimateProbe, probe);
    let variables = usize::from(probe[0]);
    let mut states = vec![task.initial.clone()];
    states.extend((0..3).map(|_| random.state(&task.sizes)));
    for mut state in states {
        let estimate = comparison.answer(&call.state(&state));
        wrong_states(comparison, random, call.state(&state));
        state.resize(variables, 0);
        let carried = comparison.answer(&compiled.state(&state));
        comparison.law("compiled, the same estimate", &compiled.state(&state), estimate, carried);
        wrong_states(comparison, random, compiled.state(&state));
    }
    for _ in 0..3 {
        let state = random.state(&probe[1..=variables]);
        comparison.answer(&compiled.state(&state));
    }
}

/// Asks every operation about a probe file, for a list of steps that may be a plan.
pub fn probe(comparison: &mut Comparison, random: &mut Random, probe: &ProbeModel, list: &[u16]) {
    let file = probe.bytes();
    check(comparison, Operation::CheckProbe, &file);
    let run = Call::on(Operation::RunProbe, &file);
    comparison.answer(&run.list(list));
    for _ in 0..6 {
        let damaged = damaged_list(random, list, probe.steps.len());
        comparison.answer(&run.list(&damaged));
    }
    let call = Call::on(Operation::EstimateProbe, &file);
    comparison.answer(&call.state(&probe.initial));
    for _ in 0..3 {
        let state = random.state(&probe.sizes);
        comparison.answer(&call.state(&state));
        wrong_states(comparison, random, call.state(&state));
    }
}

/// Asks whether files with random damage are accepted, what they compile to, for the sheet of the empty list, and for the dearest state of action 0.
pub fn damage(comparison: &mut Comparison, random: &mut Random, operation: Operation, file: &[u8]) {
    let mut damaged = damaged_file(random, file);
    for _ in 0..random.below(3) {
        damaged = damaged_file(random, &damaged);
    }
    let answer = check(comparison, operation, &damaged);
    if operation == Operation::CheckTask {
        let most = Task::VARIABLES.into();
        for (operation, room) in
            [(Operation::Compile, 16_384), (Operation::Sheet, sheet::LINE), (Operation::Dearest, most)]
        {
            let call = Call::on(operation, &damaged);
            let written = comparison.with_room(&call, room).answer;
            if number(answer) != 0 {
                comparison.law("refused as a check refuses it", &call, answer, written);
            }
        }
    }
}
