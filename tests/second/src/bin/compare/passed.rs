//! The situations in which nodes are passed: by one action in a state, and in a run.

use crate::answers::Situation;
use second::call::{Call, Operation};
use second::model::{ActionModel, TaskModel};
use second::parts::Task;

/// The situations of a call on a task that was answered with so many nodes passed.
pub fn situations(call: &Call, task: &TaskModel, passed: usize) -> Vec<Situation> {
    match call.operation {
        Operation::Cost => on_path(&task.actions[call.action as usize], call.state),
        Operation::RunTask => in_run(task, call.list, passed),
        _ => Vec::new(),
    }
}

/// The situations of an action's path in a state.
fn on_path(action: &ActionModel, state: &[u8]) -> Vec<Situation> {
    let (_, passed) = action.cost(state);
    let nodes = action.nodes.len();
    let reached = reached(action);
    let last = passed.last().copied().unwrap_or(0);
    let skipped: Vec<usize> = (1..last).filter(|number| !passed.contains(number)).collect();
    let most = |count| nodes == Task::NODES && passed.len() == count;
    those([
        (nodes == 0, Situation::NoNodesToPass),
        (nodes > 0 && passed.len() == nodes, Situation::AllPassed),
        (skipped.iter().any(|number| reached.contains(number)), Situation::ReachedSkipped),
        (skipped.iter().any(|number| !reached.contains(number)), Situation::UnreachedSkipped),
        (most(1), Situation::OneOfMost),
        (most(Task::VARIABLES.into()), Situation::MostOfMost),
    ])
}

/// The nodes of an action that some path from node 1 passes: targets only go up.
pub fn reached(action: &ActionModel) -> Vec<usize> {
    let mut reached = vec![1];
    for (number, node) in (1..).zip(&action.nodes) {
        if reached.contains(&number) {
            reached.extend(node.edges.iter().map(|&(target, _)| usize::from(target)));
        }
    }
    reached
}

/// The situations of a run that passed so many nodes.
fn in_run(task: &TaskModel, list: &[u16], passed: usize) -> Vec<Situation> {
    let nodes: usize = list.iter().map(|&number| task.actions[usize::from(number)].nodes.len()).sum();
    those([
        (list.is_empty(), Situation::EmptyRun),
        (!list.is_empty() && nodes == 0, Situation::NoNodesInRun),
        (passed > 0 && passed == nodes, Situation::AllPassedInRun),
        (passed > 0 && passed < nodes, Situation::FewerPassedInRun),
        (passed == Task::LIST * usize::from(Task::VARIABLES), Situation::MostInRun),
    ])
}

/// The situations that are met.
pub fn those<const COUNT: usize>(situations: [(bool, Situation); COUNT]) -> Vec<Situation> {
    situations.into_iter().filter(|(met, _)| *met).map(|(_, situation)| situation).collect()
}
