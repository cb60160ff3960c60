//! Lists run on a task and on a probe file, and the cost of an action in a state; a cost and a run on a task come with the nodes passed.

use crate::parts::{Action, Head, Node, Operator, Probe, State, Task};
use crate::reading::TaskReader;
use crate::refusal::{Answer, Reason};

/// The nodes that an action passes in a state, and its cost there, whether or not it applies.
pub fn cost(file: &[u8], action: u64, state: &[u8]) -> Answer<(usize, u32)> {
    let (head, action) = read_action(file, action)?;
    head.check_state(state, |value, size| value < size)?;
    let mut nodes = (1..).zip(action.nodes(head.sizes));
    let mut passed = 0;
    let mut sum = u32::from(action.operator.weight);
    let mut next = 1;
    while next <= action.node_count {
        let Some((_, node)) = nodes.find(|&(number, _)| number == next) else {
            break;
        };
        let (target, weight) = node.edge(state[usize::from(node.variable)]);
        passed += 1;
        sum += u32::from(weight);
        next = target;
    }
    Ok((passed, sum))
}

/// The nodes that a list of actions passes from the initial state to the goal, and its sum.
pub fn run_task(file: &[u8], list: &[u16]) -> Answer<(usize, u32)> {
    let task = Task::read(file)?;
    let mut passed = 0;
    let sum = run(&task.head, &task.actions, Task::LIST, list, |action, state| {
        walk(action, task.nodes_of(action), state, |_| passed += 1)
    })?;
    Ok((passed, sum))
}

/// The sum of a list of steps from the initial state to the goal.
pub fn run_probe(file: &[u8], list: &[u16]) -> Answer<u32> {
    let probe = Probe::read(file)?;
    run(&probe.head, &probe.steps, Probe::LIST, list, |step, _| u32::from(step.weight))
}

/// Reads a whole task file and answers its head and one action.
pub fn read_action(file: &[u8], number: u64) -> Answer<(Head<'_>, Action<'_>)> {
    let mut reader = TaskReader::open(file)?;
    let mut wanted = None;
    let mut index = 0;
    while let Some(action) = reader.next_action()? {
        if index == number {
            wanted = Some(action);
        }
        index += 1;
    }
    match wanted {
        Some(action) => Ok((reader.head, action)),
        None => Reason::NoSuchStep.at(0),
    }
}

/// Runs a list; `cost` is asked in the state before each of its actions or steps.
pub fn run<'a, S: AsRef<Operator<'a>>>(
    head: &Head,
    steps: &[S],
    limit: usize,
    list: &[u16],
    mut cost: impl FnMut(&S, &State) -> u32,
) -> Answer<u32> {
    if list.len() > limit {
        return Reason::ListTooLong.at(limit);
    }
    let mut state = head.initial_state();
    let mut sum = 0;
    for (index, &number) in list.iter().enumerate() {
        let Some(step) = steps.get(usize::from(number)) else {
            return Reason::NoSuchStep.at(index);
        };
        let operator = step.as_ref();
        if !operator.precondition.holds(&state) {
            return Reason::DoesNotApply.at(index);
        }
        sum += cost(step, &state);
        operator.effect.set(&mut state);
    }
    if !head.goal.holds(&state) {
        return Reason::GoalNotMet.at(list.len());
    }
    Ok(sum)
}

/// The cost of an action in a state; `passed` is told the probe step of each edge on the way to the terminal.
pub fn walk(action: &Action, nodes: &[Node], state: &State, mut passed: impl FnMut(usize)) -> u32 {
    let mut sum = u32::from(action.operator.weight);
    let mut next = 1;
    while let Some(node) = nodes.get(next - 1) {
        let value = state[usize::from(node.variable)];
        let (target, weight) = node.edge(value);
        passed(node.first_step + usize::from(value));
        sum += u32::from(weight);
        next = target;
    }
    sum
}

impl<'a> AsRef<Operator<'a>> for Operator<'a> {
    fn as_ref(&self) -> &Operator<'a> {
        self
    }
}

impl<'a> AsRef<Operator<'a>> for Action<'a> {
    fn as_ref(&self) -> &Operator<'a> {
        &self.operator
    }
}
