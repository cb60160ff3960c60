//! The probe file of a task: EVMDD-based action compilation.

use crate::parts::{edge, Action, Node, PartialState, Task, EDGE};
use crate::refusal::{Answer, Reason};

/// The length of a partial state's map.
const MAP: usize = 8;
/// The lengths of a start and of an end without the action's own facts, and of a step for an edge.
const START: usize = MAP + 2 + MAP + 2 + 2;
const END: usize = MAP + 1 + MAP + 2 + 2;
const EDGE_STEP: usize = MAP + 2 + MAP + 1 + 2;

/// Writes the probe file of a task at the front of a buffer and answers its length.
pub fn compile(file: &[u8], out: &mut [u8]) -> Answer<usize> {
    let task = Task::read(file)?;
    let length = compiled_length(&task);
    let Some(out) = out.get_mut(..length) else {
        return Reason::BufferTooShort.at(length);
    };
    let mut writer = Writer { rest: out };
    writer.head(&task);
    let semaphore = 1 << task.head.sizes.len();
    for (index, action) in task.actions.iter().enumerate() {
        writer.action(action, task.nodes_of(action), semaphore, semaphore << (index + 1));
    }
    Ok(length)
}

/// The length of the probe file of a task.
fn compiled_length(task: &Task) -> usize {
    let variables = task.head.sizes.len() + 1 + task.actions.len();
    let goal = MAP + task.head.goal.values.len() + 1 + task.actions.len();
    let steps: usize = task.actions.iter().map(steps_length).sum();
    1 + 2 * variables + goal + 2 + steps
}

/// The length of the steps of an action.
fn steps_length(action: &Action) -> usize {
    let own = action.operator.precondition.values.len() + action.operator.effect.values.len();
    START + END + own + EDGE_STEP * action.edge_count()
}

/// How many steps the probe file of a task has.
fn step_count(task: &Task) -> u16 {
    task.actions.iter().map(|action| 2 + action.edge_count() as u16).sum()
}

/// The part of a buffer that is still to be written.
struct Writer<'a> {
    rest: &'a mut [u8],
}

impl Writer<'_> {
    /// Writes bytes.
    fn put(&mut self, bytes: &[u8]) {
        let (front, rest) = std::mem::take(&mut self.rest).split_at_mut(bytes.len());
        front.copy_from_slice(bytes);
        self.rest = rest;
    }

    /// Writes one byte a number of times.
    fn fill(&mut self, byte: u8, count: usize) {
        let (front, rest) = std::mem::take(&mut self.rest).split_at_mut(count);
        front.fill(byte);
        self.rest = rest;
    }

    /// Writes a partial state of the task with more facts, whose variables are above the task's.
    fn extended(&mut self, partial: PartialState, map: u64, values: &[u8]) {
        self.put(&(partial.map | map).to_le_bytes());
        self.put(partial.values);
        self.put(values);
    }

    /// Writes what stands before the steps.
    fn head(&mut self, task: &Task) {
        let n = task.head.sizes.len();
        let added = 1 + task.actions.len();
        self.put(&[(n + added) as u8]);
        self.put(task.head.sizes);
        self.put(&[2]);
        for action in &task.actions {
            self.put(&[action.node_count as u8 + 2]);
        }
        self.put(task.head.initial);
        self.fill(0, added);
        self.extended(task.head.goal, ((1 << added) - 1) << n, &[]);
        self.fill(0, added);
        self.put(&step_count(task).to_le_bytes());
    }

    /// Writes the steps of an action: its start, one step for each edge, its end.
    fn action(&mut self, action: &Action, nodes: &[Node], semaphore: u64, marker: u64) {
        let operator = &action.operator;
        let both = semaphore | marker;
        self.extended(operator.precondition, both, &[0, 0]);
        self.put(&both.to_le_bytes());
        self.put(&[1, 1]);
        self.put(&operator.weight.to_le_bytes());
        for (number, node) in (1..).zip(nodes) {
            self.node(number, node, marker);
        }
        self.put(&marker.to_le_bytes());
        self.put(&[action.node_count as u8 + 1]);
        self.extended(operator.effect, both, &[0, 0]);
        self.put(&[0, 0]);
    }

    /// Writes the steps for the edges of a node.
    fn node(&mut self, number: u8, node: &Node, marker: u64) {
        let mut step = [0; EDGE_STEP];
        step[..MAP].copy_from_slice(&(1 << node.variable | marker).to_le_bytes());
        step[MAP + 1] = number;
        step[MAP + 2..2 * MAP + 2].copy_from_slice(&marker.to_le_bytes());
        for (value, bytes) in (0..).zip(node.edges.chunks_exact(EDGE)) {
            let (target, weight) = edge(bytes);
            step[MAP] = value;
            step[2 * MAP + 2] = target as u8;
            step[2 * MAP + 3..].copy_from_slice(&weight.to_le_bytes());
            self.put(&step);
        }
    }
}
