//! Plans carried across between a task and its probe file.

use crate::parts::{Action, Probe, Task};
use crate::refusal::{Answer, Reason};
use crate::running::{run, walk};

/// The most steps that one action comes to: a start, an edge for each variable, an end.
const STEPS_PER_ACTION: usize = Task::VARIABLES as usize + 2;

/// Writes the probe list that comes from a source plan; answers its length and the sum.
pub fn expand(file: &[u8], list: &[u16], out: &mut [u16]) -> Answer<(usize, u32)> {
    let task = Task::read(file)?;
    let mut steps = Vec::with_capacity(STEPS_PER_ACTION * list.len().min(Task::LIST));
    let sum = run(&task.head, &task.actions, Task::LIST, list, |action, state| {
        steps.push(action.first_step as u16);
        let cost = walk(action, task.nodes_of(action), state, |step| steps.push(step as u16));
        steps.push(action.end_step() as u16);
        cost
    })?;
    write_list(&steps, out)?;
    Ok((steps.len(), sum))
}

/// Writes the source plan that a probe plan comes from; answers its length and the sum.
pub fn contract(file: &[u8], list: &[u16], out: &mut [u16]) -> Answer<(usize, u32)> {
    let task = Task::read(file)?;
    if list.len() > Probe::LIST {
        return Reason::ListTooLong.at(Probe::LIST);
    }
    let mut contraction = Contraction::of(&task, Task::LIST.min(list.len() / 2));
    while contraction.at < list.len() {
        contraction.action(list)?;
    }
    if !task.head.goal.holds(&contraction.state) {
        return Reason::GoalNotMet.at(list.len());
    }
    if let Some(index) = contraction.start_too_many {
        return Reason::ListTooLong.at(index);
    }
    write_list(&contraction.plan, out)?;
    Ok((contraction.plan.len(), contraction.sum))
}

/// Writes a list at the front of a buffer.
fn write_list(list: &[u16], out: &mut [u16]) -> Answer<()> {
    match out.get_mut(..list.len()) {
        Some(front) => {
            front.copy_from_slice(list);
            Ok(())
        }
        None => Reason::BufferTooShort.at(list.len()),
    }
}

/// A probe list contracted up to some start: the actions so far, the state that they lead to, and their sum.
struct Contraction<'a, 'b> {
    task: &'b Task<'a>,
    step_count: usize,
    at: usize,
    state: [u8; 64],
    sum: u32,
    plan: Vec<u16>,
    start_too_many: Option<usize>,
}

impl<'a, 'b> Contraction<'a, 'b> {
    /// Nothing contracted yet.
    fn of(task: &'b Task<'a>, most_actions: usize) -> Self {
        Contraction {
            task,
            step_count: task.actions.last().map_or(0, |last| last.end_step() + 1),
            at: 0,
            state: task.head.initial_state(),
            sum: 0,
            plan: Vec::with_capacity(most_actions),
            start_too_many: None,
        }
    }

    /// Follows one action from its start to its end: while its marker stands, exactly one step applies.
    fn action(&mut self, list: &[u16]) -> Answer<()> {
        let action = self.start(list)?;
        self.sum += u32::from(action.operator.weight);
        let nodes = self.task.nodes_of(action);
        let mut next = 1;
        while let Some(node) = nodes.get(next - 1) {
            let value = self.state[usize::from(node.variable)];
            self.expect(list, node.first_step + usize::from(value))?;
            let (target, weight) = node.edge(value);
            self.sum += u32::from(weight);
            next = target;
        }
        self.expect(list, action.end_step())?;
        action.operator.effect.set(&mut self.state);
        Ok(())
    }

    /// Takes the next entry for the start of an action that applies.
    fn start(&mut self, list: &[u16]) -> Answer<&'b Action<'a>> {
        let step = self.next(list)?;
        let actions = &self.task.actions;
        let number = actions.partition_point(|action| action.first_step <= step) - 1;
        let action = &actions[number];
        let index = self.at - 1;
        if action.first_step != step || !action.operator.precondition.holds(&self.state) {
            return Reason::DoesNotApply.at(index);
        }
        if self.plan.len() < Task::LIST {
            self.plan.push(number as u16);
        } else if self.start_too_many.is_none() {
            self.start_too_many = Some(index);
        }
        Ok(action)
    }

    /// Takes the next entry, which has to be one certain step.
    fn expect(&mut self, list: &[u16], step: usize) -> Answer<()> {
        if self.next(list)? != step {
            return Reason::DoesNotApply.at(self.at - 1);
        }
        Ok(())
    }

    /// Takes the next entry; a list that ends inside an action leaves its marker standing, so that the goal is not met.
    fn next(&mut self, list: &[u16]) -> Answer<usize> {
        let Some(&entry) = list.get(self.at) else {
            return Reason::GoalNotMet.at(list.len());
        };
        let step = usize::from(entry);
        if step >= self.step_count {
            return Reason::NoSuchStep.at(self.at);
        }
        self.at += 1;
        Ok(step)
    }
}
