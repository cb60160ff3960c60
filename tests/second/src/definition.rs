//! The operations once more, slowly, as the documents define them: by enumeration of states and valuations, over plain values; and the charge, thousand by thousand.

use crate::model::{holds, set, ActionModel, Facts, ProbeModel, StepModel, TaskModel};
use crate::parts::{Probe, Task};
use crate::refusal::{Answer, Reason};
use crate::Estimate;

/// The most valuations that are enumerated for one answer.
const MOST_VALUATIONS: usize = 4_096;

/// An estimate's number; the order is the document's.
#[derive(Clone, Copy, Debug, PartialEq, Eq, PartialOrd, Ord)]
enum Number {
    Exact(u32),
    Over,
    Never,
}

impl Number {
    /// Never plus anything is never; what is above every exact number is over.
    fn plus(self, other: Number) -> Number {
        match (self, other) {
            (Number::Never, _) | (_, Number::Never) => Number::Never,
            (Number::Exact(a), Number::Exact(b)) => a.checked_add(b).map_or(Number::Over, Number::Exact),
            _ => Number::Over,
        }
    }
}

/// Calls `visit` with each valuation of some variables; other places of the state are 0.
fn valuations(choices: &[(usize, Vec<u8>)], places: usize, visit: &mut impl FnMut(&[u8])) {
    let mut state = vec![0; places];
    for mut index in 0..count(choices) {
        for (variable, values) in choices {
            state[*variable] = values[index % values.len()];
            index /= values.len();
        }
        visit(&state);
    }
}

/// How many valuations there are, or that they are very many.
fn count(choices: &[(usize, Vec<u8>)]) -> usize {
    choices.iter().fold(1, |all: usize, (_, values)| all.saturating_mul(values.len()))
}

/// The least cost over all states whose every value is in the sets and that meet the precondition, where those in the sets are few; the sets and the action number
/// are right, and there is such a state.
pub fn relaxed_cost(task: &TaskModel, action: usize, sets: &[u8]) -> Option<u32> {
    let choices: Vec<_> =
        sets.iter().map(|set| (0..8).filter(|value| set >> value & 1 == 1).collect()).enumerate().collect();
    if count(&choices) > MOST_VALUATIONS {
        return None;
    }
    let action = &task.actions[action];
    let mut least = u32::MAX;
    valuations(&choices, sets.len(), &mut |state| {
        if holds(&action.precondition, state) {
            least = least.min(action.cost(state).0);
        }
    });
    Some(least)
}

/// The states of a task whose variables have these sizes, where they are few: smallest first, read from variable 0.
pub fn states(sizes: &[u8]) -> Option<Vec<Vec<u8>>> {
    let count = sizes.iter().fold(1, |all: usize, &size| all.saturating_mul(size.into()));
    if count > MOST_VALUATIONS {
        return None;
    }
    let mut states = vec![Vec::new()];
    for &size in sizes {
        let with_next = |front: Vec<u8>| (0..size).map(move |value| [&front[..], &[value]].concat());
        states = states.into_iter().flat_map(with_next).collect();
    }
    Some(states)
}

/// The first state with the greatest cost over all states, and this cost, where the states are few; or else those in which the variables that no node tests, and
/// on which no cost depends, are 0. There is such an action.
pub fn dearest(task: &TaskModel, action: usize) -> Option<(Vec<u8>, u32)> {
    let action = &task.actions[action];
    let states = states(&task.sizes).or_else(|| {
        let mut sizes = vec![1; task.sizes.len()];
        for (variable, values) in tested(task, action) {
            sizes[variable] = values.len() as u8;
        }
        states(&sizes)
    })?;
    let greatest = states.iter().map(|state| action.cost(state).0).max()?;
    let state = states.into_iter().find(|state| action.cost(state).0 == greatest)?;
    Some((state, greatest))
}

/// The variables that an action's diagram tests, reached or not, with all their values.
fn tested(task: &TaskModel, action: &ActionModel) -> Vec<(usize, Vec<u8>)> {
    let mut variables: Vec<_> = action.nodes.iter().map(|node| node.variable).collect();
    variables.sort_unstable();
    variables.dedup();
    variables
        .iter()
        .map(|&variable| usize::from(variable))
        .map(|variable| (variable, (0..task.sizes[variable]).collect()))
        .collect()
}

/// One number for every fact.
type Numbers = Vec<Vec<Number>>;

/// The estimate from a state, where valuations are few; the state is right.
pub fn estimate_task<'a>(task: &'a TaskModel, state: &[u8]) -> Option<Estimate> {
    let choices: Vec<_> = task.actions.iter().map(|a| tested(task, a)).collect();
    if choices.iter().map(|c| count(c)).fold(0, usize::saturating_add) > MOST_VALUATIONS {
        return None;
    }
    let numbers = rounds(&task.sizes, state, |old| {
        let of_action = |(action, choices): (&'a ActionModel, &Vec<_>)| {
            let least = least_valuation(action, choices, state.len(), old);
            (&action.effect, sum(&action.precondition, old).plus(least))
        };
        task.actions.iter().zip(&choices).map(of_action).collect()
    });
    Some(estimate(&task.goal, &numbers))
}

/// The least, over all valuations, of cost plus the numbers of the values.
fn least_valuation(action: &ActionModel, choices: &[(usize, Vec<u8>)], places: usize, old: &Numbers) -> Number {
    let mut least = Number::Never;
    valuations(choices, places, &mut |state| {
        let mut number = Number::Exact(action.cost(state).0);
        for &(variable, _) in choices {
            number = number.plus(old[variable][usize::from(state[variable])]);
        }
        least = least.min(number);
    });
    least
}

/// The estimate of a probe file's goal from a state, which is right.
pub fn estimate_probe<'a>(probe: &'a ProbeModel, state: &[u8]) -> Estimate {
    let numbers = rounds(&probe.sizes, state, |old| {
        let of_step = |step: &'a StepModel| {
            let cost = Number::Exact(u32::from(step.cost));
            (&step.effect, sum(&step.precondition, old).plus(cost))
        };
        probe.steps.iter().map(of_step).collect()
    });
    estimate(&probe.goal, &numbers)
}

/// Rounds over old numbers until one changes nothing; `offers` gives, for each operator, its effect and what it offers for it.
fn rounds<'a>(sizes: &[u8], state: &[u8], offers: impl Fn(&Numbers) -> Vec<(&'a Facts, Number)>) -> Numbers {
    let mut old: Numbers = sizes.iter().map(|&size| vec![Number::Never; usize::from(size)]).collect();
    for (variable, &value) in state.iter().enumerate() {
        old[variable][usize::from(value)] = Number::Exact(0);
    }
    loop {
        let mut new = old.clone();
        for (effect, offer) in offers(&old) {
            for &(variable, value) in effect {
                let number = &mut new[usize::from(variable)][usize::from(value)];
                *number = offer.min(*number);
            }
        }
        if new == old {
            return old;
        }
        old = new;
    }
}

/// The sum of the numbers of facts.
fn sum(facts: &Facts, numbers: &Numbers) -> Number {
    facts
        .iter()
        .map(|&(variable, value)| numbers[usize::from(variable)][usize::from(value)])
        .fold(Number::Exact(0), Number::plus)
}

/// The goal facts' sum.
fn estimate(goal: &Facts, numbers: &Numbers) -> Estimate {
    match sum(goal, numbers) {
        Number::Exact(number) => Estimate::Exact(number),
        Number::Over => Estimate::Over,
        Number::Never => Estimate::Never,
    }
}

/// How many nodes an action passes from node 1 to the terminal in a state, and its cost there.
pub fn cost(action: &ActionModel, state: &[u8]) -> (usize, u32) {
    let (cost, passed) = action.cost(state);
    (passed.len(), cost)
}

/// The nodes that the actions of a list pass in all, and the sum of the list on a task.
pub fn run_task(task: &TaskModel, list: &[u16]) -> Answer<(usize, u32)> {
    if list.len() > Task::LIST {
        return Reason::ListTooLong.at(Task::LIST);
    }
    let mut state = task.initial.clone();
    let (mut nodes, mut sum) = (0, 0);
    for (index, &number) in list.iter().enumerate() {
        if usize::from(number) >= task.actions.len() {
            return Reason::NoSuchStep.at(index);
        }
        let action = &task.actions[usize::from(number)];
        if !holds(&action.precondition, &state) {
            return Reason::DoesNotApply.at(index);
        }
        let (passed, cost) = cost(action, &state);
        nodes += passed;
        sum += cost;
        set(&action.effect, &mut state);
    }
    if !holds(&task.goal, &state) {
        return Reason::GoalNotMet.at(list.len());
    }
    Ok((nodes, sum))
}

/// The sum of a list on a probe file.
pub fn run_probe(probe: &ProbeModel, list: &[u16]) -> Answer<u32> {
    let limit = Probe::LIST;
    let mut state = probe.initial.clone();
    let mut sum = 0;
    if list.len() > limit {
        return Reason::ListTooLong.at(limit);
    }
    for (index, &number) in list.iter().enumerate() {
        match probe.steps.get(usize::from(number)) {
            None => return Reason::NoSuchStep.at(index),
            Some(step) if !holds(&step.precondition, &state) => return Reason::DoesNotApply.at(index),
            Some(step) => {
                sum += u32::from(step.cost);
                set(&step.effect, &mut state);
            }
        }
    }
    match holds(&probe.goal, &state) {
        true => Ok(sum),
        false => Reason::GoalNotMet.at(list.len()),
    }
}

/// The compilation of a task: semaphore, markers, and for each action a start, a step for each edge and an end.
pub fn compile(task: &TaskModel) -> ProbeModel {
    let semaphore = task.sizes.len() as u8;
    let mut probe = ProbeModel {
        sizes: task.sizes.clone(),
        initial: task.initial.clone(),
        goal: task.goal.clone(),
        steps: Vec::new(),
    };
    probe.sizes.push(2);
    for action in &task.actions {
        probe.sizes.push(action.nodes.len() as u8 + 2);
    }
    for variable in semaphore..probe.sizes.len() as u8 {
        probe.initial.push(0);
        probe.goal.push((variable, 0));
    }
    for (action, marker) in task.actions.iter().zip(semaphore + 1..) {
        probe.steps.extend(steps(action, semaphore, marker));
    }
    probe
}

/// The steps of an action, in order.
fn steps(action: &ActionModel, semaphore: u8, marker: u8) -> Vec<StepModel> {
    let and_both = |facts: &Facts, value| {
        let mut facts = facts.clone();
        facts.push((semaphore, value));
        facts.push((marker, value));
        facts
    };
    let mut steps = vec![StepModel {
        precondition: and_both(&action.precondition, 0),
        effect: and_both(&Facts::new(), 1),
        cost: action.incoming,
    }];
    for (node, number) in action.nodes.iter().zip(1..) {
        for (&(target, weight), value) in node.edges.iter().zip(0..) {
            steps.push(StepModel {
                precondition: vec![(node.variable, value), (marker, number)],
                effect: vec![(marker, target)],
                cost: weight,
            });
        }
    }
    steps.push(StepModel {
        precondition: vec![(marker, action.nodes.len() as u8 + 1)],
        effect: and_both(&action.effect, 0),
        cost: 0,
    });
    steps
}

/// The number of the start of each action, and, behind them, how many steps there are.
pub fn starts(task: &TaskModel) -> Vec<u16> {
    let mut starts = vec![0];
    for action in &task.actions {
        let edges: usize = action.nodes.iter().map(|node| node.edges.len()).sum();
        starts.push(starts[starts.len() - 1] + 2 + edges as u16);
    }
    starts
}

/// The probe list that comes from a source plan, and the sum.
pub fn expand(task: &TaskModel, list: &[u16]) -> Answer<(Vec<u16>, u32)> {
    let (_, sum) = run_task(task, list)?;
    let starts = starts(task);
    let mut state = task.initial.clone();
    let mut steps = Vec::new();
    for &number in list {
        let number = usize::from(number);
        let action = &task.actions[number];
        steps.push(starts[number]);
        for node in action.cost(&state).1 {
            let before = action.nodes[..node - 1].iter().map(|n| n.edges.len());
            let value = state[usize::from(action.nodes[node - 1].variable)];
            steps.push(starts[number] + 1 + before.sum::<usize>() as u16 + u16::from(value));
        }
        steps.push(starts[number + 1] - 1);
        set(&action.effect, &mut state);
    }
    Ok((steps, sum))
}

/// The source plan that a probe plan comes from, and the sum: the actions whose starts it has, in order.
pub fn contract(task: &TaskModel, list: &[u16]) -> Answer<(Vec<u16>, u32)> {
    let sum = run_probe(&compile(task), list)?;
    let starts = starts(task);
    let action_of = |step| starts[..task.actions.len()].iter().position(|s| s == step);
    let mut plan = Vec::new();
    for (index, step) in list.iter().enumerate() {
        if let Some(action) = action_of(step) {
            if plan.len() == Task::LIST {
                return Reason::ListTooLong.at(index);
            }
            plan.push(action as u16);
        }
    }
    Ok((plan, sum))
}

/// The sheet of a source plan, line by line, and the sum.
pub fn sheet(task: &TaskModel, list: &[u16]) -> Answer<(String, u32)> {
    let (_, sum) = run_task(task, list)?;
    let mut state = task.initial.clone();
    let mut running = 0;
    let mut sheet = String::new();
    for (index, &number) in list.iter().enumerate() {
        let action = &task.actions[usize::from(number)];
        let (_, cost) = cost(action, &state);
        running += cost;
        sheet += &format!("{index:>3} {number:>2} {cost:>7} {running:>9}\n");
        set(&action.effect, &mut state);
    }
    sheet += &format!("sum{sum:>21}\n");
    Ok((sheet, sum))
}

/// The charge, added up as far as the sum that was asked about last.
pub struct Charge {
    started: u64,
    cents: u64,
}

impl Charge {
    /// What a plan costs, and no thousand started.
    pub fn of_plan() -> Charge {
        Charge { started: 0, cents: 150 }
    }

    /// The charge for a sum that is not below the last: what each started thousand adds is added, one at a time.
    pub fn up_to(&mut self, sum: u32) -> u64 {
        // The next thousand is started where the sum goes beyond those before it.
        while u64::from(sum) > 1_000 * self.started {
            self.started += 1;
            self.cents += match self.started {
                1..=20 => 12,
                21..=100 => 9,
                _ => 5,
            };
        }
        self.cents
    }
}
