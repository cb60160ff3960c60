//! Relaxed costs and the additive heuristic, each by one pass over the nodes of a diagram: targets only go up.

use crate::parts::{edge, state_of, Action, Node, PartialState, Probe, State, Task, EDGE};
use crate::refusal::{Answer, Reason};
use crate::running::read_action;

/// An estimate.
#[derive(Clone, Copy, Debug, PartialEq, Eq)]
pub enum Estimate {
    Exact(u32),
    Over,
    Never,
}

impl Estimate {
    /// The estimate that a number stands for.
    fn of(number: u64) -> Estimate {
        match number {
            _ if number < OVER => Estimate::Exact(number as u32),
            _ if number < NEVER => Estimate::Over,
            _ => Estimate::Never,
        }
    }

    fn plus(self, other: Estimate) -> Estimate {
        match (self, other) {
            (Estimate::Never, _) | (_, Estimate::Never) => Estimate::Never,
            (Estimate::Exact(a), Estimate::Exact(b)) => a.checked_add(b).map_or(Estimate::Over, Estimate::Exact),
            _ => Estimate::Over,
        }
    }
}

/// While rounds go on numbers are u64: exact up to u32::MAX, over up to here, never from here on; no sum of numbers that are not never reaches it.
const NEVER: u64 = 1 << 40;
/// The one number that stands for all that are over.
const OVER: u64 = 1 << 32;

/// The least cost of an action over all states whose every value is in the sets and that meet its precondition.
pub fn relaxed_cost(file: &[u8], action: u64, sets: &[u8]) -> Answer<u32> {
    let (head, action) = read_action(file, action)?;
    head.check_state(sets, |set, size| set != 0 && u32::from(set) >> size == 0)?;
    let sets = narrowed(sets, action.operator.precondition)?;
    let added = |variable: usize, value| if sets[variable] >> value & 1 == 1 { 0 } else { NEVER };
    Ok(least_path(&action, action.nodes(head.sizes), added) as u32)
}

/// The sets with a precondition's value alone for each of its variables; else 17, at the lowest variable whose set lacks it.
fn narrowed(sets: &[u8], precondition: PartialState) -> Answer<State> {
    let mut sets = state_of(sets);
    for (variable, value) in precondition.facts() {
        sets[variable] &= 1 << value;
        if sets[variable] == 0 {
            return Reason::Lacking.at(variable);
        }
    }
    Ok(sets)
}

/// The estimate of a task's goal from a state.
pub fn estimate_task(file: &[u8], state: &[u8]) -> Answer<Estimate> {
    let task = Task::read(file)?;
    task.head.check_state(state, |value, size| value < size)?;
    let mut facts = [Estimate::Never; FACTS];
    start(&mut facts, state);
    let mut numbers = Numbers::of(task.head.sizes, state);
    numbers.settle(|numbers| {
        let mut changed = false;
        for action in &task.actions {
            let conditions = numbers.sum(action.operator.precondition);
            if conditions < NEVER {
                let nodes = task.nodes_of(action).iter().copied();
                let cost = least_path(action, nodes, |variable, value| numbers.of_fact(variable, value));
                changed |= numbers.lower(action.operator.effect, conditions + cost);
            }
        }
        changed
    });
    numbers.store(task.head.sizes, &mut facts);
    Ok(sum_of(&facts, task.head.goal))
}

/// The estimate of a probe file's goal from a state.
pub fn estimate_probe(file: &[u8], state: &[u8]) -> Answer<Estimate> {
    let probe = Probe::read(file)?;
    probe.head.check_state(state, |value, size| value < size)?;
    let mut facts = [Estimate::Never; FACTS];
    start(&mut facts, state);
    let mut numbers = Numbers::of(probe.head.sizes, state);
    numbers.settle(|numbers| {
        let mut changed = false;
        for step in &probe.steps {
            let conditions = numbers.sum(step.precondition);
            if conditions < NEVER {
                changed |= numbers.lower(step.effect, conditions + u64::from(step.weight));
            }
        }
        changed
    });
    numbers.store(probe.head.sizes, &mut facts);
    Ok(sum_of(&facts, probe.head.goal))
}

/// The least, over the paths from node 1 to the terminal, of the weights and of what the fact of each edge adds.
fn least_path<'a>(action: &Action, nodes: impl Iterator<Item = Node<'a>>, added: impl Fn(usize, usize) -> u64) -> u64 {
    let mut least = [NEVER; Task::NODES + 2];
    least[1] = u64::from(action.operator.weight);
    for (number, node) in (1..).zip(nodes) {
        let here: u64 = least[number];
        if here >= NEVER {
            continue;
        }
        let variable = usize::from(node.variable);
        for (value, bytes) in node.edges.chunks_exact(EDGE).enumerate() {
            let (target, weight) = edge(bytes);
            let through = here + u64::from(weight) + added(variable, value);
            least[target] = least[target].min(through);
        }
    }
    least[action.node_count + 1]
}

/// The estimates of all facts that a file may have, at variable times 66 plus value.
type Facts = [Estimate; FACTS];
const VALUES: usize = Probe::VALUES as usize;
const FACTS: usize = Probe::VARIABLES as usize * VALUES;

/// Stores 0 for the facts of a state.
fn start(facts: &mut Facts, state: &[u8]) {
    for (row, &value) in facts.chunks_exact_mut(VALUES).zip(state) {
        row[usize::from(value)] = Estimate::Exact(0);
    }
}

/// The sum of the estimates of a goal's facts.
fn sum_of(facts: &Facts, goal: PartialState) -> Estimate {
    goal.facts()
        .fold(Estimate::Exact(0), |sum, (variable, value)| sum.plus(facts[variable * VALUES + usize::from(value)]))
}

/// One number for every fact of a file, for the rounds.
struct Numbers {
    first: [u16; 64],
    numbers: Vec<u64>,
}

impl Numbers {
    /// 0 for the facts of a state, else never.
    fn of(sizes: &[u8], state: &[u8]) -> Numbers {
        let mut first = [0; 64];
        let mut count = 0;
        for (place, &size) in first.iter_mut().zip(sizes) {
            *place = count;
            count += u16::from(size);
        }
        let mut numbers = vec![NEVER; usize::from(count)];
        for (&place, &value) in first.iter().zip(state) {
            numbers[usize::from(place) + usize::from(value)] = 0;
        }
        Numbers { first, numbers }
    }

    /// Goes through rounds until one changes nothing; numbers lowered in a round are used at once, which ends at the same numbers.
    fn settle(&mut self, mut round: impl FnMut(&mut Numbers) -> bool) {
        while round(self) {}
    }

    /// The number of a fact.
    fn of_fact(&self, variable: usize, value: usize) -> u64 {
        self.numbers[usize::from(self.first[variable]) + value]
    }

    /// The sum of the numbers of facts.
    fn sum(&self, partial: PartialState) -> u64 {
        partial.facts().map(|(variable, value)| self.of_fact(variable, usize::from(value))).sum()
    }

    /// Lowers the numbers of facts to a sum that is not never, where it is less, and tells whether any has changed.
    fn lower(&mut self, partial: PartialState, sum: u64) -> bool {
        let number = sum.min(OVER);
        let mut changed = false;
        for (variable, value) in partial.facts() {
            let place = usize::from(self.first[variable]) + usize::from(value);
            if number < self.numbers[place] {
                self.numbers[place] = number;
                changed = true;
            }
        }
        changed
    }

    /// Stores the estimates of all facts of the file.
    fn store(&self, sizes: &[u8], facts: &mut Facts) {
        let mut numbers = self.numbers.iter();
        for (row, &size) in facts.chunks_exact_mut(VALUES).zip(sizes) {
            for (place, &number) in row.iter_mut().zip(numbers.by_ref().take(usize::from(size))) {
                *place = Estimate::of(number);
            }
        }
    }
}
