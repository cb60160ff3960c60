//! Random inputs from fixed seeds: tasks, probe files, lists that apply, and damage.

use crate::model::{holds, set, ActionModel, Facts, NodeModel, ProbeModel, StepModel, TaskModel};
use crate::parts::Task;
use crate::special::all;

/// A small random generator (xorshift, multiplied).
pub struct Random(u64);

impl Random {
    /// The generator for a seed.
    pub fn new(seed: u64) -> Random {
        Random(seed.wrapping_add(1).wrapping_mul(0x9e37_79b9_7f4a_7c15) | 1)
    }

    /// The next 64 bits.
    pub fn bits(&mut self) -> u64 {
        self.0 ^= self.0 >> 12;
        self.0 ^= self.0 << 25;
        self.0 ^= self.0 >> 27;
        self.0.wrapping_mul(0x2545_f491_4f6c_dd1d)
    }

    /// A number below a bound.
    pub fn below(&mut self, bound: usize) -> usize {
        (self.bits() >> 33) as usize % bound
    }

    /// A number in a range, both ends included.
    pub fn within(&mut self, (least, most): (usize, usize)) -> usize {
        least + self.below(most - least + 1)
    }

    /// True so many times in a hundred.
    pub fn chance(&mut self, percent: usize) -> bool {
        self.below(100) < percent
    }

    /// One of several.
    pub fn pick<T: Copy>(&mut self, items: &[T]) -> T {
        items[self.below(items.len())]
    }

    /// A value for each domain size.
    pub fn state(&mut self, sizes: &[u8]) -> Vec<u8> {
        sizes.iter().map(|&size| self.value(size)).collect()
    }

    /// A set of values for each domain size of at most 8, with the value that a state has, and for none, half or most of the variables with no other.
    pub fn sets_with(&mut self, state: &[u8], sizes: &[u8]) -> Vec<u8> {
        let alone = self.pick(&[0, 50, 90]);
        let mut others = |size: u8| if self.chance(alone) { 0 } else { self.below(1 << size) as u8 };
        state.iter().zip(sizes).map(|(value, &size)| 1 << value | others(size)).collect()
    }

    /// What is left of a set without a value, or another value of the domain where nothing is.
    pub fn set_without(&mut self, value: u8, set: u8, size: u8) -> u8 {
        match set & !(1 << value) {
            0 => 1 << ((value + 1 + self.value(size - 1)) % size),
            left => left,
        }
    }

    /// A set that is empty, or, where the domain leaves room for it, has a stray bit.
    pub fn wrong_set(&mut self, set: u8, size: u8) -> u8 {
        match self.pick(&[0, Task::VALUES - size]) {
            0 => 0,
            room => set | 1 << (size + self.value(room)),
        }
    }

    /// A value of a domain.
    fn value(&mut self, size: u8) -> u8 {
        self.below(usize::from(size)) as u8
    }

    /// Facts of some of the variables.
    pub fn facts(&mut self, sizes: &[u8], percent: usize) -> Facts {
        let mut facts = Facts::new();
        for (&size, variable) in sizes.iter().zip(0..) {
            if self.chance(percent) {
                facts.push((variable, self.value(size)));
            }
        }
        facts
    }

    /// A weight below a bound, or now and then one of the extremes.
    fn weight(&mut self, bound: usize) -> u16 {
        match self.below(12) {
            0 => 0,
            1 => (bound - 1) as u16,
            _ => self.below(bound) as u16,
        }
    }
}

/// The ranges that the counts of a random task are taken from.
#[derive(Clone, Copy)]
pub struct Shape {
    pub variables: (usize, usize),
    pub values: (usize, usize),
    pub actions: (usize, usize),
    pub nodes: (usize, usize),
}

pub const TINY: Shape = Shape { variables: (1, 3), values: (2, 3), actions: (1, 3), nodes: (0, 6) };
pub const SMALL: Shape = Shape { variables: (1, 4), values: (2, 4), actions: (1, 5), nodes: (0, 8) };
pub const TYPICAL: Shape = Shape { variables: (4, 12), values: (2, 5), actions: (4, 16), nodes: (4, 40) };
pub const LARGE: Shape =
    Shape { variables: (16, VARIABLES), values: (2, VALUES), actions: (20, ACTIONS), nodes: (40, Task::NODES) };
pub const LIMITS: Shape = Shape {
    variables: (VARIABLES, VARIABLES),
    values: (VALUES, VALUES),
    actions: (ACTIONS, ACTIONS),
    nodes: (Task::NODES, Task::NODES),
};
/// Few actions of many nodes.
pub const DIAGRAMS: Shape =
    Shape { variables: (VARIABLES, VARIABLES), values: (2, VALUES), actions: (1, 4), nodes: (40, Task::NODES) };

const VARIABLES: usize = Task::VARIABLES as usize;
const VALUES: usize = Task::VALUES as usize;
const ACTIONS: usize = Task::ACTIONS as usize;

/// How full partial states are and how large weights get, for one file.
struct Density {
    precondition: usize,
    effect: usize,
    goal: usize,
    weights: usize,
}

/// A density for files of so many variables: partial states of a few facts, or now and then none, or all.
fn density(random: &mut Random, variables: usize) -> Density {
    let few = 100 / variables.max(2);
    Density {
        precondition: random.pick(&[0, few, few, few, 2 * few, 100]),
        effect: random.pick(&[0, few, 2 * few, 2 * few, 100]),
        goal: random.pick(&[0, few, 2 * few, 100]),
        weights: random.pick(&[1, 2, 10, 1_000, 65_536]),
    }
}

/// A random task of a shape.
pub fn task(random: &mut Random, shape: Shape) -> TaskModel {
    let sizes: Vec<u8> = (0..random.within(shape.variables)).map(|_| random.within(shape.values) as u8).collect();
    let density = density(random, sizes.len());
    let mut node_counts = vec![0; random.within(shape.actions)];
    for _ in 0..random.within(shape.nodes) {
        let action = random.below(node_counts.len());
        node_counts[action] += 1;
    }
    TaskModel {
        initial: random.state(&sizes),
        goal: random.facts(&sizes, density.goal),
        actions: node_counts.iter().map(|&nodes| action(random, &sizes, &density, nodes)).collect(),
        sizes,
    }
}

/// A random action with so many nodes.
fn action(random: &mut Random, sizes: &[u8], density: &Density, nodes: usize) -> ActionModel {
    ActionModel {
        precondition: random.facts(sizes, density.precondition),
        effect: random.facts(sizes, density.effect),
        incoming: random.weight(density.weights),
        nodes: diagram(random, sizes, density.weights, nodes),
    }
}

/// A random EVMDD: mostly in layers, with an edge often to the next layer; some nodes are reached by nothing.
fn diagram(random: &mut Random, sizes: &[u8], weights: usize, count: usize) -> Vec<NodeModel> {
    let mut variables: Vec<u8> = (0..count).map(|_| random.below(sizes.len()) as u8).collect();
    if random.chance(80) {
        variables.sort_unstable();
    }
    let mut nodes = Vec::new();
    for (index, &variable) in variables.iter().enumerate() {
        let later: Vec<u8> =
            (index + 1..count).filter(|&other| variables[other] > variable).map(|other| other as u8 + 1).collect();
        let edges = (0..sizes[usize::from(variable)])
            .map(|_| {
                let target = target(random, &later, count as u8 + 1);
                (target, random.weight(weights))
            })
            .collect();
        nodes.push(NodeModel { variable, edges });
    }
    nodes
}

/// A target: the next node that may be one, any such node, or the terminal.
fn target(random: &mut Random, later: &[u8], terminal: u8) -> u8 {
    match (later.first(), random.below(20)) {
        (Some(&next), 0..=11) => next,
        (Some(_), 12..=16) => random.pick(later),
        _ => terminal,
    }
}

/// A random probe file that no task was compiled to, within so many variables, values and steps.
pub fn probe(random: &mut Random, variables: usize, values: usize, steps: usize) -> ProbeModel {
    let sizes: Vec<u8> = (0..random.within((1, variables))).map(|_| random.within((2, values)) as u8).collect();
    let density = density(random, sizes.len());
    ProbeModel {
        initial: random.state(&sizes),
        goal: random.facts(&sizes, density.goal),
        steps: (0..random.within((0, steps)))
            .map(|_| StepModel {
                precondition: random.facts(&sizes, density.precondition),
                effect: random.facts(&sizes, density.effect),
                cost: random.weight(density.weights),
            })
            .collect(),
        sizes,
    }
}

/// A random walk: a list of at most so many operators (precondition and effect) that applies, and the state that it ends in.
pub fn walk(random: &mut Random, initial: &[u8], operators: &[(&Facts, &Facts)], most: usize) -> (Vec<u16>, Vec<u8>) {
    let mut state = initial.to_vec();
    let mut list = Vec::new();
    while list.len() < most {
        let Some(number) = applicable(random, &state, operators) else {
            break;
        };
        set(operators[number].1, &mut state);
        list.push(number as u16);
    }
    (list, state)
}

/// An operator that applies in a state: the first one from a random place on.
fn applicable(random: &mut Random, state: &[u8], operators: &[(&Facts, &Facts)]) -> Option<usize> {
    let count = operators.len();
    let first = random.below(count.max(1));
    (first..first + count).map(|number| number % count).find(|&number| holds(operators[number].0, state))
}

/// Some facts of a state, or all, or none: a goal that holds in it.
pub fn goal_in(random: &mut Random, state: &[u8]) -> Facts {
    let percent = random.pick(&[0, 20, 50, 100]);
    (0..).zip(state).filter(|_| random.chance(percent)).map(|(variable, &value)| (variable, value)).collect()
}

impl TaskModel {
    /// Precondition and effect of each action.
    pub fn operators(&self) -> Vec<(&Facts, &Facts)> {
        self.actions.iter().map(|action| (&action.precondition, &action.effect)).collect()
    }
}

impl ProbeModel {
    /// Precondition and effect of each step.
    pub fn operators(&self) -> Vec<(&Facts, &Facts)> {
        self.steps.iter().map(|step| (&step.precondition, &step.effect)).collect()
    }
}

/// A list with one thing changed: an entry, its length, an entry repeated, left out, exchanged, or out of range.
pub fn damaged_list(random: &mut Random, list: &[u16], count: usize) -> Vec<u16> {
    let mut list = list.to_vec();
    let at = random.below(list.len().max(1));
    let last = list.len().saturating_sub(1);
    let entry = random.below(count.max(1)) as u16;
    match random.below(7) {
        _ if list.is_empty() => list.push(entry),
        0 => list[at] = entry,
        1 => list.truncate(at),
        2 => list.insert(at, list[at]),
        3 => drop(list.remove(at)),
        4 => list[at] = random.pick(&[count as u16, count as u16 + 1, 255, 256, 65_535]),
        5 => list.swap(at, last),
        _ => list.push(entry),
    }
    list
}

/// A file with one thing changed: a byte, a bit, its length, a byte put in or left out; one of zero bytes gets a byte.
pub fn damaged_file(random: &mut Random, file: &[u8]) -> Vec<u8> {
    let mut file = file.to_vec();
    let at = random.below(file.len().max(1));
    match random.below(8) {
        _ if file.is_empty() => file.push(random.bits() as u8),
        0 | 1 => file[at] = random.bits() as u8,
        2 | 3 => file[at] ^= 1 << random.below(8),
        4 => file[at] = file[at].wrapping_add(random.pick(&[1, 255])),
        5 => file.truncate(at),
        6 => file.insert(at, random.bits() as u8),
        _ => drop(file.remove(at)),
    }
    file
}

/// Levels of many facts: numbers grow many times over with each level, so that estimates are soon over.
pub fn ladder(random: &mut Random) -> TaskModel {
    let count = random.within((3, usize::from(Task::VARIABLES))) as u8;
    let levels = random.within((2, 7)) as u8;
    let sizes = vec![Task::VALUES; usize::from(count)];
    let action = |level| {
        let nodes = random.below(3);
        ActionModel {
            precondition: all(count, level),
            effect: all(count, level + 1),
            incoming: random.weight(65_536),
            nodes: diagram(random, &sizes, 65_536, nodes),
        }
    };
    let mut actions: Vec<_> = (0..levels).map(action).collect();
    let last = actions.len() - 1;
    actions.swap(0, random.below(last + 1));
    TaskModel { initial: vec![0; sizes.len()], goal: random.facts(&vec![levels + 1; sizes.len()], 30), actions, sizes }
}
