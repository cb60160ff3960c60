//! Tasks and probe files that are made for one purpose: the documents' own, the longest, those whose paths pass few or many nodes, one whose costs have every
//! number of digits, those whose preconditions raise a relaxed cost, and those whose estimates are near the limit.

use crate::model::{ActionModel, Facts, NodeModel, ProbeModel, StepModel, TaskModel};
use crate::parts::{Probe, Task};

/// Document 01's task P: one variable, one action whose cost the variable decides.
pub fn task_p() -> TaskModel {
    TaskModel {
        sizes: vec![2],
        initial: vec![0],
        goal: vec![(0, 1)],
        actions: vec![ActionModel {
            precondition: Facts::new(),
            effect: vec![(0, 1)],
            incoming: 3,
            nodes: vec![NodeModel { variable: 0, edges: vec![(2, 5), (2, 0)] }],
        }],
    }
}

/// Document 02's blank task, whose file has zero bytes: one variable of 2 values at 0, an empty goal, no actions.
pub fn blank_task() -> TaskModel {
    TaskModel { sizes: vec![2], initial: vec![0], ..TaskModel::default() }
}

/// Every variable of a state of `count` variables at a value.
pub fn all(count: u8, value: u8) -> Facts {
    (0..count).map(|variable| (variable, value)).collect()
}

/// The longest task, of 3,826 bytes: every count at its limit, every domain of 8 values, every partial state full; its probe file has 13,846 bytes.
pub fn longest_task() -> TaskModel {
    let node = |variable, target| NodeModel {
        variable,
        edges: (0..u16::from(Task::VALUES)).map(|value| (target, value)).collect(),
    };
    let action = |number: u8| ActionModel {
        precondition: all(Task::VARIABLES, number % Task::VALUES),
        effect: all(Task::VARIABLES, (number + 1) % Task::VALUES),
        incoming: u16::from(number),
        nodes: vec![node(number % 12, 2), node(12 + number % 12, 3)],
    };
    TaskModel {
        sizes: vec![Task::VALUES; usize::from(Task::VARIABLES)],
        initial: vec![0; usize::from(Task::VARIABLES)],
        goal: all(Task::VARIABLES, 0),
        actions: (0..Task::ACTIONS).map(action).collect(),
    }
}

/// The longest probe file, of 76,214 bytes: every count at its limit and every partial state full.
pub fn longest_probe() -> ProbeModel {
    let step = |number: u16| StepModel {
        precondition: all(Probe::VARIABLES, (number % u16::from(Probe::VALUES)) as u8),
        effect: all(Probe::VARIABLES, ((number + 1) % u16::from(Probe::VALUES)) as u8),
        cost: 65_535 - number,
    };
    ProbeModel {
        sizes: vec![Probe::VALUES; usize::from(Probe::VARIABLES)],
        initial: vec![0; usize::from(Probe::VARIABLES)],
        goal: all(Probe::VARIABLES, 0),
        steps: (0..Probe::STEPS).map(step).collect(),
    }
}

/// One action that passes a node for each of 24 variables: 26 steps, and 256 of it make the longest probe list of a source plan.
pub fn long_path(values: u8) -> TaskModel {
    let node = |variable| NodeModel { variable, edges: (0..values).map(|_| (variable + 2, 65_535)).collect() };
    TaskModel {
        sizes: vec![values; usize::from(Task::VARIABLES)],
        initial: vec![0; usize::from(Task::VARIABLES)],
        goal: Facts::new(),
        actions: vec![ActionModel {
            incoming: 65_535,
            effect: vec![(0, 1)],
            nodes: (0..Task::VARIABLES).map(node).collect(),
            ..ActionModel::default()
        }],
    }
}

/// Action 0 has 64 nodes in 24 layers, one layer a variable; the weights of a node are its number. By its variable's value a node leads to the first node of the
/// next layer (0), to its second (1), past that layer (2) or to the terminal (3); nothing leads to a third. The other actions have no nodes: 1 to 4 set every
/// variable to 0 to 3, and 5 sets the one in the middle to 3.
pub fn layers() -> TaskModel {
    let terminal = Task::NODES as u8 + 1;
    // The first 16 layers have three nodes, the last 8 two.
    let first = |layer: u8| (3 * layer + 1).min(2 * layer + 17).min(terminal);
    let node = |layer, number: u8| {
        let targets = [first(layer + 1), terminal.min(first(layer + 1) + 1), first(layer + 2), terminal];
        NodeModel { variable: layer, edges: targets.map(|target| (target, number.into())).to_vec() }
    };
    let layer = |layer| (first(layer)..first(layer + 1)).map(move |number| node(layer, number));
    let mut effects: Vec<Facts> = (0..4).map(|value| all(Task::VARIABLES, value)).collect();
    effects.push(vec![(Task::VARIABLES / 2, 3)]);
    let mut actions =
        vec![ActionModel { nodes: (0..Task::VARIABLES).flat_map(layer).collect(), ..ActionModel::default() }];
    actions.extend(effects.into_iter().map(|effect| ActionModel { effect, incoming: 7, ..ActionModel::default() }));
    TaskModel {
        sizes: vec![4; usize::from(Task::VARIABLES)],
        initial: vec![0; usize::from(Task::VARIABLES)],
        goal: Facts::new(),
        actions,
    }
}

/// The costs of the actions of `every_width`, lowest first.
const COSTS: [u32; Task::ACTIONS as usize] = [
    0, 1, 2, 3, 5, 7, 9, 10, 11, 42, 99, 100, 101, 250, 999, 1_000, 1_001, 1_234, 9_999, 10_000, 10_001, 12_345,
    56_789, 65_535, 65_536, 99_999, 100_000, 100_001, 234_567, 999_999, 1_000_000, 1_638_375,
];

/// 32 actions that always apply, with costs of 1 to 7 digits that no state changes: 0 to the greatest cost that there is.
pub fn every_width() -> TaskModel {
    TaskModel {
        sizes: vec![2; usize::from(Task::VARIABLES)],
        initial: vec![0; usize::from(Task::VARIABLES)],
        goal: Facts::new(),
        actions: COSTS.into_iter().map(costing).collect(),
    }
}

/// An action of one cost in all states: what its incoming weight leaves is left to its nodes, one a variable.
fn costing(cost: u32) -> ActionModel {
    let incoming = cost.min(65_535) as u16;
    let mut left = cost - u32::from(incoming);
    let mut nodes = Vec::new();
    while left > 0 {
        let (variable, weight) = (nodes.len() as u8, left.min(65_535) as u16);
        nodes.push(NodeModel { variable, edges: vec![(variable + 2, weight); 2] });
        left -= u32::from(weight);
    }
    ActionModel { incoming, nodes, ..ActionModel::default() }
}

/// The longest path with weights that grow with the value, and the greatest value of so many variables in the precondition: each of these adds 7 to the least cost.
pub fn narrowed_path(facts: u8) -> TaskModel {
    let mut task = long_path(Task::VALUES);
    let action = &mut task.actions[0];
    action.precondition = all(facts, Task::VALUES - 1);
    for node in &mut action.nodes {
        for (edge, value) in node.edges.iter_mut().zip(0..) {
            edge.1 = value;
        }
    }
    task
}

/// Levels of facts, two a level, each action from one level to the next: the numbers are 65,535 and then twice the last and `added`.
pub fn doubling(levels: u8, added: u16) -> TaskModel {
    let level = |number: u8| {
        let (pair, value) = ((number - 1) / 7, (number - 1) % 7 + 1);
        vec![(2 * pair, value), (2 * pair + 1, value)]
    };
    let action = |number| ActionModel {
        precondition: if number == 1 { Facts::new() } else { level(number - 1) },
        effect: level(number),
        incoming: match number {
            1 => 65_535,
            _ if number == levels => added,
            _ => 1,
        },
        nodes: Vec::new(),
    };
    TaskModel {
        sizes: vec![8; 6],
        initial: vec![0; 6],
        goal: vec![level(levels)[0]],
        actions: (1..=levels).map(action).collect(),
    }
}
