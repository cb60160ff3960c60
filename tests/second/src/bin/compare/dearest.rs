//! Document 02's W11: dearest states written out, buffers of every length for them, and what is turned down, in order; and what holds for every dearest state.

use crate::answers::Situation;
use crate::comparison::{Comparison, Written};
use crate::document::{dearest, node, plain, refusal, x_y_z};
use crate::passed::{reached, those};
use second::call::{low, refused, Call, Operation};
use second::definition::states;
use second::generate::{self, Random, Shape};
use second::model::{holds, ActionModel, NodeModel, TaskModel};
use second::parts::Task;
use second::special::{every_width, layers, long_path, longest_task, narrowed_path, task_p};
use second::Reason;
use std::cmp::Ordering;

/// The greatest cost that there is: 65,535 for the incoming weight and for each of 24 nodes.
const MOST: u32 = 1_638_375;

/// Numbers that no action has; the low bits of some are action 0's.
const MISSING: [u64; 11] = [32, 33, 255, 256, 65_535, 65_536, 1 << 32, (1 << 32) - 1, 1 << 56, 1 << 63, u64::MAX];

/// A name, a task, the dearest state of its action 0, and the cost there.
type Case = (&'static str, TaskModel, Vec<u8>, u32);

/// Dearest states, and what has none.
pub fn cases(comparison: &mut Comparison) {
    comparison.kind("dearest states written out; calls without one");
    for cases in [known(), one_node(), several_nodes(), odd_nodes(), at_limits()] {
        written_out(comparison, cases);
    }
    every_action(comparison);
    refused_files(comparison);
    no_such_action(comparison);
    comparison.kind("dearest states of small tasks, and every state");
    every_state(comparison);
    comparison.kind("dearest states of long diagrams");
    long_diagrams(comparison);
}

/// Sees that the cases are answered as written, in buffers of every length up to 2 more than needed.
fn written_out(comparison: &mut Comparison, cases: Vec<Case>) {
    for (name, task, state, cost) in cases {
        let file = task.bytes();
        let call = Call::on(Operation::Dearest, &file);
        let needed = task.sizes.len();
        for room in 0..needed {
            comparison.document(name, &call, room, refusal(7, needed));
        }
        for more in [0, 1, 2, 300] {
            comparison.document(name, &call, needed + more, dearest(&state, cost));
        }
        ask(comparison, &mut Random::new(0), &task, &file, 0);
    }
}

/// A task of one action with these weights, which begins where every variable has its greatest value.
fn costing(sizes: &[u8], incoming: u16, nodes: Vec<NodeModel>) -> TaskModel {
    TaskModel {
        sizes: sizes.to_vec(),
        initial: sizes.iter().map(|size| size - 1).collect(),
        goal: Vec::new(),
        actions: vec![ActionModel { incoming, nodes, ..ActionModel::default() }],
    }
}

/// The documents' tasks, and actions without nodes.
fn known() -> Vec<Case> {
    vec![
        ("P: 8 at (0)", task_p(), vec![0], 8),
        ("xy²+z+2: 7 at (1,2,1)", x_y_z(&[]), vec![1, 2, 1], 7),
        ("xy²+z+2, and x=0, z=0 are needed", x_y_z(&[(0, 0), (2, 0)]), vec![1, 2, 1], 7),
        ("no nodes", costing(&[2, 8, 3], 9, Vec::new()), vec![0; 3], 9),
        ("no nodes, and the greatest weight", costing(&[8], 65_535, Vec::new()), vec![0], 65_535),
        ("no nodes, and no weight", plain(24, 8), vec![0; 24], 0),
    ]
}

/// Diagrams of one node.
fn one_node() -> Vec<Case> {
    let of_weights = |weights: &[u16]| {
        let edges: Vec<_> = weights.iter().map(|&weight| (2, weight)).collect();
        costing(&[weights.len() as u8], 1, vec![node(0, &edges)])
    };
    let third = costing(&[3, 2, 3, 2], 0, vec![node(2, &[(2, 1), (2, 0), (2, 3)])]);
    let mut last = costing(&[2; 24], 0, vec![node(23, &[(2, 0), (2, 1)])]);
    last.actions.push(ActionModel { incoming: 9, ..ActionModel::default() });
    vec![
        ("the first value", of_weights(&[5, 4, 3]), vec![0], 6),
        ("the last of eight values", of_weights(&[5, 5, 5, 5, 5, 5, 5, 6]), vec![7], 7),
        ("the first of two values as dear", of_weights(&[4, 9, 9, 1]), vec![1], 10),
        ("the first and the last as dear", of_weights(&[9, 4, 9]), vec![0], 10),
        ("all values as dear", of_weights(&[5; 8]), vec![0], 6),
        ("no weight", of_weights(&[0; 8]), vec![0], 1),
        ("255 against 256", of_weights(&[255, 256]), vec![1], 257),
        ("one variable of four is tested", third, vec![0, 0, 2, 0], 3),
        ("the last variable of 24 is tested", last, [&[0; 23][..], &[1]].concat(), 1),
    ]
}

/// Diagrams in which the walk matters.
fn several_nodes() -> Vec<Case> {
    let two =
        |first: [(u8, u16); 2], second: [(u8, u16); 2]| costing(&[2, 2], 0, vec![node(0, &first), node(1, &second)]);
    let crossed =
        vec![node(0, &[(2, 0), (3, 0)]), node(1, &[(4, 0), (4, 1), (4, 6)]), node(1, &[(4, 2), (4, 6), (4, 0)])];
    let skipping = |past| {
        let nodes = vec![node(0, &[(2, 0), (3, past)]), node(1, &[(3, 1), (3, 2), (3, 3)]), node(2, &[(4, 0), (4, 2)])];
        costing(&[2, 3, 2], 0, nodes)
    };
    vec![
        ("(0,1), (1,0) and (1,1) as dear", two([(2, 0), (3, 5)], [(3, 0), (3, 5)]), vec![0, 1], 5),
        ("(0,2) and (1,1) as dear", costing(&[2, 3], 0, crossed), vec![0, 2], 6),
        ("a light edge to a heavy one", two([(3, 7), (2, 1)], [(3, 0), (3, 9)]), vec![1, 1], 10),
        ("a heavy edge as dear as a longer way", two([(3, 6), (2, 1)], [(3, 0), (3, 5)]), vec![0, 0], 6),
        ("a longer way as dear as a heavy edge", two([(2, 1), (3, 6)], [(3, 0), (3, 5)]), vec![0, 1], 6),
        ("no weight at two nodes", two([(2, 0), (2, 0)], [(3, 0), (3, 0)]), vec![0, 0], 0),
        ("past a variable", skipping(4), vec![1, 0, 1], 6),
        ("past a variable, and as dear through it", skipping(3), vec![0, 2, 1], 5),
    ]
}

/// Diagrams with nodes that nothing reaches, and with nodes that are not in the order of their variables.
fn odd_nodes() -> Vec<Case> {
    let heavy = |target| node(0, &[(target, 65_535), (target, 65_535)]);
    let between = vec![node(0, &[(3, 1), (3, 2)]), heavy(3), node(1, &[(4, 3), (4, 0)])];
    let last = vec![node(1, &[(3, 0), (3, 1)]), heavy(3)];
    let turned = |third| {
        let behind = [node(1, &[(4, 0), (4, third)]), node(2, &[(5, 1), (5, 0)])];
        let nodes = [&[node(0, &[(3, 0), (2, 0)]), node(2, &[(5, 1), (5, 3)])], &behind[..]].concat();
        costing(&[2, 2, 2], 0, nodes)
    };
    vec![
        ("a heavy node between, reached by nothing", costing(&[2, 2], 0, between), vec![1, 0], 5),
        ("a heavy node last, reached by nothing", costing(&[2, 2], 0, last), vec![0, 1], 1),
        ("node 2 tests the last variable", turned(1), vec![1, 0, 1], 3),
        ("node 2 tests the last variable, and nodes 3 and 4 are as dear", turned(2), vec![0, 1, 0], 3),
        ("node 2 tests the last variable, and nodes 3 and 4 are dearer", turned(3), vec![0, 1, 0], 4),
    ]
}

/// Paths of 24 nodes, and 64 nodes.
fn at_limits() -> Vec<Case> {
    let mut steep = long_path(Task::VALUES);
    for node in &mut steep.actions[0].nodes {
        node.edges[..7].iter_mut().for_each(|(_, weight)| *weight -= 1);
    }
    vec![
        ("24 nodes of 2 values, all as dear", long_path(2), vec![0; 24], MOST),
        ("24 nodes of 8 values, all as dear", long_path(Task::VALUES), vec![0; 24], MOST),
        ("24 nodes, the last of 8 values", steep, vec![7; 24], MOST),
        ("24 nodes, and no value is needed", narrowed_path(0), vec![7; 24], 65_535 + 24 * 7),
        ("24 nodes, and the dearest state is needed", narrowed_path(24), vec![7; 24], 65_535 + 24 * 7),
        ("64 nodes in layers, some reached by nothing", layers(), [&[1; 23][..], &[0]].concat(), 847),
    ]
}

/// Each of 32 actions of the longest task, two nodes each; and of the task with costs that no state changes.
fn every_action(comparison: &mut Comparison) {
    let (longest, widths) = (longest_task(), every_width());
    let files = [longest.bytes(), widths.bytes()];
    for number in 0..Task::ACTIONS {
        let mut state = [0; 24];
        state[usize::from(number % 12)] = 7;
        state[usize::from(12 + number % 12)] = 7;
        let constant = widths.actions[usize::from(number)].cost(&[0; 24]).0;
        let wanted = [dearest(&state, u32::from(number) + 14), dearest(&[0; 24], constant)];
        for (file, wanted) in files.iter().zip(wanted) {
            let call = Call::on(Operation::Dearest, file).action(number.into());
            comparison.document("one of 32 actions", &call, 24, wanted);
        }
        for (task, file) in [&longest, &widths].into_iter().zip(&files) {
            ask(comparison, &mut Random::new(number.into()), task, file, number.into());
        }
    }
}

/// Files that are refused, also behind the action that is asked for, and whatever the action and the buffer are.
fn refused_files(comparison: &mut Comparison) {
    let p = task_p();
    let file = p.bytes();
    let with = |at: usize, byte: u8| {
        let mut file = file.clone();
        file[at] = byte;
        file
    };
    let two = TaskModel { actions: vec![p.actions[0].clone(); 2], ..p }.bytes();
    let cases = [
        ("P cut", file[..39].to_vec(), 1, 38),
        ("P and a byte", [&file[..], &[0]].concat(), 2, 40),
        ("no variables", with(0, 0), 3, 0),
        ("an initial value", with(2, 2), 4, 2),
        ("the goal's map", with(3, 2), 5, 3),
        ("the node's variable", with(33, 1), 6, 33),
        ("the second action cut", two[..66].to_vec(), 1, 65),
        ("the second action's node", [&two[..64], &[3, 0, 0]].concat(), 6, 64),
    ];
    for (name, file, number, place) in cases {
        for action in [0, 1, 2, 1 << 32, u64::MAX] {
            for room in [0, 1, 2, 300] {
                let call = Call::on(Operation::Dearest, &file).action(action);
                comparison.document(name, &call, room, refusal(number, place));
            }
        }
    }
}

/// Numbers that no action has, in buffers of every length up to 2 more than needed.
fn no_such_action(comparison: &mut Comparison) {
    for task in [task_p(), x_y_z(&[]), plain(24, 8), longest_task(), layers()] {
        let file = task.bytes();
        for action in MISSING.into_iter().chain([task.actions.len() as u64]) {
            let call = Call::on(Operation::Dearest, &file).action(action);
            for room in 0..=task.sizes.len() + 2 {
                comparison.document("no such action", &call, room, refusal(11, 0));
            }
        }
    }
}

/// Dearest states of small tasks in buffers of every length up to 2 more than needed, and the costs in all states.
fn every_state(comparison: &mut Comparison) {
    for (shape, seeds) in [(generate::TINY, 300), (generate::SMALL, 100)] {
        for seed in 0..seeds {
            comparison.seed(seed);
            let random = &mut Random::new(seed);
            let task = levelled(random, shape);
            let file = task.bytes();
            for action in 0..=task.actions.len() {
                let call = Call::on(Operation::Dearest, &file).action(action as u64);
                for room in 0..=task.sizes.len() + 2 {
                    comparison.with_room(&call, room);
                }
            }
            for action in 0..task.actions.len() {
                let written = ask(comparison, random, &task, &file, action);
                let call = Call::on(Operation::Dearest, &file).action(action as u64);
                for state in states(&task.sizes).expect("few states") {
                    in_state(comparison, &call, &written, &state);
                }
            }
        }
    }
}

/// Dearest states of all actions of tasks with long diagrams.
fn long_diagrams(comparison: &mut Comparison) {
    for (shape, seeds) in [(generate::TYPICAL, 100), (generate::DIAGRAMS, 400)] {
        for seed in 0..seeds {
            comparison.seed(seed);
            let random = &mut Random::new(seed);
            let task = levelled(random, shape);
            let file = task.bytes();
            for action in 0..task.actions.len() {
                ask(comparison, random, &task, &file, action);
            }
        }
    }
}

/// A random task of a shape, in whose diagrams many edges are as dear as the dearest of their node, or almost; now and then one as it comes.
fn levelled(random: &mut Random, shape: Shape) -> TaskModel {
    let mut task = generate::task(random, shape);
    let percent = random.pick(&[0, 20, 50, 90]);
    for action in &mut task.actions {
        let mut costs = vec![0; action.nodes.len() + 2];
        for (index, node) in action.nodes.iter_mut().enumerate().rev() {
            level(random, percent, node, &costs);
            costs[index + 1] = ways(node, &costs).max().unwrap_or(0);
        }
    }
    task
}

/// Gives so many edges of a node in a hundred a weight with which they are as dear as its dearest, or less by 1.
fn level(random: &mut Random, percent: usize, node: &mut NodeModel, costs: &[u32]) {
    let greatest = ways(node, costs).max().unwrap_or(0);
    for (target, weight) in &mut node.edges {
        let missing = (greatest - costs[usize::from(*target)]).saturating_sub(random.pick(&[0, 0, 0, 1]));
        if random.chance(percent) {
            *weight = u16::try_from(missing).unwrap_or(*weight);
        }
    }
}

/// Asks for the dearest states of two actions of a task, and of two that it has not.
pub fn some(comparison: &mut Comparison, random: &mut Random, task: &TaskModel, file: &[u8]) {
    let count = task.actions.len();
    for _ in 0..2 {
        if count > 0 {
            let action = random.below(count);
            ask(comparison, random, task, file, action);
        }
        let missing = random.pick(&MISSING);
        for action in [count as u64, missing] {
            let call = Call::on(Operation::Dearest, file).action(action);
            for room in [0, task.sizes.len() - 1, task.sizes.len() + 2] {
                let answer = comparison.with_room(&call, room).answer;
                comparison.law("11, whatever the room", &call, refused(Reason::NoSuchStep as u8, 0), answer);
            }
            comparison.met(Situation::MissingNoRoom);
        }
    }
}

/// Asks for the dearest state of an action, and holds it against costs in other states, against the relaxed cost, and against the action in a task of its own.
fn ask(comparison: &mut Comparison, random: &mut Random, task: &TaskModel, file: &[u8], number: usize) -> Written {
    let action = &task.actions[number];
    let call = Call::on(Operation::Dearest, file).action(number as u64);
    let written = comparison.every_room(&call);
    in_state(comparison, &call, &written, &written.bytes);
    in_state(comparison, &call, &written, &task.initial);
    for _ in 0..3 {
        in_state(comparison, &call, &written, &random.state(&task.sizes));
        in_state(comparison, &call, &written, &near(random, &task.sizes, action, &written.bytes));
        in_state(comparison, &call, &written, &near(random, &task.sizes, action, &written.bytes));
    }
    relaxed(comparison, &call, &written, &task.sizes);
    of_its_own(comparison, &call, &written, task);
    for situation in situations(task, action, &written) {
        comparison.met(situation);
    }
    written
}

/// Asks for the cost in a state: the greatest in the dearest state, less in a smaller state, and no more in a greater one.
fn in_state(comparison: &mut Comparison, call: &Call, written: &Written, state: &[u8]) {
    let cost = low(comparison.answer(&Call { operation: Operation::Cost, ..*call }.state(state)));
    let greatest = low(written.answer);
    let (law, right) = match state.cmp(&written.bytes) {
        Ordering::Less => ("a smaller state costs less", cost < greatest),
        Ordering::Equal => ("the dearest state has the greatest cost", cost == greatest),
        Ordering::Greater => ("no state costs more", cost <= greatest),
    };
    comparison.law(law, call, 1, right.into());
}

/// A state that differs from the dearest in a variable that is passed, if any is, and in those behind it or not.
fn near(random: &mut Random, sizes: &[u8], action: &ActionModel, state: &[u8]) -> Vec<u8> {
    let (_, passed) = action.cost(state);
    let at = match passed[..] {
        [] => random.below(sizes.len()),
        _ => usize::from(action.nodes[random.pick(&passed) - 1].variable),
    };
    let other = random.state(sizes);
    let behind = if random.chance(50) { &other } else { state };
    [&state[..at], &other[at..=at], &behind[at + 1..]].concat()
}

/// Asks for the relaxed cost with all values in the sets: it is no more.
fn relaxed(comparison: &mut Comparison, call: &Call, written: &Written, sizes: &[u8]) {
    let sets: Vec<u8> = sizes.iter().map(|size| u8::MAX >> (Task::VALUES - size)).collect();
    let least = comparison.answer(&Call { operation: Operation::RelaxedCost, ..*call }.state(&sets));
    let greatest = u64::from(low(written.answer));
    comparison.law("the least cost is no more", call, least, least.min(greatest));
}

/// Asks about the action alone, with no precondition, effect or goal, from zeros: the same state and cost.
fn of_its_own(comparison: &mut Comparison, call: &Call, written: &Written, task: &TaskModel) {
    let ActionModel { incoming, nodes, .. } = task.actions[call.action as usize].clone();
    let alone = TaskModel { initial: vec![0; task.sizes.len()], ..costing(&task.sizes, incoming, nodes) };
    let again = comparison.with_room(&Call::on(Operation::Dearest, &alone.bytes()), task.sizes.len());
    comparison.law("in a task of its own, the same state and cost", call, 1, (again == *written).into());
}

/// The situations of a dearest state.
fn situations(task: &TaskModel, action: &ActionModel, written: &Written) -> Vec<Situation> {
    let (nodes, state, greatest) = (&action.nodes, &written.bytes, low(written.answer));
    let mut situations = on_the_way(action, state);
    situations.extend(those([
        (nodes.is_empty(), Situation::WithoutNodes),
        (nodes.len() == Task::NODES, Situation::MostNodes),
        (!nodes.is_empty() && greatest == 0, Situation::NothingToPay),
        (greatest == MOST, Situation::MostCost),
        (!holds(&action.precondition, state), Situation::NotApplying),
        (state == &[7; 24], Situation::MostValues),
        (smaller_from_last(task, action, written), Situation::SmallerFromLast),
    ]));
    situations
}

/// Whether another state is as dear and smaller when read from the last variable, where states are few.
fn smaller_from_last(task: &TaskModel, action: &ActionModel, written: &Written) -> bool {
    let as_dear = |state: &Vec<u8>| action.cost(state).0 == low(written.answer);
    let mut states = states(&task.sizes).unwrap_or_default();
    states.retain(as_dear);
    states.iter().any(|state| state.iter().rev().lt(written.bytes.iter().rev()))
}

/// The situations of the nodes that are passed in a dearest state, and of those that are not.
fn on_the_way(action: &ActionModel, state: &[u8]) -> Vec<Situation> {
    let (nodes, costs, reached) = (&action.nodes, costs_from(&action.nodes), reached(action));
    let passed: Vec<&NodeModel> = action.cost(state).1.iter().map(|number| &nodes[number - 1]).collect();
    let several = passed.iter().any(|node| {
        let greatest = ways(node, &costs).max();
        ways(node, &costs).filter(|&cost| Some(cost) == greatest).count() > 1
    });
    let lighter = |node: &&NodeModel| {
        let weight = node.edges[usize::from(state[usize::from(node.variable)])].1;
        node.edges.iter().any(|edge| edge.1 > weight)
    };
    let not_tested = |variable| passed.iter().all(|node| node.variable != variable);
    let numbers = || 1..=nodes.len();
    let skipped = |number| reached.contains(&number) && not_tested(nodes[number - 1].variable);
    let dearer = |number| !reached.contains(&number) && costs[number] > costs[1];
    those([
        (!several && passed.len() == state.len(), Situation::NoOtherState),
        (several, Situation::OtherValue),
        (passed.iter().any(lighter), Situation::LighterEdge),
        (numbers().any(skipped), Situation::TestedSkipped),
        (numbers().any(dearer), Situation::UnreachedDearer),
    ])
}

/// The greatest cost from each node on, by its number.
fn costs_from(nodes: &[NodeModel]) -> Vec<u32> {
    let mut costs = vec![0; nodes.len() + 2];
    for (index, node) in nodes.iter().enumerate().rev() {
        costs[index + 1] = ways(node, &costs).max().unwrap_or(0);
    }
    costs
}

/// The greatest cost from a node on, for each of its values.
fn ways<'a>(node: &'a NodeModel, costs: &'a [u32]) -> impl Iterator<Item = u32> + 'a {
    node.edges.iter().map(|&(target, weight)| u32::from(weight) + costs[usize::from(target)])
}
