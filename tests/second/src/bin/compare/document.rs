//! Document 01's cases by name, marked or not, with the answers written out; those of document 02's W5 and W7; and the cases in which two refusals could both
//! apply.

use crate::comparison::{Comparison, Written};
use second::call::{refused, Call, Operation};
use second::model::{ActionModel, NodeModel, TaskModel};
use second::special::{layers, long_path, narrowed_path};

/// Task P, as the document prints it.
const P: &str = "01 02 00 | 01 0* 01 | 01 | 00 0* | 01 0* 01 | 03 00 | 01 | 00 02 05 00 02 00 00";

/// P's probe file, as the document prints it.
const P_PROBE: &str = "03 | 02 02 03 | 00 00 00 | 07 0* 01 00 00 | 04 00 \
    | 06 0* 00 00 06 0* 01 01 03 00 | 05 0* 00 01 04 0* 02 05 00 \
    | 05 0* 01 01 04 0* 02 00 00 | 04 0* 02 07 0* 01 00 00 00 00";

/// Bytes from the document's text: two digits a byte, `0*` seven zero bytes.
pub fn bytes(text: &str) -> Vec<u8> {
    let mut bytes = Vec::new();
    for word in text.split_whitespace().filter(|&word| word != "|") {
        match word {
            "0*" => bytes.extend([0; 7]),
            _ => bytes.push(u8::from_str_radix(word, 16).expect("two hexadecimal digits")),
        }
    }
    bytes
}

/// P with one byte changed.
fn p_with(at: usize, byte: u8) -> Vec<u8> {
    let mut file = bytes(P);
    file[at] = byte;
    file
}

/// The answer that is this refusal.
pub fn refusal(number: u8, place: usize) -> Written {
    packed(refused(number, place))
}

/// The answer that is this sum, cost or exact estimate.
pub fn sum(sum: u32) -> Written {
    packed(u64::from(sum))
}

/// The answer that an estimate is over.
fn over() -> Written {
    packed(1 << 32)
}

/// The answer that an estimate is never.
pub fn never() -> Written {
    packed(2 << 32)
}

/// The answer that is this cost or sum, with the nodes passed, or with a length.
fn counted(count: usize, sum: u32) -> Written {
    packed((count as u64) << 32 | u64::from(sum))
}

/// The answer that a list was written, with its sum.
pub fn list(entries: &[u16], sum: u32) -> Written {
    Written { entries: entries.to_vec(), ..counted(entries.len(), sum) }
}

/// The answer that a sheet was written, with its sum.
pub fn sheet(text: &str, sum: u32) -> Written {
    Written { bytes: text.into(), ..counted(text.len(), sum) }
}

/// The answer that a state was written, with the cost there.
pub fn dearest(state: &[u8], cost: u32) -> Written {
    Written { bytes: state.to_vec(), ..counted(state.len(), cost) }
}

/// The answer that a file was written.
pub fn file(bytes: Vec<u8>) -> Written {
    Written { answer: (bytes.len() as u64) << 32, bytes, entries: Vec::new() }
}

/// An answer with which nothing is written.
fn packed(answer: u64) -> Written {
    Written { answer, bytes: Vec::new(), entries: Vec::new() }
}

/// Every case of the documents.
pub fn cases(comparison: &mut Comparison) {
    comparison.kind("the documents' cases");
    table(comparison);
    table_of_states(comparison);
    known_plans(comparison);
    known_costs(comparison);
    nodes_passed(comparison);
    costs_with_precondition(comparison);
    lacking_values(comparison);
    long_precondition(comparison);
    known_estimates(comparison);
    counts_at_limits(comparison);
    nodes_at_limits(comparison);
    lists_at_limits(comparison);
    buffers(comparison);
    cut(comparison);
    both_apply_in_files(comparison);
    both_apply_in_lists(comparison);
}

/// The table of refusals, rows 1 to 11, each with its example.
fn table(comparison: &mut Comparison) {
    let mut and_a_byte = bytes(P);
    and_a_byte.push(0);
    let files = [
        ("1: the lone byte 01", vec![1], 1, 1),
        ("2: P and a byte", and_a_byte, 2, 40),
        ("3: first byte 00", p_with(0, 0), 3, 0),
        ("4: P, third byte 02", p_with(2, 2), 4, 2),
        ("5: P, goal map 02", p_with(3, 2), 5, 3),
        ("6: P, node variable 01", p_with(33, 1), 6, 33),
    ];
    for (name, file, number, place) in files {
        comparison.document(name, &Call::on(Operation::CheckTask, &file), 0, refusal(number, place));
        comparison.document(name, &Call::on(Operation::Compile, &file), 500, refusal(number, place));
    }
    let (p, probe) = (bytes(P), bytes(P_PROBE));
    let compile = Call::on(Operation::Compile, &p);
    let run = Call::on(Operation::RunTask, &p);
    let run_probe = Call::on(Operation::RunProbe, &probe);
    comparison.document("7: P written to 105 bytes", &compile, 105, refusal(7, 106));
    comparison.document("8: 257 actions on P", &run.list(&[0; 257]), 0, refusal(8, 256));
    comparison.document("9: probe list 0,2,3", &run_probe.list(&[0, 2, 3]), 0, refusal(9, 1));
    comparison.document("10: empty list on P", &run.list(&[]), 0, refusal(10, 0));
    comparison.document("11: list 1 on P", &run.list(&[1]), 0, refusal(11, 0));
}

/// The table's rows about states: relaxed sets (4), action numbers (11), a state's length (12), and their order.
fn table_of_states(comparison: &mut Comparison) {
    let (p, probe) = (bytes(P), bytes(P_PROBE));
    let cost = Call::on(Operation::Cost, &p);
    let relaxed = Call::on(Operation::RelaxedCost, &p);
    let estimate = Call::on(Operation::EstimateTask, &p);
    let estimate_probe = Call::on(Operation::EstimateProbe, &probe);
    let cases = [
        ("4: relaxed set empty", relaxed.state(&[0]), 4, 0),
        ("4: relaxed set with a stray bit", relaxed.state(&[4]), 4, 0),
        ("4: a state's value", cost.state(&[2]), 4, 0),
        ("4: a state's value, estimated", estimate.state(&[2]), 4, 0),
        ("4: a probe state's value", estimate_probe.state(&[1, 1, 3]), 4, 2),
        ("11: action 1", cost.action(1).state(&[0]), 11, 0),
        ("11: action 1, relaxed", relaxed.action(1).state(&[1]), 11, 0),
        ("11 before 12", cost.action(1), 11, 0),
        ("11 before 4", relaxed.action(7).state(&[0]), 11, 0),
        ("12: 2-byte state on P", cost.state(&[0, 0]), 12, 0),
        ("12: 2-byte state, relaxed", relaxed.state(&[1, 1]), 12, 0),
        ("12: 2-byte state, estimated", estimate.state(&[0, 0]), 12, 0),
        ("12: 2-byte state on P's file", estimate_probe.state(&[0, 0]), 12, 0),
        ("12 before 4", cost.state(&[2, 2]), 12, 0),
    ];
    for (name, call, number, place) in cases {
        comparison.document(name, &call, 0, refusal(number, place));
    }
}

/// The known cases about P: its 106 bytes, its list, the probe lists.
fn known_plans(comparison: &mut Comparison) {
    let (p, probe) = (bytes(P), bytes(P_PROBE));
    assert_eq!((p.len(), probe.len()), (40, 106));
    let compile = Call::on(Operation::Compile, &p);
    comparison.document("P compiles to 106 bytes", &compile, 106, file(probe.clone()));
    comparison.document("P, with room to spare", &compile, 200, file(probe.clone()));
    let run = Call::on(Operation::RunTask, &p);
    comparison.document("P, list 0: sum 8, and 1 node", &run.list(&[0]), 0, counted(1, 8));
    let expand = Call::on(Operation::Expand, &p);
    comparison.document("list 0 expands", &expand.list(&[0]), 3, list(&[0, 1, 3], 8));
    let run = Call::on(Operation::RunProbe, &probe);
    comparison.document("that probe list: sum 8", &run.list(&[0, 1, 3]), 0, sum(8));
    comparison.document("probe list 0,1: 10 at 2", &run.list(&[0, 1]), 0, refusal(10, 2));
    comparison.document("probe list 0,2,3: 9 at 1", &run.list(&[0, 2, 3]), 0, refusal(9, 1));
    let contract = Call::on(Operation::Contract, &p);
    comparison.document("it contracts", &contract.list(&[0, 1, 3]), 1, list(&[0], 8));
    comparison.document("0,1 does not", &contract.list(&[0, 1]), 1, refusal(10, 2));
    comparison.document("0,2,3 does not", &contract.list(&[0, 2, 3]), 1, refusal(9, 1));
    comparison.document("a start inside an action", &contract.list(&[0, 0]), 1, refusal(9, 1));
    comparison.document("an end alone", &contract.list(&[3]), 1, refusal(9, 0));
    comparison.document("step 4 of 4", &contract.list(&[0, 4]), 1, refusal(11, 1));
}

/// A node.
pub fn node(variable: u8, edges: &[(u8, u16)]) -> NodeModel {
    NodeModel { variable, edges: edges.to_vec() }
}

/// A task with xy²+z+2 as the cost of an action that has a precondition.
pub fn x_y_z(precondition: &[(u8, u8)]) -> TaskModel {
    TaskModel {
        sizes: vec![2, 3, 2],
        initial: vec![0, 0, 0],
        goal: Vec::new(),
        actions: vec![ActionModel {
            precondition: precondition.to_vec(),
            effect: Vec::new(),
            incoming: 2,
            nodes: vec![node(0, &[(3, 0), (2, 0)]), node(1, &[(3, 0), (3, 1), (3, 4)]), node(2, &[(4, 0), (4, 1)])],
        }],
    }
}

/// The known cases about xy²+z+2.
fn known_costs(comparison: &mut Comparison) {
    let file = x_y_z(&[]).bytes();
    let cost = Call::on(Operation::Cost, &file);
    comparison.document("(1,2,0) costs 6, and 3 nodes", &cost.state(&[1, 2, 0]), 0, counted(3, 6));
    comparison.document("(0,2,1) costs 3, and 2 nodes", &cost.state(&[0, 2, 1]), 0, counted(2, 3));
    let relaxed = Call::on(Operation::RelaxedCost, &file);
    let sets = [0b11, 0b110, 0b01];
    comparison.document("relaxed {0,1},{1,2},{0}: 2", &relaxed.state(&sets), 0, sum(2));
    let sets = [0b10, 0b110, 0b11];
    comparison.document("relaxed {1},{1,2},{0,1}: 3", &relaxed.state(&sets), 0, sum(3));
}

/// The nodes passed of 64 in 24 layers, with the sum of their numbers; by actions without nodes; in runs. Nothing else carries them.
fn nodes_passed(comparison: &mut Comparison) {
    let file = layers().bytes();
    let cost = Call::on(Operation::Cost, &file);
    let costs = [
        ("the first node of each layer", [0; 24], 24, 824),
        ("node 1 and the second node of each other layer", [1; 24], 24, 847),
        ("every other layer skipped", [2; 24], 12, 396),
        ("1 of 64 nodes", [3; 24], 1, 1),
    ];
    let relaxed = Call::on(Operation::RelaxedCost, &file);
    for (name, state, nodes, numbers) in costs {
        comparison.document(name, &cost.state(&state), 0, counted(nodes, numbers));
        comparison.document("no nodes", &cost.action(1).state(&state), 0, counted(0, 7));
        let single = state.map(|value| 1 << value);
        comparison.document("relaxed, no nodes told", &relaxed.state(&single), 0, sum(numbers));
    }
    let run = Call::on(Operation::RunTask, &file);
    let runs: [(_, &[u16], _, _); 5] = [
        ("an empty list", &[], 0, 0),
        ("actions without nodes", &[1, 4, 3], 0, 21),
        ("nodes after an action without", &[4, 0], 1, 8),
        ("an action without after nodes", &[0, 4], 24, 831),
        ("24, 1, 12, 24 and 13 nodes", &[0, 4, 0, 3, 0, 2, 0, 1, 5, 0], 74, 824 + 1 + 396 + 847 + 247 + 35),
    ];
    for (name, list, nodes, numbers) in runs {
        comparison.document(name, &run.list(list), 0, counted(nodes, numbers));
    }
}

/// The file of a task where x=1 and z=1 are needed for an action that costs xy²+z+2, and for one without nodes that costs 9.
fn needs_x_z() -> Vec<u8> {
    let mut task = x_y_z(&[(0, 1), (2, 1)]);
    let constant = ActionModel { incoming: 9, nodes: Vec::new(), ..task.actions[0].clone() };
    task.actions.push(constant);
    task.bytes()
}

/// Relaxed costs over states that meet a precondition, where the sets have its values; a cost in a state is as before.
fn costs_with_precondition(comparison: &mut Comparison) {
    let file = needs_x_z();
    let cases = [
        ("needs x=1, z=1; {0,1},{1,2},{0,1}: 4", [0b11, 0b110, 0b11], 4),
        ("needs x=1, z=1; {1},{0,1,2},{1}: 3", [0b10, 0b111, 0b10], 3),
        ("needs x=1, z=1; {0,1},{2},{0,1}: 7", [0b11, 0b100, 0b11], 7),
    ];
    let relaxed = Call::on(Operation::RelaxedCost, &file);
    for (name, sets, cost) in cases {
        comparison.document(name, &relaxed.state(&sets), 0, sum(cost));
        comparison.document("no nodes: 9", &relaxed.action(1).state(&sets), 0, sum(9));
    }
    let cost = Call::on(Operation::Cost, &file).state(&[0, 2, 0]);
    comparison.document("needs x=1, z=1; (0,2,0) costs 2, and 2 nodes", &cost, 0, counted(2, 2));
}

/// Sets that lack values of the precondition x=1, z=1 (17), and what comes before that.
fn lacking_values(comparison: &mut Comparison) {
    let file = needs_x_z();
    let cases = [
        ("17: {0},{1,2},{0}", [0b01, 0b110, 0b01], 17, 0),
        ("17: {0},{1,2},{0,1}", [0b01, 0b110, 0b11], 17, 0),
        ("17: {0,1},{1,2},{0}", [0b11, 0b110, 0b01], 17, 2),
        ("4 before 17: {0},{1,2},{}", [0b01, 0b110, 0b00], 4, 2),
        ("4 before 17: {0},{1,2},{0} and a stray bit", [0b01, 0b110, 0b101], 4, 2),
        ("4 before 17: {0},{},{0}", [0b01, 0b000, 0b01], 4, 1),
    ];
    let relaxed = Call::on(Operation::RelaxedCost, &file);
    for (name, sets, number, place) in cases {
        for action in [0, 1] {
            comparison.document(name, &relaxed.action(action).state(&sets), 0, refusal(number, place));
        }
    }
    let sets = [0b01, 0b110, 0b01];
    comparison.document("11 before 17", &relaxed.action(2).state(&sets), 0, refusal(11, 0));
    comparison.document("12 before 17", &relaxed.state(&sets[..2]), 0, refusal(12, 0));
    let and_a_byte = [&file[..], &[0]].concat();
    let call = Call::on(Operation::RelaxedCost, &and_a_byte).state(&sets);
    comparison.document("a refused file; values lacking", &call, 0, refusal(2, file.len()));
}

/// Relaxed costs where all 24 variables are in the precondition, with their greatest values.
fn long_precondition(comparison: &mut Comparison) {
    let file = narrowed_path(24).bytes();
    let relaxed = Call::on(Operation::RelaxedCost, &file);
    let mut sets = [0b1111_1111; 24];
    comparison.document("24 facts, each 7 more", &relaxed.state(&sets), 0, sum(65_535 + 24 * 7));
    sets[23] = 0b0111_1111;
    comparison.document("the last lacking", &relaxed.state(&sets), 0, refusal(17, 23));
    sets[5] = 0b0000_0001;
    comparison.document("the last and one before it lacking", &relaxed.state(&sets), 0, refusal(17, 5));
    sets[12] = 0;
    comparison.document("an empty set above", &relaxed.state(&sets), 0, refusal(4, 12));
}

/// The known cases about estimates, and those at 4,294,967,295.
fn known_estimates(comparison: &mut Comparison) {
    let sets_a =
        ActionModel { effect: vec![(0, 1)], nodes: vec![node(1, &[(2, 2), (2, 0)])], ..ActionModel::default() };
    let needs_b_0 =
        ActionModel { precondition: vec![(1, 0)], nodes: vec![node(1, &[(2, 5), (2, 0)])], ..sets_a.clone() };
    let sets_b = ActionModel { effect: vec![(1, 1)], incoming: 1, ..ActionModel::default() };
    let task = |goal: &[(u8, u8)], actions: &[&ActionModel]| TaskModel {
        sizes: vec![2, 2],
        initial: vec![0, 0],
        goal: goal.to_vec(),
        actions: actions.iter().map(|&action| action.clone()).collect(),
    };
    let doubling = second::special::doubling;
    let mut two_facts = doubling(17, 1);
    two_facts.goal = vec![(4, 3), (5, 3)];
    let cases = [
        ("estimate 1", task(&[(0, 1)], &[&sets_a, &sets_b]), sum(1)),
        ("without the second, 2", task(&[(0, 1)], &[&sets_a]), sum(2)),
        ("B=1 without it, never", task(&[(1, 1)], &[&sets_a]), never()),
        ("the precondition narrows no estimate", task(&[(0, 1)], &[&needs_b_0, &sets_b]), sum(1)),
        ("0 for an empty goal", task(&[], &[&sets_a]), sum(0)),
        ("the greatest exact number", doubling(17, 1), sum(u32::MAX)),
        ("one more is over", doubling(17, 2), over()),
        ("exact facts whose sum is over", two_facts, over()),
    ];
    for (name, task, wanted) in cases {
        let state = task.initial.clone();
        let file = task.bytes();
        let call = Call::on(Operation::EstimateTask, &file);
        comparison.document(name, &call.state(&state), 0, wanted);
    }
}

/// A task of one action without facts or nodes.
pub fn plain(variables: usize, size: u8) -> TaskModel {
    TaskModel {
        sizes: vec![size; variables],
        initial: vec![0; variables],
        goal: Vec::new(),
        actions: vec![ActionModel::default()],
    }
}

/// 24 variables pass, 25 give 3; 8 values pass, 9 give 3; likewise actions, and the counts of a probe file.
fn counts_at_limits(comparison: &mut Comparison) {
    let actions = |count| TaskModel { actions: vec![ActionModel::default(); count], ..plain(1, 2) };
    let tasks = [
        ("24 variables pass", plain(24, 2), sum(0)),
        ("25 variables give 3", plain(25, 2), refusal(3, 0)),
        ("8 values pass", plain(1, 8), sum(0)),
        ("9 values give 3", plain(1, 9), refusal(3, 1)),
        ("1 value gives 3", plain(1, 1), refusal(3, 1)),
        ("32 actions pass", actions(32), sum(0)),
        ("33 actions give 3", actions(33), refusal(3, 11)),
        ("0 actions give 3", actions(0), refusal(3, 11)),
    ];
    for (name, task, wanted) in tasks {
        comparison.document(name, &Call::on(Operation::CheckTask, &task.bytes()), 0, wanted);
    }
    let probe = |variables, size, steps| {
        let mut model = second::definition::compile(&plain(1, 2));
        model.sizes = vec![size; variables];
        model.initial = vec![0; variables];
        model.goal = Vec::new();
        model.steps = vec![Default::default(); steps];
        model.bytes()
    };
    let probes = [
        ("57 probe variables pass", probe(57, 2, 0), sum(0)),
        ("58 probe variables give 3", probe(58, 2, 0), refusal(3, 0)),
        ("66 probe values pass", probe(1, 66, 0), sum(0)),
        ("67 probe values give 3", probe(1, 67, 0), refusal(3, 1)),
        ("576 steps pass", probe(1, 2, 576), sum(0)),
        ("577 steps give 3", probe(1, 2, 577), refusal(3, 11)),
    ];
    for (name, file, wanted) in probes {
        comparison.document(name, &Call::on(Operation::CheckProbe, &file), 0, wanted);
    }
}

/// 64 nodes pass, 65 give 3 at the count that passes 64, be they one action's or two actions'.
fn nodes_at_limits(comparison: &mut Comparison) {
    let nodes = |counts: &[u8]| {
        let action = |&count: &u8| ActionModel {
            nodes: vec![node(0, &[(count + 1, 0); 2]); usize::from(count)],
            ..ActionModel::default()
        };
        TaskModel { actions: counts.iter().map(action).collect(), ..plain(1, 2) }
    };
    let cases = [
        ("64 nodes pass", nodes(&[64]), sum(0)),
        ("65 nodes give 3", nodes(&[65]), refusal(3, 30)),
        ("40 and 24 nodes pass", nodes(&[40, 24]), sum(0)),
        ("40 and 25 nodes give 3", nodes(&[40, 25]), refusal(3, 31 + 40 * 7 + 18)),
        ("64 and 1 nodes give 3", nodes(&[64, 0, 1]), refusal(3, 31 + 64 * 7 + 19 + 18)),
    ];
    for (name, task, wanted) in cases {
        comparison.document(name, &Call::on(Operation::CheckTask, &task.bytes()), 0, wanted);
    }
    let mut ends = nodes(&[65]).bytes();
    ends.truncate(31);
    comparison.document("65 nodes, and the file ends", &Call::on(Operation::CheckTask, &ends), 0, refusal(3, 30));
}

/// 256 and 257 actions, 6,656 and 6,657 steps; contracting 257 repeats on P gives 8 at 768.
fn lists_at_limits(comparison: &mut Comparison) {
    let (p, probe) = (bytes(P), bytes(P_PROBE));
    let repeats = |count: usize| [vec![0, 1, 3], [0, 2, 3].repeat(count - 1)].concat();
    let cheap = |count: u32| 8 + 3 * (count - 1);
    let run = Call::on(Operation::RunTask, &p);
    comparison.document("256 actions", &run.list(&[0; 256]), 0, counted(256, cheap(256)));
    let expand = Call::on(Operation::Expand, &p);
    comparison.document("256 expanded", &expand.list(&[0; 256]), 768, list(&repeats(256), cheap(256)));
    comparison.document("257 expanded", &expand.list(&[0; 257]), 999, refusal(8, 256));
    let contract = Call::on(Operation::Contract, &p);
    comparison.document("256 repeats", &contract.list(&repeats(256)), 256, list(&[0; 256], cheap(256)));
    comparison.document("257 repeats: 8 at 768", &contract.list(&repeats(257)), 999, refusal(8, 768));
    let run = Call::on(Operation::RunProbe, &probe);
    comparison.document("257 repeats run", &run.list(&repeats(257)), 0, sum(cheap(257)));
    let mut long = repeats(2_219);
    long.truncate(6_657);
    comparison.document("6,657 steps", &run.list(&long), 0, refusal(8, 6_656));
    comparison.document("6,656 steps", &run.list(&long[..6_656]), 0, refusal(10, 6_656));
    comparison.document("6,657 steps contracted", &contract.list(&long), 999, refusal(8, 6_656));
    let path = long_path(8).bytes();
    let expand = Call::on(Operation::Expand, &path).list(&[0; 256]);
    let call = Call::on(Operation::Cost, &path);
    comparison.document("the greatest cost", &call.state(&[0; 24]), 0, counted(24, 1_638_375));
    let run = Call::on(Operation::RunTask, &path).list(&[0; 256]);
    comparison.document("6,144 nodes, for 6,656 steps", &run, 0, counted(6_144, 419_424_000));
    comparison.document("6,656 steps needed", &expand, 6_655, refusal(7, 6_656));
    let steps = comparison.with_room(&expand, 6_656).entries;
    let contract = Call::on(Operation::Contract, &path).list(&steps);
    comparison.document("6,656 steps contracted", &contract, 256, list(&[0; 256], 419_424_000));
}

/// 7 with the length needed, in bytes for files and entries for lists; nothing is needed for an empty result.
fn buffers(comparison: &mut Comparison) {
    let (p, no_goal) = (bytes(P), plain(1, 2).bytes());
    let expand = Call::on(Operation::Expand, &p).list(&[0]);
    let contract = Call::on(Operation::Contract, &p).list(&[0, 1, 3]);
    comparison.document("list 0 into 2 entries", &expand, 2, refusal(7, 3));
    comparison.document("0,1,3 into no entries", &contract, 0, refusal(7, 1));
    for operation in [Operation::Expand, Operation::Contract] {
        let call = Call::on(operation, &no_goal);
        comparison.document("an empty list into no entries", &call, 0, list(&[], 0));
    }
}

/// P cut anywhere but before its first byte: 1 at the first byte of the field that is missing or cut.
fn cut(comparison: &mut Comparison) {
    let p = bytes(P);
    let fields = [1, 2, 3, 11, 12, 13, 21, 29, 30, 32, 33, 34, 35, 37, 38];
    for length in 1..p.len() {
        let place = fields.iter().filter(|&&field| field <= length).max();
        let wanted = refusal(1, *place.expect("the second field is at 1"));
        comparison.document("P cut", &Call::on(Operation::CheckTask, &p[..length]), 0, wanted);
    }
}

/// Files in which two refusals could both apply.
fn both_apply_in_files(comparison: &mut Comparison) {
    // Node 1 (at 33) tests variable 1, and its first target (34) is node 2 (40), which tests variable 0.
    let text = "02 02 02 00 00 | 00 0* | 01 | 00 0* | 00 0* | 00 00 | 02 \
        | 01 02 00 00 03 00 00 | 00 03 00 00 03 00 00";
    let falls = bytes(text);
    let with = |at: usize, byte: u8| {
        let mut file = falls.clone();
        file[at] = byte;
        file
    };
    let mut and_a_byte = falls.clone();
    and_a_byte.push(0);
    let mut next_action = with(13, 2);
    next_action.extend([4; 8]);
    let cases = [
        ("a target's variable", falls.clone(), 6, 34),
        ("cut inside the nodes; an earlier target's variable", falls[..42].to_vec(), 1, 42),
        ("a target's variable; a later target's number", with(41, 2), 6, 41),
        ("a target's variable; a later node's variable", with(40, 2), 6, 40),
        ("a target's variable; a byte after the end", and_a_byte, 6, 34),
        ("a target's variable; the next action's map", next_action, 6, 34),
        ("a target's variable; the next action missing", with(13, 2), 6, 34),
        ("a target above the terminal", with(44, 4), 6, 44),
        ("a node as its own target", with(34, 1), 6, 34),
        ("a stray map bit; values missing", p_with(3, 3)[..11].to_vec(), 5, 3),
        ("a stray map bit; a bad value", [&p_with(3, 3)[..11], &[9, 9]].concat(), 5, 3),
        ("a map's highest bit", p_with(10, 128), 5, 3),
    ];
    for (name, file, number, place) in cases {
        comparison.document(name, &Call::on(Operation::CheckTask, &file), 0, refusal(number, place));
    }
}

/// Lists to which two refusals could both apply.
fn both_apply_in_lists(comparison: &mut Comparison) {
    let mut needs_0 = second::special::task_p();
    needs_0.actions[0].precondition = vec![(0, 0)];
    let file = needs_0.bytes();
    let run = Call::on(Operation::RunTask, &file);
    comparison.document("257 that do not exist", &run.list(&[9; 257]), 0, refusal(8, 256));
    comparison.document("9 at 1; 11 at 2", &run.list(&[0, 0, 9]), 0, refusal(9, 1));
    comparison.document("11 at 1; 9 at 2", &run.list(&[0, 9, 0]), 0, refusal(11, 1));
    let p = bytes(P);
    let contract = Call::on(Operation::Contract, &p);
    let mut repeats = [vec![0, 1, 3], [0, 2, 3].repeat(256)].concat();
    comparison.document("257 starts; no room", &contract.list(&repeats), 0, refusal(8, 768));
    repeats.pop();
    comparison.document("257 starts; the goal not met", &contract.list(&repeats), 300, refusal(10, 770));
    repeats.push(1);
    comparison.document("257 starts; a step that does not apply", &contract.list(&repeats), 300, refusal(9, 770));
    let mut refused_file = p.clone();
    refused_file.push(0);
    let call = Call::on(Operation::RunTask, &refused_file);
    comparison.document("a refused file; a list too long", &call.list(&[0; 300]), 0, refusal(2, 40));
}
