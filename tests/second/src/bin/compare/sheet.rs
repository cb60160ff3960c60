//! Document 02's W12: sheets written out, buffers of every length for them, and lists that are turned down, in order; and what holds for every sheet.

use crate::answers::Situation;
use crate::comparison::{Comparison, Written};
use crate::document::{plain, refusal, sheet};
use crate::exercise;
use second::call::{low, number, packed, Call, Operation};
use second::generate::{self, damaged_list, goal_in, walk, Random};
use second::model::TaskModel;
use second::parts::Task;
use second::special::{every_width, task_p};
use second::Reason;
use std::str;

/// The length of a line: 24 characters and a newline.
pub const LINE: usize = 25;

/// Where the fields of an action's line stand: index, action, cost and running sum.
const FIELDS: [(usize, usize); 4] = [(0, 3), (4, 6), (7, 14), (15, 24)];

/// The line in which every field is at its widest.
const WIDEST: [u64; 4] = [255, 31, 1_638_375, 419_424_000];

/// The length of the sheet of a plan of so many actions.
fn length(actions: usize) -> usize {
    LINE * (actions + 1)
}

/// Sheets, and lists that have none.
pub fn cases(comparison: &mut Comparison) {
    comparison.kind("sheets written out; lists that have none");
    written_out(comparison);
    refusals(comparison);
    comparison.kind("sheets of small tasks in buffers of every length");
    every_length(comparison);
    comparison.kind("sheets with numbers of every width");
    last_lines(comparison);
    widths(comparison);
}

/// The document's sheet and others, each in a buffer of every length up to 2 more than needed.
fn written_out(comparison: &mut Comparison) {
    let p = task_p();
    let reached = TaskModel { initial: vec![1], ..p.clone() };
    let cases: [(_, _, &[u16], _, _); 5] = [
        ("list 0 on P", p.clone(), &[0], "  0  0       8         8\nsum                    8\n", 8),
        (
            "list 0,0 on P",
            p,
            &[0, 0],
            "  0  0       8         8\n  1  0       3        11\nsum                   11\n",
            11,
        ),
        ("an empty plan where the goal holds", reached, &[], "sum                    0\n", 0),
        ("an empty plan where there is no goal", plain(1, 2), &[], "sum                    0\n", 0),
        ("costs and sums of 1 to 7 digits", every_width(), &ALL_WIDTHS, ALL_WIDTHS_SHEET, 3_860_590),
    ];
    for (name, task, list, text, sum) in cases {
        let file = task.bytes();
        let call = Call::on(Operation::Sheet, &file).list(list);
        for room in 0..text.len() {
            comparison.document(name, &call, room, refusal(7, text.len()));
        }
        for more in [0, 1, 2, 300] {
            comparison.document(name, &call, text.len() + more, sheet(text, sum));
        }
    }
}

/// Actions of `every_width` with the least and the greatest cost of each number of digits, and the sheet of the list.
const ALL_WIDTHS: [u16; 15] = [0, 1, 6, 7, 10, 11, 14, 15, 18, 19, 25, 26, 29, 30, 31];
const ALL_WIDTHS_SHEET: &str = concat!(
    "  0  0       0         0\n",
    "  1  1       1         1\n",
    "  2  6       9        10\n",
    "  3  7      10        20\n",
    "  4 10      99       119\n",
    "  5 11     100       219\n",
    "  6 14     999      1218\n",
    "  7 15    1000      2218\n",
    "  8 18    9999     12217\n",
    "  9 19   10000     22217\n",
    " 10 25   99999    122216\n",
    " 11 26  100000    222216\n",
    " 12 29  999999   1222215\n",
    " 13 30 1000000   2222215\n",
    " 14 31 1638375   3860590\n",
    "sum              3860590\n",
);

/// Long sheets, with the last lines written out: 256 actions on P; sums up to a power of ten; every field at its widest.
fn last_lines(comparison: &mut Comparison) {
    let (p, widths) = (task_p().bytes(), every_width().bytes());
    let to_power = |repeats, entry| [vec![29; repeats], vec![entry, 1]].concat();
    let cases = [
        (&p, vec![0; 256], "254  0       3       770\n255  0       3       773\nsum                  773\n"),
        (&widths, to_power(10, 6), " 10  6       9   9999999\n 11  1       1  10000000\nsum             10000000\n"),
        (&widths, to_power(100, 10), "100 10      99  99999999\n101  1       1 100000000\nsum            100000000\n"),
        (&widths, vec![31; 256], "254 31 1638375 417785625\n255 31 1638375 419424000\nsum            419424000\n"),
    ];
    for (file, list, text) in cases {
        let call = Call::on(Operation::Sheet, file).list(&list);
        let written = comparison.every_room(&call);
        comparison.law("the last lines", &call, 1, written.bytes.ends_with(text.as_bytes()).into());
    }
}

/// Files and lists that are refused, several for more than one reason, in buffers with room for a sheet and without.
fn refusals(comparison: &mut Comparison) {
    let p = task_p();
    let file = p.bytes();
    let and_a_byte = [&file[..], &[0]].concat();
    let mut needs_0 = p.clone();
    needs_0.actions[0].precondition = vec![(0, 0)];
    let needs_0 = needs_0.bytes();
    let back = TaskModel { goal: vec![(0, 0)], ..p }.bytes();
    let cases: [(_, _, &[u16], _, _); 14] = [
        ("a refused file; a list too long", &and_a_byte, &[0; 300], 2, 40),
        ("a refused file; no such action", &and_a_byte, &[1], 2, 40),
        ("257 actions", &file, &[0; 257], 8, 256),
        ("257 actions that do not exist", &file, &[9; 257], 8, 256),
        ("257 actions that do not apply", &needs_0, &[0; 257], 8, 256),
        ("no such action", &file, &[1], 11, 0),
        ("no such action after 255", &file, &[&[0; 255][..], &[65_535]].concat(), 11, 255),
        ("9 at 1; 11 at 2", &needs_0, &[0, 0, 9], 9, 1),
        ("11 at 1; 9 at 2", &needs_0, &[0, 9, 0], 11, 1),
        ("9 at 1; the goal not met", &needs_0, &[0, 0], 9, 1),
        ("an empty list that is no plan", &file, &[], 10, 0),
        ("the goal not met after 1", &back, &[0], 10, 1),
        ("the goal not met after 2", &back, &[0, 0], 10, 2),
        ("the goal not met after 256", &back, &[0; 256], 10, 256),
    ];
    for (name, file, list, number, place) in cases {
        let call = Call::on(Operation::Sheet, file).list(list);
        let needed = length(list.len());
        for room in [0, 1, LINE - 1, LINE, needed - 1, needed, needed + 2, needed + 300] {
            comparison.document(name, &call, room, refusal(number, place));
        }
    }
}

/// Short lists of small tasks, plans and others, in buffers of every length up to 2 more than needed.
fn every_length(comparison: &mut Comparison) {
    for seed in 0..120 {
        comparison.seed(seed);
        let random = &mut Random::new(seed);
        let mut task = generate::task(random, generate::SMALL);
        let most = random.below(4);
        let (list, end) = walk(random, &task.initial, &task.operators(), most);
        task.goal = goal_in(random, &end);
        let file = task.bytes();
        for list in [list.clone(), damaged_list(random, &list, task.actions.len())] {
            let call = Call::on(Operation::Sheet, &file).list(&list);
            for room in 0..=length(list.len()) + 2 {
                comparison.with_room(&call, room);
            }
        }
    }
}

/// Lists of up to 256 actions of costs of 1 to 7 digits, a few of them again and again.
fn widths(comparison: &mut Comparison) {
    let task = every_width();
    let file = task.bytes();
    for action in 0..u16::from(Task::ACTIONS) {
        exercise::expansion(comparison, &file, &[action]);
        exercise::expansion(comparison, &file, &[action; Task::LIST]);
    }
    for seed in 0..100 {
        comparison.seed(seed);
        let random = &mut Random::new(seed);
        let few: Vec<u16> = (0..random.within((1, 6))).map(|_| random.below(task.actions.len()) as u16).collect();
        let list: Vec<u16> = (0..random.below(Task::LIST + 1)).map(|_| random.pick(&few)).collect();
        exercise::expansion(comparison, &file, &list);
    }
}

/// Asks for the sheet of a list of actions whose run was answered so: refused alike, with room for it or without, or with the sum and a line for each action.
pub fn ask(comparison: &mut Comparison, file: &[u8], list: &[u16], run: u64) {
    let call = Call::on(Operation::Sheet, file).list(list);
    let needed = length(list.len());
    let written = comparison.every_room(&call);
    if number(run) == 0 {
        let wanted = packed(Ok((needed, low(run))));
        comparison.law("a sheet has the sum, and a line for each action and one more", &call, wanted, written.answer);
        read_back(comparison, &call, &written);
        return;
    }
    comparison.law("a sheet is refused as a run is", &call, run, written.answer);
    let roomy = comparison.with_room(&call, needed).answer;
    comparison.law("a sheet is refused as a run is, with room for it", &call, run, roomy);
    if number(run) == Reason::GoalNotMet as u8 && !list.is_empty() {
        comparison.met(Situation::RefusedAtEnd);
    }
}

/// Reads a sheet back: a line has its index, the list's action, a cost and the costs so far; the last running sum is the sum, and the last line's.
fn read_back(comparison: &mut Comparison, call: &Call, written: &Written) {
    let (lines, last) = written.bytes.split_at(LINE * call.list.len());
    let mut sum = 0;
    let mut right = 0;
    for (index, (line, &action)) in (0..).zip(lines.chunks(LINE).zip(call.list)) {
        let Some(read) = numbers(line) else {
            continue;
        };
        let [_, _, cost, _] = read;
        sum += cost;
        right += u64::from(read == [index, action.into(), cost, sum]);
        line_situations(comparison, read);
    }
    comparison.law("lines that are right", call, call.list.len() as u64, right);
    comparison.law("the last running sum", call, low(written.answer).into(), sum);
    comparison.law("the last line's sum", call, sum, number_in(last, (3, 24)).unwrap_or(u64::MAX));
    match call.list.len() {
        0 => comparison.met(Situation::NoLines),
        Task::LIST => comparison.met(Situation::MostLines),
        _ => {}
    }
}

/// Notes the situations of an action's line.
fn line_situations(comparison: &mut Comparison, line: [u64; 4]) {
    let [_, _, cost, _] = line;
    if cost == 0 {
        comparison.met(Situation::CostsNothing);
    }
    if line == WIDEST {
        comparison.met(Situation::AllWidest);
    }
}

/// The numbers of an action's line.
fn numbers(line: &[u8]) -> Option<[u64; 4]> {
    let [index, action, cost, sum] = FIELDS.map(|field| number_in(line, field));
    Some([index?, action?, cost?, sum?])
}

/// The number that ends a field of a line, after spaces alone.
fn number_in(line: &[u8], (start, end): (usize, usize)) -> Option<u64> {
    str::from_utf8(&line[start..end]).ok()?.trim_start_matches(' ').parse().ok()
}
