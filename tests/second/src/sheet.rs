//! The plan sheet: a line for each action of a source plan, and one for the sum.

use crate::parts::Task;
use crate::refusal::{Answer, Reason};
use crate::running::{run, walk};

/// The length of a line: 24 characters and a newline.
const LINE: usize = 25;

/// An action's line and the last line, before their numbers are put in.
const ACTION: [u8; LINE] = *b"                        \n";
const SUM: [u8; LINE] = *b"sum                     \n";

/// The numbers below 100, in two digits.
static PAIRS: [[u8; 2]; 100] = {
    let mut pairs = [*b"00"; 100];
    let mut number = 0;
    while number < 100 {
        pairs[number][0] += (number / 10) as u8;
        pairs[number][1] += (number % 10) as u8;
        number += 1;
    }
    pairs
};

/// Writes the sheet of a source plan at the front of a buffer; answers its length and the sum.
pub fn sheet(file: &[u8], list: &[u16], out: &mut [u8]) -> Answer<(usize, u32)> {
    let task = Task::read(file)?;
    // The costs are kept: no line may be written before the whole list is known to be a plan.
    let mut costs = [0; Task::LIST];
    let mut kept = 0;
    let sum = run(&task.head, &task.actions, Task::LIST, list, |action, state| {
        let cost = walk(action, task.nodes_of(action), state, |_| ());
        costs[kept] = cost;
        kept += 1;
        cost
    })?;
    let length = LINE * (list.len() + 1);
    let (lines, _) = out.as_chunks_mut();
    let Some([lines @ .., last]) = lines.get_mut(..=list.len()) else {
        return Reason::BufferTooShort.at(length);
    };
    let mut running = 0;
    for (index, (line, (&action, &cost))) in (0..).zip(lines.iter_mut().zip(list.iter().zip(&costs))) {
        running += cost;
        *line = ACTION;
        put(line, 3, index);
        put(line, 6, action.into());
        put(line, 14, cost);
        put(line, 24, running);
    }
    *last = SUM;
    put(last, 24, sum);
    Ok((length, sum))
}

/// Puts a number into a line, in decimal, so that it ends at a column.
#[inline(always)]
fn put(line: &mut [u8; LINE], mut end: usize, mut number: u32) {
    while number >= 100 {
        line[end - 2..end].copy_from_slice(&PAIRS[(number % 100) as usize]);
        number /= 100;
        end -= 2;
    }
    if number >= 10 {
        line[end - 2..end].copy_from_slice(&PAIRS[number as usize]);
    } else {
        line[end - 1] = b'0' + number as u8;
    }
}
