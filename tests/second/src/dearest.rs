//! The dearest state of an action: the greatest cost that it has in any state, and the smallest state that has it, read from variable 0.

use crate::parts::{edge, Action, Task, EDGE};
use crate::refusal::{Answer, Reason};
use crate::running::read_action;

/// The nodes of an action, and where each starts in their bytes.
struct Nodes<'a> {
    sizes: &'a [u8],
    bytes: &'a [u8],
    starts: [u16; Task::NODES],
    count: usize,
}

/// The greatest cost from each node on, by its number; from the terminal on it is 0.
type Costs = [u32; Task::NODES + 2];

/// Writes the dearest state of an action at the front of a buffer; answers its length and the greatest cost.
pub fn dearest(file: &[u8], action: u64, out: &mut [u8]) -> Answer<(usize, u32)> {
    let (head, action) = read_action(file, action)?;
    let length = head.sizes.len();
    let Some(state) = out.get_mut(..length) else {
        return Reason::BufferTooShort.at(length);
    };
    let nodes = Nodes::of(&action, head.sizes);
    let costs = nodes.greatest_costs();
    nodes.walk(&costs, state);
    Ok((length, u32::from(action.operator.weight) + costs[1]))
}

impl<'a> Nodes<'a> {
    /// The nodes of an action.
    #[inline(always)]
    fn of(action: &Action<'a>, sizes: &'a [u8]) -> Nodes<'a> {
        let (bytes, count) = (action.node_bytes, action.node_count);
        let mut starts = [0; Task::NODES];
        let mut at = 0;
        for start in &mut starts[..count] {
            *start = at as u16;
            at += 1 + EDGE * usize::from(sizes[usize::from(bytes[at])]);
        }
        Nodes { sizes, bytes, starts, count }
    }

    /// The variable of a node, and the target and the weight of the edge for each of its values.
    #[inline(always)]
    fn node(&self, number: usize) -> (usize, impl Iterator<Item = (usize, u16)> + 'a) {
        let bytes = &self.bytes[usize::from(self.starts[number - 1])..];
        let variable = usize::from(bytes[0]);
        let edges = &bytes[1..][..EDGE * usize::from(self.sizes[variable])];
        (variable, edges.chunks_exact(EDGE).map(edge))
    }

    /// The greatest costs, from the last node to the first: targets only go up.
    #[inline(always)]
    fn greatest_costs(&self) -> Costs {
        let mut costs = [0; Task::NODES + 2];
        for number in (1..=self.count).rev() {
            let (_, edges) = self.node(number);
            costs[number] = edges.map(|(target, weight)| u32::from(weight) + costs[target]).max().unwrap_or(0);
        }
        costs
    }

    /// Walks from node 1 by the first value that keeps the greatest cost; a variable that is not passed is 0.
    fn walk(&self, costs: &Costs, state: &mut [u8]) {
        state.fill(0);
        let mut next = 1;
        while next <= self.count {
            let (variable, edges) = self.node(next);
            let keeps = |&(_, (target, weight)): &(u8, (usize, u16))| u32::from(weight) + costs[target] == costs[next];
            let Some((value, (target, _))) = (0..).zip(edges).find(keeps) else {
                break;
            };
            state[variable] = value;
            next = target;
        }
    }
}
