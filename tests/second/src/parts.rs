//! The parts of task files and probe files, borrowed from the file, and the limits of each kind.

use crate::refusal::{Answer, Reason};

/// A state: one value per variable, at the front of an array with room for those of any file.
pub type State = [u8; 64];

/// The length of an edge in a task file: its target and its weight.
pub const EDGE: usize = 3;

/// A partial state: the map of the variables that have a fact, and the values of these, lowest variable first.
#[derive(Clone, Copy)]
pub struct PartialState<'a> {
    pub map: u64,
    pub values: &'a [u8],
}

/// What both kinds of file begin with: domain sizes, initial values and the goal.
#[derive(Clone, Copy)]
pub struct Head<'a> {
    pub sizes: &'a [u8],
    pub initial: &'a [u8],
    pub goal: PartialState<'a>,
}

/// A precondition, an effect and a weight: a whole step of a probe file, or an action without its nodes.
#[derive(Clone, Copy)]
pub struct Operator<'a> {
    pub precondition: PartialState<'a>,
    pub effect: PartialState<'a>,
    pub weight: u16,
}

/// A node of an EVMDD: the variable that it tests, its edges, and the number of the probe step for its first edge.
#[derive(Clone, Copy)]
pub struct Node<'a> {
    pub variable: u8,
    pub edges: &'a [u8],
    pub first_step: usize,
}

/// An action: its operator, its nodes as they stand in the file, and the numbers of its first node and probe step in the whole task.
#[derive(Clone, Copy)]
pub struct Action<'a> {
    pub operator: Operator<'a>,
    pub node_count: usize,
    pub first_node: usize,
    pub first_step: usize,
    pub node_bytes: &'a [u8],
}

/// An accepted task; the nodes of all its actions stand in one row.
pub struct Task<'a> {
    pub head: Head<'a>,
    pub actions: Vec<Action<'a>>,
    pub nodes: Vec<Node<'a>>,
}

/// An accepted probe file.
pub struct Probe<'a> {
    pub head: Head<'a>,
    pub steps: Vec<Operator<'a>>,
}

impl<'a> PartialState<'a> {
    /// The facts, lowest variable first.
    pub fn facts(self) -> impl Iterator<Item = (usize, u8)> + 'a {
        let mut left = self.map;
        self.values.iter().map(move |&value| {
            let variable = left.trailing_zeros() as usize;
            left &= left.wrapping_sub(1);
            (variable, value)
        })
    }

    /// Whether every fact holds in a state.
    pub fn holds(self, state: &State) -> bool {
        self.facts().all(|(variable, value)| state[variable] == value)
    }

    /// Sets every fact in a state.
    pub fn set(self, state: &mut State) {
        for (variable, value) in self.facts() {
            state[variable] = value;
        }
    }
}

/// One byte per variable, as a state has them.
pub fn state_of(bytes: &[u8]) -> State {
    let mut state = [0; 64];
    state[..bytes.len()].copy_from_slice(bytes);
    state
}

impl Head<'_> {
    /// The state that runs begin in.
    pub fn initial_state(&self) -> State {
        state_of(self.initial)
    }

    /// Whether there is one byte per variable, each good for its domain size; else 12, or 4 at the lowest bad variable.
    pub fn check_state(&self, state: &[u8], good: impl Fn(u8, u8) -> bool) -> Answer<()> {
        if state.len() != self.sizes.len() {
            return Reason::StateLength.at(0);
        }
        let bad = |(&byte, &size): (&u8, &u8)| !good(byte, size);
        match state.iter().zip(self.sizes).position(bad) {
            Some(variable) => Reason::BadValue.at(variable),
            None => Ok(()),
        }
    }
}

impl Node<'_> {
    /// The target and the weight of the edge for a value.
    pub fn edge(&self, value: u8) -> (usize, u16) {
        edge(&self.edges[EDGE * usize::from(value)..])
    }
}

/// The target and the weight that an edge's bytes give.
pub fn edge(bytes: &[u8]) -> (usize, u16) {
    (usize::from(bytes[0]), u16::from_le_bytes([bytes[1], bytes[2]]))
}

impl<'a> Action<'a> {
    /// The nodes, from node 1 on.
    pub fn nodes(&self, sizes: &'a [u8]) -> impl Iterator<Item = Node<'a>> {
        let mut rest = self.node_bytes;
        let mut first_step = self.first_step + 1;
        std::iter::from_fn(move || {
            let (&variable, after) = rest.split_first()?;
            let size = usize::from(sizes[usize::from(variable)]);
            let (edges, after) = after.split_at(EDGE * size);
            let node = Node { variable, edges, first_step };
            rest = after;
            first_step += size;
            Some(node)
        })
    }

    /// How many edges its nodes have together.
    pub fn edge_count(&self) -> usize {
        (self.node_bytes.len() - self.node_count) / EDGE
    }

    /// The number of the probe step that ends the action.
    pub fn end_step(&self) -> usize {
        self.first_step + 1 + self.edge_count()
    }
}

impl<'a> Task<'a> {
    // The largest counts and lengths.
    pub const VARIABLES: u8 = 24;
    pub const VALUES: u8 = 8;
    pub const ACTIONS: u8 = 32;
    pub const NODES: usize = 64;
    pub const LIST: usize = 256;
    pub const BYTES: usize = 3_826;
    pub const COMPILED_BYTES: usize = 13_846;

    /// The nodes of an action.
    pub fn nodes_of(&self, action: &Action) -> &[Node<'a>] {
        &self.nodes[action.first_node..][..action.node_count]
    }
}

impl Probe<'_> {
    // The largest counts and lengths.
    pub const VARIABLES: u8 = 57;
    pub const VALUES: u8 = 66;
    pub const STEPS: u16 = 576;
    pub const LIST: usize = 6_656;
    pub const BYTES: usize = 76_214;
}
