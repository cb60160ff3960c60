//! Tasks and probe files as plain values, for the generator to build and for the definitions to read.

use crate::parts::{edge, Node, Operator, PartialState, Probe, Task, EDGE};

/// Facts: variables with their values, lowest variable first.
pub type Facts = Vec<(u8, u8)>;

/// A node of an EVMDD: the variable that it tests, and the target and weight of the edge for each value.
#[derive(Clone, Debug)]
pub struct NodeModel {
    pub variable: u8,
    pub edges: Vec<(u8, u16)>,
}

/// An action.
#[derive(Clone, Debug, Default)]
pub struct ActionModel {
    pub precondition: Facts,
    pub effect: Facts,
    pub incoming: u16,
    pub nodes: Vec<NodeModel>,
}

/// A task.
#[derive(Clone, Debug, Default)]
pub struct TaskModel {
    pub sizes: Vec<u8>,
    pub initial: Vec<u8>,
    pub goal: Facts,
    pub actions: Vec<ActionModel>,
}

/// A step of a probe file.
#[derive(Clone, Debug, Default)]
pub struct StepModel {
    pub precondition: Facts,
    pub effect: Facts,
    pub cost: u16,
}

/// A probe file.
#[derive(Clone, Debug, Default)]
pub struct ProbeModel {
    pub sizes: Vec<u8>,
    pub initial: Vec<u8>,
    pub goal: Facts,
    pub steps: Vec<StepModel>,
}

/// Whether every fact holds in a state.
pub fn holds(facts: &[(u8, u8)], state: &[u8]) -> bool {
    facts.iter().all(|&(variable, value)| state[usize::from(variable)] == value)
}

/// Sets every fact in a state.
pub fn set(facts: &[(u8, u8)], state: &mut [u8]) {
    for &(variable, value) in facts {
        state[usize::from(variable)] = value;
    }
}

/// The bytes of a partial state.
fn partial_bytes(facts: &[(u8, u8)]) -> Vec<u8> {
    let mut bytes = vec![0; 8];
    for &(variable, value) in facts {
        bytes[usize::from(variable / 8)] |= 1 << (variable % 8);
        bytes.push(value);
    }
    bytes
}

/// The bytes that both kinds of file begin with.
fn head_bytes(sizes: &[u8], initial: &[u8], goal: &[(u8, u8)]) -> Vec<u8> {
    let mut bytes = vec![sizes.len() as u8];
    bytes.extend(sizes);
    bytes.extend(initial);
    bytes.extend(partial_bytes(goal));
    bytes
}

impl NodeModel {
    /// The node's bytes.
    fn bytes(&self) -> Vec<u8> {
        let mut bytes = vec![self.variable];
        for &(target, weight) in &self.edges {
            bytes.push(target);
            bytes.extend(weight.to_le_bytes());
        }
        bytes
    }
}

impl ActionModel {
    /// The action's bytes.
    fn bytes(&self) -> Vec<u8> {
        let mut bytes = partial_bytes(&self.precondition);
        bytes.extend(partial_bytes(&self.effect));
        bytes.extend(self.incoming.to_le_bytes());
        bytes.push(self.nodes.len() as u8);
        bytes.extend(self.nodes.iter().flat_map(NodeModel::bytes));
        bytes
    }

    /// The cost in a state, and the nodes passed on the way to the terminal.
    pub fn cost(&self, state: &[u8]) -> (u32, Vec<usize>) {
        let mut cost = u32::from(self.incoming);
        let mut passed = Vec::new();
        let mut number = 1;
        while number <= self.nodes.len() {
            let node = &self.nodes[number - 1];
            let (target, weight) = node.edges[usize::from(state[usize::from(node.variable)])];
            passed.push(number);
            cost += u32::from(weight);
            number = usize::from(target);
        }
        (cost, passed)
    }
}

impl TaskModel {
    /// The bytes of the task file; those of a task without actions are refused, and the blank task's file has zero bytes instead.
    pub fn bytes(&self) -> Vec<u8> {
        let mut bytes = head_bytes(&self.sizes, &self.initial, &self.goal);
        bytes.push(self.actions.len() as u8);
        bytes.extend(self.actions.iter().flat_map(ActionModel::bytes));
        bytes
    }

    /// The model of an accepted task.
    pub fn of(task: &Task) -> TaskModel {
        TaskModel {
            sizes: task.head.sizes.to_vec(),
            initial: task.head.initial.to_vec(),
            goal: facts(task.head.goal),
            actions: task
                .actions
                .iter()
                .map(|action| ActionModel {
                    precondition: facts(action.operator.precondition),
                    effect: facts(action.operator.effect),
                    incoming: action.operator.weight,
                    nodes: task.nodes_of(action).iter().map(node_model).collect(),
                })
                .collect(),
        }
    }
}

/// The model of a node.
fn node_model(node: &Node) -> NodeModel {
    NodeModel {
        variable: node.variable,
        edges: node.edges.chunks_exact(EDGE).map(|bytes| (bytes[0], edge(bytes).1)).collect(),
    }
}

impl ProbeModel {
    /// The bytes of the probe file.
    pub fn bytes(&self) -> Vec<u8> {
        let mut bytes = head_bytes(&self.sizes, &self.initial, &self.goal);
        bytes.extend((self.steps.len() as u16).to_le_bytes());
        for step in &self.steps {
            bytes.extend(partial_bytes(&step.precondition));
            bytes.extend(partial_bytes(&step.effect));
            bytes.extend(step.cost.to_le_bytes());
        }
        bytes
    }

    /// The model of an accepted probe file.
    pub fn of(probe: &Probe) -> ProbeModel {
        ProbeModel {
            sizes: probe.head.sizes.to_vec(),
            initial: probe.head.initial.to_vec(),
            goal: facts(probe.head.goal),
            steps: probe.steps.iter().map(step_model).collect(),
        }
    }
}

/// The model of a step.
fn step_model(step: &Operator) -> StepModel {
    StepModel { precondition: facts(step.precondition), effect: facts(step.effect), cost: step.weight }
}

/// The facts of a partial state.
fn facts(partial: PartialState) -> Facts {
    partial.facts().map(|(variable, value)| (variable as u8, value)).collect()
}
