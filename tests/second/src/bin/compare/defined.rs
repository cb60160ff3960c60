//! What the document's definitions say of a call, where its file is accepted and enumeration is short.

use crate::comparison::Written;
use second::call::{estimate, packed, Call, Operation};
use second::definition;
use second::model::{ProbeModel, TaskModel};
use second::parts::{Probe, Task};
use second::{Answer, Reason};

/// How many steps a probe file may have for its estimate to be taken by definition.
const MOST_STEPS: usize = 128;

/// What is known of the file that was used last.
#[derive(Default)]
pub struct Known {
    file: Option<Vec<u8>>,
    task: Option<TaskModel>,
    probe: Option<ProbeModel>,
}

impl Known {
    /// The answer to a call, and what is written into an output buffer of a length.
    pub fn defined(&mut self, call: &Call, room: usize) -> Option<Written> {
        if self.file.as_deref() != Some(call.file) {
            self.file = Some(call.file.to_vec());
            self.task = Task::read(call.file).ok().map(|task| TaskModel::of(&task));
            self.probe = Probe::read(call.file).ok().map(|probe| ProbeModel::of(&probe));
        }
        let answer = match call.operation {
            Operation::CheckTask | Operation::CheckProbe => return None,
            Operation::RunProbe | Operation::EstimateProbe => on_probe(call, self.probe.as_ref()?),
            _ => on_task(call, self.task.as_ref()?),
        };
        answer.map(|answer| in_room(answer, room))
    }

    /// The task of the file that was used last, if it is one.
    pub fn task(&self) -> Option<&TaskModel> {
        self.task.as_ref()
    }
}

/// The answer to a call on a task, or none where it would take too long.
fn on_task(call: &Call, task: &TaskModel) -> Option<Answer<Written>> {
    Some(match call.operation {
        Operation::Cost => {
            right_action(call, task).map(|action| number(definition::cost(&task.actions[action], call.state)))
        }
        Operation::RelaxedCost => match right_sets(call, task) {
            Ok(action) => Ok(number((0, definition::relaxed_cost(task, action, call.state)?))),
            Err(refusal) => Err(refusal),
        },
        Operation::EstimateTask => match right_state(call, &task.sizes) {
            Ok(()) => Ok(number(estimate(definition::estimate_task(task, call.state)?))),
            Err(refusal) => Err(refusal),
        },
        Operation::RunTask => definition::run_task(task, call.list).map(number),
        Operation::Compile => Ok(bytes((definition::compile(task).bytes(), 0))),
        Operation::Expand => definition::expand(task, call.list).map(list),
        Operation::Sheet => definition::sheet(task, call.list).map(|(sheet, sum)| bytes((sheet.into(), sum))),
        Operation::Dearest => match such_action(call, task) {
            Ok(action) => Ok(bytes(definition::dearest(task, action)?)),
            Err(refusal) => Err(refusal),
        },
        _ => definition::contract(task, call.list).map(list),
    })
}

/// The answer to a call on a probe file, or none where it would take too long.
fn on_probe(call: &Call, probe: &ProbeModel) -> Option<Answer<Written>> {
    if call.operation == Operation::RunProbe {
        return Some(definition::run_probe(probe, call.list).map(|sum| number((0, sum))));
    }
    if probe.steps.len() > MOST_STEPS {
        return None;
    }
    let answer = right_state(call, &probe.sizes);
    Some(answer.map(|()| number(estimate(definition::estimate_probe(probe, call.state)))))
}

/// Sees that there is such an action, and then that the state or relaxed state is right.
fn right_action(call: &Call, task: &TaskModel) -> Answer<usize> {
    let action = such_action(call, task)?;
    right_state(call, &task.sizes)?;
    Ok(action)
}

/// Sees that there is such an action.
fn such_action(call: &Call, task: &TaskModel) -> Answer<usize> {
    if call.action >= task.actions.len() as u64 {
        return Reason::NoSuchStep.at(0);
    }
    Ok(call.action as usize)
}

/// Sees that the action and the sets are right, and then that each set has the value that the precondition has for its variable.
fn right_sets(call: &Call, task: &TaskModel) -> Answer<usize> {
    let action = right_action(call, task)?;
    let lacks = |&&(variable, value): &&(u8, u8)| call.state[usize::from(variable)] >> value & 1 == 0;
    match task.actions[action].precondition.iter().filter(lacks).min() {
        Some(&(variable, _)) => Reason::Lacking.at(variable.into()),
        None => Ok(action),
    }
}

/// Sees that a state, or a relaxed state, is right: its length, then each value, or each set of values.
fn right_state(call: &Call, sizes: &[u8]) -> Answer<()> {
    if call.state.len() != sizes.len() {
        return Reason::StateLength.at(0);
    }
    for (variable, (&byte, &size)) in call.state.iter().zip(sizes).enumerate() {
        let right = match call.operation {
            Operation::RelaxedCost => byte > 0 && (0..8).all(|d| d < size || byte >> d & 1 == 0),
            _ => byte < size,
        };
        if !right {
            return Reason::BadValue.at(variable);
        }
    }
    Ok(())
}

/// An answer that writes nothing.
fn number(parts: (usize, u32)) -> Written {
    Written { answer: packed(Ok(parts)), bytes: Vec::new(), entries: Vec::new() }
}

/// An answer that writes a file, a sheet or a state.
fn bytes((bytes, sum): (Vec<u8>, u32)) -> Written {
    Written { answer: packed(Ok((bytes.len(), sum))), bytes, entries: Vec::new() }
}

/// An answer that writes a list.
fn list((entries, sum): (Vec<u16>, u32)) -> Written {
    Written { answer: packed(Ok((entries.len(), sum))), bytes: Vec::new(), entries }
}

/// The answer where a result has to fit into an output buffer of a length.
fn in_room(answer: Answer<Written>, room: usize) -> Written {
    let fitting = answer.and_then(|written| {
        let needed = written.bytes.len().max(written.entries.len());
        if needed > room {
            return Reason::BufferTooShort.at(needed);
        }
        Ok(written)
    });
    fitting.unwrap_or_else(|refusal| Written { answer: packed(Err(refusal)), bytes: Vec::new(), entries: Vec::new() })
}
