//! Calls of the operations on files as values, and their answers packed into 64 bits, as the library's C functions pack them.

use crate::{Answer, Estimate};
use std::fmt;

/// The operations on files.
#[derive(Clone, Copy, Debug, PartialEq, Eq)]
pub enum Operation {
    CheckTask,
    CheckProbe,
    Cost,
    RelaxedCost,
    RunTask,
    RunProbe,
    EstimateTask,
    EstimateProbe,
    Compile,
    Expand,
    Contract,
    Sheet,
    Dearest,
}

/// A call of an operation; what the operation does not take is empty.
#[derive(Clone, Copy)]
pub struct Call<'a> {
    pub operation: Operation,
    pub file: &'a [u8],
    pub action: u64,
    pub state: &'a [u8],
    pub list: &'a [u16],
}

/// Answers a call, given an output buffer of bytes and one of entries.
pub type Tool = fn(&Call, &mut [u8], &mut [u16]) -> u64;

impl<'a> Call<'a> {
    /// A call that takes a file alone.
    pub fn on(operation: Operation, file: &'a [u8]) -> Call<'a> {
        Call { operation, file, action: 0, state: &[], list: &[] }
    }

    /// The call with a list.
    pub fn list(self, list: &'a [u16]) -> Call<'a> {
        Call { list, ..self }
    }

    /// The call with a state or a relaxed state.
    pub fn state(self, state: &'a [u8]) -> Call<'a> {
        Call { state, ..self }
    }

    /// The call with an action number.
    pub fn action(self, action: u64) -> Call<'a> {
        Call { action, ..self }
    }
}

/// The second implementation's answer to a call.
pub fn second(call: &Call, bytes: &mut [u8], entries: &mut [u16]) -> u64 {
    let Call { file, state, list, .. } = *call;
    match call.operation {
        Operation::CheckTask => packed(crate::check_task(file).map(|()| (0, 0))),
        Operation::CheckProbe => packed(crate::check_probe(file).map(|()| (0, 0))),
        Operation::Cost => packed(crate::cost(file, call.action, state)),
        Operation::RelaxedCost => packed(crate::relaxed_cost(file, call.action, state).map(sum)),
        Operation::RunTask => packed(crate::run_task(file, list)),
        Operation::RunProbe => packed(crate::run_probe(file, list).map(sum)),
        Operation::EstimateTask => packed(crate::estimate_task(file, state).map(estimate)),
        Operation::EstimateProbe => packed(crate::estimate_probe(file, state).map(estimate)),
        Operation::Compile => packed(crate::compile(file, bytes).map(|length| (length, 0))),
        Operation::Expand => packed(crate::expand(file, list, entries)),
        Operation::Contract => packed(crate::contract(file, list, entries)),
        Operation::Sheet => packed(crate::sheet(file, list, bytes)),
        Operation::Dearest => packed(crate::dearest(file, call.action, bytes)),
    }
}

/// A sum or a relaxed cost, as the parts that are packed.
fn sum(sum: u32) -> (usize, u32) {
    (0, sum)
}

/// An estimate, as the parts that are packed.
pub fn estimate(estimate: Estimate) -> (usize, u32) {
    match estimate {
        Estimate::Exact(number) => (0, number),
        Estimate::Over => (1, 0),
        Estimate::Never => (2, 0),
    }
}

/// A length, the nodes passed or what kind of estimate it is, and a sum, cost or estimate; or the number and the place of a refusal.
pub fn packed(answer: Answer<(usize, u32)>) -> u64 {
    match answer {
        Ok((middle, low)) => (middle as u64) << 32 | u64::from(low),
        Err(refusal) => refused(refusal.reason as u8, refusal.place),
    }
}

/// A refusal, packed.
pub fn refused(number: u8, place: usize) -> u64 {
    u64::from(number) << 56 | place as u64
}

/// The number of the refusal that an answer packs, 0 for success.
pub fn number(answer: u64) -> u8 {
    (answer >> 56) as u8
}

/// The length written, the nodes passed or the kind of estimate that an answer packs.
pub fn middle(answer: u64) -> usize {
    (answer >> 32 & 0xff_ffff) as usize
}

/// The sum, cost, estimate or place that an answer packs.
pub fn low(answer: u64) -> u32 {
    answer as u32
}

/// An answer in words.
pub fn in_words(answer: u64) -> String {
    match number(answer) {
        0 => format!("length, nodes or kind {}, sum {}", middle(answer), low(answer)),
        number => format!("refused {number} at {}", answer & 0xff_ffff_ffff_ffff),
    }
}

impl fmt::Display for Call<'_> {
    fn fmt(&self, f: &mut fmt::Formatter) -> fmt::Result {
        writeln!(f, "operation: {:?}, action {}", self.operation, self.action)?;
        writeln!(f, "file, {} bytes: {}", self.file.len(), hex(self.file))?;
        writeln!(f, "state, {} bytes: {}", self.state.len(), hex(self.state))?;
        let list: Vec<u8> = self.list.iter().flat_map(|e| e.to_le_bytes()).collect();
        write!(f, "list, {} entries: {}", self.list.len(), hex(&list))
    }
}

/// Bytes in hexadecimal.
pub fn hex(bytes: &[u8]) -> String {
    bytes.iter().map(|byte| format!("{byte:02x}")).collect()
}
