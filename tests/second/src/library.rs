//! The proved library's C functions, and its answers to calls.

use crate::call::{Call, Operation};

type Bytes = *const u8;
type List = *const u16;
type OutBytes = *mut u8;
type OutList = *mut u16;

unsafe extern "C" {
    fn jafrelin_check_task(file: Bytes, file_len: usize) -> u64;
    fn jafrelin_check_probe(file: Bytes, file_len: usize) -> u64;
    fn jafrelin_cost(file: Bytes, file_len: usize, action: u64, state: Bytes, state_len: usize) -> u64;
    fn jafrelin_relaxed_cost(file: Bytes, file_len: usize, action: u64, sets: Bytes, sets_len: usize) -> u64;
    fn jafrelin_run_task(file: Bytes, file_len: usize, list: List, list_len: usize) -> u64;
    fn jafrelin_run_probe(file: Bytes, file_len: usize, list: List, list_len: usize) -> u64;
    fn jafrelin_estimate_task(file: Bytes, file_len: usize, state: Bytes, state_len: usize) -> u64;
    fn jafrelin_estimate_probe(file: Bytes, file_len: usize, state: Bytes, state_len: usize) -> u64;
    fn jafrelin_compile(file: Bytes, file_len: usize, out: OutBytes, out_len: usize) -> u64;
    fn jafrelin_expand(file: Bytes, file_len: usize, list: List, list_len: usize, out: OutList, out_len: usize) -> u64;
    fn jafrelin_contract(
        file: Bytes,
        file_len: usize,
        list: List,
        list_len: usize,
        out: OutList,
        out_len: usize,
    ) -> u64;
    fn jafrelin_sheet(file: Bytes, file_len: usize, plan: List, plan_len: usize, out: OutBytes, out_len: usize) -> u64;
    fn jafrelin_dearest(file: Bytes, file_len: usize, action: u64, out: OutBytes, out_len: usize) -> u64;
    /// The library's charge for a sum, packed.
    pub safe fn jafrelin_charge(sum: u32) -> u64;
}

/// The library's answer to a call.
pub fn library(call: &Call, bytes: &mut [u8], entries: &mut [u16]) -> u64 {
    let (file, file_len) = (call.file.as_ptr(), call.file.len());
    let (state, state_len) = (call.state.as_ptr(), call.state.len());
    let (list, list_len) = (call.list.as_ptr(), call.list.len());
    let (bytes, bytes_len) = (bytes.as_mut_ptr(), bytes.len());
    let (out, out_len) = (entries.as_mut_ptr(), entries.len());
    // SAFETY: every pointer comes with the length of the slice that it is taken from, and the slices outlive the call; the outputs are borrowed alone.
    unsafe {
        match call.operation {
            Operation::CheckTask => jafrelin_check_task(file, file_len),
            Operation::CheckProbe => jafrelin_check_probe(file, file_len),
            Operation::Cost => jafrelin_cost(file, file_len, call.action, state, state_len),
            Operation::RelaxedCost => jafrelin_relaxed_cost(file, file_len, call.action, state, state_len),
            Operation::RunTask => jafrelin_run_task(file, file_len, list, list_len),
            Operation::RunProbe => jafrelin_run_probe(file, file_len, list, list_len),
            Operation::EstimateTask => jafrelin_estimate_task(file, file_len, state, state_len),
            Operation::EstimateProbe => jafrelin_estimate_probe(file, file_len, state, state_len),
            Operation::Compile => jafrelin_compile(file, file_len, bytes, bytes_len),
            Operation::Expand => jafrelin_expand(file, file_len, list, list_len, out, out_len),
            Operation::Contract => jafrelin_contract(file, file_len, list, list_len, out, out_len),
            Operation::Sheet => jafrelin_sheet(file, file_len, list, list_len, bytes, bytes_len),
            Operation::Dearest => jafrelin_dearest(file, file_len, call.action, bytes, bytes_len),
        }
    }
}
