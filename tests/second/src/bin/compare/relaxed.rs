//! What is asked about relaxed costs: with sets that have the precondition's values, that lack some of them, and that are wrong besides.

use crate::answers::Situation;
use crate::comparison::Comparison;
use second::call::{low, refused, Call, Operation};
use second::generate::Random;
use second::model::{holds, set, ActionModel, Facts, TaskModel};
use second::parts::Task;
use second::Reason;

/// An action of a task, with the task's file, and the file of the same task where the action has no precondition.
pub struct Relaxed<'a> {
    task: &'a TaskModel,
    number: usize,
    file: &'a [u8],
    free: Vec<u8>,
}

impl<'a> Relaxed<'a> {
    /// An action of a task.
    pub fn of(task: &'a TaskModel, file: &'a [u8], number: usize) -> Relaxed<'a> {
        let mut free = task.clone();
        free.actions[number].precondition.clear();
        Relaxed { task, number, file, free: free.bytes() }
    }

    /// The action.
    fn action(&self) -> &'a ActionModel {
        &self.task.actions[self.number]
    }

    /// The call for its relaxed cost.
    fn call<'b>(&'b self, sets: &'b [u8]) -> Call<'b> {
        Call::on(Operation::RelaxedCost, self.file).action(self.number as u64).state(sets)
    }

    /// Asks with sets of one value each, with sets that have the precondition's values, and with sets that lack one or several.
    pub fn ask(&self, comparison: &mut Comparison, random: &mut Random) {
        let sizes = &self.task.sizes;
        let precondition = &self.action().precondition;
        let mut state = random.state(sizes);
        self.one_state(comparison, &state);
        set(precondition, &mut state);
        let cost = self.one_state(comparison, &state);
        let sets = random.sets_with(&state, sizes);
        self.having(comparison, &sets, cost);
        if !precondition.is_empty() {
            let one = vec![random.pick(precondition)];
            self.lacking(comparison, random, &sets, &one);
            let several = precondition.iter().copied().filter(|fact| one.contains(fact) || random.chance(50)).collect();
            self.lacking(comparison, random, &sets, &several);
        }
    }

    /// Asks with the values of one state: its cost there, or 17 where a fact of the precondition does not hold.
    fn one_state(&self, comparison: &mut Comparison, state: &[u8]) -> u64 {
        let cost = low(comparison.answer(&Call { operation: Operation::Cost, ..self.call(state) })).into();
        let single: Vec<u8> = state.iter().map(|value| 1 << value).collect();
        let call = self.call(&single);
        let fails = |&&fact: &&(u8, u8)| !holds(&[fact], state);
        let wanted = self.action().precondition.iter().find(fails).map_or(cost, |&(variable, _)| lacking_at(variable));
        let least = comparison.answer(&call);
        comparison.law("relaxed to one state, the cost or 17", &call, wanted, least);
        cost
    }

    /// Asks with sets that have the precondition's values, and holds the answer against the cost in one of the states and against answers without the precondition.
    fn having(&self, comparison: &mut Comparison, sets: &[u8], cost: u64) {
        let mut narrowed = sets.to_vec();
        for &(variable, value) in &self.action().precondition {
            narrowed[usize::from(variable)] = 1 << value;
        }
        let call = self.call(sets);
        let free = Call { file: &self.free, ..call };
        let least = comparison.answer(&call);
        comparison.law("relaxed, at most the cost", &call, least, least.min(cost));
        let again = comparison.answer(&call.state(&narrowed));
        comparison.law("the precondition's values alone, the same cost", &call, again, least);
        let freed = comparison.answer(&free.state(&narrowed));
        comparison.law("these values and no precondition, the same cost", &call, freed, least);
        let freed = comparison.answer(&free);
        comparison.law("no precondition, at most the cost", &call, least, least.max(freed));
        let situation = self.situation(least > freed);
        comparison.met(situation);
        if !matches!(situation, Situation::NotRaised | Situation::Raised) {
            comparison.law("no variable in common, the same cost", &call, freed, least);
        }
        if self.action().precondition.len() == usize::from(Task::VARIABLES) {
            comparison.met(Situation::AllVariables);
        }
    }

    /// The situation with sets that have the precondition's values, where this raises the cost or does not.
    fn situation(&self, raised: bool) -> Situation {
        let ActionModel { precondition, nodes, .. } = self.action();
        let tested = nodes.iter().any(|node| precondition.iter().any(|&(variable, _)| node.variable == variable));
        match (raised, tested) {
            _ if precondition.is_empty() => Situation::NoPrecondition,
            _ if nodes.is_empty() => Situation::NoNodes,
            (_, false) => Situation::NoneTested,
            (false, true) => Situation::NotRaised,
            (true, true) => Situation::Raised,
        }
    }

    /// Asks with sets that lack some of the precondition's values: 17 at the lowest variable, and 4 if some set is wrong.
    fn lacking(&self, comparison: &mut Comparison, random: &mut Random, sets: &[u8], facts: &Facts) {
        let sizes = &self.task.sizes;
        let mut sets = sets.to_vec();
        for &(variable, value) in facts {
            let variable = usize::from(variable);
            sets[variable] = random.set_without(value, sets[variable], sizes[variable]);
        }
        let answer = comparison.answer(&self.call(&sets));
        let lowest = facts[0].0;
        comparison.law("17 at the lowest variable", &self.call(&sets), lacking_at(lowest), answer);
        comparison.met(if facts.len() == 1 { Situation::OneLacking } else { Situation::SeveralLacking });
        if self.action().nodes.is_empty() {
            comparison.met(Situation::LackingNoNodes);
        }
        let wrong = random.below(sizes.len());
        sets[wrong] = random.wrong_set(sets[wrong], sizes[wrong]);
        let answer = comparison.answer(&self.call(&sets));
        comparison.law("4 before 17", &self.call(&sets), refused(Reason::BadValue as u8, wrong), answer);
        if wrong > usize::from(lowest) {
            comparison.met(Situation::LackingAndWrong);
        }
    }
}

/// The refusal of a set that lacks the precondition's value.
fn lacking_at(variable: u8) -> u64 {
    refused(Reason::Lacking as u8, variable.into())
}
