//! How often each thing that a run must meet was met, by the function that met it.

use std::collections::BTreeMap;

use crate::call::Function;
use crate::coverage::Scope;

#[derive(Clone)]
pub struct Tally<M> {
    counts: BTreeMap<(Function, M), u64>,
}

impl<M> Default for Tally<M> {
    fn default() -> Self {
        Self {
            counts: BTreeMap::new(),
        }
    }
}

impl<M: Copy + Ord> Tally<M> {
    pub fn met(&mut self, function: Function, met: M) {
        *self.counts.entry((function, met)).or_default() += 1;
    }

    pub fn add(&mut self, other: &Tally<M>) {
        for (met, more) in &other.counts {
            *self.counts.entry(*met).or_default() += more;
        }
    }

    fn count(&self, function: Function, met: M) -> u64 {
        self.counts.get(&(function, met)).copied().unwrap_or(0)
    }

    /// What a function is to meet and has not.
    pub fn missing(&self, scope: Scope, demanded: fn(Function) -> Vec<M>) -> Vec<(Function, M)> {
        let functions = scope.functions().iter();
        let all = functions.flat_map(|&function| {
            demanded(function)
                .into_iter()
                .map(move |met| (function, met))
        });
        all.filter(|&(function, met)| self.count(function, met) == 0)
            .collect()
    }

    /// For each function and each kind of what it is to meet, how often each came.
    pub fn kinds(
        &self,
        scope: Scope,
        demanded: fn(Function) -> Vec<M>,
        kind: fn(M) -> String,
    ) -> Vec<(Function, String, Vec<u64>)> {
        let mut kinds: Vec<(Function, String, Vec<u64>)> = vec![];
        for &function in scope.functions() {
            for met in demanded(function) {
                let (kind, count) = (kind(met), self.count(function, met));
                match kinds
                    .iter_mut()
                    .find(|one| (one.0, &one.1) == (function, &kind))
                {
                    Some((_, _, counts)) => counts.push(count),
                    None => kinds.push((function, kind, vec![count])),
                }
            }
        }
        kinds
    }
}
