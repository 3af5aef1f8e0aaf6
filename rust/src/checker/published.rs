//! The truth of a rule as document 004 reads it: a variable stands for the value at the end of a path, and a path is
//! names and values. Rows are not told apart otherwise: two whose paths are equal are one.

use std::collections::{BTreeSet, HashMap};

use super::entry::{Entry, Quantifier};
use super::table::{parent_of, Row};
use super::ANY_NAME;

/// Name and value.
type Step = (u32, u32);
type Path = Vec<Step>;

/// What may follow each path: the set of the next steps.
pub struct Published {
    next: HashMap<Path, BTreeSet<Step>>,
}

impl Published {
    /// The rows may have equal siblings. Devices are not told apart either, as in a pool.
    pub fn of(rows: &[Row]) -> Published {
        let mut next: HashMap<Path, BTreeSet<Step>> = HashMap::new();
        let mut paths: Vec<Path> = vec![];
        for (place, row) in rows.iter().enumerate() {
            let mut path = parent_of(rows, place).map_or(vec![], |parent| paths[parent].clone());
            let step = (row.name, row.value);
            next.entry(path.clone()).or_default().insert(step);
            path.push(step);
            paths.push(path);
        }
        Published { next }
    }

    /// The number of paths, but for the empty one.
    pub fn paths(&self) -> usize {
        self.next.values().map(BTreeSet::len).sum()
    }

    /// The truth of an accepted rule.
    pub fn truth(&self, entries: &[Entry]) -> bool {
        self.truth_of(entries, 0, &mut vec![])
    }

    /// The truth of an entry. `bound` holds the path of each variable that is bound there.
    fn truth_of(&self, entries: &[Entry], entry: usize, bound: &mut Vec<Path>) -> bool {
        match entries[entry] {
            Entry::Not { child } => !self.truth_of(entries, child, bound),
            Entry::And { left, right } => {
                self.truth_of(entries, left, bound) && self.truth_of(entries, right, bound)
            }
            Entry::Or { left, right } => {
                self.truth_of(entries, left, bound) || self.truth_of(entries, right, bound)
            }
            Entry::Implies { left, right } => {
                !self.truth_of(entries, left, bound) || self.truth_of(entries, right, bound)
            }
            Entry::Comparison(comparison) => {
                comparison.holds(|variable| bound[variable].last().expect("a step").1, &[])
            }
            Entry::Quantifier(quantifier) => {
                let mut truths = self.range(quantifier, bound).into_iter().map(|path| {
                    bound.push(path);
                    let truth = self.truth_of(entries, quantifier.body, bound);
                    bound.pop();
                    truth
                });
                if quantifier.every {
                    truths.all(|truth| truth)
                } else {
                    truths.any(|truth| truth)
                }
            }
        }
    }

    /// The paths that are one step longer than the one bound, or have one step, with the quantifier's name or any.
    fn range(&self, quantifier: Quantifier, bound: &[Path]) -> Vec<Path> {
        let above = quantifier.under.map_or(vec![], |variable| bound[variable].clone());
        let steps = self.next.get(&above).into_iter().flatten();
        let taken = steps.filter(|step| quantifier.name == ANY_NAME || quantifier.name == step.0);
        taken.map(|&step| [&above[..], &[step]].concat()).collect()
    }
}
