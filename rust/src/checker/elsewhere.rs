//! What a body reads with its variable elsewhere: if that is true or false, it reads the same for each own
//! row, so that no own root can decide against it.

use super::entry::Quantifier;
use super::reading::{Bindings, Reading, Switch};
use super::table::range;
use super::{accepted_rule, accepted_table};
use crate::answer::Answer;
use crate::compare::{run, Case};
use crate::generate::rule_and_roots;

/// Counts the bodies that use their variable, read true or false with it elsewhere, and have an own root.
#[test]
fn reads_the_same_for_each_own_row() {
    let tally = run("reads_the_same_for_each_own_row", 60_000, 100_000, |case| {
        let (rule, table) = rule_and_roots(&mut case.random, 40_000);
        let entries = accepted_rule(&rule).expect("an accepted rule");
        let rows = accepted_table(&table).expect("an accepted table");
        Switch { entries: &entries, rows: &rows }.compare_bodies(case, 0, &mut vec![]);
    });
    tally.saw_both_values(20_000);
}

impl Switch<'_> {
    /// Compares the body of every quantifier within the entry. Each variable around it is elsewhere or bound
    /// to a row of its quantifier's range: no reading for spare rows has other bindings.
    fn compare_bodies(&self, case: &mut Case, entry: usize, bound: &mut Bindings) {
        let Some(quantifier) = self.entries[entry].quantifier() else {
            for child in self.entries[entry].children() {
                self.compare_bodies(case, child, bound);
            }
            return;
        };
        self.compare_body(case, quantifier, bound);
        for row in self.elsewhere_and_range(quantifier, bound) {
            bound.push(row);
            self.compare_bodies(case, quantifier.body, bound);
            bound.pop();
        }
    }

    fn elsewhere_and_range(&self, quantifier: Quantifier, bound: &Bindings) -> Vec<Option<usize>> {
        let rows = |parent| range(self.rows, quantifier, parent).map(Some);
        match quantifier.under.map(|variable| bound[variable]) {
            Some(None) => vec![None],
            Some(parent) => rows(parent).chain([None]).collect(),
            None => rows(None).chain([None]).collect(),
        }
    }

    /// Reads the body for every own row, whatever its name and parent: the claim needs neither.
    fn compare_body(&self, case: &mut Case, quantifier: Quantifier, bound: &mut Bindings) {
        let mut read = |row: Option<usize>| {
            bound.push(row);
            let reading = self.read(quantifier.body, bound);
            bound.pop();
            reading
        };
        let elsewhere = read(None);
        if elsewhere == Reading::Open {
            return;
        }
        let differs = (0..self.rows.len()).find(|&row| read(Some(row)) != elsewhere);
        let describe =
            || format!("{quantifier:?} {bound:?}: {elsewhere:?}, not so for {differs:?} of {self:?}");
        let own_root = quantifier.under.is_none() && range(self.rows, quantifier, None).next().is_some();
        if own_root && self.uses(quantifier.body, bound.len()) {
            let value = (elsewhere == Reading::True) as usize;
            case.compared(differs.is_none(), Answer::Done(value), describe);
        } else {
            assert!(differs.is_none(), "{}", describe());
        }
    }

    /// Whether the variable stands in the entry or anywhere within it.
    fn uses(&self, entry: usize, variable: usize) -> bool {
        let entry = &self.entries[entry];
        entry.variables().contains(&variable)
            || entry.children().into_iter().any(|child| self.uses(child, variable))
    }
}
