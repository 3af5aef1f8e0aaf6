//! The verdict.

use super::entry::{Entry, Quantifier};
use super::rule::accepted_rule;
use super::table::{accepted_table, range, Row};
use crate::answer::{Answer, Refusal};

pub fn verdict(rule: &[u32], pool: &[u32]) -> Answer {
    accepted(rule, pool)
        .map(|(entries, rows)| Evaluation::of_rule(&entries, &rows).verdict(0, &mut vec![]) as usize)
        .into()
}

/// Rule before table.
pub fn accepted(rule: &[u32], table: &[u32]) -> Result<(Vec<Entry>, Vec<Row>), Refusal> {
    Ok((accepted_rule(rule)?, accepted_table(table)?))
}

/// A rule and a pool, both accepted; or a template that its parameters fill, and a pool.
pub struct Evaluation<'a> {
    pub entries: &'a [Entry],
    /// None for a rule.
    pub parameters: &'a [u32],
    pub rows: &'a [Row],
}

impl Evaluation<'_> {
    pub fn of_rule<'a>(entries: &'a [Entry], rows: &'a [Row]) -> Evaluation<'a> {
        Evaluation { entries, parameters: &[], rows }
    }

    /// The verdict of an entry. `bound` holds the row of each variable that is bound there.
    pub fn verdict(&self, entry: usize, bound: &mut Vec<usize>) -> bool {
        match self.entries[entry] {
            Entry::Not { child } => !self.verdict(child, bound),
            Entry::And { left, right } => self.verdict(left, bound) && self.verdict(right, bound),
            Entry::Or { left, right } => self.verdict(left, bound) || self.verdict(right, bound),
            Entry::Implies { left, right } => !self.verdict(left, bound) || self.verdict(right, bound),
            Entry::Quantifier(quantifier) => match self.first_deciding(quantifier, bound) {
                Some(_) => !quantifier.every,
                None => quantifier.every,
            },
            Entry::Comparison(comparison) => {
                comparison.holds(|variable| self.rows[bound[variable]].value, self.parameters)
            }
        }
    }

    /// The first row that makes kind 5 false or kind 6 true.
    pub fn first_deciding(&self, quantifier: Quantifier, bound: &mut Vec<usize>) -> Option<usize> {
        self.range(quantifier, bound)
            .find(|&row| self.body_verdict(quantifier, row, bound) != quantifier.every)
    }

    pub fn range(&self, quantifier: Quantifier, bound: &[usize]) -> impl Iterator<Item = usize> + '_ {
        range(self.rows, quantifier, quantifier.under.map(|variable| bound[variable]))
    }

    fn body_verdict(&self, quantifier: Quantifier, row: usize, bound: &mut Vec<usize>) -> bool {
        bound.push(row);
        let verdict = self.verdict(quantifier.body, bound);
        bound.pop();
        verdict
    }
}
