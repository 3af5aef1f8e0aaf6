//! The marks: the rows of the reason of entry 0 with its verdict.

use super::entry::{Entry, Quantifier};
use super::files::put;
use super::verdict::{accepted, Evaluation};
use crate::answer::{Answer, Refusal};

pub fn marks(rule: &[u32], pool: &[u32], marks: &mut [u8]) -> Answer {
    marks_of(rule, pool).and_then(|(verdict, bytes)| put(Ok(bytes), marks).map(|_| verdict as usize)).into()
}

/// The verdict, and one byte for each row.
pub fn marks_of(rule: &[u32], pool: &[u32]) -> Result<(bool, Vec<u8>), Refusal> {
    let (entries, rows) = accepted(rule, pool)?;
    let evaluation = Evaluation::of_rule(&entries, &rows);
    let verdict = evaluation.verdict(0, &mut vec![]);
    let mut marked = Marking { evaluation, marks: vec![0; rows.len()] };
    marked.reason(0, verdict, &mut vec![]);
    Ok((verdict, marked.marks))
}

struct Marking<'a> {
    evaluation: Evaluation<'a>,
    marks: Vec<u8>,
}

impl Marking<'_> {
    /// Marks the reason of an entry, whose verdict is known.
    fn reason(&mut self, entry: usize, verdict: bool, bound: &mut Vec<usize>) {
        match self.evaluation.entries[entry] {
            Entry::Not { child } => self.reason(child, !verdict, bound),
            // A false left side decides and, with the verdict false; a true one decides or.
            Entry::And { left, right } => self.sides((left, true), (right, true), verdict, bound),
            Entry::Or { left, right } => self.sides((left, false), (right, false), !verdict, bound),
            Entry::Implies { left, right } => self.sides((left, true), (right, false), !verdict, bound),
            Entry::Quantifier(quantifier) => self.rows(quantifier, verdict, bound),
            Entry::Comparison(comparison) => {
                for variable in comparison.variables() {
                    self.marks[bound[variable]] = 1;
                }
            }
        }
    }

    /// Each side comes with the verdict that it must have if no side decides. If `undecided`, both sides
    /// are the reason; else the first that has the other verdict.
    fn sides(
        &mut self,
        (left, left_kept): (usize, bool),
        (right, right_kept): (usize, bool),
        undecided: bool,
        bound: &mut Vec<usize>,
    ) {
        if undecided {
            self.reason(left, left_kept, bound);
            self.reason(right, right_kept, bound);
        } else if self.evaluation.verdict(left, bound) != left_kept {
            self.reason(left, !left_kept, bound);
        } else {
            self.reason(right, !right_kept, bound);
        }
    }

    fn rows(&mut self, quantifier: Quantifier, verdict: bool, bound: &mut Vec<usize>) {
        let rows: Vec<usize> = if verdict == quantifier.every {
            self.evaluation.range(quantifier, bound).collect()
        } else {
            self.evaluation.first_deciding(quantifier, bound).into_iter().collect()
        };
        for row in rows {
            self.marks[row] = 1;
            bound.push(row);
            // In both cases each body has the verdict of the whole.
            self.reason(quantifier.body, verdict, bound);
            bound.pop();
        }
    }
}
