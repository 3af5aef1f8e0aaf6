//! Markings that are not the contract's. Each differs from it in one case of the table of reasons.

use crate::answer::{Answer, Refusal};
use crate::checker::{accepted_rule, accepted_table, Entry, Evaluation, Quantifier};

#[derive(Clone, Copy, Debug, PartialEq, Eq)]
pub enum OtherMarking {
    /// Where neither side decides, the left side's reason alone.
    LeftSideAlone,
    /// Where no row decides, the first row alone, and the body's reason there.
    FirstRowAlone,
    /// The rows of a quantifier, without the reasons of its body.
    RowsWithoutBodies,
    /// Where the right side alone decides, the left side's reason.
    LeftForRight,
    /// The reasons of a quantifier's body, without the rows.
    BodiesWithoutRows,
    /// The last deciding row, and the body's reason there, in the place of the first.
    LastForFirst,
}

impl OtherMarking {
    /// Those that leave values unmarked on which the verdict rests.
    pub const TOO_FEW: [OtherMarking; 4] = [
        OtherMarking::LeftSideAlone,
        OtherMarking::FirstRowAlone,
        OtherMarking::RowsWithoutBodies,
        OtherMarking::LeftForRight,
    ];

    /// Those that leave none. Names and parents tell which rows a quantifier takes, and only comparisons look at
    /// values: each marks its rows. Any deciding row is as good as the first.
    pub const ENOUGH: [OtherMarking; 2] = [OtherMarking::BodiesWithoutRows, OtherMarking::LastForFirst];

    /// As `checker::marks`, in a buffer that is not too short.
    pub fn marks(self, rule: &[u32], pool: &[u32], marks: &mut [u8]) -> Answer {
        marks_of(Some(self), rule, pool, marks).into()
    }
}

/// Without another marking, those of the contract.
fn marks_of(
    other: Option<OtherMarking>,
    rule: &[u32],
    pool: &[u32],
    marks: &mut [u8],
) -> Result<usize, Refusal> {
    let (entries, rows) = (accepted_rule(rule)?, accepted_table(pool)?);
    let evaluation = Evaluation::of_rule(&entries, &rows);
    let verdict = evaluation.verdict(0, &mut vec![]);
    let marks = &mut marks[..rows.len()];
    marks.fill(0);
    Walk { other, evaluation, marks }.reason(0, verdict, &mut vec![]);
    Ok(verdict.into())
}

struct Walk<'a> {
    other: Option<OtherMarking>,
    evaluation: Evaluation<'a>,
    marks: &'a mut [u8],
}

impl Walk<'_> {
    fn is(&self, other: OtherMarking) -> bool {
        self.other == Some(other)
    }

    fn reason(&mut self, entry: usize, verdict: bool, bound: &mut Vec<usize>) {
        let entry = self.evaluation.entries[entry];
        match entry {
            Entry::Not { child } => self.reason(child, !verdict, bound),
            Entry::And { left, right } => self.sides([left, right], [true, true], verdict, bound),
            Entry::Or { left, right } => self.sides([left, right], [false, false], !verdict, bound),
            Entry::Implies { left, right } => self.sides([left, right], [true, false], !verdict, bound),
            Entry::Quantifier(quantifier) => self.rows(quantifier, verdict, bound),
            Entry::Comparison(_) => entry.variables().iter().for_each(|&v| self.marks[bound[v]] = 1),
        }
    }

    /// `kept` are the verdicts of the sides where neither decides.
    fn sides(&mut self, sides: [usize; 2], kept: [bool; 2], undecided: bool, bound: &mut Vec<usize>) {
        if undecided {
            self.reason(sides[0], kept[0], bound);
            if !self.is(OtherMarking::LeftSideAlone) {
                self.reason(sides[1], kept[1], bound);
            }
        } else if self.evaluation.verdict(sides[0], bound) != kept[0] {
            self.reason(sides[0], !kept[0], bound);
        } else if self.is(OtherMarking::LeftForRight) {
            self.reason(sides[0], kept[0], bound);
        } else {
            self.reason(sides[1], !kept[1], bound);
        }
    }

    fn rows(&mut self, quantifier: Quantifier, verdict: bool, bound: &mut Vec<usize>) {
        for row in self.rows_of_reason(quantifier, verdict, bound) {
            if !self.is(OtherMarking::BodiesWithoutRows) {
                self.marks[row] = 1;
            }
            if !self.is(OtherMarking::RowsWithoutBodies) {
                bound.push(row);
                self.reason(quantifier.body, verdict, bound);
                bound.pop();
            }
        }
    }

    fn rows_of_reason(&self, quantifier: Quantifier, verdict: bool, bound: &mut Vec<usize>) -> Vec<usize> {
        let mut rows: Vec<usize> = self.evaluation.range(quantifier, bound).collect();
        if verdict == quantifier.every {
            rows.truncate(if self.is(OtherMarking::FirstRowAlone) { 1 } else { rows.len() });
            return rows;
        }
        if self.is(OtherMarking::LastForFirst) {
            rows.reverse();
        }
        let decides = |row: &usize| {
            bound.push(*row);
            let body = self.evaluation.verdict(quantifier.body, bound);
            bound.pop();
            body != quantifier.every
        };
        rows.into_iter().find(decides).into_iter().collect()
    }
}

#[cfg(test)]
mod tests {
    use super::*;
    use crate::checker;
    use crate::checker::ROW_WORDS;
    use crate::generate::{rule_and_any_names, rule_and_pool, Together};
    use crate::random::Random;

    const LIMIT: Together = Together { rows: 24, cost: 10_000 };

    fn marked(other: Option<OtherMarking>, rule: &[u32], pool: &[u32]) -> (Answer, Vec<u8>) {
        let mut marks = vec![7; pool.len() / ROW_WORDS];
        (marks_of(other, rule, pool, &mut marks).into(), marks)
    }

    /// So each differs from the contract in its own case alone.
    #[test]
    fn without_another_marking_the_marks_are_the_checkers() {
        for seed in 0..6_000 {
            let random = &mut Random::new(seed);
            let draw = if seed % 2 == 0 { rule_and_pool } else { rule_and_any_names };
            let (rule, pool) = draw(random, LIMIT);
            let mut marks = vec![7; pool.len() / ROW_WORDS];
            let answer = checker::marks(&rule, &pool, &mut marks);
            assert_eq!(marked(None, &rule, &pool), (answer, marks), "seed {seed}: {rule:?} {pool:?}");
        }
    }

    /// The true pool of rule (ii) of the manual: two interfaces, of which the first has an address, 1/3.
    const POOL: [[u32; 6]; 6] = [
        [1, 1, 0, 0, 1, 11],
        [1, 2, 1, 1, 3, 1],
        [1, 3, 2, 2, 4, 167_772_161],
        [1, 4, 2, 2, 5, 1500],
        [1, 5, 1, 1, 3, 2],
        [1, 6, 5, 2, 5, 9216],
    ];

    #[test]
    fn rule_ii_of_the_manual() {
        let rule = [5, 1, 0, 1, 5, 2, 1, 3, 4, 3, 5, 0, 6, 4, 2, 4, 7, 2, 0, 2, 5, 6, 2, 5, 9, 2, 1, 9000];
        for (other, marks) in [
            (None, [1, 1, 0, 1, 1, 0]),
            (Some(OtherMarking::LeftSideAlone), [1, 1, 0, 1, 1, 0]),
            (Some(OtherMarking::FirstRowAlone), [1, 1, 0, 1, 0, 0]),
            (Some(OtherMarking::RowsWithoutBodies), [1, 0, 0, 0, 0, 0]),
            (Some(OtherMarking::LeftForRight), [1, 1, 1, 0, 1, 0]),
            (Some(OtherMarking::BodiesWithoutRows), [0, 0, 0, 1, 0, 0]),
            (Some(OtherMarking::LastForFirst), [1, 1, 0, 1, 1, 0]),
        ] {
            assert_eq!(marked(other, &rule, &POOL.concat()), (Answer::Done(1), marks.to_vec()), "{other:?}");
        }
    }

    /// Some device has an interface; some device has the interfaces 1 and 2.
    #[test]
    fn other_rows_and_sides() {
        let some = &[6, 1, 0, 1, 6, 2, 1, 3, 7, 1, 0, 1][..];
        let both = &[6, 1, 0, 1, 2, 2, 4, 0, 6, 3, 1, 3, 7, 1, 1, 1, 6, 5, 1, 3, 7, 1, 1, 2][..];
        for (rule, other, marks) in [
            (some, None, [1, 1, 0, 0, 0, 0]),
            (some, Some(OtherMarking::LastForFirst), [1, 0, 0, 0, 1, 0]),
            (both, None, [1, 1, 0, 0, 1, 0]),
            (both, Some(OtherMarking::LeftSideAlone), [1, 1, 0, 0, 0, 0]),
        ] {
            assert_eq!(marked(other, rule, &POOL.concat()), (Answer::Done(1), marks.to_vec()), "{other:?}");
        }
    }
}
