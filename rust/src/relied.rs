//! Marks that can be relied on, from outside: the values of unmarked rows are changed, all else of the table is
//! kept, and the verdict must be the one before.

use crate::answer::Answer;
use crate::checker;
use crate::checker::ROW_WORDS;
#[cfg(feature = "engine")]
use crate::ffi;
use crate::generate::{changes, Changes};
use crate::random::Random;

/// Marks the rows of a pool for a rule.
pub type Marks<'a> = dyn Fn(&[u32], &[u32], &mut [u8]) -> Answer + 'a;

/// The calls under test.
#[derive(Clone, Copy)]
pub struct Calls<'a> {
    pub marks: &'a Marks<'a>,
    pub verdict: &'a dyn Fn(&[u32], &[u32]) -> Answer,
}

#[cfg(feature = "engine")]
pub const LIBRARY: Calls = Calls { marks: &ffi::marks, verdict: &ffi::verdict };

pub const CHECKER: Calls = Calls { marks: &checker::marks, verdict: &checker::verdict };

/// What the calls gave where the claim holds.
#[derive(Clone, Debug)]
pub struct Held {
    /// The verdict, before and after each change.
    pub verdict: Answer,
    /// Those before the changes.
    pub marks: Vec<u8>,
    /// None if all rows are marked.
    pub changes: Changes,
}

/// Checks the claim for one rule and one pool, both accepted.
pub fn check_pool(calls: Calls, random: &mut Random, rule: &[u32], pool: &[u32]) -> Result<Held, String> {
    let (answer, marks) = marks_on(calls, random, rule, pool)?;
    let verdict = (calls.verdict)(rule, pool);
    if verdict != answer {
        return Err(format!("{verdict:?}, with the marks {answer:?}"));
    }
    let changes = changes(random, rule, pool, &places_of(&marks, 0));
    for change in &changes.accepted {
        let after = (calls.verdict)(rule, &change.table);
        if after != verdict {
            return Err(format!("{verdict:?} with the marks {marks:?}, {after:?} after {change:?}"));
        }
    }
    Ok(Held { verdict, marks, changes })
}

/// What the call answers, and the marks. At times the buffer is longer: what lies past the marks must stay.
fn marks_on(
    calls: Calls,
    random: &mut Random,
    rule: &[u32],
    pool: &[u32],
) -> Result<(Answer, Vec<u8>), String> {
    let rows = pool.len() / ROW_WORDS;
    let longer = rows + random.pick(&[0, 0, 1, 7]);
    let output = random.bytes(longer);
    let mut marks = output.clone();
    let answer = (calls.marks)(rule, pool, &mut marks);
    let is_verdict = matches!(answer, Answer::Done(0 | 1));
    if !is_verdict || marks[..rows].iter().any(|&mark| mark > 1) || marks[rows..] != output[rows..] {
        return Err(format!("marks {answer:?} {marks:?} of {rows} rows in {output:?}"));
    }
    marks.truncate(rows);
    Ok((answer, marks))
}

/// The rows with this mark.
pub fn places_of(marks: &[u8], mark: u8) -> Vec<usize> {
    (0..marks.len()).filter(|&place| marks[place] == mark).collect()
}

#[cfg(test)]
mod tests {
    use super::*;
    use crate::generate::{rule_and_any_names, rule_and_pool, rule_and_signs, OtherMarking, Together};

    const LIMIT: Together = Together { rows: 24, cost: 10_000 };

    fn rule_and_table(random: &mut Random) -> (Vec<u32>, Vec<u32>) {
        match random.below(20) {
            0 => rule_and_any_names(random, LIMIT),
            1 => rule_and_signs(random, LIMIT),
            _ => rule_and_pool(random, LIMIT),
        }
    }

    fn check(calls: Calls, seed: u64) -> Result<Held, String> {
        let random = &mut Random::new(seed);
        let (rule, pool) = rule_and_table(random);
        check_pool(calls, random, &rule, &pool).map_err(|fault| format!("{rule:?} {pool:?}: {fault}"))
    }

    /// The claim, on the checker's own functions.
    #[test]
    fn holds_for_the_checker() {
        let pools = (0..20_000).map(|seed| match check(CHECKER, seed) {
            Ok(held) => !held.changes.accepted.is_empty() as usize,
            Err(fault) => panic!("seed {seed}: {fault}"),
        });
        let changed: usize = pools.sum();
        assert!(changed >= 10_000, "only {changed} pools");
    }

    /// Where the deciding row is another one, or a quantifier's rows are not marked for its own sake.
    #[test]
    fn holds_for_other_markings() {
        for other in OtherMarking::ENOUGH {
            let marks = |rule: &[u32], pool: &[u32], marks: &mut [u8]| other.marks(rule, pool, marks);
            for seed in 0..6_000 {
                if let Err(fault) = check(Calls { marks: &marks, ..CHECKER }, seed) {
                    panic!("{other:?}, seed {seed}: {fault}");
                }
            }
        }
    }

    #[test]
    fn finds_markings_of_too_few_rows() {
        for other in OtherMarking::TOO_FEW {
            let marks = |rule: &[u32], pool: &[u32], marks: &mut [u8]| other.marks(rule, pool, marks);
            let fails = |&seed: &u64| check(Calls { marks: &marks, ..CHECKER }, seed).is_err();
            let pools = (0..20_000).filter(fails).count();
            assert!(pools >= 100, "{other:?}: only {pools} pools");
        }
    }

    /// A byte past the marks, a mark that is none, a refusal, or another verdict.
    #[test]
    fn finds_calls_that_answer_wrongly() {
        let rule_and_pool = ([5, 1, 0, 1, 9, 0, 1, 3], [1, 1, 0, 0, 1, 2, 1, 2, 1, 1, 1, 2]);
        let wrong: [&Marks; 4] = [
            &|rule, pool, marks| {
                marks.fill(0);
                checker::marks(rule, pool, marks)
            },
            &|rule, pool, marks| {
                let answer = checker::marks(rule, pool, marks);
                marks[1] = 2;
                answer
            },
            &|_, _, _| Answer::refused(17, 0),
            &|_, _, marks| {
                marks[..2].fill(1);
                Answer::Done(0)
            },
        ];
        for (place, marks) in wrong.into_iter().enumerate() {
            let found = (0..50).filter(|&seed| {
                let calls = Calls { marks, ..CHECKER };
                check_pool(calls, &mut Random::new(seed), &rule_and_pool.0, &rule_and_pool.1).is_err()
            });
            assert!(found.count() >= 10, "call {place}");
        }
    }
}
