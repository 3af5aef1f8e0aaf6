//! The verdict and the marks.
#![cfg(feature = "engine")]

use gabzeril_tests::checker::ROW_WORDS;
use gabzeril_tests::compare::{calls, run};
use gabzeril_tests::generate::*;

#[test]
fn accepted_rules_and_pools() {
    let limit = Together { rows: 1_024, cost: 60_000 };
    let tally = run("accepted_rules_and_pools", 25_000, 100_000, |case| {
        let (rule, pool) = rule_and_pool(&mut case.random, limit);
        case.note_met([(other_verdict(&rule, &pool), OTHER_VERDICT)]);
        calls::verdict(case, &rule, &pool);
        let rows = pool.len() / ROW_WORDS;
        for length in some_lengths_around(&mut case.random, rows) {
            let output = case.random.bytes(length);
            calls::marks(case, &rule, &pool, &output);
        }
    });
    tally.saw_each([17], 5_000);
    tally.saw_both_values(20_000);
    tally.saw_noted(OTHER_VERDICT, 700);
}

#[test]
fn refused_rules_and_pools() {
    let limit = Together { rows: 60, cost: 60_000 };
    let tally = run("refused_rules_and_pools", 10_500, 20_000, |case| {
        let (rule, pool) = rule_and_pool(&mut case.random, limit);
        let (rule, pool) = damaged_together(&mut case.random, rule, pool);
        // A damage may leave both accepted, but far too long to evaluate.
        if verdict_cost(&rule, &pool) > 10 * limit.cost {
            return;
        }
        calls::verdict(case, &rule, &pool);
        let length = one_length_around(&mut case.random, pool.len() / ROW_WORDS);
        let output = case.random.bytes(length);
        calls::marks(case, &rule, &pool, &output);
    });
    tally.saw_each(RULE_FAULTS, 300);
    tally.saw_each(TABLE_FAULTS, 300);
}
