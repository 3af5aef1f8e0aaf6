//! What the generators of templates promise.

use super::*;
use crate::answer::Answer;
use crate::checker::{check_table, fill, filled, verdict, ENTRY_WORDS, MOST_ENTRIES};
use crate::random::Random;

/// The number of the refusal, with room enough.
fn number(filling: &Filling) -> u32 {
    let mut rule = vec![7; filling.template.len()];
    fill(&filling.template, &filling.parameters, &mut rule).number()
}

#[test]
fn parameters_fill_their_templates() {
    let (mut most, mut none, mut longest, mut shared) = (0, 0, 0, 0);
    for seed in 0..3_000 {
        let random = &mut Random::new(seed);
        let (with_pool, pool) = filling_and_pool(random, Together { rows: 24, cost: 4_000 });
        assert_eq!(check_table(&pool).number(), 0, "seed {seed}: {pool:?}");
        for filling in [filling(random), filling_of_many(random), with_pool] {
            assert_eq!(number(&filling), 0, "seed {seed}: {filling:?}");
            most += (filling.parameters.len() == 16) as u32;
            none += filling.parameters.is_empty() as u32;
            longest += (filling.template.len() == MOST_ENTRIES * ENTRY_WORDS) as u32;
            shared += (filling.parameters.len() < filling.blanks().len()) as u32;
        }
    }
    assert!(most >= 1_000 && none >= 400, "{most} with 16, {none} without");
    assert!(longest >= 500 && shared >= 3_000, "{longest} as long as may be, {shared} share a number");
}

/// The meaning is that of the filled rule, about as often true as false; and often another with other parameters.
#[test]
fn parameters_decide_verdicts() {
    let (mut holds, mut turned) = (0, 0);
    for seed in 0..6_000 {
        let random = &mut Random::new(seed);
        let (filling, pool) = filling_and_pool(random, Together { rows: 24, cost: 4_000 });
        let rule = filled(&filling.template, &filling.parameters).expect("a filled rule");
        let meaning = filling.verdict(&filling.parameters, &pool);
        assert_eq!(meaning, verdict(&rule, &pool), "seed {seed}: {filling:?} {pool:?}");
        holds += (meaning == Answer::Done(1)) as u32;
        turned += turned_by_others(random, &filling, &pool, &values_of(&rule, &pool)) as u32;
    }
    assert!((2_000..=4_000).contains(&holds) && turned >= 1_000, "{holds} are true, {turned} are turned");
}

/// A fault put in alone is mostly the one that is found.
#[test]
fn faults_of_templates_are_found_alone() {
    for (fault, expected) in TEMPLATE_FAULTS {
        let mut found = 0;
        for seed in 0..1_000 {
            let random = &mut Random::new(seed);
            let mut filling = if random.chance(30) { filling(random) } else { filling_of_many(random) };
            damage_filling(random, &mut filling, fault);
            let number = number(&filling);
            found += if expected == 0 { number != 0 } else { number == expected } as u32;
        }
        assert!(found >= 500, "{fault:?} was found {found} times");
    }
}

/// Accepted ones, and each refusal.
#[test]
fn loose_ones_are_of_all_kinds() {
    let mut seen = [0; 23];
    for seed in 0..10_000 {
        let random = &mut Random::new(seed);
        seen[number(&loose_filling(random)) as usize] += 1;
        seen[number(&any_filling(random)) as usize] += 1;
    }
    for number in [0, 3, 4, 5, 7, 21, 22] {
        assert!(seen[number] >= 100, "{seen:?}");
    }
}
