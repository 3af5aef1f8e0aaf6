//! What the generators promise.

use std::collections::BTreeSet;

use super::*;
use crate::answer::Answer;
use crate::checker::{
    accepted_rule, accepted_table, check_rule, check_set, check_table, devices_of, marks, part, rows_of,
    set_part, value_of, verdict, Entry, ENTRY_WORDS, MOST_ENTRIES, MOST_NAME, MOST_NESTED, MOST_RULES,
    MOST_VALUE, POOL, ROW_WORDS, RULE,
};
use crate::random::Random;

#[test]
fn rules_and_pools_are_accepted() {
    for seed in 0..3_000 {
        let random = &mut Random::new(seed);
        let vocabulary = Vocabulary::new(random);
        let (rule, pool) = (rule(random, &vocabulary), pool(random, &vocabulary));
        assert_eq!(check_rule(&rule).number(), 0, "seed {seed}: {rule:?}");
        assert_eq!(check_table(&pool).number(), 0, "seed {seed}: {pool:?}");
    }
}

#[test]
fn renumbered_rules_and_pools_are_accepted() {
    for seed in 0..3_000 {
        let random = &mut Random::new(seed);
        let vocabulary = Vocabulary::new(random);
        let (rule, pool) = (rule(random, &vocabulary), pool(random, &vocabulary));
        let (other_rule, other_pool) = (renumbered_rule(random, &rule), renumbered_table(random, &pool));
        assert_eq!(check_rule(&other_rule).number(), 0, "seed {seed}: {other_rule:?}");
        assert_eq!(check_table(&other_pool).number(), 0, "seed {seed}: {other_pool:?}");
    }
}

/// Each width comes, the largest number too, and none above it.
#[test]
fn numbers_keep_to_their_limit() {
    for most in [2, 9, 10, 1_023, MOST_NAME, MOST_VALUE, u32::MAX] {
        let random = &mut Random::new(most.into());
        let numbers: Vec<u32> = (0..3_000).map(|_| number_up_to(random, most)).collect();
        assert_eq!(numbers.iter().max(), Some(&most));
        for width in 1..=width_of(most) {
            let found = numbers.iter().filter(|&&number| width_of(number) == width).count();
            assert!(found >= 30, "{found} of width {width} up to {most}");
        }
        assert_eq!(ends_of_digits(most).last(), Some(&most));
    }
    let ends: Vec<u32> = ends_of_digits(31).into_iter().collect();
    assert_eq!(ends, [0, 1, 2, 3, 4, 5, 6, 7, 8, 9, 10, 11, 19, 20, 21, 29, 30, 31]);
    let values: Vec<i64> = ends_of_values().into_iter().map(value_of).collect();
    for value in [-2_147_483_648, -2_000_000_000, -1_000_000_001, -10, -9, -1, 0, 999_999_999, 2_147_483_647]
    {
        assert!(values.contains(&value), "{value}");
    }
}

/// The order of the words would turn some verdicts of any rules and pools, and most of those that are made for
/// it, of which about as many are true as false.
#[test]
fn signs_decide_verdicts() {
    let limit = Together { rows: 40, cost: 10_000 };
    let (mut of_any, mut of_signs, mut holds) = (0, 0, 0);
    for seed in 0..3_000 {
        let (rule, pool) = rule_and_pool(&mut Random::new(seed), limit);
        of_any += other_verdict(&rule, &pool) as u32;
        let (rule, pool) = rule_and_signs(&mut Random::new(seed), limit);
        of_signs += other_verdict(&rule, &pool) as u32;
        holds += (verdict(&rule, &pool) == Answer::Done(1)) as u32;
    }
    assert!(of_any >= 100 && of_signs >= 2_000, "{of_any} of any, {of_signs} of signs");
    assert!((1_000..=2_000).contains(&holds), "{holds} are true");
}

/// Some rules have quantifiers over any name and many have none, whatever makes them.
#[test]
fn any_names_come_everywhere() {
    const LIMIT: Together = Together { rows: 24, cost: 4_000 };
    const PLAN_LIMIT: PlanLimit = PlanLimit { rows: 24, steps: 4, cost: 4_000 };
    type Rules = fn(&mut Random) -> Vec<u32>;
    let sources: [(&str, Rules); 7] = [
        ("rule_and_pool", |random| rule_and_pool(random, LIMIT).0),
        ("rule_and_roots", |random| rule_and_roots(random, 20_000).0),
        ("rule_and_siblings", |random| rule_and_siblings(random, LIMIT).0),
        ("nested_rule_and_table", |random| nested_rule_and_table(random, 20_000).0.words),
        ("set_and_devices", |random| set_and_devices(random, LIMIT).0.rules),
        ("plan", |random| plan(random, PLAN_LIMIT).set.rules),
        ("too nested", |random| {
            let mut rule = vec![];
            damage_rule(random, &mut rule, 6);
            rule
        }),
    ];
    for (source, rules) in sources {
        let found = (0..1_000).filter(|&seed| has_any_name(&rules(&mut Random::new(seed)))).count();
        assert!((150..=850).contains(&found), "{found} of {source}");
    }
}

/// Nearly all rules have them, and each other reading would turn some verdicts; about as many rules are true as
/// false.
#[test]
fn any_names_decide_verdicts() {
    let limit = Together { rows: 40, cost: 10_000 };
    let (mut has_any, mut holds, mut turned) = (0, 0, [0; 5]);
    for seed in 0..2_000 {
        let (rule, pool) = rule_and_any_names(&mut Random::new(seed), limit);
        has_any += has_any_name(&rule) as u32;
        holds += (verdict(&rule, &pool) == Answer::Done(1)) as u32;
        for (times, narrow) in turned.iter_mut().zip(Narrow::OF_RULES) {
            *times += narrow.other_verdict(&rule, &pool) as u32;
        }
    }
    assert!(has_any >= 1_900 && (600..=1_400).contains(&holds), "{has_any} have any, {holds} are true");
    assert!(turned.iter().all(|&times| times >= 200) && turned[0] >= 1_000, "{turned:?}");
}

/// With all names of the table each such rule means the same, if it is not too long; so do parts.
#[test]
fn names_can_be_spelled_out() {
    let (mut several, mut too_long) = (0, 0);
    for seed in 0..3_000 {
        let random = &mut Random::new(seed);
        let (rule, pool) = rule_and_any_names(random, Together { rows: 30, cost: 4_000 });
        let names: BTreeSet<u32> = rows_of(&pool).iter().map(|row| row.name).chain([NOT_IN_POOL]).collect();
        let names: Vec<u32> = names.into_iter().collect();
        let Some(long) = spelled_out(&rule, &names) else {
            too_long += 1;
            continue;
        };
        assert!(!has_any_name(&long), "seed {seed}: {long:?}");
        assert_eq!(verdict(&rule, &pool), verdict(&long, &pool), "seed {seed}: {rule:?} {pool:?}");
        for device in devices_of(&pool) {
            for mode in [2, 3] {
                let [short, long] = [&rule, &long].map(|rule| part_of_set(&Set::of(&[rule]), device, mode));
                assert_eq!(short, long, "seed {seed}: {rule:?} {device:?}");
            }
        }
        several += (long.len() > rule.len()) as u32;
    }
    assert!(several >= 1_000 && too_long >= 300, "{several} became longer, {too_long} too long");
}

/// The checker reads of them what they tell.
#[test]
fn known_files_are_as_they_tell() {
    let mut refused = 0;
    for seed in 0..10_000 {
        let random = &mut Random::new(seed);
        let rule = random.chance(50);
        let file = known_file(random, rule);
        let found = if rule { RULE.words_of(&file.bytes) } else { POOL.words_of(&file.bytes) };
        assert_eq!(found, file.words, "seed {seed}: {file:?}");
        refused += found.is_err() as u32;
    }
    assert!((2_500..=7_500).contains(&refused), "{refused} are refused");
}

/// In most rules quantifiers over roots stand around one another, in many also beside one another, and the reading of bodies often makes
/// a row spare.
#[test]
fn quantifiers_over_roots_meet() {
    let (mut around, mut beside, mut spare) = (0, 0, 0);
    for seed in 0..3_000 {
        let (rule, table) = rule_and_roots(&mut Random::new(seed), 20_000);
        let entries = accepted_rule(&rule).expect("an accepted rule");
        let rows = accepted_table(&table).expect("an accepted table");
        assert!(rows.iter().all(|row| row.device == rows[0].device), "seed {seed}: {table:?}");
        assert!(
            (2..=12).contains(&rows.iter().filter(|row| row.is_root()).count()),
            "seed {seed}: {table:?}"
        );
        spare += (part(&rule, &table, 2, &mut vec![0; table.len()])
            != part(&rule, &table, 3, &mut vec![0; table.len()])) as u32;
        let nested = nested_over_roots(&entries, 0);
        around += (nested > 1) as u32;
        beside += (entries.iter().filter(|entry| is_over_roots(entry)).count() > nested) as u32;
    }
    assert!(around >= 1_500 && beside >= 1_000, "{around} around, {beside} beside");
    assert!(spare >= 500, "only {spare} devices keep a reached row to themselves");
}

fn is_over_roots(entry: &Entry) -> bool {
    entry.quantifier().is_some_and(|quantifier| quantifier.under.is_none())
}

/// The most quantifiers over roots within the entry that stand around one another.
fn nested_over_roots(entries: &[Entry], entry: usize) -> usize {
    let children = entries[entry].children().into_iter();
    let inside = children.map(|child| nested_over_roots(entries, child)).max().unwrap_or(0);
    inside + is_over_roots(&entries[entry]) as usize
}

/// They have the faults that they tell and no others.
#[test]
fn nested_rules_are_as_they_tell() {
    for seed in 0..3_000 {
        let (rule, table) = nested_rule_and_table(&mut Random::new(seed), 20_000);
        assert_eq!(check_rule(&rule.words), rule.check(), "seed {seed}: {rule:?}");
        assert_eq!(rule.too_nested.is_some(), rule.deepest > MOST_NESTED, "seed {seed}: {rule:?}");
        assert_eq!(check_table(&table).number(), 0, "seed {seed}: {table:?}");
    }
}

/// Their check answers what they tell.
#[test]
fn damaged_depths_are_as_they_tell() {
    for seed in 0..5_000 {
        let random = &mut Random::new(seed);
        let rows = random.below(60);
        let (_, table) = rule_and_deep_rows(random, rows, u64::MAX);
        assert_eq!(check_table(&table).number(), 0, "seed {seed}: {table:?}");
        let damaged = damaged_depths(random, &table);
        assert_eq!(check_table(&damaged.words), damaged.check(), "seed {seed}: {damaged:?}");
    }
}

#[test]
fn collisions_are_as_they_tell() {
    for seed in 0..2_000 {
        let random = &mut Random::new(seed);
        let table = colliding_rows(random);
        let rows = accepted_table(&table).expect("an accepted table");
        assert!(rows.len() >= 10, "seed {seed}: {table:?}");
        let hashes = rows.iter().map(|row| place_hash(row.device, row.at));
        let shared = hashes.clone().filter(|&hash| hashes.clone().next() == Some(hash)).count();
        assert!(2 * shared >= rows.len(), "seed {seed}: {shared} rows of one hash: {table:?}");
        let damaged = damaged_collisions(random, &table);
        assert_eq!(check_table(&damaged.words), damaged.check(), "seed {seed}: {damaged:?}");
        let (joined, cut) = two_colliding_tables(random);
        assert_eq!(check_table(&joined.words), joined.check(), "seed {seed}: {joined:?}");
        let (first, second) = joined.words.split_at(cut * ROW_WORDS);
        for half in [first, second] {
            assert_eq!(check_table(half), Answer::Done(half.len() / ROW_WORDS), "seed {seed}: {half:?}");
        }
    }
}

#[test]
fn depths_are_wrong_in_every_way() {
    let ways: [fn(Option<u32>, u32) -> bool; 8] = [
        |parent, deep| parent.is_none() && deep == 1,
        |parent, deep| parent.is_none() && deep == u32::MAX,
        |parent, deep| parent.is_some() && deep == 0,
        |parent, deep| parent.is_some() && deep == u32::MAX,
        |parent, deep| parent == Some(deep),
        |parent, deep| parent.is_some_and(|above| deep.checked_sub(above) == Some(2)),
        // Nothing is one more than the largest word: not 0, nor that word itself.
        |parent, deep| parent == Some(u32::MAX) && deep == 0,
        |parent, deep| parent == Some(u32::MAX) && deep == u32::MAX,
    ];
    let mut seen = [0; 8];
    for seed in 0..3_000 {
        let random = &mut Random::new(seed);
        let vocabulary = Vocabulary::new(random);
        let mut table = deep_rows(random, &vocabulary, 2, 12);
        damage_table(random, &mut table, 26);
        let rows = rows_of(&table);
        for row in &rows {
            let parent = rows.iter().find(|parent| parent.is_parent_of(row)).map(|parent| parent.deep);
            for (times, way) in seen.iter_mut().zip(ways) {
                *times += way(parent, row.deep) as u32;
            }
        }
    }
    assert!(seen.iter().all(|&times| times >= 50), "{seen:?}");
}

/// A fault put in alone is mostly the one that is found; where there is no place for it, none is.
#[test]
fn faults_are_found_alone() {
    let alone = |faults: &[u32], damaged: fn(&mut Random, u32) -> u32| {
        for &fault in faults {
            let found = (0..1_000).filter(|&seed| damaged(&mut Random::new(seed), fault) == fault).count();
            assert!(found >= 250, "fault {fault} was found {found} times");
        }
    };
    alone(&RULE_FAULTS, |random, fault| {
        let vocabulary = Vocabulary::new(random);
        let mut rule = rule(random, &vocabulary);
        damage_rule(random, &mut rule, fault);
        check_rule(&rule).number()
    });
    alone(&TABLE_FAULTS, |random, fault| {
        let vocabulary = Vocabulary::new(random);
        let mut table = pool(random, &vocabulary);
        damage_table(random, &mut table, fault);
        check_table(&table).number()
    });
}

#[test]
fn sets_are_accepted() {
    let (mut single, mut largest) = (0, 0);
    for seed in 0..3_000 {
        let random = &mut Random::new(seed);
        let vocabulary = Vocabulary::new(random);
        let limit = Together { rows: 40, cost: 20_000 };
        let (pool_set, pool) = set_and_pool(random, limit);
        let (device_set, devices) = set_and_devices(random, limit);
        let (root_set, roots) = set_and_roots(random, limit.cost);
        for set in [set(random, &vocabulary), pool_set, device_set, root_set] {
            assert_eq!(
                check_set(&set.rules, &set.counts),
                Answer::Done(set.counts.len()),
                "seed {seed}: {set:?}"
            );
            single += (set.counts.len() == 1) as u32;
            largest += (set.counts.len() == MOST_RULES) as u32;
        }
        for table in [pool, devices.concat(), roots] {
            assert_eq!(check_table(&table).number(), 0, "seed {seed}: {table:?}");
        }
    }
    assert!(single >= 500 && largest >= 300, "{single} of one rule, {largest} of as many as may be");
}

/// They start in each span of 128 entries, and at the last entry at which a rule can.
#[test]
fn far_apart_the_same_rows_are_sent() {
    let most = MOST_ENTRIES as u32;
    let (mut spans, mut longest) = ([0; MOST_RULES], 0);
    for seed in 0..1_000 {
        let random = &mut Random::new(seed);
        let (near, device) = set_and_roots(random, 5_000);
        let far = far_apart(random, &near);
        assert_eq!(
            check_set(&far.rules, &far.counts),
            Answer::Done(far.counts.len()),
            "seed {seed}: {far:?}"
        );
        for mode in [2, 3] {
            let [near, far] = [&near, &far].map(|set| part_of_set(set, &device, mode));
            assert_eq!(near, far, "seed {seed}");
        }
        let start = far.counts.iter().sum::<u32>() - far.counts[far.counts.len() - 1];
        spans[(start / most) as usize] += 1;
        longest += (far.counts == [most; MOST_RULES]) as u32;
    }
    assert!(spans[1..].iter().all(|&times| times > 0), "{spans:?}");
    assert!(longest >= 100, "only {longest} of as many entries as may be");
}

fn part_of_set(set: &Set, device: &[u32], mode: u32) -> (Answer, Vec<u32>) {
    let mut words = vec![0; device.len()];
    (set_part(&set.rules, &set.counts, device, mode, &mut words), words)
}

/// An even number of nots leaves the verdict and the marks.
#[test]
fn nots_turn_the_verdict() {
    for seed in 0..1_000 {
        let random = &mut Random::new(seed);
        let (rule, pool) = rule_and_pool(random, Together { rows: 40, cost: 20_000 });
        let nots = random.below(MOST_ENTRIES - rule.len() / ENTRY_WORDS + 1);
        let behind = behind_nots(nots, &rule);
        assert_eq!(
            check_rule(&behind),
            Answer::Done(nots + rule.len() / ENTRY_WORDS),
            "seed {seed}: {rule:?}"
        );
        let [(single, marked), (turned, also_marked)] = [&rule, &behind].map(|rule| {
            let mut bytes = vec![7; pool.len() / ROW_WORDS];
            (marks(rule, &pool, &mut bytes), bytes)
        });
        match nots % 2 {
            0 => assert_eq!((single, marked), (turned, also_marked), "seed {seed}: {nots} {rule:?}"),
            _ => assert_ne!(single, turned, "seed {seed}: {nots} {rule:?}"),
        }
    }
}

/// It is accepted, and sends what the set does.
#[test]
fn a_conjunction_is_the_set() {
    let mut several = 0;
    for seed in 0..2_000 {
        let (set, device) = set_and_roots(&mut Random::new(seed), 20_000);
        let Some(rule) = conjunction(&set) else {
            continue;
        };
        let entries = set.counts.len() - 1 + set.rules.len() / ENTRY_WORDS;
        assert_eq!(check_rule(&rule), Answer::Done(entries), "seed {seed}: {set:?}");
        for mode in [2, 3] {
            let of_rule = part_of_set(&Set::of(&[&rule]), &device, mode);
            assert_eq!(of_rule, part_of_set(&set, &device, mode), "seed {seed}: {set:?}");
        }
        several += (set.counts.len() > 1) as u32;
    }
    assert!(several >= 1_000, "only {several} of several rules");
}

/// A fault put in alone is mostly the one that is found. Any rule may be at fault.
#[test]
fn faults_of_sets_are_found_alone() {
    for (fault, number) in SET_FAULTS {
        let (mut found, mut later) = (0, 0);
        for seed in 0..1_000 {
            let random = &mut Random::new(seed);
            let vocabulary = Vocabulary::new(random);
            let mut set = set(random, &vocabulary);
            damage_set(random, &mut set, fault);
            let answer = check_set(&set.rules, &set.counts);
            let is_found = if number == 0 { answer.number() != 0 } else { answer.number() == number };
            found += is_found as u32;
            later += matches!(answer, Answer::Refused(refusal) if refusal.place > 0) as u32;
        }
        assert!(found >= 500, "{fault:?} was found {found} times");
        assert!(number == 20 || later >= 250, "{fault:?} had a place above 0 only {later} times");
    }
}
