//! Sets with faults: 20 in their counts, 1 to 7 in their rules.

use super::collisions::first_last_or_any;
use super::damaged_rule::{damage_rule, damaged_rule, on_some_child, RULE_FAULTS};
use super::rules::shift_children;
use super::sets::Set;
use super::vocabulary::word_of_any_class;
use crate::checker::{ENTRY_WORDS, MOST_ENTRIES, MOST_RULES};
use crate::random::Random;

/// The faults of rules come first, since they need counts that add up.
#[derive(Clone, Copy, Debug, PartialEq, Eq, PartialOrd, Ord)]
pub enum SetFault {
    /// In one rule, of any number.
    Rule,
    /// In two rules, most often the higher number in the earlier.
    TwoRules,
    /// A child that is an entry of the set, though not of its rule.
    ChildInAnotherRule,
    /// The children of a rule counted from the first entry of the set.
    ChildrenOfTheSet,
    /// A rule of more entries than may be.
    LongRule,
    /// Rules cut at other entries.
    OtherCuts,
    ZeroCount,
    NoCounts,
    TooManyCounts,
    OneMoreOrLess,
    AnyCount,
    /// The counts add up modulo one of 2^8 to 2^30 alone.
    SumModulo8To30Bits,
    /// The counts add up modulo 2^32 alone.
    SumModulo32Bits,
    LeftoverWords,
    /// Whole entries too many or too few.
    OtherLength,
}

use SetFault::*;

/// With the number that is mostly found where the fault is the only one; 0 if it may be any.
pub const SET_FAULTS: [(SetFault, u32); 15] = [
    (Rule, 0),
    (TwoRules, 0),
    (ChildInAnotherRule, 4),
    (ChildrenOfTheSet, 4),
    (LongRule, 1),
    (OtherCuts, 0),
    (ZeroCount, 1),
    (NoCounts, 20),
    (TooManyCounts, 20),
    (OneMoreOrLess, 20),
    (AnyCount, 20),
    (SumModulo8To30Bits, 20),
    (SumModulo32Bits, 20),
    (LeftoverWords, 20),
    (OtherLength, 20),
];

/// A set with one of these faults, or with two or three; more often in rules than in counts.
pub fn damaged_set(random: &mut Random, set: &Set) -> Set {
    let mut faults: Vec<SetFault> = (0..random.pick(&[1, 1, 1, 2, 3]))
        .map(|_| if random.chance(40) { random.pick(&[Rule, TwoRules]) } else { random.pick(&SET_FAULTS).0 })
        .collect();
    faults.sort();
    let mut damaged = set.clone();
    for fault in faults {
        damage_set(random, &mut damaged, fault);
    }
    damaged
}

/// Puts a fault into a set, whose counts add up if it is one of the rules'.
pub fn damage_set(random: &mut Random, set: &mut Set, fault: SetFault) {
    match fault {
        Rule => in_a_rule(random, set),
        TwoRules => in_two_rules(random, set),
        ChildInAnotherRule => on_a_rule(random, set, child_in_another_rule),
        ChildrenOfTheSet => on_a_rule(random, set, children_of_the_set),
        LongRule => on_a_rule(random, set, long_rule),
        OtherCuts => other_cuts(random, &mut set.counts),
        ZeroCount => zero_count(random, &mut set.counts),
        NoCounts => no_counts(random, set),
        TooManyCounts => too_many_counts(random, set),
        OneMoreOrLess => on_a_count(random, set, |random, count| match random.chance(50) {
            true => count.wrapping_add(1),
            false => count.wrapping_sub(1),
        }),
        AnyCount => on_a_count(random, set, |random, _| word_of_any_class(random)),
        SumModulo8To30Bits => on_a_count(random, set, |random, count| {
            // 2^28 and 2^30 entries are 2^32 bytes and 2^32 words.
            count.wrapping_add(random.between(1, 3) as u32 * (1 << random.pick(&[8, 16, 28, 30, 30])))
        }),
        SumModulo32Bits => sum_modulo_32_bits(random, &mut set.counts),
        LeftoverWords => leftover_words(random, &mut set.rules),
        OtherLength => other_length(random, &mut set.rules),
    }
}

/// Changes one of the rules, given its place; often the first or the last.
fn on_a_rule(random: &mut Random, set: &mut Set, change: fn(&mut Random, &mut [Vec<u32>], usize)) {
    let mut rules: Vec<Vec<u32>> = set.each().into_iter().map(|rule| rule.to_vec()).collect();
    let place = first_last_or_any(random, &(0..rules.len()).collect::<Vec<_>>());
    change(random, &mut rules, place);
    *set = Set::of(&rules);
}

fn in_a_rule(random: &mut Random, set: &mut Set) {
    on_a_rule(random, set, |random, rules, place| {
        rules[place] = damaged_rule(random, &rules[place]);
        keep_whole_entries(&mut rules[place]);
    });
}

fn keep_whole_entries(rule: &mut Vec<u32>) {
    rule.truncate(rule.len() / ENTRY_WORDS * ENTRY_WORDS);
}

fn in_two_rules(random: &mut Random, set: &mut Set) {
    on_a_rule(random, set, |random, rules, place| {
        let other = random.below(rules.len());
        let (mut first, mut second) = (random.pick(&RULE_FAULTS), random.pick(&RULE_FAULTS));
        if first < second && random.chance(70) {
            (first, second) = (second, first);
        }
        damage_rule(random, &mut rules[place.min(other)], first);
        damage_rule(random, &mut rules[place.max(other)], second);
        rules.iter_mut().for_each(keep_whole_entries);
    });
}

fn child_in_another_rule(random: &mut Random, rules: &mut [Vec<u32>], place: usize) {
    let entries: usize = rules.iter().map(|rule| rule.len() / ENTRY_WORDS).sum();
    on_some_child(random, &mut rules[place], |random, _, own| {
        random.between(own, entries.max(own + 1) - 1) as u32
    });
}

fn children_of_the_set(_: &mut Random, rules: &mut [Vec<u32>], place: usize) {
    let first = (rules[..place].iter().map(Vec::len).sum::<usize>() / ENTRY_WORDS) as u32;
    shift_children(&mut rules[place], first);
}

fn long_rule(random: &mut Random, rules: &mut [Vec<u32>], place: usize) {
    let entries = MOST_ENTRIES + random.pick(&[1, 1, 2, 100, 128]);
    while rules[place].len() < entries * ENTRY_WORDS {
        rules[place].extend([7, 0, 1, 0]);
    }
}

/// Two counts exchanged, or some entries moved from one count to the next.
fn other_cuts(random: &mut Random, counts: &mut [u32]) {
    let place = random.below(counts.len());
    if random.chance(50) {
        counts.swap(place, random.below(counts.len()));
    } else if place + 1 < counts.len() {
        let moved = random.below(counts[place] as usize + 1) as u32;
        (counts[place], counts[place + 1]) = (counts[place] - moved, counts[place + 1] + moved);
    }
}

/// One count more; or another has its entries if there may be no more.
fn zero_count(random: &mut Random, counts: &mut Vec<u32>) {
    let place = random.below(counts.len() + 1);
    if counts.len() < MOST_RULES {
        counts.insert(place, 0);
    } else {
        let (first, second) = (place % counts.len(), (place + 1) % counts.len());
        (counts[first], counts[second]) = (0, counts[first] + counts[second]);
    }
}

fn no_counts(random: &mut Random, set: &mut Set) {
    set.counts.clear();
    if random.chance(50) {
        set.rules.clear();
    }
}

/// Rules or counts of 0 added behind the others, so that the counts still add up.
fn too_many_counts(random: &mut Random, set: &mut Set) {
    let count = MOST_RULES + random.pick(&[1, 1, 1, 2, 32, 225, 256]);
    let added = if random.chance(60) { &[5, 1, 0, 1, 7, 0, 0, 0][..] } else { &[] };
    while set.counts.len() < count {
        set.rules.extend(added);
        set.counts.push((added.len() / ENTRY_WORDS) as u32);
    }
}

fn on_a_count(random: &mut Random, set: &mut Set, change: fn(&mut Random, u32) -> u32) {
    if !set.counts.is_empty() {
        let place = random.below(set.counts.len());
        set.counts[place] = change(random, set.counts[place]);
    }
}

/// One count is so much larger and another, below 0, so much smaller.
fn sum_modulo_32_bits(random: &mut Random, counts: &mut Vec<u32>) {
    if counts.len() < 2 {
        counts.insert(random.below(counts.len() + 1), 0);
    }
    if counts.len() >= 2 {
        let first = random.below(counts.len());
        let second = (first + random.between(1, counts.len() - 1)) % counts.len();
        let much = random.pick(&[1 << 31, 1 << 30, 1 << 20, counts[second].wrapping_add(1)]);
        counts[first] = counts[first].wrapping_add(much);
        counts[second] = counts[second].wrapping_sub(much);
    }
}

/// One to three words more or less.
fn leftover_words(random: &mut Random, rules: &mut Vec<u32>) {
    let words = random.between(1, ENTRY_WORDS - 1);
    if random.chance(50) {
        rules.truncate(rules.len().saturating_sub(words));
    } else {
        rules.extend(random.words(words));
    }
}

fn other_length(random: &mut Random, rules: &mut Vec<u32>) {
    let entries = random.pick(&[1, 1, 2, 128, MOST_RULES * MOST_ENTRIES]);
    if random.chance(50) {
        rules.truncate(rules.len().saturating_sub(entries * ENTRY_WORDS));
    } else {
        rules.extend([7, 0, 1, 0].repeat(entries));
    }
}
