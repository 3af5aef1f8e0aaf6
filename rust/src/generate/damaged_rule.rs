//! Rules with faults under 1 to 7.

use super::faults::{change_a_word, with_faults};
use super::rules::{rule_of, some_any, RuleShape, Sides};
use super::vocabulary::Vocabulary;
use crate::checker::{ENTRY_WORDS, MOST_ENTRIES, MOST_NESTED};
use crate::random::Random;

pub const RULE_FAULTS: [u32; 7] = [1, 2, 3, 4, 5, 6, 7];

/// A rule with one fault or several.
pub fn damaged_rule(random: &mut Random, rule: &[u32]) -> Vec<u32> {
    with_faults(random, rule, &RULE_FAULTS, damage_rule)
}

/// Small words at any place, mostly in whole entries of known kinds: any check may be the first to refuse.
pub fn any_rule(random: &mut Random) -> Vec<u32> {
    let entries = random.between(1, 6);
    let mut rule = vec![];
    for _ in 0..entries {
        rule.push(random.between(1, 9) as u32);
        rule.extend((0..3).map(|_| random.below(entries + 1) as u32));
    }
    if random.chance(30) {
        change_a_word(random, &mut rule);
    }
    if random.chance(5) {
        rule.truncate(random.below(rule.len()));
    }
    rule
}

/// Puts a fault under this number into a rule, which may already have others.
pub fn damage_rule(random: &mut Random, rule: &mut Vec<u32>, number: u32) {
    match number {
        1 => wrong_length(random, rule),
        2 => on_some_entry(random, rule, 0, |random, words| {
            words[0] = random.pick(&[0, 10, 11, 127, 65_536, 2_147_483_648, u32::MAX]);
        }),
        3 => on_some_entry(random, rule, 0, wrong_word),
        4 => on_some_child(random, rule, |random, place, entries| {
            let later = random.chance(50);
            let beyond = random.pick(&[entries, entries + 1, MOST_ENTRIES, u32::MAX as usize]);
            (if later { beyond.max(entries) } else { random.below(place + 1) }) as u32
        }),
        5 => on_some_child(random, rule, |random, place, entries| {
            random.between(place + 1, entries.max(place + 2) - 1) as u32
        }),
        6 => *rule = too_nested(random),
        _ => on_some_entry(random, rule, 5, unbound_variable),
    }
}

/// Leftover or missing words, no entries, or too many.
fn wrong_length(random: &mut Random, rule: &mut Vec<u32>) {
    let entries = match random.below(6) {
        0 => 0,
        1 => rule.len() / ENTRY_WORDS,
        2 => MOST_ENTRIES + 1,
        3 => MOST_ENTRIES + random.between(1, 20),
        4 => random.between(500, 3_000),
        _ => MOST_ENTRIES,
    };
    let leftover = if entries > MOST_ENTRIES { random.below(4) } else { random.between(1, 3) };
    let words = match entries {
        0 if random.chance(50) => 0,
        _ => entries * ENTRY_WORDS + leftover,
    };
    // The last entry is repeated: a comparison, or a connective whose child is not later.
    let last = rule.get(rule.len().saturating_sub(ENTRY_WORDS)..).unwrap_or(&[]).to_vec();
    while rule.len() < words {
        rule.push(if last.is_empty() { random.word() } else { last[rule.len() % last.len()] });
    }
    rule.truncate(words);
}

/// Changes the words of one entry of this kind or a later one.
fn on_some_entry(
    random: &mut Random,
    rule: &mut [u32],
    least_kind: u32,
    change: impl Fn(&mut Random, &mut [u32]),
) {
    let entries = rule.chunks_exact_mut(ENTRY_WORDS);
    let mut entries: Vec<&mut [u32]> = entries.filter(|words| words[0] >= least_kind).collect();
    if !entries.is_empty() {
        let place = random.below(entries.len());
        change(random, entries[place]);
    }
}

/// Check 3: a word that is due 0, b of a comparison, or a name.
fn wrong_word(random: &mut Random, words: &mut [u32]) {
    let above_0 = random.pick(&[1, 2, 65_536, u32::MAX]);
    match words[0] {
        1 => words[random.between(2, 3)] = above_0,
        2..=4 => words[3] = above_0,
        5 | 6 => words[3] = random.pick(&[65_536, 65_537, 2_147_483_648, u32::MAX]),
        _ => words[2] = random.pick(&[2, 3, 65_536, u32::MAX]),
    }
}

/// Changes one child place of one entry, given the entry's place and the number of entries.
pub fn on_some_child(
    random: &mut Random,
    rule: &mut [u32],
    child: impl Fn(&mut Random, usize, usize) -> u32,
) {
    let entries = rule.len() / ENTRY_WORDS;
    let mut places = vec![];
    for place in 0..entries {
        match rule[place * ENTRY_WORDS] {
            1 | 5 | 6 => places.push((place, 1)),
            2..=4 => places.extend([(place, 1), (place, 2)]),
            _ => {}
        }
    }
    if !places.is_empty() {
        let (place, word) = random.pick(&places);
        rule[place * ENTRY_WORDS + word] = child(random, place, entries);
    }
}

/// More quantifiers around one another than may stand so.
fn too_nested(random: &mut Random) -> Vec<u32> {
    let vocabulary = Vocabulary::new(random);
    let nested = random.between(MOST_NESTED + 1, MOST_NESTED + 5);
    let entries = random.between(nested + 1, 60);
    let any = some_any(random);
    let shape = RuleShape { entries, nested, weights: [1, 1, 12], sides: Sides::Any, roots: 40, any };
    rule_of(random, &vocabulary, shape)
}

/// Check 7: any place that names a variable, bound nowhere or only elsewhere.
fn unbound_variable(random: &mut Random, words: &mut [u32]) {
    let limit = MOST_NESTED as u32;
    let near = [limit - 1, limit, limit + 1];
    let far = [0, 1, 2, 3, 4, 8, 9, 65_536, 2_147_483_648, u32::MAX];
    let variable = if random.chance(25) { random.pick(&near) } else { random.pick(&far) };
    use_variable(random, words, variable);
}

/// Makes a quantifier or comparison use this variable, in any of its places for one.
pub fn use_variable(random: &mut Random, words: &mut [u32], variable: u32) {
    match words[0] {
        5 | 6 => words[2] = variable.saturating_add(1),
        7..=9 if random.chance(50) => {
            words[2] = 0;
            words[3] = variable;
        }
        _ => words[1] = variable,
    }
}
