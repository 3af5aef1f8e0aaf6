//! Checks 1 to 7, of rules and templates.

use super::entry::Entry;
use super::tests_of_line::{test, test_each};
use super::{ANY_NAME, MOST_NAME};
use crate::answer::{Answer, Refusal};

pub const ENTRY_WORDS: usize = 4;
pub const MOST_ENTRIES: usize = 128;
/// The quantifiers that may stand around one another.
pub const MOST_NESTED: usize = 6;

pub fn check_rule(rule: &[u32]) -> Answer {
    accepted_rule(rule).map(|entries| entries.len()).into()
}

/// The entries of an accepted rule, or its refusal.
pub fn accepted_rule(rule: &[u32]) -> Result<Vec<Entry>, Refusal> {
    accepted(rule, Form::Rule)
}

/// What the words are to be. The two differ in check 3 alone.
#[derive(Clone, Copy, Debug, PartialEq, Eq)]
pub enum Form {
    Rule,
    /// Its comparisons may be blanks.
    Template,
}

/// The entries of an accepted rule, or of a template that passes 1 to 7; or the refusal.
pub fn accepted(words: &[u32], form: Form) -> Result<Vec<Entry>, Refusal> {
    let count = words.len() / ENTRY_WORDS;
    test(1, !words.len().is_multiple_of(ENTRY_WORDS) || !(1..=MOST_ENTRIES).contains(&count))?;
    let words: Vec<[u32; 4]> = words.chunks(ENTRY_WORDS).map(|w| [w[0], w[1], w[2], w[3]]).collect();
    test_each(2, count, |place| !(1..=9).contains(&words[place][0]))?;
    test_each(3, count, |place| word_at_fault(words[place], form))?;
    let entries: Vec<Entry> = words.into_iter().map(Entry::from_words).collect();
    test_each(4, count, |place| {
        entries[place].children().iter().any(|&child| child <= place || child >= count)
    })?;
    let named = times_named(&entries);
    test_each(5, count, |place| place != 0 && named[place] != 1)?;
    let around = quantifiers_around(&entries);
    test_each(6, count, |place| entries[place].quantifier().is_some() && around[place].len() >= MOST_NESTED)?;
    test_each(7, count, |place| {
        entries[place].variables().iter().any(|&variable| variable >= around[place].len())
    })?;
    Ok(entries)
}

/// Check 3. Variables, child places, constants and parameter numbers have no limit here.
fn word_at_fault([kind, _, b, c]: [u32; 4], form: Form) -> bool {
    match kind {
        1 => b != 0 || c != 0,
        2..=4 => c != 0,
        5 | 6 => c != ANY_NAME && !(1..=MOST_NAME).contains(&c),
        _ if form == Form::Template => b > 2,
        _ => b > 1,
    }
}

/// How many child places name each entry.
fn times_named(entries: &[Entry]) -> Vec<usize> {
    let mut named = vec![0; entries.len()];
    for child in entries.iter().flat_map(|entry| entry.children()) {
        named[child] += 1;
    }
    named
}

/// The quantifiers around each entry, outermost first: the one at index v binds variable v there.
pub fn quantifiers_around(entries: &[Entry]) -> Vec<Vec<usize>> {
    let mut around: Vec<Vec<usize>> = vec![vec![]; entries.len()];
    for (place, entry) in entries.iter().enumerate() {
        // A child is later than its parent, so the parent's own list is complete here.
        let mut inside = around[place].clone();
        if entry.quantifier().is_some() {
            inside.push(place);
        }
        for child in entry.children() {
            around[child] = inside.clone();
        }
    }
    around
}

#[cfg(test)]
mod tests {
    use super::*;

    /// Six quantifiers over roots, and the entries given.
    fn under_six(entries: &[[u32; 4]]) -> Vec<u32> {
        let around = (1..=6).map(|body| [5, body, 0, 1]);
        around.chain(entries.iter().copied()).flatten().collect()
    }

    #[test]
    fn six_may_stand_around_one_another() {
        assert_eq!(check_rule(&under_six(&[[7, 5, 1, 0]])), Answer::Done(7));
        // Nots between them are not counted.
        let mut rule: Vec<u32> = (0..6)
            .flat_map(|variable| [6, 2 * variable + 1, variable, 1, 1, 2 * variable + 2, 0, 0])
            .collect();
        rule.extend([7, 5, 0, 0]);
        assert_eq!(check_rule(&rule), Answer::Done(13));
    }

    /// Over roots, under each variable that is bound, and under some that are not: 6 comes before 7.
    #[test]
    fn a_seventh_is_refused_at_its_entry() {
        for kind in [5, 6] {
            for b in (0..=9).chain([u32::MAX]) {
                let rule = under_six(&[[kind, 7, b, 1], [7, 6, 1, 0]]);
                assert_eq!(check_rule(&rule), Answer::refused(6, 6), "{rule:?}");
            }
        }
        let rule = under_six(&[[1, 7, 0, 0], [2, 8, 9, 0], [7, 0, 1, 0], [5, 10, 6, 1], [7, 6, 1, 0]]);
        assert_eq!(check_rule(&rule), Answer::refused(6, 9));
        // The first in the order of the entries, not the one to the left.
        let rule = under_six(&[[3, 8, 7, 0], [6, 9, 0, 1], [6, 10, 0, 1], [7, 6, 1, 0], [7, 6, 1, 0]]);
        assert_eq!(check_rule(&rule), Answer::refused(6, 7));
    }

    #[test]
    fn a_seventh_beside_another_is_accepted() {
        let mut rule: Vec<u32> = vec![];
        for place in (0..18).step_by(3) {
            rule.extend([3, place + 1, place + 3, 0, 6, place + 2, 0, 1, 7, 0, 1, 0]);
        }
        rule.extend([6, 19, 0, 1, 7, 0, 1, 0]);
        assert_eq!(check_rule(&rule), Answer::Done(20));
        // Two beside one another within five.
        let mut rule: Vec<u32> = (1..=5).flat_map(|body| [5, body, 0, 1]).collect();
        rule.extend([2, 6, 8, 0, 6, 7, 0, 1, 7, 5, 1, 0, 6, 9, 5, 1, 7, 5, 1, 0]);
        assert_eq!(check_rule(&rule), Answer::Done(10));
    }

    /// Variable 5 is the last that can be bound.
    #[test]
    fn a_seventh_variable_is_never_bound() {
        for words in [[7, 6, 1, 0], [8, 6, 0, 0], [9, 0, 0, 6], [7, u32::MAX, 0, 6]] {
            assert_eq!(check_rule(&under_six(&[words])), Answer::refused(7, 6), "{words:?}");
        }
    }
}
