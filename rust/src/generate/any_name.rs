//! Quantifiers over any name: rules that have them, and what another reading of their name would answer.

use super::answers::{marked, rows_sent, trial_verdicts, verdicts};
use super::plans::Plan;
use super::sets::Set;
use crate::checker::{
    accepted_set, rows_of, spare_rows_reached_by, verdict, words_of, Entry, Row, ANY_NAME, ENTRY_WORDS,
};
use crate::random::Random;

/// A name that neither rules nor rows use.
const NOWHERE: u32 = 63_000;

/// Whether some quantifier is over any name. The rules are one or several, laid end to end, here and below.
pub fn has_any_name(rules: &[u32]) -> bool {
    rules.chunks_exact(ENTRY_WORDS).any(is_over_any_name)
}

fn is_over_any_name(words: &[u32]) -> bool {
    matches!(words, [5 | 6, _, _, ANY_NAME])
}

/// The same rules with so many percent of their quantifiers over any name, beside those that are so already.
pub fn widened(random: &mut Random, rules: &[u32], percent: usize) -> Vec<u32> {
    let mut rules = rules.to_vec();
    for words in rules.chunks_exact_mut(ENTRY_WORDS) {
        if matches!(words[0], 5 | 6) && random.chance(percent) {
            words[3] = ANY_NAME;
        }
    }
    rules
}

/// A reading that is not the contract's: the quantifiers whose name 0 takes rows of any name. For all others it
/// takes none.
#[derive(Clone, Copy, Debug, PartialEq, Eq)]
pub enum Narrow {
    NoQuantifier,
    OverRoots,
    UnderAVariable,
    OfKind5,
    OfKind6,
    /// Those of a set's first rule.
    FirstRule,
}

impl Narrow {
    /// Those that differ in one rule.
    pub const OF_RULES: [Narrow; 5] =
        [Narrow::NoQuantifier, Narrow::OverRoots, Narrow::UnderAVariable, Narrow::OfKind5, Narrow::OfKind6];

    fn keeps(self, kind: u32, b: u32) -> bool {
        match self {
            Narrow::NoQuantifier => false,
            Narrow::OverRoots => b == 0,
            Narrow::UnderAVariable => b != 0,
            Narrow::OfKind5 => kind == 5,
            Narrow::OfKind6 => kind == 6,
            Narrow::FirstRule => true,
        }
    }

    /// The rule as this reading takes it.
    fn rule(self, rule: &[u32]) -> Vec<u32> {
        let mut rule = rule.to_vec();
        for words in rule.chunks_exact_mut(ENTRY_WORDS) {
            if is_over_any_name(words) && !self.keeps(words[0], words[2]) {
                words[3] = NOWHERE;
            }
        }
        rule
    }

    fn set(self, set: &Set) -> Set {
        let of_rule = |(place, rule): (usize, &[u32])| match self {
            Narrow::FirstRule if place > 0 => Narrow::NoQuantifier.rule(rule),
            _ => self.rule(rule),
        };
        Set::of(&set.each().into_iter().enumerate().map(of_rule).collect::<Vec<_>>())
    }

    /// Whether the verdict would be another. Rules and tables are accepted, here and below.
    pub fn other_verdict(self, rule: &[u32], pool: &[u32]) -> bool {
        verdict(rule, pool) != verdict(&self.rule(rule), pool)
    }

    /// Whether other rows would be marked.
    pub fn other_marks(self, rule: &[u32], pool: &[u32]) -> bool {
        marked(rule, pool) != marked(&self.rule(rule), pool)
    }

    /// Whether the part in this mode would have other rows.
    pub fn other_part(self, set: &Set, device: &[u32], mode: u32) -> bool {
        rows_sent(set, device, mode) != rows_sent(&self.set(set), device, mode)
    }

    /// Whether the verdict of some rule would be another.
    pub fn other_verdicts(self, set: &Set, pool: &[u32]) -> bool {
        verdicts(set, pool) != verdicts(&self.set(set), pool)
    }

    /// Whether the verdict of some rule after some step would be another.
    pub fn other_trial(self, plan: &Plan) -> bool {
        trial_verdicts(plan) != trial_verdicts(&Plan { set: self.set(&plan.set), ..plan.clone() })
    }
}

/// A reading of a device that is not the contract's: where alone the name 0 takes rows of any name.
#[derive(Clone, Copy, Debug, PartialEq, Eq)]
pub enum OneSided {
    /// Where bodies are read: it reaches no rows.
    ReadingAlone,
    /// Where it tells which rows are reached: no body ranges over any.
    ReachingAlone,
}

impl OneSided {
    /// The rows that a device would send.
    pub fn rows_sent(self, set: &Set, device: &[u32], mode: u32) -> Vec<Row> {
        let narrow = Narrow::NoQuantifier.set(set);
        let (reaching, reading) = match self {
            OneSided::ReadingAlone => (&narrow, set),
            OneSided::ReachingAlone => (set, &narrow),
        };
        match mode {
            3 => kept_rows(reaching, reading, &rows_of(device)),
            _ => rows_sent(reaching, device, mode),
        }
    }

    pub fn other_part(self, set: &Set, device: &[u32], mode: u32) -> bool {
        rows_sent(set, device, mode) != self.rows_sent(set, device, mode)
    }

    /// Whether some rule would have another verdict on the joined parts than on the dump.
    pub fn loses_a_verdict(self, set: &Set, devices: &[Vec<u32>], mode: u32) -> bool {
        let sent = devices.iter().flat_map(|device| self.rows_sent(set, device, mode));
        verdicts(set, &words_of(&sent.collect::<Vec<_>>())) != verdicts(set, &devices.concat())
    }
}

/// The full part where one set tells which rows are reached, and another with the same bodies what is read.
fn kept_rows(reaching: &Set, reading: &Set, rows: &[Row]) -> Vec<Row> {
    let entries = |set: &Set| accepted_set(&set.rules, &set.counts).expect("an accepted set");
    let pairs: Vec<(Vec<Entry>, Vec<Entry>)> = entries(reaching).into_iter().zip(entries(reading)).collect();
    let spare: Vec<Vec<bool>> =
        pairs.iter().map(|(reaching, reading)| spare_rows_reached_by(reaching, reading, rows)).collect();
    let mut kept: Vec<Row> = vec![];
    for (place, row) in rows.iter().enumerate() {
        let parent_kept = row.is_root() || kept.iter().any(|parent| parent.is_parent_of(row));
        if parent_kept && !spare.iter().all(|for_rule| for_rule[place]) {
            kept.push(*row);
        }
    }
    kept
}
