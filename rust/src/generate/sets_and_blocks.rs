//! Rules, and devices in which blocks are entered again, with the same names and values.

use super::blocks::{blocks_of, BlockShape};
use super::cost::{reading_cost, verdict_cost_on};
use super::rules::{rule_of, RuleShape};
use super::sets::{is_share, set_within, Set};
use super::together::Together;
use super::vocabulary::Vocabulary;
use crate::checker::{accepted_rule, folded_rows, words_of, Evaluation, Published, Row};
use crate::random::Random;

/// An accepted set, and the tables of one device or several with equal siblings. Once folded, they can be joined: no
/// two devices have equal roots. The limit of rows is that of a device.
pub fn set_and_blocks(random: &mut Random, limit: Together) -> (Set, Vec<Vec<u32>>) {
    let vocabulary = Vocabulary::new(random);
    let devices = devices_of_blocks(random, &vocabulary, limit.rows);
    let all = devices.concat();
    let folded: Vec<Vec<u32>> = devices.iter().map(|rows| words_of(&folded_rows(rows))).collect();
    let permitted = |rule: &[u32], count: usize| {
        let readings = folded.iter().map(|device| reading_cost(rule, device));
        let work = readings.fold(verdict_cost_on(rule, &all), u64::saturating_add);
        is_share(work, limit.cost, count, all.len())
    };
    let set = set_within(random, &vocabulary, permitted);
    (set, devices.iter().map(|rows| words_of(rows)).collect())
}

/// How often a rule is drawn that may take rows of one path for one.
const ATTEMPTS: usize = 100;

/// An accepted rule, and such tables. Most of the rules would have another verdict if each row stood for itself.
pub fn rule_and_blocks(random: &mut Random, limit: Together) -> (Vec<u32>, Vec<Vec<u32>>) {
    for attempt in 0.. {
        let vocabulary = Vocabulary::new(random);
        let devices = devices_of_blocks(random, &vocabulary, limit.rows);
        let all = devices.concat();
        let (entries, nested) = (random.between(3, 12), random.between(2, 4));
        let shape = RuleShape { entries, nested, roots: 20, ..RuleShape::new(random) };
        let rule = rule_of(random, &vocabulary, shape);
        let is_cheap = verdict_cost_on(&rule, &all) <= limit.cost;
        if is_cheap && (attempt >= ATTEMPTS || tells_rows_apart(&rule, &all)) {
            return (rule, devices.iter().map(|rows| words_of(rows)).collect());
        }
    }
    unreachable!("a rule is cheap on few rows")
}

/// Whether the verdict is another one if rows of one path are not taken for one.
pub fn tells_rows_apart(rule: &[u32], rows: &[Row]) -> bool {
    let entries = accepted_rule(rule).expect("an accepted rule");
    Evaluation::of_rule(&entries, rows).verdict(0, &mut vec![]) != Published::of(rows).truth(&entries)
}

fn devices_of_blocks(random: &mut Random, vocabulary: &Vocabulary, most: usize) -> Vec<Vec<Row>> {
    let count = random.pick(&[1, 1, 2, 3, 4]);
    let device = |number: u32| {
        let first = vocabulary.values[0].wrapping_add(2 * (number - 1));
        let values = vec![first, first.wrapping_add(1)];
        let of_roots = Vocabulary { values, ..vocabulary.clone() };
        let rows = random.below(most + 1);
        let shape = BlockShape { roots: random.pick(&[5, 20, 50]), ..BlockShape::new(random, rows) };
        blocks_of(random, number, [&of_roots, vocabulary], shape)
    };
    (1..=count).map(device).collect()
}

#[cfg(test)]
mod tests {
    use super::*;
    use crate::answer::Answer;
    use crate::checker::{rows_of, verdict};

    /// Also for the checker alone, the published truth is the verdict on the folded tables.
    #[test]
    fn rules_tell_rows_apart() {
        let limit = Together { rows: 24, cost: 4_000 };
        let (mut apart, mut holds) = (0, 0);
        for seed in 0..1_000 {
            let (rule, devices) = rule_and_blocks(&mut Random::new(seed), limit);
            let devices: Vec<Vec<Row>> = devices.iter().map(|table| rows_of(table)).collect();
            let folded: Vec<Row> = devices.iter().flat_map(|rows| folded_rows(rows)).collect();
            let truth = Published::of(&devices.concat()).truth(&accepted_rule(&rule).expect("accepted"));
            assert_eq!(verdict(&rule, &words_of(&folded)), Answer::Done(truth as usize), "seed {seed}");
            apart += tells_rows_apart(&rule, &devices.concat()) as u32;
            holds += truth as u32;
        }
        assert!(apart >= 500 && (300..=700).contains(&holds), "{apart} tell apart, {holds} are true");
    }
}
