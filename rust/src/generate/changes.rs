//! Changes of an accepted table: other values of some rows, another name or another parent of one.

use crate::checker::{
    accepted_table, parent_of, rows_of, words_of, Row, ANY_NAME, ENTRY_WORDS, LEAST_VALUE, MOST_NAME,
    MOST_VALUE,
};
use crate::random::Random;

/// How often values are drawn for a change that leaves an accepted table.
const ATTEMPTS: usize = 4;

/// A change of values that leaves an accepted table.
#[derive(Clone, Debug)]
pub struct Change {
    /// The rows that have other values.
    pub places: Vec<usize>,
    pub table: Vec<u32>,
}

/// What was drawn for one table.
#[derive(Clone, Debug, Default)]
pub struct Changes {
    pub accepted: Vec<Change>,
    /// The tables that are refused, since siblings became equal.
    pub refused: Vec<Vec<u32>>,
}

/// Changes of the rows at these places: of all of them at once, and mostly of one and of some. Rule and pool are
/// accepted, here and below.
pub fn changes(random: &mut Random, rule: &[u32], pool: &[u32], places: &[usize]) -> Changes {
    let mut changes = Changes::default();
    changes.draw(random, rule, pool, places);
    if places.len() > 1 && random.chance(60) {
        let one = [random.pick(places)];
        changes.draw(random, rule, pool, &one);
    }
    if places.len() > 2 && random.chance(60) {
        let percent = random.pick(&[20, 50, 80]);
        let some: Vec<usize> = places.iter().copied().filter(|_| random.chance(percent)).collect();
        changes.draw(random, rule, pool, &some);
    }
    changes
}

impl Changes {
    /// A change of each of these rows, if there are any.
    fn draw(&mut self, random: &mut Random, rule: &[u32], pool: &[u32], places: &[usize]) {
        if places.is_empty() {
            return;
        }
        for _ in 0..ATTEMPTS {
            let table = with_other_values(random, rule, pool, places);
            if accepted_table(&table).is_ok() {
                return self.accepted.push(Change { places: places.to_vec(), table });
            }
            self.refused.push(table);
        }
    }
}

/// The table with another value in each of these rows. It is refused, with 12, where that makes siblings equal.
pub fn with_other_values(random: &mut Random, rule: &[u32], pool: &[u32], places: &[usize]) -> Vec<u32> {
    let mut rows = rows_of(pool);
    let known = known_values(rule, &rows);
    let any_words = random.chance(15);
    for &place in places {
        let known = if any_words { &[] } else { &known[..] };
        rows[place].value = other_value(random, known, rows[place].value);
    }
    if random.chance(85) {
        part_equal_siblings(random, &mut rows, places);
    }
    words_of(&rows)
}

/// The values of the rows, and the constants of the rule.
fn known_values(rule: &[u32], rows: &[Row]) -> Vec<u32> {
    let constant = |words: &[u32]| match *words {
        [7..=9, _, 1, constant] => Some(constant),
        _ => None,
    };
    let constants = rule.chunks_exact(ENTRY_WORDS).filter_map(constant);
    rows.iter().map(|row| row.value).chain(constants).collect()
}

/// A known value, one beside it or beside the old one, an end of the range, or any word. Words wrap as values do:
/// -1 stands beside 0.
fn other_value(random: &mut Random, known: &[u32], old: u32) -> u32 {
    loop {
        let beside = random.pick(&[1, u32::MAX]);
        let value = match random.below(8) {
            0..=3 if !known.is_empty() => random.pick(known),
            4 if !known.is_empty() => random.pick(known).wrapping_add(beside),
            5 if !known.is_empty() => old.wrapping_add(beside),
            6 if !known.is_empty() => random.pick(&[LEAST_VALUE, MOST_VALUE, 0, u32::MAX]),
            _ => random.word(),
        };
        if value != old {
            return value;
        }
    }
}

/// Gives any word to those of these rows that equal a sibling.
fn part_equal_siblings(random: &mut Random, rows: &mut [Row], places: &[usize]) {
    for &place in places {
        let row = rows[place];
        let equals = |(other, sibling): (usize, &Row)| {
            other != place
                && sibling.name == row.name
                && sibling.value == row.value
                && sibling.is_sibling_of(&row)
        };
        if rows.iter().enumerate().any(equals) {
            rows[place].value = random.word();
        }
    }
}

/// The table with another name in this row: one of the rule or of the pool, or any. It may be refused with 12.
pub fn with_other_name(random: &mut Random, rule: &[u32], pool: &[u32], place: usize) -> Vec<u32> {
    let mut rows = rows_of(pool);
    let of_rule =
        rule.chunks_exact(ENTRY_WORDS).filter(|words| matches!(words[0], 5 | 6)).map(|words| words[3]);
    let of_pool = rows.iter().map(|row| row.name);
    let others = |name: &u32| ![ANY_NAME, rows[place].name].contains(name);
    let names: Vec<u32> = of_rule.chain(of_pool).filter(others).collect();
    rows[place].name = if names.is_empty() || random.chance(5) {
        // The next one, and 1 behind the last.
        rows[place].name % MOST_NAME + 1
    } else {
        random.pick(&names)
    };
    words_of(&rows)
}

/// The table with this row, and what hangs under it, under another parent or as a root, and every depth right. It
/// may be refused with 12. None if the row can't hang elsewhere.
pub fn with_other_parent(random: &mut Random, pool: &[u32], place: usize) -> Option<Vec<u32>> {
    let mut rows = rows_of(pool);
    let own = rows[..place].iter().filter(|row| row.device == rows[place].device).map(|row| row.at);
    let ups: Vec<u32> = own.chain([0]).filter(|&up| up != rows[place].up).collect();
    if ups.is_empty() {
        return None;
    }
    rows[place].up = random.pick(&ups);
    for row in place..rows.len() {
        rows[row].deep = parent_of(&rows, row).map_or(0, |parent| rows[parent].deep + 1);
    }
    Some(words_of(&rows))
}

#[cfg(test)]
mod tests {
    use super::*;
    use crate::checker::check_table;
    use crate::generate::{rule_and_pool, Together};

    const LIMIT: Together = Together { rows: 24, cost: 10_000 };

    /// A rule, and rows of which some may be changed.
    fn for_each_pool(cases: u64, mut one: impl FnMut(&mut Random, &[u32], &[u32], &[usize])) {
        for seed in 0..cases {
            let random = &mut Random::new(seed);
            let (rule, pool) = rule_and_pool(random, LIMIT);
            let rows = rows_of(&pool).len();
            let places: Vec<usize> = (0..rows).filter(|_| random.chance(60)).collect();
            one(random, &rule, &pool, &places);
        }
    }

    /// The rows that differ, with what stood there and what stands there.
    fn differing(pool: &[u32], table: &[u32]) -> Vec<(usize, Row, Row)> {
        let pairs = rows_of(pool).into_iter().zip(rows_of(table)).enumerate();
        pairs.filter(|(_, (old, new))| old != new).map(|(place, (old, new))| (place, old, new)).collect()
    }

    fn is_accepted_or_12(table: &[u32]) -> bool {
        [0, 12].contains(&check_table(table).number())
    }

    /// Other values in the rows that are said to have them, and nothing else.
    #[test]
    fn values_alone_are_changed() {
        let mut counts = [0; 4];
        for_each_pool(4_000, |random, rule, pool, places| {
            let changes = changes(random, rule, pool, places);
            for change in &changes.accepted {
                assert_eq!(check_table(&change.table).number(), 0);
                let differing = differing(pool, &change.table);
                assert!(differing.iter().map(|(place, ..)| place).eq(&change.places), "{change:?}");
                assert!(differing.iter().all(|&(_, old, new)| Row { value: old.value, ..new } == old));
                assert!(change.places.iter().all(|place| places.contains(place)));
                counts[0] += (change.places == places) as usize;
                counts[1] += (change.places.len() == 1) as usize;
                counts[2] += (2..places.len()).contains(&change.places.len()) as usize;
            }
            assert!(changes.refused.iter().all(|table| check_table(table).number() == 12));
            counts[3] += changes.refused.len();
            assert_eq!(changes.accepted.is_empty() && changes.refused.is_empty(), places.is_empty());
        });
        assert!(counts.iter().all(|&count| count >= 500), "{counts:?}");
    }

    /// Those known, those beside them and beside the old one, on both sides of zero too, both ends, and others.
    #[test]
    fn every_class_of_values_comes() {
        let random = &mut Random::new(1);
        for (known, old) in [(700, 0), (700, u32::MAX), (MOST_VALUE, LEAST_VALUE), (LEAST_VALUE, 40)] {
            let values: Vec<u32> = (0..2_000).map(|_| other_value(random, &[known], old)).collect();
            let beside =
                [known, old].into_iter().flat_map(|word| [word.wrapping_add(1), word.wrapping_sub(1)]);
            for value in beside.chain([known, 0, LEAST_VALUE, MOST_VALUE]).filter(|&value| value != old) {
                assert!(values.contains(&value), "{value} beside {known} or {old}");
            }
            assert!(!values.contains(&old));
            assert!(
                values.iter().filter(|&&value| (1_000..MOST_VALUE - 1_000).contains(&value)).count() >= 50
            );
        }
        let rule = [5, 1, 0, 9, 2, 2, 3, 0, 7, 0, 1, 77, 8, 0, 0, 0];
        assert_eq!(known_values(&rule, &rows_of(&[1, 1, 0, 0, 9, 5])), [5, 77]);
    }

    #[test]
    fn one_name_is_changed() {
        for_each_pool(2_000, |random, rule, pool, places| {
            for &place in places {
                let table = with_other_name(random, rule, pool, place);
                assert!(is_accepted_or_12(&table), "{table:?}");
                let differing = differing(pool, &table);
                assert!(matches!(differing[..], [(at, old, new)] if at == place && old.name != new.name));
                assert_eq!(Row { name: differing[0].1.name, ..differing[0].2 }, differing[0].1);
            }
        });
    }

    /// And the depths of what hangs under it.
    #[test]
    fn one_parent_is_changed() {
        let mut moved = 0;
        for_each_pool(2_000, |random, _, pool, places| {
            for &place in places {
                let Some(table) = with_other_parent(random, pool, place) else {
                    let rows = rows_of(pool);
                    assert!(
                        rows[place].is_root() && (place == 0 || rows[place - 1].device < rows[place].device)
                    );
                    continue;
                };
                assert!(is_accepted_or_12(&table), "{table:?}");
                for (at, old, new) in differing(pool, &table) {
                    assert_eq!(old.up != new.up, at == place, "{pool:?} {table:?}");
                    assert_eq!(Row { up: old.up, deep: old.deep, ..new }, old);
                    moved += 1;
                }
            }
        });
        assert!(moved >= 5_000, "only {moved} rows");
    }
}
