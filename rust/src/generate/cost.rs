//! How much work a rule on a table may take at most, so that random cases stay quick.

use super::sets::Set;
use crate::checker::{
    accepted_rule, accepted_set, accepted_table, devices_of, Entry, Quantifier, Row, POOL, RULE,
};

/// An upper limit of the rows that a verdict walks; 0 for a refused rule or pool.
pub fn verdict_cost(rule: &[u32], pool: &[u32]) -> u64 {
    Cost::new(rule, pool, 0).map_or(0, |cost| cost.of_entry(0))
}

/// The same on accepted rows.
pub fn verdict_cost_on(rule: &[u32], rows: &[Row]) -> u64 {
    let on_rows = |entries| Cost { entries, rows: rows.to_vec(), elsewhere: 0 };
    accepted_rule(rule).map_or(0, |entries| on_rows(entries).of_entry(0))
}

/// The same for the bodies that one device reads for its spare rows.
pub fn reading_cost(rule: &[u32], table: &[u32]) -> u64 {
    Cost::new(rule, table, 1).map_or(0, |cost| cost.of_bodies())
}

/// The most that two files may take, in the verdict or in the reading of a device; 0 for refused files.
pub fn files_cost(rule_file: &[u8], pool_file: &[u8]) -> u64 {
    let (Ok(rule), Ok(pool)) = (RULE.words_of(rule_file), POOL.words_of(pool_file)) else {
        return 0;
    };
    if accepted_table(&pool).is_err() {
        return 0;
    }
    let readings = devices_of(&pool).into_iter().map(|device| reading_cost(&rule, device));
    readings.fold(verdict_cost(&rule, &pool), u64::max)
}

/// The most that all rules of a set may take, in verdicts or in readings; 0 for a refused set or table.
pub fn set_cost(set: &Set, table: &[u32]) -> u64 {
    if accepted_set(&set.rules, &set.counts).is_err() {
        return 0;
    }
    let of_rule = |rule: &[u32]| verdict_cost(rule, table).max(reading_cost(rule, table));
    set.each().into_iter().map(of_rule).fold(0, u64::saturating_add)
}

struct Cost {
    entries: Vec<Entry>,
    rows: Vec<Row>,
    /// 1 if a body is also read with its variable elsewhere.
    elsewhere: u64,
}

impl Cost {
    fn new(rule: &[u32], table: &[u32], elsewhere: u64) -> Option<Cost> {
        let entries = accepted_rule(rule).ok()?;
        let rows = accepted_table(table).ok()?;
        Some(Cost { entries, rows, elsewhere })
    }

    fn of_bodies(&self) -> u64 {
        let of_body = |quantifier: Quantifier| {
            let taken = self.rows.iter().filter(|row| quantifier.takes(row)).count() as u64;
            taken.saturating_mul(self.of_entry(quantifier.body))
        };
        let bodies = self.entries.iter().filter_map(|entry| entry.quantifier()).map(of_body);
        bodies.fold(0, u64::saturating_add)
    }

    fn of_entry(&self, entry: usize) -> u64 {
        let entry = &self.entries[entry];
        let children = entry.children().into_iter().map(|child| self.of_entry(child));
        let inside = children.fold(1, u64::saturating_add);
        match entry.quantifier() {
            Some(quantifier) => {
                let times = self.most_in_range(quantifier) + self.elsewhere;
                times.saturating_mul(inside).saturating_add(self.rows.len() as u64)
            }
            None => inside,
        }
    }

    fn most_in_range(&self, quantifier: Quantifier) -> u64 {
        let taken = self.rows.iter().filter(|row| quantifier.takes(row));
        let in_range: Vec<&Row> = taken.filter(|row| row.is_root() == quantifier.under.is_none()).collect();
        if quantifier.under.is_none() {
            return in_range.len() as u64;
        }
        // Rows rise by device, so the siblings of one parent are counted within a device.
        let siblings = |row: &&Row| {
            in_range.iter().filter(|other| other.device == row.device && other.up == row.up).count()
        };
        in_range.iter().map(siblings).max().unwrap_or(0) as u64
    }
}
