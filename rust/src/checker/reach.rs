//! Which rows a quantifier reaches, and with which bindings its body is then read.

use super::entry::{Entry, Quantifier};
use super::reading::Bindings;
use super::rule::quantifiers_around;
use super::table::{parent_of, Row};

/// For each row, the fewest quantifiers around one that reaches it; none if no quantifier does.
pub fn fewest_around(entries: &[Entry], rows: &[Row]) -> Vec<Option<usize>> {
    let reach = Reach::new(entries, rows);
    // The last of the bindings is the row itself.
    let around = |row| reach.reaching(row).iter().map(|(_, bound)| bound.len() - 1).min();
    (0..rows.len()).map(around).collect()
}

/// Whether some quantifier reaches this row.
pub fn is_reached(entries: &[Entry], rows: &[Row], row: usize) -> bool {
    !Reach::new(entries, rows).reaching(row).is_empty()
}

/// Whether some quantifier reaches each row.
pub fn reached_rows(entries: &[Entry], rows: &[Row]) -> Vec<bool> {
    let reach = Reach::new(entries, rows);
    (0..rows.len()).map(|row| !reach.reaching(row).is_empty()).collect()
}

pub struct Reach<'a> {
    entries: &'a [Entry],
    rows: &'a [Row],
    /// The quantifiers around each entry: the one at index v binds variable v there.
    around: Vec<Vec<usize>>,
    parents: Vec<Option<usize>>,
}

impl<'a> Reach<'a> {
    pub fn new(entries: &'a [Entry], rows: &'a [Row]) -> Reach<'a> {
        Reach {
            entries,
            rows,
            around: quantifiers_around(entries),
            parents: (0..rows.len()).map(|row| parent_of(rows, row)).collect(),
        }
    }

    /// The quantifiers that reach the row, each with its bindings.
    pub fn reaching(&self, row: usize) -> Vec<(Quantifier, Bindings)> {
        let pair = |(place, entry): (usize, &Entry)| Some((entry.quantifier()?, self.bindings(place, row)?));
        self.entries.iter().enumerate().filter_map(pair).collect()
    }

    /// If the quantifier at this place reaches the row: the variables along the chain bound to the row
    /// and its ancestors, all others elsewhere.
    fn bindings(&self, place: usize, row: usize) -> Option<Bindings> {
        let quantifier = self.entries[place].quantifier()?;
        if !quantifier.takes(&self.rows[row]) {
            return None;
        }
        let around = &self.around[place];
        let mut bound = match (quantifier.under, self.parents[row]) {
            (None, None) => vec![],
            (Some(variable), Some(parent)) => self.bindings(around[variable], parent)?,
            _ => return None,
        };
        bound.resize(around.len(), None);
        bound.push(Some(row));
        Some(bound)
    }
}
