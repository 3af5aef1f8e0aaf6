//! Tables with wrong depths, alone and beside each other fault.

use super::depths::{change_row, make_wrong, row_at};
use super::known_table::KnownTable;
use crate::checker::{rows_of, Row, MOST_NAME, ROW_WORDS};
use crate::random::Random;

/// An accepted table, most often with wrong depths put in, and at times with other faults.
pub fn damaged_depths(random: &mut Random, accepted: &[u32]) -> KnownTable {
    let mut table = KnownTable::accepted(accepted);
    let beside = match random.below(10) {
        0..=5 => vec![],
        6..=8 => vec![random.pick(&[12, 11, 10, 9, 8])],
        _ => vec![random.pick(&[12, 11]), random.pick(&[10, 9, 8])],
    };
    let wrong = random.chance(70);
    // From the last check to the first: a fault is found before those put in so far, even if it undoes them.
    for number in [12, 26, 11, 10, 9, 8] {
        if number == 26 && wrong || beside.contains(&number) {
            table.put(random, number);
        }
    }
    table
}

impl KnownTable {
    /// Puts in this fault, unless no row can have it.
    pub fn put(&mut self, random: &mut Random, number: u32) {
        let place = match number {
            8 => {
                let leftover = random.between(1, ROW_WORDS - 1);
                self.words.extend(random.words(leftover));
                Some(0)
            }
            12 => self.put_equal_sibling(random),
            26 => self.put_wrong_depths(random),
            _ => self.put_in_row(random, number),
        };
        self.put_in_front(number, place);
    }

    /// Several rows or one. Those before the first keep their depths, so that it is the one at fault.
    fn put_wrong_depths(&mut self, random: &mut Random) -> Option<usize> {
        let rows = self.words.len() / ROW_WORDS;
        if rows == 0 {
            return None;
        }
        let any = random.below(rows);
        let mut places = vec![random.pick(&[any, any, any, 0, rows - 1])];
        while random.chance(30) {
            places.push(random.below(rows));
        }
        places.sort();
        places.dedup();
        for &place in &places {
            make_wrong(random, &mut self.words, place);
        }
        Some(places[0])
    }

    /// The name and value of an earlier sibling.
    fn put_equal_sibling(&mut self, random: &mut Random) -> Option<usize> {
        let rows = rows_of(&self.words);
        let siblings =
            |row: &Row, other: &Row| row.up == other.up && (row.is_root() || row.device == other.device);
        let earlier = |place: usize| rows[..place].iter().find(|row| siblings(row, &rows[place]));
        let pairs: Vec<(usize, &Row)> =
            (0..rows.len()).filter_map(|place| Some((place, earlier(place)?))).collect();
        if pairs.is_empty() {
            return None;
        }
        let (place, equal) = random.pick(&pairs);
        change_row(&mut self.words, place, |row| (row.name, row.value) = (equal.name, equal.value));
        Some(place)
    }

    /// 9, 10 or 11 at any row that can have it.
    fn put_in_row(&mut self, random: &mut Random, number: u32) -> Option<usize> {
        let rows = self.words.len() / ROW_WORDS;
        // The first row is above all before it.
        let least = if number == 10 { 1 } else { 0 };
        if rows <= least {
            return None;
        }
        let place = random.between(least, rows - 1);
        let before = row_at(&self.words, place.saturating_sub(1));
        change_row(&mut self.words, place, |row| match number {
            9 => row.name = random.pick(&[0, MOST_NAME + 1, u32::MAX]),
            10 => (row.device, row.at) = (before.device, before.at),
            // No row has these, or only this one and those behind it.
            _ => row.up = random.pick(&[row.at, row.at + 1, MOST_NAME + 1, u32::MAX]),
        });
        Some(place)
    }
}
