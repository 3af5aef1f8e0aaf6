//! Blocks entered again, with faults. Equal siblings are none of these.

use super::blocks::{blocks_of, BlockShape};
use super::damaged_table::damaged_table;
use super::known_table::KnownTable;
use super::vocabulary::Vocabulary;
use crate::checker::{rows_of, words_of, Row, MOST_NAME, MOST_ROWS};
use crate::random::Random;

/// The faults of the table, in the order of the checks.
const FAULTS: [u32; 6] = [8, 9, 10, 11, 26, 14];

/// A table of `blocks` with one fault or several.
pub fn damaged_blocks(random: &mut Random, table: &[u32]) -> KnownTable {
    let mut damaged = KnownTable::accepted(table);
    let count = random.pick(&[1, 1, 1, 2, 2, 3]);
    let faults: Vec<u32> = (0..count).map(|_| random.pick(&[8, 9, 10, 11, 26, 26, 14, 14, 14])).collect();
    // From the last check to the first: a fault is found before those put in so far, even if it undoes them.
    for number in FAULTS.into_iter().rev().filter(|number| faults.contains(number)) {
        match number {
            14 => damaged.put_another_device(random),
            _ => damaged.put(random, number),
        }
    }
    damaged
}

/// The same with more kinds of faults, which are not known.
pub fn any_damaged_blocks(random: &mut Random, table: &[u32]) -> Vec<u32> {
    let mut damaged = KnownTable::accepted(table);
    if random.chance(30) {
        damaged.put_another_device(random);
    }
    damaged_table(random, &damaged.words)
}

/// More rows than a table may have, of which few would be left.
pub fn too_many_blocks(random: &mut Random) -> Vec<u32> {
    let rows = MOST_ROWS + random.pick(&[1, 1, 2, 100]);
    let shape = BlockShape { rows, chained: 0, again: 0, ..BlockShape::new(random, rows) };
    let vocabulary = Vocabulary::new(random);
    let device = random.pick(&[1, MOST_NAME]);
    words_of(&blocks_of(random, device, [&vocabulary; 2], shape))
}

impl KnownTable {
    /// Behind a device, or before it: a root, or a table like it.
    fn put_another_device(&mut self, random: &mut Random) {
        let mut own = rows_of(&self.words);
        own.truncate(MOST_ROWS - 1);
        let Some(&Row { device, .. }) = own.first() else { return };
        let step = random.pick(&[1, 1, 100, 65_536]);
        let other = random.pick(&[device.saturating_sub(step).max(1), (device + step).min(MOST_NAME)]);
        let rows = random.pick(&[1, own.len().div_ceil(2), own.len()]).min(MOST_ROWS - own.len());
        let mut others = own[..rows].to_vec();
        others.iter_mut().for_each(|row| row.device = other);
        let tables = if other < device { [others, own] } else { [own, others] };
        if other != device {
            self.words = words_of(&tables.concat());
            self.put_in_front(14, Some(tables[0].len()));
        }
    }
}

#[cfg(test)]
mod tests {
    use super::*;
    use crate::answer::Answer;
    use crate::checker::fold;
    use crate::generate::blocks;

    /// The checker finds what was put in, with equal siblings beside it or not.
    #[test]
    fn faults_are_known() {
        let mut found = [0; FAULTS.len()];
        for seed in 0..5_000 {
            let random = &mut Random::new(seed);
            let table = blocks(random, 60);
            let damaged = damaged_blocks(random, &table);
            if let Answer::Refused(refusal) = damaged.check() {
                let answer = fold(&damaged.words, &mut vec![0; damaged.words.len()]);
                assert_eq!(answer, Answer::Refused(refusal), "seed {seed}: {damaged:?}");
                let fault = FAULTS.iter().position(|&number| number == refusal.number).expect("a fault");
                found[fault] += 1;
            }
        }
        assert!(found.iter().all(|&tables| tables >= 300), "{found:?}");
    }
}
