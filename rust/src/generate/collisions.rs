//! Accepted tables in which many rows share one hash of the library's.

use std::collections::HashSet;

use super::known_table::KnownTable;
use super::library_hash::{ats_of_hash, twin_hash, HASHES};
use crate::checker::{words_of, Row, LEAST_VALUE, MOST_NAME, MOST_ROWS};
use crate::random::Random;

/// Devices so far apart have nearly all places of one hash in common.
const KIN: u32 = 5_069;

/// A table of 10 rows or more, whose places have one hash, all or most of them.
pub fn colliding_rows(random: &mut Random) -> Vec<u32> {
    let rows = row_count(random);
    let shape = Shape {
        rows,
        device_rows: random.pick(&[rows, rows, rows, rows.div_ceil(2), 12, 2]),
        roots: random.pick(&[0, 0, 0, 10, 60]),
        ..Shape::new(random)
    };
    words_of(&grown(random, shape))
}

/// A table that two others make, with the number of rows of the first. Each of them is accepted, but a root
/// of the second is mostly equal to one of the first. Roots mostly have one hash in check 12.
pub fn two_colliding_tables(random: &mut Random) -> (KnownTable, usize) {
    let rows = row_count(random);
    let shape = Shape {
        rows,
        device_rows: random.pick(&[rows.div_ceil(2), rows.div_ceil(3), 5, 2, 1]),
        roots: random.pick(&[10, 50, 100, 100]),
        values: random.pick(&[Values::OneHash, Values::OneHash, Values::OneHash, Values::Fewest]),
        ..Shape::new(random)
    };
    let mut table = grown(random, shape);
    let starts: Vec<usize> =
        (1..table.len()).filter(|&place| table[place].device != table[place - 1].device).collect();
    let cut =
        if random.chance(95) { first_last_or_any(random, &starts) } else { random.pick(&[0, table.len()]) };
    let mut faults = vec![];
    let roots: Vec<usize> = (0..table.len()).filter(|&place| table[place].is_root()).collect();
    let (first, second) = roots.split_at(roots.partition_point(|&place| place < cut));
    if !first.is_empty() && !second.is_empty() && random.chance(70) {
        let (earlier, place) = (first_last_or_any(random, first), first_last_or_any(random, second));
        (table[place].name, table[place].value) = (table[earlier].name, table[earlier].value);
        faults.push((12, place));
    }
    (KnownTable { words: words_of(&table), faults }, cut)
}

/// Mostly few, since the checker compares all pairs.
fn row_count(random: &mut Random) -> usize {
    match random.below(100) {
        0 => MOST_ROWS,
        1 => random.between(200, MOST_ROWS),
        2..=11 => random.between(60, 200),
        _ => random.between(10, 60),
    }
}

pub fn first_last_or_any<T: Copy>(random: &mut Random, choices: &[T]) -> T {
    match random.below(4) {
        0 => choices[0],
        1 => choices[choices.len() - 1],
        _ => random.pick(choices),
    }
}

#[derive(Clone, Copy)]
enum Values {
    /// All rows have one hash in check 12.
    OneHash,
    /// All rows without earlier siblings have one name and value. Those under rows of one hash then share two
    /// hashes in check 12.
    Fewest,
    Any,
}

#[derive(Clone, Copy)]
struct Shape {
    /// Of the table; there are fewer if the devices end before.
    rows: usize,
    /// The most rows of a device, which also has no more than places of the hash, and those beside them.
    device_rows: usize,
    /// Percent of rows that are roots. The first of a device always is.
    roots: usize,
    values: Values,
    /// The most from one device to the next, or kin.
    step: u32,
    /// Percent of the places of the hash that no row has.
    gaps: usize,
    /// Percent of rows with a row of another hash behind them.
    beside: usize,
    /// Percent of rows, roots apart, that hang under the row before.
    near: usize,
    /// Percent of the others that hang under the first row of their device.
    far: usize,
}

impl Shape {
    fn new(random: &mut Random) -> Shape {
        Shape {
            rows: MOST_ROWS,
            device_rows: MOST_ROWS,
            roots: 0,
            values: random.pick(&[
                Values::OneHash,
                Values::OneHash,
                Values::OneHash,
                Values::Fewest,
                Values::Any,
            ]),
            step: random.pick(&[1, 30, KIN]),
            gaps: random.pick(&[0, 0, 10, 50]),
            beside: random.pick(&[0, 0, 0, 15, 60]),
            near: random.pick(&[0, 0, 20, 60, 100]),
            far: random.pick(&[0, 0, 50, 100]),
        }
    }
}

fn grown(random: &mut Random, shape: Shape) -> Vec<Row> {
    let (hash, twins) = (random.below(HASHES as usize) as u32, random.below(HASHES as usize) as u32);
    let mut growth = Growth { random, shape, hash, twins, taken: HashSet::new(), table: vec![] };
    let mut device = growth.random.between(1, KIN as usize) as u32;
    while growth.table.len() < shape.rows && device <= MOST_NAME {
        growth.device(device);
        device += if shape.step == KIN { KIN } else { growth.random.between(1, shape.step as usize) as u32 };
    }
    for _ in 0..growth.random.below(3) {
        growth.add_resemblances();
    }
    growth.table
}

struct Growth<'a> {
    random: &'a mut Random,
    shape: Shape,
    /// The hash of places.
    hash: u32,
    /// The hash in check 12, if there is one.
    twins: u32,
    /// What check 12 forbids twice: device (0 for roots), up, name and value.
    taken: HashSet<[u32; 4]>,
    table: Vec<Row>,
}

impl Growth<'_> {
    fn device(&mut self, device: u32) {
        let start = self.table.len();
        let end = self.shape.rows.min(start + self.shape.device_rows);
        let skipped = self.random.below(20);
        for at in ats_of_hash(device, self.hash).skip(skipped) {
            if self.random.chance(self.shape.gaps) {
                continue;
            }
            // The next place of the hash is further away than one.
            for at in [at, at + 1] {
                if self.table.len() == end {
                    return;
                }
                self.add(device, at, start);
                if at == MOST_NAME || !self.random.chance(self.shape.beside) {
                    break;
                }
            }
        }
    }

    /// The rows of the device begin at `start`.
    fn add(&mut self, device: u32, at: u32, start: usize) {
        let (random, shape, own) = (&mut *self.random, self.shape, &self.table[start..]);
        let parent = match own {
            [] => None,
            _ if random.chance(shape.roots) => None,
            [.., last] if random.chance(shape.near) => Some(*last),
            [first, ..] if random.chance(shape.far) => Some(*first),
            _ => Some(random.pick(own)),
        };
        let (up, deep) = parent.map_or((0, 0), |parent| (parent.at, parent.deep + 1));
        let row = self.with_name_and_value(Row { device, at, up, deep, name: 1, value: 0 });
        self.table.push(row);
    }

    /// None of its siblings has that name and value.
    fn with_name_and_value(&mut self, mut row: Row) -> Row {
        loop {
            row.name = self.random.pick(&[1, 2, MOST_NAME]);
            row.value = self.random.pick(&[0, LEAST_VALUE]) + self.random.below(1 << 30) as u32;
            match self.shape.values {
                Values::OneHash => {
                    let with_value = |value| Row { value, ..row };
                    row =
                        (row.value..).map(with_value).find(|row| twin_hash(row) == self.twins).expect("one");
                }
                Values::Fewest => {
                    let siblings = self.table.iter().filter(|earlier| earlier.is_sibling_of(&row)).count();
                    (row.name, row.value) = (1, siblings as u32);
                }
                // As near to zero, on one of its sides.
                Values::Any => row.value = (row.value as i32 % MOST_ROWS as i32) as u32,
            }
            if self.take(&row) {
                return row;
            }
        }
    }

    /// Whether no sibling has that name and value so far.
    fn take(&mut self, row: &Row) -> bool {
        let device_of_siblings = if row.is_root() { 0 } else { row.device };
        self.taken.insert([device_of_siblings, row.up, row.name, row.value])
    }

    /// Makes earlier rows resemble a later one: siblings share its name or its value, others both.
    fn add_resemblances(&mut self) {
        let later = self.random.below(self.table.len());
        for _ in 0..8 {
            let (row, earlier) = (self.table[later], self.random.below(later + 1));
            let mut like = self.table[earlier];
            match self.random.below(2) {
                _ if !like.is_sibling_of(&row) => (like.name, like.value) = (row.name, row.value),
                0 => like.name = row.name,
                _ => like.value = row.value,
            }
            if self.take(&like) {
                self.table[earlier] = like;
            }
        }
    }
}
