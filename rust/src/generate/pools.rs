//! Random accepted pools.

use std::collections::HashSet;

use super::vocabulary::Vocabulary;
use crate::checker::{Row, MOST_NAME, MOST_ROWS};
use crate::random::Random;

#[derive(Clone, Copy, Debug)]
pub struct PoolShape {
    pub rows: usize,
    pub devices: usize,
    /// Percent of rows that are roots.
    pub roots: usize,
    /// The largest step from one device or at to the next.
    pub step: usize,
    /// Whether the values of the vocabulary come at any place of the table; else mostly early.
    pub spread: bool,
    /// Whether most rows that are no roots hang under the first row of their device.
    pub wide: bool,
    /// Percent of the other rows that hang under the row before them.
    pub chained: usize,
}

impl PoolShape {
    pub fn new(random: &mut Random) -> PoolShape {
        let rows = match random.below(40) {
            0 => random.between(MOST_ROWS - 3, MOST_ROWS),
            1 => random.between(100, MOST_ROWS),
            2..=6 => random.between(20, 60),
            7 => 0,
            _ => random.between(1, 20),
        };
        PoolShape::with_rows(random, rows)
    }

    pub fn with_rows(random: &mut Random, rows: usize) -> PoolShape {
        let devices = match random.below(20) {
            0 => rows.max(1),
            1..=6 => 1,
            _ => random.between(1, 6),
        };
        PoolShape {
            rows,
            devices,
            roots: random.pick(&[5, 20, 40, 70, 100]),
            step: random.pick(&[1, 1, 3, 30]),
            spread: random.chance(30),
            wide: random.chance(15),
            chained: 40,
        }
    }
}

/// An accepted pool of any shape.
pub fn pool(random: &mut Random, vocabulary: &Vocabulary) -> Vec<u32> {
    let shape = PoolShape::new(random);
    pool_of(random, vocabulary, shape)
}

pub fn pool_of(random: &mut Random, vocabulary: &Vocabulary, shape: PoolShape) -> Vec<u32> {
    let mut growth = Growth { random, vocabulary, shape, taken: HashSet::new(), table: vec![] };
    for (device, rows) in growth.devices() {
        growth.device(device, rows);
    }
    growth.table
}

/// Rising numbers with gaps up to the step; at times the largest ones that fit.
pub fn rising(random: &mut Random, count: usize, step: usize) -> Vec<u32> {
    let mut numbers = vec![];
    let mut last = 0;
    for _ in 0..count {
        last += random.between(1, step) as u32;
        numbers.push(last);
    }
    if random.chance(5) {
        let lift = MOST_NAME - last;
        numbers.iter_mut().for_each(|number| *number += lift);
    }
    numbers
}

struct Growth<'a> {
    random: &'a mut Random,
    vocabulary: &'a Vocabulary,
    shape: PoolShape,
    /// What check 12 forbids twice: device (0 for roots), up, name and value.
    taken: HashSet<[u32; 4]>,
    table: Vec<u32>,
}

impl Growth<'_> {
    /// The devices in rising order, each with its number of rows.
    fn devices(&mut self) -> Vec<(u32, usize)> {
        let mut rows = vec![0; self.shape.devices];
        for _ in 0..self.shape.rows {
            rows[self.random.below(self.shape.devices)] += 1;
        }
        let numbers = rising(self.random, self.shape.devices, self.shape.step);
        numbers.into_iter().zip(rows).collect()
    }

    fn device(&mut self, device: u32, rows: usize) {
        let (ats, mut depths) = (rising(self.random, rows, self.shape.step), vec![]);
        for (row, &at) in ats.iter().enumerate() {
            let root = row == 0 || self.random.chance(self.shape.roots);
            let parent = match root {
                true => None,
                false if self.shape.wide && self.random.chance(90) => Some(0),
                false if self.random.chance(self.shape.chained) => Some(row - 1),
                false => Some(self.random.below(row)),
            };
            let (up, deep) = parent.map_or((0, 0), |parent| (ats[parent], depths[parent] + 1));
            let (name, value) = self.name_and_value(device, up);
            depths.push(deep);
            self.table.extend(Row { device, at, up, deep, name, value }.words());
        }
    }

    /// A name and value that no sibling has, out of the vocabulary while that lasts.
    fn name_and_value(&mut self, device: u32, up: u32) -> (u32, u32) {
        for attempt in 0.. {
            let name = self.vocabulary.name(self.random, up == 0);
            let value = match attempt {
                0..=3 if !self.shape.spread => self.vocabulary.value(self.random),
                0..=20 => self.vocabulary.value_near(self.random, self.shape.rows + 4),
                _ => self.random.word(),
            };
            let device_of_siblings = if up == 0 { 0 } else { device };
            if self.taken.insert([device_of_siblings, up, name, value]) {
                return (name, value);
            }
        }
        unreachable!("there are more values than rows")
    }
}
