//! Steps that a table takes, one after the other.

use std::collections::HashSet;

use super::vocabulary::{word_of_any_class, Vocabulary, NOT_IN_POOL, NO_RULE};
use crate::checker::{rows_after, rows_of, Row, ADD, MOST_NAME, REMOVE, SET, STEP_WORDS};
use crate::random::Random;

/// How often a step is tried that the table then may not take.
const ATTEMPTS: usize = 20;

/// The steps done so far, and what they left.
pub struct Steps<'a> {
    random: &'a mut Random,
    vocabulary: &'a Vocabulary,
    /// Whether the name of most rows tells how deep they hang, as in chains.
    by_depth: bool,
    rows: Vec<Row>,
    /// The pool, and the table after each step.
    pub states: Vec<Vec<Row>>,
    pub words: Vec<u32>,
    /// Rows as they were before a step changed or removed them.
    earlier: Vec<Row>,
    /// The row of the last step.
    last: Option<Row>,
}

impl Steps<'_> {
    pub fn new<'a>(
        random: &'a mut Random,
        vocabulary: &'a Vocabulary,
        by_depth: bool,
        pool: &[u32],
    ) -> Steps<'a> {
        let rows = rows_of(pool);
        let states = vec![rows.clone()];
        Steps { random, vocabulary, by_depth, rows, states, words: vec![], earlier: vec![], last: None }
    }

    /// Does one more step, if one is found that the table takes.
    pub fn next(&mut self) {
        for _ in 0..ATTEMPTS {
            let (kind, row) = self.any_step();
            let step = step_of(self.random, kind, &row);
            let Ok(after) = rows_after(&self.rows, &step) else {
                continue;
            };
            self.earlier.extend(self.rows.iter().filter(|old| is_same(old, &row)));
            self.states.push(after.clone());
            (self.rows, self.last) = (after, Some(row));
            self.words.extend(step);
            return;
        }
    }

    fn any_step(&mut self) -> (u32, Row) {
        match self.random.below(10) {
            0 if !self.earlier.is_empty() => self.undo(),
            1 | 2 if !self.rows.is_empty() => (REMOVE, self.leaf()),
            3..=6 if !self.rows.is_empty() => (SET, self.with_another_value()),
            _ => (ADD, self.new_row()),
        }
    }

    /// Gives a row its earlier value, or puts it back.
    fn undo(&mut self) -> (u32, Row) {
        let row = self.random.pick(&self.earlier);
        let there = self.rows.iter().any(|old| is_same(old, &row));
        (if there { SET } else { ADD }, row)
    }

    /// Mostly any row, at times that of the last step.
    fn any_row(&mut self) -> Row {
        let last = self.last.filter(|_| self.random.chance(30));
        let there = last.and_then(|last| self.rows.iter().find(|row| is_same(row, &last)));
        there.copied().unwrap_or_else(|| self.random.pick(&self.rows))
    }

    /// A row with nothing under it: the last row of a device is one.
    fn leaf(&mut self) -> Row {
        let parents: HashSet<[u32; 2]> = self.rows.iter().map(|row| [row.device, row.up]).collect();
        let is_leaf = |row: &&Row| !parents.contains(&[row.device, row.at]);
        let leaves: Vec<Row> = self.rows.iter().filter(is_leaf).copied().collect();
        self.random.pick(&leaves)
    }

    fn with_another_value(&mut self) -> Row {
        Row { value: self.value(), ..self.any_row() }
    }

    fn value(&mut self) -> u32 {
        match self.random.below(10) {
            0..=7 => self.vocabulary.value(self.random),
            8 => self.vocabulary.value_near(self.random, self.rows.len() + 4),
            _ => self.random.word(),
        }
    }

    fn new_row(&mut self) -> Row {
        let parent = self.parent();
        let [device, at] = match parent {
            Some(parent) => self.place_under(parent),
            None => self.place_of_root(),
        };
        let (up, deep) = parent.map_or((0, 0), |parent| (parent.at, parent.deep + 1));
        Row { device, at, up, deep, name: self.name(deep), value: self.value() }
    }

    /// Any row, the deepest, or none for a root.
    fn parent(&mut self) -> Option<Row> {
        let deepest = self.rows.iter().max_by_key(|row| row.deep).copied()?;
        match self.random.below(10) {
            0 | 1 => None,
            2 | 3 => Some(deepest),
            _ => Some(self.any_row()),
        }
    }

    /// Mostly a name of the rules.
    fn name(&mut self, deep: u32) -> u32 {
        let of_depth = self.vocabulary.names.get(deep as usize).filter(|_| self.by_depth);
        match self.random.below(20) {
            0..=2 => NO_RULE,
            3 => NOT_IN_POOL,
            4..=15 if of_depth.is_some() => of_depth.copied().expect("a name"),
            _ => self.vocabulary.name(self.random, deep == 0),
        }
    }

    /// Behind the parent: right behind it, next to another row, behind all, anywhere, or where a row was.
    fn place_under(&mut self, parent: Row) -> [u32; 2] {
        let own: Vec<u32> =
            self.rows.iter().filter(|row| row.device == parent.device).map(|row| row.at).collect();
        let at = match self.random.below(6) {
            0 => parent.at + 1,
            1 => self.next_to(&own),
            2 => self.random.between(parent.at as usize, MOST_NAME as usize) as u32,
            3 if !self.earlier.is_empty() => self.random.pick(&self.earlier).at,
            _ => own[own.len() - 1] + self.random.between(1, 3) as u32,
        };
        [parent.device, at]
    }

    /// In a device that is there or in a new one: before all, next to another, behind all, anywhere.
    fn place_of_root(&mut self) -> [u32; 2] {
        let devices: Vec<u32> = self.rows.iter().map(|row| row.device).collect();
        let (Some(first), Some(last)) = (devices.first(), devices.last()) else {
            return [self.random.between(1, 9) as u32, self.random.between(1, 9) as u32];
        };
        let device = match self.random.below(8) {
            0 => self.random.between(1, *first as usize) as u32,
            1 => last + 1,
            2 | 3 => self.next_to(&devices),
            4 => self.random.between(1, MOST_NAME as usize) as u32,
            _ => self.random.pick(&devices),
        };
        let own: Vec<u32> = self.rows.iter().filter(|row| row.device == device).map(|row| row.at).collect();
        let at = match self.random.below(3) {
            0 if !own.is_empty() => self.random.between(1, own[0] as usize) as u32,
            1 if !own.is_empty() => self.next_to(&own),
            _ => own.last().map_or(0, |last| *last) + self.random.between(1, 3) as u32,
        };
        [device, at]
    }

    /// One less or one more than one of these.
    fn next_to(&mut self, numbers: &[u32]) -> u32 {
        let number = self.random.pick(numbers);
        if self.random.chance(50) {
            number - 1
        } else {
            number + 1
        }
    }
}

fn is_same(row: &Row, other: &Row) -> bool {
    (row.device, row.at) == (other.device, other.at)
}

/// The words of a step. Those that its kind does not need are the row's or any.
pub fn step_of(random: &mut Random, kind: u32, row: &Row) -> [u32; STEP_WORDS] {
    let [device, at, up, deep, name, value] = row.words();
    let mut step = [kind, device, at, up, deep, name, value];
    let not_needed = match kind {
        SET => 3..6,
        REMOVE => 3..7,
        _ => 0..0,
    };
    if random.chance(60) {
        step[not_needed].iter_mut().for_each(|word| *word = word_of_any_class(random));
    }
    step
}
