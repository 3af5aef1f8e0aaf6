//! Tables of one device in which blocks are entered again: they pass all checks but 12.

use std::collections::HashMap;

use super::colliding_blocks::colliding_blocks;
use super::pools::rising;
use super::together::deep_rows;
use super::vocabulary::Vocabulary;
use crate::checker::{words_of, Row, MOST_NAME, MOST_ROWS};
use crate::random::Random;

/// How a table is grown.
#[derive(Clone, Copy, Debug)]
pub struct BlockShape {
    pub rows: usize,
    /// Percent of new rows that are roots.
    pub roots: usize,
    /// Percent of the other new rows that hang under the row before.
    pub chained: usize,
    /// Percent of the times at which a block is entered again; else a new row comes.
    pub again: usize,
    /// Percent of the rows of a block that are left out when it is entered again, with all that hangs under them.
    pub omitted: usize,
    /// Whether blocks are mixed: a row stands anywhere behind its parent.
    pub mixed: bool,
    /// The largest step from one at to the next.
    pub step: usize,
}

impl BlockShape {
    pub fn new(random: &mut Random, rows: usize) -> BlockShape {
        BlockShape {
            rows,
            roots: random.pick(&[0, 5, 30, 100]),
            chained: random.pick(&[0, 40, 80, 100]),
            again: random.pick(&[0, 20, 40, 60]),
            omitted: random.pick(&[0, 20, 50]),
            mixed: random.chance(40),
            step: random.pick(&[1, 1, 3, 30]),
        }
    }
}

/// Any such table of up to so many rows: mostly blocks, at times with one hash; at times all rows fold into one path,
/// or none does.
pub fn blocks(random: &mut Random, most: usize) -> Vec<u32> {
    let (rows, device) = (row_count(random).min(most), any_device(random));
    let vocabulary = match random.below(10) {
        0 => one_pair(random),
        _ => Vocabulary::new(random),
    };
    match random.below(20) {
        0 | 1 => deep_rows(random, &vocabulary, 1, rows),
        2 => colliding_blocks(random, &vocabulary, device),
        _ => {
            let shape = BlockShape::new(random, rows);
            words_of(&blocks_of(random, device, [&vocabulary; 2], shape))
        }
    }
}

/// Mostly few, since the checker folds one pair after the other.
fn row_count(random: &mut Random) -> usize {
    match random.below(200) {
        0 => MOST_ROWS,
        1 => random.between(200, MOST_ROWS),
        2..=9 => random.between(40, 200),
        10..=15 => 0,
        16..=21 => 1,
        _ => random.between(2, 30),
    }
}

fn any_device(random: &mut Random) -> u32 {
    let any = random.between(1, MOST_NAME as usize) as u32;
    random.pick(&[1, 2, any, MOST_NAME])
}

/// One name and one value: all siblings are equal, and fold into one path.
fn one_pair(random: &mut Random) -> Vocabulary {
    let mut vocabulary = Vocabulary::new(random);
    vocabulary.names.truncate(1);
    vocabulary.values.truncate(1);
    vocabulary
}

/// A table of one device. Its roots have names and values of the first vocabulary, all other rows of the second.
pub fn blocks_of(
    random: &mut Random,
    device: u32,
    vocabularies: [&Vocabulary; 2],
    shape: BlockShape,
) -> Vec<Row> {
    let mut growth = Growth { random, vocabularies, shape, nodes: vec![], firsts: HashMap::new() };
    while growth.nodes.len() < shape.rows {
        if !growth.nodes.is_empty() && growth.random.chance(shape.again) {
            growth.enter_again();
        } else {
            growth.add_new();
        }
    }
    growth.laid_out(device)
}

/// A row before it has its place.
#[derive(Clone, Copy)]
struct Node {
    parent: Option<usize>,
    name: u32,
    value: u32,
    /// The first node with its path.
    first: usize,
}

struct Growth<'a> {
    random: &'a mut Random,
    /// Of the roots, and of the other rows.
    vocabularies: [&'a Vocabulary; 2],
    shape: BlockShape,
    /// A parent stands before its children.
    nodes: Vec<Node>,
    /// The first node with each path, by the first one of its parent, the name and the value.
    firsts: HashMap<(Option<usize>, u32, u32), usize>,
}

impl Growth<'_> {
    fn add(&mut self, parent: Option<usize>, name: u32, value: u32) -> usize {
        let place = self.nodes.len();
        let path = (parent.map(|parent| self.nodes[parent].first), name, value);
        let first = *self.firsts.entry(path).or_insert(place);
        self.nodes.push(Node { parent, name, value, first });
        place
    }

    fn add_new(&mut self) {
        let last = self.nodes.len().checked_sub(1);
        let parent = match last {
            Some(_) if self.random.chance(self.shape.roots) => None,
            Some(last) if self.random.chance(self.shape.chained) => Some(last),
            Some(last) => Some(self.random.below(last + 1)),
            None => None,
        };
        let (name, value) = self.name_and_value(parent);
        self.add(parent, name, value);
    }

    fn name_and_value(&mut self, parent: Option<usize>) -> (u32, u32) {
        let [of_roots, of_others] = self.vocabularies;
        let vocabulary = if parent.is_none() { of_roots } else { of_others };
        (vocabulary.name(self.random, parent.is_none()), vocabulary.value(self.random))
    }

    /// Copies a row and what hangs under it, under its parent or another row with that one's path. Rows are left out
    /// or get another name and value at times.
    fn enter_again(&mut self) {
        let top = self.random.below(self.nodes.len());
        let parent = self.nodes[top].parent.map(|parent| self.any_of_path(self.nodes[parent].first));
        let mut copies =
            HashMap::from([(top, self.add(parent, self.nodes[top].name, self.nodes[top].value))]);
        for place in top + 1..self.nodes.len() {
            let node = self.nodes[place];
            let copied = node.parent.and_then(|parent| copies.get(&parent).copied());
            if self.nodes.len() < self.shape.rows
                && copied.is_some()
                && !self.random.chance(self.shape.omitted)
            {
                let changed = self.random.chance(10);
                let pair = if changed { self.name_and_value(copied) } else { (node.name, node.value) };
                copies.insert(place, self.add(copied, pair.0, pair.1));
            }
        }
    }

    fn any_of_path(&mut self, first: usize) -> usize {
        let same: Vec<usize> =
            (0..self.nodes.len()).filter(|&node| self.nodes[node].first == first).collect();
        self.random.pick(&same)
    }

    /// The nodes one after the other, each behind its parent.
    fn order(&mut self) -> Vec<usize> {
        let mut order: Vec<usize> = (0..self.nodes.len()).collect();
        if self.shape.mixed {
            // The larger of a node's own number and its parent's, so that it comes behind the parent.
            let mut keys: Vec<u64> = vec![];
            for node in &self.nodes {
                let own = self.random.draw() >> 32;
                keys.push(node.parent.map_or(own, |parent| own.max(keys[parent])));
            }
            order.sort_by_key(|&node| keys[node]);
        }
        order
    }

    fn laid_out(&mut self, device: u32) -> Vec<Row> {
        let (order, ats) = (self.order(), rising(self.random, self.nodes.len(), self.shape.step));
        let mut places = vec![0; order.len()];
        let mut rows: Vec<Row> = vec![];
        for (place, &node) in order.iter().enumerate() {
            places[node] = place;
            let Node { parent, name, value, .. } = self.nodes[node];
            let (up, deep) = parent.map_or((0, 0), |parent| {
                let above = rows[places[parent]];
                (above.at, above.deep + 1)
            });
            rows.push(Row { device, at: ats[place], up, deep, name, value });
        }
        rows
    }
}

#[cfg(test)]
mod tests {
    use super::*;
    use crate::checker::{accepted_but_siblings, check_table, folded_rows};

    /// All pass the checks but 12, and are of one device; what is left is of every kind.
    #[test]
    fn blocks_are_of_all_kinds() {
        let (mut equal, mut long, mut one_path, mut half) = (0, 0, 0, 0);
        for seed in 0..5_000 {
            let random = &mut Random::new(seed);
            let most = random.pick(&[30, 60, MOST_ROWS]);
            let table = blocks(random, most);
            let rows =
                accepted_but_siblings(&table).unwrap_or_else(|refusal| panic!("seed {seed}: {refusal:?}"));
            assert!(rows.len() <= most.max(50) && rows.iter().all(|row| row.device == rows[0].device));
            equal += (check_table(&table).number() == 12) as u32;
            long += (rows.len() == MOST_ROWS) as u32;
            if rows.len() > 300 {
                continue;
            }
            let left = folded_rows(&rows);
            one_path += (rows.len() > 4 && left.iter().zip(0..).all(|(row, deep)| row.deep == deep)) as u32;
            half += (left.len() * 2 <= rows.len()) as u32;
        }
        assert!(
            (2_500..4_500).contains(&equal) && long >= 3,
            "{equal} with equal siblings, {long} long ones"
        );
        assert!(one_path >= 500 && half >= 1_500, "{one_path} of one path, {half} with half the rows left");
    }
}
