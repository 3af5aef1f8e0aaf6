//! The few names and values that a rule and a pool share, so that the rule finds rows.

use crate::checker::{LEAST_VALUE, MOST_NAME, MOST_NESTED, MOST_ROWS, MOST_VALUE};
use crate::random::Random;

/// A name that no pool uses, though a step may add it.
pub const NOT_IN_POOL: u32 = 65_000;
/// A name that no rule uses.
pub const NO_RULE: u32 = 64_000;

const WORD_CLASSES: [u32; 19] = [
    0,
    1,
    2,
    MOST_NESTED as u32 - 1,
    MOST_NESTED as u32,
    MOST_NESTED as u32 + 1,
    8,
    9,
    10,
    127,
    128,
    MOST_ROWS as u32 - 1,
    MOST_ROWS as u32,
    MOST_NAME,
    MOST_NAME + 1,
    MOST_VALUE,
    LEAST_VALUE,
    u32::MAX - 1,
    u32::MAX,
];

/// The values around zero, the largest and the least, in the order of their words: it is not that of the
/// values.
const EDGES: [u32; 9] =
    [0, 1, 2, MOST_VALUE - 1, MOST_VALUE, LEAST_VALUE, LEAST_VALUE + 1, u32::MAX - 1, u32::MAX];

/// A word of any class: 0, 1, each limit, each limit plus 1, the largest.
pub fn word_of_any_class(random: &mut Random) -> u32 {
    if random.chance(85) {
        random.pick(&WORD_CLASSES)
    } else {
        random.word()
    }
}

#[derive(Clone, Debug)]
pub struct Vocabulary {
    pub names: Vec<u32>,
    pub values: Vec<u32>,
}

impl Vocabulary {
    pub fn new(random: &mut Random) -> Vocabulary {
        let names = random.between(1, 4);
        let values = random.between(1, 4);
        let (large_names, small_values) = (random.chance(10), random.chance(40));
        Vocabulary {
            names: (1..=names as u32).map(|n| if large_names { MOST_NAME + 1 - n } else { n }).collect(),
            values: if small_values { (0..values as u32).collect() } else { edges(random, values) },
        }
    }

    /// The same with values around zero and at both ends.
    pub fn of_edges(random: &mut Random) -> Vocabulary {
        let values = random.between(2, 4);
        Vocabulary { values: edges(random, values), ..Vocabulary::new(random) }
    }

    /// The same with two names or more.
    pub fn of_names(random: &mut Random) -> Vocabulary {
        loop {
            let vocabulary = Vocabulary::new(random);
            if vocabulary.names.len() > 1 {
                return vocabulary;
            }
        }
    }

    /// Roots and quantifiers over roots mostly use the first name, so that they meet.
    pub fn name(&self, random: &mut Random, over_roots: bool) -> u32 {
        if over_roots && random.chance(70) {
            self.names[0]
        } else {
            random.pick(&self.names)
        }
    }

    pub fn value(&self, random: &mut Random) -> u32 {
        random.pick(&self.values)
    }

    /// One of so many words around the first value, and so often on the other side of zero or at the other end.
    pub fn value_near(&self, random: &mut Random, count: usize) -> u32 {
        self.values[0].wrapping_sub(count as u32 / 2).wrapping_add(random.below(count) as u32)
    }
}

/// So many of the edges, next to one another or apart; none twice.
fn edges(random: &mut Random, count: usize) -> Vec<u32> {
    let (first, step) = (random.below(EDGES.len()), random.pick(&[1, 2, 4]));
    (0..count).map(|value| EDGES[(first + step * value) % EDGES.len()]).collect()
}
