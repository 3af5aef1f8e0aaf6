//! Random accepted rules: a tree is grown first, then its entries are laid out in an order that the
//! contract permits.

use super::vocabulary::{Vocabulary, NOT_IN_POOL};
use crate::checker::{ANY_NAME, ENTRY_WORDS, MOST_ENTRIES, MOST_NESTED};
use crate::random::Random;

/// How a rule is grown.
#[derive(Clone, Copy, Debug)]
pub struct RuleShape {
    pub entries: usize,
    /// The quantifiers that may stand around one another; above the limit the rule is refused with 6.
    pub nested: usize,
    /// Chances of not, of a connective with two sides, and of a quantifier, where each is possible.
    pub weights: [usize; 3],
    pub sides: Sides,
    /// Percent of quantifiers over roots, where a variable is bound.
    pub roots: usize,
    /// Percent of quantifiers over any name.
    pub any: usize,
}

/// How the entries of a connective are shared between its sides.
#[derive(Clone, Copy, Debug, PartialEq)]
pub enum Sides {
    LeastLeft,
    LeastRight,
    Any,
}

const WEIGHTS: [[usize; 3]; 5] = [[1, 5, 4], [1, 2, 7], [2, 7, 1], [9, 0, 1], [3, 3, 3]];

impl RuleShape {
    pub fn new(random: &mut Random) -> RuleShape {
        let entries = match random.below(20) {
            0 => MOST_ENTRIES,
            1 => random.between(2, MOST_ENTRIES),
            2..=6 => random.between(10, 30),
            _ => random.between(2, 14),
        };
        let nested = if random.chance(70) { random.between(1, 4) } else { MOST_NESTED };
        let sides = random.pick(&[Sides::LeastLeft, Sides::LeastRight, Sides::Any, Sides::Any]);
        RuleShape {
            entries,
            nested,
            weights: random.pick(&WEIGHTS),
            sides,
            roots: random.pick(&[20, 40, 80]),
            any: some_any(random),
        }
    }

    /// The same with many quantifiers over any name.
    pub fn of_any_names(random: &mut Random) -> RuleShape {
        RuleShape { any: random.pick(&[30, 60, 100]), ..RuleShape::new(random) }
    }
}

/// Percent of quantifiers over any name, in every second rule.
pub fn some_any(random: &mut Random) -> usize {
    random.pick(&[0, 0, 15, 25])
}

/// An accepted rule of any shape.
pub fn rule(random: &mut Random, vocabulary: &Vocabulary) -> Vec<u32> {
    let shape = RuleShape::new(random);
    rule_of(random, vocabulary, shape)
}

pub fn rule_of(random: &mut Random, vocabulary: &Vocabulary, shape: RuleShape) -> Vec<u32> {
    let mut tree = Tree::new(random, vocabulary, shape);
    tree.grow(shape.entries, 0);
    let order = tree.order();
    tree.laid_out(&order)
}

/// Makes every child so much larger, as for entries that are put before the rule.
pub fn shift_children(rule: &mut [u32], by: u32) {
    for words in rule.chunks_exact_mut(ENTRY_WORDS) {
        let children = match words[0] {
            1 | 5 | 6 => 1..2,
            2..=4 => 1..3,
            _ => 0..0,
        };
        words[children].iter_mut().for_each(|child| *child = child.saturating_add(by));
    }
}

/// An entry whose children are nodes of the tree: they stand in words a and b.
pub struct Node {
    pub words: [u32; 4],
    pub children: Vec<usize>,
    /// The number of quantifiers around it.
    pub around: usize,
}

pub struct Tree<'a> {
    pub random: &'a mut Random,
    pub vocabulary: &'a Vocabulary,
    pub shape: RuleShape,
    pub nodes: Vec<Node>,
}

/// The fewest entries of a tree: a comparison needs a variable, hence a quantifier around it.
pub fn least_entries(around: usize) -> usize {
    if around == 0 {
        2
    } else {
        1
    }
}

impl Tree<'_> {
    pub fn new<'a>(random: &'a mut Random, vocabulary: &'a Vocabulary, shape: RuleShape) -> Tree<'a> {
        Tree { random, vocabulary, shape, nodes: vec![] }
    }

    /// Adds a node that has no words and no children yet.
    pub fn add(&mut self, around: usize) -> usize {
        self.nodes.push(Node { words: [0; 4], children: vec![], around });
        self.nodes.len() - 1
    }

    /// Grows a tree of this many entries and gives its node.
    pub fn grow(&mut self, entries: usize, around: usize) -> usize {
        let least = least_entries(around);
        let node = self.add(around);
        let [not, two_sided, quantifier] = self.shape.weights;
        let choices = [
            if entries > least { not.max(1) } else { 0 },
            if entries > 2 * least { two_sided } else { 0 },
            if entries > 1 && around < self.shape.nested { quantifier.max(1) } else { 0 },
        ];
        let children = if entries == 1 {
            self.nodes[node].words = self.comparison(around);
            vec![]
        } else {
            match self.choose(choices) {
                0 => {
                    self.nodes[node].words = [1, 0, 0, 0];
                    vec![self.grow(entries - 1, around)]
                }
                1 => {
                    self.nodes[node].words = self.connective();
                    let left = self.left_side(entries - 1, least);
                    vec![self.grow(left, around), self.grow(entries - 1 - left, around)]
                }
                _ => {
                    self.nodes[node].words = self.quantifier(around);
                    vec![self.grow(entries - 1, around + 1)]
                }
            }
        };
        self.nodes[node].children = children;
        node
    }

    /// The place of one of these chances.
    pub fn choose<const N: usize>(&mut self, chances: [usize; N]) -> usize {
        let mut drawn = self.random.below(chances.iter().sum());
        for (choice, chance) in chances.into_iter().enumerate() {
            if drawn < chance {
                return choice;
            }
            drawn -= chance;
        }
        unreachable!("the draw is below the sum")
    }

    fn left_side(&mut self, entries: usize, least: usize) -> usize {
        match self.shape.sides {
            Sides::LeastLeft => least,
            Sides::LeastRight => entries - least,
            Sides::Any => self.random.between(least, entries - least),
        }
    }

    pub fn connective(&mut self) -> [u32; 4] {
        [self.random.pick(&[2, 3, 4]), 0, 0, 0]
    }

    pub fn quantifier(&mut self, around: usize) -> [u32; 4] {
        let kind = self.random.pick(&[5, 6]);
        let over_roots = around == 0 || self.random.chance(self.shape.roots);
        let under = match over_roots {
            true => 0,
            false if self.random.chance(50) => around,
            false => self.random.between(1, around),
        };
        [kind, 0, under as u32, self.name(over_roots)]
    }

    /// Of the vocabulary, any, or one that finds no rows.
    fn name(&mut self, over_roots: bool) -> u32 {
        if self.random.chance(self.shape.any) {
            ANY_NAME
        } else if self.random.chance(4) {
            NOT_IN_POOL
        } else {
            self.vocabulary.name(self.random, over_roots)
        }
    }

    /// Any two variables, also one with itself, or a variable and a constant.
    pub fn comparison(&mut self, around: usize) -> [u32; 4] {
        let kind = self.random.pick(&[7, 7, 8, 9]);
        // The innermost variable is the one that a quantifier most often needs.
        let latest = self.random.chance(60);
        let left = if latest { around - 1 } else { self.random.below(around) };
        if self.random.chance(50) {
            return [kind, left as u32, 0, self.random.below(around) as u32];
        }
        let value = self.vocabulary.value(self.random);
        let constant = if self.random.chance(90) { value } else { self.random.word() };
        [kind, left as u32, 1, constant]
    }

    /// The nodes, each after its parent: the earliest or latest found first, or any. Either side of a
    /// connective may be found first.
    pub fn order(&mut self) -> Vec<usize> {
        let (first, right_first) = (self.random.below(3), self.random.chance(50));
        let (mut found, mut order) = (vec![0], vec![]);
        while !found.is_empty() {
            let next = match first {
                0 => 0,
                1 => found.len() - 1,
                _ => self.random.below(found.len()),
            };
            let node = found.remove(next);
            let mut children = self.nodes[node].children.clone();
            if right_first {
                children.reverse();
            }
            found.extend(children);
            order.push(node);
        }
        order
    }

    /// The words of the nodes in this order.
    pub fn laid_out(&self, order: &[usize]) -> Vec<u32> {
        let mut number = vec![0; order.len()];
        for (place, &node) in order.iter().enumerate() {
            number[node] = place as u32;
        }
        order.iter().flat_map(|&node| self.nodes[node].numbered(&number)).collect()
    }
}

impl Node {
    fn numbered(&self, number: &[u32]) -> [u32; 4] {
        let mut words = self.words;
        for (side, &child) in self.children.iter().enumerate() {
            words[1 + side] = number[child];
        }
        words
    }
}
