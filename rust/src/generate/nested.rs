//! Rules about as nested as may be: the deepest branch has as many quantifiers around one another as the
//! limit permits, one less, one more or a few more.

use super::damaged_rule::use_variable;
use super::rules::{least_entries, some_any, Node, RuleShape, Sides, Tree};
use super::vocabulary::Vocabulary;
use crate::answer::Answer;
use crate::checker::{ANY_NAME, ENTRY_WORDS, MOST_NESTED};
use crate::random::Random;

/// A rule without other faults than 6 and 7.
#[derive(Clone, Debug)]
pub struct NestedRule {
    pub words: Vec<u32>,
    /// The most quantifiers that stand around one another.
    pub deepest: usize,
    /// The first entry that is a quantifier with too many around it.
    pub too_nested: Option<usize>,
    /// The first entry that uses a variable which is not bound there.
    pub unbound: Option<usize>,
}

impl NestedRule {
    /// What the rule's check must answer, by the way in which it was grown.
    pub fn check(&self) -> Answer {
        match (self.too_nested, self.unbound) {
            (Some(place), _) => Answer::refused(6, place),
            (None, Some(place)) => Answer::refused(7, place),
            (None, None) => Answer::Done(self.words.len() / ENTRY_WORDS),
        }
    }
}

pub fn nested_rule(random: &mut Random, vocabulary: &Vocabulary) -> NestedRule {
    nested_rule_along(random, vocabulary, 0)
}

/// So many percent of the quantifiers follow a chain of rows: each ranges under the one around it, over the
/// name of its depth or over any.
pub fn nested_rule_along(random: &mut Random, vocabulary: &Vocabulary, chained: usize) -> NestedRule {
    let depths = depths(random);
    let deepest = depths.iter().copied().max().expect("a branch");
    let shape = RuleShape {
        // What stands beside the branches is small, and never too nested itself.
        entries: 4,
        nested: deepest.min(MOST_NESTED),
        weights: [1, 1, 3],
        sides: Sides::Any,
        roots: random.pick(&[0, 30, 60, 100]),
        any: some_any(random),
    };
    let mut tree = Tree::new(random, vocabulary, shape);
    tree.branches(&depths, 0);
    tree.follow_a_chain(chained);
    while tree.random.chance(40) {
        tree.use_a_variable_near();
    }
    let order = tree.order();
    let first = |fault: fn(&Node) -> bool| order.iter().position(|&node| fault(&tree.nodes[node]));
    let (too_nested, unbound) = (first(Node::is_too_nested), first(Node::is_unbound));
    NestedRule { words: tree.laid_out(&order), deepest, too_nested, unbound }
}

/// How many quantifiers stand around one another in each branch, from left to right.
fn depths(random: &mut Random) -> Vec<usize> {
    let limit = MOST_NESTED;
    let deepest = match random.below(8) {
        0 => limit - 1,
        1..=3 => limit,
        4..=6 => limit + 1,
        _ => limit + random.between(2, 5),
    };
    let mut depths = vec![deepest];
    while depths.len() < 4 && random.chance(50) {
        let other = random.pick(&[1, limit - 1, limit, limit + 1]).min(deepest);
        depths.insert(random.below(depths.len() + 1), other);
    }
    depths
}

/// From so many nodes on, branches grow no more than they have to: no rule has too many entries.
const MANY_NODES: usize = 50;

impl Tree<'_> {
    /// Grows a tree with branches of these depths and gives its node.
    fn branches(&mut self, depths: &[usize], around: usize) -> usize {
        let node = self.add(around);
        let room = self.nodes.len() < MANY_NODES;
        let choices = [
            if depths == [around] { 4 } else { 0 },
            if depths.iter().all(|&depth| depth > around) { 4 } else { 0 },
            if depths.len() > 1 { 2 } else { 0 },
            if room { 1 } else { 0 },
            if room { 1 } else { 0 },
        ];
        let (words, children) = match self.choose(choices) {
            0 => (self.comparison(around), vec![]),
            1 => (self.quantifier(around), vec![self.branches(depths, around + 1)]),
            2 => {
                let (left, right) = depths.split_at(self.random.between(1, depths.len() - 1));
                (self.connective(), vec![self.branches(left, around), self.branches(right, around)])
            }
            3 => (self.connective(), self.branches_beside_a_tree(depths, around)),
            _ => ([1, 0, 0, 0], vec![self.branches(depths, around)]),
        };
        self.nodes[node].words = words;
        self.nodes[node].children = children;
        node
    }

    /// The two sides of a connective: the branches, and a small tree.
    fn branches_beside_a_tree(&mut self, depths: &[usize], around: usize) -> Vec<usize> {
        let entries = self.random.between(least_entries(around), self.shape.entries);
        // The small tree comes first, so that it counts among the nodes while the branches grow.
        let mut sides = vec![self.grow(entries, around), self.branches(depths, around)];
        if self.random.chance(50) {
            sides.reverse();
        }
        sides
    }

    fn follow_a_chain(&mut self, percent: usize) {
        let quantifiers = self.nodes.iter_mut().filter(|node| matches!(node.words[0], 5 | 6));
        for node in quantifiers {
            if let Some(&name) = self.vocabulary.names.get(node.around) {
                if self.random.chance(percent) {
                    node.words[2] = node.around as u32;
                    if node.words[3] != ANY_NAME {
                        node.words[3] = name;
                    }
                }
            }
        }
    }

    /// Makes one entry use the last variable that is bound there, or the first that is not; often one of the
    /// entries with the most quantifiers around them.
    fn use_a_variable_near(&mut self) {
        let inmost = self.nodes.iter().map(|node| node.around).max();
        let anywhere = self.random.chance(50);
        let nodes = self.nodes.iter_mut().filter(|node| node.words[0] >= 5);
        let mut nodes: Vec<&mut Node> =
            nodes.filter(|node| anywhere || Some(node.around) == inmost).collect();
        let place = self.random.below(nodes.len());
        let node = &mut *nodes[place];
        let around = node.around as u32;
        // Where none is bound there is no last one.
        let variable = if around > 0 && self.random.chance(60) { around - 1 } else { around };
        use_variable(self.random, &mut node.words, variable);
    }
}

impl Node {
    fn is_too_nested(&self) -> bool {
        matches!(self.words[0], 5 | 6) && self.around >= MOST_NESTED
    }

    fn is_unbound(&self) -> bool {
        let [kind, a, b, c] = self.words.map(|word| word as usize);
        match kind {
            5 | 6 => b > self.around,
            7..=9 => a >= self.around || (b == 0 && c >= self.around),
            _ => false,
        }
    }
}
