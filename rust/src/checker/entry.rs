//! The entries of an accepted rule or template, by meaning.

use super::table::Row;
use super::values::value_of;
use super::ANY_NAME;

#[derive(Clone, Copy, Debug)]
pub enum Entry {
    Not { child: usize },
    And { left: usize, right: usize },
    Or { left: usize, right: usize },
    Implies { left: usize, right: usize },
    Quantifier(Quantifier),
    Comparison(Comparison),
}

#[derive(Clone, Copy, Debug)]
pub struct Quantifier {
    /// Kind 5; kind 6 otherwise.
    pub every: bool,
    pub body: usize,
    /// The variable of the parent; none for roots.
    pub under: Option<usize>,
    /// That of the rows it takes, or any.
    pub name: u32,
}

#[derive(Clone, Copy, Debug)]
pub struct Comparison {
    pub relation: Relation,
    pub left: usize,
    pub right: Right,
}

#[derive(Clone, Copy, Debug)]
pub enum Relation {
    Equal,
    Less,
    AtMost,
}

#[derive(Clone, Copy, Debug)]
pub enum Right {
    Variable(usize),
    Constant(u32),
    /// The number of a parameter: the comparison is a blank. No rule has one.
    Parameter(usize),
}

impl Entry {
    /// The meaning of four words that have passed checks 2 and 3.
    pub fn from_words([kind, a, b, c]: [u32; 4]) -> Entry {
        let (left, right) = (a as usize, b as usize);
        let comparison = |relation| {
            let right = match b {
                0 => Right::Variable(c as usize),
                1 => Right::Constant(c),
                _ => Right::Parameter(c as usize),
            };
            Entry::Comparison(Comparison { relation, left, right })
        };
        match kind {
            1 => Entry::Not { child: left },
            2 => Entry::And { left, right },
            3 => Entry::Or { left, right },
            4 => Entry::Implies { left, right },
            5 | 6 => Entry::Quantifier(Quantifier {
                every: kind == 5,
                body: left,
                under: right.checked_sub(1),
                name: c,
            }),
            7 => comparison(Relation::Equal),
            8 => comparison(Relation::Less),
            _ => comparison(Relation::AtMost),
        }
    }

    pub fn children(&self) -> Vec<usize> {
        match *self {
            Entry::Not { child } => vec![child],
            Entry::And { left, right } | Entry::Or { left, right } | Entry::Implies { left, right } => {
                vec![left, right]
            }
            Entry::Quantifier(quantifier) => vec![quantifier.body],
            Entry::Comparison(_) => vec![],
        }
    }

    pub fn quantifier(&self) -> Option<Quantifier> {
        match *self {
            Entry::Quantifier(quantifier) => Some(quantifier),
            _ => None,
        }
    }

    /// The variables that the entry uses, also in b of a quantifier.
    pub fn variables(&self) -> Vec<usize> {
        match *self {
            Entry::Quantifier(quantifier) => quantifier.under.into_iter().collect(),
            Entry::Comparison(comparison) => comparison.variables(),
            _ => vec![],
        }
    }

    /// The parameter number of a blank.
    pub fn parameter(&self) -> Option<usize> {
        match *self {
            Entry::Comparison(Comparison { right: Right::Parameter(number), .. }) => Some(number),
            _ => None,
        }
    }
}

impl Quantifier {
    /// Whether it takes rows of this row's name. Nothing else compares names with those of rules: ranging,
    /// reaching and readings all ask here.
    pub fn takes(&self, row: &Row) -> bool {
        self.name == ANY_NAME || self.name == row.name
    }
}

impl Comparison {
    pub fn variables(&self) -> Vec<usize> {
        match self.right {
            Right::Variable(right) => vec![self.left, right],
            Right::Constant(_) | Right::Parameter(_) => vec![self.left],
        }
    }

    /// Whether it holds, given the word of each variable that it uses, and the parameters, none for a rule. Nothing
    /// else compares values in order: verdict, marks, readings and trials all ask here.
    pub fn holds(&self, word: impl Fn(usize) -> u32, parameters: &[u32]) -> bool {
        let left = value_of(word(self.left));
        let right = value_of(match self.right {
            Right::Variable(variable) => word(variable),
            Right::Constant(constant) => constant,
            Right::Parameter(number) => parameters[number],
        });
        match self.relation {
            Relation::Equal => left == right,
            Relation::Less => left < right,
            Relation::AtMost => left <= right,
        }
    }
}
