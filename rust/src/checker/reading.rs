//! How a switch reads an entry on its own rows: true, false or open.

use super::entry::{Comparison, Entry, Quantifier};
use super::table::{range, Row};

#[derive(Clone, Copy, Debug, PartialEq, Eq)]
pub enum Reading {
    True,
    False,
    Open,
}

impl Reading {
    pub fn of(verdict: bool) -> Reading {
        if verdict {
            Reading::True
        } else {
            Reading::False
        }
    }

    fn not(self) -> Reading {
        match self {
            Reading::True => Reading::False,
            Reading::False => Reading::True,
            Reading::Open => Reading::Open,
        }
    }

    fn and(self, right: impl FnOnce() -> Reading) -> Reading {
        if self == Reading::False {
            return Reading::False;
        }
        match (self, right()) {
            (_, Reading::False) => Reading::False,
            (Reading::True, Reading::True) => Reading::True,
            _ => Reading::Open,
        }
    }
}

/// The row of each variable around an entry; none for one that is elsewhere.
pub type Bindings = Vec<Option<usize>>;

/// An accepted rule and the rows of one device.
#[derive(Debug)]
pub struct Switch<'a> {
    pub entries: &'a [Entry],
    pub rows: &'a [Row],
}

impl Switch<'_> {
    pub fn read(&self, entry: usize, bound: &mut Bindings) -> Reading {
        match self.entries[entry] {
            Entry::Not { child } => self.read(child, bound).not(),
            Entry::And { left, right } => self.read(left, bound).and(|| self.read(right, bound)),
            Entry::Or { left, right } => {
                self.read(left, bound).not().and(|| self.read(right, bound).not()).not()
            }
            Entry::Implies { left, right } => {
                self.read(left, bound).and(|| self.read(right, bound).not()).not()
            }
            Entry::Quantifier(quantifier) => self.read_quantifier(quantifier, bound),
            Entry::Comparison(comparison) => self.read_comparison(comparison, bound),
        }
    }

    fn read_comparison(&self, comparison: Comparison, bound: &Bindings) -> Reading {
        if comparison.variables().iter().any(|&variable| bound[variable].is_none()) {
            return Reading::Open;
        }
        let value = |variable: usize| self.rows[bound[variable].expect("bound")].value;
        Reading::of(comparison.holds(value, &[]))
    }

    fn read_quantifier(&self, quantifier: Quantifier, bound: &mut Bindings) -> Reading {
        // What a body must read to decide, and what the quantifier reads if none can: kind 6 exchanges.
        let (decided, settled) = (Reading::of(!quantifier.every), Reading::of(quantifier.every));
        match quantifier.under.map(|variable| bound[variable]) {
            None if self.own_root_decides(quantifier, bound) => decided,
            None if self.elsewhere_settles(quantifier, bound) => settled,
            None => Reading::Open,
            Some(Some(parent)) => self.read_under(quantifier, parent, bound),
            Some(None) if self.elsewhere_settles(quantifier, bound) => settled,
            Some(None) => Reading::Open,
        }
    }

    fn read_under(&self, quantifier: Quantifier, parent: usize, bound: &mut Bindings) -> Reading {
        let (decided, settled) = (Reading::of(!quantifier.every), Reading::of(quantifier.every));
        let mut all_settled = true;
        for row in range(self.rows, quantifier, Some(parent)) {
            let body = self.read_body(quantifier, Some(row), bound);
            if body == decided {
                return decided;
            }
            all_settled &= body == settled;
        }
        if all_settled {
            settled
        } else {
            Reading::Open
        }
    }

    /// Whether the body of some own root decides.
    fn own_root_decides(&self, quantifier: Quantifier, bound: &mut Bindings) -> bool {
        let decided = Reading::of(!quantifier.every);
        range(self.rows, quantifier, None).any(|row| self.read_body(quantifier, Some(row), bound) == decided)
    }

    /// Whether the body with the variable elsewhere settles it.
    fn elsewhere_settles(&self, quantifier: Quantifier, bound: &mut Bindings) -> bool {
        self.read_body(quantifier, None, bound) == Reading::of(quantifier.every)
    }

    fn read_body(&self, quantifier: Quantifier, row: Option<usize>, bound: &mut Bindings) -> Reading {
        bound.push(row);
        let reading = self.read(quantifier.body, bound);
        bound.pop();
        reading
    }
}
