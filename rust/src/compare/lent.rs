//! A buffer that is lent to a call.

use std::fmt::Debug;

use crate::generate::Set;

/// The cells kept on each side of a buffer, which no call may touch.
const MARGIN: usize = 3;

pub struct Lent<T> {
    cells: Vec<T>,
}

impl<T: Copy + PartialEq + Debug + From<u8>> Lent<T> {
    pub fn of(content: &[T]) -> Lent<T> {
        let margin = [T::from(0xa5); MARGIN];
        Lent { cells: [&margin, content, &margin].concat() }
    }

    pub fn get(&self) -> &[T] {
        &self.cells[MARGIN..self.cells.len() - MARGIN]
    }

    pub fn get_mut(&mut self) -> &mut [T] {
        let end = self.cells.len() - MARGIN;
        &mut self.cells[MARGIN..end]
    }

    /// Whether it holds this content and nothing beside it was written.
    pub fn holds(&self, content: &[T]) -> bool {
        // The call had only a shared borrow of its inputs: read what memory holds now.
        std::hint::black_box(&self.cells) == &Lent::of(content).cells
    }

    /// Whether it starts with this content and nothing beside it was written; what lies behind may be any.
    pub fn starts_with(&self, content: &[T]) -> bool {
        match self.get().get(content.len()..) {
            Some(behind) => self.holds(&[content, behind].concat()),
            None => false,
        }
    }
}

/// Both buffers of a set.
pub struct LentSet {
    pub rules: Lent<u32>,
    pub counts: Lent<u32>,
}

impl LentSet {
    pub fn of(set: &Set) -> LentSet {
        LentSet { rules: Lent::of(&set.rules), counts: Lent::of(&set.counts) }
    }

    pub fn holds(&self, set: &Set) -> bool {
        self.rules.holds(&set.rules) && self.counts.holds(&set.counts)
    }
}

#[cfg(test)]
mod tests {
    use super::*;

    #[test]
    fn only_what_lies_behind_is_free() {
        let mut lent = Lent::<u32>::of(&[1, 2, 3]);
        lent.get_mut()[2] = 9;
        assert!(lent.starts_with(&[1, 2]) && lent.starts_with(&[]) && lent.holds(&[1, 2, 9]));
        assert!(!lent.starts_with(&[1, 2, 3]) && !lent.starts_with(&[1, 2, 9, 0xa5]));
        for beside in [MARGIN - 1, MARGIN + 3] {
            let mut lent = Lent::<u32>::of(&[1, 2, 3]);
            lent.cells[beside] = 9;
            assert!(!lent.starts_with(&[1, 2]) && !lent.holds(&[1, 2, 3]));
        }
    }
}
