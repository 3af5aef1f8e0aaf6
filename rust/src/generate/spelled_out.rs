//! Quantifiers over any name, spelled out: one quantifier for each name.

use crate::checker::{ANY_NAME, ENTRY_WORDS, MOST_ENTRIES};

/// The rule with a quantifier for each of these names in the place of one over any: an and joins those of every,
/// an or those of some. If the names are all that a table has, it means the same there. None if it has more
/// entries than a rule may have.
pub fn spelled_out(rule: &[u32], names: &[u32]) -> Option<Vec<u32>> {
    let mut spelling = Spelling { rule, names, words: vec![] };
    spelling.put(0)?;
    Some(spelling.words)
}

struct Spelling<'a> {
    rule: &'a [u32],
    names: &'a [u32],
    words: Vec<u32>,
}

impl Spelling<'_> {
    /// Adds an entry of the rule with all within it, and gives its new place.
    fn put(&mut self, entry: u32) -> Option<u32> {
        match self.words_of(entry) {
            [5 | 6, _, _, ANY_NAME] => self.put_names(entry, self.names.len()),
            [kind @ (1 | 5 | 6), child, b, c] => self.put_around(child, [kind, 0, b, c]),
            [kind @ 2..=4, left, right, _] => {
                let place = self.add([kind, 0, 0, 0])?;
                for (side, child) in [(1, left), (2, right)] {
                    self.words[place as usize * ENTRY_WORDS + side] = self.put(child)?;
                }
                Some(place)
            }
            comparison => self.add(comparison),
        }
    }

    /// The same of a quantifier over any name, for the first so many of the names.
    fn put_names(&mut self, entry: u32, count: usize) -> Option<u32> {
        let [kind, body, b, _] = self.words_of(entry);
        let quantifier = [kind, 0, b, self.names[count - 1]];
        if count == 1 {
            return self.put_around(body, quantifier);
        }
        let place = self.add([if kind == 5 { 2 } else { 3 }, 0, 0, 0])?;
        let left = self.put_around(body, quantifier)?;
        let right = self.put_names(entry, count - 1)?;
        let start = place as usize * ENTRY_WORDS;
        (self.words[start + 1], self.words[start + 2]) = (left, right);
        Some(place)
    }

    /// An entry of one child.
    fn put_around(&mut self, child: u32, words: [u32; 4]) -> Option<u32> {
        let place = self.add(words)?;
        self.words[place as usize * ENTRY_WORDS + 1] = self.put(child)?;
        Some(place)
    }

    fn words_of(&self, entry: u32) -> [u32; 4] {
        self.rule.as_chunks().0[entry as usize]
    }

    fn add(&mut self, words: [u32; 4]) -> Option<u32> {
        let place = self.words.len() / ENTRY_WORDS;
        self.words.extend(words);
        (place < MOST_ENTRIES).then_some(place as u32)
    }
}
