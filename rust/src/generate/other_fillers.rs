//! Fillers that are not the contract's. Each differs from it in one thing.

use super::all_variants::all_variants;
use super::templates::Filling;
use crate::answer::{Answer, Refusal};
use crate::checker::{accepted_rule, accepted_template, is_blank, ENTRY_WORDS, LEAST_VALUE, MOST_PARAMETERS};

all_variants! {
    pub enum OtherFiller {
        // What is a blank.
        /// b = 2 of a quantifier, which tells the variable of the parent.
        QuantifiersToo,
        /// b = 2 of a connective, its right child.
        ConnectivesToo,
        ConstantsToo,
        VariablesToo,
        /// Not those of less and at most.
        EqualAlone,

        // What is written.
        /// b becomes 1, c stays the number.
        NumberStays,
        /// c becomes the parameter, b stays 2.
        BStays,
        FirstBlankAlone,
        /// All entries but the blanks are as they came.
        BlanksAlone,
        CountedFromOne,
        /// The blanks get the parameters one after the other, whatever their numbers.
        InOrderOfEntries,
        NumberModulo16,
        /// The words past the rule become 0.
        ClearsWhatLiesPast,
        EntriesAsValue,
        WritesThoughRefused,

        // What is refused.
        /// 22 before 21.
        UnusedFirst,
        /// 21 before 1 to 7.
        MissingFirst,
        /// 17 before all others.
        ShortFirst,
        /// Of the numbers without parameter, the last one's place.
        LastPlace,
        /// 22 at the parameter that is not used.
        PlaceOfUnused,
        /// Parameters count as used up to the largest number.
        UsedUpToLargest,
        /// They count as used if there are as many blanks.
        UsedByCount,
        /// They count as used if any entry has the number as its c.
        UsedByAnyEntry,
        /// A number that several blanks have is 22.
        SharedRefused,
        /// More than 16 blanks are 22.
        SixteenBlanks,
        UnusedAllowed,
        /// 17 parameters are accepted.
        SeventeenAllowed,
        /// 16 parameters are 22.
        SixteenRefused,
        /// A number above 15 is 3.
        NumbersTo15,
        /// A number that is no bound variable is 7.
        NumbersAreVariables,
        /// The left variable of a blank need not be bound.
        LeftSideFree,
        /// b = 3 of a comparison passes, too.
        ThreePasses,
        /// With blanks and no parameters the template is copied.
        CopiedWithoutParameters,
        /// A parameter below zero is 22.
        NoneBelowZero,
    }
}

use OtherFiller::*;

impl OtherFiller {
    /// As `checker::fill`.
    pub fn fill(self, filling: &Filling, rule: &mut [u32]) -> Answer {
        fill_of(Some(self), filling, rule)
    }
}

/// Without another filler, that of the contract.
fn fill_of(other: Option<OtherFiller>, filling: &Filling, rule: &mut [u32]) -> Answer {
    let Filling { template, parameters } = filling;
    let filler = Filler { other, template, parameters };
    if let Some(refusal) = filler.refusal(rule.len()) {
        if filler.is(WritesThoughRefused) {
            rule.iter_mut().zip(template).for_each(|(word, &of_template)| *word = of_template);
        }
        return Answer::Refused(refusal);
    }
    let (written, past) = rule.split_at_mut(template.len());
    filler.write(written);
    if filler.is(ClearsWhatLiesPast) {
        past.fill(0);
    }
    Answer::Done(if filler.is(EntriesAsValue) { template.len() / ENTRY_WORDS } else { template.len() })
}

struct Filler<'a> {
    other: Option<OtherFiller>,
    template: &'a [u32],
    parameters: &'a [u32],
}

impl Filler<'_> {
    fn is(&self, other: OtherFiller) -> bool {
        self.other == Some(other)
    }

    /// The parameter number in an entry that is taken for a blank. Counted from one, 0 is far too large.
    fn number(&self, words: &[u32]) -> Option<usize> {
        let taken = match words {
            [7, _, 2, _] => true,
            [8 | 9, _, 2, _] => !self.is(EqualAlone),
            [7..=9, _, 1, _] => self.is(ConstantsToo),
            [7..=9, _, 0, _] => self.is(VariablesToo),
            [5 | 6, _, 2, _] => self.is(QuantifiersToo),
            [2..=4, _, 2, _] => self.is(ConnectivesToo),
            _ => false,
        };
        let number = words[3] as usize;
        match self.other {
            _ if !taken => None,
            Some(CountedFromOne) => Some(number.wrapping_sub(1)),
            Some(NumberModulo16) => Some(number % MOST_PARAMETERS),
            _ => Some(number),
        }
    }

    /// Those of all entries that are taken for blanks, each with its place.
    fn numbers(&self) -> Vec<(usize, usize)> {
        let entries = self.template.chunks_exact(ENTRY_WORDS).enumerate();
        entries.filter_map(|(place, words)| Some((place, self.number(words)?))).collect()
    }

    fn refusal(&self, room: usize) -> Option<Refusal> {
        let short = (room < self.template.len()).then_some(Refusal { number: 17, place: 0 });
        let mut checks = [self.of_rule(), self.missing(), self.superfluous(), short];
        match self.other {
            Some(UnusedFirst) => checks.swap(1, 2),
            Some(MissingFirst) => checks.swap(0, 1),
            Some(ShortFirst) => checks.rotate_right(1),
            _ => {}
        }
        checks.into_iter().flatten().next()
    }

    /// 1 to 7. What is wrongly refused or let pass is put into words of an entry for which the checks do the same.
    fn of_rule(&self) -> Option<Refusal> {
        let mut words = self.template.to_vec();
        for entry in words.chunks_exact_mut(ENTRY_WORDS) {
            let blank = is_blank(entry);
            match self.other {
                Some(NumbersTo15) if blank && entry[3] > 15 => entry[2] = 3,
                Some(NumbersAreVariables) if blank => entry[2] = 0,
                Some(LeftSideFree) if blank => entry[1] = 0,
                Some(ThreePasses) if matches!(entry, [7..=9, _, 3, _]) => entry[2] = 2,
                _ => {}
            }
        }
        accepted_template(&words).err()
    }

    fn missing(&self) -> Option<Refusal> {
        if self.is(CopiedWithoutParameters) && self.parameters.is_empty() {
            return None;
        }
        let numbers = self.numbers();
        let mut missing = numbers.iter().filter(|(_, number)| *number >= self.parameters.len());
        let first = if self.is(LastPlace) { missing.next_back() } else { missing.next() };
        first.map(|&(place, _)| Refusal { number: 21, place })
    }

    fn superfluous(&self) -> Option<Refusal> {
        let (count, numbers) = (self.parameters.len(), self.numbers());
        let most = match self.other {
            Some(SeventeenAllowed) => MOST_PARAMETERS + 1,
            Some(SixteenRefused) => MOST_PARAMETERS - 1,
            _ => MOST_PARAMETERS,
        };
        let is_used = |number: usize| match self.other {
            Some(UsedUpToLargest) => numbers.iter().any(|&(_, other)| other >= number),
            Some(UsedByCount) => numbers.len() >= count,
            Some(UsedByAnyEntry) => {
                self.template.chunks(ENTRY_WORDS).any(|words| words.get(3) == Some(&(number as u32)))
            }
            Some(UnusedAllowed) => true,
            _ => numbers.iter().any(|&(_, other)| other == number),
        };
        let unused = (0..count).find(|&number| !is_used(number));
        let also = match self.other {
            Some(NoneBelowZero) => self.parameters.iter().any(|&word| word >= LEAST_VALUE),
            Some(SharedRefused) => numbers.len() > count,
            Some(SixteenBlanks) => numbers.len() > MOST_PARAMETERS,
            _ => false,
        };
        let place = if self.is(PlaceOfUnused) { unused.unwrap_or(0) } else { 0 };
        (count > most || unused.is_some() || also).then_some(Refusal { number: 22, place })
    }

    fn write(&self, rule: &mut [u32]) {
        if !self.is(BlanksAlone) {
            rule.copy_from_slice(self.template);
        }
        for (order, (place, number)) in self.numbers().into_iter().enumerate() {
            let number = if self.is(InOrderOfEntries) { order % self.parameters.len() } else { number };
            let words = &mut rule[place * ENTRY_WORDS..][..ENTRY_WORDS];
            let stays = self.is(FirstBlankAlone) && order > 0;
            if let (false, Some(&parameter)) = (stays, self.parameters.get(number)) {
                words[2] = if self.is(BStays) { words[2] } else { 1 };
                words[3] = if self.is(NumberStays) { words[3] } else { parameter };
            }
        }
    }
}

/// Whether a check of rules that lets blanks pass would answer otherwise.
pub fn blanks_would_pass(template: &[u32]) -> bool {
    accepted_rule(template).err() != accepted_template(template).err()
}

#[cfg(test)]
mod tests {
    use super::*;
    use crate::checker;
    use crate::generate::{damaged_filling, filling, filling_of_many, one_length_around};
    use crate::random::Random;

    /// So each differs from the contract in its own thing alone.
    #[test]
    fn without_another_filler_the_rules_are_the_checkers() {
        let mut accepted = 0;
        for seed in 0..20_000 {
            let random = &mut Random::new(seed);
            let mut filling = if random.chance(80) { filling(random) } else { filling_of_many(random) };
            if random.chance(60) {
                filling = damaged_filling(random, &filling);
            }
            let length = one_length_around(random, filling.template.len());
            let (mut found, mut expected) = (vec![7; length], vec![7; length]);
            let answer = checker::fill(&filling.template, &filling.parameters, &mut expected);
            assert_eq!(fill_of(None, &filling, &mut found), answer, "seed {seed}: {filling:?}");
            assert_eq!(found, expected, "seed {seed}: {filling:?}");
            accepted += (answer.number() == 0) as u32;
        }
        assert!((3_000..=12_000).contains(&accepted), "{accepted} are accepted");
    }

    /// An and whose right child is entry 2, a constant, a quantifier under variable 1, and two blanks.
    #[test]
    fn one_template() {
        let template = [
            [5, 1, 0, 1],
            [2, 3, 2, 0],
            [7, 0, 1, 0],
            [6, 4, 1, 3],
            [6, 5, 2, 1],
            [3, 6, 7, 0],
            [8, 2, 2, 1],
            [7, 2, 2, 0],
        ];
        let filling = Filling { template: template.concat(), parameters: vec![120, 9] };
        let filled = |other: Option<OtherFiller>| {
            let mut rule = vec![7; 33];
            match fill_of(other, &filling, &mut rule) {
                Answer::Done(_) => Ok([1, 2, 4, 6, 7].map(|entry| [2, 3].map(|word| rule[4 * entry + word]))),
                Answer::Refused(refusal) => Err((refusal.number, refusal.place)),
                malformed => panic!("{malformed:?}"),
            }
        };
        let (right, constant, under) = ([2, 0], [1, 0], [2, 1]);
        for (other, rule) in [
            (None, Ok([right, constant, under, [1, 9], [1, 120]])),
            (Some(QuantifiersToo), Ok([right, constant, [1, 9], [1, 9], [1, 120]])),
            (Some(ConnectivesToo), Ok([[1, 120], constant, under, [1, 9], [1, 120]])),
            (Some(ConstantsToo), Ok([right, [1, 120], under, [1, 9], [1, 120]])),
            (Some(EqualAlone), Err((22, 0))),
            (Some(NumberStays), Ok([right, constant, under, [1, 1], [1, 0]])),
            (Some(BStays), Ok([right, constant, under, [2, 9], [2, 120]])),
            (Some(FirstBlankAlone), Ok([right, constant, under, [1, 9], [2, 0]])),
            (Some(CountedFromOne), Err((21, 7))),
            (Some(InOrderOfEntries), Ok([right, constant, under, [1, 120], [1, 9]])),
        ] {
            assert_eq!(filled(other), rule, "{other:?}");
        }
    }
}
