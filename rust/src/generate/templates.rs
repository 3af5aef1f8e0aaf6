//! Templates with parameters that fill them, and with any.

use super::damaged_rule::any_rule;
use super::rules::{rule_of, RuleShape, Sides};
use super::together::{
    nested_rule_and_table, rule_and_any_names, rule_and_pool, rule_and_roots, rule_and_siblings,
    rule_and_signs, Together,
};
use super::vocabulary::{word_of_any_class, Vocabulary};
use crate::answer::Answer;
use crate::checker::{
    check_rule, is_blank, rows_of, template_verdict, ENTRY_WORDS, MOST_ENTRIES, MOST_PARAMETERS,
};
use crate::random::Random;

/// How often a template is drawn that other parameters may leave as it is.
const ATTEMPTS: usize = 200;

/// A template, and the parameters that it is filled with.
#[derive(Clone, Debug)]
pub struct Filling {
    pub template: Vec<u32>,
    pub parameters: Vec<u32>,
}

impl Filling {
    /// An accepted rule with these of its comparisons as blanks, and so many parameters, mostly of these values or next to
    /// them. There are as many blanks or more, and none if there are no parameters.
    fn of(random: &mut Random, rule: &[u32], blanks: Vec<usize>, count: usize, values: &[u32]) -> Filling {
        let parameters = (0..count).map(|_| parameter(random, values)).collect();
        let mut filling = Filling { template: rule.to_vec(), parameters };
        filling.put_blanks(random, blanks, count);
        filling
    }

    /// The entries that are blanks.
    pub fn blanks(&self) -> Vec<usize> {
        places(&self.template, is_blank)
    }

    /// The parameter number of each blank.
    pub fn numbers(&self) -> Vec<usize> {
        self.blanks().into_iter().map(|place| self.template[place * ENTRY_WORDS + 3] as usize).collect()
    }

    /// The verdict of the template on an accepted pool, with these parameters.
    pub fn verdict(&self, parameters: &[u32], pool: &[u32]) -> Answer {
        template_verdict(&self.template, parameters, pool)
    }

    /// Makes a blank of each of these comparisons. Each of so many numbers is used, if there are as many blanks; which
    /// blanks share one is left to chance.
    pub fn put_blanks(&mut self, random: &mut Random, mut blanks: Vec<usize>, count: usize) {
        for place in 1..blanks.len() {
            blanks.swap(place, random.below(place + 1));
        }
        for (drawn, place) in blanks.into_iter().enumerate() {
            let number = if drawn < count { drawn } else { random.below(count) };
            let words = &mut self.template[place * ENTRY_WORDS..][..ENTRY_WORDS];
            (words[2], words[3]) = (2, number as u32);
        }
    }
}

/// The entries whose words are of this kind.
fn places(rule: &[u32], is_such: fn(&[u32]) -> bool) -> Vec<usize> {
    let entries = rule.chunks_exact(ENTRY_WORDS).enumerate();
    entries.filter(|(_, words)| is_such(words)).map(|(place, _)| place).collect()
}

/// The comparisons of a rule or template.
pub fn comparisons(rule: &[u32]) -> Vec<usize> {
    places(rule, |words| matches!(words[0], 7..=9))
}

/// An accepted rule with so many percent of its comparisons as blanks, and parameters that fill it.
fn with_blanks(random: &mut Random, rule: &[u32], percent: usize, values: &[u32]) -> Filling {
    let blanks: Vec<usize> = comparisons(rule).into_iter().filter(|_| random.chance(percent)).collect();
    let most = blanks.len().min(MOST_PARAMETERS);
    let count = match random.below(4) {
        0 => most.min(1),
        1 => most,
        _ => random.between(most.min(1), most),
    };
    Filling::of(random, rule, blanks, count, values)
}

/// Mostly one of these values or next to it, at times any word.
pub fn parameter(random: &mut Random, values: &[u32]) -> u32 {
    match random.below(20) {
        0..12 if !values.is_empty() => random.pick(values),
        12..15 if !values.is_empty() => random.pick(values).wrapping_add(random.pick(&[1, u32::MAX])),
        15..18 => word_of_any_class(random),
        _ => random.word(),
    }
}

/// The values of the rows, and the constants.
pub fn values_of(rule: &[u32], pool: &[u32]) -> Vec<u32> {
    let constants = rule.chunks_exact(ENTRY_WORDS).filter(|words| matches!(words, [7..=9, _, 1, _]));
    rows_of(pool).iter().map(|row| row.value).chain(constants.map(|words| words[3])).collect()
}

/// A template that its parameters fill, and an accepted pool. Of a good third, other parameters would turn the verdict.
pub fn filling_and_pool(random: &mut Random, limit: Together) -> (Filling, Vec<u32>) {
    let any = random.chance(65);
    for attempt in 0.. {
        let (rule, pool) = rule_and_any_pool(random, limit);
        let (percent, values) = (random.pick(&[10, 30, 60, 100, 100]), values_of(&rule, &pool));
        let filling = with_blanks(random, &rule, percent, &values);
        // None turns it if the checker itself does not look at parameters: then a comparison has to tell.
        if any || attempt == ATTEMPTS || (0..3).any(|_| turned_by_others(random, &filling, &pool, &values)) {
            return (filling, pool);
        }
    }
    unreachable!("one of the attempts is the last")
}

/// Whether the verdict would be another with parameters of these values.
pub fn turned_by_others(random: &mut Random, filling: &Filling, pool: &[u32], values: &[u32]) -> bool {
    let others: Vec<u32> = filling.parameters.iter().map(|_| parameter(random, values)).collect();
    filling.verdict(&others, pool) != filling.verdict(&filling.parameters, pool)
}

fn rule_and_any_pool(random: &mut Random, limit: Together) -> (Vec<u32>, Vec<u32>) {
    match random.below(20) {
        0..12 => rule_and_pool(random, limit),
        12 => rule_and_any_names(random, limit),
        13 => rule_and_signs(random, limit),
        14..16 => rule_and_siblings(random, limit),
        16..18 => rule_and_roots(random, limit.cost),
        _ => loop {
            let (rule, table) = nested_rule_and_table(random, limit.cost);
            if check_rule(&rule.words).number() == 0 {
                return (rule.words, table);
            }
        },
    }
}

/// A template that its parameters fill, of any shape.
pub fn filling(random: &mut Random) -> Filling {
    let vocabulary = Vocabulary::new(random);
    let shape = RuleShape::new(random);
    let rule = rule_of(random, &vocabulary, shape);
    let percent = random.pick(&[0, 30, 60, 100, 100, 100]);
    with_blanks(random, &rule, percent, &vocabulary.values)
}

/// The same with many blanks, mostly of as many numbers as may be.
pub fn filling_of_many(random: &mut Random) -> Filling {
    let vocabulary = Vocabulary::new(random);
    let entries = random.pick(&[40, 48, 60, 90, MOST_ENTRIES - 1, MOST_ENTRIES]);
    let (nested, sides) =
        (random.between(1, 4), random.pick(&[Sides::LeastLeft, Sides::LeastRight, Sides::Any]));
    let shape = RuleShape { entries, nested, weights: [0, 12, 1], sides, ..RuleShape::new(random) };
    let rule = rule_of(random, &vocabulary, shape);
    let blanks = comparisons(&rule);
    let most = blanks.len().min(MOST_PARAMETERS);
    let count = if random.chance(70) { most } else { random.between(1, most) };
    Filling::of(random, &rule, blanks, count, &vocabulary.values)
}

/// A small accepted rule in which comparisons become blanks of small numbers, and some parameters: whether each number
/// has one, and whether each is used, is left to chance.
pub fn loose_filling(random: &mut Random) -> Filling {
    let vocabulary = Vocabulary::new(random);
    let entries = random.between(2, 12);
    let shape = RuleShape { entries, ..RuleShape::new(random) };
    let mut template = rule_of(random, &vocabulary, shape);
    let count = random.pick(&[0, 1, 1, 2, 2, 3, 4]);
    let numbers = count + random.pick(&[0, 0, 0, 1]);
    for place in comparisons(&template) {
        if numbers > 0 && random.chance(85) {
            let words = &mut template[place * ENTRY_WORDS..][..ENTRY_WORDS];
            (words[2], words[3]) = (2, random.below(numbers) as u32);
        }
    }
    Filling { template, parameters: (0..count).map(|_| parameter(random, &vocabulary.values)).collect() }
}

/// Small words at any place, b mostly 2, or nothing but blanks; and any parameters. Any check may be the first to
/// refuse.
pub fn any_filling(random: &mut Random) -> Filling {
    let mut template = any_rule(random);
    let blanks_alone = random.chance(15);
    for words in template.chunks_exact_mut(ENTRY_WORDS) {
        if blanks_alone {
            words[0] = random.between(7, 9) as u32;
        }
        if blanks_alone || random.chance(60) {
            words[2] = 2;
        }
    }
    let count = random.pick(&[0, 1, 2, 3, 16, 17, 18]);
    Filling { template, parameters: random.words(count) }
}
