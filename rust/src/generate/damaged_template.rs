//! Templates with faults under 1 to 7, and with parameters that do not fill them: 21 and 22.

use super::damaged_rule::{damage_rule, RULE_FAULTS};
use super::faults::change_a_word;
use super::templates::{comparisons, Filling};
use super::vocabulary::word_of_any_class;
use crate::checker::{ENTRY_WORDS, MOST_NESTED, MOST_PARAMETERS};
use crate::random::Random;

#[derive(Clone, Copy, Debug, PartialEq, Eq)]
pub enum TemplateFault {
    /// Of any number from 1 to 7, as in rules.
    Rule,
    /// b of a comparison above 2.
    WrongB,
    /// The left variable of a blank.
    UnboundBlank,
    /// A number that has no parameter, in one blank.
    LargeNumber,
    /// The same in several.
    LargeNumbers,
    FewerParameters,
    NoParameters,
    MoreParameters,
    /// One or more that no blank has, though a blank has a larger number.
    Gap,
    /// All of them used.
    TooManyUsed,
    FarTooMany,
    /// Constants in the place of all blanks.
    NoBlanks,
}

use TemplateFault::*;

/// With the number that is mostly found where the fault is the only one; 0 if it may be any.
pub const TEMPLATE_FAULTS: [(TemplateFault, u32); 12] = [
    (Rule, 0),
    (WrongB, 3),
    (UnboundBlank, 7),
    (LargeNumber, 21),
    (LargeNumbers, 21),
    (FewerParameters, 21),
    (NoParameters, 21),
    (MoreParameters, 22),
    (Gap, 22),
    (TooManyUsed, 22),
    (FarTooMany, 22),
    (NoBlanks, 22),
];

/// A filling with one of these faults, or with two or three; at times one word more is changed.
pub fn damaged_filling(random: &mut Random, filling: &Filling) -> Filling {
    let mut damaged = filling.clone();
    for _ in 0..random.pick(&[1, 1, 2, 2, 3]) {
        let fault = if random.chance(35) { Rule } else { random.pick(&TEMPLATE_FAULTS).0 };
        damage_filling(random, &mut damaged, fault);
    }
    if random.chance(10) {
        change_a_word(random, &mut damaged.template);
    }
    damaged
}

/// Puts a fault into a filling, which may already have others. Where there is no place for it, nothing changes.
pub fn damage_filling(random: &mut Random, filling: &mut Filling, fault: TemplateFault) {
    let count = filling.parameters.len();
    match fault {
        Rule => {
            let number = random.pick(&RULE_FAULTS);
            damage_rule(random, &mut filling.template, number);
            // That is another rule, as yet without blanks.
            if number == 6 {
                filling.put_blanks(random, comparisons(&filling.template), count.max(1));
            }
        }
        WrongB => on_some_comparison(random, filling, |random, words| {
            words[2] = random.pick(&[3, 3, 4, 16, 258, 65_538, (1 << 31) + 2, u32::MAX]);
        }),
        UnboundBlank => on_some_blank(random, filling, |random, words| {
            words[1] = random.pick(&[1, 2, 5, MOST_NESTED as u32, 65_536, u32::MAX]);
        }),
        LargeNumber => large_number(random, filling),
        LargeNumbers => (0..random.between(2, 4)).for_each(|_| large_number(random, filling)),
        FewerParameters => filling.parameters.truncate(count.saturating_sub(random.pick(&[1, 1, 2]))),
        NoParameters => filling.parameters.clear(),
        MoreParameters => add_parameters(random, filling, &[1, 1, 2, 3]),
        Gap => gap(random, filling),
        TooManyUsed => too_many_used(random, filling),
        // As many modulo a power of two, so that a length that is cut off would fit.
        FarTooMany => add_parameters(random, filling, &[16, 32, 256, 256, 1_024, 65_536]),
        NoBlanks => {
            for place in filling.blanks() {
                filling.template[place * ENTRY_WORDS + 2] = 1;
            }
        }
    }
}

fn on_some_of(
    random: &mut Random,
    filling: &mut Filling,
    places: Vec<usize>,
    change: impl Fn(&mut Random, &mut [u32]),
) {
    if !places.is_empty() {
        let place = random.pick(&places) * ENTRY_WORDS;
        change(random, &mut filling.template[place..place + ENTRY_WORDS]);
    }
}

fn on_some_blank(random: &mut Random, filling: &mut Filling, change: impl Fn(&mut Random, &mut [u32])) {
    on_some_of(random, filling, filling.blanks(), change);
}

fn on_some_comparison(random: &mut Random, filling: &mut Filling, change: impl Fn(&mut Random, &mut [u32])) {
    on_some_of(random, filling, comparisons(&filling.template), change);
}

/// Just too large; or one that would have a parameter if it were cut off, taken modulo the limit, or below zero.
fn large_number(random: &mut Random, filling: &mut Filling) {
    let count = filling.parameters.len() as u32;
    let known = random.below(count.max(1) as usize) as u32;
    let number = match random.below(12) {
        0..4 => count + random.pick(&[0, 0, 1, 2]),
        4..6 => random.pick(&[15, 16, 17, 20]),
        6 => known + MOST_PARAMETERS as u32,
        7 => known + 256,
        8 => known + 65_536,
        9 => known + (1 << 31),
        10 => u32::MAX - known,
        _ => word_of_any_class(random),
    };
    on_some_blank(random, filling, |_, words| words[3] = number);
}

/// Any words behind those that there are, one of these numbers of them.
fn add_parameters(random: &mut Random, filling: &mut Filling, counts: &[usize]) {
    let count = random.pick(counts);
    filling.parameters.extend(random.words(count));
}

/// The blanks of some number that is not the largest get others; or all numbers rise.
fn gap(random: &mut Random, filling: &mut Filling) {
    let count = filling.parameters.len();
    if count == 0 {
        return;
    }
    let rises = count == 1 || random.chance(25);
    let skipped = random.below(count - (count > 1) as usize);
    for place in filling.blanks() {
        let number = &mut filling.template[place * ENTRY_WORDS + 3];
        if rises {
            *number = number.saturating_add(1);
        } else if *number == skipped as u32 {
            *number = count as u32 - 1;
        }
    }
    if rises {
        filling.parameters.insert(0, random.word());
    }
}

/// One more than may be, or a few. All blanks get new numbers, so that each parameter is used; if there are too few blanks,
/// nothing changes.
fn too_many_used(random: &mut Random, filling: &mut Filling) {
    let (blanks, count) = (filling.blanks(), MOST_PARAMETERS + random.pick(&[1, 1, 1, 2, 4]));
    if blanks.len() >= count {
        filling.parameters = random.words(count);
        filling.put_blanks(random, blanks, count);
    }
}
