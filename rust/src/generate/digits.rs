//! Numbers chosen for their digits, and accepted rules and tables that have them.

use std::collections::{BTreeSet, HashMap, HashSet};

use crate::checker::{
    devices_of, rows_of, words_of, Row, ANY_NAME, ENTRY_WORDS, LEAST_VALUE, MOST_NAME, MOST_VALUE,
};
use crate::random::Random;

/// How many digits the number has.
pub fn width_of(number: u32) -> usize {
    number.to_string().len()
}

/// The numbers up to `most` that are one below, at or one above a digit followed by zeros; and `most`.
pub fn ends_of_digits(most: u32) -> BTreeSet<u32> {
    let zeros = 0..width_of(most) as u32;
    let round = zeros.flat_map(|zeros| (1..=9).map(move |digit| digit * 10_u64.pow(zeros)));
    let ends = round.flat_map(|number| [number - 1, number, number + 1]);
    let words = ends.filter_map(|number| u32::try_from(number).ok()).filter(|&number| number <= most);
    words.chain([most]).collect()
}

/// The words of such values up to the largest and down to the least.
pub fn ends_of_values() -> BTreeSet<u32> {
    let below_zero = ends_of_digits(LEAST_VALUE).into_iter().map(u32::wrapping_neg);
    ends_of_digits(MOST_VALUE).into_iter().chain(below_zero).collect()
}

/// A number up to `most`, which is at least 2. Each width comes about as often as the others.
pub fn number_up_to(random: &mut Random, most: u32) -> u32 {
    if random.chance(4) {
        return most - random.below(3) as u32;
    }
    let width = random.between(1, width_of(most));
    loop {
        match u32::try_from(number_of_width(random, width)) {
            Ok(number) if number <= most => return number,
            _ => {}
        }
    }
}

/// A number of so many digits, or the one below the least of them, or one of fewer digits where the first are
/// zeros.
fn number_of_width(random: &mut Random, width: usize) -> u64 {
    const ALL: [u64; 10] = [0, 1, 2, 3, 4, 5, 6, 7, 8, 9];
    let least = 10_u64.pow(width as u32 - 1);
    let any = random.between(1, 9) as u64;
    let digit = random.pick(&[1, 9, any]);
    match random.below(7) {
        0 => least - 1 + random.below(3) as u64,
        1 => of_digits(random, width, &[digit]),
        2 => digit * least,
        3 => {
            let zeros = random.below(width);
            of_digits(random, width - zeros, &ALL) * 10_u64.pow(zeros as u32)
        }
        4 => of_digits(random, width, &[0, 1, 8, 9]),
        _ => of_digits(random, width, &ALL),
    }
}

fn of_digits(random: &mut Random, width: usize, choices: &[u64]) -> u64 {
    (0..width).fold(0, |number, _| 10 * number + random.pick(choices))
}

/// A device, at or name.
fn name(random: &mut Random) -> u32 {
    number_up_to(random, MOST_NAME).max(1)
}

/// Any word. Each width comes often, as a value of either sign too.
pub fn any_number(random: &mut Random) -> u32 {
    if random.chance(50) {
        number_up_to(random, u32::MAX)
    } else {
        value(random)
    }
}

/// The word of a value of either sign.
fn value(random: &mut Random) -> u32 {
    match random.chance(50) {
        true => number_up_to(random, MOST_VALUE),
        false => number_up_to(random, LEAST_VALUE).wrapping_neg(),
    }
}

/// An accepted rule with other names and constants; most comparisons then have a constant. Quantifiers over any
/// name stay so.
pub fn renumbered_rule(random: &mut Random, rule: &[u32]) -> Vec<u32> {
    let mut rule = rule.to_vec();
    for words in rule.chunks_exact_mut(ENTRY_WORDS) {
        match words[0] {
            5 | 6 if words[3] != ANY_NAME => words[3] = name(random),
            7..=9 if words[2] == 1 || random.chance(60) => {
                (words[2], words[3]) = (1, value(random));
            }
            _ => {}
        }
    }
    rule
}

/// An accepted table with other devices, ats, names and values; each row keeps its parent.
pub fn renumbered_table(random: &mut Random, table: &[u32]) -> Vec<u32> {
    let devices = devices_of(table);
    let numbers = rising(random, devices.len());
    let (mut rows, mut taken) = (vec![], HashSet::new());
    for (device, own) in numbers.into_iter().zip(devices) {
        let own = rows_of(own);
        let mut at_of: HashMap<u32, u32> =
            own.iter().map(|row| row.at).zip(rising(random, own.len())).collect();
        at_of.insert(0, 0);
        for row in own {
            let (at, up) = (at_of[&row.at], at_of[&row.up]);
            // Check 12: all roots are siblings.
            let siblings = if row.is_root() { (0, 0) } else { (device, up) };
            let (name, value) = untaken(random, siblings, &mut taken);
            rows.push(Row { device, at, up, deep: row.deep, name, value });
        }
    }
    words_of(&rows)
}

fn rising(random: &mut Random, count: usize) -> BTreeSet<u32> {
    let mut numbers = BTreeSet::new();
    while numbers.len() < count {
        numbers.insert(name(random));
    }
    numbers
}

/// A name and a value that none of the siblings has.
fn untaken(
    random: &mut Random,
    siblings: (u32, u32),
    taken: &mut HashSet<((u32, u32), u32, u32)>,
) -> (u32, u32) {
    loop {
        let (name, value) = (name(random), value(random));
        if taken.insert((siblings, name, value)) {
            return (name, value);
        }
    }
}
