//! What a filling is, and all that is wrong with it, told apart from the checker's fill; noted for the tallies.

use super::refused_step::before;
use super::Case;
use crate::answer::{Answer, Refusal};
use crate::checker::{accepted_rule, is_blank, ENTRY_WORDS, LEAST_VALUE, MOST_ENTRIES, MOST_PARAMETERS};
use crate::generate::{comparisons, Filling};

// Of accepted ones.
pub const NO_BLANKS: &str = "a template without blanks, and no parameters";
pub const MOST: &str = "as many parameters as may be";
pub const LONGEST: &str = "as many entries as may be";
pub const ALL_BLANKS: &str = "several comparisons, all of them blanks";
pub const SHARED: &str = "blanks of one number";
pub const BESIDE_OTHERS: &str = "a blank, a constant and a variable";
pub const QUANTIFIER: &str = "a quantifier with b = 2 beside a blank";
pub const CONNECTIVE: &str = "a connective with b = 2 beside a blank";
pub const BELOW_ZERO: &str = "a parameter below zero";
pub const JUST_FITS: &str = "a rule that just fits";
pub const ROOM_BEHIND: &str = "room behind the rule";
pub const MUCH_ROOM: &str = "room for hundreds of words behind the rule";

// Of refused ones.
pub const BLANKS_ALONE: &str = "nothing but blanks";
pub const NO_ROOM: &str = "17 without a word of room";
pub const A_WORD_SHORT: &str = "17 by one word";
pub const FAR_NUMBER: &str = "21 by a number above 65,535";
pub const NUMBER_AT_COUNT: &str = "21 by a number that is one too large";
pub const NUMBER_WITHIN_LIMIT: &str = "21 by a number below 16";
pub const NUMBER_BEHIND_17: &str = "21 with over 16 parameters";
pub const SEVERAL_MISSING: &str = "21 with several such entries";
pub const TOO_MANY_USED: &str = "22 by over 16 parameters, all of them used";
pub const JUST_TOO_MANY_USED: &str = "22 by 17 parameters, all of them used";
pub const GAP: &str = "22 by a gap below the largest number";
pub const LAST_UNUSED: &str = "22 by parameters behind the largest number alone";
pub const FAR_TOO_MANY: &str = "22 by over 255 parameters";
pub const WRONG_B: &str = "3 at a comparison with b above 2";
pub const UNBOUND: &str = "7 at a blank";

/// The only check that fails.
pub fn alone(number: u32) -> String {
    format!("{number} alone")
}

/// So many parameters, in any request.
pub fn parameters(count: usize) -> String {
    format!("{count} parameters")
}

/// Notes a request; fails if the answer is not told by the first check that it fails.
pub fn note_filling(case: &mut Case, filling: &Filling, room: usize, answer: Answer) {
    let (faults, template) = (faults(filling, room), &filling.template);
    let told = faults.first().map_or(Answer::Done(template.len()), |&first| Answer::Refused(first));
    assert_eq!(told, answer, "{filling:?} {room}");
    let blanks = filling.blanks().len();
    let count = filling.parameters.len();
    case.note_met([
        (count <= MOST_PARAMETERS + 2, &parameters(count)),
        (faults.len() == 1, &alone(answer.number())),
        (blanks > 0 && blanks * ENTRY_WORDS == template.len(), BLANKS_ALONE),
    ]);
    faults.iter().skip(1).for_each(|later| case.note(before(answer.number(), later.number)));
    match faults.first() {
        None => note_filled(case, filling, room),
        Some(&first) => note_refused(case, filling, room, first),
    }
}

/// Every check that a filling fails, in the order in which they are made; of 1 to 7 the first. These are asked of the
/// rule in which each blank is a comparison with a constant, so that no template is looked at.
fn faults(filling: &Filling, room: usize) -> Vec<Refusal> {
    let (mut rule, blanks, count) = (filling.template.clone(), filling.blanks(), filling.parameters.len());
    blanks.iter().for_each(|place| rule[place * ENTRY_WORDS + 2] = 1);
    let numbers = filling.numbers();
    let missing = numbers.iter().position(|&number| number >= count).map(|blank| blanks[blank]);
    let unused = (0..count).any(|number| !numbers.contains(&number));
    let fault = |number, place: Option<usize>| place.map(|place| Refusal { number, place });
    let tests = [
        accepted_rule(&rule).err(),
        fault(21, missing),
        fault(22, (count > MOST_PARAMETERS || unused).then_some(0)),
        fault(17, (room < filling.template.len()).then_some(0)),
    ];
    tests.into_iter().flatten().collect()
}

fn note_refused(case: &mut Case, filling: &Filling, room: usize, Refusal { number, place }: Refusal) {
    match number {
        3 | 7 => {
            let words = &filling.template[place * ENTRY_WORDS..][..ENTRY_WORDS];
            let wrong_b = number == 3 && matches!(words, [7..=9, ..]);
            case.note_met([(wrong_b, WRONG_B), (number == 7 && is_blank(words), UNBOUND)]);
        }
        17 => {
            let short = filling.template.len() - room;
            case.note_met([(room == 0, NO_ROOM), (short == 1, A_WORD_SHORT)]);
        }
        21 => note_missing(case, filling, place),
        22 => note_superfluous(case, filling),
        _ => {}
    }
}

fn note_filled(case: &mut Case, filling: &Filling, room: usize) {
    let Filling { template, parameters } = filling;
    let (blanks, compared) = (filling.blanks().len(), comparisons(template).len());
    let has = |is_such: fn(&[u32]) -> bool| blanks > 0 && template.chunks(ENTRY_WORDS).any(is_such);
    let [variable, constant] =
        [0, 1].map(|b| template.chunks(ENTRY_WORDS).any(|words| matches!(words[0], 7..=9) && words[2] == b));
    case.note_met([
        (blanks == 0, NO_BLANKS),
        (parameters.len() == MOST_PARAMETERS, MOST),
        (template.len() == MOST_ENTRIES * ENTRY_WORDS, LONGEST),
        (blanks > 1 && blanks == compared, ALL_BLANKS),
        (blanks > parameters.len(), SHARED),
        (blanks > 0 && variable && constant, BESIDE_OTHERS),
        (has(|words| matches!(words, [5 | 6, _, 2, _])), QUANTIFIER),
        (has(|words| matches!(words, [2..=4, _, 2, _])), CONNECTIVE),
        (parameters.iter().any(|&word| word >= LEAST_VALUE), BELOW_ZERO),
        (room == template.len(), JUST_FITS),
        (room > template.len(), ROOM_BEHIND),
        (room >= template.len() + 500, MUCH_ROOM),
    ]);
}

fn note_missing(case: &mut Case, filling: &Filling, place: usize) {
    let (count, number) = (filling.parameters.len(), filling.template[place * ENTRY_WORDS + 3] as usize);
    let missing = filling.numbers().into_iter().filter(|&number| number >= count).count();
    case.note_met([
        (number > 65_535, FAR_NUMBER),
        (number == count, NUMBER_AT_COUNT),
        (number < MOST_PARAMETERS, NUMBER_WITHIN_LIMIT),
        (count > MOST_PARAMETERS, NUMBER_BEHIND_17),
        (missing > 1, SEVERAL_MISSING),
    ]);
}

fn note_superfluous(case: &mut Case, filling: &Filling) {
    let (count, numbers) = (filling.parameters.len(), filling.numbers());
    let unused = (0..count).find(|number| !numbers.contains(number));
    let behind = numbers.iter().max().map_or(0, |&largest| largest + 1);
    case.note_met([
        (unused.is_none(), TOO_MANY_USED),
        (unused.is_none() && count == MOST_PARAMETERS + 1, JUST_TOO_MANY_USED),
        (unused.is_some_and(|number| number < behind), GAP),
        (unused == Some(behind) && count <= MOST_PARAMETERS, LAST_UNUSED),
        (count > 255, FAR_TOO_MANY),
    ]);
}
