//! What a run of words is, and all that is wrong with a request, told apart from the checker; noted for the tallies.

use super::fillings::alone;
use super::refused_step::before;
use super::Case;
use crate::answer::Answer;
use crate::checker::{LEAST_VALUE, MOST_ROWS, ROW_WORDS};

// Of accepted ones.
pub const NO_ROWS: &str = "no rows";
pub const NO_WORDS: &str = "no rows and no room";
pub const ONE_ROW: &str = "one row";
pub const OVER_LIMIT: &str = "more than 1,024 rows";
pub const FAR_OVER_LIMIT: &str = "more than 65,536 words";
pub const JUST_FITS: &str = "an answer that just fits";
pub const ROOM_BEHIND: &str = "room behind the answer";
pub const ODD_ROOM: &str = "room that is not whole rows";
pub const MUCH_ROOM: &str = "room for hundreds of words behind the answer";
pub const EQUAL: &str = "a column of equal words";
pub const RISING: &str = "a column that rises from row to row";
pub const FALLING: &str = "a column that falls from row to row";

// Of refused ones.
pub const NO_ROOM: &str = "17 without a word of room";
pub const A_WORD_SHORT: &str = "17 by one word";
pub const LESS_THAN_A_ROW: &str = "28 by fewer words than a row has";
pub const OVER_LIMIT_WITH_REST: &str = "28 with more than 1,024 rows";
pub const ROOM_WITHOUT_REST: &str = "28 with room for the whole rows alone";

/// Differences that are noted where they stand in the archive.
pub const DIFFERENCES: [u32; 6] = [0, 1, LEAST_VALUE - 1, LEAST_VALUE, LEAST_VALUE + 1, u32::MAX];

pub fn difference(word: u32) -> String {
    format!("a difference of {word}")
}

/// So many words beside the whole rows.
pub fn rest(words: usize) -> String {
    format!("28 by {words} words")
}

/// Notes a request of so many words; fails if the answer is not told by the lengths. Gives whether it is accepted.
pub fn note_lengths(case: &mut Case, words: usize, room: usize, answer: Answer) -> bool {
    let (rows, left) = (words / ROW_WORDS, words % ROW_WORDS);
    let faults: Vec<u32> = [(28, left > 0), (17, room < words)]
        .into_iter()
        .filter(|fault| fault.1)
        .map(|fault| fault.0)
        .collect();
    let told = faults.first().map_or(Answer::Done(words), |&number| Answer::refused(number, 0));
    assert_eq!(told, answer, "{words} words, room for {room}");
    match faults[..] {
        [28, 17] => case.note(before(28, 17)),
        [number] => case.note(alone(number)),
        _ => {}
    }
    case.note_met([
        (left > 0, &rest(left)),
        (left > 0 && rows == 0, LESS_THAN_A_ROW),
        (left > 0 && rows > MOST_ROWS, OVER_LIMIT_WITH_REST),
        (left > 0 && rows > 0 && room == words - left, ROOM_WITHOUT_REST),
        (faults == [17] && room == 0, NO_ROOM),
        (faults == [17] && room + 1 == words, A_WORD_SHORT),
    ]);
    let accepted = faults.is_empty();
    case.note_met([
        (accepted && rows == 0, NO_ROWS),
        (accepted && room == 0, NO_WORDS),
        (accepted && rows == 1, ONE_ROW),
        (accepted && rows > MOST_ROWS, OVER_LIMIT),
        (accepted && words > 65_536, FAR_OVER_LIMIT),
        (accepted && room == words, JUST_FITS),
        (accepted && room > words, ROOM_BEHIND),
        (accepted && !room.is_multiple_of(ROW_WORDS), ODD_ROOM),
        (accepted && room >= words + 500, MUCH_ROOM),
    ]);
    accepted
}

/// Notes whole rows by how their columns run.
pub fn note_rows(case: &mut Case, table: &[u32]) {
    let below = || table.iter().zip(table.iter().skip(ROW_WORDS));
    let met = |sought: &u32| below().any(|(above, word)| word.wrapping_sub(*above) == *sought);
    DIFFERENCES.into_iter().filter(met).for_each(|sought| case.note(difference(sought)));
    let runs = |is_so: fn(&u32, &u32) -> bool| {
        let column = |column: usize| table.iter().skip(column).step_by(ROW_WORDS).copied();
        table.len() > 2 * ROW_WORDS && (0..ROW_WORDS).any(|place| column(place).is_sorted_by(is_so))
    };
    case.note_met([
        (runs(|above, word| above == word), EQUAL),
        (runs(|above, word| above < word), RISING),
        (runs(|above, word| above > word), FALLING),
    ]);
}
