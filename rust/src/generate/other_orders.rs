//! Orders that are not the archive's. Each differs from it in one thing, in both calls.

use super::all_variants::all_variants;
use crate::answer::{Answer, Refusal};
use crate::checker::{accepted_table, ENTRY_WORDS, MOST_ROWS, ROW_WORDS};

all_variants! {
    pub enum OtherOrder {
        // Where the words stand.
        /// Differences, but row after row as in a table.
        RowAfterRow,
        /// The columns from the last to the first.
        ValueFirst,
        /// Each column from the last row to the first.
        LastRowFirst,
        /// The words as they are.
        Copied,

        // From what a difference is taken.
        /// Columns of the words themselves.
        NoDifferences,
        /// The word above as it is in the archive.
        FromTheReplaced,
        /// The first word of a column from the last of the column before.
        NotReset,
        FromTheFirstRow,
        FromTheRowBelow,
        /// The word before in the same row.
        FromTheSameRow,
        /// No differences of devices, or of values.
        DevicesStand,
        ValuesStand,

        // What a difference is.
        AddForSubtract,
        /// The word above less the word.
        TurnedRound,
        SignLost,
        /// Differences end at 0, sums at the largest word.
        EndsAtZero,
        /// Both end at the largest and the least value.
        EndsAtValues,
        WrapsAt31Bits,
        WrapsAt16Bits,

        // What is answered and written.
        /// Each call does what the other should.
        Exchanged,
        RowsAsValue,
        RoomAsValue,
        /// The words past the answer become 0.
        ClearsWhatLiesPast,
        WritesThoughRefused,

        // What is refused.
        /// 17 before 28.
        ShortFirst,
        /// More than 1,024 rows are 8.
        RowLimit,
        /// A table that is refused elsewhere.
        AcceptedTablesAlone,
        /// No words are 28.
        NoRowsRefused,
        /// Rows of so many words.
        RowsOfTwo,
        RowsOfThree,
        RowsOfFour,
        RowsOfFive,
        /// Words that make no row are left out.
        RestLeftOut,
        /// The answer is 8 in the place of 28.
        EightForRest,
        /// 28 at the row that lacks words.
        PlaceOfRest,
        /// 17 at the first row for which there is no room.
        PlaceOfShort,
        /// 17 unless the output is longer than the answer.
        JustFitsRefused,
        /// 17 also if it is longer.
        LongerRefused,
        /// 28 also if the room is not whole rows.
        RoomInRows,
    }
}

use OtherOrder::*;

impl OtherOrder {
    /// As `checker::to_columns`.
    pub fn to_columns(self, table: &[u32], columns: &mut [u32]) -> Answer {
        reorder(Some(self), Call::ToColumns, table, columns)
    }

    /// As `checker::from_columns`.
    pub fn from_columns(self, columns: &[u32], table: &mut [u32]) -> Answer {
        reorder(Some(self), Call::FromColumns, columns, table)
    }
}

#[derive(Clone, Copy, PartialEq, Eq)]
enum Call {
    ToColumns,
    FromColumns,
}

/// Without another order, the archive's.
fn reorder(other: Option<OtherOrder>, call: Call, words: &[u32], output: &mut [u32]) -> Answer {
    let call = match (other, call) {
        (Some(Exchanged), Call::ToColumns) => Call::FromColumns,
        (Some(Exchanged), Call::FromColumns) => Call::ToColumns,
        _ => call,
    };
    let order = Order { other, call, rows: words.len() / ROW_WORDS };
    let mut answer = order.reordered(words);
    if let Some(refusal) = order.refusal(words, &answer, output.len()) {
        if order.is(WritesThoughRefused) {
            output.iter_mut().zip(answer).for_each(|(word, answered)| *word = answered);
        }
        return Answer::Refused(refusal);
    }
    if order.is(RestLeftOut) {
        answer.truncate(order.rows * ROW_WORDS);
    }
    let (written, past) = output.split_at_mut(answer.len());
    written.copy_from_slice(&answer);
    if order.is(ClearsWhatLiesPast) {
        past.fill(0);
    }
    Answer::Done(match order.other {
        Some(RowsAsValue) => order.rows,
        Some(RoomAsValue) => output.len(),
        _ => answer.len(),
    })
}

struct Order {
    other: Option<OtherOrder>,
    call: Call,
    rows: usize,
}

impl Order {
    fn is(&self, other: OtherOrder) -> bool {
        self.other == Some(other)
    }

    fn refusal(&self, words: &[u32], answer: &[u32], room: usize) -> Option<Refusal> {
        let mut checks = [self.rest(words.len(), room), self.short(words.len(), room)];
        if self.is(ShortFirst) {
            checks.reverse();
        }
        let table = if self.call == Call::ToColumns { words } else { answer };
        let before = match self.other {
            Some(RowLimit) if self.rows > MOST_ROWS => Some(Refusal { number: 8, place: 0 }),
            Some(AcceptedTablesAlone) if words.len().is_multiple_of(ROW_WORDS) => accepted_table(table).err(),
            _ => None,
        };
        before.into_iter().chain(checks.into_iter().flatten()).next()
    }

    fn rest(&self, words: usize, room: usize) -> Option<Refusal> {
        let row_words = match self.other {
            Some(RowsOfTwo) => 2,
            Some(RowsOfThree) => 3,
            Some(RowsOfFour) => ENTRY_WORDS,
            Some(RowsOfFive) => 5,
            Some(RestLeftOut) => 1,
            _ => ROW_WORDS,
        };
        let also = match self.other {
            Some(NoRowsRefused) => words == 0,
            Some(RoomInRows) => !room.is_multiple_of(ROW_WORDS),
            _ => false,
        };
        let number = if self.is(EightForRest) { 8 } else { 28 };
        let place = if self.is(PlaceOfRest) { self.rows } else { 0 };
        (also || !words.is_multiple_of(row_words)).then_some(Refusal { number, place })
    }

    fn short(&self, words: usize, room: usize) -> Option<Refusal> {
        let fits = match self.other {
            Some(JustFitsRefused) => room > words,
            Some(LongerRefused) => room == words,
            _ => room >= words,
        };
        let place = if self.is(PlaceOfShort) { room / ROW_WORDS } else { 0 };
        (!fits).then_some(Refusal { number: 17, place })
    }

    /// The words of the answer. Those that make no row stand as they are.
    fn reordered(&self, words: &[u32]) -> Vec<u32> {
        // The call is given one of these and makes the other.
        let (mut table, mut archive) = (words.to_vec(), words.to_vec());
        for column in 0..ROW_WORDS {
            for step in 0..self.rows {
                let row = if self.is(FromTheRowBelow) { self.rows - 1 - step } else { step };
                let other = self.subtrahend(row, column).map(|(row, column)| {
                    let [in_table, in_archive] = self.places(row, column);
                    if self.is(FromTheReplaced) {
                        archive[in_archive]
                    } else {
                        table[in_table]
                    }
                });
                let [in_table, in_archive] = self.places(row, column);
                match self.call {
                    Call::ToColumns => archive[in_archive] = self.less(table[in_table], other),
                    Call::FromColumns => table[in_table] = self.plus(archive[in_archive], other),
                }
            }
        }
        if self.call == Call::ToColumns {
            archive
        } else {
            table
        }
    }

    /// Where a word stands in the table and in the archive.
    fn places(&self, row: usize, column: usize) -> [usize; 2] {
        let in_table = row * ROW_WORDS + column;
        let in_archive = match self.other {
            Some(RowAfterRow | Copied) => in_table,
            Some(ValueFirst) => (ROW_WORDS - 1 - column) * self.rows + row,
            Some(LastRowFirst) => column * self.rows + self.rows - 1 - row,
            _ => column * self.rows + row,
        };
        [in_table, in_archive]
    }

    /// Row and column of the word that a word's difference is taken from; none if it stands as it is.
    fn subtrahend(&self, row: usize, column: usize) -> Option<(usize, usize)> {
        match self.other {
            Some(Copied | NoDifferences) => None,
            Some(DevicesStand) if column == 0 => None,
            Some(ValuesStand) if column == ROW_WORDS - 1 => None,
            Some(FromTheSameRow) => column.checked_sub(1).map(|before| (row, before)),
            Some(FromTheRowBelow) => Some((row + 1, column)).filter(|(below, _)| *below < self.rows),
            Some(NotReset) if row == 0 => column.checked_sub(1).map(|before| (self.rows - 1, before)),
            Some(FromTheFirstRow) if row > 0 => Some((0, column)),
            _ => row.checked_sub(1).map(|above| (above, column)),
        }
    }

    /// What stands for a word in the archive.
    fn less(&self, word: u32, other: Option<u32>) -> u32 {
        let Some(other) = other else { return word };
        match self.other {
            Some(AddForSubtract) => word.wrapping_add(other),
            Some(TurnedRound) => other.wrapping_sub(word),
            Some(SignLost) => word.abs_diff(other),
            Some(EndsAtZero) => word.saturating_sub(other),
            Some(EndsAtValues) => word.cast_signed().saturating_sub(other.cast_signed()).cast_unsigned(),
            Some(WrapsAt31Bits) => word.wrapping_sub(other) % (1 << 31),
            Some(WrapsAt16Bits) => word.wrapping_sub(other) % (1 << 16),
            _ => word.wrapping_sub(other),
        }
    }

    /// The word that this stands for.
    fn plus(&self, word: u32, other: Option<u32>) -> u32 {
        let Some(other) = other else { return word };
        match self.other {
            Some(AddForSubtract) => word.wrapping_sub(other),
            Some(TurnedRound) => other.wrapping_sub(word),
            Some(SignLost) => word.cast_signed().unsigned_abs().wrapping_add(other),
            Some(EndsAtZero) => word.saturating_add(other),
            Some(EndsAtValues) => word.cast_signed().saturating_add(other.cast_signed()).cast_unsigned(),
            Some(WrapsAt31Bits) => word.wrapping_add(other) % (1 << 31),
            Some(WrapsAt16Bits) => word.wrapping_add(other) % (1 << 16),
            _ => word.wrapping_add(other),
        }
    }
}

#[cfg(test)]
mod tests {
    use super::*;
    use crate::checker;
    use crate::generate::{any_run, one_length_around};
    use crate::random::Random;

    /// So each differs from the archive's order in its own thing alone.
    #[test]
    fn without_another_order_the_answers_are_the_checkers() {
        let mut accepted = 0;
        for seed in 0..5_000 {
            let random = &mut Random::new(seed);
            let words = any_run(random);
            let output = vec![7; one_length_around(random, words.len())];
            for (call, model) in [
                (Call::ToColumns, checker::to_columns as fn(&[u32], &mut [u32]) -> Answer),
                (Call::FromColumns, checker::from_columns),
            ] {
                let (mut found, mut expected) = (output.clone(), output.clone());
                let answer = model(&words, &mut expected);
                assert_eq!(reorder(None, call, &words, &mut found), answer, "seed {seed}: {words:?}");
                assert_eq!(found, expected, "seed {seed}: {words:?}");
                accepted += (answer.number() == 0) as u32;
            }
        }
        assert!((3_000..=7_000).contains(&accepted), "{accepted} are accepted");
    }

    /// Where orders differ in words alone, each call undoes the other, unless words are lost.
    #[test]
    fn one_table() {
        let table = [1, 1, 0, 0, 1, 11, 1, 2, 1, 1, 2, 2];
        let (minus_1, minus_9) = (u32::MAX, u32::MAX - 8);
        for (other, columns) in [
            (None, [1, 0, 1, 1, 0, 1, 0, 1, 1, 1, 11, minus_9]),
            (Some(RowAfterRow), [1, 1, 0, 0, 1, 11, 0, 1, 1, 1, 1, minus_9]),
            (Some(ValueFirst), [11, minus_9, 1, 1, 0, 1, 0, 1, 1, 1, 1, 0]),
            (Some(LastRowFirst), [0, 1, 1, 1, 1, 0, 1, 0, 1, 1, minus_9, 11]),
            (Some(Copied), table),
            (Some(NoDifferences), [1, 1, 1, 2, 0, 1, 0, 1, 1, 2, 11, 2]),
            (Some(NotReset), [1, 0, 0, 1, u32::MAX - 1, 1, minus_1, 1, 0, 1, 9, minus_9]),
            (Some(FromTheRowBelow), [0, 1, minus_1, 2, minus_1, 1, minus_1, 1, minus_1, 2, 9, 2]),
            (Some(FromTheSameRow), [1, 1, 0, 1, minus_1, minus_1, 0, 0, 1, 1, 10, 0]),
            (Some(DevicesStand), [1, 1, 1, 1, 0, 1, 0, 1, 1, 1, 11, minus_9]),
            (Some(ValuesStand), [1, 0, 1, 1, 0, 1, 0, 1, 1, 1, 11, 2]),
            (Some(AddForSubtract), [1, 2, 1, 3, 0, 1, 0, 1, 1, 3, 11, 13]),
            (Some(TurnedRound), [1, 0, 1, minus_1, 0, minus_1, 0, minus_1, 1, minus_1, 11, 9]),
            (Some(EndsAtValues), [1, 0, 1, 1, 0, 1, 0, 1, 1, 1, 11, minus_9]),
        ] {
            let mut found = [7; 12];
            assert_eq!(reorder(other, Call::ToColumns, &table, &mut found), Answer::Done(12), "{other:?}");
            assert_eq!(found, columns, "{other:?}");
            reorder(other, Call::FromColumns, &columns, &mut found);
            assert_eq!(found, table, "{other:?}");
        }
    }
}
