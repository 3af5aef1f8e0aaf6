//! Foldings that are not the contract's. Each differs from it in one thing.

use super::all_variants::all_variants;
use crate::answer::{Answer, Refusal};
use crate::checker::{rows_of, words_of, Row, MOST_NAME, MOST_ROWS, MOST_VALUE, ROW_WORDS};

all_variants! {
    pub enum OtherFolding {
        // Which siblings are equal.
        ValueNotLookedAt,
        NameNotLookedAt,
        SignNotLookedAt,
        /// Rows of one depth, whatever their parents.
        ParentNotLookedAt,
        /// Only rows that stand next to each other in the table.
        NextRowsAlone,
        /// Only siblings without another sibling between them.
        NextSiblingsAlone,
        /// A row with children stays.
        LeavesAlone,
        RootsStay,
        RootsAlone,
        NothingFolds,

        // How often.
        OneRound,
        TwoRounds,
        /// By the parents that are given, among rows that already have others.
        SoughtByOldParent,

        // What becomes of a pair.
        /// The earlier row goes, and its children hang under the later one: of several equal siblings the last stays.
        EarlierGoes,
        ChildrenKeepUp,
        ChildrenGoToo,
        /// Children hang where the earlier row hangs.
        ChildrenUnderItsParent,
        ChildrenBecomeRoots,
        DeepOfMovedChanged,
        /// The rows left are numbered from 1 on.
        Renumbered,
        /// Each row right behind its parent or its earlier sibling's last child.
        TreeOrder,

        // What is answered and written.
        RowsRemovedAsValue,
        RowsGivenAsValue,
        WordsAsValue,
        /// The words past the answer become 0.
        ClearsWhatLiesPast,
        /// The given words are copied first, as far as there is room.
        CopiedFirst,
        WritesThoughRefused,

        // What is refused.
        TwelveRefused,
        /// 14 is tested before these.
        DeviceBeforeDepth,
        DeviceBeforeParent,
        DeviceBeforeOrder,
        DeviceBeforeRange,
        DeviceBehindShort,
        /// 14 at place 0.
        DeviceWithoutPlace,
        /// Each device is folded for itself.
        SeveralDevices,
        DepthNotTested,
        /// 26 of the rows that are left.
        DepthOfTheLeft,
        DepthBeforeParent,
        /// 17 by the given table's words.
        ShortForTheGiven,
        /// 17 at the first row for which there is no room.
        PlaceOfShort,
        /// 17 unless the output is longer than the answer.
        JustFitsRefused,
        /// 8 counts the rows that are left.
        LengthOfTheLeft,
        NoRowsRefused,
    }
}

use OtherFolding::*;

impl OtherFolding {
    /// As `checker::fold`.
    pub fn fold(self, table: &[u32], folded: &mut [u32]) -> Answer {
        fold(Some(self), table, folded)
    }
}

/// Without another folding, the contract's.
fn fold(other: Option<OtherFolding>, table: &[u32], output: &mut [u32]) -> Answer {
    let folding = Folding { other, rows: rows_of(table) };
    let left = words_of(&folding.left());
    if let Some(refusal) = folding.refusal(table, &left, output.len()) {
        if folding.is(WritesThoughRefused) {
            output.iter_mut().zip(left).for_each(|(word, answered)| *word = answered);
        }
        return Answer::Refused(refusal);
    }
    if folding.is(CopiedFirst) {
        output.iter_mut().zip(table).for_each(|(word, given)| *word = *given);
    }
    let (written, past) = output.split_at_mut(left.len());
    written.copy_from_slice(&left);
    if folding.is(ClearsWhatLiesPast) {
        past.fill(0);
    }
    Answer::Done(match other {
        Some(RowsRemovedAsValue) => folding.rows.len() - left.len() / ROW_WORDS,
        Some(RowsGivenAsValue) => folding.rows.len(),
        Some(WordsAsValue) => left.len(),
        _ => left.len() / ROW_WORDS,
    })
}

struct Folding {
    other: Option<OtherFolding>,
    rows: Vec<Row>,
}

impl Folding {
    fn is(&self, other: OtherFolding) -> bool {
        self.other == Some(other)
    }

    fn refusal(&self, table: &[u32], left: &[u32], room: usize) -> Option<Refusal> {
        let mut refusals = self.order().into_iter().filter_map(|number| {
            let place = match number {
                8 => self.wrong_length(table, left).then_some(0),
                17 => self.short(table, left, room),
                26 if self.is(DepthOfTheLeft) => first_at_fault(&rows_of(left), 26),
                14 if self.is(DeviceWithoutPlace) => first_at_fault(&self.rows, 14).map(|_| 0),
                _ => first_at_fault(&self.rows, number),
            };
            Some(Refusal { number, place: place? })
        });
        refusals.next()
    }

    /// The numbers in the order in which they are tested.
    fn order(&self) -> Vec<u32> {
        match self.other {
            Some(TwelveRefused) => vec![8, 9, 10, 11, 26, 12, 14, 17],
            Some(DeviceBeforeDepth) => vec![8, 9, 10, 11, 14, 26, 17],
            Some(DeviceBeforeParent) => vec![8, 9, 10, 14, 11, 26, 17],
            Some(DeviceBeforeOrder) => vec![8, 9, 14, 10, 11, 26, 17],
            Some(DeviceBeforeRange) => vec![8, 14, 9, 10, 11, 26, 17],
            Some(DeviceBehindShort) => vec![8, 9, 10, 11, 26, 17, 14],
            Some(SeveralDevices) => vec![8, 9, 10, 11, 26, 17],
            Some(DepthNotTested) => vec![8, 9, 10, 11, 14, 17],
            Some(DepthBeforeParent) => vec![8, 9, 10, 26, 11, 14, 17],
            _ => vec![8, 9, 10, 11, 26, 14, 17],
        }
    }

    fn wrong_length(&self, table: &[u32], left: &[u32]) -> bool {
        let counted = if self.is(LengthOfTheLeft) { left.len() / ROW_WORDS } else { self.rows.len() };
        !table.len().is_multiple_of(ROW_WORDS)
            || counted > MOST_ROWS
            || self.is(NoRowsRefused) && table.is_empty()
    }

    fn short(&self, table: &[u32], left: &[u32], room: usize) -> Option<usize> {
        let fits = match self.other {
            Some(ShortForTheGiven) => room >= table.len(),
            Some(JustFitsRefused) => room > left.len(),
            _ => room >= left.len(),
        };
        let place = if self.is(PlaceOfShort) { room / ROW_WORDS } else { 0 };
        (!fits).then_some(place)
    }

    /// The rows that are left; none of rows that make no tree or, in most foldings, are too many.
    fn left(&self) -> Vec<Row> {
        let too_many = self.rows.len() > MOST_ROWS && !self.is(LengthOfTheLeft);
        if too_many || [9, 10, 11].iter().any(|&number| first_at_fault(&self.rows, number).is_some()) {
            return vec![];
        }
        if self.is(SoughtByOldParent) {
            return self.in_one_pass();
        }
        let rounds = match self.other {
            Some(OneRound) => 1,
            Some(TwoRounds) => 2,
            _ => self.rows.len(),
        };
        let mut rows = self.rows.clone();
        for _ in 0..rounds {
            let after = self.round(&rows);
            if after == rows {
                break;
            }
            rows = after;
        }
        match self.other {
            Some(Renumbered) => renumbered(&rows),
            Some(TreeOrder) => in_tree_order(&rows, None),
            _ => rows,
        }
    }

    /// Every row with an equal sibling before it goes at once.
    fn round(&self, rows: &[Row]) -> Vec<Row> {
        let into: Vec<Option<usize>> = (0..rows.len()).map(|place| self.goes_into(rows, place)).collect();
        let (mut left, mut gone) = (vec![], vec![]);
        for (place, row) in rows.iter().enumerate() {
            let parent = rows.iter().position(|other| other.is_parent_of(row));
            let goes_too = self.is(ChildrenGoToo) && parent.is_some_and(|parent| gone.contains(&parent));
            if into[place].is_some() || goes_too {
                gone.push(place);
                continue;
            }
            let taker = parent.and_then(|parent| into[parent]);
            left.push(taker.map_or(*row, |taker| self.hung(*row, rows[taker])));
        }
        left
    }

    /// The equal sibling for which a row goes, if it does.
    fn goes_into(&self, rows: &[Row], place: usize) -> Option<usize> {
        if self.is(EarlierGoes) {
            (place + 1..rows.len()).rfind(|&later| self.is_equal(rows, place, later))
        } else {
            (0..place).find(|&earlier| self.is_equal(rows, earlier, place))
        }
    }

    /// A row whose parent goes, and the row that takes it.
    fn hung(&self, row: Row, taker: Row) -> Row {
        match self.other {
            Some(ChildrenKeepUp) => row,
            Some(ChildrenUnderItsParent) => Row { up: taker.up, ..row },
            Some(ChildrenBecomeRoots) => Row { up: 0, ..row },
            Some(DeepOfMovedChanged) => Row { up: taker.at, deep: row.deep.wrapping_add(1), ..row },
            _ => Row { up: taker.at, ..row },
        }
    }

    fn is_equal(&self, rows: &[Row], earlier: usize, later: usize) -> bool {
        let (row, other) = (rows[earlier], rows[later]);
        let names = row.name == other.name || self.is(NameNotLookedAt);
        let values = match self.other {
            Some(ValueNotLookedAt) => true,
            Some(SignNotLookedAt) => row.value & MOST_VALUE == other.value & MOST_VALUE,
            _ => row.value == other.value,
        };
        let siblings = match self.other {
            Some(ParentNotLookedAt) => row.deep == other.deep,
            _ => row.device == other.device && row.up == other.up,
        };
        names && values && siblings && self.may_fold(rows, earlier, later)
    }

    /// What other foldings ask of equal siblings beside.
    fn may_fold(&self, rows: &[Row], earlier: usize, later: usize) -> bool {
        let root = rows[later].is_root();
        match self.other {
            Some(NextRowsAlone) => earlier + 1 == later,
            Some(NextSiblingsAlone) => {
                !rows[earlier + 1..later].iter().any(|between| between.up == rows[later].up)
            }
            Some(LeavesAlone) => !rows.iter().any(|child| rows[later].is_parent_of(child)),
            Some(RootsStay) => !root,
            Some(RootsAlone) => root,
            Some(NothingFolds) => false,
            _ => true,
        }
    }

    /// Each row is compared with those that stay, which already have their parents, by the up that it was given.
    fn in_one_pass(&self) -> Vec<Row> {
        let (mut left, mut stays): (Vec<Row>, Vec<[u32; 2]>) = (vec![], vec![]);
        for &row in &self.rows {
            let up = stays.iter().find(|[at, _]| *at == row.up).map_or(row.up, |[_, stays]| *stays);
            let equal = left.iter().find(|other| {
                (other.device, other.up, other.name, other.value) == (row.device, row.up, row.name, row.value)
            });
            stays.push([row.at, equal.map_or(row.at, |equal| equal.at)]);
            if equal.is_none() {
                left.push(Row { up, ..row });
            }
        }
        left
    }
}

/// The first row at fault under a check of rows.
fn first_at_fault(rows: &[Row], number: u32) -> Option<usize> {
    let parent = |place: usize| rows[..place].iter().find(|earlier| earlier.is_parent_of(&rows[place]));
    (0..rows.len()).find(|&place| {
        let row = rows[place];
        match number {
            9 => [row.device, row.at, row.name].iter().any(|&word| word == 0 || word > MOST_NAME),
            10 => place > 0 && (row.device, row.at) <= (rows[place - 1].device, rows[place - 1].at),
            11 => !row.is_root() && parent(place).is_none(),
            26 => parent(place).map_or(0, |parent| u64::from(parent.deep) + 1) != u64::from(row.deep),
            12 => rows[..place].iter().any(|earlier| earlier.is_equal_sibling_of(&row)),
            _ => row.device != rows[0].device,
        }
    })
}

fn renumbered(rows: &[Row]) -> Vec<Row> {
    let new = |at: u32| rows.iter().position(|row| row.at == at).map_or(0, |place| place as u32 + 1);
    rows.iter().map(|row| Row { at: new(row.at), up: new(row.up), ..*row }).collect()
}

/// The children of a row, or the roots, each with all that hangs under it right behind.
fn in_tree_order(rows: &[Row], parent: Option<&Row>) -> Vec<Row> {
    let children = rows.iter().filter(|row| parent.map_or(row.is_root(), |parent| parent.is_parent_of(row)));
    children.flat_map(|row| [vec![*row], in_tree_order(rows, Some(row))].concat()).collect()
}

#[cfg(test)]
mod tests {
    use super::*;
    use crate::checker;
    use crate::generate::{any_damaged_blocks, blocks, one_length_around};
    use crate::random::Random;

    /// So each differs from the contract's folding in its own thing alone.
    #[test]
    fn without_another_folding_the_answers_are_the_checkers() {
        let mut accepted = 0;
        for seed in 0..10_000 {
            let random = &mut Random::new(seed);
            let mut table = blocks(random, 60);
            if random.chance(40) {
                table = any_damaged_blocks(random, &table);
            }
            let output = vec![7; one_length_around(random, table.len())];
            let (mut found, mut expected) = (output.clone(), output);
            let answer = checker::fold(&table, &mut expected);
            assert_eq!(fold(None, &table, &mut found), answer, "seed {seed}: {table:?}");
            assert_eq!(found, expected, "seed {seed}: {table:?}");
            accepted += (answer.number() == 0) as u32;
        }
        assert!((3_000..=8_000).contains(&accepted), "{accepted} are accepted");
    }

    /// What is left of a device in which a block stands twice: at, up and deep of each row.
    #[test]
    fn one_device() {
        let row = |[at, up, deep, name, value]: [u32; 5]| Row { device: 1, at, up, deep, name, value };
        let block =
            [[1, 0, 0, 1, 1], [2, 1, 1, 2, 2], [3, 1, 1, 2, 2], [4, 3, 2, 3, 3], [5, 2, 2, 3, 3]].map(row);
        let cases: [(Option<OtherFolding>, &[[u32; 3]]); 11] = [
            (None, &[[1, 0, 0], [2, 1, 1], [4, 2, 2]]),
            (Some(OneRound), &[[1, 0, 0], [2, 1, 1], [4, 2, 2], [5, 2, 2]]),
            (Some(SoughtByOldParent), &[[1, 0, 0], [2, 1, 1], [4, 2, 2]]),
            (Some(EarlierGoes), &[[1, 0, 0], [3, 1, 1], [5, 3, 2]]),
            (Some(ChildrenKeepUp), &[[1, 0, 0], [2, 1, 1], [4, 3, 2], [5, 2, 2]]),
            (Some(ChildrenGoToo), &[[1, 0, 0], [2, 1, 1], [5, 2, 2]]),
            (Some(ChildrenUnderItsParent), &[[1, 0, 0], [2, 1, 1], [4, 1, 2], [5, 2, 2]]),
            (Some(ChildrenBecomeRoots), &[[1, 0, 0], [2, 1, 1], [4, 0, 2], [5, 2, 2]]),
            (Some(DeepOfMovedChanged), &[[1, 0, 0], [2, 1, 1], [4, 2, 3]]),
            (Some(Renumbered), &[[1, 0, 0], [2, 1, 1], [3, 2, 2]]),
            (Some(LeavesAlone), &[[1, 0, 0], [2, 1, 1], [3, 1, 1], [4, 3, 2], [5, 2, 2]]),
        ];
        for (other, expected) in cases {
            let left = Folding { other, rows: block.to_vec() }.left();
            let found: Vec<[u32; 3]> = left.iter().map(|row| [row.at, row.up, row.deep]).collect();
            assert_eq!(found, expected, "{other:?}");
        }
    }
}
