//! What a table to fold is, and all that is wrong with a request, told apart from the checker; noted for the tallies.

use std::collections::HashMap;

use super::archive::{
    A_WORD_SHORT, JUST_FITS, MUCH_ROOM, NO_ROOM, NO_ROWS, NO_WORDS, ODD_ROOM, ONE_ROW, ROOM_BEHIND,
};
use super::fillings::alone;
use super::refused_step::{before, is_out_of_range};
use super::Case;
use crate::answer::{Answer, Refusal};
use crate::checker::{rows_of, Row, MOST_ROWS, ROW_WORDS};
use crate::generate::{twin_hash, STEPS};

// Of accepted ones.
pub const NOTHING_FOLDS: &str = "several rows, none of which goes";
pub const FOLDS: &str = "a row that goes";
pub const BECOMES_EQUAL: &str = "a row that goes, and the row that stays for it had another parent";
pub const THREE_LEVELS: &str = "a row that goes, as do its parent and its grandparent";
pub const SIX_LEVELS: &str = "a row that goes, as do five above it";
pub const EQUAL_ROOTS: &str = "a root that goes";
pub const THREE_EQUAL: &str = "three rows of one path";
pub const TEN_EQUAL: &str = "ten rows of one path";
pub const ONE_PATH: &str = "five rows or more that fold into one path";
pub const MOVED: &str = "a row that stays, under another parent";
pub const MOVED_WITH_OTHERS: &str = "such a row, and one of its new siblings was there before";
pub const MOVED_FAR: &str = "such a row, its parent more than a hundred rows above";
pub const OTHER_VALUES: &str = "siblings that stay, of one name and two values";
pub const OTHER_NAMES: &str = "siblings that stay, of two names and one value";
pub const COUSINS: &str = "rows of one depth, name and value that stay, under two parents";
pub const ONE_HASH: &str = "more rows that stay share one hash than the library's steps";
pub const HUNDREDS: &str = "hundreds of rows";
pub const MOST: &str = "as many rows as may be";
pub const SHORTER_THAN_GIVEN: &str = "room for what is left, not for what is given";

// Of refused ones.
pub const A_ROW_SHORT: &str = "17 by one row";
pub const TOO_MANY: &str = "8 by too many rows, of which few would be left";
pub const LAST_ROW: &str = "14 at the last row";
pub const BEHIND_EQUAL: &str = "14 behind equal siblings";
pub const EQUAL_BEHIND: &str = "14 before equal siblings";

/// The checks in their order.
pub const CHECKS: [u32; 7] = [8, 9, 10, 11, 26, 14, 17];

/// Notes a request; fails if the answer is not told by the first check that it fails, or by the number of its paths.
pub fn note_request(case: &mut Case, table: &[u32], room: usize, answer: Answer) {
    let paths = Paths::of(&rows_of(table));
    let faults = paths.faults(table.len(), room);
    let told = faults.first().map_or(Answer::Done(paths.left()), |&first| Answer::Refused(first));
    assert_eq!(told, answer, "{table:?} {room}");
    if let [only] = faults[..] {
        case.note(alone(only.number));
    }
    faults.iter().skip(1).for_each(|later| case.note(before(answer.number(), later.number)));
    match faults.first() {
        None => {
            note_room(case, &paths, table.len(), room);
            paths.note_folding(case);
        }
        Some(&first) => note_refused(case, &paths, first, room),
    }
}

fn note_room(case: &mut Case, paths: &Paths, given: usize, room: usize) {
    let left = paths.left() * ROW_WORDS;
    case.note_met([
        (given == 0, NO_ROWS),
        (room == 0, NO_WORDS),
        (given == ROW_WORDS, ONE_ROW),
        (given > 200 * ROW_WORDS, HUNDREDS),
        (given == MOST_ROWS * ROW_WORDS, MOST),
        (room == left, JUST_FITS),
        (room > left, ROOM_BEHIND),
        (!room.is_multiple_of(ROW_WORDS), ODD_ROOM),
        (room >= left + 500, MUCH_ROOM),
        (room < given, SHORTER_THAN_GIVEN),
    ]);
}

fn note_refused(case: &mut Case, paths: &Paths, first: Refusal, room: usize) {
    let (rows, left) = (paths.rows.len(), paths.left() * ROW_WORDS);
    let goes = |place: usize| paths.goes(place);
    if (0..rows).any(goes) {
        case.note(before(first.number, 12));
    }
    match first.number {
        8 => case.note_met([(rows > MOST_ROWS && paths.left() <= MOST_ROWS / 2, TOO_MANY)]),
        14 => case.note_met([
            (first.place + 1 == rows, LAST_ROW),
            ((0..first.place).any(goes), BEHIND_EQUAL),
            ((first.place..rows).any(goes), EQUAL_BEHIND),
        ]),
        17 => case.note_met([
            (room == 0, NO_ROOM),
            (room + 1 == left, A_WORD_SHORT),
            (room + ROW_WORDS == left, A_ROW_SHORT),
        ]),
        _ => {}
    }
}

/// The rows by their paths: names and values from the root on, within a device.
struct Paths {
    rows: Vec<Row>,
    /// None for a root and where there is no parent.
    parent: Vec<Option<usize>>,
    /// The first row with the path of each. It stays, and the others go.
    first: Vec<usize>,
}

impl Paths {
    fn of(rows: &[Row]) -> Paths {
        let (mut parent, mut first) = (vec![], vec![]);
        let (mut places, mut firsts) = (HashMap::new(), HashMap::new());
        for (place, row) in rows.iter().enumerate() {
            let above: Option<usize> =
                if row.is_root() { None } else { places.get(&(row.device, row.up)).copied() };
            let up = above.map(|above| first[above]);
            parent.push(above);
            first.push(*firsts.entry((row.device, up, row.name, row.value)).or_insert(place));
            places.entry((row.device, row.at)).or_insert(place);
        }
        Paths { rows: rows.to_vec(), parent, first }
    }

    fn goes(&self, place: usize) -> bool {
        self.first[place] != place
    }

    /// How many stay.
    fn left(&self) -> usize {
        (0..self.rows.len()).filter(|&place| !self.goes(place)).count()
    }

    /// Every check that a request fails, in their order.
    fn faults(&self, words: usize, room: usize) -> Vec<Refusal> {
        let rows = &self.rows;
        let row = |fails: &dyn Fn(usize) -> bool| (0..rows.len()).find(|&place| fails(place));
        let rises = |place: usize| {
            let [above, row] = [rows[place - 1], rows[place]];
            above.device < row.device || above.device == row.device && above.at < row.at
        };
        let right_depth = |place: usize| match self.parent[place] {
            Some(parent) => u64::from(rows[parent].deep) + 1,
            None => 0,
        };
        let whole = words.is_multiple_of(ROW_WORDS) && words <= MOST_ROWS * ROW_WORDS;
        let places = [
            (!whole).then_some(0),
            row(&|place| is_out_of_range(&rows[place])),
            row(&|place| place > 0 && !rises(place)),
            row(&|place| rows[place].up != 0 && self.parent[place].is_none()),
            row(&|place| u64::from(rows[place].deep) != right_depth(place)),
            row(&|place| rows[place].device != rows[0].device),
            (room < self.left() * ROW_WORDS).then_some(0),
        ];
        let faults = CHECKS.into_iter().zip(places);
        faults.filter_map(|(number, place)| Some(Refusal { number, place: place? })).collect()
    }

    fn note_folding(&self, case: &mut Case) {
        let (rows, left) = (self.rows.len(), self.left());
        let going: Vec<usize> = (0..rows).filter(|&place| self.goes(place)).collect();
        let above = |place: usize| self.parent[place].filter(|&parent| self.goes(parent));
        let levels =
            going.iter().map(|&place| std::iter::successors(Some(place), |&place| above(place)).count());
        let levels = levels.max().unwrap_or(0);
        let had_other = |&place: &usize| self.rows[place].up != self.rows[self.first[place]].up;
        let mut of_path = vec![0; rows];
        self.first.iter().for_each(|&first| of_path[first] += 1);
        let most = of_path.into_iter().max().unwrap_or(0);
        let deepest = self.rows.iter().map(|row| row.deep as usize + 1).max().unwrap_or(0);
        case.note_met([
            (rows > 1 && left == rows, NOTHING_FOLDS),
            (left < rows, FOLDS),
            (going.iter().any(had_other), BECOMES_EQUAL),
            (levels >= 3, THREE_LEVELS),
            (levels >= 6, SIX_LEVELS),
            (going.iter().any(|&place| self.rows[place].is_root()), EQUAL_ROOTS),
            (most >= 3, THREE_EQUAL),
            (most >= 10, TEN_EQUAL),
            (rows >= 5 && left < rows && left == deepest, ONE_PATH),
        ]);
        self.note_staying(case);
    }

    /// The row that a row hangs under after the folding.
    fn parent_left(&self, place: usize) -> Option<usize> {
        self.parent[place].map(|parent| self.first[parent])
    }

    /// By the hash that the library's checks have.
    fn most_of_one_hash(&self, staying: &[usize]) -> usize {
        let mut rows_of_hash: HashMap<u32, usize> = HashMap::new();
        for &place in staying {
            let up = self.parent_left(place).map_or(0, |parent| self.rows[parent].at);
            *rows_of_hash.entry(twin_hash(&Row { up, ..self.rows[place] })).or_default() += 1;
        }
        rows_of_hash.into_values().max().unwrap_or(0)
    }

    /// Whether a row hangs under another one after the folding.
    fn moves(&self, place: usize) -> bool {
        self.parent_left(place) != self.parent[place]
    }

    fn note_staying(&self, case: &mut Case) {
        let staying: Vec<usize> = (0..self.rows.len()).filter(|&place| !self.goes(place)).collect();
        let is_far = |place: usize| self.parent_left(place).is_some_and(|parent| place > parent + 100);
        case.note_met([
            (staying.iter().any(|&place| self.moves(place)), MOVED),
            (staying.iter().any(|&place| self.moves(place) && is_far(place)), MOVED_FAR),
            (self.most_of_one_hash(&staying) > STEPS, ONE_HASH),
        ]);
        // Of many, the first ones are enough.
        self.note_pairs(case, &staying[..staying.len().min(40)]);
    }

    fn note_pairs(&self, case: &mut Case, places: &[usize]) {
        let (mut joined, mut values, mut names, mut cousins) = (false, false, false, false);
        for (index, &later) in places.iter().enumerate() {
            for &earlier in &places[..index] {
                let (row, other) = (self.rows[earlier], self.rows[later]);
                let siblings = self.parent_left(earlier) == self.parent_left(later);
                let (same_name, same_value) = (row.name == other.name, row.value == other.value);
                joined |= siblings && self.moves(earlier) != self.moves(later);
                values |= siblings && same_name;
                names |= siblings && same_value;
                cousins |= !siblings && row.deep == other.deep && same_name && same_value;
            }
        }
        case.note_met([
            (joined, MOVED_WITH_OTHERS),
            (values, OTHER_VALUES),
            (names, OTHER_NAMES),
            (cousins, COUSINS),
        ]);
    }
}
