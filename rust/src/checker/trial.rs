//! Trying a plan: its steps are done one after the other on a copy of the pool.

use super::entry::Entry;
use super::set::{accepted_set, verdicts_on};
use super::table::{accepted_table, words_of, Row, ROW_WORDS};
use super::tests_of_line::test;
use crate::answer::{Refusal, Trial};

/// A kind and the words of a row.
pub const STEP_WORDS: usize = 1 + ROW_WORDS;

// The kinds of step.
pub const SET: u32 = 1;
pub const ADD: u32 = 2;
pub const REMOVE: u32 = 3;

pub fn try_plan(
    rules: &[u32],
    counts: &[u32],
    pool: &[u32],
    steps: &[u32],
    table: &mut [u32],
    verdicts: &mut [u8],
) -> Trial {
    let room = Room { words: table.len(), bytes: verdicts.len() };
    match tried(rules, counts, pool, steps, room) {
        Ok(tried) => {
            let words = words_of(&tried.rows);
            table[..words.len()].copy_from_slice(&words);
            verdicts[..tried.verdicts.len()].copy_from_slice(&tried.verdicts);
            tried.answer()
        }
        Err(refusal) => Trial::before_steps(refusal),
    }
}

/// The lengths of the two outputs.
#[derive(Clone, Copy, Debug, PartialEq, Eq)]
pub struct Room {
    /// Of the working table.
    pub words: usize,
    /// Of the verdicts.
    pub bytes: usize,
}

/// What a plan leaves that came as far as step 0.
#[derive(Clone, Debug)]
pub struct Tried {
    /// The working table.
    pub rows: Vec<Row>,
    /// A byte for each rule after each step done.
    pub verdicts: Vec<u8>,
    /// Steps done.
    pub steps: usize,
    /// The number of the refusal of the step behind those, if that was refused.
    pub refused: Option<u32>,
}

/// Tries the plan. An error is a refusal before step 0.
pub fn tried(
    rules: &[u32],
    counts: &[u32],
    pool: &[u32],
    steps: &[u32],
    room: Room,
) -> Result<Tried, Refusal> {
    let set = accepted_set(rules, counts)?;
    let rows = accepted_table(pool)?;
    test(17, room.words < pool.len())?;
    let mut tried = Tried { rows, verdicts: vec![], steps: 0, refused: None };
    for step in steps.chunks(STEP_WORDS) {
        if let Err(number) = tried.next(&set, step, room) {
            tried.refused = Some(number);
            break;
        }
    }
    Ok(tried)
}

impl Tried {
    pub fn answer(&self) -> Trial {
        let (number, place) = self.refused.map_or((0, 0), |number| (number, self.steps));
        Trial { number, place, steps: self.steps, rows: self.rows.len() }
    }

    /// Does a step, all of it or nothing; an error is its number.
    fn next(&mut self, set: &[Vec<Entry>], step: &[u32], room: Room) -> Result<(), u32> {
        let rows = rows_after(&self.rows, step)?;
        if room.words < rows.len() * ROW_WORDS || room.bytes < (self.steps + 1) * set.len() {
            return Err(17);
        }
        self.verdicts.extend(verdicts_on(set, &rows));
        self.rows = rows;
        self.steps += 1;
        Ok(())
    }
}

/// The accepted table after a step, or the number of the first check that it fails; 17 is not among them.
pub fn rows_after(rows: &[Row], step: &[u32]) -> Result<Vec<Row>, u32> {
    // The last step may lack words.
    let &[kind, device, at, up, deep, name, value] = step else {
        return Err(23);
    };
    let row = Row { device, at, up, deep, name, value };
    let place = rows.iter().position(|old| (old.device, old.at) == (device, at));
    let mut after = rows.to_vec();
    match kind {
        SET => after[place.ok_or(24u32)?].value = value,
        ADD => {
            let before = rows.iter().filter(|old| (old.device, old.at) < (device, at)).count();
            after.insert(before, row);
        }
        REMOVE => {
            let removed = after.remove(place.ok_or(24u32)?);
            if rows.iter().any(|old| removed.is_parent_of(old)) {
                return Err(25);
            }
        }
        _ => return Err(23),
    }
    accepted_table(&words_of(&after)).map_err(|refusal| refusal.number)
}
