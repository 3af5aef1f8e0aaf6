//! Plans with a step that is refused.

use super::collisions::first_last_or_any;
use super::damaged_table::out_of_range;
use super::depths::wrong_depth;
use super::faults::change_a_word;
use super::plans::Plan;
use super::steps::step_of;
use crate::checker::{rows_after, rows_of, Row, ADD, REMOVE, SET, STEP_WORDS};
use crate::random::Random;

#[derive(Clone, Copy, Debug, PartialEq, Eq)]
pub enum StepFault {
    UnknownKind,
    SetNotThere,
    RemoveNotThere,
    RowsUnder,
    OutOfRange,
    ThereAlready,
    NoParent,
    WrongDepth,
    AddEqualSibling,
    SetEqualSibling,
    /// Of two roots on different devices.
    AddEqualRoot,
    SetEqualRoot,
}

use StepFault::*;

/// With the number that is mostly found where the fault is the only one.
pub const STEP_FAULTS: [(StepFault, u32); 12] = [
    (UnknownKind, 23),
    (SetNotThere, 24),
    (RemoveNotThere, 24),
    (RowsUnder, 25),
    (OutOfRange, 9),
    (ThereAlready, 10),
    (NoParent, 11),
    (WrongDepth, 26),
    (AddEqualSibling, 12),
    (SetEqualSibling, 12),
    (AddEqualRoot, 12),
    (SetEqualRoot, 12),
];

/// Those that an added row may have together.
const OF_ADDED: [StepFault; 6] =
    [OutOfRange, ThereAlready, NoParent, WrongDepth, AddEqualSibling, AddEqualRoot];

/// A plan of steps that can be done, with a step among them that has one fault, or two or three; at times the
/// last lacks words.
pub fn damaged_plan(random: &mut Random, plan: &Plan) -> Plan {
    let place = place_of_step(random, plan);
    let faults = match random.below(10) {
        0 if place < plan.step_count() => return cut(random, plan, place),
        1..=5 => vec![random.pick(&STEP_FAULTS).0],
        _ => (0..random.between(1, 3)).map(|_| random.pick(&OF_ADDED)).collect(),
    };
    let mut damaged = with_faulty_step(random, plan, place, &faults);
    match random.below(20) {
        0 => cut(random, &damaged, place),
        1 => {
            damaged.steps[place * STEP_WORDS] = unknown_kind(random);
            damaged
        }
        _ => damaged,
    }
}

/// A plan with a row that is added among its steps, without fault or with one or two.
pub fn with_added_row(random: &mut Random, plan: &Plan) -> Plan {
    let faults: Vec<StepFault> = (0..random.below(3)).map(|_| random.pick(&OF_ADDED)).collect();
    let place = place_of_step(random, plan);
    with_faulty_step(random, plan, place, &faults)
}

/// Steps of small words, mostly whole: any of them may be done, and any check may be the first to refuse.
pub fn any_steps(random: &mut Random) -> Vec<u32> {
    let mut steps = vec![];
    for _ in 0..random.below(12) {
        let kind =
            if random.chance(97) { random.pick(&[SET, ADD, ADD, REMOVE]) } else { random.below(6) as u32 };
        let (device, at) = (random.between(1, 2) as u32, random.between(1, 6) as u32);
        let deep = random.pick(&[0, 0, 1, 1, 2]);
        let up = if deep == 0 { 0 } else { random.between(1, 4) as u32 };
        // -1 to 2.
        let (name, value) = (random.between(1, 2) as u32, (random.below(4) as u32).wrapping_sub(1));
        steps.extend([kind, device, at, up, deep, name, value]);
        if random.chance(3) {
            change_a_word(random, &mut steps);
        }
    }
    if random.chance(10) {
        steps.truncate(random.below(steps.len() + 1));
    }
    steps
}

/// Any step, or the end.
fn place_of_step(random: &mut Random, plan: &Plan) -> usize {
    let places: Vec<usize> = (0..=plan.step_count()).collect();
    first_last_or_any(random, &places)
}

/// The step at this place becomes the last and lacks words.
fn cut(random: &mut Random, plan: &Plan, place: usize) -> Plan {
    let words = place * STEP_WORDS + random.between(1, STEP_WORDS - 1);
    Plan { steps: plan.steps[..words].to_vec(), ..plan.clone() }
}

fn unknown_kind(random: &mut Random) -> u32 {
    random.pick(&[0, 4, 5, 257, 258, 259, 65_537, 1 << 31, u32::MAX - 1, u32::MAX])
}

/// Puts a step with these faults before the step at this place or instead of it.
pub fn with_faulty_step(random: &mut Random, plan: &Plan, place: usize, faults: &[StepFault]) -> Plan {
    let (rows, gone) = rows_and_gone(plan, place);
    let mut step = Faulty { kind: ADD, row: good_row(random, &rows), random, rows: &rows, gone: &gone };
    faults.iter().for_each(|&fault| step.put(fault));
    let (kind, row) = (step.kind, step.row);
    let mut steps = plan.steps.clone();
    let instead = place < plan.step_count() && random.chance(50);
    let replaced = place * STEP_WORDS..(place + instead as usize) * STEP_WORDS;
    steps.splice(replaced, step_of(random, kind, &row));
    Plan { steps, ..plan.clone() }
}

/// The table after so many steps, and the rows that they removed.
fn rows_and_gone(plan: &Plan, steps: usize) -> (Vec<Row>, Vec<Row>) {
    let (mut rows, mut gone) = (rows_of(&plan.pool), vec![]);
    for step in plan.steps.chunks(STEP_WORDS).take(steps) {
        if step[0] == REMOVE {
            gone.extend(rows.iter().find(|row| [row.device, row.at] == step[1..3]));
        }
        rows = rows_after(&rows, step).expect("a step that can be done");
    }
    (rows, gone)
}

/// A row that the table takes, if there is a number left for it.
fn good_row(random: &mut Random, rows: &[Row]) -> Row {
    let value = random.word();
    if rows.is_empty() || random.chance(15) {
        let device = rows.last().map_or(1, |row| row.device + 1);
        return Row { device, at: random.between(1, 9) as u32, up: 0, deep: 0, name: 1, value };
    }
    let parent = random.pick(rows);
    let (device, name) = (parent.device, random.pick(rows).name);
    Row { device, at: last_at(rows, device) + 1, up: parent.at, deep: parent.deep + 1, name, value }
}

fn last_at(rows: &[Row], device: u32) -> u32 {
    rows.iter().rfind(|row| row.device == device).map_or(0, |row| row.at)
}

/// A step on a table. Each fault may be put in where another is already.
struct Faulty<'a> {
    random: &'a mut Random,
    rows: &'a [Row],
    /// Rows that earlier steps removed.
    gone: &'a [Row],
    kind: u32,
    row: Row,
}

impl Faulty<'_> {
    fn put(&mut self, fault: StepFault) {
        self.kind = match fault {
            UnknownKind => unknown_kind(self.random),
            SetNotThere | SetEqualSibling | SetEqualRoot => SET,
            RemoveNotThere | RowsUnder => REMOVE,
            _ => ADD,
        };
        match fault {
            UnknownKind => {}
            SetNotThere | RemoveNotThere => self.not_there(),
            RowsUnder => self.become_one_of(|row, other| row.is_parent_of(other)),
            OutOfRange => out_of_range(self.random, &mut self.row),
            ThereAlready => self.there_already(),
            NoParent => self.no_parent(),
            WrongDepth => self.row.deep = wrong_depth(self.random, self.row),
            AddEqualSibling => self.add_equal(|_| true),
            AddEqualRoot => self.add_equal(Row::is_root),
            SetEqualSibling => self.set_equal(|row, other| row.device == other.device),
            SetEqualRoot => self.set_equal(|row, other| row.device != other.device),
        }
    }

    /// Any row of the table for which there is another with which it passes.
    fn become_one_of(&mut self, pass: impl Fn(&Row, &Row) -> bool) {
        let passes = |row: &&Row| self.rows.iter().any(|other| pass(row, other));
        let choices: Vec<Row> = self.rows.iter().filter(passes).copied().collect();
        if !choices.is_empty() {
            self.row = self.random.pick(&choices);
        }
    }

    /// As a new row; a number that none has, one that some had, the at of one device in another.
    fn not_there(&mut self) {
        match self.random.below(6) {
            0 => self.row.device = self.random.pick(&[0, 65_535, 65_536, u32::MAX]),
            1 => self.row.at = self.random.pick(&[0, 65_535, 65_536, u32::MAX]),
            2 if !self.gone.is_empty() => self.row = self.random.pick(self.gone),
            3 if !self.rows.is_empty() => {
                self.row = self.random.pick(self.rows);
                self.row.device = self.random.pick(self.rows).device;
            }
            4 if !self.rows.is_empty() => {
                self.row = self.random.pick(self.rows);
                self.row.at += 1;
            }
            _ => {}
        }
    }

    /// Mostly with other words behind device and at.
    fn there_already(&mut self) {
        let words = self.row;
        self.become_one_of(|_, _| true);
        if self.random.chance(70) {
            self.row = Row { device: self.row.device, at: self.row.at, ..words };
        }
    }

    /// A number that no row has, one that some had, its own, one of another row, or of one behind it.
    fn no_parent(&mut self) {
        self.row.up = match self.random.below(7) {
            0 => self.row.at,
            1 if !self.gone.is_empty() => self.random.pick(self.gone).at,
            2 if !self.rows.is_empty() => self.random.pick(self.rows).at,
            3 => self.random.pick(&[65_536, 1 << 31, u32::MAX]),
            4 | 5 if self.row.up > 1 => {
                self.row.at = self.row.up - 1;
                self.row.up
            }
            _ => last_at(self.rows, self.row.device) + 2,
        };
    }

    /// A twin of some row, in a place of its own.
    fn add_equal(&mut self, pass: fn(&Row) -> bool) {
        let choices: Vec<Row> = self.rows.iter().filter(|row| pass(row)).copied().collect();
        if choices.is_empty() {
            return;
        }
        let twin = self.random.pick(&choices);
        let elsewhere = twin.is_root() && self.random.chance(70);
        let device = if elsewhere { self.random.pick(self.rows).device } else { twin.device };
        self.row = Row { device, at: last_at(self.rows, device) + 1, ..twin };
    }

    /// The value of a sibling of the same name.
    fn set_equal(&mut self, pass: fn(&Row, &Row) -> bool) {
        let is_other = |row: &Row, other: &Row| {
            row != other && row.name == other.name && row.is_sibling_of(other) && pass(row, other)
        };
        self.become_one_of(is_other);
        let row = self.row;
        let others: Vec<Row> = self.rows.iter().filter(|other| is_other(&row, other)).copied().collect();
        if !others.is_empty() {
            self.row.value = self.random.pick(&others).value;
        }
    }
}
