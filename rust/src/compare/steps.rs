//! What the steps of a plan meet, noted for the tallies.

use std::collections::HashSet;

use super::refused_step::{faults, note_refused_step};
use super::Case;
use crate::answer::Refusal;
use crate::checker::{
    accepted_set, is_reached, rows_after, rows_of, Entry, Room, Row, Tried, ADD, MOST_NESTED, REMOVE, SET,
    STEP_WORDS,
};
use crate::generate::Plan;

pub const ALL_DONE: &str = "a plan of ten steps or more, all done";
pub const ADDED_FIRST: &str = "a row added before the first";
pub const ADDED_LAST: &str = "a row added behind the last";
pub const ADDED_TO_NONE: &str = "a row added to a table without rows";
pub const NEW_DEVICE: &str = "a row of a new device between two";
pub const EMPTIED: &str = "the last row removed";
pub const ANOTHER_THERE: &str = "a row added with another name or parent where one was removed";
pub const FREED: &str = "a row removed that had rows under it";
pub const DEEP: &str = "a row that hangs under six others or more";
pub const OTHER_NAME: &str = "a row with a name that no rule takes";
pub const OTHER_PARENT: &str = "a row with a name that a rule takes and that no rule reaches";
pub const UNDER_UNREACHED: &str = "a row with a name that a rule takes under one that no rule reaches";
pub const SOME_REACH: &str = "a row that some rules reach and others do not";
pub const DEEPEST: &str = "a row that hangs under five others and that a rule reaches";
pub const SOME_TURN: &str = "a step that turns some verdicts and leaves others";

/// How the kinds are called in notes.
pub const KINDS: [(u32, &str); 3] = [(SET, "set"), (ADD, "add"), (REMOVE, "remove")];

/// Of this kind, with a row that no rule reaches.
pub fn unreached(kind: &str) -> String {
    format!("{kind}: a row that no rule reaches")
}

pub fn turned(kind: &str) -> String {
    format!("{kind}: a verdict turns")
}

/// Notes the refusal and what the steps done have met.
pub fn note_plan(case: &mut Case, plan: &Plan, room: Room, expected: &Result<Tried, Refusal>) {
    match expected {
        Err(refusal) => case.note(format!("{} before step 0", refusal.number)),
        Ok(tried) => Walk::new(plan, tried).walk(case, plan, room),
    }
}

/// A walk through the states of a plan.
pub struct Walk<'a> {
    tried: &'a Tried,
    set: Vec<Vec<Entry>>,
    pub rows: Vec<Row>,
    /// Rows that steps removed.
    pub gone: Vec<Row>,
    /// Device and at of the rows that had rows under them before some step.
    parents: HashSet<[u32; 2]>,
}

impl Walk<'_> {
    fn new<'a>(plan: &Plan, tried: &'a Tried) -> Walk<'a> {
        let set = accepted_set(&plan.set.rules, &plan.set.counts).expect("an accepted set");
        Walk { tried, set, rows: rows_of(&plan.pool), gone: vec![], parents: HashSet::new() }
    }

    fn walk(&mut self, case: &mut Case, plan: &Plan, room: Room) {
        let mut steps = plan.steps.chunks(STEP_WORDS);
        for (done, words) in steps.by_ref().take(self.tried.steps).enumerate() {
            assert_eq!(faults(self, words, room, done), [], "a step that was done");
            let after = rows_after(&self.rows, words).expect("a step that was done");
            let step = Step::new(&self.rows, words, &after);
            self.note_place(case, &step, &after);
            self.note_rules(case, &step, done);
            self.parents.extend(self.rows.iter().map(|row| [row.device, row.up]));
            if step.kind == REMOVE {
                self.gone.push(step.row);
            }
            self.rows = after;
        }
        match (self.tried.refused, steps.next()) {
            (Some(number), Some(words)) => note_refused_step(case, self, words, room, number),
            (refused, _) => assert_eq!(refused, None),
        }
        if self.tried.refused.is_none() && self.tried.steps >= 10 {
            case.note(ALL_DONE);
        }
    }

    pub fn rules(&self) -> usize {
        self.set.len()
    }

    pub fn steps_done(&self) -> usize {
        self.tried.steps
    }

    /// Where a row is added, and what is removed.
    fn note_place(&self, case: &mut Case, step: &Step, after: &[Row]) {
        let (row, place) = (&step.row, step.place);
        let is_same = |old: &Row| (old.device, old.at) == (row.device, row.at);
        let other_device = |place: Option<usize>| {
            place.and_then(|place| after.get(place)).is_some_and(|other| other.device != row.device)
        };
        let between_devices = other_device(place.checked_sub(1)) && other_device(Some(place + 1));
        let mut other_rows = self.gone.iter().filter(|old| (old.name, old.up) != (row.name, row.up));
        let (added, removed) = (step.kind == ADD, step.kind == REMOVE);
        case.note_met([
            (added && place == 0 && after.len() > 1, ADDED_FIRST),
            (added && place > 0 && place + 1 == after.len(), ADDED_LAST),
            (added && after.len() == 1, ADDED_TO_NONE),
            (added && between_devices, NEW_DEVICE),
            (added && other_rows.any(is_same), ANOTHER_THERE),
            (removed && after.is_empty(), EMPTIED),
            (removed && self.parents.contains(&[row.device, row.at]), FREED),
            (row.deep as usize >= MOST_NESTED, DEEP),
        ]);
    }

    /// Which rules reach the row, and which verdicts turn: none of a rule that does not reach it.
    fn note_rules(&self, case: &mut Case, step: &Step, done: usize) {
        let takes = |entry: &Entry| entry.quantifier().is_some_and(|quantifier| quantifier.takes(&step.row));
        let of_a_rule = self.set.iter().flatten().any(takes);
        let reached = |rule: usize, place: usize| is_reached(&self.set[rule], step.table, place);
        let all = 0..self.set.len();
        let reach = all.clone().filter(|&rule| of_a_rule && reached(rule, step.place)).count();
        let turn: Vec<usize> = all.clone().filter(|&rule| self.turns(done, rule)).collect();
        assert!(turn.iter().all(|&rule| reached(rule, step.place)), "a verdict turns without reach");
        let parent = step.table.iter().position(|parent| parent.is_parent_of(&step.row));
        let under_unreached = parent.is_some_and(|parent| !all.clone().any(|rule| reached(rule, parent)));
        let kind = step.kind_name();
        case.note_met([
            (!of_a_rule, OTHER_NAME),
            (of_a_rule && reach == 0, OTHER_PARENT),
            (of_a_rule && under_unreached, UNDER_UNREACHED),
            (0 < reach && reach < all.len(), SOME_REACH),
            (0 < reach && step.row.deep as usize + 1 == MOST_NESTED, DEEPEST),
            (!turn.is_empty() && turn.len() < all.len(), SOME_TURN),
            (reach == 0, &unreached(kind)),
            (!turn.is_empty(), &turned(kind)),
        ]);
    }

    /// Whether the verdict of a rule differs from that after the step before.
    fn turns(&self, done: usize, rule: usize) -> bool {
        let (verdicts, rules) = (&self.tried.verdicts, self.set.len());
        done > 0 && verdicts[done * rules + rule] != verdicts[(done - 1) * rules + rule]
    }
}

/// A step that was done.
struct Step<'a> {
    kind: u32,
    row: Row,
    /// The table that has the row, and its place there.
    table: &'a [Row],
    place: usize,
}

impl Step<'_> {
    fn new<'a>(before: &'a [Row], words: &[u32], after: &'a [Row]) -> Step<'a> {
        let table = if words[0] == REMOVE { before } else { after };
        let place = table.iter().position(|row| [row.device, row.at] == words[1..3]).expect("its row");
        Step { kind: words[0], row: table[place], table, place }
    }

    fn kind_name(&self) -> &'static str {
        KINDS.iter().find(|(kind, _)| *kind == self.kind).expect("a known kind").1
    }
}
