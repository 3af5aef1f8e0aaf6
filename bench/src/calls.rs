//! The calls of the C interface, made on the library or on the Rust checker.

use gabzeril_tests::answer::{Answer, Trial};
use gabzeril_tests::generate::{Filling, Plan, Set};
use gabzeril_tests::{checker, ffi};

use crate::loops::{self, Loops};

/// The same functions of either side.
pub struct Side {
    check_rule: fn(&[u32]) -> Answer,
    fill: fn(&Filling, &mut [u32]) -> Answer,
    check_table: fn(&[u32]) -> Answer,
    fold: fn(&[u32], &mut [u32]) -> Answer,
    join: fn(&mut [u32], usize, &[u32]) -> Answer,
    to_columns: fn(&[u32], &mut [u32]) -> Answer,
    from_columns: fn(&[u32], &mut [u32]) -> Answer,
    read_rule: fn(&[u8], &mut [u32]) -> Answer,
    read_pool: fn(&[u8], &mut [u32]) -> Answer,
    write_pool: fn(&[u32], &mut [u8]) -> Answer,
    write_rule: fn(&[u32], &mut [u8]) -> Answer,
    verdict: fn(&[u32], &[u32]) -> Answer,
    marks: fn(&[u32], &[u32], &mut [u8]) -> Answer,
    part: fn(&[u32], &[u32], u32, &mut [u32]) -> Answer,
    check_files: fn(&[u8], &[u8]) -> u32,
    check_set: fn(&Set) -> Answer,
    set_verdicts: fn(&Set, &[u32], &mut [u8]) -> Answer,
    set_part: fn(&Set, &[u32], u32, &mut [u32]) -> Answer,
    try_plan: fn(&Plan, &mut [u32], &mut [u8]) -> Trial,
}

pub const LIBRARY: Side = Side {
    check_rule: ffi::check_rule,
    fill: |filling, rule| ffi::fill(&filling.template, &filling.parameters, rule),
    check_table: ffi::check_table,
    fold: ffi::fold,
    join: ffi::join,
    to_columns: ffi::to_columns,
    from_columns: ffi::from_columns,
    read_rule: ffi::read_rule,
    read_pool: ffi::read_pool,
    write_pool: ffi::write_pool,
    write_rule: ffi::write_rule,
    verdict: ffi::verdict,
    marks: ffi::marks,
    part: ffi::part,
    check_files: ffi::check_files,
    check_set: |set| ffi::check_set(&set.rules, &set.counts),
    set_verdicts: |set, pool, verdicts| ffi::set_verdicts(&set.rules, &set.counts, pool, verdicts),
    set_part: |set, table, mode, part| ffi::set_part(&set.rules, &set.counts, table, mode, part),
    try_plan: |plan, table, verdicts| {
        ffi::try_plan(&plan.set.rules, &plan.set.counts, &plan.pool, &plan.steps, table, verdicts)
    },
};

pub const CHECKER: Side = Side {
    check_rule: checker::check_rule,
    fill: |filling, rule| checker::fill(&filling.template, &filling.parameters, rule),
    check_table: checker::check_table,
    fold: checker::fold,
    join: checker::join,
    to_columns: checker::to_columns,
    from_columns: checker::from_columns,
    read_rule: checker::read_rule,
    read_pool: checker::read_pool,
    write_pool: checker::write_pool,
    write_rule: checker::write_rule,
    verdict: checker::verdict,
    marks: checker::marks,
    part: checker::part,
    check_files: checker::check_files,
    check_set: |set| checker::check_set(&set.rules, &set.counts),
    set_verdicts: |set, pool, verdicts| checker::set_verdicts(&set.rules, &set.counts, pool, verdicts),
    set_part: |set, table, mode, part| checker::set_part(&set.rules, &set.counts, table, mode, part),
    try_plan: |plan, table, verdicts| {
        checker::try_plan(&plan.set.rules, &plan.set.counts, &plan.pool, &plan.steps, table, verdicts)
    },
};

/// One call with its inputs.
#[derive(Clone)]
pub enum Call {
    CheckRule {
        rule: Vec<u32>,
    },
    Fill {
        filling: Filling,
    },
    CheckTable {
        table: Vec<u32>,
    },
    Fold {
        table: Vec<u32>,
    },
    Join {
        first: Vec<u32>,
        second: Vec<u32>,
    },
    ToColumns {
        table: Vec<u32>,
    },
    FromColumns {
        columns: Vec<u32>,
    },
    ReadRule {
        file: Vec<u8>,
    },
    ReadPool {
        file: Vec<u8>,
    },
    WritePool {
        table: Vec<u32>,
        /// The bytes of the buffer; all there are if this is none.
        room: Option<usize>,
    },
    WriteRule {
        rule: Vec<u32>,
    },
    Verdict {
        rule: Vec<u32>,
        pool: Vec<u32>,
    },
    Marks {
        rule: Vec<u32>,
        pool: Vec<u32>,
    },
    Part {
        rule: Vec<u32>,
        table: Vec<u32>,
        mode: u32,
    },
    CheckFiles {
        rule_file: Vec<u8>,
        pool_file: Vec<u8>,
    },
    CheckSet {
        set: Set,
    },
    SetVerdicts {
        set: Set,
        pool: Vec<u32>,
    },
    SetPart {
        set: Set,
        table: Vec<u32>,
        mode: u32,
    },
    /// The verdict of each rule of a set by the call on one rule.
    EachVerdict {
        set: Set,
        pool: Vec<u32>,
    },
    /// The part for each rule likewise.
    EachPart {
        set: Set,
        table: Vec<u32>,
        mode: u32,
    },
    /// A plan of which no step is refused.
    Try {
        plan: Plan,
    },
    /// Plain loops in C in the place of the library or the checker.
    Loops {
        loops: Loops,
        pool: Vec<u32>,
    },
    /// Folding by such a loop.
    FoldLoops {
        table: Vec<u32>,
    },
}

/// The outputs of a call, long enough for any. They are not cleared from one call to the next.
#[derive(PartialEq, Eq)]
pub struct Outputs {
    words: Vec<u32>,
    bytes: Vec<u8>,
}

impl Outputs {
    pub fn of(call: &Call) -> Outputs {
        let mut words = vec![0; checker::MOST_ROWS * checker::ROW_WORDS];
        if let Call::Join { first, .. } = call {
            words[..first.len()].copy_from_slice(first);
        }
        Outputs { words, bytes: vec![0; checker::MOST_FILE_BYTES] }
    }

    /// Clears what the call leaves free: the words past a working table.
    pub fn clear_free(&mut self, call: &Call, answer: Answer) {
        if let (Call::Try { .. }, Answer::Done(rows)) = (call, answer) {
            self.words[rows * checker::ROW_WORDS..].fill(0);
        }
    }
}

impl Call {
    pub fn make(&self, side: &Side, outputs: &mut Outputs) -> Answer {
        let Outputs { words, bytes } = outputs;
        match self {
            Call::CheckRule { rule } => (side.check_rule)(rule),
            Call::Fill { filling } => (side.fill)(filling, words),
            Call::CheckTable { table } => (side.check_table)(table),
            Call::Fold { table } => (side.fold)(table, words),
            // Each call puts the second table behind the same first one.
            Call::Join { first, second } => (side.join)(words, first.len(), second),
            Call::ToColumns { table } => (side.to_columns)(table, words),
            Call::FromColumns { columns } => (side.from_columns)(columns, words),
            Call::ReadRule { file } => (side.read_rule)(file, words),
            Call::ReadPool { file } => (side.read_pool)(file, words),
            Call::WritePool { table, room } => {
                let room = room.unwrap_or(bytes.len());
                (side.write_pool)(table, &mut bytes[..room])
            }
            Call::WriteRule { rule } => (side.write_rule)(rule, bytes),
            Call::Verdict { rule, pool } => (side.verdict)(rule, pool),
            Call::Marks { rule, pool } => (side.marks)(rule, pool, bytes),
            Call::Part { rule, table, mode } => (side.part)(rule, table, *mode, words),
            Call::CheckFiles { rule_file, pool_file } => {
                Answer::Done((side.check_files)(rule_file, pool_file) as usize)
            }
            Call::CheckSet { set } => (side.check_set)(set),
            Call::SetVerdicts { set, pool } => (side.set_verdicts)(set, pool, bytes),
            Call::SetPart { set, table, mode } => (side.set_part)(set, table, *mode, words),
            Call::EachVerdict { set, pool } => on_each_rule(set, |rule| (side.verdict)(rule, pool)),
            Call::EachPart { set, table, mode } => {
                on_each_rule(set, |rule| (side.part)(rule, table, *mode, words))
            }
            Call::Try { plan } => match (side.try_plan)(plan, words, bytes) {
                Trial { number: 0, rows, .. } => Answer::Done(rows),
                refused => refused.answer(),
            },
            Call::Loops { loops, pool } => loops.run(pool, bytes),
            Call::FoldLoops { table } => loops::fold(table, words),
        }
    }

    /// Whether the checker takes too long for it to be timed: each step has the verdicts of all rules.
    pub fn is_long(&self) -> bool {
        matches!(self, Call::Try { plan } if plan.step_count() > 2)
    }

    pub fn name(&self) -> String {
        match self {
            Call::CheckRule { .. } => "check_rule".into(),
            Call::Fill { .. } => "fill".into(),
            Call::CheckTable { .. } => "check_table".into(),
            Call::Fold { .. } => "fold".into(),
            Call::Join { .. } => "join".into(),
            Call::ToColumns { .. } => "to_columns".into(),
            Call::FromColumns { .. } => "from_columns".into(),
            Call::ReadRule { .. } => "read_rule".into(),
            Call::ReadPool { .. } => "read_pool".into(),
            Call::WritePool { .. } => "write_pool".into(),
            Call::WriteRule { .. } => "write_rule".into(),
            Call::Verdict { .. } => "verdict".into(),
            Call::Marks { .. } => "marks".into(),
            Call::Part { mode, .. } => format!("part, mode {mode}"),
            Call::CheckFiles { .. } => "check_files".into(),
            Call::CheckSet { .. } => "check_set".into(),
            Call::SetVerdicts { .. } => "set_verdicts".into(),
            Call::SetPart { mode, .. } => format!("set_part, mode {mode}"),
            Call::EachVerdict { .. } => "verdict of each rule".into(),
            Call::EachPart { mode, .. } => format!("part for each rule, mode {mode}"),
            Call::Try { .. } => "try".into(),
            Call::Loops { loops, .. } => loops.name().into(),
            Call::FoldLoops { .. } => "loops in C, fold".into(),
        }
    }
}

/// The sum of the values of a call on each rule; none is refused.
fn on_each_rule(set: &Set, mut call: impl FnMut(&[u32]) -> Answer) -> Answer {
    let (mut sum, mut rest) = (0, &set.rules[..]);
    for &count in &set.counts {
        let (rule, others) = rest.split_at(count as usize * checker::ENTRY_WORDS);
        rest = others;
        match call(rule) {
            Answer::Done(value) => sum += value,
            refused => return refused,
        }
    }
    Answer::Done(sum)
}
