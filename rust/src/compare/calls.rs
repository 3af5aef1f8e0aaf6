//! One comparison for each call of the C interface: the answer, and the final content of every buffer.

#[cfg(feature = "archive")]
pub use archive::*;
#[cfg(feature = "engine")]
pub use engine::*;
#[cfg(feature = "files_entry")]
pub use files_entry::*;
#[cfg(feature = "fold")]
pub use fold::*;
#[cfg(feature = "lower")]
pub use lower::*;
#[cfg(feature = "parts")]
pub use parts::*;
#[cfg(feature = "sets")]
pub use sets::*;
#[cfg(feature = "templates")]
pub use templates::*;
#[cfg(feature = "trial")]
pub use trial::*;

#[cfg(feature = "lower")]
mod lower {
    use crate::answer::Answer;
    use crate::compare::{Case, Lent};
    use crate::{checker, ffi};

    pub fn check_rule(case: &mut Case, rule: &[u32]) {
        let lent = Lent::of(rule);
        let (expected, found) = (checker::check_rule(rule), ffi::check_rule(lent.get()));
        let same = expected == found && lent.holds(rule);
        case.compared(same, expected, || format!("check_rule {rule:?}: {expected:?}, found {found:?}"));
    }

    pub fn check_table(case: &mut Case, table: &[u32]) {
        let lent = Lent::of(table);
        let (expected, found) = (checker::check_table(table), ffi::check_table(lent.get()));
        let same = expected == found && lent.holds(table);
        case.compared(same, expected, || format!("check_table {table:?}: {expected:?}, found {found:?}"));
    }

    pub fn join(case: &mut Case, pool: &[u32], used: usize, second: &[u32]) {
        let mut after = pool.to_vec();
        let expected = checker::join(&mut after, used, second);
        let (mut lent_pool, lent_second) = (Lent::of(pool), Lent::of(second));
        let found = ffi::join(lent_pool.get_mut(), used, lent_second.get());
        let same = expected == found && lent_pool.holds(&after) && lent_second.holds(second);
        case.compared(same, expected, || {
            format!("join {pool:?} {used} {second:?}: {expected:?}, found {found:?}, {:?}", lent_pool.get())
        });
    }

    pub fn device_rows(case: &mut Case, table: &[u32], device: u32) {
        let lent = Lent::of(table);
        let expected = checker::device_rows(table, device);
        let found = ffi::device_rows(lent.get(), device);
        let same = expected == found && lent.holds(table);
        case.compared(same, Answer::Done(expected.length), || {
            format!("device_rows {table:?} {device}: {expected:?}, found {found:?}")
        });
    }

    /// A call that reads a file, and its model.
    pub type Read = fn(&[u8], &mut [u32]) -> Answer;
    /// A call that writes a file, and its model.
    pub type Write = fn(&[u32], &mut [u8]) -> Answer;

    pub fn read_rule(case: &mut Case, file: &[u8], output: &[u32]) {
        read(case, checker::read_rule, ffi::read_rule, file, output);
    }

    pub fn read_pool(case: &mut Case, file: &[u8], output: &[u32]) {
        read(case, checker::read_pool, ffi::read_pool, file, output);
    }

    pub fn write_rule(case: &mut Case, words: &[u32], output: &[u8]) {
        write(case, checker::write_rule, ffi::write_rule, words, output);
    }

    pub fn write_pool(case: &mut Case, words: &[u32], output: &[u8]) {
        write(case, checker::write_pool, ffi::write_pool, words, output);
    }

    fn read(case: &mut Case, model: Read, call: Read, file: &[u8], output: &[u32]) {
        let mut after = output.to_vec();
        let expected = model(file, &mut after);
        let (lent_file, mut lent_output) = (Lent::of(file), Lent::of(output));
        let found = call(lent_file.get(), lent_output.get_mut());
        let same = expected == found && lent_file.holds(file) && lent_output.holds(&after);
        case.compared(same, expected, || {
            let (text, words) = (String::from_utf8_lossy(file), output.len());
            format!("read {text:?} into {words}: {expected:?}, found {found:?}, {:?}", lent_output.get())
        });
    }

    fn write(case: &mut Case, model: Write, call: Write, words: &[u32], output: &[u8]) {
        let mut after = output.to_vec();
        let expected = model(words, &mut after);
        let (lent_words, mut lent_output) = (Lent::of(words), Lent::of(output));
        let found = call(lent_words.get(), lent_output.get_mut());
        let same = expected == found && lent_words.holds(words) && lent_output.holds(&after);
        case.compared(same, expected, || {
            let (text, bytes) = (String::from_utf8_lossy(lent_output.get()), output.len());
            format!("write {words:?} into {bytes}: {expected:?}, found {found:?}, {text:?}")
        });
    }
}

#[cfg(feature = "engine")]
mod engine {
    use crate::compare::{Case, Lent};
    use crate::{checker, ffi};

    pub fn verdict(case: &mut Case, rule: &[u32], pool: &[u32]) {
        let (lent_rule, lent_pool) = (Lent::of(rule), Lent::of(pool));
        let expected = checker::verdict(rule, pool);
        let found = ffi::verdict(lent_rule.get(), lent_pool.get());
        let same = expected == found && lent_rule.holds(rule) && lent_pool.holds(pool);
        case.compared(same, expected, || format!("verdict {rule:?} {pool:?}: {expected:?}, found {found:?}"));
    }

    pub fn marks(case: &mut Case, rule: &[u32], pool: &[u32], output: &[u8]) {
        let mut after = output.to_vec();
        let expected = checker::marks(rule, pool, &mut after);
        let (lent_rule, lent_pool, mut marks) = (Lent::of(rule), Lent::of(pool), Lent::of(output));
        let found = ffi::marks(lent_rule.get(), lent_pool.get(), marks.get_mut());
        let kept = lent_rule.holds(rule) && lent_pool.holds(pool);
        case.compared(expected == found && kept && marks.holds(&after), expected, || {
            format!(
                "marks {rule:?} {pool:?} {output:?}: {expected:?} {after:?}, found {found:?} {:?}",
                marks.get()
            )
        });
    }
}

#[cfg(feature = "parts")]
mod parts {
    use crate::compare::{Case, Lent};
    use crate::{checker, ffi};

    pub fn part(case: &mut Case, rule: &[u32], table: &[u32], mode: u32, output: &[u32]) {
        let mut after = output.to_vec();
        let expected = checker::part(rule, table, mode, &mut after);
        let (lent_rule, lent_table, mut part) = (Lent::of(rule), Lent::of(table), Lent::of(output));
        let found = ffi::part(lent_rule.get(), lent_table.get(), mode, part.get_mut());
        let kept = lent_rule.holds(rule) && lent_table.holds(table);
        case.compared(expected == found && kept && part.holds(&after), expected, || {
            format!(
                "part {rule:?} {table:?} {mode} {output:?}: {expected:?} {after:?}, found {found:?} {:?}",
                part.get()
            )
        });
    }
}

#[cfg(feature = "files_entry")]
mod files_entry {
    use crate::answer::Answer;
    use crate::compare::{Case, Lent};
    use crate::{checker, ffi};

    pub fn check_files(case: &mut Case, rule_file: &[u8], pool_file: &[u8]) {
        let (lent_rule, lent_pool) = (Lent::of(rule_file), Lent::of(pool_file));
        let expected = checker::check_files(rule_file, pool_file);
        let found = ffi::check_files(lent_rule.get(), lent_pool.get());
        let same = expected == found && lent_rule.holds(rule_file) && lent_pool.holds(pool_file);
        let answer = match expected {
            0 | 1 => Answer::Done(expected as usize),
            _ => Answer::refused(expected - 100, 0),
        };
        case.compared(same, answer, || {
            let (rule, pool) = (String::from_utf8_lossy(rule_file), String::from_utf8_lossy(pool_file));
            format!("check_files {rule:?} {pool:?}: {expected}, found {found}")
        });
    }

    pub fn report(case: &mut Case, rule_file: &[u8], pool_file: &[u8], output: &[u8]) {
        let mut after = output.to_vec();
        let expected = checker::report(rule_file, pool_file, &mut after);
        let (lent_rule, lent_pool) = (Lent::of(rule_file), Lent::of(pool_file));
        let mut text = Lent::of(output);
        let found = ffi::report(lent_rule.get(), lent_pool.get(), text.get_mut());
        let kept = lent_rule.holds(rule_file) && lent_pool.holds(pool_file);
        let same = expected == found && kept && text.holds(&after);
        case.compared(same, Answer::Done(expected), || {
            let (rule, pool) = (String::from_utf8_lossy(rule_file), String::from_utf8_lossy(pool_file));
            let (after, text) = (String::from_utf8_lossy(&after), String::from_utf8_lossy(text.get()));
            format!("report {rule:?} {pool:?}: {expected} {after:?}, found {found} {text:?}")
        });
    }
}

#[cfg(feature = "sets")]
mod sets {
    use crate::compare::{Case, Lent, LentSet};
    use crate::generate::Set;
    use crate::{checker, ffi};

    pub fn check_set(case: &mut Case, set: &Set) {
        let lent = LentSet::of(set);
        let expected = checker::check_set(&set.rules, &set.counts);
        let found = ffi::check_set(lent.rules.get(), lent.counts.get());
        case.compared(expected == found && lent.holds(set), expected, || {
            format!("check_set {set:?}: {expected:?}, found {found:?}")
        });
    }

    pub fn set_verdicts(case: &mut Case, set: &Set, pool: &[u32], output: &[u8]) {
        let mut after = output.to_vec();
        let expected = checker::set_verdicts(&set.rules, &set.counts, pool, &mut after);
        let (lent, lent_pool, mut verdicts) = (LentSet::of(set), Lent::of(pool), Lent::of(output));
        let found =
            ffi::set_verdicts(lent.rules.get(), lent.counts.get(), lent_pool.get(), verdicts.get_mut());
        let kept = lent.holds(set) && lent_pool.holds(pool);
        case.compared(expected == found && kept && verdicts.holds(&after), expected, || {
            format!(
                "set_verdicts {set:?} {pool:?} {output:?}: {expected:?} {after:?}, found {found:?} {:?}",
                verdicts.get()
            )
        });
    }

    pub fn set_part(case: &mut Case, set: &Set, table: &[u32], mode: u32, output: &[u32]) {
        let mut after = output.to_vec();
        let expected = checker::set_part(&set.rules, &set.counts, table, mode, &mut after);
        let (lent, lent_table, mut part) = (LentSet::of(set), Lent::of(table), Lent::of(output));
        let found =
            ffi::set_part(lent.rules.get(), lent.counts.get(), lent_table.get(), mode, part.get_mut());
        let kept = lent.holds(set) && lent_table.holds(table);
        case.compared(expected == found && kept && part.holds(&after), expected, || {
            format!(
                "set_part {set:?} {table:?} {mode} {output:?}: {expected:?} {after:?}, found {found:?} {:?}",
                part.get()
            )
        });
    }
}

#[cfg(feature = "trial")]
mod trial {
    use crate::answer::{Refusal, Trial};
    use crate::checker::{tried, words_of, Room, Tried};
    use crate::compare::{Case, Lent, LentSet};
    use crate::ffi;
    use crate::generate::Plan;

    /// Gives what was expected.
    pub fn try_plan(case: &mut Case, plan: &Plan, room: Room) -> Result<Tried, Refusal> {
        let Plan { set, pool, steps } = plan;
        let (words, bytes) = (case.random.words(room.words), case.random.bytes(room.bytes));
        let (lent, lent_pool, lent_steps) = (LentSet::of(set), Lent::of(pool), Lent::of(steps));
        let (mut table, mut verdicts) = (Lent::of(&words), Lent::of(&bytes));
        let found = ffi::try_plan(
            lent.rules.get(),
            lent.counts.get(),
            lent_pool.get(),
            lent_steps.get(),
            table.get_mut(),
            verdicts.get_mut(),
        );
        let kept = lent.holds(set) && lent_pool.holds(pool) && lent_steps.holds(steps);
        let expected = tried(&set.rules, &set.counts, pool, steps, room);
        let (answer, as_expected) = match &expected {
            Ok(left) => (left.answer(), is_left(left, &table, &verdicts, &bytes)),
            Err(refusal) => (Trial::before_steps(*refusal), table.holds(&words) && verdicts.holds(&bytes)),
        };
        case.compared(answer == found && kept && as_expected, answer.answer(), || {
            let (table, verdicts) = (table.get(), verdicts.get());
            format!(
                "try {plan:?} {room:?}: {answer:?} {expected:?}, found {found:?} {table:?} {verdicts:?}; before them {bytes:?}"
            )
        });
        expected
    }

    /// Whether the outputs hold what the plan leaves. Past the working table they may hold any words, past the
    /// verdicts they hold the bytes that were there.
    fn is_left(left: &Tried, table: &Lent<u32>, verdicts: &Lent<u8>, bytes: &[u8]) -> bool {
        let past = &bytes[left.verdicts.len()..];
        table.starts_with(&words_of(&left.rows)) && verdicts.holds(&[&left.verdicts, past].concat())
    }
}

#[cfg(feature = "templates")]
mod templates {
    use crate::compare::{Case, Lent};
    use crate::generate::Filling;
    use crate::{checker, ffi};

    pub fn fill(case: &mut Case, filling: &Filling, output: &[u32]) {
        let Filling { template, parameters } = filling;
        let mut after = output.to_vec();
        let expected = checker::fill(template, parameters, &mut after);
        let (lent_template, lent_parameters) = (Lent::of(template), Lent::of(parameters));
        let mut rule = Lent::of(output);
        let found = ffi::fill(lent_template.get(), lent_parameters.get(), rule.get_mut());
        let kept = lent_template.holds(template) && lent_parameters.holds(parameters);
        case.compared(expected == found && kept && rule.holds(&after), expected, || {
            format!("fill {filling:?} {output:?}: {expected:?} {after:?}, found {found:?} {:?}", rule.get())
        });
    }
}

#[cfg(feature = "archive")]
mod archive {
    use super::on_words::{on_words, OnWords};
    use crate::compare::Case;
    use crate::{checker, ffi};

    /// A call that gives words another order, and its model.
    pub type Reorder = OnWords;

    pub fn to_columns(case: &mut Case, table: &[u32], output: &[u32]) {
        on_words(case, "to_columns", [checker::to_columns, ffi::to_columns], table, output);
    }

    pub fn from_columns(case: &mut Case, columns: &[u32], output: &[u32]) {
        on_words(case, "from_columns", [checker::from_columns, ffi::from_columns], columns, output);
    }
}

#[cfg(feature = "fold")]
mod fold {
    use super::on_words::on_words;
    use crate::compare::Case;
    use crate::{checker, ffi};

    pub fn fold(case: &mut Case, table: &[u32], output: &[u32]) {
        on_words(case, "fold", [checker::fold, ffi::fold], table, output);
    }
}

#[cfg(any(feature = "archive", feature = "fold"))]
mod on_words {
    use crate::answer::Answer;
    use crate::compare::{Case, Lent};

    /// A call that makes words of others, and its model.
    pub type OnWords = fn(&[u32], &mut [u32]) -> Answer;

    pub fn on_words(case: &mut Case, name: &str, [model, call]: [OnWords; 2], words: &[u32], output: &[u32]) {
        let mut after = output.to_vec();
        let expected = model(words, &mut after);
        let (lent_words, mut lent_output) = (Lent::of(words), Lent::of(output));
        let found = call(lent_words.get(), lent_output.get_mut());
        let same = expected == found && lent_words.holds(words) && lent_output.holds(&after);
        case.compared(same, expected, || {
            let written = lent_output.get();
            format!("{name} {words:?} {output:?}: {expected:?} {after:?}, found {found:?} {written:?}")
        });
    }
}
