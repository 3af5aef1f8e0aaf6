//! Templates: rules with blanks, which are comparisons with a parameter.

use super::entry::Entry;
use super::files::put;
use super::rule::{accepted, Form, ENTRY_WORDS};
use super::table::accepted_table;
use super::tests_of_line::{test, test_each};
use super::verdict::Evaluation;
use crate::answer::{Answer, Refusal};

/// The parameters that a template may be filled with.
pub const MOST_PARAMETERS: usize = 16;

pub fn fill(template: &[u32], parameters: &[u32], rule: &mut [u32]) -> Answer {
    put(filled(template, parameters), rule).into()
}

/// The words of the filled rule.
pub fn filled(template: &[u32], parameters: &[u32]) -> Result<Vec<u32>, Refusal> {
    checked(template, parameters)?;
    let mut rule = template.to_vec();
    for words in rule.chunks_mut(ENTRY_WORDS).filter(|words| is_blank(words)) {
        words[2] = 1;
        words[3] = parameters[words[3] as usize];
    }
    Ok(rule)
}

/// Whether an entry of these words is a blank. b of other kinds is a child or tells the parent's variable.
pub fn is_blank(words: &[u32]) -> bool {
    matches!(words, [7..=9, _, 2, _])
}

/// The meaning of a template: its own verdict on the pool, where each parameter is read in its place. Nothing is
/// filled here.
pub fn template_verdict(template: &[u32], parameters: &[u32], pool: &[u32]) -> Answer {
    let verdict = || {
        let (entries, rows) = (checked(template, parameters)?, accepted_table(pool)?);
        let evaluation = Evaluation { entries: &entries, parameters, rows: &rows };
        Ok(evaluation.verdict(0, &mut vec![]) as usize)
    };
    verdict().into()
}

/// The entries of a template that these parameters fill; or the refusal, 1 to 7, 21 or 22.
fn checked(template: &[u32], parameters: &[u32]) -> Result<Vec<Entry>, Refusal> {
    let entries = accepted_template(template)?;
    let numbers: Vec<Option<usize>> = entries.iter().map(Entry::parameter).collect();
    test_each(21, numbers.len(), |place| numbers[place].is_some_and(|number| number >= parameters.len()))?;
    let all_used = || (0..parameters.len()).all(|number| numbers.contains(&Some(number)));
    test(22, parameters.len() > MOST_PARAMETERS || !all_used())?;
    Ok(entries)
}

/// The entries of a template that passes 1 to 7, whatever its parameters; or the refusal.
pub fn accepted_template(template: &[u32]) -> Result<Vec<Entry>, Refusal> {
    accepted(template, Form::Template)
}
