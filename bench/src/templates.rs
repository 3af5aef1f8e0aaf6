//! Filling templates, beside the check of the rule that comes out.

use gabzeril_tests::checker::{self, ENTRY_WORDS};
use gabzeril_tests::generate::Filling;
use gabzeril_tests::largest;

use crate::any_name::print_ratio;
use crate::calls::Call;
use crate::cases::{case, label, Case};
use crate::inputs::B;
use crate::instructions::Counts;

const RULE_B: &str = "rule B with two blanks, one parameter";
const LONGEST: &str = "longest rule with 64 blanks, 16 parameters";
/// Filling looks at each entry once for 21 and as often as there are parameters for 22.
const MOST: f64 = 1.5;

/// Rule B, in which the mode of a server is left open.
fn rule_b() -> Filling {
    let mut template = B.to_vec();
    for entry in template.chunks_exact_mut(ENTRY_WORDS).filter(|entry| matches!(entry, [7, _, 1, _])) {
        entry[2..].copy_from_slice(&[2, 0]);
    }
    Filling { template, parameters: vec![2] }
}

fn longest() -> Filling {
    largest::fillings().pop().expect("the longest rule is the last")
}

pub fn add_cases(cases: &mut Vec<Case>) {
    for (filling, on) in [(rule_b(), RULE_B), (longest(), LONGEST)] {
        let rule = checker::filled(&filling.template, &filling.parameters).expect("a rule");
        cases.push(case(Call::CheckRule { rule }, on, 0));
        cases.push(case(Call::Fill { filling }, on, 0));
    }
}

/// Filling costs the check of the rule, and little more.
pub fn print_asked(counts: &Counts) {
    for on in [RULE_B, LONGEST] {
        let [fill, check] = ["fill", "check_rule"].map(|call| counts.of(&label(call, on, 0)));
        print_ratio("fill", &format!("{on}: over check_rule on the filled rule"), Some(MOST), fill, check);
    }
}
