//! Templates worked by hand.

use super::*;
use crate::answer::Answer;

/// The house rule: every root named 1 is at most parameter 1, and has a row named 10 under it that equals parameter 0.
const HOUSE: [[u32; 4]; 5] = [[5, 1, 0, 1], [2, 2, 3, 0], [9, 0, 2, 1], [6, 4, 1, 10], [7, 1, 2, 0]];

/// Every root equals one of the parameters with these numbers. The blanks are entries 2, 4 and so on, but for the last,
/// which is the last entry.
fn comparing(numbers: impl IntoIterator<Item = u32>) -> Vec<u32> {
    let numbers: Vec<u32> = numbers.into_iter().collect();
    let mut template = vec![5, 1, 0, 1];
    for (place, number) in (1..).step_by(2).zip(&numbers[..numbers.len() - 1]) {
        template.extend([3, place + 1, place + 2, 0, 7, 0, 2, *number]);
    }
    template.extend([7, 0, 2, numbers[numbers.len() - 1]]);
    template
}

/// The same template with one word of an entry changed.
fn changed(template: &[u32], entry: usize, word: usize, to: u32) -> Vec<u32> {
    let mut template = template.to_vec();
    template[ENTRY_WORDS * entry + word] = to;
    template
}

/// The answer with room enough, and the words of an accepted one.
fn filled_with(template: &[u32], parameters: &[u32]) -> Result<Vec<u32>, (u32, usize)> {
    let mut rule = vec![7; template.len() + 2];
    match fill(template, parameters, &mut rule) {
        Answer::Done(words) => {
            assert_eq!((words, &rule[words..]), (template.len(), &[7, 7][..]));
            rule.truncate(words);
            assert_eq!(check_rule(&rule), Answer::Done(words / ENTRY_WORDS));
            Ok(rule)
        }
        Answer::Refused(refusal) => {
            assert!(rule.iter().all(|&word| word == 7), "{rule:?}");
            Err((refusal.number, refusal.place))
        }
        malformed => panic!("{malformed:?}"),
    }
}

/// Number and place of the refusal.
fn refused(template: &[u32], parameters: &[u32]) -> (u32, usize) {
    filled_with(template, parameters).expect_err("a refusal")
}

#[test]
fn each_blank_becomes_a_constant() {
    let site = |vlan, most| {
        let rule = [[5, 1, 0, 1], [2, 2, 3, 0], [9, 0, 1, most], [6, 4, 1, 10], [7, 1, 1, vlan]];
        Ok(rule.concat())
    };
    assert_eq!(filled_with(&HOUSE.concat(), &[120, 9]), site(120, 9));
    assert_eq!(filled_with(&HOUSE.concat(), &[9, 120]), site(9, 120));
    assert_eq!(filled_with(&HOUSE.concat(), &[0, 0]), site(0, 0));
    // Parameters that look like numbers of parameters, and any words.
    assert_eq!(filled_with(&HOUSE.concat(), &[1, 0]), site(1, 0));
    for word in [2, 16, MOST_VALUE, LEAST_VALUE, u32::MAX] {
        assert_eq!(filled_with(&HOUSE.concat(), &[word, 1]), site(word, 1));
        assert_eq!(filled_with(&HOUSE.concat(), &[1, word]), site(1, word));
    }
}

/// Several blanks may have one number.
#[test]
fn a_parameter_may_be_used_twice() {
    let template = changed(&HOUSE.concat(), 2, 3, 0);
    let rule = [[5, 1, 0, 1], [2, 2, 3, 0], [9, 0, 1, 7], [6, 4, 1, 10], [7, 1, 1, 7]].concat();
    assert_eq!(filled_with(&template, &[7]), Ok(rule));
    assert_eq!(refused(&template, &[7, 7]), (22, 0));
}

#[test]
fn a_template_without_blanks_is_filled_to_itself() {
    let rule = [[5, 1, 0, 1], [3, 2, 3, 0], [7, 0, 1, 0], [8, 0, 0, 0]].concat();
    assert_eq!(filled_with(&rule, &[]), Ok(rule.clone()));
    // Constants and variables are no blanks, whatever their number.
    assert_eq!(refused(&rule, &[5]), (22, 0));
}

/// Its b = 2 tells the variable of a quantifier's parent, or a connective's right child.
#[test]
fn other_kinds_have_no_blanks() {
    let template =
        [[5, 1, 0, 1], [4, 3, 2, 0], [7, 0, 1, 0], [6, 4, 1, 1], [6, 5, 2, 1], [9, 2, 2, 0]].concat();
    let rule = [[5, 1, 0, 1], [4, 3, 2, 0], [7, 0, 1, 0], [6, 4, 1, 1], [6, 5, 2, 1], [9, 2, 1, 8]].concat();
    assert_eq!(filled_with(&template, &[8]), Ok(rule.clone()));
    assert_eq!(refused(&rule, &[8]), (22, 0));
    for kind in [2, 3, 4] {
        let without = changed(&rule, 1, 0, kind);
        assert_eq!(filled_with(&without, &[]), Ok(without.clone()));
    }
    for kind in [5, 6] {
        let without = changed(&rule, 4, 0, kind);
        assert_eq!(filled_with(&without, &[]), Ok(without.clone()));
    }
    assert_eq!(
        [[5, 1, 2, 0], [3, 4, 2, 0], [1, 4, 2, 0], [7, 4, 1, 2]].map(|words| is_blank(&words)),
        [false; 4]
    );
    assert_eq!([7, 8, 9, 10].map(|kind| is_blank(&[kind, 0, 2, 0])), [true, true, true, false]);
}

/// Whatever the parameters are: those that fill the template, too few, too many.
#[test]
fn each_check_of_rules() {
    let house = HOUSE.concat();
    let nested: Vec<u32> = (1..=7).flat_map(|body| [5, body, 0, 1]).chain([7, 0, 2, 0]).collect();
    for parameters in [&[1, 2][..], &[], &[1], &[1; 3], &[1; 20]] {
        let refused = |template: &[u32]| refused(template, parameters);
        for words in [0, 1, 19] {
            assert_eq!(refused(&house[..words]), (1, 0));
        }
        assert_eq!(refused(&comparing([0; 65])), (1, 0));
        assert_eq!(refused(&changed(&house, 2, 0, 10)), (2, 2));
        assert_eq!(refused(&changed(&house, 3, 3, 65_536)), (3, 3));
        assert_eq!(refused(&changed(&house, 1, 2, 5)), (4, 1));
        assert_eq!(refused(&changed(&house, 1, 1, 3)), (5, 2));
        assert_eq!(refused(&nested), (6, 6));
        // The left variable of a blank must be bound as that of any comparison.
        assert_eq!(refused(&changed(&house, 2, 1, 1)), (7, 2));
        assert_eq!(refused(&[7, 0, 2, 0]), (7, 0));
    }
    // As many entries as may be.
    assert_eq!(filled_with(&comparing([0; 64]), &[1]).map(|rule| rule.len()), Ok(512));
}

/// b of a comparison is at most 2, and the number may be any word: it is no variable and no name.
#[test]
fn check_3_looks_at_b_alone() {
    for b in [3, 4, 16, 258, 65_538, LEAST_VALUE + 2, u32::MAX] {
        assert_eq!(refused(&changed(&HOUSE.concat(), 4, 2, b), &[1, 2]), (3, 4));
    }
    for number in [2, 6, 15, 16, 65_536, 65_537, MOST_VALUE, LEAST_VALUE, LEAST_VALUE + 1, u32::MAX] {
        assert_eq!(refused(&changed(&HOUSE.concat(), 4, 3, number), &[1, 2]), (21, 4));
    }
    // Far more parameters than variables are bound.
    assert!(filled_with(&comparing(0..16), &[5; 16]).is_ok());
}

#[test]
fn no_other_call_has_blanks() {
    let (house, row) = (HOUSE.concat(), [1, 1, 0, 0, 1, 1]);
    let refused = Answer::refused(3, 2);
    assert_eq!(check_rule(&house), refused);
    assert_eq!(verdict(&house, &row), refused);
    assert_eq!(marks(&house, &row, &mut [7]), refused);
    assert_eq!([1, 2, 3].map(|mode| part(&house, &row, mode, &mut [7; 6])), [refused; 3]);
    assert_eq!(write_rule(&house, &mut [7; 99]), refused);
    assert_eq!(check_set(&[[5, 1, 0, 1], [7, 0, 1, 0]].concat().repeat(2), &[2, 2]), Answer::Done(2));
    let set = [&[5, 1, 0, 1, 7, 0, 1, 0], &house[..]].concat();
    assert_eq!(check_set(&set, &[2, 5]), Answer::refused(3, 4));
    assert_eq!(try_plan(&set, &[2, 5], &row, &[], &mut [7; 6], &mut []).answer(), Answer::refused(3, 4));
}

/// A file of a template is read as any; a parameter number has no sign.
#[test]
fn files_of_templates() {
    let file = |number: &str| format!("kind a b c\n5 1 0 1\n7 0 2 {number}\n").into_bytes();
    let mut words = [0; 8];
    for (text, number) in [("0", 0), ("15", 15), ("2147483648", LEAST_VALUE), ("4294967295", u32::MAX)] {
        assert_eq!(read_rule(&file(text), &mut words), Answer::Done(8));
        assert_eq!(words, [5, 1, 0, 1, 7, 0, 2, number]);
    }
    for text in ["-1", "-0", "4294967296", "", "00"] {
        assert_eq!(read_rule(&file(text), &mut words), Answer::refused(19, 3));
    }
    assert_eq!(check_files(&file("0"), b"device at up deep name value\n"), 103);
    let rule = filled(&[5, 1, 0, 1, 7, 0, 2, 0], &[4_294_967_272]).expect("a rule");
    assert_eq!(RULE.text_of(&rule), b"kind a b c\n5 1 0 1\n7 0 1 -24\n");
}

/// 21 by the number of parameters alone, at the first such entry.
#[test]
fn a_number_without_parameter() {
    let house = HOUSE.concat();
    assert_eq!(refused(&house, &[]), (21, 2));
    assert_eq!(refused(&house, &[1]), (21, 2));
    assert_eq!(refused(&changed(&house, 2, 3, 0), &[]), (21, 2));
    assert_eq!(refused(&changed(&changed(&house, 2, 3, 0), 4, 3, 1), &[1]), (21, 4));
    assert_eq!(refused(&comparing([0, 5, 9]), &[1, 2, 3]), (21, 4));
    assert_eq!(refused(&comparing([0, 1, 3]), &[1, 2, 3]), (21, 5));
    // Not the entry with the largest number, nor the last one.
    assert_eq!(refused(&comparing([0, 7, 99, 8]), &[1]), (21, 4));
    // With 17 parameters number 16 has one, and 17 has none.
    assert_eq!(refused(&comparing(0..17), &[5; 17]), (22, 0));
    assert_eq!(refused(&comparing((0..17).chain([20])), &[5; 17]), (21, 35));
    assert_eq!(refused(&comparing((0..16).chain([17])), &[5; 17]), (21, 33));
}

#[test]
fn parameters_too_many_or_never_used() {
    let house = HOUSE.concat();
    assert_eq!(refused(&house, &[1, 2, 3]), (22, 0));
    for count in 1..=16 {
        assert!(filled_with(&comparing(0..count), &vec![5; count as usize]).is_ok());
        assert_eq!(refused(&comparing(0..count), &vec![5; count as usize + 1]), (22, 0));
    }
    assert_eq!(refused(&comparing(0..18), &[5; 18]), (22, 0));
    // Gaps: before all that are used, between them, and behind them.
    assert_eq!(refused(&comparing([1]), &[5; 2]), (22, 0));
    assert_eq!(refused(&comparing([1, 1]), &[5; 2]), (22, 0));
    assert_eq!(refused(&comparing([2, 0]), &[5; 3]), (22, 0));
    assert_eq!(refused(&comparing([1, 0]), &[5; 3]), (22, 0));
    assert_eq!(refused(&comparing([0, 1, 2, 15]), &[5; 16]), (22, 0));
    assert!(filled_with(&comparing([2, 0, 1, 0]), &[5, 6, 7]).is_ok());
}

/// Each before the next.
#[test]
fn the_order_of_refusals() {
    let in_room = |template: &[u32], parameters: &[u32], room: usize| {
        let mut rule = vec![7; room];
        let answer = fill(template, parameters, &mut rule);
        assert!(answer.number() == 0 || rule.iter().all(|&word| word == 7), "{rule:?}");
        answer
    };
    // 7 at the last entry, 21 at the first blank, parameters that are not used, no room.
    let unbound = changed(&comparing([9, 0]), 3, 1, 1);
    assert_eq!(in_room(&unbound, &[5; 3], 0), Answer::refused(7, 3));
    assert_eq!(in_room(&unbound, &[5; 20], 0), Answer::refused(7, 3));
    let missing = comparing([9, 0]);
    assert_eq!(in_room(&missing, &[5; 3], 0), Answer::refused(21, 2));
    let unused = comparing([2, 0]);
    assert_eq!(in_room(&unused, &[5; 3], 0), Answer::refused(22, 0));
    let used = comparing([1, 0]);
    for room in [0, 1, 15] {
        assert_eq!(in_room(&used, &[5; 2], room), Answer::refused(17, 0));
    }
    assert_eq!(in_room(&used, &[5; 2], 16), Answer::Done(16));
    assert_eq!(in_room(&used, &[5; 2], 17), Answer::Done(16));
    // Too many, and one number without: a blank behind the limit has a parameter, so 21 is the other.
    assert_eq!(in_room(&comparing((0..17).chain([17])), &[5; 17], 0), Answer::refused(21, 35));
    assert_eq!(in_room(&comparing(0..17), &[5; 17], 0), Answer::refused(22, 0));
}

/// One template, two sites.
#[test]
fn the_meaning_is_the_filled_rules() {
    let house = HOUSE.concat();
    let pool = |root: u32, vlan: u32| [1, 1, 0, 0, 1, root, 1, 2, 1, 1, 10, vlan];
    for (pool, parameters, holds) in [
        (pool(9, 120), [120, 9], 1),
        (pool(9, 120), [120, 8], 0),
        (pool(9, 120), [121, 9], 0),
        (pool(9, 120), [9, 120], 0),
        // -1 is at most 9, and 9 is not at most -1.
        (pool(u32::MAX, 120), [120, 9], 1),
        (pool(9, 120), [120, u32::MAX], 0),
        (pool(LEAST_VALUE, u32::MAX), [u32::MAX, LEAST_VALUE], 1),
    ] {
        assert_eq!(template_verdict(&house, &parameters, &pool), Answer::Done(holds), "{parameters:?}");
        let rule = filled(&house, &parameters).expect("a rule");
        assert_eq!(verdict(&rule, &pool), Answer::Done(holds), "{parameters:?}");
    }
    assert_eq!(template_verdict(&house, &[1], &pool(9, 120)), Answer::refused(21, 2));
    assert_eq!(template_verdict(&house, &[1, 2, 3], &[1]), Answer::refused(22, 0));
    assert_eq!(template_verdict(&house, &[1, 2], &[1]), Answer::refused(8, 0));
}
