//! Templates: their filling, what the filled rule means, and what other calls say of them.
#![cfg(all(
    feature = "lower",
    feature = "engine",
    feature = "parts",
    feature = "files_entry",
    feature = "sets",
    feature = "trial",
    feature = "templates"
))]

use gabzeril_tests::answer::Answer;
use gabzeril_tests::checker::{
    self, check_rule, filled, is_blank, rows_of, template_verdict, words_of, Room, ENTRY_WORDS, LEAST_VALUE,
    MOST_ENTRIES, MOST_VALUE, RULE,
};
use gabzeril_tests::compare::each_call::{each_file, each_on_words, each_part, mostly_one_device};
use gabzeril_tests::compare::fillings::*;
use gabzeril_tests::compare::refused_step::before;
use gabzeril_tests::compare::{calls, run, Case};
use gabzeril_tests::ffi;
use gabzeril_tests::generate::*;
use gabzeril_tests::random::Random;

const LIMIT: Together = Together { rows: 24, cost: 4_000 };

/// How often at least each is noted of the fillings below.
const NOTED: [(&str, u64); 27] = [
    (NO_BLANKS, 8_000),
    (MOST, 10_000),
    (LONGEST, 4_000),
    (ALL_BLANKS, 25_000),
    (SHARED, 20_000),
    (BESIDE_OTHERS, 3_000),
    (QUANTIFIER, 4_500),
    (CONNECTIVE, 10_000),
    (BELOW_ZERO, 20_000),
    (JUST_FITS, 10_000),
    (ROOM_BEHIND, 40_000),
    (MUCH_ROOM, 5_000),
    (NO_ROOM, 8_000),
    (A_WORD_SHORT, 8_000),
    (FAR_NUMBER, 2_000),
    (NUMBER_AT_COUNT, 7_000),
    (NUMBER_WITHIN_LIMIT, 8_000),
    (NUMBER_BEHIND_17, 2_000),
    (SEVERAL_MISSING, 6_000),
    (TOO_MANY_USED, 4_500),
    (JUST_TOO_MANY_USED, 3_000),
    (GAP, 8_000),
    (LAST_UNUSED, 9_000),
    (FAR_TOO_MANY, 2_000),
    (WRONG_B, 5_500),
    (UNBOUND, 3_000),
    (BLANKS_ALONE, 700),
];

/// Of every kind there is. A good half of them are refused.
fn any_request(random: &mut Random) -> Filling {
    let (choice, mut filling) =
        (random.below(20), if random.chance(60) { filling(random) } else { filling_of_many(random) });
    match choice {
        0..8 => filling,
        8..11 => loose_filling(random),
        11 => any_filling(random),
        12..15 => {
            let fault = random.pick(&TEMPLATE_FAULTS).0;
            damage_filling(random, &mut filling, fault);
            filling
        }
        15 => too_many(random),
        _ => damaged_filling(random, &filling),
    }
}

/// More parameters than may be, all of them used; at times with a number behind them.
fn too_many(random: &mut Random) -> Filling {
    let mut filling = filling_of_many(random);
    damage_filling(random, &mut filling, TemplateFault::TooManyUsed);
    if random.chance(40) {
        damage_filling(random, &mut filling, TemplateFault::LargeNumber);
    }
    filling
}

/// Number, place, value and every word of the three buffers, and of what lies around them.
#[test]
fn fillings() {
    let tally = run("fillings", 100_000, 200_000, |case| {
        let filling = any_request(&mut case.random);
        for _ in 0..2 {
            fill_in_some_room(case, &filling);
        }
    });
    tally.saw_each([0], 50_000);
    tally.saw_each(RULE_FAULTS, 2_500);
    tally.saw_each([21, 22, 17], 15_000);
    for (what, least) in NOTED {
        tally.saw_noted(what, least);
    }
    (0..=18).for_each(|count| tally.saw_noted(&parameters(count), 1_000));
    for number in RULE_FAULTS.into_iter().chain([21, 22, 17]) {
        tally.saw_noted(&alone(number), 500);
    }
    for first in RULE_FAULTS {
        [21, 22, 17].iter().for_each(|&later| tally.saw_noted(&before(first, later), 500));
    }
    for (first, later) in [(21, 22), (21, 17), (22, 17)] {
        tally.saw_noted(&before(first, later), 5_000);
    }
}

fn fill_in_some_room(case: &mut Case, filling: &Filling) {
    let room = one_length_around(&mut case.random, filling.template.len());
    let output = case.random.words(room);
    calls::fill(case, filling, &output);
    let answer = checker::fill(&filling.template, &filling.parameters, &mut output.clone());
    note_filling(case, filling, room, answer);
}

const TURNED: &str = "another verdict with other parameters";
const NUMBERS_TURNED: &str = "another verdict with the numbers in the place of the parameters";

/// The library's verdict of the rule that the library filled is the meaning of the template, on several pools. The rule
/// is an accepted one, which differs from the template in the blanks alone; marks and parts are the checker's.
#[test]
fn filled_rules() {
    let tally = run("filled_rules", 24_000, 150_000, |case| {
        let (filling, pool) = filling_and_pool(&mut case.random, LIMIT);
        let rule = fill_by_library(case, &filling);
        check_words(case, &filling, &rule);
        means_the_template(case, &filling, &rule, &pool);
        for _ in 0..2 {
            let other = with_values_near(&mut case.random, &filling, &pool);
            means_the_template(case, &filling, &rule, &other);
        }
        note_other_parameters(case, &filling, &rule, &pool);
        if case.random.chance(15) {
            each_on_words(case, &rule, &pool);
            let device = mostly_one_device(case, &pool);
            if reading_cost(&rule, device) <= 10 * LIMIT.cost {
                each_part(case, &rule, device);
            }
            each_file(case, &rule, &pool, 10 * LIMIT.cost);
        }
    });
    tally.saw_each([0], 120_000);
    tally.saw_both_values(25_000);
    tally.saw_noted(TURNED, 3_000);
    tally.saw_noted(NUMBERS_TURNED, 3_000);
}

/// The words that the library writes, in a buffer of just their length.
fn fill_by_library(case: &mut Case, filling: &Filling) -> Vec<u32> {
    let mut rule = case.random.words(filling.template.len());
    calls::fill(case, filling, &rule);
    assert_eq!(ffi::fill(&filling.template, &filling.parameters, &mut rule), Answer::Done(rule.len()));
    rule
}

/// Each blank has b = 1 and its parameter; all else is the template's. The rule is accepted with as many entries.
fn check_words(case: &mut Case, filling: &Filling, rule: &[u32]) {
    let entries = filling.template.chunks(ENTRY_WORDS).zip(rule.chunks(ENTRY_WORDS));
    let same = entries.clone().all(|(template, rule)| match template {
        [kind @ 7..=9, a, 2, number] => rule == [*kind, *a, 1, filling.parameters[*number as usize]],
        _ => rule == template,
    });
    let kept = same && entries.len() * ENTRY_WORDS == rule.len();
    case.compared(kept, Answer::Done(rule.len()), || format!("{filling:?}: {rule:?}"));
    let (entries, found) = (Answer::Done(rule.len() / ENTRY_WORDS), ffi::check_rule(rule));
    case.compared(found == entries, entries, || format!("{filling:?}: {rule:?} {found:?}"));
}

fn means_the_template(case: &mut Case, filling: &Filling, rule: &[u32], pool: &[u32]) {
    let meaning = filling.verdict(&filling.parameters, pool);
    let found = ffi::verdict(rule, pool);
    case.compared(found == meaning, meaning, || {
        format!("{filling:?} {pool:?}: {meaning:?}, found {found:?}")
    });
}

/// The same rows with other values, mostly those of parameters or next to them. The table is accepted.
fn with_values_near(random: &mut Random, filling: &Filling, pool: &[u32]) -> Vec<u32> {
    let values = [&filling.parameters[..], &values_of(&filling.template, pool)].concat();
    let mut rows = rows_of(pool);
    for place in 0..rows.len() {
        let value = parameter(random, &values);
        let row = rows[place];
        let is_twin =
            |other: &checker::Row| row.is_sibling_of(other) && (other.name, other.value) == (row.name, value);
        if !rows.iter().any(is_twin) {
            rows[place].value = value;
        }
    }
    words_of(&rows)
}

fn note_other_parameters(case: &mut Case, filling: &Filling, rule: &[u32], pool: &[u32]) {
    let turned = turned_by_others(&mut case.random, filling, pool, &values_of(rule, pool));
    let numbers: Vec<u32> = (0..filling.parameters.len() as u32).collect();
    let by_numbers = filling.verdict(&numbers, pool) != filling.verdict(&filling.parameters, pool);
    case.note_met([(turned, TURNED), (by_numbers, NUMBERS_TURNED)]);
}

const HAS_BLANK: &str = "a template with a blank that 1 to 7 let pass";
const BLANKS_WOULD_PASS: &str = "another answer if blanks were let pass";

/// Every call but the filling refuses a blank with 3, alone and within a set. Its file is read as any.
#[test]
fn other_calls() {
    let tally = run("other_calls_on_templates", 8_000, 120_000, |case| {
        let (mut filling, pool) = filling_and_pool(&mut case.random, LIMIT);
        if case.random.chance(25) {
            filling = damaged_filling(&mut case.random, &filling);
        }
        let template = &filling.template;
        let has_blank = !filling.blanks().is_empty() && checker::accepted_template(template).is_ok();
        assert!(
            !has_blank || check_rule(template) == Answer::refused(3, filling.blanks()[0]),
            "{template:?}"
        );
        case.note_met([(has_blank, HAS_BLANK), (blanks_would_pass(template), BLANKS_WOULD_PASS)]);
        // A damage may leave a rule without blanks that takes far too long.
        if verdict_cost(template, &pool) <= 10 * LIMIT.cost
            && reading_cost(template, &pool) <= 10 * LIMIT.cost
        {
            each_on_words(case, template, &pool);
            let device = mostly_one_device(case, &pool);
            each_part(case, template, device);
            each_file(case, template, &pool, 10 * LIMIT.cost);
            each_of_a_set(case, template, &pool);
        }
    });
    tally.saw_each([3], 55_000);
    tally.saw_noted(HAS_BLANK, 4_000);
    tally.saw_noted(BLANKS_WOULD_PASS, 4_500);
}

/// The template as one of two rules, of which the other is accepted.
fn each_of_a_set(case: &mut Case, template: &[u32], pool: &[u32]) {
    let other = &[5, 1, 0, 1, 7, 0, 0, 0][..];
    let whole = &template[..template.len() / ENTRY_WORDS * ENTRY_WORDS];
    let set = Set::of(&if case.random.chance(50) { [other, whole] } else { [whole, other] });
    calls::check_set(case, &set);
    calls::set_verdicts(case, &set, pool, &[7; 2]);
    let mode = case.random.between(1, 3) as u32;
    calls::set_part(case, &set, pool, mode, &vec![7; pool.len()]);
    let room = Room { words: pool.len(), bytes: 0 };
    let plan = Plan { set, pool: pool.to_vec(), steps: vec![] };
    let _ = calls::try_plan(case, &plan, room);
}

/// What is noted where another filler would answer or write otherwise.
fn told_apart(other: OtherFiller) -> String {
    format!("told apart from {other:?}")
}

/// Requests as above tell the library from every filler that is not the contract's.
#[test]
fn other_fillers() {
    let tally = run("other_fillers", 40_000, 40_000, |case| {
        let filling = any_request(&mut case.random);
        let room = mostly_enough(&mut case.random, filling.template.len() + 5, filling.template.len());
        let output = case.random.words(room);
        calls::fill(case, &filling, &output);
        let mut rule = output.clone();
        let answer = ffi::fill(&filling.template, &filling.parameters, &mut rule);
        for &other in OtherFiller::ALL {
            let mut others = output.clone();
            let same = other.fill(&filling, &mut others) == answer && others == rule;
            case.note_met([(!same, &told_apart(other))]);
        }
    });
    for &other in OtherFiller::ALL {
        tally.saw_noted(&told_apart(other), 250);
    }
}

/// Every root equals one of the parameters with these numbers, or itself. The blanks are entries 2, 4 and so on.
fn comparing(numbers: impl IntoIterator<Item = u32>) -> Vec<u32> {
    let mut template = vec![5, 1, 0, 1];
    for (place, number) in (1..).step_by(2).zip(numbers) {
        template.extend([3, place + 1, place + 2, 0, 7, 0, 2, number]);
    }
    template.extend([7, 0, 0, 0]);
    template
}

/// What the library answers with room for the template and three words more, which must stay.
fn filled_by_library(template: &[u32], parameters: &[u32]) -> Result<Vec<u32>, (u32, usize)> {
    let mut rule = vec![7; template.len() + 3];
    let answer = ffi::fill(template, parameters, &mut rule);
    let written = if let Answer::Done(words) = answer { words } else { 0 };
    assert!(rule[written..].iter().all(|&word| word == 7), "{template:?} {parameters:?}: {rule:?}");
    match answer {
        Answer::Done(_) => Ok(rule[..written].to_vec()),
        Answer::Refused(refusal) => Err((refusal.number, refusal.place)),
        malformed => panic!("{malformed:?}"),
    }
}

/// So many blanks with numbers from 0 on, and so many parameters: each pair around the limit.
#[test]
fn every_count() {
    for blanks in 0..=20u32 {
        for count in 0..=20 {
            let parameters: Vec<u32> = (0..count).map(|number| u32::MAX - number).collect();
            let found = filled_by_library(&comparing(0..blanks), &parameters);
            match count {
                _ if count < blanks => assert_eq!(found, Err((21, 2 * count as usize + 2))),
                _ if count > blanks || count > 16 => assert_eq!(found, Err((22, 0))),
                _ => {
                    let rule = found.expect("a filled rule");
                    let constants = rule.chunks(ENTRY_WORDS).filter(|words| words[0] == 7 && words[2] == 1);
                    assert!(constants.map(|words| words[3]).eq(parameters), "{rule:?}");
                }
            }
        }
    }
}

/// One blank with each number around the limit and around each power of two.
#[test]
fn every_number() {
    let around = (0..32).map(|bits| 1 << bits).flat_map(|power: u32| [power - 1, power, power + 1]);
    for number in (0..40).chain(around).chain([u32::MAX - 1, u32::MAX]) {
        for count in 0..=18 {
            let found = filled_by_library(&comparing([number]), &vec![5; count]);
            match (number, count) {
                (0, 1) => assert!(found.is_ok()),
                _ if (number as usize) < count => assert_eq!(found, Err((22, 0)), "{number} {count}"),
                _ => assert_eq!(found, Err((21, 2)), "{number} {count}"),
            }
        }
    }
}

/// Every word is a parameter: all around the powers of two, and on both sides of zero.
#[test]
fn every_parameter() {
    let around = (0..32).map(|bits| 1 << bits).flat_map(|power: u32| [power - 1, power, power + 1]);
    for word in around.chain([MOST_VALUE, LEAST_VALUE, u32::MAX - 1, u32::MAX]) {
        for kind in 7..=9 {
            let rule = filled_by_library(&[6, 1, 0, 1, kind, 0, 2, 0], &[word]);
            assert_eq!(rule, Ok(vec![6, 1, 0, 1, kind, 0, 1, word]));
        }
    }
}

/// Every b of a comparison, and every number with it: 3 looks at b alone.
#[test]
fn every_b() {
    for b in (0..20).chain([258, 65_538, MOST_VALUE, LEAST_VALUE, LEAST_VALUE + 2, u32::MAX - 1, u32::MAX]) {
        for c in [0, 1, 2, 15, 16, 65_535, 65_536, MOST_VALUE, LEAST_VALUE, u32::MAX] {
            for kind in 7..=9 {
                let template = [6, 1, 0, 1, kind, 0, b, c];
                let expected = match (b, c) {
                    (2, 0) => Ok(vec![6, 1, 0, 1, kind, 0, 1, 9]),
                    (2, _) => Err((21, 1)),
                    (0, 0) | (1, _) => Err((22, 0)),
                    (0, _) => Err((7, 1)),
                    _ => Err((3, 1)),
                };
                assert_eq!(filled_by_library(&template, &[9]), expected, "{template:?}");
                let checked = if b > 1 { Answer::refused(3, 1) } else { check_rule(&template) };
                assert_eq!(ffi::check_rule(&template), checked, "{template:?}");
            }
        }
    }
}

/// No length is taken modulo 2^16 or another power of two, neither of the parameters nor of the template.
#[test]
fn lengths_agree_modulo_nothing() {
    let template = comparing(0..3);
    for more in (0..=20).map(|bits| 1 << bits) {
        assert_eq!(filled_by_library(&template, &vec![5; 3 + more]), Err((22, 0)), "{more} parameters more");
    }
    for more in (7..=20).map(|bits| 1 << bits) {
        let long = [&template[..], &[7, 0, 2, 0].repeat(more)].concat();
        assert_eq!(filled_by_library(&long, &[5; 3]), Err((1, 0)), "{more} entries more");
    }
    // A buffer far longer than any rule is left past it; one that is too short by any number of words is 17.
    let mut rule = vec![7; template.len() + (1 << 20)];
    assert_eq!(ffi::fill(&template, &[5; 3], &mut rule), Answer::Done(template.len()));
    assert!(rule[template.len()..].iter().all(|&word| word == 7));
    for room in 0..template.len() {
        let mut rule = vec![7; room];
        assert_eq!(ffi::fill(&template, &[5; 3], &mut rule), Answer::refused(17, 0));
        assert!(rule.iter().all(|&word| word == 7));
    }
}

/// A blank as the last entry that a template can have.
#[test]
fn the_last_place() {
    let nots = (1..MOST_ENTRIES as u32 - 1).flat_map(|place| [1, place + 1, 0, 0]);
    let template: Vec<u32> = [5, 1, 0, 1].into_iter().chain(nots).chain([9, 0, 2, 1]).collect();
    assert_eq!(filled_by_library(&template, &[5]), Err((21, MOST_ENTRIES - 1)));
    assert_eq!(filled_by_library(&template, &[5; 2]), Err((22, 0)));
    let used = [&template[..template.len() - 1], &[0]].concat();
    let rule = [&template[..template.len() - 2], &[1, 5]].concat();
    assert_eq!(filled_by_library(&used, &[5]), Ok(rule));
}

/// One template, read from its file; two sites. What is written for each is a rule file with signs.
#[test]
fn one_template_for_two_sites() {
    let file = b"kind a b c\n5 1 0 1\n2 2 4 0\n6 3 1 10\n7 1 2 0\n5 5 1 8\n1 6 0 0\n8 1 2 1\n";
    let mut template = [7; 28];
    assert_eq!(ffi::read_rule(file, &mut template), Answer::Done(28));
    assert_eq!(ffi::write_rule(&template, &mut [7; 99]), Answer::refused(3, 3));
    let pool = |vlan: u32, power: u32| {
        [[1, 1, 0, 0, 1, 11], [1, 2, 1, 1, 10, vlan], [1, 3, 1, 1, 8, power]].concat()
    };
    let (minus_18, minus_24) = (u32::MAX - 17, u32::MAX - 23);
    for (parameters, own, other, text) in [
        (
            [120, minus_24],
            pool(120, minus_24),
            pool(130, minus_18),
            "7 1 1 120\n5 5 1 8\n1 6 0 0\n8 1 1 -24\n",
        ),
        (
            [130, minus_18],
            pool(130, minus_18),
            pool(130, minus_24),
            "7 1 1 130\n5 5 1 8\n1 6 0 0\n8 1 1 -18\n",
        ),
    ] {
        let rule = filled_by_library(&template, &parameters).expect("a filled rule");
        assert_eq!(rule, filled(&template, &parameters).expect("a filled rule"));
        assert_eq!([&own, &other].map(|pool| ffi::verdict(&rule, pool)), [1, 0].map(Answer::Done));
        assert_eq!(
            [&own, &other].map(|pool| template_verdict(&template, &parameters, pool)),
            [1, 0].map(Answer::Done)
        );
        let (mut written, expected) = ([7; 99], format!("kind a b c\n5 1 0 1\n2 2 4 0\n6 3 1 10\n{text}"));
        assert_eq!(ffi::write_rule(&rule, &mut written), Answer::Done(expected.len()));
        assert_eq!(written[..expected.len()], *expected.as_bytes());
        assert_eq!(RULE.text_of(&rule), expected.as_bytes());
    }
}

/// b = 2 of a quantifier is the variable of its parent, and of a connective its right child.
#[test]
fn other_kinds_have_no_blanks() {
    let template =
        [[5, 1, 0, 1], [4, 3, 2, 0], [7, 0, 1, 0], [6, 4, 1, 1], [6, 5, 2, 1], [9, 2, 2, 0]].concat();
    assert_eq!(template.chunks(ENTRY_WORDS).filter(|words| is_blank(words)).count(), 1);
    let rule = filled_by_library(&template, &[8]).expect("a filled rule");
    assert_eq!((&rule[..20], &rule[20..]), (&template[..20], &[9, 2, 1, 8][..]));
    assert_eq!(filled_by_library(&rule, &[]), Ok(rule.clone()));
    assert_eq!(filled_by_library(&rule, &[8]), Err((22, 0)));
}

/// A sign has no place in a parameter number, whatever may stand there in a constant.
#[test]
fn numbers_in_files_have_no_sign() {
    for kind in 7..=9 {
        let file = |c: &str| format!("kind a b c\n{kind} 0 2 {c}\n").into_bytes();
        let mut words = [7; 4];
        for (text, number) in [("0", 0), ("2147483648", LEAST_VALUE), ("4294967295", u32::MAX)] {
            assert_eq!(ffi::read_rule(&file(text), &mut words), Answer::Done(4));
            assert_eq!(words, [kind, 0, 2, number]);
        }
        for text in ["-1", "-0", "-2147483648", "4294967296", "+1", "01"] {
            assert_eq!(ffi::read_rule(&file(text), &mut words), Answer::refused(19, 2), "{text}");
        }
    }
}
