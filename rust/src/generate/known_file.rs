//! Files of numbers with and without signs that tell what reading them must answer.

use crate::answer::Refusal;
use crate::checker::{Format, LEAST_VALUE, MOST_VALUE, POOL, RULE};
use crate::random::Random;

#[derive(Clone, Debug)]
pub struct KnownFile {
    pub bytes: Vec<u8>,
    /// Its words; or 19, with the place of the first line at fault.
    pub words: Result<Vec<u32>, Refusal>,
    /// The lines behind the first, before the file was cut.
    pub lines: Vec<KnownLine>,
}

#[derive(Clone, Debug)]
pub struct KnownLine {
    /// With its byte 10.
    pub text: String,
    /// None if it is at fault.
    pub words: Option<Vec<u32>>,
    /// Whether its last number is a value or a constant.
    pub is_signed: bool,
}

/// What may stand for a number: its word where no sign may be, and that of a value or constant. None where it
/// is no number.
pub const SIGNED_OR_NOT: [(&str, Option<u32>, Option<u32>); 35] = [
    ("0", Some(0), Some(0)),
    ("1", Some(1), Some(1)),
    ("10", Some(10), Some(10)),
    ("2147483646", Some(MOST_VALUE - 1), Some(MOST_VALUE - 1)),
    ("2147483647", Some(MOST_VALUE), Some(MOST_VALUE)),
    ("2147483648", Some(LEAST_VALUE), None),
    ("2147483649", Some(LEAST_VALUE + 1), None),
    ("4294967294", Some(u32::MAX - 1), None),
    ("4294967295", Some(u32::MAX), None),
    ("-1", None, Some(u32::MAX)),
    ("-2", None, Some(u32::MAX - 1)),
    ("-9", None, Some(u32::MAX - 8)),
    ("-10", None, Some(u32::MAX - 9)),
    ("-1000000000", None, Some(3_294_967_296)),
    ("-2147483647", None, Some(LEAST_VALUE + 1)),
    ("-2147483648", None, Some(LEAST_VALUE)),
    ("-2147483649", None, None),
    ("-4294967295", None, None),
    ("-4294967296", None, None),
    ("-4294967297", None, None),
    ("-18446744073709551615", None, None),
    ("-18446744073709551617", None, None),
    ("4294967296", None, None),
    ("00", None, None),
    ("01", None, None),
    ("-0", None, None),
    ("-00", None, None),
    ("-01", None, None),
    ("-", None, None),
    ("--1", None, None),
    ("- 1", None, None),
    ("-+1", None, None),
    ("+1", None, None),
    ("1-", None, None),
    ("", None, None),
];

/// Files of no line to seven. At times the file ends behind a sign.
pub fn known_file(random: &mut Random, rule: bool) -> KnownFile {
    let (Format { first_line, .. }, line): (_, fn(&mut Random) -> KnownLine) =
        if rule { (RULE, rule_line) } else { (POOL, pool_line) };
    let lines: Vec<KnownLine> = (0..random.below(8)).map(|_| line(random)).collect();
    let bytes = first_line.bytes().chain(lines.iter().flat_map(|line| line.text.bytes())).collect();
    let words: Result<Vec<_>, Refusal> =
        (2..).zip(&lines).map(|(place, line)| line.words.clone().ok_or(at_fault(place))).collect();
    let mut file = KnownFile { bytes, words: words.map(|words| words.concat()), lines };
    if random.chance(10) {
        file.cut_behind_a_sign(random);
    }
    file
}

impl KnownFile {
    fn cut_behind_a_sign(&mut self, random: &mut Random) {
        let signs: Vec<usize> = (0..self.bytes.len()).filter(|&place| self.bytes[place] == b'-').collect();
        if signs.is_empty() {
            return;
        }
        self.bytes.truncate(random.pick(&signs) + 1);
        let last = 1 + self.bytes.iter().filter(|&&byte| byte == b'\n').count();
        let first = self.words.as_ref().map_or_else(|refusal| refusal.place, |_| last);
        self.words = Err(at_fault(first.min(last)));
    }
}

fn at_fault(line: usize) -> Refusal {
    Refusal { number: 19, place: line }
}

/// Every second one is a comparison with a constant.
fn rule_line(random: &mut Random) -> KnownLine {
    let other_kinds = [0, 1, 4, 5, 6, 10, 71, 263, u32::MAX];
    let kind = if random.chance(75) { random.pick(&[7, 8, 9]) } else { random.pick(&other_kinds) };
    let b = if random.chance(65) { 1 } else { random.pick(&[0, 0, 2, 11, 257, u32::MAX]) };
    let is_signed = [7, 8, 9].contains(&kind) && b == 1;
    let [kind, b] = [kind, b].map(|word: u32| (word.to_string(), Some(word)));
    let numbers = vec![kind, good_number(random, false), b, good_number(random, is_signed)];
    mostly_good_line(random, numbers, is_signed)
}

fn pool_line(random: &mut Random) -> KnownLine {
    let numbers = (0..POOL.columns).map(|column| good_number(random, column + 1 == POOL.columns)).collect();
    mostly_good_line(random, numbers, true)
}

/// At times something is put in that is no number there, mostly in the last column; every second time it would
/// be one in columns of the other kind.
fn mostly_good_line(
    random: &mut Random,
    mut numbers: Vec<(String, Option<u32>)>,
    is_signed: bool,
) -> KnownLine {
    let last = numbers.len() - 1;
    if random.chance(15) {
        let column = if random.chance(60) { last } else { random.below(last) };
        let misplaced = random.chance(50);
        numbers[column] = listed_number(random, is_signed && column == last, |here, elsewhere| {
            here.is_none() && (elsewhere.is_some() || !misplaced)
        });
    }
    let (texts, words): (Vec<String>, Vec<Option<u32>>) = numbers.into_iter().unzip();
    KnownLine { text: texts.join(" ") + "\n", words: words.into_iter().collect(), is_signed }
}

/// Of the list or any.
fn good_number(random: &mut Random, is_signed: bool) -> (String, Option<u32>) {
    if random.chance(70) {
        return listed_number(random, is_signed, |here, _| here.is_some());
    }
    let word = random.word();
    (if is_signed { (word as i32).to_string() } else { word.to_string() }, Some(word))
}

/// One that passes, given its word in a column of this kind and in one of the other.
fn listed_number(
    random: &mut Random,
    is_signed: bool,
    pass: impl Fn(Option<u32>, Option<u32>) -> bool,
) -> (String, Option<u32>) {
    loop {
        let (text, unsigned, signed) = random.pick(&SIGNED_OR_NOT);
        let (here, elsewhere) = if is_signed { (signed, unsigned) } else { (unsigned, signed) };
        if pass(here, elsewhere) {
            return (text.into(), here);
        }
    }
}
