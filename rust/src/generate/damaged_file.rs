//! Files with faults under 18 and 19.

use super::known_file::SIGNED_OR_NOT;
use super::vocabulary::word_of_any_class;
use crate::checker::{ENTRY_WORDS, POOL, RULE};
use crate::random::Random;

/// A well formed file of any words, accepted or not.
pub fn file_of_words(random: &mut Random, rule: bool, lines: usize) -> Vec<u8> {
    file_of(random, rule, lines, word_of_any_class)
}

/// The same of such words. Every second entry is a comparison with a constant, which may have a sign.
pub fn file_of(random: &mut Random, rule: bool, lines: usize, word: fn(&mut Random) -> u32) -> Vec<u8> {
    let format = if rule { &RULE } else { &POOL };
    let mut words: Vec<u32> = (0..lines * format.columns).map(|_| word(random)).collect();
    if rule {
        for entry in words.chunks_exact_mut(ENTRY_WORDS) {
            if random.chance(50) {
                (entry[0], entry[2]) = (random.pick(&[7, 8, 9]), 1);
            }
        }
    }
    format.text_of(&words)
}

/// One change of a file, or several.
pub fn damaged_file(random: &mut Random, file: &[u8]) -> Vec<u8> {
    let mut damaged = file.to_vec();
    loop {
        damage(random, &mut damaged);
        if random.chance(75) {
            return damaged;
        }
    }
}

const NUMBERS: [&str; 16] = [
    "4294967295",
    "4294967296",
    "4294967297",
    "42949672950",
    "18446744073709551616",
    "00",
    "01",
    "007",
    "04294967295",
    "0",
    "",
    "-1",
    "+1",
    "1 1",
    "0x1",
    "99999999999999999999999",
];
const PREFIXES: [&str; 7] = ["0", " ", "00", "-", "-", "+", "-0"];
const PIECES: [&str; 9] = [" ", "  ", "\r", "\r\n", "\n", "\n\n", "\t", "\0", "0"];
const FIRST_LINES: [&str; 11] = [
    "kind a b c\n",
    "device at up deep name value\n",
    "device at up name value\n",
    "device at up name deep value\n",
    "kind a b c \n",
    "kind a b\n",
    "Kind a b c\n",
    "\n",
    " kind a b c\n",
    "kind  a b c\n",
    "device at up deep name value\r\n",
];

fn damage(random: &mut Random, file: &mut Vec<u8>) {
    match random.below(14) {
        0 => file.clear(),
        1 => file.truncate(random.below(file.len() + 1)),
        2 => drop(file.pop()),
        3 => {
            let end = first_line_end(file);
            put(file, 0..end, random.pick(&FIRST_LINES));
        }
        4 => file.extend(random.pick(&PIECES).as_bytes()),
        5 => on_some_number(random, file, |random, _| random.pick(&NUMBERS).to_string()),
        6 => on_some_number(random, file, |random, _| random.pick(&SIGNED_OR_NOT).0.to_string()),
        7 | 8 => on_some_number(random, file, |random, old| random.pick(&PREFIXES).to_string() + old),
        9 => {
            let at = random.below(file.len() + 1);
            put(file, at..at, random.pick(&PIECES));
        }
        10 => on_some_byte(random, file, |_, _| None),
        11 => on_some_byte(random, file, |random, _| Some(random.draw() as u8)),
        12 => on_some_sign(random, file),
        _ => on_some_byte(random, file, |random, byte| match byte {
            b'0'..=b'9' => Some(b'0' + random.below(10) as u8),
            b' ' => Some(random.pick(b"\n\t0-")),
            _ => Some(random.pick(b" \r0-")),
        }),
    }
}

fn put(file: &mut Vec<u8>, range: std::ops::Range<usize>, text: &str) {
    drop(file.splice(range, text.bytes()));
}

fn first_line_end(file: &[u8]) -> usize {
    file.iter().position(|&byte| byte == b'\n').map_or(file.len(), |end| end + 1)
}

/// Drops a sign, cuts the file or the line behind it, or puts something else there.
fn on_some_sign(random: &mut Random, file: &mut Vec<u8>) {
    let signs: Vec<usize> = (0..file.len()).filter(|&place| file[place] == b'-').collect();
    if signs.is_empty() {
        return;
    }
    let sign = random.pick(&signs);
    match random.below(3) {
        0 => drop(file.remove(sign)),
        1 => file.truncate(sign + 1),
        _ => put(file, sign + 1..sign + 1, random.pick(&["\n", " ", "-", "0"])),
    }
}

/// Replaces one number behind the first line, with its sign.
fn on_some_number(random: &mut Random, file: &mut Vec<u8>, change: impl Fn(&mut Random, &str) -> String) {
    let first = first_line_end(file);
    if first == file.len() {
        return;
    }
    let inside = random.between(first, file.len() - 1);
    let of_number = |place: &usize| file[*place].is_ascii_digit() || file[*place] == b'-';
    let start = (first..inside).rev().take_while(of_number).last().unwrap_or(inside);
    let end = (inside..file.len()).find(|place| !of_number(place)).unwrap_or(file.len());
    let old = String::from_utf8_lossy(&file[start..end]).into_owned();
    put(file, start..end, &change(random, &old));
}

/// Changes one byte, or drops it.
fn on_some_byte(random: &mut Random, file: &mut Vec<u8>, change: impl Fn(&mut Random, u8) -> Option<u8>) {
    if file.is_empty() {
        return;
    }
    let place = random.below(file.len());
    match change(random, file[place]) {
        Some(byte) => file[place] = byte,
        None => drop(file.remove(place)),
    }
}
