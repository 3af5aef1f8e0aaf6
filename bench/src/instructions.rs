//! Instructions of each call, counted by callgrind within `measured_call`.

use std::collections::HashMap;
use std::hint::black_box;

use crate::calls::{Call, Outputs, LIBRARY};
use crate::cases::Case;

/// The function that callgrind is told to look at. It and the wrappers add fewer than a hundred instructions.
#[no_mangle]
#[inline(never)]
pub extern "C" fn measured_call(call: &Call, outputs: &mut Outputs) {
    black_box(call.make(&LIBRARY, outputs));
}

/// Makes each call once and prints its label.
pub fn make_each_call(cases: &[Case]) {
    for case in cases {
        let mut outputs = Outputs::of(&case.call);
        measured_call(&case.call, &mut outputs);
        println!("{}", case.label());
    }
}

/// The instructions of each case, by its label.
pub struct Counts {
    counts: HashMap<String, u64>,
}

impl Counts {
    /// Lines of a count, a tab and a label. A file that is not there has no counts.
    pub fn read(file: &str) -> Counts {
        let text = std::fs::read_to_string(file).unwrap_or_default();
        let pair = |line: &str| {
            let (count, label) = line.split_once('\t').expect("a count, a tab and a label");
            (label.to_string(), count.parse().expect("a count"))
        };
        Counts { counts: text.lines().map(pair).collect() }
    }

    pub fn of(&self, label: &str) -> Option<u64> {
        self.counts.get(label).copied()
    }
}

/// A count for a table: empty if there is none, a comma at each thousand.
pub fn shown(count: Option<u64>) -> String {
    let digits = count.map_or("".into(), |count| count.to_string());
    let mut text = String::new();
    for (place, digit) in digits.chars().enumerate() {
        if place > 0 && (digits.len() - place).is_multiple_of(3) {
            text.push(',');
        }
        text.push(digit);
    }
    text
}
