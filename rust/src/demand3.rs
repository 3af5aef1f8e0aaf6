//! Demand 3 from outside: a list of devices, each of which sends a cut of its rows, and the joined cuts
//! against the dump of the same devices. A set of rules is checked; one rule is the set of one.

use crate::answer::{Answer, Refusal};
use crate::checker::{accepted_rule, accepted_table, rows_of, spare_rows, ROW_WORDS};
#[cfg(all(feature = "lower", feature = "engine", any(feature = "parts", feature = "sets")))]
use crate::ffi;
use crate::generate::Set;
use crate::random::Random;

/// The part of a table in a mode.
pub type Part = fn(&Set, &[u32], u32, &mut [u32]) -> Answer;

/// The calls under test. Part and verdicts may be those on one rule, for sets of one.
pub struct Calls {
    pub part: Part,
    pub join: fn(&mut [u32], usize, &[u32]) -> Answer,
    /// One byte for each rule.
    pub verdicts: fn(&Set, &[u32], &mut [u8]) -> Answer,
    pub marks: fn(&[u32], &[u32], &mut [u8]) -> Answer,
}

/// The library's, on one rule.
#[cfg(all(feature = "lower", feature = "engine", feature = "parts"))]
pub const LIBRARY_ON_ONE_RULE: Calls = Calls {
    part: |one, table, mode, part| ffi::part(&one.rules, table, mode, part),
    join: ffi::join,
    verdicts: |one, pool, verdicts| match ffi::verdict(&one.rules, pool) {
        Answer::Done(verdict) => {
            verdicts[0] = u8::try_from(verdict).unwrap_or(u8::MAX);
            Answer::Done(1)
        }
        answer => answer,
    },
    marks: ffi::marks,
};

/// The library's, on sets.
#[cfg(all(feature = "lower", feature = "engine", feature = "sets"))]
pub const LIBRARY_ON_SETS: Calls = Calls {
    part: |set, table, mode, part| ffi::set_part(&set.rules, &set.counts, table, mode, part),
    join: ffi::join,
    verdicts: |set, pool, verdicts| ffi::set_verdicts(&set.rules, &set.counts, pool, verdicts),
    marks: ffi::marks,
};

/// What the joinings of a list left.
struct Joined {
    /// The joined cuts.
    cuts: Vec<u32>,
    /// All rows of the devices whose joining was not refused.
    dump: Vec<u32>,
}

/// Checks the claim for one list. The dump of all devices is accepted.
pub fn check_list(calls: &Calls, random: &mut Random, set: &Set, devices: &[Vec<u32>]) -> Result<(), String> {
    let mut joined = Joined { cuts: vec![], dump: vec![] };
    // One kind for all devices, or any kind for each.
    let kind = random.below(5) as u32;
    for device in devices {
        let kind = if kind == 0 { random.between(1, 4) as u32 } else { kind };
        let cut = match kind {
            4 => other_cut(random, set, device),
            mode => part(calls, random, set, device, mode)?,
        };
        joined.join(calls, random, device, &cut)?;
    }
    joined.compare(calls, set)
}

/// A cut as the device sends it in this mode.
fn part(
    calls: &Calls,
    random: &mut Random,
    set: &Set,
    device: &[u32],
    mode: u32,
) -> Result<Vec<u32>, String> {
    let extra = random_extra(random);
    let mut buffer = random.words(device.len() + extra);
    match (calls.part)(set, device, mode, &mut buffer) {
        Answer::Done(rows) if rows * ROW_WORDS <= device.len() => {
            buffer.truncate(rows * ROW_WORDS);
            Ok(buffer)
        }
        answer => Err(format!("part {device:?} {mode}: {answer:?}")),
    }
}

fn random_extra(random: &mut Random) -> usize {
    random.pick(&[0, 0, 1, 7])
}

/// A cut that no mode need give: each row that is spare for every rule is left out or sent at random, and
/// whatever hangs under a row left out is left out.
fn other_cut(random: &mut Random, set: &Set, device: &[u32]) -> Vec<u32> {
    let rows = accepted_table(device).expect("an accepted table");
    let mut spare = vec![true; rows.len()];
    for rule in set.each() {
        let entries = accepted_rule(rule).expect("an accepted rule");
        spare.iter_mut().zip(spare_rows(&entries, &rows)).for_each(|(spare, for_rule)| *spare &= for_rule);
    }
    let mut sent: Vec<u32> = vec![];
    let mut cut = vec![];
    for (row, spare) in rows.iter().zip(spare) {
        let parent_sent = row.is_root() || sent.contains(&row.up);
        if parent_sent && !(spare && random.chance(50)) {
            sent.push(row.at);
            cut.extend(row.words());
        }
    }
    cut
}

impl Joined {
    /// One joining, in a buffer of its own length, which may be too short.
    fn join(
        &mut self,
        calls: &Calls,
        random: &mut Random,
        device: &[u32],
        cut: &[u32],
    ) -> Result<(), String> {
        let short = !cut.is_empty() && random.chance(10);
        let room = if short { random.below(cut.len()) } else { cut.len() + random_extra(random) };
        let used = self.cuts.len();
        let before = [&self.cuts[..], &random.words(room)].concat();
        let mut pool = before.clone();
        let answer = (calls.join)(&mut pool, used, cut);
        let (expected, after) = if short {
            (Answer::Refused(Refusal { number: 17, place: 0 }), before)
        } else {
            let joined = [&before[..used], cut].concat();
            let past = before[joined.len()..].to_vec();
            self.cuts = joined.clone();
            self.dump.extend(device);
            (Answer::Done(joined.len()), [joined, past].concat())
        };
        if answer != expected || pool != after {
            return Err(format!("join {cut:?} to {used} of {after:?}: {answer:?} {pool:?}"));
        }
        Ok(())
    }

    fn compare(&self, calls: &Calls, set: &Set) -> Result<(), String> {
        let describe = |what: String| format!("cuts {:?}, dump {:?}: {what}", self.cuts, self.dump);
        let rules = set.each();
        let [on_cuts, on_dump] = [&self.cuts, &self.dump].map(|pool| {
            let mut verdicts = vec![7; rules.len()];
            ((calls.verdicts)(set, pool, &mut verdicts), verdicts)
        });
        let accepted = on_cuts.0 == Answer::Done(rules.len()) && on_cuts.1.iter().all(|&byte| byte <= 1);
        if !accepted || on_cuts != on_dump {
            return Err(describe(format!("{on_cuts:?} {on_dump:?}")));
        }
        for (rule, verdict) in rules.into_iter().zip(on_cuts.1) {
            self.compare_marks(calls, rule, verdict).map_err(describe)?;
        }
        Ok(())
    }

    /// Marks are made for each rule, and answer its verdict.
    fn compare_marks(&self, calls: &Calls, rule: &[u32], verdict: u8) -> Result<(), String> {
        let [on_cuts, on_dump] = [&self.cuts, &self.dump].map(|pool| {
            let mut marks = vec![7; pool.len() / ROW_WORDS];
            ((calls.marks)(rule, pool, &mut marks), marks)
        });
        let equal = [on_cuts.0, on_dump.0] == [Answer::Done(verdict.into()); 2];
        let dump_marked = marked(&self.dump, &on_dump.1);
        let kept = marked(&self.cuts, &on_cuts.1).iter().all(|row| dump_marked.contains(row));
        if equal && kept {
            return Ok(());
        }
        Err(format!("{rule:?} {verdict}: {on_cuts:?} {on_dump:?}"))
    }
}

/// Device and at of each marked row.
fn marked(table: &[u32], marks: &[u8]) -> Vec<[u32; 2]> {
    let rows = rows_of(table).into_iter().zip(marks).filter(|(_, mark)| **mark == 1);
    rows.map(|(row, _)| [row.device, row.at]).collect()
}

#[cfg(test)]
mod tests {
    use super::*;
    use crate::checker;
    use crate::generate::{any_names_and_devices, rule_and_devices, set_and_devices, OneSided, Together};

    const CHECKER: Calls = Calls {
        part: |set, table, mode, part| checker::set_part(&set.rules, &set.counts, table, mode, part),
        join: checker::join,
        verdicts: |set, pool, verdicts| checker::set_verdicts(&set.rules, &set.counts, pool, verdicts),
        marks: checker::marks,
    };

    /// The claim, on the checker's own functions.
    #[test]
    fn holds_for_the_checker() {
        for seed in 0..20_000 {
            let mut random = Random::new(seed);
            let (rule, devices) = rule_and_devices(&mut random, Together { rows: 24, cost: 20_000 });
            check(seed, &mut random, &Set::of(&[rule]), &devices);
        }
        for seed in 0..8_000 {
            let mut random = Random::new(seed);
            let (rule, devices) = any_names_and_devices(&mut random, Together { rows: 24, cost: 20_000 });
            check(seed, &mut random, &Set::of(&[rule]), &devices);
        }
        for seed in 0..10_000 {
            let mut random = Random::new(seed);
            let (set, devices) = set_and_devices(&mut random, Together { rows: 24, cost: 20_000 });
            check(seed, &mut random, &set, &devices);
        }
    }

    /// Where the name 0 takes no rows in reaching, or none in reading, some verdicts would be lost.
    #[test]
    fn finds_that_any_name_is_taken_on_one_side_alone() {
        fn put(rows: Vec<checker::Row>, part: &mut [u32]) -> Answer {
            part[..rows.len() * ROW_WORDS].copy_from_slice(&checker::words_of(&rows));
            Answer::Done(rows.len())
        }
        let parts: [(Part, usize); 2] = [
            (|set, table, mode, part| put(OneSided::ReadingAlone.rows_sent(set, table, mode), part), 500),
            (|set, table, mode, part| put(OneSided::ReachingAlone.rows_sent(set, table, mode), part), 30),
        ];
        for (part, least) in parts {
            let calls = Calls { part, ..CHECKER };
            let fails = |&seed: &u64| {
                let mut random = Random::new(seed);
                let (rule, devices) = any_names_and_devices(&mut random, Together { rows: 24, cost: 20_000 });
                check_list(&calls, &mut random, &Set::of(&[rule]), &devices).is_err()
            };
            let lists = (0..3_000).filter(fails).count();
            assert!(lists >= least, "only {lists} lists");
        }
    }

    fn check(seed: u64, random: &mut Random, set: &Set, devices: &[Vec<u32>]) {
        if let Err(fault) = check_list(&CHECKER, random, set, devices) {
            panic!("seed {seed}: {set:?} {devices:?}: {fault}");
        }
    }

    /// Without the rows that no rule's part has, some verdicts would be lost.
    #[test]
    fn finds_that_the_rules_parts_are_too_little() {
        let calls = Calls { part: union_of_parts, ..CHECKER };
        let fails = |&seed: &u64| {
            let mut random = Random::new(seed);
            let (set, devices) = set_and_devices(&mut random, Together { rows: 24, cost: 20_000 });
            check_list(&calls, &mut random, &set, &devices).is_err()
        };
        let lists = (0..10_000).filter(fails).count();
        assert!(lists >= 30, "only {lists} lists");
    }

    fn union_of_parts(set: &Set, table: &[u32], mode: u32, part: &mut [u32]) -> Answer {
        let mut sent = vec![];
        for rule in set.each() {
            let mut words = vec![0; table.len()];
            if let Answer::Done(rows) = checker::part(rule, table, mode, &mut words) {
                sent.extend(rows_of(&words[..rows * ROW_WORDS]));
            }
        }
        let rows: Vec<_> = rows_of(table).into_iter().filter(|row| sent.contains(row)).collect();
        let words = checker::words_of(&rows);
        part[..words.len()].copy_from_slice(&words);
        Answer::Done(rows.len())
    }
}
