//! The plain loops of `loops.c`, which stand beside the library's calls.

use gabzeril_tests::answer::Answer;
use gabzeril_tests::checker::{MOST_ROWS, ROW_WORDS};

type VerdictLoops = unsafe extern "C" fn(*const u32, usize) -> u32;
type MarksLoops = unsafe extern "C" fn(*const u32, usize, *mut u8) -> u32;

extern "C" {
    fn loops_interfaces_share(pool: *const u32, length: usize) -> u32;
    fn loops_devices_share(pool: *const u32, length: usize) -> u32;
    fn loops_entries_overlap(pool: *const u32, length: usize) -> u32;
    fn loops_next_hops(pool: *const u32, length: usize) -> u32;
    fn loops_mark_interfaces_share(pool: *const u32, length: usize, marks: *mut u8) -> u32;
    fn loops_mark_two_servers(pool: *const u32, length: usize, marks: *mut u8) -> u32;
    fn loops_mark_four_servers(pool: *const u32, length: usize, marks: *mut u8) -> u32;
    fn loops_fold(table: *const u32, length: usize, folded: *mut u32) -> usize;
}

/// The loops of one rule.
#[derive(Clone, Copy)]
pub enum Loops {
    Verdict(VerdictLoops),
    Marks(MarksLoops),
}

pub const INTERFACES_SHARE: Loops = Loops::Verdict(loops_interfaces_share);
pub const DEVICES_SHARE: Loops = Loops::Verdict(loops_devices_share);
pub const ENTRIES_OVERLAP: Loops = Loops::Verdict(loops_entries_overlap);
pub const NEXT_HOPS: Loops = Loops::Verdict(loops_next_hops);
pub const MARK_INTERFACES_SHARE: Loops = Loops::Marks(loops_mark_interfaces_share);
pub const MARK_TWO_SERVERS: Loops = Loops::Marks(loops_mark_two_servers);
pub const MARK_FOUR_SERVERS: Loops = Loops::Marks(loops_mark_four_servers);

impl Loops {
    /// The verdict on an accepted pool. Marks are written as the library writes them if it is true.
    pub fn run(self, pool: &[u32], marks: &mut [u8]) -> Answer {
        let rows = pool.len() / ROW_WORDS;
        assert!(rows <= MOST_ROWS && rows <= marks.len(), "too many rows");
        // SAFETY: the loops have room for so many rows, and write a mark for each.
        let verdict = match self {
            Loops::Verdict(run) => unsafe { run(pool.as_ptr(), pool.len()) },
            Loops::Marks(run) => unsafe { run(pool.as_ptr(), pool.len(), marks.as_mut_ptr()) },
        };
        Answer::Done(verdict as usize)
    }

    pub fn name(self) -> &'static str {
        match self {
            Loops::Verdict(_) => "loops in C, verdict",
            Loops::Marks(_) => "loops in C, marks",
        }
    }
}

/// Folds the table of one device, which has no fault but equal siblings; gives the number of rows left.
pub fn fold(table: &[u32], folded: &mut [u32]) -> Answer {
    assert!(table.len() <= folded.len(), "too many rows");
    // SAFETY: there is room for as many rows as the table has.
    Answer::Done(unsafe { loops_fold(table.as_ptr(), table.len(), folded.as_mut_ptr()) })
}

#[cfg(test)]
mod tests {
    use super::*;
    use crate::inputs::devices;
    use crate::pair_inputs::{
        self as inputs, addresses, at_most_servers, breadth_first, list, routes, Below, ADDRESS, LOW,
        NEXT_HOP,
    };
    use gabzeril_tests::checker::{self, check_table, rows_of, words_of, Row};

    /// The checker and the loops give this verdict, and the same marks if it is true.
    fn assert_same(rule: &[u32], pool: &[u32], loops: Loops, verdict: usize) {
        assert_eq!(check_table(pool).number(), 0);
        let [mut ours, mut theirs] = [vec![0; MOST_ROWS], vec![0; MOST_ROWS]];
        let answer = match loops {
            Loops::Verdict(_) => checker::verdict(rule, pool),
            Loops::Marks(_) => checker::marks(rule, pool, &mut theirs),
        };
        assert_eq!([loops.run(pool, &mut ours), answer], [Answer::Done(verdict); 2]);
        assert!(verdict == 0 || ours == theirs);
    }

    /// The pool with another value in its last row of this name.
    fn with_last(pool: &[u32], name: u32, value: u32) -> Vec<u32> {
        let mut rows = rows_of(pool);
        let last = rows.iter_mut().rfind(|row| row.name == name).expect("a row of the name");
        *last = Row { value, ..*last };
        words_of(&rows)
    }

    #[test]
    fn addresses_are_as_described() {
        for below in [Below::Address, Below::AddressAndTwoMore] {
            let (one, two) = (addresses(1, 5, below), addresses(2, 5, below));
            let shared = rows_of(&one).iter().find(|row| row.name == ADDRESS).expect("an address").value;
            for pool in [one.clone(), breadth_first(&one)] {
                for loops in [INTERFACES_SHARE, MARK_INTERFACES_SHARE] {
                    let rule = inputs::INTERFACES_SHARE.concat();
                    assert_same(&rule, &pool, loops, 1);
                    assert_same(&rule, &two, loops, 1);
                    assert_same(&rule, &with_last(&two, ADDRESS, shared), loops, 1);
                    assert_same(&rule, &with_last(&pool, ADDRESS, shared), loops, 0);
                }
            }
            let rule = inputs::DEVICES_SHARE.concat();
            assert_same(&rule, &two, DEVICES_SHARE, 1);
            assert_same(&rule, &with_last(&one, ADDRESS, shared), DEVICES_SHARE, 1);
            assert_same(&rule, &with_last(&two, ADDRESS, shared), DEVICES_SHARE, 0);
        }
    }

    #[test]
    fn ranges_are_as_described() {
        let (rule, pool) = (inputs::ENTRIES_OVERLAP.concat(), list(5));
        assert_same(&rule, &pool, ENTRIES_OVERLAP, 1);
        assert_same(&rule, &with_last(&pool, LOW, 49), ENTRIES_OVERLAP, 0);
        let (rule, pool) = (inputs::NEXT_HOPS.concat(), routes(5, 7));
        assert_same(&rule, &pool, NEXT_HOPS, 1);
        assert_same(&rule, &with_last(&pool, NEXT_HOP, 0), NEXT_HOPS, 0);
    }

    #[test]
    fn servers_are_as_described() {
        for (most, loops) in [(2, MARK_TWO_SERVERS), (4, MARK_FOUR_SERVERS)] {
            for servers in [0, 1, most, most + 1] {
                let verdict = usize::from(servers <= most);
                assert_same(&at_most_servers(most), &devices(18, servers), loops, verdict);
            }
        }
    }
}
