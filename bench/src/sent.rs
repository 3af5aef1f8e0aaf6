//! Rows sent in each mode for the formulas of document 004, section 6.2, on configurations of the sizes of its
//! Table 6, beside its Table 7. Each device makes its part apart; the parts are joined.

use gabzeril_tests::answer::Answer;
use gabzeril_tests::checker::{words_of, Row, MOST_ROWS, ROW_WORDS};
use gabzeril_tests::ffi;
use gabzeril_tests::random::Random;

const A: u32 = 1;
const B: u32 = 2;
const C: u32 = 3;
const D: u32 = 4;
const E: u32 = 5;
/// Nodes that no formula names have names from 6 up to this.
const LAST_NAME: usize = 25;

/// The word of -1.
const MINUS_1: u32 = u32::MAX;

/// 004's formulas 1 to 4.
fn formulas() -> [Vec<u32>; 4] {
    [
        vec![5, 1, 0, D, 5, 2, 1, A, 9, 1, 1, 0],
        vec![5, 1, 0, D, 5, 2, 1, A, 5, 3, 1, B, 8, 1, 0, 2],
        vec![6, 1, 0, D, 6, 2, 1, A, 6, 3, 1, B, 2, 4, 5, 0, 7, 2, 1, 3, 7, 1, 1, 0],
        vec![6, 1, 0, D, 6, 2, 1, A, 5, 3, 0, E, 5, 4, 3, C, 2, 5, 6, 0, 7, 1, 1, MINUS_1, 7, 3, 1, 3],
    ]
}

/// The value of a that meets the condition of each formula. The third wants 0 and the fourth -1.
const MET: [u32; 4] = [0, 0, 0, MINUS_1];

struct Size {
    name: &'static str,
    devices: u32,
    nodes: usize,
    /// 004's Table 7 for each formula.
    selective: [u32; 4],
    total: u32,
}

const SIZES: [Size; 3] = [
    Size { name: "C1", devices: 2, nodes: 5, selective: [8, 12, 12, 12], total: 10 },
    Size { name: "C2", devices: 5, nodes: 100, selective: [20, 30, 30, 30], total: 500 },
    Size { name: "C3", devices: 10, nodes: 500, selective: [40, 60, 60, 60], total: 5_000 },
];

/// How the nodes of a device are made.
#[derive(Clone, Copy, PartialEq)]
enum Nodes {
    /// As many nodes under the formulas' paths as Table 7 counts, with this value of a, and values of the others
    /// that meet every condition.
    Met(u32),
    /// The same nodes, with random values.
    Values,
    /// Every name and parent at random.
    All,
}

const ROUNDS: u64 = 100;

pub fn print() {
    println!("## Rows sent\n");
    println!("| size | formula | 004 total | 004 selective | mode 1 | mode 2 | mode 3, conditions met | mode 3, random values | mode 2, random nodes | mode 3, random nodes | modes joined |");
    println!("|-|-|-:|-:|-:|-:|-:|-:|-:|-:|-|");
    for size in &SIZES {
        for (index, formula) in formulas().iter().enumerate() {
            print_line(size, index, formula);
        }
    }
}

fn print_line(size: &Size, index: usize, formula: &[u32]) {
    let of = |nodes: Nodes| rounds(size, formula, nodes);
    let (met, values, all) = (of(Nodes::Met(MET[index])), of(Nodes::Values), of(Nodes::All));
    assert_eq!(met.sum.rows[1], values.sum.rows[1], "mode 2 looks at no value");
    let joined = if met.sum.whole_fits { "1, 2, 3: one verdict" } else { "2, 3: one verdict; 1: refusal 8" };
    println!(
        "| {} | {} | {} | {} | {} | {} | {} | {:.1} | {:.1} | {:.1} | {joined} |",
        size.name,
        index + 1,
        size.total,
        size.selective[index],
        met.mean(1),
        met.mean(2),
        met.mean(3),
        values.mean(3),
        all.mean(2),
        all.mean(3),
    );
}

struct Sent {
    /// The rows of all parts in each mode.
    rows: [usize; 3],
    /// Whether the devices' whole tables fit one table when joined.
    whole_fits: bool,
}

/// The sum of all rounds.
struct Rounds {
    sum: Sent,
}

impl Rounds {
    fn mean(&self, mode: usize) -> f64 {
        self.sum.rows[mode - 1] as f64 / ROUNDS as f64
    }
}

/// The dumps of the sizes, with random values or nodes; those of C3 have more rows than a table may have.
pub fn dumps() -> Vec<(String, Vec<u32>)> {
    let kinds = [(Nodes::Values, "random values"), (Nodes::All, "random nodes")];
    let of = |(nodes, what)| {
        SIZES.map(|size| (format!("{}, {what}", size.name), devices_of(&size, nodes, 0).concat()))
    };
    kinds.into_iter().flat_map(of).collect()
}

fn devices_of(size: &Size, nodes: Nodes, seed: u64) -> Vec<Vec<u32>> {
    let mut random = Random::new(seed);
    (1..=size.devices).map(|device| device_of(&mut random, device, size.nodes, nodes)).collect()
}

fn rounds(size: &Size, formula: &[u32], nodes: Nodes) -> Rounds {
    let mut sum = Sent { rows: [0; 3], whole_fits: true };
    for seed in 0..ROUNDS {
        let sent = send(formula, &devices_of(size, nodes, seed));
        sum.whole_fits &= sent.whole_fits;
        for (sum, rows) in sum.rows.iter_mut().zip(sent.rows) {
            *sum += rows;
        }
    }
    Rounds { sum }
}

/// Makes and joins the parts in each mode. All joined parts that fit a table have one verdict.
fn send(formula: &[u32], devices: &[Vec<u32>]) -> Sent {
    let mut verdicts = vec![];
    let mut sent = Sent { rows: [0; 3], whole_fits: true };
    for mode in 1..=3 {
        let part = |device: &Vec<u32>| part_of(device, |part| ffi::part(formula, device, mode, part));
        let parts: Vec<_> = devices.iter().map(part).collect();
        sent.rows[mode as usize - 1] = parts.iter().map(|part| part.len() / ROW_WORDS).sum();
        match joined(&parts) {
            Some(pool) => verdicts.push(ffi::verdict(formula, &pool)),
            None => sent.whole_fits = false,
        }
    }
    assert!(matches!(verdicts[0], Answer::Done(_)));
    assert!(verdicts.iter().all(|verdict| *verdict == verdicts[0]), "the parts keep the verdict");
    sent
}

/// The words that a call puts into a part of the device.
pub fn part_of(device: &[u32], call: impl Fn(&mut [u32]) -> Answer) -> Vec<u32> {
    let mut part = vec![0; device.len()];
    match call(&mut part) {
        Answer::Done(rows) => part.truncate(rows * ROW_WORDS),
        refused => panic!("part: {refused:?}"),
    }
    part
}

/// None if the parts have more rows than a table may have.
pub fn joined(parts: &[Vec<u32>]) -> Option<Vec<u32>> {
    let mut pool = vec![0; MOST_ROWS * ROW_WORDS];
    let mut used = 0;
    for part in parts {
        match ffi::join(&mut pool, used, part) {
            Answer::Done(words) => used = words,
            refused => {
                assert_eq!(refused, Answer::refused(8, 0));
                return None;
            }
        }
    }
    pool.truncate(used);
    Some(pool)
}

/// The rows of one device while they are made.
struct Device {
    number: u32,
    rows: Vec<Row>,
}

impl Device {
    /// Adds a row and gives its place `at`.
    fn add(&mut self, up: u32, name: u32, value: u32) -> u32 {
        let at = self.rows.len() as u32 + 1;
        let parent = self.rows.iter().find(|row| row.at == up);
        let deep = parent.map_or(0, |parent| parent.deep + 1);
        self.rows.push(Row { device: self.number, at, up, deep, name, value });
        at
    }

    /// A value that no other row of the pool has.
    fn own_value(&self) -> u32 {
        self.number * 1_000 + self.rows.len() as u32
    }

    fn has_sibling(&self, up: u32, name: u32, value: u32) -> bool {
        self.rows.iter().any(|row| [row.up, row.name, row.value] == [up, name, value])
    }
}

fn device_of(random: &mut Random, number: u32, nodes: usize, kind: Nodes) -> Vec<u32> {
    let mut device = Device { number, rows: vec![] };
    if kind != Nodes::All {
        add_named(random, &mut device, nodes, kind);
    }
    while device.rows.len() < nodes {
        let at = random.below(device.rows.len() + 1) as u32;
        let up = if random.chance(20) { 0 } else { at };
        if kind == Nodes::All {
            let name = random.between(1, LAST_NAME) as u32;
            let value = if up == 0 { device.own_value() } else { random_value(random) };
            if !device.has_sibling(up, name, value) {
                device.add(up, name, value);
            }
        } else {
            device.add(up, random.between(6, LAST_NAME) as u32, device.own_value());
        }
    }
    words_of(&device.rows)
}

/// From -1 to 3.
fn random_value(random: &mut Random) -> u32 {
    (random.below(5) as u32).wrapping_sub(1)
}

/// Two d with an a and a b each, an e with a c; one d where there are only five nodes.
fn add_named(random: &mut Random, device: &mut Device, nodes: usize, kind: Nodes) {
    let mut values = || match kind {
        Nodes::Met(a) => [a, 3],
        _ => [random_value(random), random_value(random)],
    };
    for _ in 0..if nodes == 5 { 1 } else { 2 } {
        let d = device.add(0, D, device.own_value());
        let [a, b] = values();
        device.add(d, A, a);
        device.add(d, B, b);
    }
    let e = device.add(0, E, device.own_value());
    let [_, c] = values();
    device.add(e, C, c);
}
