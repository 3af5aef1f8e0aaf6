//! Rules that compare rows with rows, and pools on which they are true: almost every pair has to be looked at.

use gabzeril_tests::checker::{rows_of, words_of, Row, ENTRY_WORDS};

use crate::inputs::{next_entry, root, under, SERVER};

/// Names of the manual, and some beside them. `loops.c` has them, too.
const DEVICE: u32 = 1;
const MODE: u32 = 2;
const INTERFACE: u32 = 3;
pub const ADDRESS: u32 = 4;
const MTU: u32 = 5;
const VLAN: u32 = 10;
const LIST: u32 = 21;
const ENTRY: u32 = 22;
pub const LOW: u32 = 23;
const HIGH: u32 = 24;
const ROUTE: u32 = 25;
pub const NEXT_HOP: u32 = 26;

/// 10.0.0.0
const FIRST_ADDRESS: u32 = 167_772_160;

type Entries<const COUNT: usize> = [[u32; ENTRY_WORDS]; COUNT];

/// Every device d, its interfaces i and j, every address a of i and b of j: if a = b, then i = j.
pub const INTERFACES_SHARE: Entries<8> = [
    [5, 1, 0, DEVICE],
    [5, 2, 1, INTERFACE],
    [5, 3, 1, INTERFACE],
    [5, 4, 2, ADDRESS],
    [5, 5, 3, ADDRESS],
    [4, 6, 7, 0],
    [7, 3, 0, 4],
    [7, 1, 0, 2],
];

/// Every two devices d and e, every interface i of d and j of e, every address a of i and b of j: if a = b, then
/// d = e.
pub const DEVICES_SHARE: Entries<9> = [
    [5, 1, 0, DEVICE],
    [5, 2, 0, DEVICE],
    [5, 3, 1, INTERFACE],
    [5, 4, 2, INTERFACE],
    [5, 5, 3, ADDRESS],
    [5, 6, 4, ADDRESS],
    [4, 7, 8, 0],
    [7, 4, 0, 5],
    [7, 0, 0, 1],
];

/// Every device, its lists, every two entries e and f of a list: they are the same, or each high of e is less than
/// each low of f, or each high of f less than each low of e.
pub const ENTRIES_OVERLAP: Entries<13> = [
    [5, 1, 0, DEVICE],
    [5, 2, 1, LIST],
    [5, 3, 2, ENTRY],
    [5, 4, 2, ENTRY],
    [3, 5, 6, 0],
    [7, 2, 0, 3],
    [3, 7, 10, 0],
    [5, 8, 3, HIGH],
    [5, 9, 4, LOW],
    [8, 4, 0, 5],
    [5, 11, 3, LOW],
    [5, 12, 4, HIGH],
    [8, 5, 0, 4],
];

/// Every device, its routes, their next hops h: for some interface of the device some low is at most h, and h is at
/// most some high.
pub const NEXT_HOPS: Entries<9> = [
    [5, 1, 0, DEVICE],
    [5, 2, 1, ROUTE],
    [5, 3, 2, NEXT_HOP],
    [6, 4, 1, INTERFACE],
    [2, 5, 7, 0],
    [6, 6, 4, LOW],
    [9, 4, 0, 2],
    [6, 8, 4, HIGH],
    [9, 2, 0, 4],
];

/// As rule B, which is the one of one server: of one device more than these, if all are servers, some two are the
/// same.
pub fn at_most_servers(most: u32) -> Vec<u32> {
    let devices = most + 1;
    let mut rule: Vec<u32> = (1..=devices).flat_map(|body| [5, body, 0, DEVICE]).collect();
    // The left side has two entries for each device, and an and before each but the last.
    let left = next_entry(&rule) + 1;
    rule.extend([4, left, left + 3 * devices - 1, 0]);
    for device in 0..devices {
        let entry = next_entry(&rule);
        if device < most {
            rule.extend([2, entry + 1, entry + 3, 0]);
        }
        rule.extend([6, next_entry(&rule) + 1, device + 1, MODE, 7, devices, 1, SERVER]);
    }
    let pairs = (0..devices).flat_map(|one| (one + 1..devices).map(move |other| (one, other)));
    for (one, other) in pairs {
        let entry = next_entry(&rule);
        if (one, other) != (most - 1, most) {
            rule.extend([3, entry + 1, entry + 2, 0]);
        }
        rule.extend([7, one, 0, other]);
    }
    rule
}

/// The rows of a device in depth-first order, numbered as they are added.
struct Device {
    rows: Vec<Row>,
}

impl Device {
    fn new(device: u32) -> Device {
        Device { rows: vec![root(device, 1, DEVICE, 1_000 + device)] }
    }

    fn add(&mut self, parent: &Row, name: u32, value: u32) -> Row {
        let row = under(parent, self.rows.len() as u32 + 1, name, value);
        self.rows.push(row);
        row
    }
}

/// The rows under an interface.
#[derive(Clone, Copy, PartialEq)]
pub enum Below {
    Address,
    AddressAndTwoMore,
}

/// Devices with as many interfaces each. No two addresses are equal.
pub fn addresses(devices: u32, interfaces: u32, below: Below) -> Vec<u32> {
    let device = |number: u32| {
        let mut device = Device::new(number);
        let root = device.rows[0];
        for i in 1..=interfaces {
            let interface = device.add(&root, INTERFACE, i);
            let address = FIRST_ADDRESS + (number - 1) * interfaces + i;
            match below {
                Below::Address => {
                    device.add(&interface, ADDRESS, address);
                }
                Below::AddressAndTwoMore => {
                    for (name, value) in [(MTU, 1_500), (ADDRESS, address), (VLAN, i)] {
                        device.add(&interface, name, value);
                    }
                }
            }
        }
        device.rows
    };
    words_of(&(1..=devices).flat_map(device).collect::<Vec<Row>>())
}

/// The rows of one device by their depth: the root, all that hangs under it, then what hangs under these.
pub fn breadth_first(table: &[u32]) -> Vec<u32> {
    let mut rows = rows_of(table);
    rows.sort_by_key(|row| row.deep);
    let order: Vec<u32> = rows.iter().map(|row| row.at).collect();
    let number = |at: u32| order.iter().position(|&other| other == at).map_or(0, |place| place as u32 + 1);
    for row in &mut rows {
        (row.at, row.up) = (number(row.at), number(row.up));
    }
    words_of(&rows)
}

/// A device with a list. Each entry ends before the next begins.
pub fn list(entries: u32) -> Vec<u32> {
    let mut device = Device::new(1);
    let list = device.add(&device.rows[0].clone(), LIST, 1);
    for i in 1..=entries {
        let entry = device.add(&list, ENTRY, i);
        device.add(&entry, LOW, 10 * i);
        device.add(&entry, HIGH, 10 * i + 9);
    }
    words_of(&device.rows)
}

/// A device whose interfaces have a range of 256 addresses each, and routes with a next hop in each range in turn.
pub fn routes(interfaces: u32, routes: u32) -> Vec<u32> {
    let mut device = Device::new(1);
    let root = device.rows[0];
    let low = |i: u32| FIRST_ADDRESS + 256 * i;
    for i in 0..interfaces {
        let interface = device.add(&root, INTERFACE, 1 + i);
        device.add(&interface, LOW, low(i));
        device.add(&interface, HIGH, low(i) + 255);
    }
    for i in 0..routes {
        let route = device.add(&root, ROUTE, 1 + i);
        device.add(&route, NEXT_HOP, low(i % interfaces) + 1 + i / interfaces);
    }
    words_of(&device.rows)
}

#[cfg(test)]
mod tests {
    use super::*;
    use crate::inputs::B;
    use gabzeril_tests::checker::{check_rule, MOST_NESTED};

    #[test]
    fn rules_are_accepted() {
        assert_eq!(at_most_servers(1), B);
        let rules = [
            INTERFACES_SHARE.concat(),
            DEVICES_SHARE.concat(),
            ENTRIES_OVERLAP.concat(),
            NEXT_HOPS.concat(),
            at_most_servers(2),
            at_most_servers(MOST_NESTED as u32 - 2),
        ];
        for rule in rules {
            assert_eq!(check_rule(&rule).number(), 0, "{rule:?}");
        }
    }

    #[test]
    fn rows_are_by_depth() {
        let table = rows_of(&breadth_first(&addresses(1, 3, Below::Address)));
        let places: Vec<_> = table.iter().map(|row| (row.at, row.up, row.deep)).collect();
        let expected = [(1, 0, 0), (2, 1, 1), (3, 1, 1), (4, 1, 1), (5, 2, 2), (6, 3, 2), (7, 4, 2)];
        assert_eq!(places, expected);
    }
}
