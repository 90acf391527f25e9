//! What Rust's own derive writes of a policy, for rows/2-access/10-a-policy-is-written-as-derived: plain Rust, which
//! rows/due.py compiles and runs. Prints a line for each case, its name and a text, in which a line end is written \n.
use std::collections::BTreeMap;
use std::fmt::Debug;

#[derive(Debug)]
#[allow(dead_code)]
struct Sizes {
    nodes: u8,
    liars: u8,
}

#[derive(Debug)]
#[allow(dead_code)]
struct NodeName {
    index: u8,
}

#[derive(Debug)]
#[allow(dead_code)]
struct RoleTable {
    sizes: Sizes,
    owners: BTreeMap<u16, NodeName>,
}

#[derive(Debug)]
#[allow(dead_code)]
struct Relation<A, B> {
    by_first: Vec<Vec<(A, B)>>,
    by_second: Vec<Vec<(B, A)>>,
    room: usize,
}

#[derive(Debug)]
#[allow(dead_code)]
struct Policy {
    roles: RoleTable,
    assigned: Relation<u32, u16>,
    granted: Relation<(u16, u32), u16>,
}

/// So much room is made where half of it is used up.
const ROOM: usize = 128;

fn roles() -> RoleTable {
    RoleTable {
        sizes: Sizes { nodes: 4, liars: 1 },
        owners: [2, 65_535].map(|role| (role, NodeName { index: 0 })).into(),
    }
}

/// The room after so many pairs were put, and so many commands of the other relation behind them.
fn room_after(puts: usize, behind: usize) -> usize {
    let mut room = ROOM;
    for _ in 0..puts {
        if room < ROOM / 2 {
            room = ROOM;
        }
        room -= 1;
    }
    if behind > 0 && room < ROOM / 2 { ROOM } else { room }
}

/// These parts of the items, each in a block.
fn parts<T: Copy>(items: &[T], parts: &[(usize, usize)]) -> Vec<Vec<T>> {
    parts.iter().map(|(from, end)| items[*from..*end].to_vec()).collect()
}

/// The items in ascending order, each once.
fn ascending<T: Ord + Copy>(items: &[T]) -> Vec<T> {
    let mut items = items.to_vec();
    items.sort();
    items.dedup();
    items
}

type Parts<'a> = &'a [(usize, usize)];

fn relation<A: Ord + Copy, B: Ord + Copy>(
    pairs: &[(A, B)],
    first: Option<Parts>,
    second: Option<Parts>,
    room: usize,
) -> Relation<A, B> {
    let turned: Vec<(B, A)> = pairs.iter().map(|pair| (pair.1, pair.0)).collect();
    let (by_first, by_second) = (ascending(pairs), ascending(&turned));
    let all = [(0, by_first.len())];
    Relation {
        by_first: parts(&by_first, first.unwrap_or(&all)),
        by_second: parts(&by_second, second.unwrap_or(&all)),
        room,
    }
}

/// The high half of the number's product with 2,654,435,761.
fn drawn(number: u32) -> (u32, u32, u16) {
    let drawn = number.wrapping_mul(2_654_435_761) >> 16;
    let role = if drawn % 3 == 0 { 65_535 } else { 2 };
    (drawn, if drawn % 5 == 0 { u32::MAX } else { drawn % 97 }, role)
}

fn of_draws(count: u32) -> Policy {
    let mut assigned = Vec::new();
    let mut granted = Vec::new();
    for number in 0..count {
        let (drawn, user, role) = drawn(number);
        assigned.push((user, role));
        granted.push(((if drawn % 7 == 0 { u16::MAX } else { 5 }, user), role));
    }
    let count = count as usize;
    Policy {
        roles: roles(),
        assigned: relation(&assigned, None, None, room_after(count, count)),
        granted: relation(&granted, None, None, room_after(count, 0)),
    }
}

/// So many pairs of either kind, of role 2 those below `split`, and which parts of them are there.
fn of_pairs(count: u32, split: u32, first: Parts, second: Parts, behind: usize) -> Policy {
    let role = |number: u32| if number < split { 2u16 } else { 65_535 };
    let assigned: Vec<(u32, u16)> = (0..count).map(|n| (n, role(n))).collect();
    let granted: Vec<((u16, u32), u16)> = (0..count).map(|n| ((0, n), role(n))).collect();
    let count = count as usize;
    Policy {
        roles: roles(),
        assigned: relation(&assigned, Some(first), Some(second), room_after(count, count)),
        granted: relation(&granted, Some(first), Some(second), room_after(count, behind)),
    }
}

fn blank() -> Policy {
    let empty = || (Vec::new(), Vec::new());
    let (by_first, by_second) = empty();
    let assigned = Relation { by_first, by_second, room: 0 };
    Policy {
        roles: roles(),
        assigned,
        granted: Relation { by_first: Vec::new(), by_second: Vec::new(), room: 0 },
    }
}

fn tell(name: &str, policy: &impl Debug) {
    println!("{name} text {}", format!("{policy:?}").replace('\n', "\\n"));
    println!("{name} text-pretty {}", format!("{policy:#?}").replace('\n', "\\n"));
    println!("{name} text-signed {}", format!("{policy:+06?}").replace('\n', "\\n"));
}

fn main() {
    tell("blank", &blank());
    for count in [1, 2, 3, 10, 64, 65, 100, 350] {
        tell(&format!("draw-{count}"), &of_draws(count));
    }
    let all = [(0, 195), (195, 390), (390, 600)];
    tell("three-blocks", &of_pairs(600, 600, &all, &all, 0));
    let all = [(0, 195), (195, 390), (390, 585), (585, 780), (780, 1000)];
    tell("five-blocks", &of_pairs(1000, 390, &all, &all, 0));
    let left = [(0, 0), (195, 390), (585, 780), (780, 1000)];
    tell("unpaired", &of_pairs(1000, 390, &left, &left, 1));
    tell("cleared", &of_pairs(1000, 390, &left_of_clear()[1..], &left_of_clear(), 1));
}

/// A pass over a list drops its first block where another has pairs; by roles it stays, and is empty.
fn left_of_clear() -> [(usize, usize); 4] {
    [(0, 0), (390, 585), (585, 780), (780, 1000)]
}
