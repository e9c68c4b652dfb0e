//! Calls for a rope, as lines: mostly of the sizes that small stores have, some at the ends of the ranges.
use crate::chance::Random;

fn peer(random: &mut Random) -> String {
    match random.below(30) {
        0 => "U".into(),
        1 => "0".into(),
        2 => "18446744073709551614".into(),
        _ => (1 + random.below(3)).to_string(),
    }
}

fn counter(random: &mut Random) -> i64 {
    match random.below(25) {
        0 => -1,
        1 => 2_147_483_647,
        2 => 2_147_483_646,
        _ => random.below(12) as i64,
    }
}

fn number(random: &mut Random) -> u64 {
    match random.below(25) {
        0 => 4_294_967_295,
        1 => 4_294_967_294,
        _ => random.below(12) as u64,
    }
}

fn position(random: &mut Random) -> u64 {
    match random.below(40) {
        0 => 4_294_967_295,
        1 => 65_536,
        _ => random.below(6) as u64,
    }
}

fn chunk(random: &mut Random) -> String {
    let a = random.below(20);
    let len = 1 + random.below(4);
    match random.below(60) {
        0..=2 => format!("unknown {}", random.below(4)),
        3 | 4 => format!("start {a}"),
        5 | 6 => format!("end {a}"),
        7 | 8 => "move".into(),
        9..=11 => format!("raw {} {}", random.pick(&[4_294_967_292u32, 4_294_967_293, 5]), random.pick(&[0u32, 4_294_967_292, 5])),
        12 => format!("text {a} {}", a + 65_530),
        _ => format!("text {a} {}", a + len),
    }
}

pub fn insert(random: &mut Random) -> String {
    format!("insert {} {} {} {} {}", position(random), peer(random), counter(random), number(random), chunk(random))
}

pub fn delete(random: &mut Random) -> String {
    let len = if random.one_in(40) { 4_294_967_295 } else { random.below(4) as u64 };
    format!("delete {} {len} {} {} {}", position(random), peer(random), counter(random), random.below(2))
}

pub fn update(random: &mut Random) -> String {
    let from = counter(random);
    let to = (from + random.below(4) as i64).min(2_147_483_647);
    let change = random.pick(&[0, 0, 0, 1, 1, -1, 32_767, -32_768]);
    format!("update {} {from} {to} {} {change} {}", peer(random), random.pick(&["future", "now", "keep"]), random.below(2))
}

/// The i-th call that builds a store. Most inserts are accepted, and some run on from the peer's last.
pub fn building(random: &mut Random, i: usize) -> String {
    match random.below(8) {
        0 => delete(random),
        1 | 2 => update(random),
        3 => insert(random),
        _ => {
            let len = 1 + random.below(4);
            format!("insert {} {} {} {i} text {} {}", random.below(4), 1 + random.below(3), 4 * i, 4 * i, 4 * i + len)
        }
    }
}

/// Any call that leaves a rope open.
pub fn any(random: &mut Random) -> String {
    match random.below(16) {
        0..=2 => insert(random),
        3..=5 => delete(random),
        6..=8 => update(random),
        9 => "clear".into(),
        10 => "diff".into(),
        11 => format!("at {}", position(random)),
        12 => random.pick(&["len", "dump"]).into(),
        13 => random.pick(&["spans", "visible"]).into(),
        14 => random.pick(&["placeholder 0", "placeholder 65537"]).into(),
        _ => random.pick(&["checkout -", "ins - 0 1 0 0 text 0 1", "delta - -", "insert 0 1 0 text", "rows 65537"]).into(),
    }
}
