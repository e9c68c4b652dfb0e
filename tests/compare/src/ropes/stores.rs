//! Well-formed stores that no call makes: rows of a store that calls made, in another order or with other origins, statuses and real ids. 01 says of them that
//! a rope call owes the scan; agreement with the Rust is not owed, so only the reading of 01 is asked.
use super::judge::Reading;
use super::random::{limits, more};
use super::{row_of, units_of_row, Script, AMPLE};
use crate::chance::Random;
use crate::row::{well_formed, Row};
use model01::rope01::Rope01;
use model01::*;

pub fn script(seed: u64, calls: usize) -> Script {
    let mut random = Random::new(seed ^ 0x570_4E5);
    let mut made = Reading { list: Rope01::default(), limits: AMPLE };
    made.call(&Call::Placeholder(1 + random.below(3) as u32));
    let first = 3 + random.below(25);
    more(&mut random, &mut made, first);
    let mut rows: Vec<Row> = made.list.spans().iter().map(row_of).collect();
    for _ in 0..random.below(12) {
        let mut other = rows.clone();
        change(&mut random, &mut other);
        if well_formed(&other) {
            rows = other;
        }
    }
    let mut limits = limits(&mut random);
    limits.room = limits.room.max(rows.len());
    let mut reading = Reading { list: Rope01 { units: rows.iter().flat_map(units_of_row).collect() }, limits };
    let calls = more(&mut random, &mut reading, calls);
    Script { limits, rows, calls, last_only: false }
}

fn change(random: &mut Random, rows: &mut [Row]) {
    let (i, j) = (random.below(rows.len()), random.below(rows.len()));
    let inside = random.below(rows[j].len().unwrap_or(1) as usize) as i32;
    let id = random.pick(&[None, Some((rows[j].id.0, rows[j].id.1 + inside))]);
    let status = (random.one_in(2), random.pick(&[0, 0, 0, 1, -1]));
    let real = (random.below(9) as u64, random.below(50) as i32);
    match random.below(7) {
        0 | 1 => rows.swap(i, j),
        2 => rows[i].left = id,
        3 => rows[i].right = id,
        4 => rows[i].status = status,
        5 => rows[i].diff = random.pick(&[None, Some(status)]),
        _ => rows[i].real = random.pick(&[None, Some(real)]),
    }
}
