//! Rows of a good list written anew, mostly almost as they were.
use crate::chance::Random;
use crate::lane::Said;
use crate::row::{Row, UNKNOWN_PEER};

pub struct Damage {
    /// How many rows the list may hold.
    pub room: usize,
    /// Lines that write rows, and whether each is known to change one.
    pub lines: Vec<(String, bool)>,
    /// The rows as they are known to stand once the lines are done.
    pub rows: Vec<Row>,
}

/// The rows that `spans` answers.
pub fn rows_of(said: &Said) -> Option<Vec<Row>> {
    if !said[0].starts_with("spans ") {
        return None;
    }
    said[1..].iter().map(|l| Row::read(&l.split(' ').skip(2).collect::<Vec<_>>())).collect()
}

impl Damage {
    fn write(&mut self, i: usize, row: Row) {
        let changes = self.rows.get(i).is_some_and(|old| *old != row);
        self.lines.push((format!("row {i} {}", row.words()), changes));
        if let Some(old) = self.rows.get_mut(i) {
            *old = row;
        }
    }

    /// Writes a row after the last and takes it into the list.
    fn add(&mut self, row: Row) {
        let n = self.rows.len();
        self.write(n, row);
        self.lines.push((format!("rows {}", n + 1), true));
        self.rows.push(row);
    }

    /// Changes a row, the order of two, or the number of rows.
    pub fn spoil(&mut self, random: &mut Random) {
        let n = self.rows.len();
        if n == 0 {
            return;
        }
        let (i, j) = (random.below(n), random.below(n));
        match random.below(12) {
            0 => {
                self.rows.pop();
                self.lines.push((format!("rows {}", n - 1), true));
            }
            1 if n < self.room => {
                let row = near(random, self.rows[n - 1], &self.rows);
                self.add(row);
            }
            2 if n < self.room => {
                // the last row cut in two: every unit stands, but the list is not joined
                let (first, second) = halves(self.rows[n - 1]);
                self.write(n - 1, first);
                self.add(second);
            }
            3 => {
                let (a, b) = (self.rows[i], self.rows[j]);
                self.write(i, b);
                self.write(j, a);
            }
            _ => {
                let row = near(random, self.rows[i], &self.rows);
                self.write(i, row);
            }
        }
    }
}

/// A row cut after its first unit, where it has more; else twice itself.
fn halves(row: Row) -> (Row, Row) {
    let (mut first, mut second) = (row, row);
    if row.len().is_some_and(|n| n > 1) {
        let up = |id: (u64, i32)| (id.0, id.1.wrapping_add(1));
        if row.chunk.0 == u32::MAX {
            (first.chunk.1, second.chunk.1) = (1, row.chunk.1 - 1);
        } else {
            first.chunk.1 = row.chunk.0 + 1;
            second.chunk.0 += 1;
        }
        second.id = up(row.id);
        second.lamport = row.lamport.wrapping_add(1);
        second.real = row.real.map(up);
        second.left = Some(row.id);
    }
    (first, second)
}

/// The row with one field changed.
fn near(random: &mut Random, row: Row, rows: &[Row]) -> Row {
    let mut out = row;
    let held = rows[random.below(rows.len())].id;
    let step = random.pick(&[-1, 1, 1, 2]);
    let other = (random.below(5) as u64, random.below(12) as i32);
    let id = random.pick(&[None, Some(held), Some(held), Some(other), Some((UNKNOWN_PEER, 0)), Some((1, -1)), Some((1, 2_147_483_647))]);
    let status = (random.one_in(2), random.pick(&[0, 0, 1, -1, 32_767, -32_768]));
    match random.below(14) {
        0 => out.id.0 = random.pick(&[1, 2, 3, 9, 0, UNKNOWN_PEER]),
        1 => out.id.1 = random.pick(&[row.id.1.wrapping_add(step), -1, 2_147_483_647, 2_147_483_646, 40]),
        2 => out.lamport = random.pick(&[row.lamport.wrapping_add(1), 4_294_967_295, 4_294_967_294, 0]),
        3 => out.real = id,
        4 => out.real = row.real.map(|r| (r.0, r.1.wrapping_add(step))),
        5 | 6 => out.status = status,
        7 => out.diff = random.pick(&[None, Some(status)]),
        8 | 9 => out.left = id,
        10 => out.right = id,
        11 => {
            out.chunk.0 = random.pick(&[
                row.chunk.0.wrapping_add(1),
                row.chunk.0.wrapping_sub(1),
                4_294_967_295,
                4_294_967_294,
                4_294_967_293,
                4_294_967_292,
            ])
        }
        12 => {
            out.chunk.1 = random.pick(&[
                row.chunk.1.wrapping_add(1),
                row.chunk.1.wrapping_sub(1),
                0,
                row.chunk.0,
                65_530,
                65_600,
                4_294_967_292,
                4_294_967_293,
            ])
        }
        _ => out = rows[random.below(rows.len())],
    }
    out
}
