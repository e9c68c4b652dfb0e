//! A row of a store as the script writes it, and document 01's number 15 at the rope, read once more from 01.

pub type Id = (u64, i32);
pub const UNKNOWN_PEER: u64 = u64::MAX;
const UNKNOWN: u32 = u32::MAX;
const START: u32 = u32::MAX - 1;
const END: u32 = u32::MAX - 2;
const MOVE: u32 = u32::MAX - 3;

#[derive(Clone, Copy, Debug, PartialEq)]
pub struct Row {
    pub id: Id,
    pub lamport: u32,
    pub real: Option<Id>,
    pub status: (bool, i16),
    pub diff: Option<(bool, i16)>,
    pub left: Option<Id>,
    pub right: Option<Id>,
    pub chunk: (u32, u32),
}

impl Row {
    /// From `SPAN`, its chunk said in words or as two numbers.
    pub fn read(words: &[&str]) -> Option<Row> {
        let [id, lamport, real, status, diff, left, right, chunk @ ..] = words else {
            return None;
        };
        let chunk = match chunk {
            ["text", a, b] | ["raw", a, b] | [a, b] if a.parse::<u32>().is_ok() => (a.parse().ok()?, b.parse().ok()?),
            ["unknown", n] => (UNKNOWN, n.parse().ok()?),
            ["start", i] => (START, i.parse().ok()?),
            ["end", i] => (END, i.parse().ok()?),
            ["move"] => (MOVE, MOVE),
            _ => return None,
        };
        Some(Row {
            id: read_id(id)?,
            lamport: lamport.parse().ok()?,
            real: maybe(real, read_id)?,
            status: read_status(status)?,
            diff: maybe(diff, read_status)?,
            left: maybe(left, read_id)?,
            right: maybe(right, read_id)?,
            chunk,
        })
    }

    /// As `row` writes it, the chunk as two numbers.
    pub fn words(&self) -> String {
        let id = |i: Id| {
            if i.0 == UNKNOWN_PEER {
                format!("U.{}", i.1)
            } else {
                format!("{}.{}", i.0, i.1)
            }
        };
        let some_id = |i: Option<Id>| i.map_or("-".into(), id);
        let status = |s: (bool, i16)| format!("{}:{}", if s.0 { "future" } else { "now" }, s.1);
        format!(
            "{} {} {} {} {} {} {} {} {}",
            id(self.id),
            self.lamport,
            some_id(self.real),
            status(self.status),
            self.diff.map_or("-".into(), status),
            some_id(self.left),
            some_id(self.right),
            self.chunk.0,
            self.chunk.1
        )
    }

    /// The length of its chunk, where the chunk does not break 1.
    pub fn len(&self) -> Option<u32> {
        let (a, b) = self.chunk;
        match a {
            UNKNOWN => (b > 0).then_some(b),
            START | END => Some(1),
            MOVE => (b == MOVE).then_some(1),
            _ => (a < b && b <= 4_294_967_292).then(|| b - a),
        }
    }

    /// It breaks neither 1 nor 2.
    fn sound(&self) -> bool {
        let Some(len) = self.len() else { return false };
        let fits = |id: Id| id.1 >= 0 && id.1 as i64 + len as i64 <= 2_147_483_647;
        fits(self.id) && self.lamport as u64 + len as u64 <= 4_294_967_295 && self.real.is_none_or(|r| r.0 != UNKNOWN_PEER && fits(r))
    }

    /// The ids of its units, where it is sound.
    fn holds(&self, id: Id) -> bool {
        let len = self.len().unwrap_or(0) as i64;
        self.id.0 == id.0 && self.id.1 <= id.1 && (id.1 as i64) < self.id.1 as i64 + len
    }

    /// 001's can_merge with the next row, both sound.
    fn joins(&self, next: &Row) -> bool {
        let len = self.len().unwrap_or(0);
        let runs_on = |a: Id, b: Id| a.0 == b.0 && a.1 as i64 + len as i64 == b.1 as i64;
        let chunks = match (self.chunk.0, next.chunk.0) {
            (UNKNOWN, UNKNOWN) => self.chunk.1.checked_add(next.chunk.1).is_some(),
            (a, b) => a < MOVE && b < MOVE && self.chunk.1 == b,
        };
        let reals = match (self.real, next.real) {
            (None, None) => true,
            (Some(a), Some(b)) => runs_on(a, b),
            _ => false,
        };
        runs_on(self.id, next.id)
            && self.lamport as u64 + len as u64 == next.lamport as u64
            && (self.status, self.diff, self.right) == (next.status, next.diff, next.right)
            && next.left == Some((self.id.0, next.id.1 - 1))
            && chunks
            && reals
    }
}

/// Not 15. The number of rows is within the room, since `rows` takes no other.
pub fn well_formed(rows: &[Row]) -> bool {
    let units = |r: &Row| r.len().unwrap_or(0) as u64;
    rows.iter().all(Row::sound)
        && rows.iter().map(units).sum::<u64>() <= 65_536
        && rows.iter().enumerate().all(|(i, a)| rows[..i].iter().all(|b| !b.holds(a.id) && !a.holds(b.id)))
        && rows.iter().flat_map(|r| [r.left, r.right]).flatten().all(|o| rows.iter().any(|r| r.holds(o)))
        && rows.windows(2).all(|w| !w[0].joins(&w[1]))
}

fn read_id(word: &str) -> Option<Id> {
    let (peer, counter) = word.split_once('.')?;
    let peer = if peer == "U" { UNKNOWN_PEER } else { peer.parse().ok()? };
    Some((peer, counter.parse().ok()?))
}

fn maybe<T>(word: &str, read: impl Fn(&str) -> Option<T>) -> Option<Option<T>> {
    if word == "-" {
        Some(None)
    } else {
        read(word).map(Some)
    }
}

fn read_status(word: &str) -> Option<(bool, i16)> {
    let (when, count) = word.split_once(':')?;
    let future = match when {
        "future" => true,
        "now" => false,
        _ => return None,
    };
    Some((future, count.parse().ok()?))
}
