//! The plain program: a vector of spans that is checked out anew for each edit, by document 01's rules. It checks nothing and refuses nothing.

pub type Id = (u64, u32);
pub const UNKNOWN: u64 = u64::MAX;

#[derive(Clone, Copy)]
pub enum Act {
    Insert { lamport: u32, start: u32, end: u32 },
    Delete { len: u32, target: Id },
}

#[derive(Clone)]
pub struct Edit {
    pub peer: u64,
    pub counter: u32,
    pub pos: u32,
    pub act: Act,
    pub context: Vec<(u64, u32)>,
}

impl Edit {
    pub fn len(&self) -> u32 {
        match self.act {
            Act::Insert { start, end, .. } => end - start,
            Act::Delete { len, .. } => len,
        }
    }
}

/// The units of a peer that a version has.
pub fn count(version: &[(u64, u32)], peer: u64) -> u32 {
    if peer == UNKNOWN {
        return u32::MAX;
    }
    version.iter().find(|k| k.0 == peer).map_or(0, |k| k.1)
}

#[derive(Clone, Copy)]
pub struct Span {
    pub id: Id,
    pub len: u32,
    lamport: u32,
    start: u32,
    pub real: Option<Id>,
    left: Option<Id>,
    right: Option<Id>,
    pub future: bool,
    pub deletes: i16,
}

impl Span {
    fn visible(&self) -> bool {
        !self.future && self.deletes == 0
    }

    fn has(&self, id: Id) -> bool {
        self.id.0 == id.0 && self.id.1 <= id.1 && id.1 < self.id.1 + self.len
    }

    /// The span from its unit i on, i > 0.
    fn from(&self, i: u32) -> Span {
        Span {
            id: (self.id.0, self.id.1 + i),
            len: self.len - i,
            lamport: self.lamport + i,
            start: self.start + i,
            real: self.real.map(|r| (r.0, r.1 + i)),
            left: Some((self.id.0, self.id.1 + i - 1)),
            ..*self
        }
    }

    fn joins(&self, b: &Span) -> bool {
        self.id.0 == b.id.0
            && self.id.1 + self.len == b.id.1
            && self.future == b.future
            && self.deletes == b.deletes
            && self.right == b.right
            && b.left == Some((b.id.0, b.id.1.wrapping_sub(1)))
            && (self.id.0 == UNKNOWN || (self.lamport + self.len == b.lamport && self.start + self.len == b.start))
            && match (self.real, b.real) {
                (None, None) => true,
                (Some(r), Some(q)) => r.0 == q.0 && r.1 + self.len == q.1,
                _ => false,
            }
    }
}

pub struct Plain {
    pub list: Vec<Span>,
    /// The deletes so far: peer, counter, and the id ranges that they took.
    deletes: Vec<(u64, u32, Vec<(Id, u32)>)>,
}

impl Plain {
    pub fn new(units: u32) -> Plain {
        let all =
            Span { id: (UNKNOWN, 0), len: units, lamport: 0, start: 0, real: None, left: None, right: None, future: false, deletes: 0 };
        Plain { list: if units > 0 { vec![all] } else { vec![] }, deletes: vec![] }
    }

    pub fn visible_len(&self) -> u32 {
        self.list.iter().filter(|x| x.visible()).map(|x| x.len).sum()
    }

    fn split(&mut self, at: usize, i: u32) {
        let rest = self.list[at].from(i);
        self.list[at].len = i;
        self.list.insert(at + 1, rest);
    }

    fn join(&mut self) {
        let mut last = 0;
        for i in 1..self.list.len() {
            let b = self.list[i];
            if self.list[last].joins(&b) {
                self.list[last].len += b.len;
            } else {
                last += 1;
                self.list[last] = b;
            }
        }
        self.list.truncate(last + 1);
    }

    /// Every unit's status at a version: what is not in it is future, and each delete in it counts at each unit that it took.
    pub fn checkout(&mut self, version: &[(u64, u32)]) {
        let mut i = 0;
        while i < self.list.len() {
            let held = count(version, self.list[i].id.0);
            let first = self.list[i].id.1;
            if first < held && held < first + self.list[i].len {
                self.split(i, held - first);
            }
            self.list[i].future = first >= held;
            self.list[i].deletes = 0;
            i += 1;
        }
        let deletes = std::mem::take(&mut self.deletes);
        for (peer, counter, took) in &deletes {
            if *counter < count(version, *peer) {
                for &(id, len) in took {
                    self.delete_range(id, len);
                }
            }
        }
        self.deletes = deletes;
        self.join();
    }

    /// Walks to the units of an id range and counts one delete more at each.
    fn delete_range(&mut self, id: Id, len: u32) {
        let (mut next, end) = (id.1, id.1 + len);
        let mut i = 0;
        while next < end {
            if !self.list[i].has((id.0, next)) {
                i += 1;
                if i == self.list.len() {
                    i = 0;
                }
                continue;
            }
            let skip = next - self.list[i].id.1;
            if skip > 0 {
                self.split(i, skip);
                i += 1;
            }
            if end < self.list[i].id.1 + self.list[i].len {
                self.split(i, end - next);
            }
            self.list[i].deletes += 1;
            next += self.list[i].len;
            i += 1;
            if i == self.list.len() {
                i = 0;
            }
        }
    }

    pub fn merge(&mut self, e: &Edit) {
        self.checkout(&e.context);
        match e.act {
            Act::Insert { lamport, start, end } => self.insert(e, lamport, start, end),
            Act::Delete { len, target } => self.delete(e, len, target),
        }
        self.join();
    }

    /// The index right after the first pos visible units; the list is cut there.
    fn cursor(&mut self, pos: u32) -> usize {
        let mut left = pos;
        let mut i = 0;
        while left > 0 {
            if self.list[i].visible() {
                if left < self.list[i].len {
                    self.split(i, left);
                }
                left -= self.list[i].len;
            }
            i += 1;
        }
        i
    }

    fn index(&self, id: Id) -> usize {
        self.list.iter().position(|x| x.has(id)).unwrap()
    }

    /// A unit's parent right by its place in the list: none is after all.
    fn parent_right(&self, left: Option<Id>, right: Option<Id>) -> (usize, u32) {
        if let Some(r) = right {
            let i = self.index(r);
            let x = &self.list[i];
            let its = if x.id == r { x.left } else { Some((r.0, r.1 - 1)) };
            if its == left {
                return (i, r.1 - x.id.1);
            }
        }
        (usize::MAX, 0)
    }

    fn insert(&mut self, e: &Edit, lamport: u32, start: u32, end: u32) {
        let cursor = self.cursor(e.pos);
        let left = if e.pos == 0 {
            None
        } else {
            let x = &self.list[cursor - 1];
            Some((x.id.0, x.id.1 + x.len - 1))
        };
        let stop = (cursor..self.list.len()).find(|&i| !self.list[i].future).unwrap_or(self.list.len());
        let right = self.list.get(stop).map(|x| x.id);
        let mut place = cursor;
        if cursor < stop {
            let ours = self.parent_right(left, right);
            let mut holding = false;
            for i in cursor..stop {
                let x = self.list[i];
                if x.left == left {
                    if x.right == right {
                        if x.id.0 > e.peer {
                            break;
                        }
                        holding = false;
                    } else {
                        let theirs = self.parent_right(x.left, x.right);
                        if theirs < ours {
                            holding = true;
                        } else if theirs == ours && x.id.0 > e.peer {
                            break;
                        } else {
                            holding = false;
                        }
                    }
                } else if !x.left.is_some_and(|l| self.list[cursor..i].iter().any(|y| y.has(l))) {
                    break;
                }
                if !holding {
                    place = i + 1;
                }
            }
        }
        let id = (e.peer, e.counter);
        let new = Span { id, len: end - start, lamport, start, real: Some(id), left, right, future: false, deletes: 0 };
        self.list.insert(place, new);
    }

    fn delete(&mut self, e: &Edit, len: u32, target: Id) {
        let mut i = self.cursor(e.pos);
        let mut done = 0;
        let mut took: Vec<(Id, u32)> = vec![];
        while done < len {
            if self.list[i].visible() {
                if len - done < self.list[i].len {
                    self.split(i, len - done);
                }
                let x = &mut self.list[i];
                x.deletes += 1;
                if x.real.is_none() {
                    x.real = Some((target.0, target.1 + done));
                }
                done += x.len;
                match took.last_mut() {
                    Some((id, n)) if id.0 == x.id.0 && id.1 + *n == x.id.1 => *n += x.len,
                    _ => took.push((x.id, x.len)),
                }
            }
            i += 1;
        }
        self.deletes.push((e.peer, e.counter, took));
    }
}
