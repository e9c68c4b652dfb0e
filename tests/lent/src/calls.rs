//! The calls of a history as machine code, on the bytes that are lent to them.
#[path = "../../entries.rs"]
mod entries;

use entries::*;

/// A version's peers and counts.
pub type Columns = (Vec<u64>, Vec<u32>);

/// All that is lent: the three buffers of a history, and the columns of a delta.
#[derive(Clone, PartialEq)]
pub struct Lent {
    pub s: Vec<u8>,
    pub t: Vec<u8>,
    pub e: Vec<u8>,
    pub kind: Vec<u8>,
    pub words: [Vec<u32>; 4],
    pub peer: Vec<u64>,
}

pub enum Call {
    Len,
    At(u32),
    Checkout(Columns),
    Delta(Columns, Columns),
    /// A row of 256 bytes, of which the context is not read, and the context.
    Arrive(Vec<u8>, Columns),
    ArriveAll(Vec<u8>),
}

/// The number of the refusal, or 0; and what was counted.
pub type Answer = (u8, u64);

impl Lent {
    /// Room for so many rows, target ranges and entries, and some bytes more that are room for nothing.
    pub fn new(rows: usize, targets: usize, out: usize, more: usize) -> Lent {
        let words = || vec![0; out];
        Lent {
            s: vec![0; 72 * (rows + 1) + more],
            t: vec![0; 16 * targets + more],
            e: vec![0; 64 + 2000 * 256 + more],
            kind: vec![0; out],
            words: [words(), words(), words(), words()],
            peer: vec![0; out],
        }
    }

    /// The columns without their first n entries.
    pub fn past(&self, n: usize) -> (&[u8], [&[u32]; 4], &[u64]) {
        (&self.kind[n..], self.words.each_ref().map(|w| &w[n..]), &self.peer[n..])
    }

    /// Opens a history, with a placeholder where n is not 0.
    pub fn open(&mut self, n: u32) -> u8 {
        let (s, t, e) = (&mut self.s, &self.t, &mut self.e);
        unsafe {
            match n {
                0 => bench_open(s.as_mut_ptr(), s.len(), t.as_ptr(), t.len(), e.as_mut_ptr(), e.len()),
                _ => bench_open_with(s.as_mut_ptr(), s.len(), t.as_ptr(), t.len(), e.as_mut_ptr(), e.len(), n),
            }
        }
    }

    pub fn make(&mut self, call: &Call) -> Answer {
        let Lent { s, t, e, kind, words: [x, y, counter, lamport], peer } = self;
        let both = |n: u64| (n as u8, n >> 8);
        unsafe {
            match call {
                Call::Len => both(bench_history_len(s.as_ptr(), s.len(), t.as_ptr(), t.len(), e.as_ptr(), e.len())),
                Call::At(pos) => match both(bench_history_at(s.as_ptr(), s.len(), t.as_ptr(), t.len(), e.as_ptr(), e.len(), *pos)) {
                    (255, _) => (0, 0),
                    other => other,
                },
                Call::Checkout((p, c)) => {
                    let (t, e) = (&*t, &*e);
                    let code = bench_checkout(
                        s.as_mut_ptr(),
                        s.len(),
                        t.as_ptr(),
                        t.len(),
                        e.as_ptr(),
                        e.len(),
                        p.as_ptr(),
                        p.len(),
                        c.as_ptr(),
                        c.len(),
                    );
                    (code, 0)
                }
                Call::Arrive(row, (p, c)) => {
                    let code = bench_arrive(
                        s.as_mut_ptr(),
                        s.len(),
                        t.as_mut_ptr(),
                        t.len(),
                        e.as_mut_ptr(),
                        e.len(),
                        row.as_ptr(),
                        row.len(),
                        p.as_ptr(),
                        p.len(),
                        c.as_ptr(),
                        c.len(),
                    );
                    (code, 0)
                }
                Call::ArriveAll(rows) => both(bench_arrive_all(
                    s.as_mut_ptr(),
                    s.len(),
                    t.as_mut_ptr(),
                    t.len(),
                    e.as_mut_ptr(),
                    e.len(),
                    rows.as_ptr(),
                    rows.len(),
                )),
                Call::Delta(a, b) => both(bench_delta(
                    s.as_mut_ptr(),
                    s.len(),
                    t.as_ptr(),
                    t.len(),
                    e.as_ptr(),
                    e.len(),
                    a.0.as_ptr(),
                    a.0.len(),
                    a.1.as_ptr(),
                    a.1.len(),
                    b.0.as_ptr(),
                    b.0.len(),
                    b.1.as_ptr(),
                    b.1.len(),
                    kind.as_mut_ptr(),
                    kind.len(),
                    x.as_mut_ptr(),
                    x.len(),
                    y.as_mut_ptr(),
                    y.len(),
                    peer.as_mut_ptr(),
                    peer.len(),
                    counter.as_mut_ptr(),
                    counter.len(),
                    lamport.as_mut_ptr(),
                    lamport.len(),
                )),
            }
        }
    }
}
