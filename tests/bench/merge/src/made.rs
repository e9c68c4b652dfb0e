//! A morning's edits, made by a seed, and their rows of 256 bytes in the log's own form.
use crate::plain::{count, Act, Edit, Plain};

pub struct Random(pub u64);

impl Random {
    pub fn below(&mut self, n: usize) -> usize {
        self.0 = self.0.wrapping_mul(6364136223846793005).wrapping_add(1442695040888963407);
        ((self.0 >> 33) % n as u64) as usize
    }
}

/// Edits by some offices in the order they were made: now and then an office hears of all that another one knows, and each edits what it knows.
pub fn made(random: &mut Random, edits: usize, offices: usize, placeholder: u32) -> Vec<Edit> {
    let mut plain = Plain::new(placeholder);
    let mut known = vec![vec![0u32; offices]; offices];
    let mut lamports = vec![0u32; offices];
    let mut text = vec![0u32; offices];
    let mut targets = 0;
    let mut all = vec![];
    while all.len() < edits {
        let me = random.below(offices);
        if random.below(3) == 0 {
            let other = random.below(offices);
            for k in 0..offices {
                known[me][k] = known[me][k].max(known[other][k]);
            }
            lamports[me] = lamports[me].max(lamports[other]);
        }
        let context: Vec<(u64, u32)> = (0..offices).filter(|&k| known[me][k] > 0).map(|k| (k as u64 + 1, known[me][k])).collect();
        plain.checkout(&context);
        let visible = plain.visible_len();
        let (pos, act) = if visible < 4 || random.below(3) > 0 {
            let start = me as u32 * 1_000_000 + text[me];
            let len = 1 + random.below(5) as u32;
            text[me] += len;
            (random.below(visible as usize + 1) as u32, Act::Insert { lamport: lamports[me], start, end: start + len })
        } else {
            let len = 1 + random.below(4) as u32;
            targets += len;
            (random.below((visible - len) as usize + 1) as u32, Act::Delete { len, target: (1000, targets - len) })
        };
        let e = Edit { peer: me as u64 + 1, counter: known[me][me], pos, act, context };
        plain.merge(&e);
        known[me][me] += e.len();
        lamports[me] += e.len();
        all.push(e);
    }
    all
}

/// A random order in which each edit comes after what its context names.
pub fn arrival(random: &mut Random, made: &[Edit], offices: usize) -> Vec<Edit> {
    let mut held: Vec<(u64, u32)> = (0..offices).map(|k| (k as u64 + 1, 0)).collect();
    let mut rest: Vec<Edit> = made.to_vec();
    let mut order = vec![];
    while !rest.is_empty() {
        let ready: Vec<usize> = (0..rest.len())
            .filter(|&i| rest[i].counter == count(&held, rest[i].peer) && rest[i].context.iter().all(|k| k.1 <= count(&held, k.0)))
            .collect();
        let e = rest.remove(ready[random.below(ready.len())]);
        held[e.peer as usize - 1].1 += e.len();
        order.push(e);
    }
    order
}

pub fn rows(edits: &[Edit]) -> Vec<u8> {
    let mut all = vec![];
    for e in edits {
        let mut row = [0u8; 256];
        let mut put = |at: usize, v: u32| row[at..at + 4].copy_from_slice(&v.to_le_bytes());
        put(16, e.counter);
        put(20, e.pos);
        put(48, e.context.len() as u32);
        for (i, k) in e.context.iter().enumerate() {
            put(64 + 12 * i, k.0 as u32);
            put(72 + 12 * i, k.1);
        }
        put(0, e.peer as u32);
        match e.act {
            Act::Insert { lamport, start, end } => {
                put(28, lamport);
                put(32, start);
                put(36, end);
            }
            Act::Delete { len, target } => {
                put(8, target.0 as u32);
                put(24, 1);
                put(32, len);
                put(40, target.1);
            }
        }
        all.extend(row);
    }
    all
}
