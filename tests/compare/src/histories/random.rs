//! Random histories: edits of several peers that know more or less of one another, checkouts and deltas between closed versions, and at the end other arrivals of the same edits.
use super::judge::Ask;
use super::{close, ready, Script};
use crate::chance::Random;
use model01::history::*;
use model01::*;

/// How many arrivals of the same edits a script holds: as they were made, then in random orders.
const ARRIVALS: usize = 4;

pub fn script(seed: u64, calls: usize) -> Script {
    let mut random = Random::new(seed ^ 0xA551);
    let placeholder = if random.one_in(3) { 1 + random.below(8) as u32 } else { 0 };
    let peers: Vec<u64> = if random.below(4) == 0 {
        (1..=6 + random.below(11) as u64).collect()
    } else {
        (0..2 + random.below(4)).map(|_| random.pick(&[1, 2, 3, 4, 5, 7, 0, u64::MAX - 1])).collect()
    };
    let longest = random.pick(&[1, 2, 6, 40]);
    let (mut out, history) = made(&mut random, placeholder, &peers, longest, calls);
    let whole = Ask::Checkout(history.counts.clone());
    out.push(whole.clone());
    let mut each = 0;
    for _ in 1..ARRIVALS {
        out.push(Ask::New(placeholder));
        out.extend(arrival(&mut random, &history.edits).into_iter().map(Ask::Edit));
        out.push(whole.clone());
        each = if each == 0 { out.len() } else { each };
    }
    Script { calls: out, each }
}

/// Calls from an opening on, and the history that they make.
pub fn made(random: &mut Random, placeholder: u32, peers: &[u64], longest: usize, calls: usize) -> (Vec<Ask>, History) {
    let mut history = History::new(placeholder, true);
    let mut out = vec![Ask::New(placeholder)];
    let mut text = 0;
    while out.len() < calls {
        let ask = match random.below(10) {
            0..=6 => {
                let Some(edit) = edit(random, &history, peers, longest, &mut text) else { continue };
                history.edit(&edit);
                Ask::Edit(edit)
            }
            7 => {
                let v = version(random, &history);
                history.checkout(&v);
                Ask::Checkout(v)
            }
            kind => {
                let (a, b) = (version(random, &history), version(random, &history));
                history.checkout(&a);
                if kind == 8 {
                    Ask::Delta(a, b)
                } else {
                    Ask::Applied(a, b)
                }
            }
        };
        out.push(ask);
    }
    (out, history)
}

/// A closed version.
fn version(random: &mut Random, history: &History) -> Version {
    let mut out = Version::new();
    for (peer, count) in &history.counts {
        if random.one_in(2) {
            let part = 1 + random.below(*count as usize) as i32;
            out.insert(*peer, random.pick(&[*count, part]));
        }
    }
    close(history, &mut out);
    out
}

/// An edit that is accepted, or one with a single fault.
fn edit(random: &mut Random, history: &History, peers: &[u64], longest: usize, text: &mut u32) -> Option<Edit> {
    let peer = random.pick(peers);
    let own = history.counts.get(&peer).copied().unwrap_or(0);
    let mut ctx = version(random, history);
    ctx.remove(&peer);
    if own > 0 {
        ctx.insert(peer, own);
    }
    close(history, &mut ctx);
    if ctx.get(&peer).copied().unwrap_or(0) != own {
        return None;
    }
    let visible = history.status_at(&ctx).iter().filter(|s| **s == (false, 0)).count();
    let len = 1 + random.below(longest);
    let body = if visible == 0 || !random.one_in(3) {
        let mut chunk = match random.below(40) {
            0 => (UNKNOWN, len as u32),
            1 => (START_STYLE_ANCHOR, 3),
            2 => (END_STYLE_ANCHOR, 4),
            3 => (MOVE_ANCHOR, MOVE_ANCHOR),
            _ => (*text, *text + len as u32),
        };
        *text += len as u32;
        if random.one_in(80) {
            chunk = (5, 5);
        }
        let seen = history.rope.units.iter().filter(|u| ctx.get(&u.id.0).is_some_and(|n| u.id.1 < *n));
        let next = seen.map(|u| u.lamport + 1).max().unwrap_or(0);
        let past = if random.one_in(80) { 1 } else { 0 };
        Body::Insert {
            lam: if random.one_in(4) { random.below(30) as u32 } else { next },
            pos: random.below(visible + 1) + past * (visible + 1),
            chunk,
        }
    } else {
        let len = len.min(visible);
        Body::Delete {
            pos: random.below(visible - len + 1),
            len: if random.one_in(80) { 0 } else { len },
            tpeer: 1 + random.below(3) as u64,
            tctr: random.below(60) as i32,
            rev: random.one_in(3),
        }
    };
    Some(Edit { peer, ctr: own, ctx, body })
}

/// The edits in a random order in which each comes after those that its context covers, even in part.
pub fn arrival(random: &mut Random, edits: &[Edit]) -> Vec<Edit> {
    let mut left = edits.to_vec();
    let mut held = Version::new();
    let mut out = Vec::new();
    while !left.is_empty() {
        let choices: Vec<usize> = (0..left.len()).filter(|i| ready(&held, &left[*i])).collect();
        let next = left.remove(random.pick(&choices));
        held.insert(next.peer, next.ctr + next.len() as i32);
        out.push(next);
    }
    out
}
