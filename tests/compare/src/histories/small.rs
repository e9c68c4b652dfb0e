//! Every small history: inserts of one or two units and deletes of one, by each peer, with every context that 01 takes and at every position; each in every order of arrival.
use super::judge::Ask;
use super::{ready, Script};
use model01::history::*;
use model01::*;

/// Hands every history of at most `depth` edits to `sink`, until it answers false.
pub fn scripts(depth: usize, peers: u64, sink: &mut dyn FnMut(Script) -> bool) -> bool {
    longer(&History::new(0, true), depth, peers, sink)
}

fn longer(history: &History, depth: usize, peers: u64, sink: &mut dyn FnMut(Script) -> bool) -> bool {
    if !sink(arrivals(history)) {
        return false;
    }
    if depth == 0 {
        return true;
    }
    for edit in edits(history, peers) {
        let mut next = history.clone();
        if let Answer::Refused(_) = next.edit(&edit) {
            continue;
        }
        if !longer(&next, depth - 1, peers, sink) {
            return false;
        }
    }
    true
}

/// The edits in every order in which each comes after those that its context covers, each order ending with a checkout at all of them. The first is the order they were made in.
fn arrivals(history: &History) -> Script {
    let mut calls = Vec::new();
    orders(&mut Vec::new(), &Version::new(), &history.edits, &mut |order| {
        calls.push(Ask::New(0));
        calls.extend(order.iter().cloned().map(Ask::Edit));
        calls.push(Ask::Checkout(history.counts.clone()));
    });
    Script { calls, each: 0 }
}

fn orders(done: &mut Vec<Edit>, held: &Version, left: &[Edit], sink: &mut dyn FnMut(&[Edit])) {
    if left.is_empty() {
        sink(done);
    }
    for (i, edit) in left.iter().enumerate().filter(|(_, e)| ready(held, e)) {
        let mut held = held.clone();
        held.insert(edit.peer, edit.ctr + edit.len() as i32);
        done.push(edit.clone());
        orders(done, &held, &[&left[..i], &left[i + 1..]].concat(), sink);
        done.pop();
    }
}

/// The edits that may come next, and some that are refused.
fn edits(history: &History, peers: u64) -> Vec<Edit> {
    let mut versions = vec![Version::new()];
    for (peer, count) in &history.counts {
        let with = |v: &Version, n: i32| v.iter().map(|(p, c)| (*p, *c)).chain((n > 0).then_some((*peer, n))).collect();
        versions = versions.iter().flat_map(|v| (0..=*count).map(|n| with(v, n)).collect::<Vec<Version>>()).collect();
    }
    let at = history.edits.len() as u32 * 10;
    let mut out = Vec::new();
    for peer in 1..=peers {
        let ctr = history.counts.get(&peer).copied().unwrap_or(0);
        for ctx in versions.iter().filter(|v| v.get(&peer).copied().unwrap_or(0) == ctr) {
            for pos in 0..=history.rope.units.len() {
                let insert = |len| Body::Insert { lam: at, pos, chunk: (at, at + len) };
                let delete = Body::Delete { pos, len: 1, tpeer: 9, tctr: 0, rev: false };
                out.extend([insert(1), insert(2), delete].map(|body| Edit { peer, ctr, ctx: ctx.clone(), body }));
            }
        }
    }
    out
}
