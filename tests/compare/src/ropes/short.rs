//! Short scripts, all of them. Every call is one that 01 accepts.
use super::{Script, AMPLE};
use model01::rope01::Rope01;
use model01::*;

/// What the calls after the opening are taken from.
#[derive(Clone, Copy, PartialEq)]
pub enum Alphabet {
    /// Inserts of one or two units at each position by each peer, deletes of one at each position, each unit made future or now.
    Calls,
    /// Any units made future or now, then an insert of one unit at each position by each peer; this counts as one call.
    Places,
    /// As `Calls`, with updates on diff_status in the place of those on status, and counts that rise and fall.
    Deltas,
}

pub fn alphabet(word: &str) -> Option<Alphabet> {
    match word {
        "calls" => Some(Alphabet::Calls),
        "places" => Some(Alphabet::Places),
        "deltas" => Some(Alphabet::Deltas),
        _ => None,
    }
}

/// Hands every script of the opening and at most `depth` further calls to `sink`, until it answers false.
pub fn scripts(alphabet: Alphabet, opening: Call, depth: usize, peers: u64, sink: &mut dyn FnMut(Script) -> bool) -> bool {
    let mut list = Rope01::default();
    list.call(&opening);
    longer(alphabet, &mut vec![opening], &list, depth, peers, sink)
}

fn longer(
    alphabet: Alphabet,
    script: &mut Vec<Call>,
    list: &Rope01,
    depth: usize,
    peers: u64,
    sink: &mut dyn FnMut(Script) -> bool,
) -> bool {
    if !sink(Script { limits: AMPLE, rows: vec![], calls: script.clone(), last_only: true }) {
        return false;
    }
    if depth == 0 {
        return true;
    }
    for calls in letters(alphabet, list, peers) {
        let mut next = list.clone();
        let accepted = calls.iter().all(|c| !matches!(next.call(c), Answer::Refused(_)));
        assert!(accepted, "a call outside 01's domain");
        let len = script.len();
        script.extend(calls);
        let more = longer(alphabet, script, &next, depth - 1, peers, sink);
        script.truncate(len);
        if !more {
            return false;
        }
    }
    true
}

/// The calls that may come next.
fn letters(alphabet: Alphabet, list: &Rope01, peers: u64) -> Vec<Vec<Call>> {
    let mut out = Vec::new();
    match alphabet {
        Alphabet::Places => {
            for set in 0..1u32 << list.units.len() {
                let mut before = list.clone();
                let mut calls = Vec::new();
                for (i, unit) in list.units.iter().enumerate() {
                    let future = set >> i & 1 == 1;
                    if unit.status.0 != future {
                        let call = update(unit, Some(future), 0, false);
                        before.call(&call);
                        calls.push(call);
                    }
                }
                for insert in inserts(&before, peers, 1) {
                    out.push(calls.iter().cloned().chain([insert]).collect());
                }
            }
        }
        Alphabet::Calls | Alphabet::Deltas => {
            out.extend((1..=2).flat_map(|len| inserts(list, peers, len)).map(|c| vec![c]));
            let tctr = list.units.len() as i32 * 10;
            out.extend((0..list.visible()).map(|pos| vec![Call::Delete { pos, len: 1, tpeer: 9, tctr, rev: false }]));
            for unit in &list.units {
                if alphabet == Alphabet::Calls {
                    out.push(vec![update(unit, Some(!unit.status.0), 0, false)]);
                } else {
                    let future = unit.diff.unwrap_or(unit.status).0;
                    out.push(vec![update(unit, Some(!future), 0, true)]);
                    out.push(vec![update(unit, None, 1, true)]);
                    out.push(vec![update(unit, None, -1, true)]);
                    out.push(vec![update(unit, None, -1, false)]);
                }
            }
        }
    }
    out
}

fn update(unit: &Unit, future: Option<bool>, delta: i16, diff: bool) -> Call {
    let (peer, from) = unit.id;
    Call::Update { peer, from, to: from + 1, future, delta, diff }
}

/// Counters, lamports and text run on from a peer's insert to its next, so that spans join where they may.
fn inserts(list: &Rope01, peers: u64, len: u32) -> Vec<Call> {
    let mut out = Vec::new();
    for peer in 1..=peers {
        let ctr = list.units.iter().filter(|u| u.id.0 == peer).count() as u32;
        let text = 100 * peer as u32 + ctr;
        for pos in 0..=list.visible() {
            out.push(Call::Insert { pos, peer, ctr: ctr as i32, lam: ctr, chunk: (text, text + len) });
        }
    }
    out
}
