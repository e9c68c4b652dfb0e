//! Calls for a history, as lines: edits whose contexts are closed and whose counters run on, and the same spoilt in one place.
use crate::chance::Random;
use std::collections::BTreeMap;

pub type Version = BTreeMap<usize, usize>;

#[derive(Clone)]
pub struct Edit {
    /// The call's place in the script that builds the history.
    pub line: usize,
    peer: usize,
    from: usize,
    to: usize,
    inserts: bool,
    /// Its context and itself.
    version: Version,
}

/// The edits that a history holds, as far as they are known.
pub struct Held {
    pub placeholder: usize,
    pub peers: usize,
    pub edits: Vec<Edit>,
}

fn words(version: &Version) -> String {
    let pairs: Vec<String> = version.iter().map(|(p, n)| format!("{p}:{n}")).collect();
    if pairs.is_empty() {
        "-".into()
    } else {
        pairs.join(",")
    }
}

fn join(into: &mut Version, other: &Version) {
    for (p, n) in other {
        let held = into.entry(*p).or_default();
        *held = (*held).max(*n);
    }
}

/// A version that is mostly malformed, not held or not closed.
fn odd_version(random: &mut Random) -> String {
    match random.below(8) {
        0 => "2:1,1:1".into(),
        1 => "1:0".into(),
        2 => "1:-1".into(),
        3 => "U:1".into(),
        4 => (1..18).map(|p| format!("{p}:1")).collect::<Vec<_>>().join(","),
        5 => "1:2147483647".into(),
        _ => format!("{}:{}", 1 + random.below(4), 1 + random.below(9)),
    }
}

impl Held {
    /// Some edits' versions joined; a closed version that ends inside no delete.
    fn version(&self, random: &mut Random) -> Version {
        let mut out = Version::new();
        for _ in 0..random.below(4) {
            if !self.edits.is_empty() {
                join(&mut out, &self.edits[random.below(self.edits.len())].version);
            }
        }
        out
    }

    fn any_version(&self, random: &mut Random) -> String {
        let mut version = self.version(random);
        match random.below(8) {
            0 => return odd_version(random),
            1 => {
                // often not closed, or ending inside an edit
                let at = random.below(version.len());
                if let Some(n) = version.values_mut().nth(at) {
                    *n = (*n - 1).max(1);
                }
            }
            2 => drop(version.pop_first()),
            _ => {}
        }
        words(&version)
    }

    /// How many units are visible at a version at least: deletes that do not see each other may have taken the same.
    fn visible(&self, version: &Version) -> usize {
        let (mut there, mut gone) = (self.placeholder, 0);
        for e in &self.edits {
            let covered = version.get(&e.peer).map_or(0, |n| (*n).min(e.to)).saturating_sub(e.from);
            if e.inserts {
                there += covered;
            } else {
                gone += covered;
            }
        }
        there.saturating_sub(gone)
    }

    /// An edit that a history with room takes, and its line.
    pub fn edit(&self, random: &mut Random, line: usize) -> (Edit, String) {
        // many peers come one after the other, so that all are held
        let next = self.edits.len();
        let peer = if self.peers > 3 && next < self.peers { next + 1 } else { 1 + random.below(self.peers) };
        let mut version = self.version(random);
        let from = match self.edits.iter().rev().find(|e| e.peer == peer) {
            Some(last) => {
                join(&mut version, &last.version);
                last.to
            }
            None => 0,
        };
        let (context, visible) = (words(&version), self.visible(&version));
        let inserts = visible == 0 || !random.one_in(3);
        let (len, call) = if inserts {
            let (len, chunk) = match random.below(12) {
                0 => (2, "unknown 2".into()),
                1 => (1, "start 3".into()),
                2 => (1, "end 3".into()),
                3 => (1, "move".into()),
                _ => {
                    let len = 1 + random.below(4);
                    (len, format!("text {} {}", 4 * line, 4 * line + len))
                }
            };
            (len, format!("ins {context} {} {peer} {from} {line} {chunk}", random.below(visible + 1)))
        } else {
            let len = 1 + random.below(visible.min(4));
            let pos = random.below(visible - len + 1);
            let (to_peer, counter) = (random.pick(&[1, 2, 9]), random.below(6));
            (len, format!("del {context} {pos} {len} {peer} {from} {to_peer} {counter} {}", random.below(2)))
        };
        version.insert(peer, from + len);
        (Edit { line, peer, from, to: from + len, inserts, version }, call)
    }

    /// The words of an edit with one of them changed; it stays a call.
    fn odd_edit(&self, random: &mut Random) -> String {
        let (_, call) = self.edit(random, 999);
        let mut words: Vec<String> = call.split(' ').map(String::from).collect();
        let inserts = words[0] == "ins";
        let position = random.pick(&["9", "65536", "4294967295"]).to_string();
        let counter = random.pick(&["-1", "0", "1", "7", "2147483647"]).to_string();
        let peer = random.pick(&["U", "17", "18446744073709551614", "0"]).to_string();
        match (random.below(6), inserts) {
            (0, _) => words[1] = odd_version(random),
            (1, _) => words[2] = position,
            (2, true) => words[3] = peer,
            (3, true) => words[4] = counter,
            (4, true) => words[5] = random.pick(&["4294967295", "4294967294", "0"]).into(),
            (_, true) => {
                words.truncate(6);
                words.push(
                    random.pick(&["text 5 5", "text 5 70000", "unknown 0", "unknown 65536", "raw 4294967292 5", "raw 9 4294967293"]).into(),
                );
            }
            (2, _) => words[3] = random.pick(&["0", "50", "4294967295"]).into(),
            (3, _) => words[random.pick(&[4, 6])] = peer,
            (_, _) => words[random.pick(&[5, 7])] = counter,
        }
        words.join(" ")
    }

    /// The call of that kind, its arguments mostly good.
    pub fn call(&self, random: &mut Random, kind: usize) -> String {
        match kind {
            0 | 1 if random.one_in(3) => self.odd_edit(random),
            0 | 1 => {
                let wanted = ["ins", "del"][kind];
                let tries: Vec<String> = (0..8).map(|_| self.edit(random, 500).1).collect();
                tries.iter().find(|c| c.starts_with(wanted)).unwrap_or(&tries[0]).clone()
            }
            2 => format!("checkout {}", self.any_version(random)),
            3 => format!("delta {} {}", self.any_version(random), self.any_version(random)),
            4 => format!("applied {} {}", self.any_version(random), self.any_version(random)),
            5 => format!("at {}", random.pick(&[0, 0, 1, 2, 9, 4_294_967_295u32])),
            6 => "len".into(),
            7 => "dump".into(),
            8 => "spans".into(),
            _ => "visible".into(),
        }
    }
}

/// How many kinds of calls `call` knows.
pub const KINDS: usize = 10;
