//! Random scripts. Most calls are accepted; some stand just past a limit.
use super::judge::Reading;
use super::{Limits, Script, AMPLE};
use crate::chance::Random;
use model01::rope01::Rope01;
use model01::*;

/// What a script is like.
struct Temper {
    peers: Vec<u64>,
    /// Out of ten calls: inserts, deletes; the rest are updates and deltas.
    inserts: usize,
    deletes: usize,
    /// Updates on diff_status, out of ten.
    diffs: usize,
    longest: usize,
    /// The last insert's peer and the position after it, so that runs are typed.
    typing: Option<(u64, usize)>,
    text: u32,
}

fn temper(random: &mut Random) -> Temper {
    let all = [1, 2, 3, 4, 5, 0, 1 << 32, u64::MAX - 1];
    let reach = random.pick(&[3, 5, 8]);
    Temper {
        peers: (0..2 + random.below(4)).map(|_| random.pick(&all[..reach])).collect(),
        inserts: 3 + random.below(4),
        deletes: random.below(3),
        diffs: random.below(6),
        longest: random.pick(&[1, 2, 6, 6, 40]),
        typing: None,
        text: 0,
    }
}

pub fn limits(random: &mut Random) -> Limits {
    Limits {
        room: if random.one_in(4) { 1 + random.below(9) } else { AMPLE.room },
        out: if random.one_in(8) { random.below(4) } else { AMPLE.out },
    }
}

pub fn script(seed: u64, calls: usize) -> Script {
    let mut random = Random::new(seed);
    let limits = limits(&mut random);
    let mut reading = Reading { list: Rope01::default(), limits };
    let opening = if random.one_in(3) { Call::Placeholder(1 + random.below(8) as u32) } else { Call::Empty };
    reading.call(&opening);
    let more = more(&mut random, &mut reading, calls - 1);
    Script { limits, rows: vec![], calls: [vec![opening], more].concat(), last_only: false }
}

/// Random calls on an open store.
pub fn more(random: &mut Random, reading: &mut Reading, calls: usize) -> Vec<Call> {
    let mut temper = temper(random);
    let mut out = Vec::new();
    for _ in 0..calls {
        let call = temper.call(random, &reading.list);
        reading.call(&call);
        out.push(call);
    }
    out
}

impl Temper {
    fn call(&mut self, random: &mut Random, list: &Rope01) -> Call {
        let kind = random.below(10);
        if kind < self.inserts {
            self.insert(random, list)
        } else if kind < self.inserts + self.deletes {
            self.delete(random, list)
        } else if random.one_in(12) {
            Call::Clear
        } else {
            self.update(random, list)
        }
    }

    fn chunk(&mut self, random: &mut Random) -> (u32, u32) {
        let len = 1 + random.below(self.longest) as u32;
        match random.below(200) {
            0 => (random.pick(&[5, 6, UNKNOWN]), random.pick(&[0, 5])),
            1 => (4_294_967_293 - len, 4_294_967_293),
            2 => (MOVE_ANCHOR, MOVE_ANCHOR),
            3..=5 => (START_STYLE_ANCHOR, random.below(9) as u32),
            6..=8 => (END_STYLE_ANCHOR, random.below(9) as u32),
            9..=12 => (MOVE_ANCHOR, MOVE_ANCHOR),
            13..=20 => (UNKNOWN, len),
            21..=24 => (4_294_967_292 - len, 4_294_967_292),
            _ => {
                if random.one_in(6) {
                    self.text = random.below(100) as u32;
                }
                self.text += len;
                (self.text - len, self.text)
            }
        }
    }

    fn insert(&mut self, random: &mut Random, list: &Rope01) -> Call {
        let visible = list.visible();
        let (peer, pos) = match self.typing {
            Some((peer, pos)) if pos <= visible && random.one_in(3) => (peer, pos),
            _ => (random.pick(&self.peers), random.below(visible + 1)),
        };
        let chunk = self.chunk(random);
        let len = chunk_len(chunk).unwrap_or(1);
        let own = || list.units.iter().filter(|u| u.id.0 == peer);
        let next = own().map(|u| u.id.1 as i64 + 1).max().unwrap_or(0).min(i32::MAX as i64);
        let lamport = own().map(|u| u.lamport as u64 + 1).max().unwrap_or(0);
        let most = i32::MAX as i64 - len as i64;
        let ctr = match random.below(150) {
            0 => most,
            1 => most + 1,
            2 => -1,
            3 => random.below(8) as i64,
            4 => next + random.below(5) as i64,
            _ => next,
        };
        let lam = match random.below(60) {
            0 => (u32::MAX - len) as u64,
            1 => (u32::MAX - len) as u64 + 1,
            2..=9 => random.below(50) as u64,
            _ => lamport,
        };
        self.typing = Some((peer, pos + len as usize));
        Call::Insert {
            pos: if random.one_in(100) { visible + 1 + random.below(3) } else { pos },
            peer: if random.one_in(200) { UNKNOWN_PEER } else { peer },
            ctr: ctr.min(i32::MAX as i64) as i32,
            lam: lam.min(u32::MAX as u64) as u32,
            chunk,
        }
    }

    fn delete(&mut self, random: &mut Random, list: &Rope01) -> Call {
        let visible = list.visible();
        let len = match random.below(30) {
            0 => 0,
            1 => visible + random.below(2),
            _ => 1 + random.below(visible.min(2 + self.longest)),
        };
        let start = match random.below(60) {
            0 => i32::MAX as i64 - len as i64,
            1 => i32::MAX as i64 - len as i64 + 1,
            2 => -1,
            _ => random.below(60) as i64,
        };
        Call::Delete {
            pos: if random.one_in(60) { visible + random.below(3) } else { random.below((visible + 1).saturating_sub(len)) },
            len,
            tpeer: if random.one_in(100) { UNKNOWN_PEER } else { 6 + random.below(3) as u64 },
            tctr: start as i32,
            rev: random.one_in(3),
        }
    }

    fn update(&mut self, random: &mut Random, list: &Rope01) -> Call {
        if list.units.is_empty() {
            return Call::Clear;
        }
        let (peer, counter) = list.units[random.below(list.units.len())].id;
        let held = |c: i64| c >= 0 && c <= i32::MAX as i64 && list.find((peer, c as i32)).is_some();
        let (mut from, mut to) = (counter as i64, counter as i64 + 1);
        for _ in 0..random.below(2 + self.longest) {
            from -= i64::from(held(from - 1));
        }
        for _ in 0..random.below(2 + self.longest) {
            to += i64::from(held(to));
        }
        match random.below(80) {
            0 => to += 1,
            1 => to = from,
            2 => from -= 1,
            _ => {}
        }
        Call::Update {
            peer,
            from: from as i32,
            to: to.min(i32::MAX as i64) as i32,
            future: random.pick(&[Some(true), Some(true), Some(false), Some(false), None]),
            delta: match random.below(60) {
                0 => 32_767,
                1 => -32_768,
                2..=9 => 1,
                10..=19 => -1,
                _ => 0,
            },
            diff: random.below(10) < self.diffs,
        }
    }
}
