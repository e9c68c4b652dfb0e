//! Compares what the lane program said on a rope script with the Rust over its stand-ins, and with the reading of document 01.
//!
//! The reading says which calls are accepted. Those go to the Rust, through each variant of the stand-in: units, removed units, deltas with like neighbours
//! joined, positions and lengths must be the same. Where the Rust panics or the stand-in has no contract, the call is outside the domain and that variant is
//! left for the rest of the script. What the Rust cannot judge is judged by the reading: the number of a refusal, and where spans, pieces, entries and units
//! left are cut.
use super::Limits;
use crate::answer;
use crate::batch::{Difference, Named, Tally};
use crate::lane::Said;
use generic_btree::set_variant;
use model01::rope01::{can_join, Rope01};
use model01::*;
use rope::RopeDriver;

/// `model01`'s rope with 01's cuts and with the refusals that come from what is lent.
pub struct Reading {
    pub list: Rope01,
    pub limits: Limits,
}

impl Reading {
    pub fn call(&mut self, call: &Call) -> Answer {
        let before = self.list.clone();
        let plain = self.list.call(call);
        let answer = match (call, plain) {
            (_, Answer::Refused(11)) if spans_after(&before, call) > self.limits.room => Answer::Refused(10),
            (_, Answer::Refused(n)) => Answer::Refused(n),
            _ if changes(call) && self.list.spans().len() > self.limits.room => Answer::Refused(10),
            (Call::Delete { pos, len, rev, .. }, _) => Answer::Pieces(before.pieces(*pos, *len, *rev)),
            (Call::Diff, _) => Answer::Entries(self.list.entries()),
            (Call::At(pos), _) => Answer::At(self.list.at(*pos)),
            (Call::Spans, _) => Answer::Spans(self.list.spans()),
            (_, answer) => answer,
        };
        let put_out = match &answer {
            Answer::Pieces(v) => v.len(),
            Answer::Entries(v) => v.len(),
            _ => 0,
        };
        let answer = if put_out > self.limits.out { Answer::Refused(13) } else { answer };
        if let Answer::Refused(_) = answer {
            self.list = before;
        }
        answer
    }
}

/// How many spans an update would leave whose counts do not all fit: its sums are exact, so that 10, the lower number, is given where both apply.
pub fn spans_after(list: &Rope01, call: &Call) -> usize {
    let Call::Update { peer, from, to, future, delta, diff } = call else {
        return 0;
    };
    let hit = |u: &Unit| u.id.0 == *peer && (*from..*to).contains(&u.id.1);
    let base = |u: &Unit| if *diff { u.diff.unwrap_or(u.status) } else { u.status };
    // a count that fits is never the same as one that does not; of two that do not, the wrapped sums tell
    let fits = |u: &Unit| !hit(u) || base(u).1.checked_add(*delta).is_some();
    let changed = |u: &Unit| {
        let mut unit = u.clone();
        let status = (future.unwrap_or(base(u).0), base(u).1.wrapping_add(*delta));
        match (hit(u), *diff) {
            (true, true) => unit.diff = Some(status),
            (true, false) => unit.status = status,
            _ => {}
        }
        unit
    };
    let apart = |w: &&[Unit]| fits(&w[0]) != fits(&w[1]) || !can_join(&changed(&w[0]), &changed(&w[1]));
    list.units.windows(2).filter(apart).count() + 1
}

/// Whether a call is more than a question.
pub fn changes(call: &Call) -> bool {
    !matches!(call, Call::Dump | Call::Spans | Call::Len | Call::Diff | Call::At(_))
}

/// The whole list, its cuts and length, the delta, and some positions or all.
pub fn questions(list: &Rope01, every_position: bool) -> Vec<Call> {
    let visible = list.visible();
    let mut out = vec![Call::Dump, Call::Spans, Call::Len, Call::Diff];
    if every_position {
        out.extend((0..=visible).map(Call::At));
    } else {
        out.extend([0, visible / 2, visible].map(Call::At));
    }
    out
}

/// The answer without its cuts.
pub fn uncut(answer: &Answer) -> Answer {
    let units = |v: &[(Unit, usize)]| v.iter().flat_map(|(s, n)| units_of(s, *n)).collect();
    match answer {
        Answer::Pieces(v) | Answer::Spans(v) => Answer::Units(units(v)),
        Answer::Entries(v) => Answer::Entries(join_entries(v)),
        Answer::At(Some((id, _))) => Answer::At(Some((*id, 0))),
        other => other.clone(),
    }
}

pub fn judge(mut reading: Reading, asked: &[Call], said: &[Said], variants: &[Named], tally: &mut Tally) -> Result<(), Difference> {
    let mut first: Option<Difference> = None;
    let differ =
        |line: usize, from: &str, lane: String, want: &Answer| Some(Difference { line, from: from.into(), lane, want: show_answer(want) });
    // what the reading says, and what the program said as far as it can be read
    let mut answers = Vec::new();
    for (line, call) in asked.iter().enumerate() {
        let want = reading.call(call);
        match said.get(line).map_or(Err("nothing".into()), |s| answer::read(s)) {
            Ok(got) => answers.push((want, got)),
            Err(text) => {
                first = differ(line, "the reading of 01", text, &want);
                break;
            }
        }
    }
    // the Rust before the reading: where both differ it is the better witness
    for (name, variant) in variants {
        set_variant(*variant);
        let mut rust = RopeDriver::new();
        for (line, (reading, got)) in answers.iter().enumerate() {
            if first.as_ref().is_some_and(|d| d.line <= line) {
                break;
            }
            if let Answer::Refused(_) = reading {
                continue;
            }
            let want = rust.call(&asked[line]);
            if let Answer::Panic(_) = want {
                *tally.outside.entry(name).or_default() += 1;
                break;
            }
            tally.rust += 1;
            if uncut(&want) != uncut(got) {
                first = differ(line, &format!("the Rust over stand-in `{name}`"), show_answer(got), &want);
            }
        }
    }
    for (line, (want, got)) in answers.iter().enumerate() {
        if first.as_ref().is_some_and(|d| d.line <= line) {
            break;
        }
        tally.reading += 1;
        tally.refused += u64::from(matches!(want, Answer::Refused(_)));
        if want != got {
            first = differ(line, "the reading of 01", show_answer(got), want);
        }
    }
    first.map_or(Ok(()), Err)
}
