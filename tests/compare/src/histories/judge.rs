//! Compares what the lane program said on a history with tracker.rs over its stand-ins, and with the reading of document 01.
//!
//! As for ropes: units, deltas with like neighbours joined, positions, lengths and lists with the Rust, cuts and refusals with the reading. Besides, the list must be the walk
//! of its own tree, and arrivals of the same edits, checked out at all of them, must have the same units (real ids of placeholder units aside, which
//! depend on the arrival).
use crate::answer::{self, Item};
use crate::batch::{Difference, Named, Tally};
use crate::lane::Said;
use crate::ropes::judge::uncut;
use generic_btree::set_variant;
use hist::{HCall, HistDriver};
use model01::history::*;
use model01::rope01::tree_walk;
use model01::*;

#[derive(Clone, Debug, PartialEq)]
pub enum Ask {
    New(u32),
    Edit(Edit),
    Checkout(Version),
    Delta(Version, Version),
    Applied(Version, Version),
    Dump,
    Spans,
    Len,
    Visible,
    At(usize),
}

#[derive(Clone, PartialEq)]
pub enum Reply {
    Said(Answer),
    List(Vec<Item>),
}

impl Ask {
    pub fn line(&self) -> String {
        match self {
            Ask::New(n) => format!("new {n}"),
            Ask::Edit(e) => show_edit(e),
            Ask::Checkout(v) => format!("checkout {}", show_version(v)),
            Ask::Delta(a, b) => format!("delta {} {}", show_version(a), show_version(b)),
            Ask::Applied(a, b) => format!("applied {} {}", show_version(a), show_version(b)),
            Ask::Dump => "dump".into(),
            Ask::Spans => "spans".into(),
            Ask::Len => "len".into(),
            Ask::Visible => "visible".into(),
            Ask::At(p) => format!("at {p}"),
        }
    }
}

impl Ask {
    /// What a line asks.
    pub fn read(line: &str) -> Option<Ask> {
        let version = |v: &str| parse_version(v).ok();
        Some(match line.split(' ').collect::<Vec<_>>()[..] {
            ["applied", a, b] => Ask::Applied(version(a)?, version(b)?),
            ["visible"] => Ask::Visible,
            _ => match hist::parse_hist(line).ok()? {
                HCall::New(n) => Ask::New(n),
                HCall::Edit(e) => Ask::Edit(e),
                HCall::Checkout(v) => Ask::Checkout(v),
                HCall::Delta(a, b) => Ask::Delta(a, b),
                HCall::At(p) => Ask::At(p),
                HCall::Len => Ask::Len,
                HCall::Dump => Ask::Dump,
                HCall::Spans => Ask::Spans,
                HCall::Check => return None,
            },
        })
    }
}

impl Reply {
    pub fn refused(&self) -> bool {
        matches!(self, Reply::Said(Answer::Refused(_)))
    }

    pub fn show(&self) -> String {
        match self {
            Reply::Said(a) => show_answer(a),
            Reply::List(v) => {
                let item = |(id, chunk): &Item| format!("item {} {}\n", show_id(*id), show_chunk(*chunk));
                format!("list {}\n", v.len()) + &v.iter().map(item).collect::<String>()
            }
        }
    }

    pub fn uncut(&self) -> Reply {
        match self {
            Reply::Said(a) => Reply::Said(uncut(a)),
            list => list.clone(),
        }
    }
}

fn read(said: Option<&Said>) -> Result<Reply, String> {
    let said = said.ok_or("nothing")?;
    match answer::list(said) {
        Some(list) => Ok(Reply::List(list)),
        None => answer::read(said).map(Reply::Said),
    }
}

fn items(units: &[Unit]) -> Vec<Item> {
    let seen = units.iter().filter(|u| u.visible());
    seen.map(|u| (u.real.unwrap_or(u.id), u.chunk)).collect()
}

/// The visible units with a delta applied to them.
fn applied(units: &[Unit], delta: &[Entry]) -> Reply {
    let mut old = items(units).into_iter();
    let mut out = Vec::new();
    for entry in delta {
        match *entry {
            Entry::Retain(n) => out.extend(old.by_ref().take(n as usize)),
            Entry::Delete(n) => old.by_ref().take(n as usize).for_each(drop),
            Entry::Insert { chunk, id, .. } => {
                let first = Unit { id, lamport: 0, real: None, status: (false, 0), diff: None, ol: None, or: None, chunk };
                let len = chunk_len(chunk).unwrap_or(0) as usize;
                out.extend(units_of(&first, len).iter().map(|u| (u.id, u.chunk)));
            }
        }
    }
    Reply::List(out.into_iter().chain(old).collect())
}

/// `model01`'s history with 01's cuts.
#[derive(Clone)]
pub struct Reading {
    pub history: History,
}

impl Default for Reading {
    fn default() -> Reading {
        Reading { history: History::new(0, true) }
    }
}

impl Reading {
    pub fn ask(&mut self, ask: &Ask) -> Reply {
        let history = &mut self.history;
        Reply::Said(match ask {
            Ask::New(n) => {
                *history = History::new(*n, true);
                Answer::Ok
            }
            Ask::Edit(e) => match history.edit(e) {
                Answer::Refused(n) => Answer::Refused(n),
                _ => Answer::Ok,
            },
            Ask::Checkout(v) => history.checkout(v),
            Ask::Delta(a, b) => match history.delta(a, b) {
                Answer::Entries(_) => {
                    let mut both = history.rope.clone();
                    let later = history.status_at(b);
                    both.units.iter_mut().zip(later).for_each(|(u, s)| u.diff = Some(s));
                    Answer::Entries(both.entries())
                }
                refused => refused,
            },
            Ask::Applied(a, b) => match history.delta(a, b) {
                Answer::Entries(_) => {
                    let mut there = history.clone();
                    there.checkout(b);
                    return Reply::List(items(&there.rope.units));
                }
                refused => refused,
            },
            Ask::Dump => Answer::Units(history.rope.units.clone()),
            Ask::Spans => Answer::Spans(history.rope.spans()),
            Ask::Len => Answer::Len(history.rope.visible()),
            Ask::Visible => return Reply::List(items(&history.rope.units)),
            Ask::At(p) => Answer::At(history.rope.at(*p)),
        })
    }
}

/// The Rust's answer. It leaves a delta's diff_status standing, which 01 clears.
pub fn rust(driver: &mut HistDriver, ask: &Ask) -> Reply {
    let cleared = |mut units: Vec<Unit>| {
        units.iter_mut().for_each(|u| u.diff = None);
        units
    };
    Reply::Said(match ask {
        Ask::New(n) => driver.call(&HCall::New(*n)),
        Ask::Edit(e) => driver.call(&HCall::Edit(e.clone())),
        Ask::Checkout(v) => driver.call(&HCall::Checkout(v.clone())),
        Ask::Delta(a, b) => driver.call(&HCall::Delta(a.clone(), b.clone())),
        Ask::Applied(a, b) => match driver.call(&HCall::Delta(a.clone(), b.clone())) {
            Answer::Entries(delta) => return applied(&driver.units(), &delta),
            panic => panic,
        },
        Ask::Dump | Ask::Spans => Answer::Units(cleared(driver.units())),
        Ask::Len => driver.call(&HCall::Len),
        Ask::Visible => return Reply::List(items(&driver.units())),
        Ask::At(p) => driver.call(&HCall::At(*p)),
    })
}

pub fn judge(asked: &[Ask], said: &[Said], variants: &[Named], tally: &mut Tally) -> Result<(), Difference> {
    let mut first: Option<Difference> = None;
    let differ = |line: usize, from: &str, lane: String, want: String| Some(Difference { line, from: from.into(), lane, want });
    let mut reading = Reading::default();
    let mut answers = Vec::new();
    for (line, ask) in asked.iter().enumerate() {
        let want = reading.ask(ask);
        match read(said.get(line)) {
            Ok(got) => answers.push((want, got)),
            Err(text) => {
                first = differ(line, "the reading of 01", text, want.show());
                break;
            }
        }
    }
    for (name, variant) in variants {
        set_variant(*variant);
        let mut driver = HistDriver::new();
        for (line, (reading, got)) in answers.iter().enumerate() {
            if first.as_ref().is_some_and(|d| d.line <= line) {
                break;
            }
            if reading.refused() {
                continue;
            }
            let want = rust(&mut driver, &asked[line]);
            if let Reply::Said(Answer::Panic(_)) = want {
                *tally.outside.entry(name).or_default() += 1;
                break;
            }
            tally.rust += 1;
            if want.uncut() != got.uncut() {
                first = differ(line, &format!("the Rust over stand-in `{name}`"), got.show(), want.show());
            }
        }
    }
    for (line, (want, got)) in answers.iter().enumerate() {
        if first.as_ref().is_some_and(|d| d.line <= line) {
            break;
        }
        tally.reading += 1;
        tally.refused += u64::from(want.refused());
        if want != got {
            first = differ(line, "the reading of 01", got.show(), want.show());
        }
    }
    let first = first.or_else(|| walked(&answers)).or_else(|| arrivals(asked, &answers, tally));
    first.map_or(Ok(()), Err)
}

/// Every list is the walk of its own tree.
fn walked(answers: &[(Reply, Reply)]) -> Option<Difference> {
    answers.iter().enumerate().find_map(|(line, (_, got))| {
        let Reply::Said(Answer::Units(units)) = got else { return None };
        let walk = tree_walk(units);
        if walk == Some(units.iter().map(|u| u.id).collect()) {
            return None;
        }
        let want = walk.map_or("a list whose origins it holds".into(), |ids| ids.iter().map(|i| show_id(*i) + " ").collect());
        Some(Difference { line, from: "the walk of its tree".into(), lane: got.show(), want })
    })
}

/// Histories of the same edits, each ending with a checkout at all of them, have the same units.
fn arrivals(asked: &[Ask], answers: &[(Reply, Reply)], tally: &mut Tally) -> Option<Difference> {
    let mut reading = Reading::default();
    let mut ends: Vec<(Vec<Edit>, usize, Vec<Unit>)> = Vec::new();
    let (mut whole, mut opened) = (false, true);
    for (line, ask) in asked.iter().enumerate() {
        reading.ask(ask);
        opened |= matches!(ask, Ask::New(_));
        whole = match ask {
            Ask::Checkout(v) => *v == reading.history.counts,
            Ask::Dump => whole,
            _ => false,
        };
        if let (true, Ask::Dump, Reply::Said(Answer::Units(units))) = (whole, ask, &answers[line].1) {
            let mut edits = reading.history.edits.clone();
            edits.sort_by_key(|e| (e.peer, e.ctr));
            let mut units = units.clone();
            units.iter_mut().filter(|u| u.id.0 == UNKNOWN_PEER).for_each(|u| u.real = None);
            if !std::mem::take(&mut opened) {
                ends.pop();
            }
            ends.push((edits, line, units));
        }
    }
    for w in ends.windows(2).filter(|w| w[0].0 == w[1].0) {
        if w[0].2 != w[1].2 {
            return Some(Difference {
                line: w[1].1,
                from: "another arrival of the same edits".into(),
                lane: show_answer(&Answer::Units(w[1].2.clone())),
                want: show_answer(&Answer::Units(w[0].2.clone())),
            });
        }
        tally.arrivals += 1;
    }
    None
}
