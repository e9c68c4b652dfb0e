//! Histories: edits with contexts, checkouts and deltas, compared with tracker.rs over its stand-ins and with the reading of 01.
pub mod judge;
pub mod random;
pub mod record;
pub mod small;

use crate::batch::{self, Difference, Named, Tally};
use crate::lane::Said;
use crate::simpler;
use judge::{Ask, Reading};
use model01::history::*;

/// A history from its opening on. A script may hold several: arrivals of the same edits in other orders.
#[derive(Clone)]
pub struct Script {
    pub calls: Vec<Ask>,
    /// After how many calls everything is asked; then only where an arrival's edits are done, and after its checkout.
    pub each: usize,
}

impl Script {
    /// The calls with questions after them, each with the index of the call that it belongs to.
    fn asked(&self) -> Vec<(usize, Ask)> {
        let mut reading = Reading::default();
        let mut out = Vec::new();
        for (i, call) in self.calls.iter().enumerate() {
            reading.ask(call);
            out.push((i, call.clone()));
            let ends = matches!(self.calls.get(i + 1), None | Some(Ask::New(_) | Ask::Checkout(_)));
            if i < self.each || ends {
                let visible = reading.history.rope.visible();
                out.extend([Ask::Dump, Ask::Spans, Ask::Len, Ask::Visible, Ask::At(visible / 2), Ask::At(visible)].map(|q| (i, q)));
            }
        }
        out
    }
}

impl batch::Script for Script {
    fn lines(&self) -> Vec<String> {
        ["room 8192", "targets 8192", "out 8192"].map(String::from).into_iter().chain(self.asked().iter().map(|(_, a)| a.line())).collect()
    }

    fn calls(&self) -> Vec<String> {
        self.calls.iter().map(Ask::line).collect()
    }

    fn judge(&self, said: &[Said], variants: &[Named], tally: &mut Tally) -> Result<(), Difference> {
        let asked: Vec<Ask> = self.asked().into_iter().map(|(_, a)| a).collect();
        tally.scripts += 1;
        tally.calls += self.calls.len() as u64;
        tally.lines += asked.len() as u64;
        judge::judge(&asked, said.get(3..).unwrap_or(&[]), variants, tally).map_err(|mut d| {
            d.line += 3;
            d
        })
    }

    fn until(mut self, line: usize) -> Script {
        if let Some((call, _)) = self.asked().get(line.saturating_sub(3)) {
            self.calls.truncate(call + 1);
        }
        self
    }

    /// Without the calls that are refused once others are gone: they may have several faults at once.
    fn smaller(&self) -> Vec<Script> {
        let accepted = |mut calls: Vec<Ask>| {
            let mut reading = Reading::default();
            calls.retain(|c| !reading.ask(c).refused());
            Script { calls, ..*self }
        };
        let opened = |s: &Script| matches!(s.calls.first(), Some(Ask::New(_)));
        simpler::smaller(&self.calls, Ask::line, Ask::read).into_iter().map(accepted).filter(opened).collect()
    }
}

/// Whether an edit may arrive where this is held.
fn ready(held: &Version, edit: &Edit) -> bool {
    held.get(&edit.peer).copied().unwrap_or(0) == edit.ctr && History::covers(held, &edit.ctx)
}

/// Adds to a version whatever the edits that it covers ask for.
fn close(history: &History, version: &mut Version) {
    loop {
        let before = version.clone();
        for edit in &history.edits {
            if version.get(&edit.peer).is_some_and(|n| *n > edit.ctr) {
                for (peer, count) in &edit.ctx {
                    let held = version.entry(*peer).or_insert(0);
                    *held = (*held).max(*count);
                }
                if let Body::Delete { .. } = edit.body {
                    let held = version.entry(edit.peer).or_insert(0);
                    *held = (*held).max(edit.ctr + edit.len() as i32);
                }
            }
        }
        if *version == before {
            return;
        }
    }
}
