//! Rope scripts.
pub mod judge;
pub mod random;
pub mod short;
pub mod stores;

use crate::answer;
use crate::batch::{self, Difference, Named, Tally};
use crate::lane::{has, Said};
use crate::row::{well_formed, Row};
use crate::simpler;
use judge::Reading;
use model01::rope01::Rope01;
use model01::*;

/// What is lent: rows, and entries of an output.
#[derive(Clone, Copy, PartialEq)]
pub struct Limits {
    pub room: usize,
    pub out: usize,
}

/// More than the scripts need.
pub const AMPLE: Limits = Limits { room: 8192, out: 8192 };

#[derive(Clone)]
pub struct Script {
    pub limits: Limits,
    /// A store that is written row by row before the calls. Then it need be none that calls make, and the Rust is not asked.
    pub rows: Vec<Row>,
    /// An opening, where no rows are written; then other calls.
    pub calls: Vec<Call>,
    /// Whether everything is asked after the last call only.
    pub last_only: bool,
}

/// A span as a row, and the units of a row.
pub fn row_of((u, _): &(Unit, usize)) -> Row {
    Row { id: u.id, lamport: u.lamport, real: u.real, status: u.status, diff: u.diff, left: u.ol, right: u.or, chunk: u.chunk }
}

pub fn units_of_row(r: &Row) -> Vec<Unit> {
    let first =
        Unit { id: r.id, lamport: r.lamport, real: r.real, status: r.status, diff: r.diff, ol: r.left, or: r.right, chunk: r.chunk };
    units_of(&first, r.len().unwrap_or(0) as usize)
}

impl Script {
    fn reading(&self) -> Reading {
        let units = self.rows.iter().flat_map(units_of_row).collect();
        Reading { list: Rope01 { units }, limits: self.limits }
    }

    /// The calls, each followed by questions that change nothing; and after which line the i-th call stands.
    fn asked(&self) -> Vec<(usize, Call)> {
        let mut reading = self.reading();
        let mut out = Vec::new();
        for (i, call) in self.calls.iter().enumerate() {
            if has(&answer::line(call)) {
                reading.call(call);
                out.push((i, call.clone()));
            }
            if !self.last_only || i + 1 == self.calls.len() {
                let questions = judge::questions(&reading.list, self.last_only).into_iter();
                out.extend(questions.filter(|q| has(&answer::line(q))).map(|q| (i, q)));
            }
        }
        out
    }

    /// The lines before the calls.
    fn before(&self) -> Vec<String> {
        let mut out = vec![format!("room {}", self.limits.room), format!("out {}", self.limits.out)];
        if !self.rows.is_empty() {
            out.push("empty".into());
            out.extend(self.rows.iter().enumerate().map(|(i, r)| format!("row {i} {}", r.words())));
            out.push(format!("rows {}", self.rows.len()));
        }
        out
    }
}

impl batch::Script for Script {
    fn lines(&self) -> Vec<String> {
        self.before().into_iter().chain(self.asked().iter().map(|(_, c)| answer::line(c))).collect()
    }

    fn calls(&self) -> Vec<String> {
        let needless = if self.limits == AMPLE { 2 } else { 0 };
        let calls = self.calls.iter().map(answer::line).filter(|l| has(l));
        self.before().into_iter().skip(needless).chain(calls).collect()
    }

    fn judge(&self, said: &[Said], variants: &[Named], tally: &mut Tally) -> Result<(), Difference> {
        let asked: Vec<Call> = self.asked().into_iter().map(|(_, c)| c).collect();
        tally.scripts += 1;
        tally.calls += asked.iter().filter(|c| judge::changes(c)).count() as u64;
        tally.lines += asked.len() as u64;
        let before = self.before().len();
        let said = said.get(before..).unwrap_or(&[]);
        let variants = if self.rows.is_empty() { variants } else { &[] };
        judge::judge(self.reading(), &asked, said, variants, tally).map_err(|mut d| {
            d.line += before;
            d
        })
    }

    fn until(mut self, line: usize) -> Script {
        if let Some((call, _)) = self.asked().get(line.saturating_sub(self.before().len())) {
            self.calls.truncate(call + 1);
        }
        self
    }

    fn smaller(&self) -> Vec<Script> {
        let with = |calls| Script { calls, ..self.clone() };
        let mut out = Vec::new();
        if self.limits != AMPLE {
            out.push(Script { limits: AMPLE, ..self.clone() });
        }
        if let Call::Placeholder(_) = self.calls[0] {
            out.push(with([&[Call::Empty], &self.calls[1..]].concat()));
        }
        if self.rows.len() > 1 {
            let without = |i: usize| [&self.rows[..i], &self.rows[i + 1..]].concat();
            let fewer = (0..self.rows.len()).map(without).filter(|rows| well_formed(rows));
            out.extend(fewer.map(|rows| Script { rows, ..self.clone() }));
        }
        let read = |l: &str| answer::call(l).ok();
        out.extend(simpler::smaller(&self.calls, answer::line, read).into_iter().map(with));
        // a store must be open before anything is asked of it
        out.retain(|s| s.calls[0] != Call::Placeholder(0));
        out
    }
}

/// The rope scripts of a text; lines that only ask are left out, since every call is followed by all of them.
pub fn scripts_of(text: &str) -> Vec<Script> {
    let mut out: Vec<Script> = Vec::new();
    let mut history = false;
    for line in text.lines() {
        let line = line.split('#').next().unwrap_or("").trim();
        history = (history || line.starts_with("new ")) && line != "empty" && !line.starts_with("placeholder ");
        match answer::call(line) {
            Ok(call @ (Call::Empty | Call::Placeholder(_))) => {
                out.push(Script { limits: AMPLE, rows: vec![], calls: vec![call], last_only: false })
            }
            Ok(call) if judge::changes(&call) && !history => out.last_mut().expect("a script opens a store first").calls.push(call),
            _ => {}
        }
    }
    out
}
