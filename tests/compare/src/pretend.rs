//! Pretends to be the lane program, with the reading of 01 in the place of the proved library, and with a fault if one is named.
//! It shows that the tests bite: each fault must be found, and no fault must be found where there is none.
use crate::answer;
use crate::histories::judge::{Ask, Reading};
use crate::ropes::judge::spans_after;
use crate::ropes::{row_of, units_of_row};
use crate::row::{well_formed, Row};
use model01::history::Body;
use model01::rope01::*;
use model01::*;
use std::hash::{DefaultHasher, Hash, Hasher};
use std::io::{Read, Write};

/// The faults that `compare` must find.
pub const FAULTS: &[&str] = &[
    "cursor",  // an insert goes to the cursor, without a scan
    "peers",   // the scan puts larger peers first
    "holding", // the scan never holds
    "keeps",   // the scan never stops holding
    "rights",  // the scan compares origin rights in the place of parent rights
    "equal",   // the scan does not stop at a larger peer with an equal parent right
    "scanned", // the scan stops at units whose origin left it has scanned
    "visible", // origin right is the first visible unit
    "real",    // a delete writes the real id anew
    "pieces",  // a reversed delete lists its units in list order
    "lamport", // a removed unit is listed with another lamport
    "entries", // the last entry of a delta is left out
    "left",    // a position is answered with one unit left too many
    "full",    // an insert at the visible length is refused
    "twice",   // an id that is held is taken again
    "silent",  // nothing is answered from the first reversed delete on
];
/// The faults in histories that `compare` must find.
pub const HISTORY: &[&str] = &[
    "cursor",   // the wrong scans above, with which the list depends on the arrival
    "peers",    // ...
    "holding",  // ...
    "keeps",    // ...
    "rights",   // ...
    "equal",    // ...
    "scanned",  // ...
    "checkout", // a checkout counts no deletes
    "backward", // a delta goes from B to A
    "stands",   // after a delta the list stands at B
];
/// The faults that `damaged` must find.
pub const DAMAGE: &[&str] = &[
    "dirty", // a refused call writes into spare room
    "blind", // `len` does not ask 15
    "loose", // 15 does not ask whether the list is joined
    "deaf",  // a line that is no call is not answered
    "ends",  // the program ends with 1
];

/// The most that is lent.
const MOST: usize = 8192;

struct Pretend {
    fault: String,
    open: bool,
    rows: Vec<Row>,
    spare: Vec<Row>,
    /// Rows lent from the next opening on, rows lent, and entries of an output lent.
    next: usize,
    room: usize,
    out: usize,
    history: Option<Reading>,
}

pub fn run(fault: &str) {
    let known = ["none"].iter().chain(FAULTS).chain(HISTORY).chain(DAMAGE).any(|f| *f == fault);
    assert!(known, "no such fault");
    let mut bytes = Vec::new();
    std::io::stdin().read_to_end(&mut bytes).expect("the script is read");
    let mut it =
        Pretend { fault: fault.into(), open: false, rows: vec![], spare: vec![], next: MOST, room: MOST, out: MOST, history: None };
    let mut out = std::io::BufWriter::new(std::io::stdout().lock());
    for line in bytes.split(|b| *b == b'\n') {
        let text = String::from_utf8_lossy(line);
        let text = text.split('#').next().unwrap_or("").trim_matches(' ');
        if text.is_empty() {
            continue;
        }
        if fault == "silent" && text.starts_with("delete") && text.ends_with(" 1") {
            break;
        }
        let answer = it.line(text, line.len());
        out.write_all(answer.as_bytes()).expect("the answer is written");
    }
    out.flush().expect("the answers are written");
    std::process::exit(i32::from(fault == "ends"));
}

impl Pretend {
    fn has(&self, fault: &str) -> bool {
        self.fault == fault
    }

    fn line(&mut self, text: &str, bytes: usize) -> String {
        let words: Vec<&str> = text.split(' ').collect();
        let error = || "error\n".to_string();
        if bytes > 4096 || words.iter().any(|w| w.is_empty() || w.contains('\t')) {
            return error();
        }
        match words[..] {
            [what @ ("room" | "targets" | "out"), n] if n.parse::<u32>().is_ok() => {
                let n = n.parse::<usize>().unwrap_or(0).min(MOST);
                match what {
                    "room" => self.next = n,
                    "out" => self.out = n,
                    _ => {}
                }
                "ok\n".into()
            }
            ["new", n] if n.parse::<u32>().is_ok() => {
                let mut reading = Reading::default();
                reading.ask(&Ask::New(n.parse().unwrap_or(0)));
                self.history = Some(reading);
                "ok\n".into()
            }
            _ if self.history.is_some() && !["empty", "placeholder"].contains(&words[0]) => {
                Ask::read(text).map_or_else(error, |ask| self.ask(&ask))
            }
            _ if !self.open && !["empty", "placeholder"].contains(&words[0]) => error(),
            ["row", i, ref rest @ ..] => match (i.parse::<usize>(), Row::read(rest)) {
                (Ok(i), Some(row)) if i < 8192 => {
                    let blank = Row::read(&["0.0", "0", "-", "now:0", "-", "-", "-", "0", "0"]).expect("a row");
                    let n = self.rows.len();
                    if i >= n + self.spare.len() {
                        self.spare.resize(i - n + 1, blank);
                    }
                    *self.rows.iter_mut().chain(&mut self.spare).nth(i).expect("a row") = row;
                    "ok\n".into()
                }
                _ => error(),
            },
            ["rows", n] => match n.parse::<usize>() {
                Ok(n) if n <= 8192 => {
                    let blank = Row::read(&["0.0", "0", "-", "now:0", "-", "-", "-", "0", "0"]).expect("a row");
                    let mut all: Vec<Row> = self.rows.drain(..).chain(self.spare.drain(..)).collect();
                    if n > all.len() {
                        all.resize(n, blank);
                    }
                    self.spare = all.split_off(n);
                    self.rows = all;
                    "ok\n".into()
                }
                _ => error(),
            },
            ["sum"] => {
                let mut hash = DefaultHasher::new();
                self.rows.len().hash(&mut hash);
                self.rows.iter().chain(&self.spare).for_each(|r| r.words().hash(&mut hash));
                format!("sum {:016x}\n", hash.finish())
            }
            _ => {
                let call = if text == "visible" { Ok(Call::Len) } else { answer::call(text) };
                match call {
                    Ok(call) => self.call(&call, text == "visible"),
                    Err(_) if self.has("deaf") => String::new(),
                    Err(_) => error(),
                }
            }
        }
    }

    fn call(&mut self, call: &Call, listed: bool) -> String {
        let opening = matches!(call, Call::Empty | Call::Placeholder(_));
        let formed = well_formed(&self.rows) || (self.has("loose") && well_formed(&joined_rows(&self.rows)));
        if !opening && !formed && !(self.has("blind") && *call == Call::Len) {
            if self.has("dirty") {
                self.spare.extend(self.rows.first().copied());
            }
            return "no 15\n".into();
        }
        let rows = if formed { &self.rows[..] } else { &[] };
        let before = Rope01 { units: rows.iter().flat_map(units_of_row).collect() };
        let mut list = before.clone();
        let mut answer = self.answer(&mut list, call);
        let room = if opening { self.next } else { self.room };
        if let Answer::Refused(n) = answer {
            let full = n == 11 && spans_after(&before, call) > room;
            return format!("no {}\n", if full { 10 } else { n });
        }
        if list.units != before.units && list.spans().len() > room {
            return "no 10\n".into();
        }
        let rows = list.spans().iter().map(row_of).collect();
        match (call, &mut answer) {
            (Call::Delete { pos, len, rev, .. }, Answer::Pieces(v)) => {
                *v = before.pieces(*pos, *len, *rev);
                if self.has("pieces") && *rev {
                    v.reverse();
                }
                if self.has("lamport") {
                    v.iter_mut().for_each(|p| p.0.lamport += 1);
                }
            }
            (Call::Diff, Answer::Entries(v)) => {
                *v = list.entries();
                if self.has("entries") {
                    v.pop();
                }
            }
            (Call::At(pos), _) => answer = Answer::At(list.at(*pos).map(|(id, n)| (id, n + usize::from(self.has("left"))))),
            (Call::Spans, _) => answer = Answer::Spans(list.spans()),
            _ => {}
        }
        let put_out = match &answer {
            Answer::Pieces(v) => v.len(),
            Answer::Entries(v) => v.len(),
            _ => 0,
        };
        if put_out > self.out {
            return "no 13\n".into();
        }
        if opening {
            (self.open, self.room, self.history) = (true, room, None);
        }
        self.rows = rows;
        if listed {
            let seen: Vec<&Unit> = list.units.iter().filter(|u| u.visible()).collect();
            let item = |u: &&Unit| format!("item {} {}\n", show_id(u.real.unwrap_or(u.id)), show_chunk(u.chunk));
            return format!("list {}\n", seen.len()) + &seen.iter().map(item).collect::<String>();
        }
        show_answer(&answer)
    }

    fn answer(&self, list: &mut Rope01, call: &Call) -> Answer {
        let before = list.clone();
        let mut answer = list.call(call);
        match *call {
            Call::Insert { pos, peer, ctr, .. } if answer == Answer::Ok => {
                if self.has("full") && pos == before.visible() && pos > 1 {
                    return Answer::Refused(8);
                }
                let (at, _, _) = before.place(pos, peer);
                let len = list.units.len() - before.units.len();
                let other = scan(&before, pos, peer, &self.fault);
                assert!(self.fault != "none" || other == at, "the scan is the reading's");
                let new: Vec<Unit> = list.units.drain(at..at + len).collect();
                list.units.splice(other..other, new);
                if self.has("visible") {
                    let or = (pos < before.visible()).then(|| before.units[visible_at(&before, pos)].id);
                    list.units.iter_mut().filter(|u| u.id.0 == peer && u.id.1 >= ctr && u.id.1 < ctr + len as i32).for_each(|u| u.or = or);
                }
            }
            Call::Insert { pos, peer, ctr, lam, chunk } if answer == Answer::Refused(3) && self.has("twice") => {
                answer = list.call(&Call::Insert { pos, peer, ctr: ctr + 100, lam, chunk });
            }
            Call::Delete { tpeer, tctr, .. } if self.has("real") => {
                for (u, old) in list.units.iter_mut().zip(&before.units) {
                    if u.status != old.status {
                        u.real = Some((tpeer, tctr));
                    }
                }
            }
            _ => {}
        }
        answer
    }
}

impl Pretend {
    fn ask(&mut self, ask: &Ask) -> String {
        let fault = self.fault.as_str();
        let reading = self.history.as_mut().expect("a history is open");
        let mut before = reading.history.clone();
        let reply = match ask {
            Ask::Delta(a, b) if fault == "backward" => reading.ask(&Ask::Delta(b.clone(), a.clone())),
            _ => reading.ask(ask),
        };
        let units = &mut reading.history.rope.units;
        match ask {
            _ if reply.refused() => return reply.show().replace("refused", "no"),
            Ask::Checkout(_) if fault == "checkout" => units.iter_mut().for_each(|u| u.status.1 = 0),
            Ask::Delta(a, _) if fault == "backward" => {
                reading.ask(&Ask::Checkout(a.clone()));
            }
            Ask::Delta(_, b) if fault == "stands" => {
                reading.ask(&Ask::Checkout(b.clone()));
            }
            Ask::Edit(e) => {
                let Body::Insert { pos, .. } = e.body else { return reply.show() };
                before.checkout(&e.ctx);
                let to = scan(&before.rope, pos, e.peer, fault);
                let new = |u: &Unit| u.id.0 == e.peer && u.id.1 >= e.ctr;
                let at = units.iter().position(new).expect("the new units");
                assert!(fault != "none" || to == at, "the scan is the reading's");
                let moved: Vec<Unit> = units.iter().filter(|u| new(u)).cloned().collect();
                units.retain(|u| !new(u));
                units.splice(to..to, moved);
            }
            _ => {}
        }
        reply.show()
    }
}

/// Where an insert goes: 01's scan, with a fault in it.
fn scan(list: &Rope01, pos: usize, peer: u64, fault: &str) -> usize {
    let units = &list.units;
    let cursor = if pos == 0 { 0 } else { 1 + visible_at(list, pos - 1) };
    let left = (pos > 0).then(|| units[cursor - 1].id);
    let end = (cursor..units.len()).find(|i| !units[*i].status.0).unwrap_or(units.len());
    let right = units.get(end).map(|u| u.id);
    // the place of a parent right; none is after all
    let parent = |right: Option<Id>, left: Option<Id>| {
        let at = right.and_then(|r| list.find(r)).unwrap_or(units.len());
        if fault == "rights" || units.get(at).is_some_and(|u| u.ol == left) {
            at
        } else {
            units.len()
        }
    };
    let ours = parent(right, left);
    let (mut place, mut holding) = (cursor, false);
    for i in cursor..if fault == "cursor" { cursor } else { end } {
        let u = &units[i];
        let scanned = units[cursor..i].iter().any(|s| Some(s.id) == u.ol) && fault != "scanned";
        if u.ol != left && !scanned {
            break;
        }
        if u.ol == left {
            let theirs = parent(u.or, u.ol);
            let larger = if fault == "peers" { u.id.0 < peer } else { u.id.0 > peer };
            if u.or == right || theirs == ours {
                if larger && (u.or == right || fault != "equal") {
                    break;
                }
                holding = holding && fault == "keeps";
            } else {
                holding = (theirs < ours && fault != "holding") || (holding && fault == "keeps");
            }
        }
        if !holding {
            place = i + 1;
        }
    }
    place
}

/// The index of the visible unit at a position.
fn visible_at(list: &Rope01, pos: usize) -> usize {
    list.units.iter().enumerate().filter(|(_, u)| u.visible()).nth(pos).map_or(0, |(i, _)| i)
}

/// The rows joined, where they can be taken apart.
fn joined_rows(rows: &[Row]) -> Vec<Row> {
    if rows.iter().any(|r| !well_formed(&[Row { left: None, right: None, ..*r }])) {
        return rows.to_vec();
    }
    let list = Rope01 { units: rows.iter().flat_map(units_of_row).collect() };
    list.spans().iter().map(row_of).collect()
}
