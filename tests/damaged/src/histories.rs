//! Histories that no call makes. A good history is built by calls; rows of its list are written anew and their number is set; then calls of every kind, with
//! `sum` after every line. A refused call must leave the sum as it was, reading must too, and 15 must be given by every call or by none until something is
//! written: by every one where the rows break 01's number 15 at the rope (`row.rs`), by none where they stand as the calls left them or are written back.
use crate::chance::Random;
use crate::damage::{rows_of, Damage};
use crate::edits::{Held, KINDS};
use crate::lane::{Lane, Said};
use crate::row::{well_formed, Row};
use std::collections::BTreeMap;

#[derive(Clone, Copy, PartialEq)]
enum Kind {
    /// Rooms, or an opening.
    Opens,
    /// Writes rows, and whether it is known to change one.
    Writes(bool),
    /// A call on the history, and whether the history is known to be well formed.
    Asks(Option<bool>),
    /// An opening that is refused.
    Refused,
    /// No call on a history.
    Wrong,
}

#[derive(Clone)]
struct Line {
    text: String,
    kind: Kind,
}

#[derive(Default)]
struct Tally {
    damaged: u64,
    errors: u64,
    accepted: BTreeMap<String, u64>,
    refused: BTreeMap<u32, u64>,
    fifteen: BTreeMap<String, u64>,
    /// 13 at `applied` where the sum changed.
    moved: u64,
    restored: u64,
    writes: u64,
    seen: u64,
}

/// Judges `histories` histories; false at the first fault, which is printed with the fewest lines that show it.
pub fn run(histories: u64, seed: u64) -> bool {
    let lane = Lane::new("target/damaged");
    let mut tally = Tally::default();
    for s in seed..seed + histories {
        let mut random = Random::new(s);
        let Some(script) = script(&lane, &mut random) else {
            println!("A FAULT: the history of seed {s} cannot be read");
            return false;
        };
        if let Err(why) = judge(&lane, &script, &mut tally) {
            let (script, why) = fewest(&lane, script, why);
            println!("A FAULT (seed {s}): {why}. The script, with `sum` after every line:");
            script.iter().for_each(|l| println!("    {}", l.text));
            return false;
        }
    }
    let total = |of: &BTreeMap<String, u64>| of.values().sum::<u64>();
    let list = |of: &BTreeMap<String, u64>| of.iter().map(|(k, n)| format!("{k} {n}")).collect::<Vec<_>>().join(", ");
    println!(
        "{histories} histories, {} of them damaged as 15 says ({} written back and good again); {} calls accepted, {} lines answered `error`, {} calls refused, each with the same sum before and after but {} of `applied` by 13, where the list may go to A; {} of {} changes by `row` and `rows` seen in the sum.",
        tally.damaged,
        tally.restored,
        total(&tally.accepted),
        tally.errors,
        tally.refused.values().sum::<u64>(),
        tally.moved,
        tally.seen,
        tally.writes
    );
    println!("Refusals: {}", tally.refused.iter().map(|(k, n)| format!("{k}: {n}")).collect::<Vec<_>>().join(", "));
    println!("15 by call: {}", list(&tally.fifteen));
    println!("Accepted: {}", list(&tally.accepted));
    // a sum that sees no rows would prove nothing
    tally.seen * 10 >= tally.writes * 9
}

/// A history that is built, read back, damaged and asked.
fn script(lane: &Lane, random: &mut Random) -> Option<Vec<Line>> {
    let room = if random.one_in(2) { 3 + random.below(9) } else { random.pick(&[64, 64, 64, 1000]) };
    let targets = random.pick(&[0, 1, 2, 64, 64, 64]);
    let placeholder = random.pick(&[0, 0, 1, 3, 5]);
    let mut build = vec![format!("room {room}"), format!("targets {targets}"), "out 64".into(), format!("new {placeholder}")];
    let peers = random.pick(&[2, 3, 3, 3, 16]);
    let mut held = Held { placeholder, peers, edits: vec![] };
    for _ in 0..2 + random.below(16) + if peers > 3 { peers } else { 0 } {
        let (edit, line) = held.edit(random, build.len());
        held.edits.push(edit);
        build.push(line);
    }
    // the good history, read back
    let read = lane.run((build.join("\n") + "\nout 4096\nspans\n").as_bytes());
    let rows = rows_of(read.answers.get(build.len() + 1)?)?;
    held.edits.retain(|e| read.answers[e.line][0] == "ok");
    let mut out: Vec<Line> = build
        .into_iter()
        .map(|text| {
            let edits = text.starts_with("ins") || text.starts_with("del");
            Line { text, kind: if edits { Kind::Asks(Some(true)) } else { Kind::Opens } }
        })
        .collect();
    out.push(Line { text: format!("out {}", random.pick(&[0, 1, 2, 64, 64, 64])), kind: Kind::Opens });
    let mut damage = Damage { room, lines: vec![], rows: rows.clone() };
    let formed = harm(&mut damage, random, &mut out);
    ask(&held, random, formed, room, &mut out);
    if formed == Some(false) {
        // every call was refused, so the rows as they were make the history good again
        restore(&rows, &mut out);
        ask(&held, random, Some(true), room, &mut out);
    } else {
        damage.lines.clear();
        damage.spoil(random);
        out.extend(damage.lines.drain(..).map(|(text, _)| Line { text, kind: Kind::Writes(false) }));
        ask(&held, random, None, room, &mut out);
    }
    Some(out)
}

/// Writes some rows anew; whether the history is known to be well formed then.
fn harm(damage: &mut Damage, random: &mut Random, out: &mut Vec<Line>) -> Option<bool> {
    for _ in 0..random.below(4) {
        damage.spoil(random);
    }
    let written = !damage.lines.is_empty();
    out.extend(damage.lines.drain(..).map(|(text, changes)| Line { text, kind: Kind::Writes(changes) }));
    if random.one_in(6) {
        // what the spare rows hold is not known
        out.push(Line { text: format!("rows {}", random.below(damage.room + 1)), kind: Kind::Writes(false) });
        return None;
    }
    match written {
        false => Some(true),
        true if !well_formed(&damage.rows) => Some(false),
        true => None,
    }
}

/// Writes the rows back.
fn restore(rows: &[Row], out: &mut Vec<Line>) {
    for (i, row) in rows.iter().enumerate() {
        out.push(Line { text: format!("row {i} {}", row.words()), kind: Kind::Writes(false) });
    }
    out.push(Line { text: format!("rows {}", rows.len()), kind: Kind::Writes(false) });
}

/// Every kind of call once, and some more, in any order.
fn ask(held: &Held, random: &mut Random, formed: Option<bool>, room: usize, out: &mut Vec<Line>) {
    let mut kinds: Vec<usize> = (0..KINDS).chain((0..5).map(|_| random.below(5))).collect();
    for i in (1..kinds.len()).rev() {
        kinds.swap(i, random.below(i + 1));
    }
    for kind in kinds {
        out.push(Line { text: held.call(random, kind), kind: Kind::Asks(formed) });
        if random.one_in(6) {
            let text = random
                .pick(&[
                    "clear",
                    "diff",
                    "insert 0 1 0 0 text 0 1",
                    "delete 0 1 1 0 0",
                    "ins - 0 1 0 0 text",
                    "checkout 1",
                    "delta -",
                    "at -1",
                    "applied - 1:2147483648",
                ])
                .to_string();
            out.push(Line { text, kind: Kind::Wrong });
        }
        if random.one_in(12) {
            let i = room + random.below(3);
            out.push(Line { text: format!("rows {}", i + 1), kind: Kind::Wrong });
            out.push(Line { text: format!("row {i} 1.0 0 - now:0 - - - 0 1"), kind: Kind::Wrong });
        }
        if random.one_in(12) {
            out.push(Line { text: "new 65537".into(), kind: Kind::Refused });
        }
        if random.one_in(6) {
            out.push(Line { text: format!("out {}", random.pick(&[0, 1, 3, 64])), kind: Kind::Opens });
        }
    }
}

/// What the first word of an answer must be where the call is accepted.
fn expected(word: &str) -> &'static str {
    match word {
        "delta" => "entries",
        "applied" | "visible" => "list",
        "at" => "at",
        "len" => "len",
        "dump" => "units",
        "spans" => "spans",
        _ => "ok",
    }
}

fn judge(lane: &Lane, script: &[Line], tally: &mut Tally) -> Result<(), String> {
    let text: String = script.iter().map(|l| l.text.clone() + "\nsum\n").collect();
    let run = lane.run(text.as_bytes());
    if let Some(fault) = run.fault {
        return Err(fault);
    }
    if run.answers.len() != 2 * script.len() {
        return Err(format!("{} lines are asked, {} are answered", 2 * script.len(), run.answers.len()));
    }
    let head = |said: &Said| said[0].clone();
    let (mut open, mut before) = (false, "error".to_string());
    // whether 15 is given, where it is known since the last line that wrote; and whether it ever was
    let (mut given, mut damaged) = (Some(false), false);
    for (line, said) in script.iter().zip(run.answers.chunks(2)) {
        let (answer, after) = (head(&said[0]), head(&said[1]));
        let word = line.text.split(' ').next().unwrap_or("");
        let wrong = |why: &str| Err(format!("`{}` is answered `{answer}`: {why}", line.text));
        open = open || (word == "new" && answer == "ok");
        if open && !after.starts_with("sum ") {
            return wrong("the `sum` after it is not answered");
        }
        let number = answer.strip_prefix("no ").and_then(|k| k.parse::<u32>().ok());
        let refused = number.is_some() || answer == "error";
        let reads = ["at", "len", "dump", "spans", "visible"].contains(&word);
        let changed = before != after;
        if changed && word == "applied" && number == Some(13) {
            tally.moved += 1;
        } else if changed && (refused || reads) {
            return wrong(&format!("the sum was `{before}` before and `{after}` after"));
        }
        match line.kind {
            _ if !open => {}
            Kind::Opens if answer != "ok" => return wrong("it must be `ok`"),
            Kind::Wrong if answer != "error" => return wrong("it is no call on a history"),
            Kind::Refused if number.is_none() => return wrong("it must be refused"),
            Kind::Writes(changes) => {
                if answer != "ok" {
                    return wrong("the row was not written");
                }
                given = None;
                tally.writes += u64::from(changes);
                tally.seen += u64::from(changes && changed);
            }
            Kind::Asks(formed) => {
                let fifteen = number == Some(15);
                if given.is_some_and(|g| g != fifteen) {
                    return wrong("a call before it said otherwise of 15, and nothing was written between");
                }
                if formed == Some(fifteen) {
                    return wrong(if fifteen { "the history is well formed" } else { "its rows are not well formed as 01 is read" });
                }
                if !(number.is_some() || answer.split(' ').next() == Some(expected(word))) {
                    return wrong("that is no answer to it");
                }
                tally.restored += u64::from(damaged && given.is_none() && formed == Some(true));
                given = Some(fifteen);
                damaged = damaged || fifteen;
                match number {
                    Some(15) => *tally.fifteen.entry(word.into()).or_default() += 1,
                    None => *tally.accepted.entry(word.into()).or_default() += 1,
                    _ => {}
                }
            }
            _ => {}
        }
        if let Some(number) = number {
            *tally.refused.entry(number).or_default() += 1;
        }
        tally.errors += u64::from(answer == "error");
        before = after;
    }
    tally.damaged += u64::from(damaged);
    Ok(())
}

/// The script with lines left out while some fault remains. Where only what is known of the rows shows it, the lines that make the rows stay.
fn fewest(lane: &Lane, mut script: Vec<Line>, mut why: String) -> (Vec<Line>, String) {
    let blind = |script: &[Line]| -> Vec<Line> {
        script
            .iter()
            .map(|l| Line { text: l.text.clone(), kind: if matches!(l.kind, Kind::Asks(_)) { Kind::Asks(None) } else { l.kind } })
            .collect()
    };
    let plain = judge(lane, &blind(&script), &mut Tally::default());
    let known = plain.is_ok();
    if let Err(still) = plain {
        (script, why) = (blind(&script), still);
    }
    while judge(lane, &script[..script.len() - 1], &mut Tally::default()).is_err() {
        script.pop();
    }
    let mut part = script.len() / 2;
    while part > 0 {
        let mut at = 0;
        while at < script.len() {
            let to = (at + part).min(script.len());
            let writes = |l: &Line| matches!(l.kind, Kind::Writes(_));
            let built = script.iter().position(writes).unwrap_or(script.len());
            let stays = |i: usize, l: &Line| i < at || i >= to || (known && (i < built || writes(l)));
            let less: Vec<Line> = script.iter().enumerate().filter(|(i, l)| stays(*i, l)).map(|(_, l)| l.clone()).collect();
            match judge(lane, &less, &mut Tally::default()) {
                Err(still) if less.len() < script.len() => (script, why) = (less, still),
                _ => at += part,
            }
        }
        part /= 2;
    }
    (script, why)
}
