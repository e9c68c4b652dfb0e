//! Stores that no call makes. A good store is built by calls; some of its rows are written anew, mostly almost as they were; then calls of every kind,
//! with `sum` before and after. A refused call must leave the sum as it was, and 15 must be given by every call or by none, as document 01 says
//! of the rows (`row.rs`).
use crate::calls;
use crate::chance::Random;
use crate::damage::{rows_of, Damage};
use crate::lane::{has, Lane, Said};
use crate::row::well_formed;
use std::collections::BTreeMap;

#[derive(Default)]
struct Tally {
    stores: u64,
    damaged: u64,
    accepted: u64,
    errors: u64,
    refused: BTreeMap<String, u64>,
    writes: u64,
    seen: u64,
}

struct Store {
    seed: u64,
    build: Vec<String>,
    damage: Damage,
    calls: Vec<String>,
}

/// Judges `stores` stores in batches; false at the first fault, which is printed with its script.
pub fn run(stores: u64, seed: u64) -> bool {
    let lane = Lane::new("target/damaged");
    let mut tally = Tally::default();
    for from in (0..stores).step_by(500) {
        let seeds = seed + from..seed + stores.min(from + 500);
        let mut batch: Vec<Store> = seeds.map(built).collect();
        // the good stores, read back
        let text: String = batch.iter().map(|s| s.build.join("\n") + "\nspans\n").collect();
        let read = lane.run(text.as_bytes());
        let mut at = 0;
        for store in &mut batch {
            at += store.build.len();
            let Some(rows) = read.answers.get(at).and_then(|said| rows_of(said)) else {
                println!("A FAULT: the store of seed {} cannot be read: {:?}", store.seed, read.answers.get(at));
                store.build.iter().for_each(|l| println!("    {l}"));
                return false;
            };
            at += 1;
            store.damage.rows = rows;
            harm(store);
        }
        // the same stores, damaged
        let text: String = batch.iter().flat_map(lines).map(|l| l + "\n").collect();
        let run = lane.run(text.as_bytes());
        let mut at = 0;
        for store in &batch {
            let asked = lines(store);
            let said = run.answers.get(at..).unwrap_or(&[]);
            at += asked.len();
            if let Err((line, why)) = judge(store, said, &mut tally) {
                println!("A FAULT (seed {}): {why}. The script up to there:", store.seed);
                asked[..=line].iter().for_each(|l| println!("    {l}"));
                run.fault.iter().for_each(|f| println!("{f}"));
                return false;
            }
        }
        if let Some(fault) = run.fault {
            println!("A FAULT: {fault}");
            return false;
        }
    }
    let refused: u64 = tally.refused.values().sum();
    println!(
        "{} stores, {} of them damaged as 15 says; {} calls accepted, {} lines answered `error`, {refused} calls refused, each with the same sum before and after; {} of {} changes by `row` and `rows` seen in the sum.",
        tally.stores, tally.damaged, tally.accepted, tally.errors, tally.seen, tally.writes
    );
    println!("Refusals: {}", tally.refused.iter().map(|(k, n)| format!("{k}: {n}")).collect::<Vec<_>>().join(", "));
    // a sum that sees no rows would prove nothing
    tally.seen * 10 >= tally.writes * 9
}

fn built(seed: u64) -> Store {
    let mut random = Random::new(seed);
    let small = random.one_in(2);
    // a sum reads all that is lent, so even much is not too much
    let room = if small { 2 + random.below(9) } else { 64 };
    let mut build = vec![format!("room {room}"), "out 64".into()];
    build.push(if random.one_in(3) { format!("placeholder {}", 1 + random.below(4)) } else { "empty".into() });
    for i in 0..3 + random.below(20) {
        build.push(calls::building(&mut random, i));
    }
    build.retain(|l| has(l));
    Store { seed, build, damage: Damage { room, lines: vec![], rows: vec![] }, calls: vec![] }
}

/// Writes some rows anew and chooses the calls.
fn harm(store: &mut Store) {
    let mut random = Random::new(store.seed ^ 0x5EED);
    for _ in 0..random.below(4) {
        store.damage.spoil(&mut random);
    }
    let out = random.pick(&[0, 1, 2, 64, 64, 64]);
    store.calls.push(format!("out {out}"));
    store.calls.push("len".into());
    for _ in 0..12 {
        store.calls.push(calls::any(&mut random));
    }
    store.calls.retain(|l| has(l));
    store.calls.push("out 64".into());
    store.calls.push("spans".into());
}

/// The whole script of a store: a sum after every line from the damage on.
fn lines(store: &Store) -> Vec<String> {
    let mut out = store.build.clone();
    out.push("sum".into());
    for line in store.damage.lines.iter().map(|d| &d.0).chain(&store.calls) {
        out.push(line.clone());
        out.push("sum".into());
    }
    out
}

fn judge(store: &Store, said: &[Said], tally: &mut Tally) -> Result<(), (usize, String)> {
    let head = |i: usize| said.get(i).map(|s| s[0].as_str()).ok_or((i, "no answer".to_string()));
    let start = store.build.len();
    let formed = well_formed(&store.damage.rows);
    tally.stores += 1;
    tally.damaged += u64::from(!formed);
    for (k, (_, changes)) in store.damage.lines.iter().enumerate() {
        let at = start + 1 + 2 * k;
        if head(at)? != "ok" {
            return Err((at, format!("the row was not written: {}", head(at)?)));
        }
        tally.writes += u64::from(*changes);
        tally.seen += u64::from(*changes && head(at - 1)? != head(at + 1)?);
    }
    let first = start + 1 + 2 * store.damage.lines.len();
    for (k, line) in store.calls.iter().enumerate() {
        let at = first + 2 * k;
        let (before, answer, after) = (head(at - 1)?, head(at)?, head(at + 1)?);
        if !before.starts_with("sum ") || !after.starts_with("sum ") {
            return Err((at, "`sum` was not answered".into()));
        }
        let word = line.split(' ').next().unwrap_or("");
        let on_store = !["out", "placeholder", "rows", "ins", "checkout", "delta"].contains(&word) && line != "insert 0 1 0 text";
        if on_store && (answer == "no 15") == formed {
            let is = if formed { "well formed" } else { "not well formed" };
            return Err((at, format!("the store is {is} as 01 is read, and the answer is `{answer}`")));
        }
        if answer.starts_with("no ") || answer == "error" {
            if before != after {
                return Err((at + 1, format!("the answer was `{answer}`, and the sum was `{before}` before and `{after}` after")));
            }
            if answer == "error" {
                tally.errors += 1;
            } else {
                *tally.refused.entry(answer[3..].into()).or_default() += 1;
            }
        } else {
            tally.accepted += 1;
        }
    }
    let last = first + 2 * (store.calls.len() - 1);
    if formed && !said.get(last).and_then(rows_of).is_some_and(|rows| well_formed(&rows)) {
        return Err((last, "accepted calls left a store that is not well formed".into()));
    }
    Ok(())
}
