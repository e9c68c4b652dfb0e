//! Scripts of random bytes, and of calls with some bytes changed. Every line that is not empty must be answered once, and the program must end normally.
use crate::calls;
use crate::chance::Random;
use crate::lane::Lane;

/// Runs `scripts` scripts; false at the first fault, which is printed with the fewest lines that show it.
pub fn run(scripts: u64, seed: u64) -> bool {
    let lane = Lane::new("target/damaged");
    let (mut lines, mut answers, mut errors) = (0, 0, 0);
    for s in seed..seed + scripts {
        let script = script(&mut Random::new(s));
        match fault(&lane, &script) {
            Ok((answered, wrong)) => {
                lines += script.len();
                answers += answered;
                errors += wrong;
            }
            Err(why) => {
                let (script, why) = fewest(&lane, script, why);
                println!("A FAULT (seed {s}): {why}. The script:");
                script.iter().for_each(|l| println!("    {:?}", String::from_utf8_lossy(l)));
                return false;
            }
        }
    }
    println!("{scripts} scripts of random bytes and changed calls, {lines} lines, {answers} answers, {errors} of them `error`; each run ended normally.");
    true
}

/// How many answers there were, and how many of them `error`.
fn fault(lane: &Lane, script: &[Vec<u8>]) -> Result<(usize, usize), String> {
    let run = lane.run(&script.join(&b'\n'));
    if let Some(fault) = run.fault {
        return Err(fault);
    }
    let expected = script.iter().filter(|l| asks(l)).count();
    if run.answers.len() != expected {
        return Err(format!("{expected} lines ask something, {} are answered", run.answers.len()));
    }
    Ok((expected, run.answers.iter().filter(|a| a[0] == "error").count()))
}

/// The script with lines left out while some fault remains.
fn fewest(lane: &Lane, mut script: Vec<Vec<u8>>, mut why: String) -> (Vec<Vec<u8>>, String) {
    let mut part = script.len() / 2;
    while part > 0 {
        let mut at = 0;
        while at < script.len() {
            let mut less = script.clone();
            less.drain(at..(at + part).min(script.len()));
            match fault(lane, &less) {
                Err(still) => (script, why) = (less, still),
                Ok(_) => at += part,
            }
        }
        part /= 2;
    }
    (script, why)
}

/// The line without its comment and the blanks at its ends.
fn bare(line: &[u8]) -> &[u8] {
    let line = line.split(|b| *b == b'#').next().unwrap_or(&[]);
    let from = line.iter().position(|b| *b != b' ').unwrap_or(line.len());
    let to = line.iter().rposition(|b| *b != b' ').map_or(from, |i| i + 1);
    &line[from..to]
}

/// The line is answered.
fn asks(line: &[u8]) -> bool {
    line.len() > 4096 || !bare(line).is_empty()
}

fn script(random: &mut Random) -> Vec<Vec<u8>> {
    let mut out = Vec::new();
    for _ in 0..50 + random.below(300) {
        let mut line = match random.below(20) {
            0 => (0..random.below(60)).map(|_| random.below(256) as u8).collect(),
            1 => (0..random.below(40)).map(|_| random.pick(b"0123456789 .:-,U#\t")).collect(),
            2 if random.one_in(4) => vec![random.pick(b"1a -"); 4090 + random.below(10)],
            3 => random.pick(&["empty", "placeholder 3", "new 0", "new 4", "room 5", "out 2", "out 9999", "rows 2", "sum"]).into(),
            4 => random
                .pick(&[
                    "ins - 0 1 0 0 text 0 2",
                    "del 1:2 0 1 2 0 1 0 0",
                    "checkout 1:2",
                    "delta - 1:2",
                    "applied - 1:2",
                    "row 0 1.0 0 1.0 now:0 - - - 0 1",
                ])
                .into(),
            5..=11 => changed(random),
            _ => calls::any(random).into_bytes(),
        };
        line.retain(|b| *b != b'\n');
        // a line of other blanks only: SCRIPT.md does not say whether it is empty
        if line.len() <= 4096 && !bare(&line).is_empty() && bare(&line).iter().all(|b| b.is_ascii_whitespace() || *b == 11) {
            line.insert(0, b'x');
        }
        // a long line must ask something, or it might be a comment or blanks
        if line.len() > 4000 {
            line[0] = b'x';
        }
        out.push(line);
    }
    out
}

/// A call with some bytes changed.
fn changed(random: &mut Random) -> Vec<u8> {
    let mut line = calls::any(random).into_bytes();
    for _ in 0..1 + random.below(3) {
        let at = random.below(line.len());
        match random.below(5) {
            _ if line.is_empty() => {}
            0 => line[at] = random.below(256) as u8,
            1 => line[at] = random.pick(b"0123456789 -.:U#"),
            2 => {
                line.remove(at);
            }
            3 => line.insert(at, random.pick(b"0123456789 -")),
            _ => line.truncate(at),
        }
    }
    line
}
