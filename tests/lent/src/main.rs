//! Spoils bytes of the three buffers that a history is lent, and makes its calls as machine code, with good and bad arguments.
//!
//!     lent [HISTORIES [SEED]]
//!     lent faults                 whether faults are found: the answers and the bytes are changed by hand, one fault at a time
//!
//! Every call must answer. A checkout or a delta must leave targets, edits and the output past its entries as they were. A refused call, and one that only reads, must leave every lent byte as it was (but the edits of a run before the one that was refused). A history
//! that nobody spoilt, or only in spare room, must not be 15; a spoilt one must be 15 to every call or to none.
mod calls;
#[path = "../../damaged/src/chance.rs"]
mod chance;
#[path = "../../bench/merge/src/made.rs"]
mod made;
#[path = "../../bench/merge/src/plain.rs"]
mod plain;

use calls::{Call, Columns, Lent};
use chance::Random;
use plain::Edit;

/// How often each history is spoilt.
const SPOILT: usize = 20;
/// How many calls are made on each.
const CALLS: usize = 12;

#[derive(Default)]
struct Tally {
    calls: u64,
    refused: [u64; 16],
    /// Spoilt histories that are 15, and all.
    fifteen: u64,
    spoilt: u64,
}

/// A history, and the edits that have not arrived.
struct Made {
    lent: Lent,
    edits: Vec<Edit>,
    next: usize,
}

fn made(random: &mut Random) -> Made {
    let placeholder = random.pick(&[0, 1, 3, 8]);
    let offices = if random.one_in(10) { 16 } else { 1 + random.below(5) };
    let mut drawn = made::Random(random.below(1 << 30) as u64);
    let many = if offices == 16 { 80 } else { 1 + random.below(14) };
    let edits = made::made(&mut drawn, many, offices, placeholder);
    let edits = made::arrival(&mut drawn, &edits, offices);
    let rooms: [&[usize]; 2] = if offices == 16 { [&[300], &[300]] } else { [&[2, 5, 12, 100], &[1, 3, 100]] };
    let mut lent = Lent::new(random.pick(rooms[0]), random.pick(rooms[1]), random.pick(&[0, 2, 100]), random.below(16));
    assert_eq!(lent.open(placeholder), 0, "the opening was refused");
    let mut next = 0;
    while next + 1 < edits.len() && lent.make(&arrive(&edits[next])).0 == 0 {
        next += 1;
    }
    Made { lent, edits, next }
}

/// Two thousand edits by one office.
fn full() -> Made {
    let one = |i: u32| Edit {
        peer: 1,
        counter: i,
        pos: i,
        act: plain::Act::Insert { lamport: i, start: i, end: i + 1 },
        context: if i == 0 { vec![] } else { vec![(1, i)] },
    };
    let edits: Vec<Edit> = (0..2001).map(one).collect();
    let mut lent = Lent::new(20, 20, 20, 0);
    assert_eq!(lent.open(0), 0, "the opening was refused");
    assert_eq!(lent.make(&Call::ArriveAll(made::rows(&edits[..2000]))), (0, 2000), "an edit was refused");
    Made { lent, edits, next: 2000 }
}

fn columns(version: &[(u64, u32)]) -> Columns {
    version.iter().copied().unzip()
}

fn arrive(edit: &Edit) -> Call {
    Call::Arrive(made::rows(std::slice::from_ref(edit)), columns(&edit.context))
}

fn word(bytes: &[u8], at: usize) -> usize {
    u64::from_le_bytes(bytes[at..at + 8].try_into().unwrap()) as usize
}

impl Made {
    /// How many bytes of each buffer are not spare.
    fn used(&self) -> [usize; 3] {
        let (rows, edits) = (word(&self.lent.s, 0), word(&self.lent.e, 0));
        let took = |i: usize| u32::from_le_bytes(self.lent.e[64 + 256 * i + 44..][..4].try_into().unwrap()) as usize;
        [72 * (rows + 1), 16 * (0..edits).map(took).sum::<usize>(), 64 + 256 * edits]
    }

    /// A version that some edit of the history has as its context, one of all that has arrived, or none; now and then with a fault.
    fn version(&self, random: &mut Random) -> Columns {
        let mut all = std::collections::BTreeMap::new();
        self.edits[..self.next].iter().for_each(|e| *all.entry(e.peer).or_insert(0) += e.len());
        let all: Vec<(u64, u32)> = all.into_iter().collect();
        let mut v = match random.below(4) {
            0 => vec![],
            1 => self.edits[random.below(self.edits.len())].context.clone(),
            _ => all,
        };
        if random.one_in(4) && !v.is_empty() {
            let i = random.below(v.len());
            match random.below(6) {
                0 => v[i].1 = v[i].1.wrapping_add(1),
                1 => v[i].1 = v[i].1.wrapping_sub(1),
                2 => v[i].0 += 1,
                3 => v.push((v[i].0, 1)),
                4 => v.extend((100..117).map(|p| (p, 1))),
                _ => v.reverse(),
            }
        }
        columns(&v)
    }

    fn call(&self, random: &mut Random) -> Call {
        let rest = &self.edits[self.next..];
        match random.below(8) {
            0 => Call::Len,
            1 => Call::At(random.below(8) as u32),
            2 | 3 => Call::Checkout(self.version(random)),
            4 | 5 => Call::Delta(self.version(random), self.version(random)),
            6 => {
                let mut row = made::rows(&rest[..1]);
                let mut context = columns(&rest[0].context);
                if random.one_in(2) {
                    spoil(random, &mut row, 0..44);
                }
                if random.one_in(4) {
                    context = self.version(random);
                }
                Call::Arrive(row, context)
            }
            _ => {
                let mut rows = made::rows(&rest[..1 + random.below(rest.len().min(3))]);
                if random.one_in(2) {
                    let end = rows.len();
                    spoil(random, &mut rows, 0..end);
                }
                Call::ArriveAll(rows)
            }
        }
    }
}

/// Writes one byte or word anew.
fn spoil(random: &mut Random, bytes: &mut [u8], part: std::ops::Range<usize>) {
    let at = part.start + random.below(part.len());
    bytes[at] = match random.below(5) {
        0 => bytes[at].wrapping_add(1),
        1 => bytes[at].wrapping_sub(1),
        2 => bytes[at] ^ (1 << random.below(8)),
        3 => random.pick(&[0, 1, 255]),
        _ => random.below(256) as u8,
    };
}

/// Spoils what is used of a history, or what is spare; which of the two.
fn damage(random: &mut Random, made: &mut Made) -> bool {
    let used = made.used();
    let spare = random.one_in(5);
    for _ in 0..1 + random.below(2) {
        let which = random.below(3);
        let bytes = [&mut made.lent.s, &mut made.lent.t, &mut made.lent.e][which].as_mut_slice();
        let (from, to) = if spare { (used[which], bytes.len()) } else { (0, used[which]) };
        if from == to {
            continue;
        }
        let size = [72, 16, 256][which];
        match random.below(8) {
            // one row over another
            0 if !spare && to >= 3 * size => {
                let head = [72, 0, 64][which];
                let row = |r: &mut Random| head + size * r.below((to - head) / size);
                let (a, b) = (row(random), row(random));
                bytes.copy_within(a..a + size, b);
            }
            // a unit loses its real id
            1 | 2 if !spare && which == 0 && to > 72 => bytes[72 * (1 + random.below(to / 72 - 1)) + 64] &= !8,
            _ => spoil(random, bytes, from..to),
        }
    }
    !spare
}

/// Makes a call, with a fault if one is named.
fn make(lent: &mut Lent, call: &Call, fault: &str) -> calls::Answer {
    let (code, many) = lent.make(call);
    let last = lent.t.len() - 1;
    match (fault, call) {
        // a refused call writes into spare room; one that only reads does
        ("dirty", _) if code != 0 => lent.t[last] ^= 1,
        ("reads", Call::At(_)) => lent.t[last] ^= 1,
        // a length is said of what is 15
        ("blind", Call::Len) if code == 15 => return (0, 0),
        // a history is 15 where nothing is wrong with it
        ("strict", Call::Checkout(v)) if code == 0 && v.0.is_empty() => return (15, 0),
        _ => {}
    }
    (code, many)
}

/// Makes calls; whether the history is 15. `sound`: it must not be.
fn run(random: &mut Random, made: &mut Made, sound: bool, fault: &str, tally: &mut Tally) -> Result<bool, String> {
    let mut fifteen = None;
    let mut before = made.lent.clone();
    for n in 0..CALLS {
        let call = made.call(random);
        let (code, many) = make(&mut made.lent, &call, fault);
        tally.calls += 1;
        if code > 15 {
            return Err(format!("call {n} answers {code}"));
        }
        tally.refused[code as usize] += 1;
        if *fifteen.get_or_insert(code == 15) != (code == 15) || (sound && code == 15) {
            return Err(format!("call {n} answers {code}"));
        }
        let reads = matches!(call, Call::Len | Call::At(_));
        let began = matches!(call, Call::ArriveAll(_)) && many > 0;
        if (code != 0 || reads) && !began && made.lent != before {
            return Err(format!("call {n} answers {code} and writes"));
        }
        let past = match call {
            Call::Delta(..) => many as usize,
            _ => 0,
        };
        let kept = |a: &Lent, b: &Lent| a.t == b.t && a.e == b.e && a.past(past) == b.past(past);
        if !matches!(call, Call::Arrive(..) | Call::ArriveAll(_)) && !kept(&made.lent, &before) {
            return Err(format!("call {n} writes what it need not"));
        }
        if matches!(call, Call::Arrive(..) | Call::ArriveAll(_)) && (code == 0 || began) {
            // the edits that are known no longer say what the history holds
            return Ok(false);
        }
        before.clone_from(&made.lent);
    }
    Ok(fifteen == Some(true))
}

/// Spoils a history again and again, and makes calls on it each time.
fn judge(mut made: Made, seed: u64, fault: &str, tally: &mut Tally) -> Result<(), String> {
    let mut random = Random::new(seed ^ 0x1E47);
    let good = made.lent.clone();
    for n in 0..=SPOILT {
        let used = n > 0 && damage(&mut random, &mut made);
        let fifteen = run(&mut random, &mut made, !used, fault, tally).map_err(|e| format!("seed {seed}, spoilt {n} times: {e}"))?;
        tally.spoilt += u64::from(used);
        tally.fifteen += u64::from(fifteen);
        made.lent.clone_from(&good);
    }
    Ok(())
}

fn all(histories: u64, seed: u64, fault: &str, tally: &mut Tally) -> Result<(), String> {
    for seed in seed..seed + histories {
        judge(made(&mut Random::new(seed)), seed, fault, tally)?;
    }
    judge(full(), seed, fault, tally)
}

fn main() {
    let args: Vec<String> = std::env::args().skip(1).collect();
    let number = |i: usize, default: u64| args.get(i).map_or(default, |x| x.parse().expect("a number"));
    if args.first().is_some_and(|x| x == "faults") {
        for fault in ["none", "dirty", "reads", "blind", "strict"] {
            let found = all(50, 1, fault, &mut Tally::default());
            println!("fault {fault}: {}", found.as_ref().err().map_or("nothing found", |e| e));
            if found.is_ok() != (fault == "none") {
                std::process::exit(1);
            }
        }
        return;
    }
    let (histories, seed) = (number(0, 300), number(1, 1));
    let mut tally = Tally::default();
    if let Err(found) = all(histories, seed, "none", &mut tally) {
        println!("{found}");
        std::process::exit(1);
    }
    println!("{histories} histories and one of 2,000 edits, each as it is and spoilt {SPOILT} times: {} calls.", tally.calls);
    println!("{} times what is spoilt is not spare, and {} of these histories are 15.", tally.spoilt, tally.fifteen);
    let refused: Vec<String> = (1..16).filter(|k| tally.refused[*k] > 0).map(|k| format!("{k}: {}", tally.refused[k])).collect();
    println!("Accepted: {}. Refused, by number: {}. No refused call wrote a byte.", tally.refused[0], refused.join(", "));
}
