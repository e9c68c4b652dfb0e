//! A sample of random histories with the Rust's answers, for crates/lane_replay: a script, and what the lane program is to say to it. The lane program is not asked.
//!
//! Every line is asked of tracker.rs over each variant of the stand-in and of the reading of 01. Apart from cuts they must agree, or there is no sample. What is recorded is the
//! answer of the Rust over the first variant, to the letter, without the diff_status that a delta leaves standing. Where its cuts are not 01's, there is nothing to record to the letter:
//! a delta then becomes a checkout at A, and a position is not asked.
use super::judge::{rust, Ask, Reading, Reply};
use super::random;
use crate::batch::Named;
use crate::chance::Random;
use generic_btree::set_variant;
use hist::HistDriver;
use model01::*;

const HEAD: &str = "# ==== a sample: random histories that 01 accepts, with the answers of tracker.rs, id_to_cursor.rs, crdt_rope.rs and fugue_span.rs over stand-ins (docs/DIFFERENCES.md)
room 65536
targets 65536
out 65536
";

pub struct Sample {
    pub script: String,
    pub answers: String,
    /// Deltas and positions that were recorded, and those that the Rust cuts otherwise.
    pub kept: usize,
    pub cut: usize,
}

pub fn sample(scripts: u64, seed: u64, calls: usize, variants: &[Named]) -> Result<Sample, String> {
    let mut out = Sample { script: HEAD.into(), answers: "ok\n".repeat(3), kept: 0, cut: 0 };
    for n in 0..scripts {
        out.script += &format!("# history {}\n", n + 1);
        out.add(&history(seed + n, calls), variants).map_err(|e| format!("seed {}: {e}", seed + n))?;
    }
    Ok(out)
}

/// A random history of two to nine offices that 01 accepts, with some questions after its calls, and another arrival of its edits.
fn history(seed: u64, calls: usize) -> Vec<Ask> {
    let mut random = Random::new(seed ^ 0x5A3E);
    let placeholder = if random.one_in(3) { 1 + random.below(6) as u32 } else { 0 };
    let peers: Vec<u64> = (1..=2 + random.below(8) as u64).collect();
    let longest = random.pick(&[1, 2, 4]);
    let (made, history) = random::made(&mut random, placeholder, &peers, longest, calls);
    let mut reading = Reading::default();
    let mut out = Vec::new();
    for call in made {
        if reading.ask(&call).refused() {
            continue;
        }
        let visible = reading.history.rope.visible();
        out.push(call);
        match random.below(12) {
            0..=2 => out.push(Ask::Len),
            3 => out.push(Ask::Visible),
            4 => out.push(Ask::Dump),
            5..=8 => out.push(Ask::At(random.below(visible + 1))),
            _ => {}
        }
    }
    let whole = Ask::Checkout(history.counts.clone());
    out.extend([whole.clone(), Ask::Dump, Ask::Len]);
    if random.one_in(2) {
        out.push(Ask::New(placeholder));
        out.extend(random::arrival(&mut random, &history.edits).into_iter().map(Ask::Edit));
        out.extend([whole, Ask::Dump]);
    }
    out
}

impl Sample {
    fn add(&mut self, asked: &[Ask], variants: &[Named]) -> Result<(), String> {
        let mut reading = Reading::default();
        let want: Vec<Reply> = asked.iter().map(|ask| reading.ask(ask)).collect();
        let mut recorded: Vec<Reply> = Vec::new();
        for (name, variant) in variants {
            set_variant(*variant);
            let mut driver = HistDriver::new();
            for (line, ask) in asked.iter().enumerate() {
                let said = rust(&mut driver, ask);
                if said.uncut() != want[line].uncut() {
                    return Err(format!("{name} answers `{}` by\n{}and the reading by\n{}", ask.line(), said.show(), want[line].show()));
                }
                if recorded.len() == line {
                    recorded.push(said);
                }
            }
        }
        for (ask, (said, want)) in asked.iter().zip(recorded.iter().zip(&want)) {
            match ask {
                Ask::Delta(..) | Ask::At(_) if said == want => self.kept += 1,
                Ask::Delta(a, _) => {
                    self.cut += 1;
                    self.put(&Ask::Checkout(a.clone()), &Reply::Said(Answer::Ok));
                    continue;
                }
                Ask::At(_) => {
                    self.cut += 1;
                    continue;
                }
                _ => {}
            }
            self.put(ask, said);
        }
        Ok(())
    }

    fn put(&mut self, ask: &Ask, said: &Reply) {
        self.script += &(ask.line() + "\n");
        self.answers += &said.show();
    }
}
