//! Scripts go to the lane program many at a time; what it says is judged script by script. The first difference is shrunk: the script is made smaller while some
//! difference remains.
use crate::lane::{Lane, Said};
use generic_btree::{Variant, VARIANTS};
use std::collections::BTreeMap;

/// How often the lane program is run to shrink a script.
const MOST_RUNS: usize = 3_000;

pub type Named = (&'static str, Variant);

pub trait Script: Clone {
    /// Every line for the lane program: calls, and what is asked after them.
    fn lines(&self) -> Vec<String>;
    /// The calls alone, as lines.
    fn calls(&self) -> Vec<String>;
    fn judge(&self, said: &[Said], variants: &[Named], tally: &mut Tally) -> Result<(), Difference>;
    /// Without the calls after a line.
    fn until(self, line: usize) -> Self;
    /// The scripts that are one step shorter or simpler.
    fn smaller(&self) -> Vec<Self>;
}

#[derive(Default)]
pub struct Tally {
    pub scripts: u64,
    pub calls: u64,
    pub lines: u64,
    /// Answers compared with the Rust, each variant counted.
    pub rust: u64,
    /// Answers compared with the reading of 01, and how many of them are refusals.
    pub reading: u64,
    pub refused: u64,
    /// Arrivals of edits that had arrived in another order before, ending with the same units.
    pub arrivals: u64,
    /// How often a variant was left because a call is outside the domain, by its name.
    pub outside: BTreeMap<&'static str, u64>,
}

pub struct Difference {
    /// The line whose answer differs.
    pub line: usize,
    pub from: String,
    pub lane: String,
    pub want: String,
}

pub struct Batch<S> {
    lane: Lane,
    variants: Vec<Named>,
    waiting: Vec<S>,
    lines: usize,
    tally: Tally,
    found: Option<(S, Difference)>,
}

/// The variants of the stand-in that are wanted and usable.
pub fn variants(usable: impl Fn(&Variant) -> bool) -> Vec<Named> {
    let names = std::env::var("VARIANTS").unwrap_or_default();
    let wanted = |n: &str| names.is_empty() || names.split(',').any(|w| w == n);
    VARIANTS.iter().filter(|v| wanted(v.0) && usable(&v.1)).copied().collect()
}

impl<S: Script> Batch<S> {
    /// `usable` says which variants of the stand-in the scripts can be judged with.
    pub fn new(usable: impl Fn(&Variant) -> bool) -> Batch<S> {
        Batch {
            lane: Lane::new("target/compare"),
            variants: variants(usable),
            waiting: vec![],
            lines: 0,
            tally: Tally::default(),
            found: None,
        }
    }

    /// Takes a script; false once a difference has been found.
    pub fn take(&mut self, script: S) -> bool {
        self.lines += 8 * script.calls().len();
        self.waiting.push(script);
        if self.lines > 50_000 {
            self.finish();
        }
        self.found.is_none()
    }

    /// Judges the scripts that wait.
    fn finish(&mut self) {
        let scripts = std::mem::take(&mut self.waiting);
        self.lines = 0;
        if self.found.is_some() || scripts.is_empty() {
            return;
        }
        let lines: Vec<Vec<String>> = scripts.iter().map(S::lines).collect();
        let run = self.lane.run(text(lines.iter().flatten()).as_bytes());
        let mut from = 0;
        for (script, lines) in scripts.iter().zip(&lines) {
            let said = run.answers.get(from..).unwrap_or(&[]);
            from += lines.len();
            if let Err(difference) = script.judge(said, &self.variants, &mut self.tally) {
                run.fault.iter().for_each(|f| println!("{f}"));
                self.found = Some(self.shortest(script.clone(), difference));
                return;
            }
        }
        if let Some(fault) = run.fault {
            println!("{fault}");
            std::process::exit(1);
        }
    }

    fn shortest(&self, script: S, difference: Difference) -> (S, Difference) {
        let differs = |s: &S| {
            let run = self.lane.run(text(s.lines().iter()).as_bytes());
            s.judge(&run.answers, &self.variants, &mut Tally::default()).err()
        };
        let Some(difference) = differs(&script) else {
            println!("The script alone shows no difference; it did so after others.");
            return (script, difference);
        };
        let mut best = (script.until(difference.line), difference);
        let mut runs = 0;
        'again: loop {
            let one = best.0.smaller();
            // where no step keeps a difference, two at once may
            let two = one.iter().flat_map(S::smaller);
            for candidate in one.iter().cloned().chain(two) {
                if runs == MOST_RUNS {
                    return best;
                }
                runs += 1;
                if let Some(difference) = differs(&candidate) {
                    best = (candidate.until(difference.line), difference);
                    continue 'again;
                }
            }
            return best;
        }
    }

    /// The last scripts, then the counts, and the difference; false where there is one.
    pub fn report(mut self) -> bool {
        self.finish();
        let t = &self.tally;
        println!("{} scripts, {} calls, {} lines asked.", t.scripts, t.calls, t.lines);
        println!("Compared with the Rust over {} variants of the stand-in: {} answers.", self.variants.len(), t.rust);
        for (name, n) in &t.outside {
            println!("Left as outside the domain: variant {name}, {n} scripts.");
        }
        println!("Compared with the reading of 01 (cuts, refusals): {} answers, {} of them refusals.", t.reading, t.refused);
        if t.arrivals > 0 {
            println!("Further arrivals of the same edits, ending with the same units: {}.", t.arrivals);
        }
        let Some((script, difference)) = &self.found else {
            println!("no difference");
            return true;
        };
        println!("A DIFFERENCE from {}. The shortest script found:", difference.from);
        let (calls, lines) = (script.calls(), script.lines());
        calls.iter().for_each(|c| println!("    {c}"));
        if calls.last() != lines.get(difference.line) {
            println!("    {}", lines[difference.line]);
        }
        println!("To the last line the program answers\n{}", indent(&difference.lane));
        println!("and is to answer, apart from cuts,\n{}", indent(&difference.want));
        false
    }
}

fn text<'a>(lines: impl Iterator<Item = &'a String>) -> String {
    lines.flat_map(|l| [l, "\n"]).collect()
}

fn indent(text: &str) -> String {
    text.trim_end().lines().map(|l| format!("    {l}")).collect::<Vec<_>>().join("\n")
}
