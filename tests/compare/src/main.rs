//! Compares the lane program with crdt_rope.rs and fugue_span.rs (for histories, tracker.rs and id_to_cursor.rs too) over stand-ins for the crates that
//! they use, call by call.
//!
//!     compare random [SCRIPTS [SEED [CALLS]]]      random rope scripts
//!     compare short ALPHABET [DEPTH [PEERS]]       every short rope script (`ropes/short.rs`)
//!     compare stores [SCRIPTS [SEED [CALLS]]]      calls on well-formed stores that no call makes; the Rust is not asked
//!     compare file FILE                            the rope scripts of a file
//!     compare histories [SCRIPTS [SEED [CALLS]]]   random histories
//!     compare small [DEPTH [PEERS]]                every small history (`histories/small.rs`)
//!     compare record [SCRIPTS [SEED [CALLS]]]      a sample of histories with the Rust's answers (`histories/record.rs`)
//!     compare faults                               whether faults are found (`pretend.rs`)
//!
//! `LANE` is the program to judge, `VARIANTS` the stand-in's variants by name (all where nothing is said). It stops at the first difference
//! with the shortest script that shows it.
use batch::Batch;
use model01::*;

mod answer;
mod batch;
#[path = "../../damaged/src/chance.rs"]
mod chance;
mod histories;
#[path = "../../damaged/src/lane.rs"]
mod lane;
mod pretend;
mod ropes;
#[path = "../../damaged/src/row.rs"]
mod row;
mod simpler;

const USAGE: &str = "usage: compare random [SCRIPTS [SEED [CALLS]]] | short calls|places|deltas [DEPTH [PEERS]] | stores [SCRIPTS [SEED [CALLS]]] | file FILE \
    | histories [SCRIPTS [SEED [CALLS]]] | small [DEPTH [PEERS]] | record [SCRIPTS [SEED [CALLS]]] | faults";

fn random(scripts: u64, seed: u64, calls: usize) -> bool {
    let mut batch = Batch::new(|_| true);
    (seed..seed + scripts).all(|s| batch.take(ropes::random::script(s, calls)));
    batch.report()
}

fn short(alphabet: &str, depth: usize, peers: u64) -> bool {
    let alphabet = ropes::short::alphabet(alphabet).expect(USAGE);
    let mut batch = Batch::new(|_| true);
    for opening in [Call::Empty, Call::Placeholder(2)] {
        ropes::short::scripts(alphabet, opening, depth, peers, &mut |s| batch.take(s));
    }
    batch.report()
}

fn stores(scripts: u64, seed: u64, calls: usize) -> bool {
    let mut batch = Batch::new(|_| false);
    (seed..seed + scripts).all(|s| batch.take(ropes::stores::script(s, calls)));
    batch.report()
}

fn file(path: &str) -> bool {
    let text = std::fs::read_to_string(path).expect("the file is read");
    let mut batch = Batch::new(|_| true);
    ropes::scripts_of(&text).into_iter().all(|s| batch.take(s));
    batch.report()
}

/// A tracker cannot hear of leaves that are joined behind its back, so the variant that does so is left out.
fn histories(scripts: u64, seed: u64, calls: usize) -> bool {
    let mut batch = Batch::new(|v| !v.join_all);
    (seed..seed + scripts).all(|s| batch.take(histories::random::script(s, calls)));
    batch.report()
}

fn small(depth: usize, peers: u64) -> bool {
    let mut batch = Batch::new(|v| !v.join_all);
    histories::small::scripts(depth, peers, &mut |s| batch.take(s));
    batch.report()
}

/// Writes the sample into target/compare.
fn record(scripts: u64, seed: u64, calls: usize) -> bool {
    let sample = match histories::record::sample(scripts, seed, calls, &batch::variants(|v| !v.join_all)) {
        Ok(sample) => sample,
        Err(difference) => {
            println!("THE RUST AND THE READING OF 01 DIFFER, {difference}");
            return false;
        }
    };
    for (name, text) in [("sample.stdin", &sample.script), ("sample.stdout", &sample.answers)] {
        std::fs::create_dir_all("target/compare").expect("the folder is made");
        std::fs::write(format!("target/compare/{name}"), text).expect("the sample is written");
        println!("target/compare/{name}: {} lines", text.lines().count());
    }
    println!("{} deltas and positions are recorded; {} are left out, cut otherwise by the Rust than 01 says.", sample.kept, sample.cut);
    true
}

/// Judges `pretend` with every fault and with none.
fn faults() -> bool {
    let myself = std::env::current_exe().expect("the program's own name");
    let mut good = true;
    let mut tries = |faults: &[&str], judged: &dyn Fn() -> bool| {
        for fault in ["none"].iter().chain(faults) {
            println!("---- fault {fault}");
            std::env::set_var("LANE", format!("{} pretend {fault}", myself.display()));
            if judged() != (*fault == "none") {
                println!("NOT AS IT MUST BE");
                good = false;
            }
        }
    };
    tries(pretend::FAULTS, &|| random(500, 1, 40));
    tries(pretend::HISTORY, &|| histories(200, 1, 25));
    good
}

fn main() {
    let args: Vec<String> = std::env::args().skip(1).collect();
    let words: Vec<&str> = args.iter().map(String::as_str).collect();
    let number = |i: usize, default: u64| words.get(i).map_or(default, |w| w.parse().expect(USAGE));
    if let ["pretend", fault] = words[..] {
        pretend::run(fault);
        return;
    }
    let same = match words.first() {
        Some(&"histories" | &"small" | &"record") => {
            hist::quiet_panics();
            match words[0] {
                "record" => record(number(1, 50), number(2, 701), number(3, 18) as usize),
                "small" => small(number(1, 3) as usize, number(2, 3)),
                _ => histories(number(1, 1000), number(2, 1), number(3, 40) as usize),
            }
        }
        Some(_) => {
            rope::quiet_panics();
            match words[..] {
                ["random", ..] => random(number(1, 2000), number(2, 1), number(3, 50) as usize),
                ["short", name, ..] => short(name, number(2, 3) as usize, number(3, 3)),
                ["stores", ..] => stores(number(1, 2000), number(2, 1), number(3, 10) as usize),
                ["file", path] => file(path),
                ["faults"] => faults(),
                _ => panic!("{USAGE}"),
            }
        }
        None => panic!("{USAGE}"),
    };
    std::process::exit(i32::from(!same));
}
