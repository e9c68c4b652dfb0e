//! What the lane program does with stores that no call makes and with scripts that nobody would write.
//!
//!     damaged rows [STORES [SEED]]             damaged stores (`rows.rs`)
//!     damaged histories [HISTORIES [SEED]]   damaged histories (`histories.rs`)
//!     damaged bytes [SCRIPTS [SEED]]           random bytes (`bytes.rs`)
//!     damaged spoilt FAULT                     pretends to be the lane program, with a fault (`spoilt.rs`)
//!
//! `LANE` is the program to judge. It stops at the first fault.
mod bytes;
mod calls;
mod chance;
mod damage;
mod edits;
mod histories;
mod lane;
mod row;
mod rows;
mod spoilt;

fn main() {
    let args: Vec<String> = std::env::args().skip(1).collect();
    let words: Vec<&str> = args.iter().map(String::as_str).collect();
    let number = |i: usize, default: u64| words.get(i).map_or(default, |w| w.parse().expect("a number"));
    let good = match words[..] {
        ["rows", ..] => rows::run(number(1, 1000), number(2, 1)),
        ["histories", ..] => histories::run(number(1, 300), number(2, 1)),
        ["spoilt", fault] => spoilt::run(fault),
        ["bytes", ..] => bytes::run(number(1, 200), number(2, 1)),
        _ => {
            eprintln!("usage: damaged rows [STORES [SEED]] | histories [HISTORIES [SEED]] | bytes [SCRIPTS [SEED]] | spoilt FAULT");
            std::process::exit(2);
        }
    };
    std::process::exit(i32::from(!good));
}
