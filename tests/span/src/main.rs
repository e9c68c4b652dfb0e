//! Calls fugue_span.rs on many inputs and writes a list: a line for each call, with its arguments and the answer.
//!
//! `span_list LINES SEED`: the inputs at the ends of the ranges first, then random ones from the seed, LINES in all.
//! A line is the call's number (`richtext/list.rs`), its name, its arguments, `=` and the answer; every value is decimal numbers.
//! How many calls of each kind were written, and how many were left out because the Rust panicked, goes to standard error.
use std::io::{BufWriter, Write};

mod richtext {
    #[path = "../../../../../shared/docs/src/src/container/richtext/fugue_span.rs"]
    #[allow(dead_code)]
    mod fugue_span;

    /// As in richtext.rs.
    #[derive(Clone, Copy, PartialEq, Eq, Debug)]
    pub enum AnchorType {
        Start,
        End,
    }

    mod tracker {
        /// As in tracker.rs; document 01 writes the unknown peer as this number too.
        pub const UNKNOWN_PEER_ID: u64 = u64::MAX;
    }

    pub mod ends;
    pub mod inputs;
    pub mod list;
    pub mod random;
}

fn main() {
    let args: Vec<u64> = std::env::args()
        .skip(1)
        .map(|a| a.parse().expect("a number"))
        .collect();
    let [lines, seed] = args[..] else {
        eprintln!("usage: span_list LINES SEED");
        std::process::exit(2);
    };
    std::panic::set_hook(Box::new(richtext::list::note_place));
    let mut list = richtext::list::List::new(BufWriter::new(std::io::stdout()), lines);
    richtext::ends::write(&mut list);
    richtext::random::write(&mut list, seed);
    list.report(&mut std::io::stderr());
    list.out.flush().expect("the list is written");
}
