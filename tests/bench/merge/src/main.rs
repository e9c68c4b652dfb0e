//! Times a morning's merge: a plain program over a vector of spans, and the history through the archive of crate bench_c, in one run.
//! merge [SEED [RUNS]]
#[path = "../../../entries.rs"]
mod entries;
mod made;
mod plain;

use entries::*;
use plain::{Edit, Id, Plain};

const EDITS: usize = 700;
const OFFICES: usize = 9;
const PLACEHOLDER: u32 = 400;
/// Rows of the store and target ranges that are lent: more than this morning has units.
const ROOM: usize = 8192;

extern "C" {
    fn clock_gettime(clock: i32, time: *mut [i64; 2]) -> i32;
}

struct History {
    s: Vec<u8>,
    t: Vec<u8>,
    e: Vec<u8>,
}

impl History {
    fn new() -> History {
        History { s: vec![0; 72 * (ROOM + 1)], t: vec![0; 16 * ROOM], e: vec![0; 64 + 2000 * 256] }
    }

    /// Writes 0 into every byte, so that no page is touched for the first time while the clock runs.
    fn zero(&mut self) {
        for b in [&mut self.s, &mut self.t, &mut self.e] {
            b.iter_mut().for_each(|x| unsafe { std::ptr::write_volatile(x, 0) });
        }
    }

    fn open(&mut self) {
        let (s, t, e) = (&mut self.s, &self.t, &mut self.e);
        let code = unsafe { bench_open_with(s.as_mut_ptr(), s.len(), t.as_ptr(), t.len(), e.as_mut_ptr(), e.len(), PLACEHOLDER) };
        assert_eq!(code, 0, "the opening was refused");
    }

    fn arrive_all(&mut self, rows: &[u8]) {
        let (s, t, e) = (&mut self.s, &mut self.t, &mut self.e);
        let got = unsafe {
            bench_arrive_all(s.as_mut_ptr(), s.len(), t.as_mut_ptr(), t.len(), e.as_mut_ptr(), e.len(), rows.as_ptr(), rows.len())
        };
        assert_eq!(got, (rows.len() as u64 / 256) << 8, "an edit was refused");
    }

    /// The edit of a row, with its context in columns.
    fn arrive(&mut self, row: &[u8], context: &Columns) {
        let (s, t, e, (peers, counts)) = (&mut self.s, &mut self.t, &mut self.e, context);
        let code = unsafe {
            bench_arrive(
                s.as_mut_ptr(),
                s.len(),
                t.as_mut_ptr(),
                t.len(),
                e.as_mut_ptr(),
                e.len(),
                row.as_ptr(),
                row.len(),
                peers.as_ptr(),
                peers.len(),
                counts.as_ptr(),
                counts.len(),
            )
        };
        assert_eq!(code, 0, "an edit was refused");
    }

    fn checkout(&mut self, version: &Columns) {
        let (s, t, e, (peers, counts)) = (&mut self.s, &self.t, &self.e, version);
        let code = unsafe {
            bench_checkout(
                s.as_mut_ptr(),
                s.len(),
                t.as_ptr(),
                t.len(),
                e.as_ptr(),
                e.len(),
                peers.as_ptr(),
                peers.len(),
                counts.as_ptr(),
                counts.len(),
            )
        };
        assert_eq!(code, 0, "the checkout was refused");
    }

    /// Each unit of the list: id, future, delete count, real id.
    fn units(&self) -> Vec<Unit> {
        let u64_at = |at: usize| u64::from_le_bytes(self.s[at..at + 8].try_into().unwrap());
        let u32_at = |at: usize| u32::from_le_bytes(self.s[at..at + 4].try_into().unwrap());
        let mut all = vec![];
        for i in 1..=u64_at(0) as usize {
            let at = 72 * i;
            let (start, end, flags) = (u32_at(at + 52), u32_at(at + 56), u32_at(at + 64));
            let len = if start == u32::MAX { end } else { end - start };
            for k in 0..len {
                let real = (flags & 8 != 0).then(|| (u64_at(at + 8), u32_at(at + 40) + k));
                all.push(((u64_at(at), u32_at(at + 32) + k), flags & 1 != 0, u32_at(at + 60) as i16, real));
            }
        }
        all
    }
}

/// A version's peers and counts.
type Columns = (Vec<u64>, Vec<u32>);

/// What all edits make together.
fn whole(edits: &[Edit]) -> Vec<(u64, u32)> {
    let mut all = std::collections::BTreeMap::new();
    edits.iter().for_each(|e| *all.entry(e.peer).or_insert(0) += e.len());
    all.into_iter().collect()
}

type Unit = (Id, bool, i16, Option<Id>);

fn plain_units(p: &Plain) -> Vec<Unit> {
    let one = |x: &plain::Span, k: u32| ((x.id.0, x.id.1 + k), x.future, x.deletes, x.real.map(|r| (r.0, r.1 + k)));
    p.list.iter().flat_map(|x| (0..x.len).map(move |k| one(x, k))).collect()
}

fn merge_plain(edits: &[Edit]) -> Plain {
    let mut p = Plain::new(PLACEHOLDER);
    edits.iter().for_each(|e| p.merge(e));
    p
}

/// Seconds of processor time that this thread has used (Linux's clock 3): others on the machine count for less than on a wall clock.
fn now() -> f64 {
    let mut time = [0; 2];
    unsafe { clock_gettime(3, &mut time) };
    time[0] as f64 + time[1] as f64 * 1e-9
}

/// Microseconds an edit in the quickest of some runs.
fn least(times: &[f64]) -> f64 {
    times.iter().copied().fold(f64::INFINITY, f64::min) * 1e6 / EDITS as f64
}

fn main() {
    let args: Vec<u64> = std::env::args().skip(1).map(|x| x.parse().expect("a number")).collect();
    let seed = args.first().copied().unwrap_or(1);
    let runs = args.get(1).copied().unwrap_or(5).max(1);
    let mut random = made::Random(seed);
    let made = made::made(&mut random, EDITS, OFFICES, PLACEHOLDER);
    let edits = made::arrival(&mut random, &made, OFFICES);
    let rows = made::rows(&edits);
    let contexts: Vec<Columns> = edits.iter().map(|e| e.context.iter().copied().unzip()).collect();
    let whole = whole(&edits);
    let columns: Columns = whole.iter().copied().unzip();
    let mut h = History::new();
    let (mut plain, mut many, mut single) = (vec![], vec![], vec![]);
    let (mut units, mut ends) = (vec![], vec![]);
    for _ in 0..runs {
        let start = now();
        let mut p = std::hint::black_box(merge_plain(std::hint::black_box(&edits)));
        plain.push(now() - start);
        units = plain_units(&p);
        p.checkout(&whole);
        ends = plain_units(&p);

        h.zero();
        let start = now();
        h.open();
        h.arrive_all(&rows);
        many.push(now() - start);
        assert!(h.units() == units, "many edits in one call: the lists differ");
        h.checkout(&columns);
        assert!(h.units() == ends, "many edits in one call: the lists differ at the whole set");

        h.zero();
        let start = now();
        h.open();
        rows.chunks(256).zip(&contexts).for_each(|(row, context)| h.arrive(row, context));
        single.push(now() - start);
        assert!(h.units() == units, "one edit a call: the lists differ");
        h.checkout(&columns);
        assert!(h.units() == ends, "one edit a call: the lists differ at the whole set");
    }
    let visible = |all: &[Unit]| all.iter().filter(|u| !u.1 && u.2 == 0).count();
    println!(
        "{EDITS} edits by {OFFICES} offices, placeholder of {PLACEHOLDER}, seed {seed}: {} units, {} visible where the list stands, {} at the whole set",
        units.len(),
        visible(&units),
        visible(&ends)
    );
    println!("the same units, statuses and real ids in all three, there and at the whole set; processor time, the quickest of {runs} runs, buffers zeroed before each");
    let (plain, many, single) = (least(&plain), least(&many), least(&single));
    println!("  plain, a vector of spans     {plain:9.1} us an edit");
    println!("  arrive_all, one call         {many:9.1} us an edit  {:8.2} times plain", many / plain);
    println!("  arrive, a call for each edit {single:9.1} us an edit  {:8.2} times plain", single / plain);
}
