//! A line for each call: arguments and answer as decimal numbers.
//!
//! A flag is 0 or 1. A chunk is its two numbers, start and end. An optional id is `flag peer counter`, with zeros where there is none;
//! a status `future delete_times`; an optional one `flag future delete_times`.
//! A span is `peer counter lamport`, real id, status, diff_status, origin left, origin right, chunk: 19 numbers.
use super::fugue_span::{
    DiffStatus, FugueSpan, RichtextChunk, RichtextChunkKind, RichtextChunkValue, Status,
};
use super::AnchorType;
use generic_btree::rle::{CanRemove, HasLength, Mergeable, Sliceable};
use loro_common::{CompactId, HasId, IdFull};
use std::collections::BTreeMap;
use std::io::Write;
use std::panic::{catch_unwind, AssertUnwindSafe, PanicHookInfo};
use std::sync::Mutex;

pub struct List<W: Write> {
    pub out: W,
    left: u64,
    written: BTreeMap<(u32, &'static str), u64>,
    panicked: BTreeMap<(u32, &'static str, String), u64>,
}

/// Where the last panic was: crate, folder, file and line.
static PLACE: Mutex<String> = Mutex::new(String::new());

/// The hook: panics are counted and not printed.
pub fn note_place(panic: &PanicHookInfo) {
    let place = panic
        .location()
        .map_or(String::new(), |l| format!("{}:{}", l.file(), l.line()));
    let parts: Vec<_> = place.split('/').collect();
    *PLACE.lock().expect("one thread") = parts[parts.len().saturating_sub(3)..].join("/");
}

/// Numbers with a blank before each.
fn words(numbers: &[i128]) -> String {
    numbers.iter().map(|n| format!(" {n}")).collect()
}

fn anchor(t: AnchorType) -> i128 {
    match t {
        AnchorType::Start => 0,
        AnchorType::End => 1,
    }
}

/// The two numbers of a chunk. They are private, so they are taken from `value`, and a chunk made of them must equal this one.
fn numbers(c: &RichtextChunk) -> (u32, u32) {
    let (start, end) = match c.value() {
        RichtextChunkValue::Text(r) => (r.start, r.end),
        RichtextChunkValue::StyleAnchor {
            id,
            anchor_type: AnchorType::Start,
        } => (RichtextChunk::START_STYLE_ANCHOR, id),
        RichtextChunkValue::StyleAnchor {
            id,
            anchor_type: AnchorType::End,
        } => (RichtextChunk::END_STYLE_ANCHOR, id),
        RichtextChunkValue::Unknown(n) => (RichtextChunk::UNKNOWN, n),
        RichtextChunkValue::MoveAnchor => (RichtextChunk::MOVE_ANCHOR, RichtextChunk::MOVE_ANCHOR),
    };
    assert!(RichtextChunk::new_text(start..end) == *c);
    (start, end)
}

fn chunk(c: &RichtextChunk) -> String {
    let (start, end) = numbers(c);
    words(&[start.into(), end.into()])
}

fn optional_id(id: Option<CompactId>) -> String {
    match id {
        None => words(&[0, 0, 0]),
        Some(i) => words(&[1, i.peer.into(), i.counter.get().into()]),
    }
}

fn status(s: Status) -> String {
    words(&[s.future.into(), s.delete_times.into()])
}

fn optional_status(s: Option<Status>) -> String {
    match s {
        None => words(&[0, 0, 0]),
        Some(s) => words(&[1]) + &status(s),
    }
}

fn span(s: &FugueSpan) -> String {
    words(&[s.id.peer.into(), s.id.counter.into(), s.id.lamport.into()])
        + &optional_id(s.real_id)
        + &status(s.status)
        + &optional_status(s.diff_status)
        + &optional_id(s.origin_left)
        + &optional_id(s.origin_right)
        + &chunk(&s.content)
}

impl<W: Write> List<W> {
    pub fn new(mut out: W, lines: u64) -> Self {
        writeln!(out, "# The answers of fugue_span.rs. A line: number and name of the call, arguments = answer.").expect("written");
        List {
            out,
            left: lines,
            written: BTreeMap::new(),
            panicked: BTreeMap::new(),
        }
    }

    pub fn is_full(&self) -> bool {
        self.left == 0
    }

    /// Makes the call and writes its line; a call that panics is counted and left out.
    fn call(
        &mut self,
        number: u32,
        name: &'static str,
        arguments: String,
        answer: impl FnOnce() -> String,
    ) {
        if self.is_full() {
            return;
        }
        match catch_unwind(AssertUnwindSafe(answer)) {
            Ok(answer) => {
                writeln!(self.out, "{number} {name}{arguments} ={answer}").expect("written");
                self.left -= 1;
                *self.written.entry((number, name)).or_default() += 1;
            }
            Err(_) => {
                let place = PLACE.lock().expect("one thread").clone();
                *self.panicked.entry((number, name, place)).or_default() += 1;
            }
        }
    }

    pub fn report(&self, to: &mut impl Write) {
        for ((number, name), n) in &self.written {
            writeln!(to, "{number:2} {name}: {n}").expect("written");
        }
        for ((number, name, place), n) in &self.panicked {
            writeln!(to, "{number:2} {name}: {n} left out, a panic at {place}").expect("written");
        }
    }

    // Chunks.

    pub(super) fn new_text(&mut self, start: u32, end: u32) {
        self.call(1, "new_text", words(&[start.into(), end.into()]), || {
            chunk(&RichtextChunk::new_text(start..end))
        });
    }

    pub(super) fn new_style_anchor(&mut self, idx: u32, t: AnchorType) {
        self.call(
            2,
            "new_style_anchor",
            words(&[idx.into(), anchor(t)]),
            || chunk(&RichtextChunk::new_style_anchor(idx, t)),
        );
    }

    pub(super) fn new_unknown(&mut self, len: u32) {
        self.call(3, "new_unknown", words(&[len.into()]), || {
            chunk(&RichtextChunk::new_unknown(len))
        });
    }

    pub(super) fn new_move(&mut self) {
        self.call(4, "new_move", String::new(), || {
            chunk(&RichtextChunk::new_move())
        });
    }

    pub(super) fn kind(&mut self, c: RichtextChunk) {
        self.call(5, "kind", chunk(&c), || {
            words(&[match c.kind() {
                RichtextChunkKind::Text => 0,
                RichtextChunkKind::StyleAnchor => 1,
                RichtextChunkKind::Unknown => 2,
                RichtextChunkKind::MoveAnchor => 3,
            }])
        });
    }

    pub(super) fn len(&mut self, c: RichtextChunk) {
        self.call(6, "len", chunk(&c), || words(&[c.len() as i128]));
    }

    pub(super) fn value(&mut self, c: RichtextChunk) {
        self.call(7, "value", chunk(&c), || {
            words(&match c.value() {
                RichtextChunkValue::Text(r) => [0, r.start.into(), r.end.into()],
                RichtextChunkValue::StyleAnchor { id, anchor_type } => {
                    [1, id.into(), anchor(anchor_type)]
                }
                RichtextChunkValue::Unknown(n) => [2, n.into(), 0],
                RichtextChunkValue::MoveAnchor => [3, 0, 0],
            })
        });
    }

    pub(super) fn chunk_can_merge(&mut self, a: RichtextChunk, b: RichtextChunk) {
        self.call(8, "chunk_can_merge", chunk(&a) + &chunk(&b), || {
            words(&[a.can_merge(&b).into()])
        });
    }

    pub(super) fn chunk_merge_right(&mut self, a: RichtextChunk, b: RichtextChunk) {
        self.call(9, "chunk_merge_right", chunk(&a) + &chunk(&b), || {
            let mut a = a;
            a.merge_right(&b);
            chunk(&a)
        });
    }

    pub(super) fn chunk_merge_left(&mut self, b: RichtextChunk, a: RichtextChunk) {
        self.call(10, "chunk_merge_left", chunk(&b) + &chunk(&a), || {
            let mut b = b;
            b.merge_left(&a);
            chunk(&b)
        });
    }

    pub(super) fn chunk_slice(&mut self, c: RichtextChunk, from: u32, to: u32) {
        self.call(
            11,
            "chunk_slice",
            chunk(&c) + &words(&[from.into(), to.into()]),
            || chunk(&c._slice(from as usize..to as usize)),
        );
    }

    // Statuses.

    pub(super) fn status_is_activated(&mut self, s: Status) {
        self.call(12, "status_is_activated", status(s), || {
            words(&[s.is_activated().into()])
        });
    }

    pub(super) fn status_same(&mut self, a: Status, b: Status) {
        self.call(13, "status_same", status(a) + &status(b), || {
            words(&[(a == b).into()])
        });
    }

    // Spans.

    pub(super) fn new_span(&mut self, id: IdFull, c: RichtextChunk) {
        let arguments = words(&[id.peer.into(), id.counter.into(), id.lamport.into()]) + &chunk(&c);
        self.call(14, "new", arguments, || span(&FugueSpan::new(id, c)));
    }

    pub(super) fn id_span(&mut self, s: FugueSpan) {
        self.call(15, "id_span", span(&s), || {
            let i = s.id_span();
            words(&[i.peer.into(), i.counter.start.into(), i.counter.end.into()])
        });
    }

    pub(super) fn rle_len(&mut self, s: FugueSpan) {
        self.call(16, "rle_len", span(&s), || words(&[s.rle_len() as i128]));
    }

    pub(super) fn slice(&mut self, s: FugueSpan, from: u32, to: u32) {
        self.call(
            17,
            "slice",
            span(&s) + &words(&[from.into(), to.into()]),
            || span(&s._slice(from as usize..to as usize)),
        );
    }

    pub(super) fn can_merge(&mut self, a: FugueSpan, b: FugueSpan) {
        self.call(18, "can_merge", span(&a) + &span(&b), || {
            words(&[a.can_merge(&b).into()])
        });
    }

    pub(super) fn merge_right(&mut self, a: FugueSpan, b: FugueSpan) {
        self.call(19, "merge_right", span(&a) + &span(&b), || {
            let mut a = a;
            a.merge_right(&b);
            span(&a)
        });
    }

    pub(super) fn merge_left(&mut self, b: FugueSpan, a: FugueSpan) {
        self.call(20, "merge_left", span(&b) + &span(&a), || {
            let mut b = b;
            b.merge_left(&a);
            span(&b)
        });
    }

    pub(super) fn diff(&mut self, s: FugueSpan) {
        self.call(21, "diff", span(&s), || {
            words(&[match s.diff() {
                DiffStatus::NotChanged => 0,
                DiffStatus::Created => 1,
                DiffStatus::Deleted => 2,
            }])
        });
    }

    pub(super) fn is_activated(&mut self, s: FugueSpan) {
        self.call(22, "is_activated", span(&s), || {
            words(&[s.is_activated().into()])
        });
    }

    pub(super) fn is_activated_in_diff(&mut self, s: FugueSpan) {
        self.call(23, "is_activated_in_diff", span(&s), || {
            words(&[s.is_activated_in_diff().into()])
        });
    }

    pub(super) fn real_id(&mut self, s: FugueSpan) {
        self.call(24, "real_id", span(&s), || {
            let i = s.real_id();
            words(&[i.peer.into(), i.counter.into()])
        });
    }

    pub(super) fn activated_len(&mut self, s: FugueSpan) {
        self.call(25, "activated_len", span(&s), || {
            words(&[s.activated_len() as i128])
        });
    }

    pub(super) fn can_remove(&mut self, s: FugueSpan) {
        self.call(26, "can_remove", span(&s), || {
            words(&[s.can_remove().into()])
        });
    }

    pub(super) fn id_start(&mut self, s: FugueSpan) {
        self.call(27, "id_start", span(&s), || {
            let i = s.id_start();
            words(&[i.peer.into(), i.counter.into()])
        });
    }

    pub(super) fn status_default(&mut self) {
        self.call(28, "status_default", String::new(), || {
            status(Status::default())
        });
    }
}
