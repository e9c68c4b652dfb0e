//! Every call at both ends of each range that document 01 accepts.
use super::fugue_span::{FugueSpan, RichtextChunk, Status};
use super::inputs::{accepted, cut, id, near, next, ranges, sums, COUNTER_END, TEXT_END};
use super::list::List;
use super::tracker::UNKNOWN_PEER_ID;
use super::AnchorType;
use generic_btree::rle::Mergeable;
use loro_common::IdFull;
use std::io::Write;

const TEXTS: [(u32, u32); 8] = [
    (0, 1),
    (0, 2),
    (1, 2),
    (0, COUNTER_END),
    (COUNTER_END, TEXT_END),
    (0, TEXT_END),
    (TEXT_END - 2, TEXT_END),
    (TEXT_END - 1, TEXT_END),
];
const UNKNOWNS: [u32; 6] = [1, 2, COUNTER_END, COUNTER_END + 1, u32::MAX - 1, u32::MAX];
const INDEXES: [u32; 5] = [0, 1, TEXT_END, u32::MAX - 1, u32::MAX];
const TIMES: [i16; 5] = [i16::MIN, -1, 0, 1, i16::MAX];

fn chunks() -> Vec<RichtextChunk> {
    let mut all: Vec<_> = TEXTS
        .iter()
        .map(|(a, b)| RichtextChunk::new_text(*a..*b))
        .collect();
    all.extend(UNKNOWNS.map(RichtextChunk::new_unknown));
    all.extend([0, u32::MAX].map(|i| RichtextChunk::new_style_anchor(i, AnchorType::Start)));
    all.extend([1, TEXT_END].map(|i| RichtextChunk::new_style_anchor(i, AnchorType::End)));
    all.push(RichtextChunk::new_move());
    all
}

fn statuses() -> Vec<Status> {
    [false, true]
        .iter()
        .flat_map(|f| {
            TIMES.map(|delete_times| Status {
                future: *f,
                delete_times,
            })
        })
        .collect()
}

/// A fresh span of each chunk that a span can have, at the low and the high end of ids and lamports, and of the unknown peer.
fn spans() -> Vec<FugueSpan> {
    let mut all = vec![];
    for c in chunks()
        .into_iter()
        .filter(|c| c.len() <= COUNTER_END as usize)
    {
        let len = c.len() as u32;
        let high = ((COUNTER_END - len) as i32, u32::MAX - len);
        for (peer, (counter, lamport)) in
            [(0, (0, 0)), (u64::MAX - 1, high), (UNKNOWN_PEER_ID, (0, 0))]
        {
            all.push(FugueSpan::new(IdFull::new(peer, counter, lamport), c));
        }
    }
    all
}

/// Spans to cut: text and unknown, with and without real id, diff_status and origins, in the midst and at the high end.
fn wholes() -> Vec<FugueSpan> {
    let text = FugueSpan::new(IdFull::new(1, 10, 20), RichtextChunk::new_text(5..9));
    let high = FugueSpan::new(
        IdFull::new(u64::MAX - 1, COUNTER_END as i32 - 3, u32::MAX - 3),
        RichtextChunk::new_text(TEXT_END - 3..TEXT_END),
    );
    let unknown = FugueSpan::new(
        IdFull::new(UNKNOWN_PEER_ID, 0, 0),
        RichtextChunk::new_unknown(3),
    );
    vec![
        text,
        FugueSpan {
            real_id: id(9, 40),
            origin_left: id(2, 3),
            origin_right: id(3, 0),
            ..text
        },
        FugueSpan {
            diff_status: Some(Status {
                future: true,
                delete_times: 2,
            }),
            ..unknown
        },
        // The real ids end one short of the end: past that the Rust's can_merge panics.
        FugueSpan {
            real_id: id(u64::MAX - 1, COUNTER_END as i32 - 4),
            ..high
        },
        FugueSpan {
            real_id: id(9, 0),
            ..unknown
        },
    ]
}

fn on_chunks<W: Write>(list: &mut List<W>) {
    TEXTS.iter().for_each(|(a, b)| list.new_text(*a, *b));
    for i in INDEXES {
        list.new_style_anchor(i, AnchorType::Start);
        list.new_style_anchor(i, AnchorType::End);
    }
    UNKNOWNS.iter().for_each(|n| list.new_unknown(*n));
    list.new_move();
    for a in chunks() {
        list.kind(a);
        list.len(a);
        list.value(a);
        ranges(a.len() as u32)
            .iter()
            .for_each(|(from, to)| list.chunk_slice(a, *from, *to));
        for b in chunks().into_iter().filter(|b| sums(&a, b)) {
            list.chunk_can_merge(a, b);
            if a.can_merge(&b) {
                list.chunk_merge_right(a, b);
                list.chunk_merge_left(b, a);
            }
        }
    }
}

fn on_statuses<W: Write>(list: &mut List<W>) {
    let text = FugueSpan::new(IdFull::new(1, 0, 0), RichtextChunk::new_text(5..9));
    list.status_default();
    for a in statuses() {
        list.status_is_activated(a);
        statuses().iter().for_each(|b| list.status_same(a, *b));
        let s = FugueSpan { status: a, ..text };
        list.is_activated(s);
        list.activated_len(s);
        for diff_status in [None].into_iter().chain(statuses().into_iter().map(Some)) {
            let s = FugueSpan { diff_status, ..s };
            list.diff(s);
            list.is_activated_in_diff(s);
        }
    }
}

fn on_spans<W: Write>(list: &mut List<W>) {
    for s in spans().into_iter().filter(accepted) {
        list.new_span(s.id, s.content);
        list.rle_len(s);
        list.id_span(s);
        list.id_start(s);
        list.can_remove(s);
        list.activated_len(s);
        list.real_id(s);
        list.real_id(FugueSpan {
            real_id: id(7, (COUNTER_END - s.content.len() as u32) as i32),
            ..s
        });
        ranges(s.content.len() as u32)
            .iter()
            .for_each(|(from, to)| list.slice(s, *from, *to));
    }
    // Each pair of chunks, in spans of which the second runs on from the first.
    for c in chunks()
        .into_iter()
        .filter(|c| c.len() < COUNTER_END as usize)
    {
        let a = FugueSpan::new(IdFull::new(1, 0, 0), c);
        for b in chunks().into_iter().map(|d| next(&a, d)).filter(accepted) {
            list.can_merge(a, b);
            if a.can_merge(&b) {
                list.merge_right(a, b);
                list.merge_left(b, a);
            }
        }
    }
    for s in wholes() {
        for at in 1..s.content.len() as u32 {
            let (a, b) = cut(&s, at);
            list.slice(s, at, s.content.len() as u32);
            list.can_merge(a, b);
            list.merge_right(a, b);
            list.merge_left(b, a);
        }
        let (a, b) = cut(&s, 1);
        near(&b).into_iter().for_each(|b| list.can_merge(a, b));
        near(&a).into_iter().for_each(|a| list.can_merge(a, b));
    }
}

pub fn write<W: Write>(list: &mut List<W>) {
    on_chunks(list);
    on_statuses(list);
    on_spans(list);
}
