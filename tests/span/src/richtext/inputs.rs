//! Inputs within document 01's domain: chunks as its constructors accept them, spans that break neither refusal 1 nor 2.
use super::fugue_span::{FugueSpan, RichtextChunk, RichtextChunkKind, Status};
use super::tracker::UNKNOWN_PEER_ID;
use super::AnchorType;
use generic_btree::rle::Sliceable;
use loro_common::{CompactId, IdFull, ID};

/// The largest end of a text.
pub const TEXT_END: u32 = 4_294_967_292;
/// The largest end of a span's counters.
pub const COUNTER_END: u32 = 2_147_483_647;

pub fn id(peer: u64, counter: i32) -> Option<CompactId> {
    Some(ID::new(peer, counter).try_into().expect("an id"))
}

pub fn is_unknown(c: &RichtextChunk) -> bool {
    c.kind() == RichtextChunkKind::Unknown
}

/// Whether two unknown chunks have lengths that sum within u32, as 01 asks of a join; the Rust's `can_merge` does not ask it.
pub fn sums(a: &RichtextChunk, b: &RichtextChunk) -> bool {
    !(is_unknown(a) && is_unknown(b)) || a.len() + b.len() <= u32::MAX as usize
}

/// Whether 01 takes the span: refusal 2 of its own id, lamport and real id. (Its chunk is made formed, so refusal 1 does not arise.)
pub(super) fn accepted(s: &FugueSpan) -> bool {
    let len = s.content.len() as i64;
    let fits = |counter: i32| counter >= 0 && i64::from(counter) + len <= i64::from(COUNTER_END);
    fits(s.id.counter)
        && i64::from(s.id.lamport) + len <= i64::from(u32::MAX)
        && s.real_id
            .map_or(true, |r| r.peer != UNKNOWN_PEER_ID && fits(r.counter.get()))
}

/// The ranges to slice a piece of this length by: whole, first, last, all but one, a middle.
pub fn ranges(len: u32) -> Vec<(u32, u32)> {
    let mut all = vec![
        (0, len),
        (0, 1),
        (len - 1, len),
        (0, len - 1),
        (1, len),
        (len / 3, len / 2 + 1),
    ];
    all.retain(|(from, to)| from < to && *to <= len);
    all.sort();
    all.dedup();
    all
}

/// The span in two parts at `at`: neighbours that join, where the chunk has no anchor.
pub(super) fn cut(s: &FugueSpan, at: u32) -> (FugueSpan, FugueSpan) {
    (
        s._slice(0..at as usize),
        s._slice(at as usize..s.content.len()),
    )
}

/// What runs on from the span, with another chunk.
pub(super) fn next(s: &FugueSpan, content: RichtextChunk) -> FugueSpan {
    let len = s.content.len() as i32;
    FugueSpan {
        id: s.id.inc(len),
        real_id: s.real_id.map(|r| r.inc(len)),
        origin_left: id(s.id.peer, s.id.counter + len - 1),
        content,
        ..*s
    }
}

fn near_ids(i: Option<CompactId>) -> Vec<Option<CompactId>> {
    match i {
        None => vec![id(0, 0), id(1, -1), id(UNKNOWN_PEER_ID, 2_147_483_646)],
        Some(i) => {
            let counter = i.counter.get();
            let mut near = vec![None, id(i.peer ^ 1, counter)];
            near.extend(counter.checked_sub(1).map(|c| id(i.peer, c)));
            near.extend((counter < 2_147_483_646).then(|| id(i.peer, counter + 1)));
            near
        }
    }
}

fn near_statuses(s: Status) -> Vec<Status> {
    let mut near = vec![Status {
        future: !s.future,
        ..s
    }];
    near.extend(
        s.delete_times
            .checked_add(1)
            .map(|delete_times| Status { delete_times, ..s }),
    );
    near.extend(
        s.delete_times
            .checked_sub(1)
            .map(|delete_times| Status { delete_times, ..s }),
    );
    near
}

/// Chunks of the same length, or one more or less, that differ in one thing.
fn near_chunks(c: &RichtextChunk) -> Vec<RichtextChunk> {
    let len = c.len() as u32;
    let mut near = vec![
        RichtextChunk::new_unknown(len),
        RichtextChunk::new_text(0..len),
    ];
    if len == 1 {
        near.extend([
            RichtextChunk::new_move(),
            RichtextChunk::new_style_anchor(7, AnchorType::Start),
            RichtextChunk::new_style_anchor(7, AnchorType::End),
        ]);
    }
    if let super::fugue_span::RichtextChunkValue::Text(r) = c.value() {
        near.extend((r.end < TEXT_END).then(|| RichtextChunk::new_text(r.start + 1..r.end + 1)));
        near.extend((r.end < TEXT_END).then(|| RichtextChunk::new_text(r.start..r.end + 1)));
        near.extend((r.start > 0).then(|| RichtextChunk::new_text(r.start - 1..r.end - 1)));
        near.extend((len > 1).then(|| RichtextChunk::new_text(r.start..r.end - 1)));
    }
    near.retain(|d| d != c);
    near
}

/// The spans that differ from this one in one thing, as far as 01 takes them.
pub(super) fn near(s: &FugueSpan) -> Vec<FugueSpan> {
    let s = *s;
    let mut all = vec![FugueSpan {
        id: IdFull {
            peer: s.id.peer ^ 1,
            ..s.id
        },
        ..s
    }];
    for counter in [s.id.counter.checked_sub(1), s.id.counter.checked_add(1)]
        .into_iter()
        .flatten()
    {
        all.push(FugueSpan {
            id: IdFull { counter, ..s.id },
            ..s
        });
    }
    for lamport in [s.id.lamport.checked_sub(1), s.id.lamport.checked_add(1)]
        .into_iter()
        .flatten()
    {
        all.push(FugueSpan {
            id: IdFull { lamport, ..s.id },
            ..s
        });
    }
    all.extend(
        near_ids(s.real_id)
            .into_iter()
            .map(|real_id| FugueSpan { real_id, ..s }),
    );
    all.extend(
        near_statuses(s.status)
            .into_iter()
            .map(|status| FugueSpan { status, ..s }),
    );
    match s.diff_status {
        None => all.push(FugueSpan {
            diff_status: Some(s.status),
            ..s
        }),
        Some(d) => {
            all.push(FugueSpan {
                diff_status: None,
                ..s
            });
            all.extend(near_statuses(d).into_iter().map(|d| FugueSpan {
                diff_status: Some(d),
                ..s
            }));
        }
    }
    all.extend(
        near_ids(s.origin_left)
            .into_iter()
            .map(|origin_left| FugueSpan { origin_left, ..s }),
    );
    all.extend(
        near_ids(s.origin_right)
            .into_iter()
            .map(|origin_right| FugueSpan { origin_right, ..s }),
    );
    all.extend(
        near_chunks(&s.content)
            .into_iter()
            .map(|content| FugueSpan { content, ..s }),
    );
    all.retain(accepted);
    all
}
