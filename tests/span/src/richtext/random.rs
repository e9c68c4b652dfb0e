//! Random calls from a seed; every number is drawn within what document 01 accepts, often at an end of its range.
use super::fugue_span::{FugueSpan, RichtextChunk, Status};
use super::inputs::{accepted, cut, id, near, sums, COUNTER_END, TEXT_END};
use super::list::List;
use super::tracker::UNKNOWN_PEER_ID;
use super::AnchorType;
use generic_btree::rle::Mergeable;
use loro_common::{CompactId, IdFull};
use std::io::Write;
use std::panic::{catch_unwind, AssertUnwindSafe};

/// splitmix64.
struct Random(u64);

impl Random {
    fn next(&mut self) -> u64 {
        self.0 = self.0.wrapping_add(0x9e37_79b9_7f4a_7c15);
        let mut z = self.0;
        z = (z ^ (z >> 30)).wrapping_mul(0xbf58_476d_1ce4_e5b9);
        z = (z ^ (z >> 27)).wrapping_mul(0x94d0_49bb_1331_11eb);
        z ^ (z >> 31)
    }

    fn below(&mut self, n: u64) -> u64 {
        self.next() % n
    }

    fn one_in(&mut self, n: u64) -> bool {
        self.below(n) == 0
    }

    /// A number from low to high: near an end, of a random size, or any.
    fn within(&mut self, low: i128, high: i128) -> i128 {
        let n = match self.below(5) {
            0 => low + i128::from(self.below(4)),
            1 => high - i128::from(self.below(4)),
            2 => low + i128::from(self.below(100)),
            3 => low + i128::from(self.next() >> self.below(64)),
            _ => low + i128::from(self.next()) % (high - low + 1),
        };
        n.clamp(low, high)
    }

    fn pick<T: Copy>(&mut self, from: &[T]) -> T {
        from[self.below(from.len() as u64) as usize]
    }

    fn anchor_type(&mut self) -> AnchorType {
        self.pick(&[AnchorType::Start, AnchorType::End])
    }

    fn text(&mut self, longest: u32) -> (u32, u32) {
        let len = self.within(1, longest.min(TEXT_END).into()) as u32;
        let start = self.within(0, (TEXT_END - len).into()) as u32;
        (start, start + len)
    }

    fn chunk(&mut self, longest: u32) -> RichtextChunk {
        match self.below(8) {
            0 => RichtextChunk::new_move(),
            1 => RichtextChunk::new_style_anchor(
                self.within(0, u32::MAX.into()) as u32,
                self.anchor_type(),
            ),
            2..=4 => RichtextChunk::new_unknown(self.within(1, longest.into()) as u32),
            _ => {
                let (start, end) = self.text(longest);
                RichtextChunk::new_text(start..end)
            }
        }
    }

    /// A chunk, and one that joins it on the right, where there is one.
    fn chunks(&mut self) -> (RichtextChunk, RichtextChunk) {
        if self.one_in(3) {
            return (self.chunk(u32::MAX), self.chunk(u32::MAX));
        }
        if self.one_in(2) {
            let a = self.within(1, i128::from(u32::MAX) - 1) as u32;
            let b = self.within(1, (u32::MAX - a).into()) as u32;
            return (RichtextChunk::new_unknown(a), RichtextChunk::new_unknown(b));
        }
        let (start, middle) = self.text(TEXT_END - 1);
        let end = self.within(0, TEXT_END.into()) as u32;
        let from = if self.one_in(4) {
            self.within(0, (TEXT_END - 1).into()) as u32
        } else {
            middle.min(TEXT_END - 1)
        };
        (
            RichtextChunk::new_text(start..middle),
            RichtextChunk::new_text(from..end.max(from + 1)),
        )
    }

    fn status(&mut self) -> Status {
        let delete_times = if self.one_in(2) {
            0
        } else {
            self.within(i16::MIN.into(), i16::MAX.into()) as i16
        };
        Status {
            future: self.one_in(3),
            delete_times,
        }
    }

    fn peer(&mut self) -> u64 {
        self.within(0, u64::MAX.into()) as u64
    }

    fn origin(&mut self) -> Option<CompactId> {
        if self.one_in(3) {
            return None;
        }
        id(
            self.peer(),
            self.within(i32::MIN.into(), i128::from(i32::MAX) - 1) as i32,
        )
    }

    fn full_id(&mut self, len: u32) -> IdFull {
        let counter = self.within(0, (COUNTER_END - len).into()) as i32;
        IdFull::new(
            self.peer(),
            counter,
            self.within(0, (u32::MAX - len).into()) as u32,
        )
    }

    fn span(&mut self) -> FugueSpan {
        let content = self.chunk(COUNTER_END);
        let len = content.len() as u32;
        let mut s = FugueSpan::new(self.full_id(len), content);
        match self.below(3) {
            0 => s.real_id = None,
            1 => {
                s.real_id = id(
                    self.peer().min(UNKNOWN_PEER_ID - 1),
                    self.within(0, (COUNTER_END - len).into()) as i32,
                )
            }
            _ => {}
        }
        s.status = self.status();
        s.diff_status = if self.one_in(2) {
            None
        } else {
            Some(self.status())
        };
        s.origin_left = self.origin();
        s.origin_right = self.origin();
        s
    }

    /// A range of a piece that is not empty.
    fn range(&mut self, len: u32) -> (u32, u32) {
        let from = self.within(0, i128::from(len) - 1) as u32;
        (from, self.within(i128::from(from) + 1, len.into()) as u32)
    }

    /// Two parts of one span, which join unless they are anchors, or the two with one thing changed.
    fn spans(&mut self) -> (FugueSpan, FugueSpan) {
        let s = self.span();
        let len = s.content.len() as u32;
        if len < 2 {
            return (s, self.span());
        }
        let (mut a, mut b) = cut(&s, self.within(1, i128::from(len) - 1) as u32);
        match self.below(5) {
            0 => a = self.pick(&near(&a)),
            1 | 2 => b = self.pick(&near(&b)),
            _ => {}
        }
        (a, b)
    }
}

/// Whether the Rust joins the two; where it panics, not.
fn joins(a: &FugueSpan, b: &FugueSpan) -> bool {
    catch_unwind(AssertUnwindSafe(|| a.can_merge(b))).unwrap_or(false)
}

fn on_chunks<W: Write>(list: &mut List<W>, r: &mut Random) {
    let c = r.chunk(u32::MAX);
    match r.below(11) {
        0 => {
            let (start, end) = r.text(TEXT_END);
            list.new_text(start, end);
        }
        1 => list.new_style_anchor(r.within(0, u32::MAX.into()) as u32, r.anchor_type()),
        2 => list.new_unknown(r.within(1, u32::MAX.into()) as u32),
        3 => list.kind(c),
        4 => list.len(c),
        5 => list.value(c),
        6 | 7 => {
            let (from, to) = r.range(c.len() as u32);
            list.chunk_slice(c, from, to);
        }
        _ => {
            let (a, b) = r.chunks();
            if !sums(&a, &b) {
                return;
            }
            list.chunk_can_merge(a, b);
            if a.can_merge(&b) {
                list.chunk_merge_right(a, b);
                list.chunk_merge_left(b, a);
            }
        }
    }
}

fn on_spans<W: Write>(list: &mut List<W>, r: &mut Random) {
    let s = r.span();
    assert!(accepted(&s));
    match r.below(18) {
        0 => list.new_span(s.id, s.content),
        1 => list.id_span(s),
        2 => list.rle_len(s),
        3 => list.diff(s),
        4 => list.is_activated(s),
        5 => list.is_activated_in_diff(s),
        6 => list.real_id(s),
        7 => list.activated_len(s),
        8 => list.id_start(s),
        9 => list.can_remove(s),
        10..=12 => {
            let (from, to) = r.range(s.content.len() as u32);
            list.slice(s, from, to);
        }
        _ => {
            let (a, b) = r.spans();
            list.can_merge(a, b);
            if joins(&a, &b) {
                list.merge_right(a, b);
                list.merge_left(b, a);
            }
        }
    }
}

pub fn write<W: Write>(list: &mut List<W>, seed: u64) {
    let mut r = Random(seed);
    while !list.is_full() {
        match r.below(24) {
            0 => list.status_is_activated(r.status()),
            1 => {
                let s = r.status();
                let t = if r.one_in(2) { s } else { r.status() };
                list.status_same(s, t);
            }
            2..=7 => on_chunks(list, &mut r),
            _ => on_spans(list, &mut r),
        }
    }
}
