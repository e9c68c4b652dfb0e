//! The one place where the lane program's words and the drivers' values meet: calls as lines of docs/SCRIPT.md, answers read back.
use model01::*;

/// A call as the lane program reads it. The drivers' words are the same, but for chunks that none of them name.
pub fn line(call: &Call) -> String {
    match call {
        Call::Insert { pos, peer, ctr, lam, chunk: (MOVE_ANCHOR, b) } if *b != MOVE_ANCHOR => {
            format!("insert {pos} {} {ctr} {lam} raw {MOVE_ANCHOR} {b}", show_peer(*peer))
        }
        _ => show_call(call),
    }
}

/// The call that a line is.
pub fn call(line: &str) -> Result<Call, String> {
    parse(&line.replace(" raw ", " text "))
}

/// An item of a visible list: its id and its chunk of one unit.
pub type Item = (Id, (u32, u32));

/// A list that the lane program printed.
pub fn list(said: &[String]) -> Option<Vec<Item>> {
    let item = |l: &String| match l.split(' ').collect::<Vec<_>>()[..] {
        ["item", i, ref rest @ ..] => Some((id(i)?, chunk(rest)?)),
        _ => None,
    };
    said[0].starts_with("list ").then(|| said[1..].iter().map(item).collect())?
}

/// What the lane program answered. A refusal is `Refused`; an answer that is not formed as SCRIPT.md says is an error.
pub fn read(said: &[String]) -> Result<Answer, String> {
    answer(said).ok_or_else(|| said.join("\n"))
}

fn answer(said: &[String]) -> Option<Answer> {
    let head: Vec<&str> = said[0].split(' ').collect();
    let rest = || said[1..].iter().map(|l| l.split(' ').collect::<Vec<_>>());
    Some(match head[..] {
        ["ok"] => Answer::Ok,
        ["no", n] => Answer::Refused(n.parse().ok()?),
        ["len", n] => Answer::Len(n.parse().ok()?),
        ["at", "nothing"] => Answer::At(None),
        ["at", i, left] => Answer::At(Some((id(i)?, left.parse().ok()?))),
        ["units", _] => Answer::Units(rest().map(|w| unit(&w[1..])).collect::<Option<_>>()?),
        ["pieces", _] => Answer::Pieces(rest().map(|w| piece(&w)).collect::<Option<_>>()?),
        ["spans", _] => Answer::Spans(rest().map(|w| piece(&w)).collect::<Option<_>>()?),
        ["entries", _] => Answer::Entries(rest().map(|w| entry(&w)).collect::<Option<_>>()?),
        _ => return None,
    })
}

fn id(word: &str) -> Option<Id> {
    let (peer, counter) = word.split_once('.')?;
    let peer = if peer == "U" { UNKNOWN_PEER } else { peer.parse().ok()? };
    Some((peer, counter.parse().ok()?))
}

fn maybe<T>(word: &str, read: impl Fn(&str) -> Option<T>) -> Option<Option<T>> {
    if word == "-" {
        Some(None)
    } else {
        read(word).map(Some)
    }
}

fn status(word: &str) -> Option<(bool, i16)> {
    let (when, count) = word.split_once(':')?;
    let future = match when {
        "future" => true,
        "now" => false,
        _ => return None,
    };
    Some((future, count.parse().ok()?))
}

/// A chunk that 01 takes.
fn chunk(words: &[&str]) -> Option<(u32, u32)> {
    let pair = match words {
        ["text", a, b] => (a.parse().ok()?, b.parse().ok()?),
        ["unknown", n] => (UNKNOWN, n.parse().ok()?),
        ["start", i] => (START_STYLE_ANCHOR, i.parse().ok()?),
        ["end", i] => (END_STYLE_ANCHOR, i.parse().ok()?),
        ["move"] => (MOVE_ANCHOR, MOVE_ANCHOR),
        _ => return None,
    };
    chunk_len(pair).map(|_| pair)
}

fn unit(words: &[&str]) -> Option<Unit> {
    let [own, lamport, real, now, diff, left, right, rest @ ..] = words else {
        return None;
    };
    Some(Unit {
        id: id(own)?,
        lamport: lamport.parse().ok()?,
        real: maybe(real, id)?,
        status: status(now)?,
        diff: maybe(diff, status)?,
        ol: maybe(left, id)?,
        or: maybe(right, id)?,
        chunk: chunk(rest)?,
    })
}

/// A span with its length, where the length is the chunk's and every unit's numbers are within range.
fn piece(words: &[&str]) -> Option<(Unit, usize)> {
    let (span, len): (Unit, u32) = (unit(&words[2..])?, words[1].parse().ok()?);
    let fits = |id: Id| id.1 >= 0 && id.1 as i64 + len as i64 <= i32::MAX as i64;
    let whole =
        chunk_len(span.chunk) == Some(len) && fits(span.id) && span.real.is_none_or(fits) && span.lamport.checked_add(len).is_some();
    whole.then_some((span, len as usize))
}

fn entry(words: &[&str]) -> Option<Entry> {
    Some(match words {
        ["retain", n] => Entry::Retain(n.parse().ok()?),
        ["delete", n] => Entry::Delete(n.parse().ok()?),
        ["insert", i, lamport, rest @ ..] => {
            Entry::Insert { chunk: chunk(rest)?, id: id(i)?, lamport: maybe(lamport, |l| l.parse().ok())? }
        }
        _ => return None,
    })
}
