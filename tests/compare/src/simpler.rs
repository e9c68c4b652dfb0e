//! Scripts made smaller: by dropping a call, then by making a number in one smaller.

/// The calls without one of them but the first, then with one of them simpler. `read` reads a call from its line.
pub fn smaller<C: Clone>(calls: &[C], line: impl Fn(&C) -> String, read: impl Fn(&str) -> Option<C>) -> Vec<Vec<C>> {
    let mut out = Vec::new();
    for i in (1..calls.len()).rev() {
        let mut less = calls.to_vec();
        less.remove(i);
        out.push(less);
    }
    for (i, call) in calls.iter().enumerate() {
        for simple in simpler(&line(call)).iter().filter_map(|l| read(l)) {
            let mut less = calls.to_vec();
            less[i] = simple;
            out.push(less);
        }
    }
    out
}

/// The line with a chunk of one unit, or with one number smaller.
fn simpler(line: &str) -> Vec<String> {
    let words: Vec<String> = line.split(' ').map(String::from).collect();
    let mut out = Vec::new();
    if let Some(at) = words.iter().position(|w| ["text", "unknown", "start", "end", "move", "raw"].contains(&w.as_str())) {
        out.push(words[..at].join(" ") + " text 0 1");
    }
    for (i, word) in words.iter().enumerate() {
        let Ok(n) = word.parse::<i128>() else { continue };
        for less in [0, n / 2, n - 1] {
            let mut words = words.clone();
            words[i] = less.to_string();
            out.push(words.join(" "));
        }
    }
    // smaller or shorter, never the same: or the shrinking would not end
    out.retain(|l| (l.len(), l.as_str()) < (line.len(), line));
    out
}
