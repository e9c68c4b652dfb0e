//! Runs the lane program on a script and groups what it prints into answers, as docs/SCRIPT.md says them.
//! `LANE` names the program and its arguments; it is `target/bin/lane` where nothing is said.
use std::fs::File;
use std::path::PathBuf;
use std::process::{Command, Stdio};
use std::time::{Duration, Instant};

/// Whether a line's call is not among those that `WITHOUT` leaves out, for a program that does not have them yet.
pub fn has(line: &str) -> bool {
    let word = line.split(' ').next().unwrap_or("");
    std::env::var("WITHOUT").map_or(true, |out| !out.split(',').any(|w| w == word))
}

/// An answer: its first line and the lines that the first line announces.
pub type Said = Vec<String>;

pub struct Lane {
    command: Vec<String>,
    /// Where the script and what the program prints are kept: a folder of this process, so that two runs may go on side by side.
    dir: PathBuf,
    limit: Duration,
}

pub struct Run {
    pub answers: Vec<Said>,
    /// How the program ended, and whether its answers were formed as they must be; `None` where all is well.
    pub fault: Option<String>,
}

impl Lane {
    pub fn new(dir: &str) -> Lane {
        Lane::named(dir, &std::env::var("LANE").unwrap_or_else(|_| "target/bin/lane".into()))
    }

    pub fn named(dir: &str, command: &str) -> Lane {
        let dir = PathBuf::from(dir).join(std::process::id().to_string());
        Lane { command: command.split_whitespace().map(String::from).collect(), dir, limit: Duration::from_secs(300) }
    }

    pub fn run(&self, script: &[u8]) -> Run {
        std::fs::create_dir_all(&self.dir).expect("the folder for the runs is made");
        let path = |name: &str| self.dir.join(name);
        std::fs::write(path("script"), script).expect("the script is written");
        let open = |name: &str| File::create(path(name)).expect("an output is opened");
        let mut child = Command::new(&self.command[0])
            .args(&self.command[1..])
            .stdin(File::open(path("script")).expect("the script is opened"))
            .stdout(Stdio::from(open("answers")))
            .stderr(Stdio::from(open("complaints")))
            .spawn()
            .unwrap_or_else(|e| panic!("{} does not start: {e}", self.command.join(" ")));
        let began = Instant::now();
        let mut fault = loop {
            match child.try_wait().expect("the program is waited for") {
                Some(status) if status.success() => break None,
                Some(status) => break Some(format!("the program ended with {status}")),
                None if began.elapsed() > self.limit => {
                    child.kill().expect("the program is stopped");
                    child.wait().expect("the program is waited for");
                    break Some(format!("the program did not end within {:?}", self.limit));
                }
                None => std::thread::sleep(Duration::from_millis(2)),
            }
        };
        let complaints = std::fs::read(path("complaints")).expect("the complaints are read");
        if fault.is_none() && !complaints.is_empty() {
            fault = Some(format!("the program complained: {}", String::from_utf8_lossy(&complaints)));
        }
        let text = std::fs::read(path("answers")).expect("the answers are read");
        let (answers, broken) = group(&String::from_utf8_lossy(&text));
        Run { answers, fault: fault.or(broken) }
    }
}

impl Drop for Lane {
    fn drop(&mut self) {
        let _ = std::fs::remove_dir_all(&self.dir);
    }
}

/// The words that the lines after a first line begin with.
fn announced(head: &str) -> &'static [&'static str] {
    match head {
        "pieces" => &["piece"],
        "entries" => &["retain", "delete", "insert"],
        "units" => &["unit"],
        "spans" => &["span"],
        "list" => &["item"],
        _ => &[],
    }
}

/// The lines as answers, and what is wrong with their form.
fn group(text: &str) -> (Vec<Said>, Option<String>) {
    let mut answers: Vec<Said> = Vec::new();
    let mut left = 0;
    for line in text.lines() {
        let word = line.split(' ').next().unwrap_or("");
        if left > 0 {
            let answer = answers.last_mut().expect("a first line stands before");
            if !announced(answer[0].split(' ').next().unwrap_or("")).contains(&word) {
                return (answers, Some(format!("`{line}` stands where {left} more lines were announced")));
            }
            answer.push(line.into());
            left -= 1;
            continue;
        }
        if !announced(word).is_empty() {
            match line.split_once(' ').and_then(|(_, n)| n.parse().ok()) {
                Some(n) => left = n,
                None => return (answers, Some(format!("`{line}` announces no number of lines"))),
            }
        } else if !["ok", "error", "no", "at", "len", "sum"].contains(&word) {
            return (answers, Some(format!("`{line}` is no answer")));
        }
        answers.push(vec![line.into()]);
    }
    let broken = (left > 0).then(|| format!("the answers end where {left} more lines were announced"));
    (answers, broken)
}
