//! Pretends to be the lane program: target/bin/lane's own answers with one fault in them, which `histories` must find.
use crate::lane::Lane;
use std::io::Read;

pub fn run(fault: &str) -> bool {
    assert!(["none", "dirty", "reads", "blind", "loose", "lasting", "deaf"].contains(&fault), "no such fault");
    let mut script = String::new();
    std::io::stdin().read_to_string(&mut script).expect("the script is read");
    let run = Lane::named("target/damaged/spoilt", "target/bin/lane").run(script.as_bytes());
    // bytes that a call wrote and should not have, and whether 15 was given
    let (mut wrote, mut fifteen) = (0, false);
    for (line, mut said) in script.lines().zip(run.answers) {
        let word = line.split(' ').next().unwrap_or("");
        fifteen = fifteen || said[0] == "no 15";
        match fault {
            // a refused edit writes
            "dirty" if word == "ins" && said[0] == "no 8" => wrote += 1,
            "reads" if word == "dump" => wrote += 1,
            // one call does not ask 15
            "blind" if word == "len" && said[0] == "no 15" => said = vec!["len 0".into()],
            // no call asks 15
            "loose" if said[0] == "no 15" => said = vec!["no 8".into()],
            // 15 stays when the rows are written back
            "lasting" if fifteen && !["sum", "row", "rows", "new", "out"].contains(&word) && said[0] != "error" => {
                said = vec!["no 15".into()]
            }
            "deaf" if word == "at" => continue,
            _ => {}
        }
        if word == "sum" && wrote > 0 {
            said[0].push_str(&wrote.to_string());
        }
        said.iter().for_each(|l| println!("{l}"));
    }
    run.fault.is_none()
}
