//! Finds the first case in which the program `replay` says something else than the crate, and shows both sides number by number.
use crate::generator::tail;
use crate::sets::{run, SETS};
use crate::stream::Stream;
use std::io::Write;
use std::process::{Command, Stdio};

/// What `replay` prints when it is asked by ten bytes on its standard input: 1 for the digest after each case of a set, 2 for every
/// number that goes into it; the set; the first case and the one after the last.
fn ask(program: &str, what: u8, set: usize, from: u32, to: u32) -> Vec<u32> {
    let mut child = Command::new(program)
        .stdin(Stdio::piped())
        .stdout(Stdio::piped())
        .spawn()
        .unwrap_or_else(|e| panic!("{program}: {e}"));
    let mut question = vec![what, set as u8];
    question.extend(from.to_be_bytes());
    question.extend(to.to_be_bytes());
    child.stdin.take().unwrap().write_all(&question).unwrap();
    let output = child.wait_with_output().unwrap();
    let text = String::from_utf8_lossy(&output.stdout);
    text.lines().filter_map(|line| line.parse().ok()).collect()
}

/// The numbers of a case by name, as the crate gives them.
pub fn rows(set: usize, case: u32) -> Vec<(String, u32)> {
    let mut s = Stream {
        digest: 0,
        shown: Some(vec![]),
    };
    run(set, case, &tail(), &mut s);
    s.shown.unwrap()
}

fn first_case(program: &str, set: usize) -> Option<u32> {
    let theirs = ask(program, 1, set, 0, SETS[set].cases);
    let bytes = tail();
    let mut s = Stream::default();
    (0..SETS[set].cases).find(|case| {
        run(set, *case, &bytes, &mut s);
        theirs.get(*case as usize) != Some(&s.digest)
    })
}

/// True where no set has a difference.
pub fn compare(program: &str) -> bool {
    for (set, described) in SETS.iter().enumerate() {
        let Some(case) = first_case(program, set) else {
            println!("{}: no case differs", described.name);
            continue;
        };
        println!("{}: case {case} differs", described.name);
        let theirs = ask(program, 2, set, case, case + 1);
        let ours = rows(set, case);
        for k in 0..ours.len().max(theirs.len()) {
            let (name, value) = ours
                .get(k)
                .map_or(("", "-".into()), |(name, value)| (name.as_str(), value.to_string()));
            let other = theirs.get(k).map_or("-".into(), u32::to_string);
            let mark = if value == other { "" } else { "   <-- differs" };
            println!("  {name}: the crate {value}, replay {other}{mark}");
        }
        return false;
    }
    true
}
