//! The comparison with another program.

use std::io::{self, Write};
use std::process::{Command, Output, Stdio};

use crate::gen::Kind;
use crate::octets::hex;
use crate::reach::Reach;
use crate::rules::script::records;
use crate::runs::{first_difference, play_and_count, Runs};

/// The script at which the programs part, and what to tell of it.
pub struct Failure {
    pub script: Vec<u8>,
    pub lines: Vec<String>,
}

/// Compares every line with the program's up to the first script at which something is wrong, and sums up.
pub fn compare(runs: &Runs, program: &str, reach: &mut Reach) -> Result<String, Failure> {
    let (mut scripts, mut calls) = (0, 0);
    for (seed, kind, script) in runs.scripts() {
        let ours = play_and_count(&script, kind, reach);
        let lines = faults(program, (seed, kind, &script), &ours);
        if !lines.is_empty() {
            return Err(Failure { script, lines });
        }
        scripts += 1;
        calls += ours.len();
    }
    Ok(format!("compared {scripts} scripts, {calls} calls, 0 differences"))
}

/// What is wrong with the program's run on a script, whose lines here are `ours`.
fn faults(program: &str, (seed, kind, script): (u64, Kind, &[u8]), ours: &[String]) -> Vec<String> {
    let place = format!("seed {seed} kind {}", kind.name());
    let output = match run(program, script) {
        Ok(output) => output,
        Err(e) => return vec![format!("{place}: {program} can't be run: {e}")],
    };
    let text = String::from_utf8_lossy(&output.stdout);
    let theirs: Vec<String> = text.split_terminator('\n').map(str::to_string).collect();
    let mut faults = Vec::new();
    if let Some(at) = first_difference(ours, &theirs) {
        let record = records(script).get(at).map_or(String::new(), |record| hex(record));
        let line = |lines: &[String]| lines.get(at).cloned().unwrap_or_default();
        faults.push(format!("{place} record {}", at + 1));
        faults.push(format!("record {record}"));
        faults.push(format!("ours   {}", line(ours)));
        faults.push(format!("theirs {}", line(&theirs)));
    }
    if !text.is_empty() && !text.ends_with('\n') {
        faults.push(format!("{place}: the last line isn't ended"));
    }
    if !output.status.success() {
        faults.push(format!("{place}: {program} ended with {}", output.status));
    }
    faults
}

/// Runs another program on a script.
fn run(program: &str, script: &[u8]) -> io::Result<Output> {
    let mut child = Command::new(program).stdin(Stdio::piped()).stdout(Stdio::piped()).stderr(Stdio::null()).spawn()?;
    let mut input = child.stdin.take().expect("standard input is piped");
    std::thread::scope(|scope| {
        // A program that ends early closes its input; its output and exit status tell then.
        scope.spawn(move || drop(input.write_all(script)));
        child.wait_with_output()
    })
}
