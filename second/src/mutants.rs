//! The rules turned wrong one at a time, to show that a comparison would notice.
//!
//! `copy` is made by mutants/build.rs from `rules` and the tables in mutants/.

use std::cell::Cell;

use crate::gen::Kind;
use crate::rules::script::play;
use crate::runs::{first_difference, Runs};

#[allow(unused, clippy::all)]
mod copy {
    include!(concat!(env!("OUT_DIR"), "/copy.rs"));
}

pub use copy::ALL;

thread_local! {
    static WRONG: Cell<Option<usize>> = const { Cell::new(None) };
}

/// The number of the wrong rule that the copy goes by in this thread.
fn wrong() -> Option<usize> {
    WRONG.get()
}

/// The lines that the copy prints, with the rule of this number wrong.
pub fn play_copy(script: &[u8], wrong: Option<usize>) -> Vec<String> {
    WRONG.set(wrong);
    copy::script::play(script)
}

/// Seed, kind and record by which a wrong rule was first noticed.
type Noticed = (u64, Kind, usize);

/// Plays each script with each wrong rule until some line differs.
pub fn try_all(runs: &Runs) -> Vec<Option<Noticed>> {
    let mut noticed = vec![None; ALL.len()];
    for (seed, kind, script) in runs.scripts() {
        let right = play(&script);
        for (wrong, place) in noticed.iter_mut().enumerate().filter(|(_, place)| place.is_none()) {
            let lines = play_copy(&script, Some(wrong));
            *place = first_difference(&right, &lines).map(|at| (seed, kind, at + 1));
        }
        if noticed.iter().all(Option::is_some) {
            break;
        }
    }
    noticed
}

/// A line for each wrong rule and the sum.
pub fn told(noticed: &[Option<Noticed>]) -> Vec<String> {
    let line = |((name, text), place): (&(&str, &str), &Option<Noticed>)| match place {
        Some((seed, kind, record)) => {
            format!("noticed {name}: {text}, seed {seed} {} record {record}", kind.name())
        }
        None => format!("MISSED {name}: {text}"),
    };
    let mut lines: Vec<String> = ALL.iter().zip(noticed).map(line).collect();
    let missed = noticed.iter().filter(|place| place.is_none()).count();
    lines.push(format!("{} wrong rules, {} noticed, {missed} missed", noticed.len(), noticed.len() - missed));
    lines
}
