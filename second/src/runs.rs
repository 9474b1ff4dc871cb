//! Many scripts: which ones, playing them for what they reach, and where two plays part.

use std::ops::Range;

use crate::gen::{generate, Kind};
use crate::reach::Reach;
use crate::rules::script::{play_watched, records};

/// Which scripts to play.
pub struct Runs {
    pub seeds: Range<u64>,
    pub calls: usize,
    pub kinds: Vec<Kind>,
    /// Records of these ops are left out of each script.
    pub without: Vec<u8>,
}

impl Runs {
    /// Seed, kind and script, the kinds taken in turn.
    pub fn scripts(&self) -> impl Iterator<Item = (u64, Kind, Vec<u8>)> + '_ {
        self.seeds.clone().map(|seed| {
            let kind = self.kinds[(seed % self.kinds.len() as u64) as usize];
            (seed, kind, self.kept(&generate(seed, self.calls, kind)))
        })
    }

    fn kept(&self, script: &[u8]) -> Vec<u8> {
        let all = records(script).into_iter();
        all.filter(|record| !self.without.contains(&record[0])).flatten().copied().collect()
    }

    /// Plays for the reach alone.
    pub fn reach(&self) -> Reach {
        let mut reach = Reach::default();
        for (_, kind, script) in self.scripts() {
            play_and_count(&script, kind, &mut reach);
        }
        reach
    }
}

pub fn play_and_count(script: &[u8], kind: Kind, reach: &mut Reach) -> Vec<String> {
    reach.begin(kind);
    play_watched(script, |before, call, line, after| reach.watch(before, call, line, after))
}

/// Where two plays of a script part: the line's place from 0.
pub fn first_difference(ours: &[String], theirs: &[String]) -> Option<usize> {
    (0..ours.len().max(theirs.len())).find(|&at| ours.get(at) != theirs.get(at))
}
