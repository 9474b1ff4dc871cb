//! Scenes around keys: ours, a peer's, and installation reports.

use super::draft::RawSet;
use super::Gen;
use crate::rules::keys::Report;
use crate::rules::table::Server;

impl Gen {
    pub(super) fn key_scene(&mut self) {
        match self.rng.below(100) {
            0..=24 => self.own_key(),
            25..=52 => self.peer_key(),
            53..=64 => self.take_over(),
            65..=72 => self.two_servers(),
            73..=79 => self.pause(),
            80..=84 => self.an_round(),
            85 | 86 => self.report_somehow(),
            87..=89 => self.dead_end(),
            90..=93 => self.relapse(),
            94..=96 => self.renew(),
            _ => {
                let time = self.any_time();
                self.distribute_somehow(time);
            }
        }
        self.look();
    }

    pub(super) fn distribute_somehow(&mut self, time: u64) {
        let length = match self.rng.below(10) {
            0 => self.rng.pick(&[0, 16, 23, 25, 32, 40]),
            _ => 24,
        };
        let wrapped = self.rng.octets(length);
        self.distribute(time, &wrapped);
    }

    /// Has flagged Live peers step back until we are elected.
    fn stand_down(&mut self) {
        if self.port().mn == 0 {
            let time = self.soon();
            self.send(time, 2_048);
        }
        let mut tries = 0;
        while let (Server::Peer(mi), true) = (self.port().server(), self.left > 0 && tries < 6) {
            tries += 1;
            let Some(i) = self.sim_of(mi) else {
                return;
            };
            match self.rng.below(3) {
                0 => self.sims[i].priority = 255,
                _ => self.sims[i].key_server = false,
            }
            let (time, last) = (self.soon(), self.port().mn);
            self.say(i, time, &[last], &[]);
        }
    }

    /// A peer that doesn't stand becomes Live and so sets the mark.
    fn supporter(&mut self, time: u64) {
        let i = self.add_sim();
        self.sims[i].key_server = self.rng.chance(10);
        let last = self.port().mn;
        self.say(i, time, &[last], &[]);
    }

    /// We are elected and distribute.
    fn own_key(&mut self) {
        self.stand_down();
        let time = self.soon();
        self.supporter(time);
        self.look();
        if self.rng.chance(30) {
            let time = self.soon();
            self.send(time, 2_048);
        }
        for _ in 0..self.rng.pick(&[1, 1, 2]) {
            let time = self.soon();
            self.distribute_somehow(time);
            self.look();
        }
        let time = self.soon();
        self.send_somehow(time);
        for _ in 0..self.rng.below(4) {
            self.report_somehow();
        }
        let time = self.soon();
        self.send_somehow(time);
    }

    /// Makes a peer the best candidate.
    fn lead(&mut self, i: usize) {
        let sim = &mut self.sims[i];
        sim.priority = 0;
        sim.sci = [0; 8];
        sim.key_server = true;
        self.make_live(i);
    }

    /// A Distributed SAK of a peer: new, or one that is to be ignored, or empty.
    fn sak_of(&mut self, i: usize) -> RawSet {
        let mi = self.sims[i].mi;
        let keys = &self.port().keys;
        let latest = keys.first().filter(|k| k.mi == mi).map(|k| k.kn);
        let old = keys.get(1).filter(|k| k.mi == mi).map(|k| k.kn);
        let length = self.rng.pick(&[28, 28, 36, 52]);
        let kn = match (self.rng.below(12), latest, old) {
            (0 | 1, Some(kn), _) => kn,
            (2, _, Some(kn)) => kn,
            (3, Some(kn), _) if kn > 1 => kn - 1,
            (4, _, Some(kn)) if kn > 1 => kn - 1,
            (5, ..) => return RawSet::sak(&mut self.rng, 0, 0),
            (8 | 9, None, _) if self.port().keys.is_empty() => return RawSet::sak(&mut self.rng, 0, 0),
            (6, ..) if self.rng.chance(10) => u32::MAX,
            (7, ..) => self.rng.range(1, 6) as u32,
            _ => {
                self.sims[i].kn += self.rng.pick(&[1, 1, 1, 3]);
                self.sims[i].kn
            }
        };
        RawSet::sak(&mut self.rng, length, kn)
    }

    /// An elected peer hands out keys.
    fn peer_key(&mut self) {
        let i = self.any_sim();
        self.lead(i);
        for _ in 0..2 + self.rng.below(5) {
            let set = self.sak_of(i);
            let (time, last) = (self.soon(), self.port().mn);
            let echo = if self.rng.chance(80) { vec![last] } else { vec![] };
            self.say(i, time, &echo, &[set]);
            if self.rng.chance(60) {
                self.report_somehow();
            }
            if self.rng.chance(35) {
                let time = self.soon();
                self.send_somehow(time);
            }
            self.look();
        }
    }

    /// A key in the very frame that makes its sender elected, or that ends it.
    fn take_over(&mut self) {
        let i = self.any_sim();
        let last = self.port().mn;
        match self.rng.below(6) {
            0 => {
                self.lead(i);
                self.sims[i].key_server = false;
                let time = self.soon();
                self.say(i, time, &[last], &[]);
                self.sims[i].key_server = true;
            }
            1 => {
                let sim = &mut self.sims[i];
                (sim.priority, sim.sci, sim.key_server) = (0, [0; 8], true);
                sim.mi = self.rng.array();
            }
            2 => {
                self.lead(i);
                self.sims[i].key_server = false;
            }
            3 => {
                self.lead(i);
                self.sims[i].priority = 255;
            }
            4 => {
                // Its proof is lost in this frame; a second one keeps the entry.
                self.lead(i);
                let proof = self.now();
                self.say(i, proof.saturating_add(3_000), &[], &[]);
                let set = self.sak_of(i);
                let gone = self.rng.pick(&[5_999, 6_000]);
                self.say(i, proof.saturating_add(gone), &[], &[set]);
                return;
            }
            _ => self.sims[i].key_server = self.rng.chance(50),
        }
        let set = self.sak_of(i);
        let (time, last) = (self.soon(), self.port().mn);
        let echo = if self.rng.chance(85) { vec![last] } else { vec![] };
        self.say(i, time, &echo, &[set]);
        self.sims[i].key_server = true;
        let time = self.soon();
        self.send_somehow(time);
    }

    /// Two peers hand out keys in turn, so that one's old key meets the other's latest.
    fn two_servers(&mut self) {
        let pair = [0; 2].map(|_| {
            let i = self.add_sim();
            self.sims[i].mi
        });
        for turn in 0..3 + self.rng.below(4) {
            let (Some(i), Some(other)) = (self.sim_of(pair[turn % 2]), self.sim_of(pair[(turn + 1) % 2]))
            else {
                return;
            };
            if turn > 0 {
                self.sims[other].key_server = false;
                let (time, last) = (self.soon(), self.port().mn);
                self.say(other, time, &[last], &[]);
            }
            self.lead(i);
            let kn = self.rng.range(1, 4) as u32;
            let set = RawSet::sak(&mut self.rng, 28, kn);
            let (time, last) = (self.soon(), self.port().mn);
            self.say(i, time, &[last], &[set]);
            if self.rng.chance(40) {
                self.report_somehow();
            }
            self.look();
        }
        let time = self.soon();
        self.send_somehow(time);
    }

    /// The pause after a distribution, while some peer is Potential.
    fn pause(&mut self) {
        self.own_key();
        let given = self.port().last_distribution;
        let time = given.saturating_add(self.rng.range(5_000, 5_990)).max(self.now());
        let potential = self.add_sim();
        if self.rng.chance(80) {
            self.say(potential, time, &[], &[]);
        }
        self.supporter(time);
        self.stand_down();
        self.ask();
        for gone in [5_999, 6_000] {
            let time = given.saturating_add(gone);
            if self.rng.chance(50) {
                self.tick(time);
                self.ask();
            }
            self.distribute(time, &[gone as u8; 24]);
        }
        self.ask();
    }

    /// A peer that was Live before our distribution hands out a key and steps back: we are elected, the mark
    /// is clear, and the latest key isn't ours.
    fn dead_end(&mut self) {
        let i = self.any_sim();
        let mi = self.sims[i].mi;
        self.sims[i].key_server = false;
        self.make_live(i);
        self.own_key();
        let Some(i) = self.sim_of(mi) else {
            return;
        };
        self.lead(i);
        let set = RawSet::sak(&mut self.rng, 28, 7);
        let (time, last) = (self.soon(), self.port().mn);
        self.say(i, time, &[last], &[set]);
        self.sims[i].key_server = false;
        let (time, last) = (self.soon(), self.port().mn);
        self.say(i, time, &[last], &[]);
        self.ask();
        self.send_somehow(time);
    }

    /// After our distribution a peer loses its proof and proves again in the same call.
    fn relapse(&mut self) {
        self.own_key();
        let i = self.any_sim();
        self.make_live(i);
        let time = self.soon();
        self.distribute_somehow(time);
        let (last, live) = (self.port().mn, self.sims[i].mi);
        let Some(proof) = self.port().peers.iter().find(|e| e.mi == live).and_then(|e| e.proof) else {
            return;
        };
        let border = proof.saturating_add(self.rng.pick(&[5_999, 6_000, 6_001]));
        self.say(i, proof.saturating_add(3_000), &[], &[]);
        self.say(i, border, &[last], &[]);
        self.ask();
        let time = self.soon();
        self.send_somehow(time);
    }

    /// Many keys of ours in a row, so that AN goes round.
    fn an_round(&mut self) {
        self.stand_down();
        for _ in 0..3 + self.rng.below(4) {
            let mut time = self.soon();
            if self.rng.chance(50) {
                time = time.max(self.port().last_distribution.saturating_add(6_000));
            }
            self.supporter(time);
            self.stand_down();
            let time = self.now();
            let wrapped: [u8; 24] = self.rng.array();
            self.distribute(time, &wrapped);
        }
        let time = self.soon();
        self.send_somehow(time);
    }

    /// A report: of the latest key mostly, else of the old one, or of none on record.
    fn report_somehow(&mut self) {
        let what = self.rng.pick(&[Report::Receive, Report::Transmit]);
        let keys = self.port().keys.clone();
        let (mut mi, mut kn) = (self.port().mi, self.port().kn);
        let at = usize::from(self.rng.chance(15));
        if let Some(key) = keys.get(at).or(keys.first()) {
            (mi, kn) = (key.mi, key.kn);
        }
        match self.rng.below(14) {
            0 => kn = kn.wrapping_add(1),
            1 => mi[self.rng.below(12)] ^= 1,
            _ => {}
        }
        self.report(what, mi, kn);
    }
}
