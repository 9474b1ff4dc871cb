//! Scenes around the peer table, its clock and the election.

use super::draft::{damage, RawSet};
use super::Gen;
use crate::rules::table::MOST_PEERS;

impl Gen {
    pub(super) fn table_scene(&mut self) {
        match self.rng.below(100) {
            0..=13 => {
                let time = self.any_time();
                self.send_somehow(time);
            }
            14..=37 => {
                let (i, time, echo) = (self.any_sim(), self.any_time(), self.echo());
                self.say(i, time, &echo, &[]);
            }
            38..=42 => {
                let time = self.any_time();
                self.tick(time);
            }
            43..=48 => self.border(),
            49..=55 => self.lapse(),
            56..=60 => self.vanish(),
            61..=65 => self.fill(),
            66..=70 => self.replay(),
            71..=76 => self.tie(),
            77..=79 => self.renew(),
            80..=83 => self.many_damaged(),
            84..=87 => (0..5).for_each(|_| self.orders()),
            88..=91 => self.refused_late(),
            92 | 93 => self.hello(),
            94..=96 => self.early(),
            _ => {
                let time = self.any_time();
                self.distribute_somehow(time);
            }
        }
        self.look();
    }

    /// Sends, sometimes with room that just fits, or not.
    pub(super) fn send_somehow(&mut self, time: u64) {
        let exact = self.port().clone().send(time, usize::MAX, 0, 0).map_or(0, |frame| frame.len() as u16);
        let room = match self.rng.below(20) {
            0 => exact,
            1 => exact.saturating_sub(1),
            2 => self.rng.pick(&[0, 1, 55, 56]),
            3 => self.rng.pick(&[2_047, 2_049, 65_535]),
            _ => 2_048,
        };
        self.send(time, room);
    }

    /// Has a peer prove, after sending if nothing was sent yet.
    pub(super) fn make_live(&mut self, i: usize) {
        if self.port().mn == 0 {
            let time = self.soon();
            self.send(time, 2_048);
        }
        let (time, last) = (self.soon(), self.port().mn);
        self.say(i, time, &[last], &[]);
    }

    /// Echoes at the border of recent, also with fewer than four numbers sent.
    fn border(&mut self) {
        let sends = self.rng.below(7);
        for _ in 0..sends {
            let time = self.soon();
            self.send(time, 2_048);
        }
        let last = self.port().mn;
        let tries = [vec![last.saturating_sub(4)], vec![last + 1], vec![0], vec![last.saturating_sub(3)]];
        let i = self.add_sim();
        for echo in tries {
            let time = self.soon();
            self.say(i, time, &echo, &[]);
            self.ask();
        }
    }

    /// A proof grows old while frames without proof keep the entry.
    fn lapse(&mut self) {
        let i = self.any_sim();
        self.make_live(i);
        let proof = self.now();
        let [between, before, border] = [3_000, 5_999, 6_000].map(|gone| proof.saturating_add(gone));
        if self.rng.chance(75) {
            let old = self.port().mn.saturating_sub(5);
            let echo = self.rng.pick(&[vec![], vec![], vec![old]]);
            self.say(i, between, &echo, &[]);
        }
        let last = self.port().mn;
        match self.rng.below(7) {
            0 => {
                self.tick(before);
                self.ask();
                self.tick(border);
                self.ask();
            }
            1 => drop(self.say(i, border, &[last], &[])),
            2 => drop(self.say(i, before, &[last], &[])),
            3 => drop(self.send(border, 2_048)),
            4 => self.distribute_somehow(border),
            5 => {
                self.say(i, before, &[last], &[]);
                self.tick(border);
            }
            _ => {
                self.send(border, 40);
                self.ask();
                self.send(before, 2_048);
            }
        }
    }

    /// Some entry of the table reaches its life time.
    fn vanish(&mut self) {
        for _ in 0..self.rng.below(4) {
            let (i, echo) = (self.any_sim(), self.echo());
            let time = self.now().saturating_add(self.rng.range(0, 900));
            self.say(i, time, &echo, &[]);
        }
        let times: Vec<u64> = self.port().peers.iter().map(|e| e.accepted).collect();
        if times.is_empty() {
            return;
        }
        let border = self.rng.pick(&times).saturating_add(6_000);
        for time in [border.saturating_sub(1), border, border.saturating_add(1)] {
            match self.rng.below(4) {
                0 => drop(self.tick(time)),
                1 => drop(self.send(time, 2_048)),
                2 => self.distribute_somehow(time),
                _ => {
                    let echo = self.echo();
                    let i = self.any_sim();
                    self.say(i, time, &echo, &[]);
                }
            }
            self.ask();
        }
        let time = self.now();
        self.send(time, 2_048);
    }

    /// A full table and a seventeenth MI.
    fn fill(&mut self) {
        while self.port().peers.len() < MOST_PEERS && self.left > 0 {
            let i = self.add_sim();
            let time = self.now().saturating_add(self.rng.pick(&[0, 1, 7, 30]));
            let last = self.port().mn;
            let echo = if self.rng.chance(50) { vec![last] } else { vec![] };
            self.say(i, time, &echo, &[]);
        }
        if self.left == 0 {
            return;
        }
        self.look();
        let time = self.soon();
        self.send(time, 2_048);
        let i = self.add_sim();
        if self.rng.chance(50) {
            let mut d = self.draft(i);
            d.mn = 0;
            self.receive(time, true, &d.octets());
        }
        let (time, echo) = (self.soon(), self.echo());
        self.say(i, time, &echo, &[]);
        let Some(oldest) = self.port().peers.iter().min_by_key(|e| e.accepted).cloned() else {
            return;
        };
        let border = oldest.accepted.saturating_add(6_000);
        if self.rng.chance(60) {
            self.say(i, border.saturating_sub(1), &echo, &[]);
            self.ask();
        }
        match (self.rng.below(4), self.sim_of(oldest.mi)) {
            (0, Some(same)) => drop(self.say(same, border, &echo, &[])),
            (1, _) => {
                let mut d = self.draft(i);
                d.mn = 0;
                self.receive(border, true, &d.octets());
                self.ask();
                self.say(i, border, &echo, &[]);
            }
            _ => drop(self.say(i, border, &echo, &[])),
        }
        self.ask();
        let time = self.soon();
        self.send(time, 2_048);
    }

    /// The same frame again, at once and at the border of its entry's life.
    fn replay(&mut self) {
        let (i, time, echo) = (self.any_sim(), self.soon(), self.echo());
        self.say(i, time, &echo, &[]);
        let frame = self.last_frame.clone();
        let at = self.now();
        self.receive(at, true, &frame);
        if self.rng.chance(50) {
            self.receive(at.saturating_add(5_999), true, &frame);
            self.look();
            self.receive(at.saturating_add(6_000), true, &frame);
            self.look();
        }
    }

    /// Peers that tie with us or with each other.
    fn tie(&mut self) {
        let (mut sci, mut priority) = (self.port().sci, self.port().priority);
        if self.rng.chance(40) {
            sci = self.rng.array();
        }
        if self.rng.chance(30) {
            priority = self.rng.pick(&[0, 16, 255]);
        }
        for _ in 0..1 + self.rng.below(3) {
            let i = self.any_sim();
            let sim = &mut self.sims[i];
            sim.priority = priority;
            sim.key_server = self.rng.chance(85);
            if self.rng.chance(60) {
                sim.sci = sci;
            }
            self.make_live(i);
            self.ask();
        }
        let time = self.soon();
        self.send_somehow(time);
    }

    /// A new MI of each sort.
    pub(super) fn renew(&mut self) {
        let time = self.any_time();
        let mut mi = self.rng.array();
        let port = self.port();
        let keys: Vec<_> = port.keys.iter().map(|k| k.mi).collect();
        let peers: Vec<_> = port.peers.iter().map(|e| e.mi).collect();
        let own = port.mi;
        match self.rng.below(12) {
            0 | 1 => mi = own,
            2 if !keys.is_empty() => mi = keys[0],
            3..=5 if keys.len() > 1 => mi = keys[1],
            6..=8 if !peers.is_empty() => mi = self.rng.pick(&peers),
            9 if !self.former.is_empty() => mi = self.rng.pick(&self.former),
            _ => {}
        }
        self.new_mi(time, mi);
        self.look();
        if self.rng.chance(50) {
            let time = self.soon();
            self.send(time, 2_048);
            let i = self.any_sim();
            if self.rng.chance(40) {
                // As if our former frames came back.
                self.sims[i].mi = own;
            }
            let (time, echo) = (self.soon(), self.echo());
            self.say(i, time, &echo, &[]);
        }
    }

    /// The last time there is; nothing can be later.
    pub(super) fn last_time(&mut self) {
        self.tick(u64::MAX);
        self.ask();
        let (i, echo) = (self.any_sim(), self.echo());
        self.say(i, u64::MAX, &echo, &[]);
        self.send(u64::MAX, 2_048);
        self.tick(u64::MAX - 1);
    }

    /// Calls earlier than the clock.
    fn early(&mut self) {
        let time = self.now().saturating_sub(1);
        let mut mi: [u8; 12] = self.rng.array();
        match self.rng.below(5) {
            0 => drop(self.tick(time)),
            1 => self.send_somehow(time),
            2 => self.distribute_somehow(time),
            3 => {
                if self.rng.chance(50) {
                    mi = self.port().mi;
                }
                self.new_mi(time, mi);
            }
            _ => {
                let (i, echo) = (self.any_sim(), self.echo());
                self.say(i, time, &echo, &[]);
            }
        }
    }

    fn many_damaged(&mut self) {
        for _ in 0..1 + self.rng.below(6) {
            self.damaged();
        }
    }

    /// A frame with one or more fields damaged.
    fn damaged(&mut self) {
        let (i, time, echo) = (self.any_sim(), self.any_time(), self.echo());
        let own = self.port().mi;
        let mut d = self.draft(i);
        self.tell(&mut d, &echo);
        if self.rng.chance(30) {
            d.sets.push(RawSet::sak(&mut self.rng, 28, 1));
        }
        for _ in 0..self.rng.pick(&[1, 1, 1, 2, 3]) {
            damage(&mut self.rng, &mut d, own);
        }
        let verdict = !self.rng.chance(10);
        let mut frame = d.octets();
        self.flip(&mut frame, 8);
        self.receive(time, verdict, &frame);
    }

    /// Two or more facts at once, so that their order shows.
    fn orders(&mut self) {
        let (i, own) = (self.any_sim(), self.port().mi);
        let mut time = self.soon();
        let mut verdict = true;
        let mut d = self.draft(i);
        let first = self.rng.below(9);
        for fault in [first, first + 1, self.rng.below(10)] {
            match fault {
                0 => time = self.now().saturating_sub(1),
                1 => d.version = 2,
                2 => d.body_length = Some(50 + self.rng.range(0, 3) as u16),
                3 => d.basic_length = Some(28),
                4 => d.ckn.iter_mut().for_each(|octet| *octet ^= 255),
                5 => d.agility[3] = 2,
                6 => verdict = false,
                7 => d.sets.push(RawSet::new(1, 0, vec![0; 8])),
                8 => d.mi = own,
                _ => d.mn = 0,
            }
            if self.rng.chance(40) && fault == first + 1 {
                break;
            }
        }
        self.receive(time, verdict, &d.octets());
    }

    /// A refused call at a time when entries would go: nothing may change.
    fn refused_late(&mut self) {
        let Some(oldest) = self.port().peers.iter().map(|e| e.proof.unwrap_or(e.accepted)).min() else {
            return;
        };
        let late = oldest.saturating_add(6_000).max(self.now());
        let own = self.port().mi;
        match self.rng.below(4) {
            0 => drop(self.send(late, 20)),
            1 => drop(self.distribute(late, &[1; 23])),
            2 => drop(self.new_mi(late, own)),
            _ => drop(self.receive(late, true, &[3, 5, 0])),
        }
        self.ask();
        let time = self.soon();
        self.send(time, 2_048);
    }

    /// The border of hello.
    fn hello(&mut self) {
        let time = self.soon();
        self.send(time, 2_048);
        self.ask();
        for gone in [1_999, 2_000] {
            self.tick(time.saturating_add(gone));
            self.ask();
        }
    }
}
