//! Frames that peers say, records for the walk alone, garbage, and malformed ends.

use super::draft::{adorn, damage, Draft, RawSet};
use super::{Gen, Sim};
use crate::octets::Mi;
use crate::rules::script::Line;

impl Gen {
    pub(super) fn add_sim(&mut self) -> usize {
        let sim = self.new_sim();
        if self.sims.len() >= 40 {
            self.sims.drain(..10);
        }
        self.sims.push(sim);
        self.sims.len() - 1
    }

    pub(super) fn any_sim(&mut self) -> usize {
        if self.sims.is_empty() || self.rng.chance(5) {
            return self.add_sim();
        }
        self.rng.below(self.sims.len())
    }

    pub(super) fn sim_of(&self, mi: Mi) -> Option<usize> {
        self.sims.iter().position(|sim| sim.mi == mi)
    }

    /// The next frame of a peer, without further sets.
    pub(super) fn draft(&mut self, i: usize) -> Draft {
        let step = self.rng.pick(&[1, 1, 1, 1, 2, 5]);
        let own = self.port().ckn.clone();
        let sim = &mut self.sims[i];
        if sim.mn > u32::MAX - step {
            (sim.mi, sim.mn) = (self.rng.array(), 0);
        }
        sim.mn += step;
        let Sim { mi, sci, priority, key_server, desired, capability, mn, .. } = *sim;
        Draft { priority, key_server, desired, capability, ..Draft::new(mi, sci, mn, &own) }
    }

    /// Adds lists that tell our numbers `echo`, among entries of others.
    pub(super) fn tell(&mut self, d: &mut Draft, echo: &[u32]) {
        let own = self.port().mi;
        let mut entries: Vec<(Mi, u32)> = echo.iter().map(|&mn| (own, mn)).collect();
        while self.rng.chance(30) {
            let at = self.rng.below(entries.len() + 1);
            let other = match self.rng.below(4) {
                0 if !self.former.is_empty() => self.rng.pick(&self.former),
                1 if !self.sims.is_empty() => self.rng.pick(&self.sims).mi,
                _ => self.rng.array(),
            };
            entries.insert(at, (other, self.rng.range(0, 9) as u32));
        }
        if self.rng.chance(2) {
            // Our number far behind in a long list.
            let many = self.rng.pick(&[16, 60, 250]);
            let others: Vec<(Mi, u32)> = (0..many).map(|n| (self.rng.array(), n)).collect();
            entries.splice(0..0, others);
        }
        if entries.is_empty() && self.rng.chance(80) {
            return;
        }
        let first = self.rng.pick(&[1, 2]);
        let cut = if self.rng.chance(20) { self.rng.below(entries.len() + 1) } else { entries.len() };
        d.sets.push(RawSet::list(first, &entries[..cut]));
        if cut < entries.len() || self.rng.chance(5) {
            d.sets.push(RawSet::list(3 - first, &entries[cut..]));
        }
    }

    /// A peer's good frame with our numbers `echo` and further sets.
    pub(super) fn say(&mut self, i: usize, time: u64, echo: &[u32], extra: &[RawSet]) -> Line {
        let mut d = self.draft(i);
        self.tell(&mut d, echo);
        d.sets.extend_from_slice(extra);
        if self.rng.chance(20) {
            adorn(&mut self.rng, &mut d);
        }
        self.receive(time, true, &d.octets())
    }

    /// Numbers of ours that a peer may tell: mostly the last, else around the border of recent.
    pub(super) fn echo(&mut self) -> Vec<u32> {
        let last = self.port().mn;
        let back = |n: u32| last.saturating_sub(n);
        match self.rng.below(20) {
            0..=8 => vec![last],
            9 => vec![back(1)],
            10 => vec![back(2)],
            11 => vec![back(3)],
            12 => vec![back(4)],
            13 => vec![back(5)],
            14 => vec![last + 1],
            15 => vec![0],
            16 => vec![back(4), back(3)],
            17 => vec![last + 1, last],
            _ => vec![],
        }
    }

    /// A frame for the walk alone.
    pub(super) fn codec_record(&mut self) {
        let length = self.rng.pick(&[1, 2, 3, 4, 5, 16, 31, 32]);
        let ckn = self.rng.octets(length);
        let mut d = Draft::new(self.rng.array(), self.rng.array(), self.rng.next() as u32, &ckn);
        for _ in 0..self.rng.pick(&[0, 1, 2, 3, 4, 5]) {
            let set = self.any_set();
            if set.kind > 4 || self.rng.chance(3) || d.sets.iter().all(|s| s.kind != set.kind) {
                d.sets.push(set);
            }
        }
        for _ in 0..self.rng.pick(&[0, 0, 1, 1, 1, 2]) {
            damage(&mut self.rng, &mut d, [0; 12]);
        }
        if self.rng.chance(20) {
            adorn(&mut self.rng, &mut d);
        }
        let mut frame = d.octets();
        self.flip(&mut frame, 10);
        if self.rng.chance(3) {
            frame = self.garbage_frame();
        }
        if self.rng.chance(1) {
            // About as long as a frame can be.
            d.sets = (0..15).map(|n| RawSet::new(100 + n, 0, vec![n; 4_095])).collect();
            d.sets.push(RawSet::sak_use(&mut self.rng, 40));
            (d.cut, d.body_length) = (None, None);
            frame = d.octets();
        }
        self.emit(11, &frame);
    }

    fn any_set(&mut self) -> RawSet {
        match self.rng.below(12) {
            0..=3 => {
                let kind = self.rng.pick(&[1, 2]);
                let number = self.rng.pick(&[0, 1, 1, 2, 3, 15, 16, 17, 30]);
                let number = if self.rng.chance(2) { 255 } else { number };
                RawSet::new(kind, self.rng.octet(), self.rng.octets(16 * number))
            }
            4 | 5 => {
                let length = self.rng.pick(&[0, 40, 40, 40]);
                RawSet::sak_use(&mut self.rng, length)
            }
            6..=8 => {
                let length = self.rng.pick(&[0, 28, 28, 36, 52]);
                let kn = self.rng.pick(&[1, 2, 256, u32::MAX, 0]);
                RawSet::sak(&mut self.rng, length, kn)
            }
            _ => RawSet::other(&mut self.rng),
        }
    }

    /// With the given chance, changes some octets.
    pub(super) fn flip(&mut self, octets: &mut [u8], percent: u64) {
        while !octets.is_empty() && self.rng.chance(percent) {
            let at = self.rng.below(octets.len());
            octets[at] = match self.rng.below(4) {
                0 => 0,
                1 => 255,
                2 => octets[at] ^ 1 << self.rng.below(8),
                _ => octets[at].wrapping_add(self.rng.pick(&[1, 255])),
            };
        }
    }

    fn garbage_frame(&mut self) -> Vec<u8> {
        let length = self.rng.pick(&[0, 1, 3, 4, 5, 35, 36, 40, 56, 57, 100, 200]);
        let mut frame = self.rng.octets(length);
        if length >= 4 && self.rng.chance(80) {
            frame[..2].copy_from_slice(&[3, 5]);
            let body = (length - 4) as u16;
            frame[2..4].copy_from_slice(&body.to_be_bytes());
        }
        if length >= 4 && self.rng.chance(10) {
            frame[self.rng.below(2)] = self.rng.octet();
        }
        if length >= 8 && self.rng.chance(80) {
            frame[6] &= 0xf0;
            frame[7] = self.rng.range(28, 61) as u8;
        }
        frame
    }

    /// A record of good shape with random octets in it.
    pub(super) fn garbage_record(&mut self) {
        let time = match self.rng.below(20) {
            0 => self.rng.next(),
            1 => self.now().saturating_sub(1),
            _ => self.now().saturating_add(self.rng.range(0, 700)),
        };
        let mut payload = time.to_be_bytes().to_vec();
        let op = self.rng.pick(&[1, 2, 2, 2, 2, 3, 4, 5, 6, 7, 8, 9, 10, 10, 11, 11]);
        match op {
            1 => {
                let length = self.rng.below(36);
                payload.extend(self.rng.array::<21>());
                payload.extend([self.rng.octet() % 5, self.rng.octet() % 3]);
                payload.extend(self.rng.octets(length));
            }
            2 => {
                payload.push(u8::from(self.rng.chance(90)));
                let frame = match self.player.port {
                    Some(_) if self.rng.chance(70) => self.noisy_frame(),
                    _ => self.garbage_frame(),
                };
                payload.extend(frame);
            }
            3 => payload.extend(self.rng.array::<10>()),
            4 => {
                let length = self.rng.pick(&[0, 8, 23, 24, 24, 25, 40]);
                payload.extend(self.rng.octets(length));
            }
            5 => {}
            6 => payload.extend(self.rng.array::<12>()),
            7 => {
                payload = vec![self.rng.pick(&[1, 2])];
                payload.extend(self.rng.array::<16>());
            }
            8 => payload.clear(),
            9 => payload = self.rng.octets(2),
            10 => payload = self.garbage_image(),
            _ => payload = self.garbage_frame(),
        }
        self.emit(op, &payload);
    }

    /// A peer's frame with octets changed.
    fn noisy_frame(&mut self) -> Vec<u8> {
        let i = self.any_sim();
        let mut d = self.draft(i);
        let echo = self.echo();
        self.tell(&mut d, &echo);
        if self.rng.chance(50) {
            d.sets.push(self.any_set());
        }
        let mut frame = d.octets();
        self.flip(&mut frame, 45);
        frame
    }

    pub(super) fn garbage(&mut self) {
        if self.rng.chance(50) {
            self.before_create();
        }
        self.start();
        while self.left > 0 {
            self.garbage_record();
        }
        if self.rng.chance(60) {
            self.malformed_end();
        }
    }

    /// Calls while there is no participant.
    pub(super) fn before_create(&mut self) {
        let lengths = [9, 18, 32, 8, 20, 17, 0, 2];
        for op in 2..=9u8 {
            if self.rng.chance(40) {
                let mut payload = vec![0; lengths[usize::from(op) - 2]];
                if op == 7 {
                    payload[0] = 1;
                }
                self.emit(op, &payload);
            }
        }
    }

    /// A record that ends the run, and one behind it that isn't played. Ops 2 to 9 only where there is a
    /// participant: without one, such a record could be told in two ways.
    pub(super) fn malformed_end(&mut self) {
        if self.player.port.is_none() {
            return;
        }
        let (op, length) = self.rng.pick(&[
            (0, 0),
            (12, 4),
            (255, 9),
            (1, 0),
            (1, 30),
            (2, 8),
            (3, 17),
            (3, 19),
            (4, 7),
            (5, 7),
            (5, 9),
            (6, 19),
            (6, 21),
            (7, 16),
            (7, 18),
            (7, 17),
            (8, 1),
            (9, 1),
            (9, 3),
        ]);
        let mut payload = self.rng.octets(length);
        if (op, length) == (7, 17) {
            payload[0] = self.rng.pick(&[0, 3, 255]);
        }
        if self.rng.chance(30) {
            // The input ends within the record.
            let record = [2, 0, 60, 1, 2, 3, 4, 5];
            let cut = 1 + self.rng.below(record.len());
            self.script.extend(&record[..cut]);
            return;
        }
        self.script.push(op);
        self.script.extend((length as u16).to_be_bytes());
        self.script.extend(payload);
        if self.rng.chance(50) {
            self.script.extend([8, 0, 0]);
        }
    }
}
