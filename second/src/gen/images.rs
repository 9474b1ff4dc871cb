//! Images: saved, shown back, damaged octet by octet, and made with one rule broken.

use super::Gen;
use crate::rules::image::{CONTENTS, KEY, OWN, PEER};
use crate::rules::keys::Key;
use crate::rules::port::Port;
use crate::rules::table::Entry;

impl Gen {
    pub(super) fn image_scene(&mut self) {
        match self.rng.below(10) {
            0 | 1 => self.save_somehow(),
            2 => {
                let image = self.saved();
                self.emit(10, &image);
            }
            3 | 4 => self.octet_by_octet(),
            5 => {
                let image = self.garbage_image();
                self.emit(10, &image);
            }
            _ => {
                for _ in 0..4 {
                    self.broken_rule();
                }
            }
        }
    }

    /// Saves with room that fits, just fits, or doesn't.
    fn save_somehow(&mut self) {
        let image = self.port().save(usize::MAX).unwrap_or_default();
        let exact = image.len() as u16;
        let room = match self.rng.below(8) {
            0 => exact,
            1 => exact - 1,
            2 => self.rng.pick(&[0, 143, 144]),
            3 => self.rng.pick(&[2_047, 2_049, 65_535]),
            _ => 2_048,
        };
        self.emit(9, &room.to_be_bytes());
        self.emit(10, &image);
        self.images.push(image);
    }

    /// The present image, or one saved before.
    fn saved(&mut self) -> Vec<u8> {
        match &self.player.port {
            Some(port) if self.images.is_empty() || self.rng.chance(50) => {
                port.save(usize::MAX).unwrap_or_default()
            }
            _ if self.images.is_empty() => Vec::new(),
            _ => self.rng.pick(&self.images),
        }
    }

    /// Changes one octet after the other.
    fn octet_by_octet(&mut self) {
        let image = self.saved();
        let from = self.rng.below(image.len().max(1));
        for at in from..(from + 12).min(image.len()) {
            let mut changed = image.clone();
            changed[at] = match self.rng.below(4) {
                0 => 0,
                1 => changed[at].wrapping_add(1),
                2 => changed[at].wrapping_sub(1),
                _ => changed[at] ^ 1 << self.rng.below(8),
            };
            self.emit(10, &changed);
        }
    }

    pub(super) fn garbage_image(&mut self) -> Vec<u8> {
        let mut image = self.saved();
        match self.rng.below(5) {
            0 => image.truncate(self.rng.below(image.len() + 1)),
            1 => {
                let length = self.rng.pick(&[1, 4, 28, 44]);
                image.extend(self.rng.octets(length));
            }
            2 => {
                let length = self.rng.below(200);
                image = self.rng.octets(length);
            }
            _ => self.flip(&mut image, 60),
        }
        image
    }

    /// A state with peers and keys: the present one, with what it lacks added.
    fn rich(&mut self) -> Port {
        let mut port = self.port().clone();
        if port.peers.is_empty() && port.clock < 20_000 {
            port.clock += 20_000;
        }
        while port.peers.len() < 2 {
            let accepted = port.clock.saturating_sub(self.rng.range(0, 5_999));
            let live = self.rng.chance(50);
            let proof = accepted.max(port.clock.saturating_sub(5_999));
            port.peers.push(Entry {
                mi: self.rng.array(),
                mn: 1 + self.rng.range(0, 9) as u32,
                sci: self.rng.array(),
                priority: self.rng.pick(&[0, 16, port.priority, 255]),
                key_server: self.rng.chance(70),
                desired: self.rng.chance(50),
                capability: self.rng.octet() & 3,
                accepted,
                proof: live.then_some(proof),
            });
        }
        while port.keys.len() < 2 {
            let receive = self.rng.chance(50);
            port.keys.push(Key {
                mi: self.rng.array(),
                kn: 1 + self.rng.range(0, 9) as u32,
                an: self.rng.octet() & 3,
                receive,
                transmit: receive && self.rng.chance(50),
                confidentiality: self.rng.octet() & 3,
                suite: self.rng.array(),
            });
        }
        port
    }

    /// An image in which a field stands at the border of a rule, on either side.
    fn broken_rule(&mut self) {
        let mut port = self.rich();
        for _ in 0..self.rng.pick(&[0, 1, 1, 1, 1, 2]) {
            match self.rng.below(3) {
                0 => self.bend_own(&mut port),
                1 => self.bend_peer(&mut port),
                _ => self.bend_key(&mut port),
            }
        }
        let mut image = port.save(usize::MAX).unwrap_or_default();
        if self.rng.chance(35) {
            self.bend_octets(&mut image, &port);
        }
        self.emit(10, &image);
    }

    fn bend_own(&mut self, port: &mut Port) {
        let clock = port.clock;
        match self.rng.below(12) {
            0 => port.capability = self.rng.pick(&[0, 1, 3, 4, 255]),
            1 => {
                let length = self.rng.pick(&[0, 1, 31, 32, 33]);
                port.ckn = self.rng.octets(length);
            }
            2 => (port.mn, port.last_send) = (0, self.rng.pick(&[0, 1, clock])),
            3 => (port.mn, port.last_send) = (5, self.rng.pick(&[0, 1, clock])),
            4 => (port.kn, port.last_distribution, port.wrapped) = (0, self.rng.pick(&[0, clock]), [0; 24]),
            5 => {
                (port.kn, port.last_distribution, port.wrapped) = (0, 0, [0; 24]);
                port.wrapped[self.rng.below(24)] = self.rng.pick(&[0, 1, 128]);
            }
            6 => (port.kn, port.last_distribution) = (3, self.rng.pick(&[0, clock, clock.saturating_add(1)])),
            7 => (port.mn, port.last_send) = (3, clock.saturating_add(1)),
            8 => port.priority = self.rng.pick(&[0, 16, 255]),
            9 => port.mark = !port.mark,
            10 => port.clock = clock.saturating_add(self.rng.pick(&[1, 5_998, 5_999, 6_000])),
            _ => port.mi = self.rng.pick(&[port.peers[0].mi, port.keys[0].mi, port.keys[1].mi]),
        }
    }

    fn bend_peer(&mut self, port: &mut Port) {
        let (clock, own, first) = (port.clock, port.mi, port.peers[0].mi);
        let at = self.rng.below(port.peers.len());
        let e = &mut port.peers[at];
        let border = [0, 5_999, 6_000, 6_000, 6_001].map(|gone| clock.saturating_sub(gone));
        match self.rng.below(9) {
            0 => e.mi = own,
            1 => e.mi = first,
            2 => e.mn = self.rng.pick(&[0, 1, u32::MAX]),
            3 => (e.accepted, e.proof) = (self.rng.pick(&border), None),
            4 => (e.accepted, e.proof) = (clock, Some(self.rng.pick(&border))),
            5 => {
                // Proof around accepted.
                e.accepted = clock.saturating_sub(100);
                e.proof = Some(clock.saturating_sub(self.rng.pick(&[99, 100, 101])));
            }
            6 => (e.accepted, e.proof) = (clock.saturating_add(1), None),
            7 => (e.accepted, e.proof) = (clock, None),
            _ => {
                let peer = e.clone();
                let number = self.rng.pick(&[15, 16, 17, 18]);
                port.peers.truncate(number);
                while port.peers.len() < number {
                    port.peers.push(Entry { mi: self.rng.array(), ..peer.clone() });
                }
            }
        }
    }

    fn bend_key(&mut self, port: &mut Port) {
        let (own, kn) = (port.mi, port.kn);
        let (first, second) = (port.keys[0].clone(), port.keys[1].clone());
        let at = self.rng.below(port.keys.len());
        let k = &mut port.keys[at];
        match self.rng.below(9) {
            0 => k.an = self.rng.pick(&[3, 4, 255]),
            1 => k.confidentiality = self.rng.pick(&[3, 4, 255]),
            2 => (k.receive, k.transmit) = (self.rng.chance(50), self.rng.chance(50)),
            3 => k.kn = self.rng.pick(&[0, 1, u32::MAX]),
            4 => (k.mi, k.kn) = (own, self.rng.pick(&[kn.saturating_add(1), kn, kn.max(2) - 1])),
            5 => (port.keys[1].mi, port.keys[1].kn) = (first.mi, first.kn),
            6 => {
                (port.keys[1].mi, port.keys[1].kn) =
                    (first.mi, self.rng.pick(&[second.kn, first.kn.wrapping_add(1)]))
            }
            7 => port.keys.truncate(self.rng.below(3).max(1)),
            _ => port.keys.push(Key { kn: second.kn.wrapping_add(7), ..second }),
        }
        // The other changes need two keys to be there.
        while port.keys.len() < 2 && self.rng.chance(50) {
            port.keys.push(Key { mi: self.rng.array(), ..first.clone() });
        }
        if port.keys.len() < 2 {
            port.keys.push(Key { kn: 9, ..first });
        }
    }

    /// What a state can't hold: unused places, flags, the contents table.
    fn bend_octets(&mut self, image: &mut Vec<u8>, port: &Port) {
        let peer = CONTENTS + OWN + PEER * self.rng.below(port.peers.len());
        let key = CONTENTS + OWN + PEER * port.peers.len() + KEY * self.rng.below(port.keys.len());
        let small = self.rng.pick(&[0, 1, 2, 255]);
        let bit = 1 << self.rng.below(8);
        match self.rng.below(18) {
            0 => image[self.rng.below(4)] ^= bit,
            1 => image[4 + self.rng.below(24)] ^= bit,
            2 => {
                // Offsets of 0, of kinds with and without records.
                let at = self.rng.pick(&[8, 16, 24]);
                image[at..at + 4].fill(0);
            }
            3 => image[CONTENTS + 26] = small,
            4 => image[CONTENTS + 27] = small,
            5 => image[CONTENTS + 56 + self.rng.below(4)] ^= bit,
            6 | 7 => {
                let at = CONTENTS + 60 + self.rng.below(32);
                image[at] = image[at].wrapping_add(1);
            }
            8 => image[peer + 25] ^= bit,
            9 => image[peer + 26 + self.rng.below(2)] = small,
            10 => {
                // A proof time without the flag, or the flag without a time.
                image[peer + 25] ^= 1;
            }
            11 => image[peer + 43] ^= bit,
            12 => image[key + 17] = self.rng.pick(&[0, 1, 2, 3, 4, 7, 128]),
            13 => image[key + 19] = small,
            14 => image.push(0),
            15 => drop(image.pop()),
            16 => {
                // One key record less or more than the number says.
                image[23] = image[23].wrapping_add(self.rng.pick(&[1, 255]));
            }
            _ => {
                // No keys: the offset is where they would stand, or 0.
                image.truncate(CONTENTS + OWN + PEER * port.peers.len());
                image[23] = 0;
                if self.rng.chance(60) {
                    image[24..28].fill(0);
                }
            }
        }
    }
}
