//! The port image (SCOPE, Port image): saving, and reading for showing.

use super::keys::{Key, MOST_KEYS};
use super::port::Port;
use super::table::{age, Entry, LIFE, MOST_PEERS};
use crate::octets::{part, u16_at, u32_at, u64_at};

pub const CONTENTS: usize = 28;
pub const OWN: usize = 116;
pub const PEER: usize = 44;
pub const KEY: usize = 28;

const PROOF: u8 = 1;
const KEY_SERVER: u8 = 2;
const DESIRED: u8 = 4;
const CAPABILITY_SHIFT: u8 = 4;
const PEER_FLAGS: u8 = PROOF | KEY_SERVER | DESIRED | 3 << CAPABILITY_SHIFT;
const RECEIVE: u8 = 1;
const TRANSMIT: u8 = 2;

impl Port {
    /// Refuses with 13.
    pub fn save(&self, room: usize) -> Result<Vec<u8>, u8> {
        let image = self.image();
        if image.len() > room {
            return Err(13);
        }
        Ok(image)
    }

    fn image(&self) -> Vec<u8> {
        let mut image = vec![0, 3, 0, 0];
        let mut offset = CONTENTS;
        for (kind, number, size) in [(1, 1, OWN), (2, self.peers.len(), PEER), (3, self.keys.len(), KEY)] {
            image.extend([0, kind, 0, number as u8]);
            image.extend((offset as u32).to_be_bytes());
            offset += number * size;
        }
        self.save_own(&mut image);
        self.peers.iter().for_each(|e| save_peer(&mut image, e));
        self.keys.iter().for_each(|k| save_key(&mut image, k));
        image
    }

    fn save_own(&self, image: &mut Vec<u8>) {
        image.extend(self.mi);
        image.extend(self.mn.to_be_bytes());
        image.extend(self.sci);
        image.extend([self.priority, self.capability, self.desired.into(), self.mark.into()]);
        image.extend(self.clock.to_be_bytes());
        image.extend(self.last_send.to_be_bytes());
        image.extend(self.kn.to_be_bytes());
        image.extend(self.last_distribution.to_be_bytes());
        image.extend((self.ckn.len() as u32).to_be_bytes());
        let mut ckn = self.ckn.clone();
        ckn.resize(32, 0);
        image.extend(ckn);
        image.extend(self.wrapped);
    }

    /// Refuses with 16.
    pub fn read_image(image: &[u8]) -> Result<Port, u8> {
        let (peers, keys) = read_contents(image).ok_or(16)?;
        let peers_at = CONTENTS + OWN;
        let keys_at = peers_at + peers * PEER;
        let own = &image[CONTENTS..peers_at];
        let peers = image[peers_at..keys_at].chunks(PEER);
        let keys = image[keys_at..keys_at + keys * KEY].chunks(KEY);
        let port = Port {
            peers: peers.clone().map(read_peer).collect(),
            keys: keys.clone().map(read_key).collect(),
            ..read_own(own)
        };
        let good = own_holds(own, &port)
            && peers.zip(0..).all(|(p, i)| peer_holds(p, &port, i))
            && keys.zip(0..).all(|(k, i)| key_holds(k, &port, i));
        if good {
            Ok(port)
        } else {
            Err(16)
        }
    }
}

fn save_peer(image: &mut Vec<u8>, e: &Entry) {
    let said = flag(KEY_SERVER, e.key_server) | flag(DESIRED, e.desired) | e.capability << CAPABILITY_SHIFT;
    image.extend(e.mi);
    image.extend(e.mn.to_be_bytes());
    image.extend(e.sci);
    image.extend([e.priority, flag(PROOF, e.live()) | said, 0, 0]);
    image.extend(e.accepted.to_be_bytes());
    image.extend(e.proof.unwrap_or(0).to_be_bytes());
}

fn save_key(image: &mut Vec<u8>, k: &Key) {
    image.extend(k.mi);
    image.extend(k.kn.to_be_bytes());
    image.extend([k.an, flag(RECEIVE, k.receive) | flag(TRANSMIT, k.transmit), k.confidentiality, 0]);
    image.extend(k.suite);
}

fn flag(bit: u8, set: bool) -> u8 {
    if set {
        bit
    } else {
        0
    }
}

/// Numbers of peers and keys, if the layout is right.
fn read_contents(image: &[u8]) -> Option<(usize, usize)> {
    if image.len() < CONTENTS || u16_at(image, 0) != 3 || u16_at(image, 2) != 0 {
        return None;
    }
    let mut numbers = [0; 3];
    let mut end = CONTENTS;
    for (i, size) in [OWN, PEER, KEY].into_iter().enumerate() {
        let at = 4 + 8 * i;
        let kind = usize::from(u16_at(image, at));
        let number = usize::from(u16_at(image, at + 2));
        let offset = u32_at(image, at + 4) as usize;
        if kind != i + 1 || offset != end {
            return None;
        }
        numbers[i] = number;
        end += number * size;
    }
    let [own, peers, keys] = numbers;
    let good = own == 1 && peers <= MOST_PEERS && keys <= MOST_KEYS && end == image.len();
    good.then_some((peers, keys))
}

fn read_own(o: &[u8]) -> Port {
    // Where the length is past its place, own_holds tells.
    let ckn_length = u32_at(o, 56).min(32) as usize;
    Port {
        mi: part(o, 0),
        mn: u32_at(o, 12),
        sci: part(o, 16),
        priority: o[24],
        capability: o[25],
        desired: o[26] != 0,
        mark: o[27] != 0,
        clock: u64_at(o, 28),
        last_send: u64_at(o, 36),
        kn: u32_at(o, 44),
        last_distribution: u64_at(o, 48),
        ckn: o[60..60 + ckn_length].to_vec(),
        wrapped: part(o, 92),
        peers: Vec::new(),
        keys: Vec::new(),
    }
}

fn own_holds(o: &[u8], port: &Port) -> bool {
    let zero = |octets: &[u8]| octets.iter().all(|&octet| octet == 0);
    (1..=3).contains(&port.capability)
        && o[26] <= 1
        && o[27] <= 1
        && (1..=32).contains(&u32_at(o, 56))
        && zero(&o[60 + port.ckn.len()..92])
        && (port.mn != 0 || port.last_send == 0)
        && (port.kn != 0 || port.last_distribution == 0)
        && (port.kn != 0 || zero(&port.wrapped))
        && port.last_send <= port.clock
        && port.last_distribution <= port.clock
}

fn read_peer(p: &[u8]) -> Entry {
    let flags = p[25];
    Entry {
        mi: part(p, 0),
        mn: u32_at(p, 12),
        sci: part(p, 16),
        priority: p[24],
        key_server: flags & KEY_SERVER != 0,
        desired: flags & DESIRED != 0,
        capability: flags >> CAPABILITY_SHIFT & 3,
        accepted: u64_at(p, 28),
        proof: (flags & PROOF != 0).then_some(u64_at(p, 36)),
    }
}

fn peer_holds(p: &[u8], port: &Port, i: usize) -> bool {
    let e = &port.peers[i];
    p[25] & !PEER_FLAGS == 0
        && u16_at(p, 26) == 0
        && (e.live() || u64_at(p, 36) == 0)
        && e.accepted <= port.clock
        && age(port.clock, e.accepted) < LIFE
        && e.proof.is_none_or(|proof| age(port.clock, proof) < LIFE)
        && e.proof.is_none_or(|proof| proof <= e.accepted)
        && port.peers[..i].iter().all(|other| other.mi != e.mi)
        && e.mi != port.mi
        && e.mn != 0
}

fn read_key(k: &[u8]) -> Key {
    Key {
        mi: part(k, 0),
        kn: u32_at(k, 12),
        an: k[16],
        receive: k[17] & RECEIVE != 0,
        transmit: k[17] & TRANSMIT != 0,
        confidentiality: k[18],
        suite: part(k, 20),
    }
}

fn key_holds(k: &[u8], port: &Port, i: usize) -> bool {
    let key = &port.keys[i];
    key.an < 4
        && key.confidentiality < 4
        && k[17] & !(RECEIVE | TRANSMIT) == 0
        && (key.receive || !key.transmit)
        && k[19] == 0
        && port.keys[..i].iter().all(|other| (other.mi, other.kn) != (key.mi, key.kn))
        && key.kn != 0
        && (key.mi != port.mi || key.kn <= port.kn)
}
