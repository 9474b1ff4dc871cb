//! Frames of simulated peers, written field by field so that each can be damaged.

use super::rng::Rng;
use crate::octets::{padded, Mi, Sci};

/// A further set; `length` overrides the true one.
#[derive(Clone)]
pub struct RawSet {
    pub kind: u8,
    pub own: u8,
    pub high: u8,
    pub length: Option<u16>,
    pub body: Vec<u8>,
}

impl RawSet {
    pub fn new(kind: u8, own: u8, body: Vec<u8>) -> RawSet {
        RawSet { kind, own, high: 0, length: None, body }
    }

    pub fn list(kind: u8, entries: &[(Mi, u32)]) -> RawSet {
        let mut body = Vec::new();
        for (mi, mn) in entries {
            body.extend(mi);
            body.extend(mn.to_be_bytes());
        }
        RawSet::new(kind, 0, body)
    }

    /// A Distributed SAK of body length 0, 28, 36 or 52.
    pub fn sak(rng: &mut Rng, length: usize, kn: u32) -> RawSet {
        let mut body = kn.to_be_bytes().to_vec();
        body.extend(rng.octets(length.max(4) - 4));
        body.truncate(length);
        RawSet::new(4, rng.octet(), body)
    }

    pub fn sak_use(rng: &mut Rng, length: usize) -> RawSet {
        let mut set = RawSet::new(3, rng.octet(), rng.octets(length));
        set.high = rng.octet() & 15;
        set
    }

    /// A type that is skipped.
    pub fn other(rng: &mut Rng) -> RawSet {
        let kind = rng.pick(&[0, 5, 6, 7, 8, 9, 100, 254]);
        let length = rng.pick(&[0, 1, 2, 3, 4, 5, 8, 16, 17, 28, 40, 300]);
        let mut set = RawSet::new(kind, rng.octet(), rng.octets(length));
        set.high = rng.octet() & 15;
        set
    }
}

/// A whole frame; fields that are `Some` override the true value.
#[derive(Clone)]
pub struct Draft {
    pub version: u8,
    pub kind: u8,
    pub body_length: Option<u16>,
    pub mka: u8,
    pub priority: u8,
    pub key_server: bool,
    pub desired: bool,
    pub capability: u8,
    pub basic_length: Option<u16>,
    pub sci: Sci,
    pub mi: Mi,
    pub mn: u32,
    pub agility: [u8; 4],
    pub ckn: Vec<u8>,
    pub sets: Vec<RawSet>,
    pub icv: [u8; 16],
    pub trailing: Vec<u8>,
    /// What the padding is filled with.
    pub fill: u8,
    /// The slice is cut to this length.
    pub cut: Option<usize>,
}

impl Draft {
    pub fn new(mi: Mi, sci: Sci, mn: u32, ckn: &[u8]) -> Draft {
        Draft {
            version: 3,
            kind: 5,
            body_length: None,
            mka: 1,
            priority: 16,
            key_server: true,
            desired: true,
            capability: 2,
            basic_length: None,
            sci,
            mi,
            mn,
            agility: [0, 0x80, 0xc2, 1],
            ckn: ckn.to_vec(),
            sets: Vec::new(),
            icv: [0; 16],
            trailing: Vec::new(),
            fill: 0,
            cut: None,
        }
    }

    pub fn octets(&self) -> Vec<u8> {
        let length = self.basic_length.unwrap_or(28 + self.ckn.len() as u16);
        let bits = u8::from(self.key_server) << 7 | u8::from(self.desired) << 6 | (self.capability & 3) << 4;
        let mut body = vec![self.mka, self.priority, bits | (length >> 8) as u8 & 15, length as u8];
        body.extend(self.sci);
        body.extend(self.mi);
        body.extend(self.mn.to_be_bytes());
        body.extend(self.agility);
        body.extend(&self.ckn);
        body.resize(padded(body.len()), self.fill);
        for set in &self.sets {
            let length = set.length.unwrap_or(set.body.len() as u16);
            body.extend([set.kind, set.own, set.high << 4 | (length >> 8) as u8 & 15, length as u8]);
            body.extend(&set.body);
            body.resize(padded(body.len()), self.fill);
        }
        body.extend(self.icv);
        let mut frame = vec![self.version, self.kind];
        frame.extend(self.body_length.unwrap_or(body.len() as u16).to_be_bytes());
        frame.extend(body);
        frame.extend(&self.trailing);
        frame.truncate(self.cut.unwrap_or(usize::MAX));
        frame
    }

    fn true_body(&self) -> u16 {
        let plain = Draft { body_length: None, trailing: Vec::new(), cut: None, ..self.clone() };
        (plain.octets().len() - 4) as u16
    }
}

/// Changes that leave a frame good: what isn't read, and where there is freedom.
pub fn adorn(rng: &mut Rng, d: &mut Draft) {
    match rng.below(10) {
        0 => d.fill = rng.octet(),
        1 => d.version = rng.pick(&[3, 4, 5, 200, 255]),
        2 => d.mka = rng.octet(),
        3 => {
            let length = rng.pick(&[1, 4, 16, 20, 60]);
            d.trailing = rng.octets(length);
        }
        4 => {
            let at = rng.below(d.sets.len() + 1);
            d.sets.insert(at, RawSet::other(rng));
        }
        5 => d.sets.push(RawSet { length: Some(16), ..RawSet::new(255, rng.octet(), Vec::new()) }),
        6 if d.sets.iter().all(|s| s.kind != 3) => {
            let length = rng.pick(&[0, 40]);
            d.sets.push(RawSet::sak_use(rng, length));
        }
        7 => {
            if let Some(set) = d.sets.first_mut() {
                (set.own, set.high) = if set.kind == 4 { (set.own, 9) } else { (rng.octet(), 15) };
            }
        }
        8 => d.icv = rng.array(),
        _ => d.sets.reverse(),
    }
}

/// One damage to one field. The frame may still be good.
pub fn damage(rng: &mut Rng, d: &mut Draft, own_mi: Mi) {
    let body = d.true_body();
    match rng.below(28) {
        0 => d.cut = Some(rng.below(4)),
        1 => d.cut = Some(rng.below(usize::from(body) + 4)),
        2 => d.body_length = Some(body.saturating_add(rng.pick(&[1, 4, 16, 1000, 65535]))),
        3 => d.version = rng.pick(&[0, 1, 2, 3, 4, 255]),
        4 => d.kind = rng.pick(&[0, 1, 3, 4, 6, 255]),
        5 => d.body_length = Some(rng.pick(&[0, 4, 16, 28, 30, 31])),
        6 => d.body_length = Some(body - rng.pick(&[1, 2, 3])),
        7 => d.body_length = Some(rng.pick(&[32, 36, 40, 44, 48, 49, 52, 56])),
        8 => d.basic_length = Some(rng.pick(&[0, 1, 27, 28, 61, 62, 63, 64, 100, 255])),
        9 => d.basic_length = Some(rng.range(29, 60) as u16),
        10 => d.basic_length = Some(28 + d.ckn.len() as u16 + 256 * rng.range(1, 15) as u16),
        11 => {
            // Only the Basic set and an ICV that comes out too short, or just fits.
            d.sets.clear();
            let basic = 4 + padded(28 + d.ckn.len()) as u16;
            d.body_length = Some(basic + rng.pick(&[0, 4, 8, 12, 16]));
        }
        12 => match rng.below(4) {
            0 => d.ckn.push(0),
            1 => d.ckn.push(rng.octet()),
            2 => drop(d.ckn.pop()),
            _ => d.ckn = rng.octets(5),
        },
        13 => {
            let at = rng.below(d.ckn.len().max(1));
            if let Some(octet) = d.ckn.get_mut(at) {
                *octet ^= 1 << rng.below(8);
            }
        }
        14 => d.agility[rng.below(4)] ^= 1 << rng.below(8),
        15 => d.mi = own_mi,
        16 => d.mn = 0,
        17 => d.mn = d.mn.saturating_sub(rng.pick(&[1, 1, 2, 3])),
        18 => {
            let (kind, length) = rng.pick(&[(1, 8), (2, 4), (1, 12), (2, 20), (1, 15), (2, 33), (1, 17)]);
            replace(rng, d, RawSet::new(kind, 0, vec![7; length]));
        }
        19 => {
            let length = rng.pick(&[4, 20, 36, 39, 41, 44, 80]);
            let set = RawSet::sak_use(rng, length);
            replace(rng, d, set);
        }
        20 => {
            let length = rng.pick(&[4, 12, 24, 27, 29, 32, 35, 40, 44, 48, 51, 56]);
            let set = RawSet::sak(rng, length, 1);
            replace(rng, d, set);
        }
        21 => {
            let length = rng.pick(&[28, 36, 52]);
            let set = RawSet::sak(rng, length, 0);
            replace(rng, d, set);
        }
        22 => twice(rng, d),
        23 => indicator(rng, d),
        24 => {
            // A set whose length runs past the ICV's place, or into the ICV.
            let (kind, more) = (rng.pick(&[1, 2, 3, 4, 0, 9, 254]), rng.pick(&[1, 4, 16, 256, 4000]));
            let mut set = RawSet::new(kind, 0, rng.octets(16));
            set.length = Some(if kind == 3 { 40 } else { 16 + more });
            d.sets.push(set);
        }
        25 => {
            let n = d.sets.len();
            if n > 0 {
                let set = &mut d.sets[rng.below(n)];
                let length = set.body.len() as u16;
                set.length = Some(length.wrapping_add(rng.pick(&[1, 4, 16, 256, 65535, 65532])) & 0xfff);
            }
        }
        26 => {
            // A shorter body: the ICV's place moves into the sets, and the rest is behind the body.
            let less = 4 * rng.range(1, 12) as u16;
            d.body_length = Some(body.saturating_sub(less));
        }
        _ => adorn(rng, d),
    }
}

/// Puts a set in place of one of its kind, or at any place.
fn replace(rng: &mut Rng, d: &mut Draft, set: RawSet) {
    d.sets.retain(|s| s.kind != set.kind);
    let at = rng.below(d.sets.len() + 1);
    d.sets.insert(at, set);
}

/// The same type twice, empty or not.
fn twice(rng: &mut Rng, d: &mut Draft) {
    let kind = rng.pick(&[1, 2, 3, 4]);
    d.sets.retain(|s| s.kind != kind);
    for _ in 0..2 {
        let empty = rng.chance(50);
        let set = match kind {
            3 => RawSet::sak_use(rng, if empty { 0 } else { 40 }),
            4 => RawSet::sak(rng, if empty { 0 } else { 28 }, 3),
            _ => RawSet::new(kind, 0, vec![kind; if empty { 0 } else { 16 }]),
        };
        let at = rng.below(d.sets.len() + 1);
        d.sets.insert(at, set);
    }
}

/// Type 255 at right and wrong places, of right and wrong lengths, with and without a body.
fn indicator(rng: &mut Rng, d: &mut Draft) {
    let mut set = RawSet::new(255, rng.octet(), Vec::new());
    set.high = rng.octet() & 15;
    set.length = Some(rng.pick(&[16, 16, 16, 0, 4, 12, 15, 17, 20, 272]));
    if rng.chance(40) {
        set.body = vec![0; rng.pick(&[16, 16, 4, 12])];
    }
    let at = rng.pick(&[d.sets.len(), d.sets.len(), 0]);
    d.sets.insert(at, set);
    if rng.chance(15) {
        d.sets.push(RawSet { length: Some(16), ..RawSet::new(255, 0, Vec::new()) });
    }
}
