//! Scripts and frames for the tests, written octet by octet.
#![allow(dead_code)]

use second::octets::hex;
use second::rules::script;

pub const OWN: [u8; 12] = [0x11; 12];
pub const SCI: [u8; 8] = [2, 0, 0, 0, 0, 1, 0, 1];
pub const CKN: &[u8] = b"ABCD";

/// A script, and what it prints.
#[derive(Default)]
pub struct Script(Vec<u8>);

impl Script {
    /// Begins with the participant of bench case 1.
    pub fn case_1() -> Script {
        Script::created(0, 16)
    }

    pub fn created(time: u64, priority: u8) -> Script {
        Script::default().create(time, priority, 2, CKN)
    }

    pub fn record(mut self, op: u8, parts: &[&[u8]]) -> Script {
        let payload = parts.concat();
        self.0.push(op);
        self.0.extend((payload.len() as u16).to_be_bytes());
        self.0.extend(payload);
        self
    }

    pub fn raw(mut self, octets: &[u8]) -> Script {
        self.0.extend(octets);
        self
    }

    pub fn create(self, time: u64, priority: u8, capability: u8, ckn: &[u8]) -> Script {
        self.record(1, &[&time.to_be_bytes(), &OWN, &SCI, &[priority, capability, 1], ckn])
    }

    pub fn receive(self, time: u64, frame: &[u8]) -> Script {
        self.record(2, &[&time.to_be_bytes(), &[1], frame])
    }

    pub fn send(self, time: u64) -> Script {
        self.send_room(time, 2_048)
    }

    pub fn send_room(self, time: u64, room: u16) -> Script {
        self.record(3, &[&time.to_be_bytes(), &room.to_be_bytes(), &[0, 0, 0, 5, 0, 0, 0, 6]])
    }

    pub fn distribute(self, time: u64, wrapped: &[u8]) -> Script {
        self.record(4, &[&time.to_be_bytes(), wrapped])
    }

    pub fn tick(self, time: u64) -> Script {
        self.record(5, &[&time.to_be_bytes()])
    }

    pub fn new_mi(self, time: u64, mi: [u8; 12]) -> Script {
        self.record(6, &[&time.to_be_bytes(), &mi])
    }

    pub fn report(self, what: u8, mi: [u8; 12], kn: u32) -> Script {
        self.record(7, &[&[what], &mi, &kn.to_be_bytes()])
    }

    pub fn ask(self) -> Script {
        self.record(8, &[])
    }

    pub fn save(self, room: u16) -> Script {
        self.record(9, &[&room.to_be_bytes()])
    }

    pub fn show(self, image: &[u8]) -> Script {
        self.record(10, &[image])
    }

    pub fn sets(self, frame: &[u8]) -> Script {
        self.record(11, &[frame])
    }

    pub fn lines(&self) -> Vec<String> {
        script::play(&self.0)
    }

    pub fn last(&self) -> String {
        self.lines().pop().unwrap_or_default()
    }
}

/// A peer's frame with its further sets.
pub fn frame(mi: u8, mn: u32, priority: u8, sci_end: u8, sets: &[Vec<u8>]) -> Vec<u8> {
    let mut body = vec![1, priority, 0xe0, 32, 2, 0, 0, 0, 0, 1, 0, sci_end];
    body.extend([mi; 12]);
    body.extend(mn.to_be_bytes());
    body.extend([0, 0x80, 0xc2, 1]);
    body.extend(CKN);
    body.extend(sets.concat());
    body.extend([0; 16]);
    let mut frame = vec![3, 5];
    frame.extend((body.len() as u16).to_be_bytes());
    frame.extend(body);
    frame
}

/// A further set; the body is a multiple of 4.
pub fn set(kind: u8, own: u8, body: &[u8]) -> Vec<u8> {
    let mut set = vec![kind, own, (body.len() >> 8) as u8, body.len() as u8];
    set.extend(body);
    set
}

/// A Live list with our MI and this number.
pub fn echo(mn: u32) -> Vec<u8> {
    set(1, 0, &[&OWN[..], &mn.to_be_bytes()].concat())
}

/// A Distributed SAK of 28.
pub fn sak(kn: u32) -> Vec<u8> {
    set(4, 0x50, &[&kn.to_be_bytes()[..], &[0xaa; 24]].concat())
}

pub fn mi_text(mi: u8) -> String {
    hex(&[mi; 12])
}
