//! Scripts made from a seed: a participant is played along, and simulated peers answer its frames.

mod draft;
mod frames;
mod images;
mod key_scenes;
mod rng;
mod table_scenes;

use crate::octets::{Mi, Sci};
use crate::rules::keys::Report;
use crate::rules::port::Port;
use crate::rules::script::{read_record, Line, Player};
use rng::Rng;

#[derive(Debug, Clone, Copy, PartialEq, Eq)]
pub enum Kind {
    Mixed,
    Codec,
    Table,
    Image,
    Keys,
    Garbage,
}

impl Kind {
    pub const ALL: [Kind; 6] =
        [Kind::Mixed, Kind::Codec, Kind::Table, Kind::Image, Kind::Keys, Kind::Garbage];

    pub fn name(self) -> &'static str {
        match self {
            Kind::Mixed => "mixed",
            Kind::Codec => "codec",
            Kind::Table => "table",
            Kind::Image => "image",
            Kind::Keys => "keys",
            Kind::Garbage => "garbage",
        }
    }

    pub fn named(name: &str) -> Option<Kind> {
        Kind::ALL.into_iter().find(|kind| kind.name() == name)
    }
}

/// A simulated peer.
#[derive(Clone)]
struct Sim {
    mi: Mi,
    sci: Sci,
    priority: u8,
    key_server: bool,
    desired: bool,
    capability: u8,
    mn: u32,
    kn: u32,
}

struct Gen {
    rng: Rng,
    kind: Kind,
    player: Player,
    script: Vec<u8>,
    /// Calls still to be written; scenes that go on past the end write nothing.
    left: usize,
    sims: Vec<Sim>,
    /// MIs that were ours before.
    former: Vec<Mi>,
    /// The last frame that was accepted, for replays.
    last_frame: Vec<u8>,
    images: Vec<Vec<u8>>,
}

/// The script of a seed; it has `calls` records, and maybe a malformed one at the end.
pub fn generate(seed: u64, calls: usize, kind: Kind) -> Vec<u8> {
    let stream = seed.wrapping_mul(8).wrapping_add(kind as u64);
    let mut gen = Gen {
        rng: Rng::new(stream),
        kind,
        player: Player::default(),
        script: Vec::new(),
        left: calls,
        sims: Vec::new(),
        former: Vec::new(),
        last_frame: Vec::new(),
        images: Vec::new(),
    };
    gen.run();
    gen.script
}

impl Gen {
    fn run(&mut self) {
        match self.kind {
            Kind::Codec => {
                while self.left > 0 {
                    self.codec_record();
                }
            }
            Kind::Garbage => self.garbage(),
            _ => {
                self.start();
                while self.left > 0 {
                    self.step();
                }
                if self.kind == Kind::Mixed && self.rng.chance(10) {
                    self.malformed_end();
                }
            }
        }
    }

    fn step(&mut self) {
        if self.now() > u64::MAX - 10_000 && self.rng.chance(30) || self.rng.chance(1) {
            self.start();
        }
        if self.left < 12 && self.rng.chance(25) {
            self.last_time();
        }
        match (self.kind, self.rng.below(100)) {
            (Kind::Table, 0..=84) => self.table_scene(),
            (Kind::Table, _) => self.key_scene(),
            (Kind::Keys, 0..=79) => self.key_scene(),
            (Kind::Keys, _) => self.table_scene(),
            (Kind::Image, 0..=24) => self.table_scene(),
            (Kind::Image, 25..=39) => self.key_scene(),
            (Kind::Image, _) => self.image_scene(),
            (_, 0..=49) => self.table_scene(),
            (_, 50..=79) => self.key_scene(),
            (_, 80..=87) => self.image_scene(),
            (_, 88..=93) => self.codec_record(),
            _ => self.garbage_record(),
        }
    }

    fn port(&self) -> &Port {
        self.player.port.as_ref().expect("a participant was created")
    }

    fn now(&self) -> u64 {
        self.player.port.as_ref().map_or(0, |port| port.clock)
    }

    /// A little later.
    fn soon(&mut self) -> u64 {
        let step = self.rng.pick(&[0, 1, 10, 50, 100, 200]);
        self.now().saturating_add(step)
    }

    /// Often soon, else at the border of some time on record, sometimes earlier than the clock.
    fn any_time(&mut self) -> u64 {
        let now = self.now();
        match self.rng.below(100) {
            0..=64 => self.soon(),
            65..=88 => {
                let port = self.port();
                let mut times = vec![(port.last_send, 2_000), (port.last_distribution, 6_000)];
                times.extend(port.peers.iter().map(|e| (e.accepted, 6_000)));
                times.extend(port.peers.iter().filter_map(|e| e.proof).map(|proof| (proof, 6_000)));
                let (then, life) = self.rng.pick(&times);
                let at = then.saturating_add(life - 1 + self.rng.range(0, 2));
                at.max(now)
            }
            89..=92 => now.saturating_sub(self.rng.pick(&[1, 1, 2, 6_000, u64::MAX])),
            93..=97 => now.saturating_add(self.rng.range(500, 4_000)),
            _ => now,
        }
    }

    /// Writes a record and plays it.
    fn emit(&mut self, op: u8, payload: &[u8]) -> Line {
        if self.left == 0 {
            return Line::NoPort;
        }
        self.left -= 1;
        let from = self.script.len();
        self.script.push(op);
        self.script.extend((payload.len() as u16).to_be_bytes());
        self.script.extend(payload);
        let call = read_record(&self.script[from..]).expect("only good records are emitted");
        self.player.play(&call)
    }

    fn receive(&mut self, time: u64, verdict: bool, frame: &[u8]) -> Line {
        let mut payload = time.to_be_bytes().to_vec();
        payload.push(if verdict { self.rng.pick(&[1, 1, 1, 2, 255]) } else { 0 });
        payload.extend(frame);
        let line = self.emit(2, &payload);
        if matches!(line, Line::Said(_)) {
            self.last_frame = frame.to_vec();
        }
        line
    }

    fn send(&mut self, time: u64, room: u16) -> Line {
        let mut payload = time.to_be_bytes().to_vec();
        payload.extend(room.to_be_bytes());
        payload.extend(self.rng.array::<8>());
        self.emit(3, &payload)
    }

    fn distribute(&mut self, time: u64, wrapped: &[u8]) -> Line {
        let mut payload = time.to_be_bytes().to_vec();
        payload.extend(wrapped);
        self.emit(4, &payload)
    }

    fn tick(&mut self, time: u64) -> Line {
        self.emit(5, &time.to_be_bytes())
    }

    fn new_mi(&mut self, time: u64, mi: Mi) -> Line {
        let own = self.port().mi;
        let mut payload = time.to_be_bytes().to_vec();
        payload.extend(mi);
        let line = self.emit(6, &payload);
        if matches!(line, Line::Said(_)) {
            self.former.push(own);
        }
        line
    }

    fn report(&mut self, what: Report, mi: Mi, kn: u32) -> Line {
        let mut payload = vec![if what == Report::Receive { 1 } else { 2 }];
        payload.extend(mi);
        payload.extend(kn.to_be_bytes());
        self.emit(7, &payload)
    }

    fn ask(&mut self) {
        self.emit(8, &[]);
    }

    /// Looks at the state, by a question or by an image.
    fn look(&mut self) {
        match self.rng.below(10) {
            0..=5 => self.ask(),
            6..=7 if self.kind != Kind::Table => drop(self.emit(9, &[8, 0])),
            _ => {}
        }
    }

    /// Creates a participant (after some that are refused) and its peers.
    fn start(&mut self) {
        if self.player.port.is_none() && self.rng.chance(25) {
            self.before_create();
        }
        let mut time = match self.rng.below(12) {
            0..=2 => 0,
            3 => 1,
            4 => self.rng.pick(&[1_999, 2_000, 5_999, 6_000]),
            5..=8 => self.rng.range(6_000, 1 << 20),
            9 | 10 => self.rng.range(1 << 32, 1 << 45),
            _ => u64::MAX - self.rng.range(0, 60_000),
        };
        if self.kind == Kind::Image && time < 6_000 && self.rng.chance(70) {
            time += 20_000;
        }
        let length = self.rng.pick(&[1, 2, 3, 4, 4, 5, 16, 31, 32]);
        let mut own = vec![];
        own.extend(match self.rng.below(8) {
            0 => [0x11; 12],
            1 => [0; 12],
            2 => [255; 12],
            _ => self.rng.array(),
        });
        own.extend(self.rng.array::<8>());
        let priority = self.rng.pick(&[0, 1, 16, 16, 16, 128, 254, 255]);
        let capability = self.rng.pick(&[1, 2, 2, 3]);
        let ckn = self.rng.octets(length);
        for (capability, ckn) in [(0, 4), (4, 4), (255, 4), (2, 0), (2, 0), (2, 33), (2, 300), (0, 33)] {
            if self.rng.chance(5) {
                let bad = self.creation(time, &own, priority, capability, &vec![0x41; ckn]);
                self.emit(1, &bad);
            }
        }
        let good = self.creation(time, &own, priority, capability, &ckn);
        self.emit(1, &good);
        if self.player.port.is_some() {
            let number = 3 + self.rng.below(5);
            self.sims = (0..number).map(|_| self.new_sim()).collect();
        }
    }

    fn creation(&mut self, time: u64, own: &[u8], priority: u8, capability: u8, ckn: &[u8]) -> Vec<u8> {
        let mut payload = time.to_be_bytes().to_vec();
        payload.extend(own);
        payload.extend([priority, capability, self.rng.pick(&[0, 1, 1, 2, 255])]);
        payload.extend(ckn);
        payload
    }

    /// A peer whose fields are often close to ours, so that elections are close too.
    fn new_sim(&mut self) -> Sim {
        let own = self.port();
        let (own_mi, own_sci, own_priority) = (own.mi, own.sci, own.priority);
        let mut mi = self.rng.array();
        if self.rng.chance(25) {
            mi = own_mi;
            let at = self.rng.pick(&[0, 5, 11]);
            mi[at] = mi[at].wrapping_add(self.rng.pick(&[1, 255]));
        } else if self.rng.chance(4) && !self.former.is_empty() {
            mi = self.rng.pick(&self.former);
        }
        let mut sci = self.rng.array();
        match self.rng.below(10) {
            0..=3 => sci = own_sci,
            4 | 5 => {
                sci = own_sci;
                let at = self.rng.pick(&[0, 3, 7]);
                sci[at] = sci[at].wrapping_add(self.rng.pick(&[1, 255]));
            }
            6 if !self.sims.is_empty() => sci = self.rng.pick(&self.sims).sci,
            _ => {}
        }
        let close = [own_priority.wrapping_add(1), own_priority.wrapping_sub(1), 0, 255, 16];
        let priority = if self.rng.chance(55) { own_priority } else { self.rng.pick(&close) };
        Sim {
            mi,
            sci,
            priority,
            key_server: self.rng.chance(75),
            desired: self.rng.chance(70),
            capability: self.rng.octet() & 3,
            mn: if self.rng.chance(3) { u32::MAX - 3 } else { self.rng.range(0, 20) as u32 },
            kn: 0,
        }
    }
}
