//! Call scripts (SCRIPTS): the records, the calls in them, and playing them.

use std::fmt;

use super::frame::Basic;
use super::keys::Report;
use super::port::{Creation, Port};
use super::sets::Walk;
use super::show;
use crate::octets::{hex, part, u16_at, u32_at, u64_at, Mi};

pub const MOST_ROOM: usize = 2_048;

/// A call as a record tells it.
pub enum Call<'a> {
    Create(Creation<'a>),
    Receive { time: u64, verdict: bool, frame: &'a [u8] },
    Send { time: u64, room: usize, latest_pn: u32, old_pn: u32 },
    Distribute { time: u64, wrapped: &'a [u8] },
    Tick { time: u64 },
    NewMi { time: u64, mi: Mi },
    Report { what: Report, mi: Mi, kn: u32 },
    Ask,
    Save { room: usize },
    Show { image: &'a [u8] },
    Sets { frame: &'a [u8] },
}

impl<'a> Call<'a> {
    /// None where the record is malformed.
    pub fn read(op: u8, p: &'a [u8]) -> Option<Call<'a>> {
        let (least, rest) = match op {
            1 => (31, true),
            2 => (9, true),
            3 => (18, false),
            4 => (8, true),
            5 => (8, false),
            6 => (20, false),
            7 => (17, false),
            8 => (0, false),
            9 => (2, false),
            10 | 11 => (0, true),
            _ => return None,
        };
        if p.len() < least || !rest && p.len() > least {
            return None;
        }
        let room = |at| usize::from(u16_at(p, at)).min(MOST_ROOM);
        Some(match op {
            1 => Call::Create(Creation {
                time: u64_at(p, 0),
                mi: part(p, 8),
                sci: part(p, 20),
                priority: p[28],
                capability: p[29],
                desired: p[30] != 0,
                ckn: &p[31..],
            }),
            2 => Call::Receive { time: u64_at(p, 0), verdict: p[8] != 0, frame: &p[9..] },
            3 => Call::Send {
                time: u64_at(p, 0),
                room: room(8),
                latest_pn: u32_at(p, 10),
                old_pn: u32_at(p, 14),
            },
            4 => Call::Distribute { time: u64_at(p, 0), wrapped: &p[8..] },
            5 => Call::Tick { time: u64_at(p, 0) },
            6 => Call::NewMi { time: u64_at(p, 0), mi: part(p, 8) },
            7 => {
                let what = match p[0] {
                    1 => Report::Receive,
                    2 => Report::Transmit,
                    _ => return None,
                };
                Call::Report { what, mi: part(p, 1), kn: u32_at(p, 13) }
            }
            8 => Call::Ask,
            9 => Call::Save { room: room(0) },
            10 => Call::Show { image: p },
            _ => Call::Sets { frame: p },
        })
    }
}

/// What a record prints.
#[derive(Debug, Clone, PartialEq, Eq)]
pub enum Line {
    Said(String),
    Refused(u8),
    /// No participant has been created.
    NoPort,
    /// The run ends here.
    Malformed,
}

impl fmt::Display for Line {
    fn fmt(&self, f: &mut fmt::Formatter<'_>) -> fmt::Result {
        match self {
            Line::Said(text) => f.write_str(text),
            Line::Refused(number) => write!(f, "refused {number}"),
            Line::NoPort => f.write_str("none"),
            Line::Malformed => f.write_str("malformed"),
        }
    }
}

impl From<Result<String, u8>> for Line {
    fn from(answer: Result<String, u8>) -> Line {
        answer.map_or_else(Line::Refused, Line::Said)
    }
}

/// Plays calls one after the other.
#[derive(Default)]
pub struct Player {
    pub port: Option<Port>,
}

impl Player {
    pub fn play(&mut self, call: &Call) -> Line {
        match call {
            Call::Create(creation) => self.create(creation).into(),
            Call::Show { image } => show_image(image),
            Call::Sets { frame } => sets_of(frame).into(),
            _ => match &mut self.port {
                Some(port) => play_on(port, call).into(),
                None => Line::NoPort,
            },
        }
    }

    /// A refused create leaves the participant that was there.
    fn create(&mut self, creation: &Creation) -> Result<String, u8> {
        self.port = Some(Port::create(creation)?);
        Ok("created".to_string())
    }
}

fn sets_of(frame: &[u8]) -> Result<String, u8> {
    let basic = Basic::read(frame)?;
    Ok(show::sets(&Walk::over(frame, &basic)))
}

fn play_on(port: &mut Port, call: &Call) -> Result<String, u8> {
    Ok(match *call {
        Call::Receive { time, verdict, frame } => {
            let (place, length) = port.receive(time, verdict, frame)?.unwrap_or((0, 0));
            format!("accepted key {place} {length}")
        }
        Call::Send { time, room, latest_pn, old_pn } => {
            format!("sent {}", hex(&port.send(time, room, latest_pn, old_pn)?))
        }
        Call::Distribute { time, wrapped } => {
            let (kn, an) = port.distribute(time, wrapped)?;
            format!("distributed {kn} {an}")
        }
        Call::Tick { time } => {
            port.tick(time)?;
            "ticked".to_string()
        }
        Call::NewMi { time, mi } => {
            port.new_mi(time, mi)?;
            "renewed".to_string()
        }
        Call::Report { what, mi, kn } => {
            port.report(what, mi, kn)?;
            "reported".to_string()
        }
        Call::Ask => show::questions(port),
        Call::Save { room } => format!("image {}", hex(&port.save(room)?)),
        Call::Create(_) | Call::Show { .. } | Call::Sets { .. } => {
            unreachable!("calls that need no participant are played before")
        }
    })
}

/// The line of `portshow` for an image.
pub fn show_image(image: &[u8]) -> Line {
    Port::read_image(image).map(|port| show::status(&port)).into()
}

/// The records of a script, each with all its octets; the last may be cut off.
pub fn records(script: &[u8]) -> Vec<&[u8]> {
    let mut rest = script;
    let mut all = Vec::new();
    while !rest.is_empty() {
        let length = match rest.len() {
            0..=2 => rest.len(),
            _ => (3 + usize::from(u16_at(rest, 1))).min(rest.len()),
        };
        let (record, behind) = rest.split_at(length);
        all.push(record);
        rest = behind;
    }
    all
}

/// The call in a record's octets, none where it is malformed or cut off.
pub fn read_record(record: &[u8]) -> Option<Call<'_>> {
    if record.len() < 3 || record.len() != 3 + usize::from(u16_at(record, 1)) {
        return None;
    }
    Call::read(record[0], &record[3..])
}

/// Plays a script; `watch` sees each call and its line between the states before and after it.
pub fn play_watched(
    script: &[u8],
    mut watch: impl FnMut(Option<&Port>, Option<&Call>, &Line, Option<&Port>),
) -> Vec<String> {
    let mut player = Player::default();
    let mut lines = Vec::new();
    for record in records(script) {
        let before = player.port.clone();
        let call = read_record(record);
        let line = call.as_ref().map_or(Line::Malformed, |call| player.play(call));
        watch(before.as_ref(), call.as_ref(), &line, player.port.as_ref());
        lines.push(line.to_string());
        if line == Line::Malformed {
            break;
        }
    }
    lines
}

/// The lines a script prints.
pub fn play(script: &[u8]) -> Vec<String> {
    play_watched(script, |_, _, _, _| ())
}
