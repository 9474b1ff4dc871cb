//! The walk over the further sets (SCOPE, Reading an EAPOL-MKA frame): fact 9.

use super::frame::{set_length, Basic};
use crate::octets::{padded, part, u32_at, Mi};

/// An entry of a Live or Potential list.
#[derive(Debug, Clone, Copy)]
pub struct Listed {
    pub mi: Mi,
    pub mn: u32,
}

/// One half of a SAK Use set.
#[derive(Debug, Clone, Copy)]
pub struct KeyUse {
    pub an: u8,
    pub transmit: bool,
    pub receive: bool,
    pub mi: Mi,
    pub kn: u32,
    pub pn: u32,
}

/// A Distributed SAK set that isn't empty; `place` and `length` are the wrapped key's.
#[derive(Debug, Clone, Copy)]
pub struct DistributedSak {
    pub an: u8,
    pub confidentiality: u8,
    pub kn: u32,
    pub suite: [u8; 8],
    pub place: usize,
    pub length: usize,
}

#[derive(Debug)]
pub enum Kind {
    Live(Vec<Listed>),
    Potential(Vec<Listed>),
    /// Latest, then old; none if the body is empty.
    SakUse(Option<[KeyUse; 2]>),
    DistributedSak(Option<DistributedSak>),
    IcvIndicator,
}

/// A good set, with its header's place in the frame and its body's length.
#[derive(Debug)]
pub struct Set {
    pub place: usize,
    pub length: usize,
    pub kind: Kind,
}

/// Why a set is wrong. No output tells it; it is counted only.
#[derive(Debug, Clone, Copy, PartialEq, Eq)]
pub enum Fault {
    Fit,
    Length,
    Twice,
    KeyNumberZero,
    IndicatorPlace,
    IndicatorLength,
}

/// The good sets of types 1 to 4 and 255 in order, and the set at which the walk stopped.
#[derive(Debug, Default)]
pub struct Walk {
    pub sets: Vec<Set>,
    pub bad: Option<(usize, Fault)>,
}

impl Walk {
    pub fn over(frame: &[u8], basic: &Basic) -> Walk {
        let mut walk = Walk::default();
        let mut seen = [false; 5];
        let mut place = basic.sets;
        while place < basic.icv {
            match read_set(frame, place, basic.icv, &mut seen) {
                Err(fault) => {
                    walk.bad = Some((place, fault));
                    break;
                }
                Ok((length, kind)) => {
                    if let Some(kind) = kind {
                        walk.sets.push(Set { place, length, kind });
                    }
                    // After an ICV Indicator this is past the ICV's place: the walk ends there too.
                    place += 4 + padded(length);
                }
            }
        }
        walk
    }

    /// The Distributed SAK set: absent, empty, or with a key.
    pub fn distributed_sak(&self) -> Option<Option<DistributedSak>> {
        self.sets.iter().find_map(|set| match &set.kind {
            Kind::DistributedSak(sak) => Some(*sak),
            _ => None,
        })
    }
}

/// Length and kind of the set at `place`, no kind for the types that are skipped.
fn read_set(
    frame: &[u8],
    place: usize,
    icv: usize,
    seen: &mut [bool; 5],
) -> Result<(usize, Option<Kind>), Fault> {
    let [number, own, third, fourth] = part(frame, place);
    let length = set_length(third, fourth);
    let at = place + 4;
    if number == 255 {
        return read_indicator(at, length, icv);
    }
    if at + padded(length) > icv {
        return Err(Fault::Fit);
    }
    if !(1..=4).contains(&number) {
        return Ok((length, None));
    }
    let seen = &mut seen[usize::from(number)];
    if *seen {
        return Err(Fault::Twice);
    }
    *seen = true;

    let body = &frame[at..at + length];
    let kind = match number {
        1 => Kind::Live(read_list(body)?),
        2 => Kind::Potential(read_list(body)?),
        3 => Kind::SakUse(read_sak_use(own, body)?),
        _ => Kind::DistributedSak(read_sak(own, body, at)?),
    };
    Ok((length, Some(kind)))
}

/// A header right before the ICV, with the ICV as its body.
fn read_indicator(at: usize, length: usize, icv: usize) -> Result<(usize, Option<Kind>), Fault> {
    if at != icv {
        return Err(Fault::IndicatorPlace);
    }
    if length != 16 {
        return Err(Fault::IndicatorLength);
    }
    Ok((length, Some(Kind::IcvIndicator)))
}

fn read_list(body: &[u8]) -> Result<Vec<Listed>, Fault> {
    if !body.len().is_multiple_of(16) {
        return Err(Fault::Length);
    }
    let entry = |e: &[u8]| Listed { mi: part(e, 0), mn: u32_at(e, 12) };
    Ok(body.chunks_exact(16).map(entry).collect())
}

fn read_sak_use(own: u8, body: &[u8]) -> Result<Option<[KeyUse; 2]>, Fault> {
    match body.len() {
        0 => return Ok(None),
        40 => {}
        _ => return Err(Fault::Length),
    }
    let half = |bits: u8, at: usize| KeyUse {
        an: bits >> 2 & 3,
        transmit: bits & 2 != 0,
        receive: bits & 1 != 0,
        mi: part(body, at),
        kn: u32_at(body, at + 12),
        pn: u32_at(body, at + 16),
    };
    // Four bits for each key, the latest's on top.
    Ok(Some([half(own >> 4, 0), half(own & 15, 20)]))
}

fn read_sak(own: u8, body: &[u8], at: usize) -> Result<Option<DistributedSak>, Fault> {
    let (suite, wrapped) = match body.len() {
        0 => return Ok(None),
        28 => ([0; 8], 4),
        36 | 52 => (part(body, 4), 12),
        _ => return Err(Fault::Length),
    };
    let kn = u32_at(body, 0);
    if kn == 0 {
        return Err(Fault::KeyNumberZero);
    }
    Ok(Some(DistributedSak {
        an: own >> 6,
        confidentiality: own >> 4 & 3,
        kn,
        suite,
        place: at + wrapped,
        length: body.len() - wrapped,
    }))
}
