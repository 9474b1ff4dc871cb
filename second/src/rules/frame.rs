//! The EAPOL header and the Basic set (SCOPE, Reading an EAPOL-MKA frame): facts 2 to 5.

use crate::octets::{padded, part, u16_at, u32_at, Mi, Sci};

pub const ICV: usize = 16;
pub const AGILITY: [u8; 4] = [0x00, 0x80, 0xc2, 0x01];

/// The Basic set, and where the further sets and the ICV stand in the frame.
#[derive(Debug)]
pub struct Basic<'a> {
    pub priority: u8,
    pub key_server: bool,
    pub desired: bool,
    pub capability: u8,
    pub sci: Sci,
    pub mi: Mi,
    pub mn: u32,
    pub agility: [u8; 4],
    pub ckn: &'a [u8],
    /// Place of the first further set (or of the ICV if there is none).
    pub sets: usize,
    /// Place of the ICV.
    pub icv: usize,
}

impl<'a> Basic<'a> {
    /// Refuses with 2 to 5.
    pub fn read(frame: &'a [u8]) -> Result<Basic<'a>, u8> {
        let end = body_end(frame)?;
        let length = set_length(frame[6], frame[7]);
        if !(29..=60).contains(&length) || 8 + padded(length) + ICV > end {
            return Err(5);
        }
        Ok(Basic {
            priority: frame[5],
            key_server: frame[6] & 0x80 != 0,
            desired: frame[6] & 0x40 != 0,
            capability: frame[6] >> 4 & 3,
            sci: part(frame, 8),
            mi: part(frame, 16),
            mn: u32_at(frame, 28),
            agility: part(frame, 32),
            ckn: &frame[36..8 + length],
            sets: 8 + padded(length),
            icv: end - ICV,
        })
    }
}

/// Where the body ends; refuses with 2 to 4.
fn body_end(frame: &[u8]) -> Result<usize, u8> {
    if frame.len() < 4 {
        return Err(2);
    }
    let body = usize::from(u16_at(frame, 2));
    if 4 + body > frame.len() {
        return Err(2);
    }
    if frame[0] < 3 || frame[1] != 5 {
        return Err(3);
    }
    if body < 32 || body % 4 != 0 {
        return Err(4);
    }
    Ok(4 + body)
}

/// The length of a set: the low four bits of its third octet, then its fourth.
pub fn set_length(third: u8, fourth: u8) -> usize {
    usize::from(third & 0x0f) << 8 | usize::from(fourth)
}
