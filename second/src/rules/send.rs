//! The frame we write (SCOPE, Sending).

use super::frame::{AGILITY, ICV};
use super::keys::Key;
use super::port::Port;
use super::table::{Entry, Server};
use crate::octets::padded;

impl Port {
    /// Refuses with 1, 14, 13 in this order; answers the frame, its ICV zero.
    pub fn send(&mut self, now: u64, room: usize, latest_pn: u32, old_pn: u32) -> Result<Vec<u8>, u8> {
        self.timed(now, |port| {
            port.mn = port.mn.checked_add(1).ok_or(14)?;
            port.last_send = now;
            let frame = port.frame(latest_pn, old_pn);
            if frame.len() > room {
                return Err(13);
            }
            Ok(frame)
        })
    }

    fn frame(&self, latest_pn: u32, old_pn: u32) -> Vec<u8> {
        let server = self.server();
        let mut body = self.basic(!matches!(server, Server::Peer(_)));
        for (kind, live) in [(1, true), (2, false)] {
            let listed: Vec<&Entry> = self.peers.iter().filter(|e| e.live() == live).collect();
            if !listed.is_empty() {
                set(&mut body, kind, 0, &list(&listed));
            }
        }
        if let Some(latest) = self.keys.first() {
            self.sak_use(&mut body, latest, latest_pn, old_pn);
            if latest.mi == self.mi && server == Server::Ourselves && !self.mark {
                let sak = [&latest.kn.to_be_bytes()[..], &self.wrapped].concat();
                set(&mut body, 4, latest.an << 6 | latest.confidentiality << 4, &sak);
            }
        }
        body.extend([0; ICV]);

        let mut frame = vec![3, 5];
        frame.extend((body.len() as u16).to_be_bytes());
        frame.extend(body);
        frame
    }

    fn basic(&self, key_server: bool) -> Vec<u8> {
        let length = 28 + self.ckn.len();
        let bits = u8::from(key_server) << 7 | u8::from(self.desired) << 6 | self.capability << 4;
        let mut basic = vec![1, self.priority, bits | (length >> 8) as u8, length as u8];
        basic.extend(self.sci);
        basic.extend(self.mi);
        basic.extend(self.mn.to_be_bytes());
        basic.extend(AGILITY);
        basic.extend(&self.ckn);
        basic.resize(4 + padded(length), 0);
        basic
    }

    fn sak_use(&self, body: &mut Vec<u8>, latest: &Key, latest_pn: u32, old_pn: u32) {
        let bits = |k: &Key| k.an << 2 | u8::from(k.transmit) << 1 | u8::from(k.receive);
        let half = |k: &Key, pn: u32| [&k.mi[..], &k.kn.to_be_bytes(), &pn.to_be_bytes()].concat();
        let old = self.keys.get(1);
        let mut uses = half(latest, latest_pn);
        uses.extend(old.map_or(vec![0; 20], |old| half(old, old_pn)));
        set(body, 3, bits(latest) << 4 | old.map_or(0, bits), &uses);
    }
}

fn list(entries: &[&Entry]) -> Vec<u8> {
    let mut body = Vec::with_capacity(16 * entries.len());
    for entry in entries {
        body.extend(entry.mi);
        body.extend(entry.mn.to_be_bytes());
    }
    body
}

/// Appends a further set; every body we write is a multiple of 4.
fn set(to: &mut Vec<u8>, kind: u8, own: u8, body: &[u8]) {
    to.extend([kind, own, (body.len() >> 8) as u8, body.len() as u8]);
    to.extend(body);
}
