//! The key record (SCOPE, Keys): keys handed out by a peer, our own keys, installation reports.

use super::port::Port;
use super::sets::DistributedSak;
use super::table::{age, Entry, Server, LIFE};
use crate::octets::Mi;

pub const MOST_KEYS: usize = 2;

#[derive(Debug, Clone, PartialEq, Eq)]
pub struct Key {
    pub mi: Mi,
    pub kn: u32,
    pub an: u8,
    pub receive: bool,
    pub transmit: bool,
    pub confidentiality: u8,
    pub suite: [u8; 8],
}

#[derive(Debug, Clone, Copy, PartialEq, Eq)]
pub enum Report {
    Receive,
    Transmit,
}

impl Port {
    /// Latest becomes old, what was old is forgotten.
    fn push_key(&mut self, key: Key) {
        self.keys.insert(0, key);
        self.keys.truncate(MOST_KEYS);
    }

    /// Takes the type 4 set of the elected peer `mi`, none if its body is empty; answers the wrapped key's place and
    /// length if a key was entered.
    pub(super) fn take_sak(&mut self, mi: Mi, sak: Option<DistributedSak>) -> Option<(usize, usize)> {
        let Some(sak) = sak else {
            self.keys.clear();
            return None;
        };
        let known = self.keys.iter().any(|k| k.mi == mi && k.kn == sak.kn);
        let lower = self.keys.first().is_some_and(|latest| latest.mi == mi && sak.kn < latest.kn);
        if known || lower {
            return None;
        }
        self.push_key(Key {
            mi,
            kn: sak.kn,
            an: sak.an,
            receive: false,
            transmit: false,
            confidentiality: sak.confidentiality,
            suite: sak.suite,
        });
        Some((sak.place, sak.length))
    }

    /// Whether a fresh SAK is due at the clock.
    pub fn fresh_due(&self) -> bool {
        let elected = self.server() == Server::Ourselves;
        let paused = age(self.clock, self.last_distribution) >= LIFE;
        let settled = self.peers.iter().all(Entry::live);
        elected && self.mark && (self.kn == 0 || paused || settled)
    }

    /// Refuses with 1, 15, 17, 14 in this order; answers KN and AN of the key.
    pub fn distribute(&mut self, now: u64, wrapped: &[u8]) -> Result<(u32, u8), u8> {
        self.timed(now, |port| {
            let wrapped: [u8; 24] = wrapped.try_into().map_err(|_| 15)?;
            if !port.fresh_due() {
                return Err(17);
            }
            let kn = port.kn.checked_add(1).ok_or(14)?;
            let an = port.keys.first().map_or(0, |latest| (latest.an + 1) % 4);
            port.kn = kn;
            port.mark = false;
            port.last_distribution = now;
            port.wrapped = wrapped;
            port.push_key(Key {
                mi: port.mi,
                kn,
                an,
                receive: false,
                transmit: false,
                confidentiality: if port.capability == 1 { 0 } else { 1 },
                suite: [0; 8],
            });
            Ok((kn, an))
        })
    }

    /// Refuses with 18.
    pub fn report(&mut self, what: Report, mi: Mi, kn: u32) -> Result<(), u8> {
        let latest = self.keys.first_mut().filter(|k| k.mi == mi && k.kn == kn).ok_or(18)?;
        match what {
            Report::Receive => latest.receive = true,
            Report::Transmit if latest.receive => latest.transmit = true,
            Report::Transmit => return Err(18),
        }
        Ok(())
    }
}
