//! The participant: its state and the calls on it, other than sending and keys (SCOPE, The table and its clock).
//!
//! Every timed call works on an expired copy that replaces the state only where the call is
//! accepted, so a refusal leaves everything as it was.

use super::frame::{Basic, AGILITY};
use super::keys::Key;
use super::sets::{Kind, Walk};
use super::table::{age, elect, expired, Entry, Server, HELLO, MOST_PEERS};
use crate::octets::{Mi, Sci};

#[derive(Debug, Clone, PartialEq, Eq)]
pub struct Port {
    pub mi: Mi,
    pub mn: u32,
    pub sci: Sci,
    pub priority: u8,
    pub capability: u8,
    pub desired: bool,
    /// Some peer became Live since our last distribution.
    pub mark: bool,
    pub clock: u64,
    pub last_send: u64,
    pub kn: u32,
    pub last_distribution: u64,
    pub ckn: Vec<u8>,
    pub wrapped: [u8; 24],
    pub peers: Vec<Entry>,
    /// Latest first, at most two.
    pub keys: Vec<Key>,
}

/// What creating takes.
pub struct Creation<'a> {
    pub time: u64,
    pub mi: Mi,
    pub sci: Sci,
    pub priority: u8,
    pub capability: u8,
    pub desired: bool,
    pub ckn: &'a [u8],
}

impl Port {
    /// Refuses with 15.
    pub fn create(c: &Creation) -> Result<Port, u8> {
        if !(1..=32).contains(&c.ckn.len()) || !(1..=3).contains(&c.capability) {
            return Err(15);
        }
        Ok(Port {
            mi: c.mi,
            mn: 0,
            sci: c.sci,
            priority: c.priority,
            capability: c.capability,
            desired: c.desired,
            mark: false,
            clock: c.time,
            last_send: 0,
            kn: 0,
            last_distribution: 0,
            ckn: c.ckn.to_vec(),
            wrapped: [0; 24],
            peers: Vec::new(),
            keys: Vec::new(),
        })
    }

    /// A call at `now`: refused with 1 if that is earlier than the clock.
    pub(super) fn timed<T>(
        &mut self,
        now: u64,
        call: impl FnOnce(&mut Port) -> Result<T, u8>,
    ) -> Result<T, u8> {
        if now < self.clock {
            return Err(1);
        }
        let mut next = self.clone();
        next.peers = expired(&self.peers, now);
        next.clock = now;
        let answer = call(&mut next)?;
        *self = next;
        Ok(answer)
    }

    pub fn server(&self) -> Server {
        elect((self.priority, self.sci, self.mi), &self.peers)
    }

    /// Refuses with 1.
    pub fn tick(&mut self, now: u64) -> Result<(), u8> {
        self.timed(now, |_| Ok(()))
    }

    /// Refuses with 1 to 12; answers the wrapped key's place and length if a key was entered.
    pub fn receive(&mut self, now: u64, verdict: bool, frame: &[u8]) -> Result<Option<(usize, usize)>, u8> {
        self.timed(now, |port| port.take_frame(verdict, frame))
    }

    fn take_frame(&mut self, verdict: bool, frame: &[u8]) -> Result<Option<(usize, usize)>, u8> {
        let basic = Basic::read(frame)?;
        let walk = Walk::over(frame, &basic);
        let held = self.peers.iter().position(|e| e.mi == basic.mi);
        self.judge(verdict, &basic, &walk, held)?;
        self.update(held, &basic, &walk);
        match walk.distributed_sak() {
            Some(sak) if self.server() == Server::Peer(basic.mi) => Ok(self.take_sak(basic.mi, sak)),
            _ => Ok(None),
        }
    }

    /// Refuses with the first of 6 to 12 that holds; `held` is the sender's place in the table.
    fn judge(&self, verdict: bool, basic: &Basic, walk: &Walk, held: Option<usize>) -> Result<(), u8> {
        let facts = [
            (6, basic.ckn != self.ckn),
            (7, basic.agility != AGILITY),
            (8, !verdict),
            (9, walk.bad.is_some()),
            (10, basic.mi == self.mi),
            (11, basic.mn == 0 || held.is_some_and(|i| basic.mn <= self.peers[i].mn)),
            (12, held.is_none() && self.peers.len() >= MOST_PEERS),
        ];
        facts.iter().find(|&&(_, holds)| holds).map_or(Ok(()), |&(number, _)| Err(number))
    }

    /// Enters the sender at the end of the table, or updates its entry.
    fn update(&mut self, held: Option<usize>, basic: &Basic, walk: &Walk) {
        let proves = self.proved_by(walk);
        let proof_before = held.and_then(|i| self.peers[i].proof);
        let entry = Entry {
            mi: basic.mi,
            mn: basic.mn,
            sci: basic.sci,
            priority: basic.priority,
            key_server: basic.key_server,
            desired: basic.desired,
            capability: basic.capability,
            accepted: self.clock,
            proof: if proves { Some(self.clock) } else { proof_before },
        };
        match held {
            Some(i) => self.peers[i] = entry,
            None => self.peers.push(entry),
        }
        self.mark |= proves && proof_before.is_none();
    }

    /// Whether a list of the frame tells one of our recent numbers.
    fn proved_by(&self, walk: &Walk) -> bool {
        walk.sets.iter().any(|set| match &set.kind {
            Kind::Live(list) | Kind::Potential(list) => {
                list.iter().any(|e| e.mi == self.mi && self.recent(e.mn))
            }
            _ => false,
        })
    }

    /// Whether `mn` is one of the last four numbers sent under the present MI.
    fn recent(&self, mn: u32) -> bool {
        mn != 0 && mn <= self.mn && self.mn - mn < 4
    }

    /// Refuses with 1, 19. Keys stay.
    pub fn new_mi(&mut self, now: u64, mi: Mi) -> Result<(), u8> {
        self.timed(now, |port| {
            if mi == port.mi || port.keys.iter().any(|k| k.mi == mi) {
                return Err(19);
            }
            port.mi = mi;
            port.peers.clear();
            port.mn = 0;
            port.kn = 0;
            port.mark = false;
            port.wrapped = [0; 24];
            port.last_send = 0;
            port.last_distribution = 0;
            Ok(())
        })
    }

    /// Whether a hello is due at the clock (SCOPE, Sending).
    pub fn hello_due(&self) -> bool {
        self.mn == 0 || age(self.clock, self.last_send) >= HELLO
    }
}
