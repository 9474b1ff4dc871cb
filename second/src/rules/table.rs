//! The peer table (SCOPE, The table and its clock), and the choice of the Key Server (SCOPE, Who is Key Server).

use crate::octets::{Mi, Sci};

pub const LIFE: u64 = 6_000;
pub const HELLO: u64 = 2_000;
pub const MOST_PEERS: usize = 16;

#[derive(Debug, Clone, PartialEq, Eq)]
pub struct Entry {
    pub mi: Mi,
    pub mn: u32,
    pub sci: Sci,
    pub priority: u8,
    pub key_server: bool,
    pub desired: bool,
    pub capability: u8,
    /// When its last frame was accepted.
    pub accepted: u64,
    /// When it last proved that it hears us; an entry with a proof is Live, any other Potential.
    pub proof: Option<u64>,
}

impl Entry {
    pub fn live(&self) -> bool {
        self.proof.is_some()
    }
}

/// How long ago `then` is. No time on record is after the clock, so nothing is cut off.
pub fn age(now: u64, then: u64) -> u64 {
    now.saturating_sub(then)
}

/// The table as expiry makes it at `now`; the order of those that stay is kept.
pub fn expired(table: &[Entry], now: u64) -> Vec<Entry> {
    let mut left = table.to_vec();
    left.retain(|e| age(now, e.accepted) < LIFE);
    for entry in &mut left {
        entry.proof = entry.proof.filter(|&proof| age(now, proof) < LIFE);
    }
    left
}

#[derive(Debug, Clone, Copy, PartialEq, Eq)]
pub enum Server {
    Nobody,
    Ourselves,
    Peer(Mi),
}

/// Elects among ourselves (priority, SCI, MI) and the Live peers, the lowest in this order.
pub fn elect(own: (u8, Sci, Mi), table: &[Entry]) -> Server {
    // Any Live peer lifts "nobody", also one that doesn't stand itself.
    if !table.iter().any(Entry::live) {
        return Server::Nobody;
    }
    let ourselves = (own, Server::Ourselves);
    table
        .iter()
        .filter(|e| e.live() && e.key_server)
        .map(|e| ((e.priority, e.sci, e.mi), Server::Peer(e.mi)))
        .chain([ourselves])
        .filter(|&((priority, ..), _)| priority != 255)
        .min_by_key(|&(rank, _)| rank)
        .map_or(Server::Nobody, |(_, server)| server)
}
