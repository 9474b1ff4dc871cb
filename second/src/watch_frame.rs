//! Tells what an accepted frame reached, and how an election was decided.

use crate::reach::{Reach, Thing as T};
use crate::rules::frame::Basic;
use crate::rules::port::Port;
use crate::rules::sets::{Kind, Walk};
use crate::rules::table::{expired, Entry, Server, MOST_PEERS};

impl Reach {
    pub(crate) fn received(&mut self, before: &Port, time: u64, frame: &[u8], after: &Port) {
        let Ok(basic) = Basic::read(frame) else {
            return;
        };
        let walk = Walk::over(frame, &basic);
        let left = expired(&before.peers, time);
        let known = before.peers.iter().find(|e| e.mi == basic.mi);
        let held = left.iter().find(|e| e.mi == basic.mi);
        self.count(if held.is_some() { T::Updated } else { T::Entered });
        self.count_if(known.is_some() && held.is_none(), T::ReEntered);
        self.count_if(before.peers.len() == MOST_PEERS && known.is_none(), T::FullAndOneGoes);
        self.count_if(basic.sci == before.sci, T::OurSciHeard);
        let former = before.keys.iter().any(|k| k.mi == basic.mi) && known.is_none();
        self.count_if(former && before.kn == 0, T::FormerMiHeard);

        let proves = self.echoes(before, &walk);
        let was_live = held.is_some_and(Entry::live);
        self.count_if(proves && was_live, T::ProofRenewed);
        self.count_if(!proves && was_live, T::LiveWithoutProof);
        if after.mark && !before.mark {
            self.count_if(held.is_none(), T::MarkByNew);
            let lapsed = held.is_some() && known.is_some_and(Entry::live);
            self.count_if(lapsed, T::MarkByLapsed);
            self.count_if(held.is_some() && !lapsed, T::MarkByPotential);
            self.count_if(after.server() != Server::Ourselves, T::MarkUnelected);
        }
        if let Some(sak) = walk.distributed_sak() {
            let then = Port { peers: left.clone(), ..before.clone() };
            self.key(&then, &basic, sak.map(|s| (s.kn, s.length, s.suite)), after);
        }
    }

    /// Counts our numbers in the lists; whether one of them proves.
    fn echoes(&mut self, before: &Port, walk: &Walk) -> bool {
        let mut proves = false;
        for set in &walk.sets {
            let (list, thing) = match &set.kind {
                Kind::Live(list) => (list, T::ProofByLiveList),
                Kind::Potential(list) => (list, T::ProofByPotentialList),
                _ => continue,
            };
            for (i, entry) in list.iter().enumerate().filter(|(_, e)| e.mi == before.mi) {
                let back = before.mn.checked_sub(entry.mn);
                match (entry.mn, back) {
                    (0, _) => self.count(T::NoProofZero),
                    (_, None) => self.count(T::NoProofAbove),
                    (_, Some(back @ 0..=3)) => {
                        proves = true;
                        self.count(thing);
                        self.count_if(i > 0, T::ProofBehindOther);
                        let nth = [T::ProofLast, T::ProofSecond, T::ProofThird, T::ProofFourth];
                        self.count(nth[back as usize]);
                    }
                    (_, Some(4)) => self.count(T::NoProofFifth),
                    _ => {}
                }
            }
        }
        proves
    }

    /// A type 4 set: its KN, wrapped length and suite, or none if it is empty.
    fn key(&mut self, then: &Port, basic: &Basic, sak: Option<(u32, usize, [u8; 8])>, after: &Port) {
        let sender = Server::Peer(basic.mi);
        let elected = after.server() == sender;
        let Some((kn, length, suite)) = sak else {
            return self.count(match (elected, then.keys.is_empty()) {
                (false, _) => T::EmptyUnelected,
                (true, true) => T::EmptyWithoutKeys,
                (true, false) => T::KeysDropped,
            });
        };
        if !elected {
            self.count_if(then.server() == sender, T::KeyNoMore);
            return self.count(T::KeyUnelected);
        }
        let (latest, old) = (then.keys.first(), then.keys.get(1));
        if latest.is_some_and(|k| (k.mi, k.kn) == (basic.mi, kn)) {
            self.count(T::KeySameLatest);
        } else if old.is_some_and(|k| (k.mi, k.kn) == (basic.mi, kn)) {
            self.count(T::KeySameOld);
        } else if latest.is_some_and(|k| k.mi == basic.mi && kn < k.kn) {
            self.count(T::KeyLower);
        } else {
            self.count_if(then.server() != sender, T::KeyByTurn);
            self.count_if(old.is_some_and(|k| k.mi == basic.mi && kn < k.kn), T::KeyLowerThanOld);
            self.count_if(after.mark, T::KeyWhileMarked);
            self.count(match (length, suite) {
                (40, _) => T::Key52,
                (_, [0, 0, 0, 0, 0, 0, 0, 0]) => T::Key28,
                _ => T::Key36,
            });
        }
    }

    /// Who is elected, and what decided it against the next best.
    pub(crate) fn election(&mut self, port: &Port) {
        let mut stand: Vec<_> = port
            .peers
            .iter()
            .filter(|e| e.live() && e.key_server && e.priority != 255)
            .map(|e| (e.priority, e.sci, e.mi))
            .collect();
        if port.priority != 255 {
            stand.push((port.priority, port.sci, port.mi));
        }
        stand.sort();
        let things = match port.server() {
            Server::Nobody => {
                let alone = port.peers.iter().all(|e| !e.live());
                return self.count(if alone { T::NobodyAlone } else { T::NobodyStands });
            }
            Server::Ourselves => [T::SelfUnopposed, T::SelfByPriority, T::SelfBySci, T::SelfByMi],
            Server::Peer(_) => [T::PeerUnopposed, T::PeerByPriority, T::PeerBySci, T::PeerByMi],
        };
        self.count(match stand[..] {
            [first, second, ..] if first.0 != second.0 => things[1],
            [first, second, ..] if first.1 != second.1 => things[2],
            [_, _, ..] => things[3],
            _ => things[0],
        });
    }
}
