//! Tells what a call reached, from the states before and after it. The participant knows nothing of it.

use crate::octets::u16_at;
use crate::reach::{Reach, Thing as T};
use crate::rules::frame::{Basic, AGILITY};
use crate::rules::keys::Report;
use crate::rules::port::{Creation, Port};
use crate::rules::script::{Call, Line};
use crate::rules::sets::{Fault, Kind, Walk};
use crate::rules::table::{age, expired, Server, LIFE, MOST_PEERS};

impl Reach {
    pub fn watch(&mut self, before: Option<&Port>, call: Option<&Call>, line: &Line, after: Option<&Port>) {
        let Some(call) = call else {
            return self.count(T::Malformed);
        };
        if let Line::Refused(number) = line {
            self.count_refusal(op(call), *number);
        }
        match (call, before, after) {
            (Call::Create(c), ..) => self.creation(c, before, line),
            (Call::Show { image }, ..) => self.shown(image),
            (Call::Sets { frame }, ..) => self.walk(frame),
            (_, Some(before), Some(after)) => self.call(before, call, line, after),
            _ => self.count(T::NoParticipant),
        }
    }

    fn creation(&mut self, c: &Creation, before: Option<&Port>, line: &Line) {
        self.count_if(c.time == 0, T::TimeZero);
        self.count_if(c.ckn.is_empty(), T::CreateCknEmpty);
        self.count_if(c.ckn.len() > 32, T::CreateCknLong);
        self.count_if(c.capability == 0, T::CreateCapabilityLow);
        self.count_if(c.capability > 3, T::CreateCapabilityHigh);
        if let (Some(before), Line::Said(_)) = (before, line) {
            self.count(T::CreatedAgain);
            self.count_if(c.time < before.clock, T::CreatedBack);
        }
    }

    fn shown(&mut self, image: &[u8]) {
        if let Ok(port) = Port::read_image(image) {
            self.count(match port.server() {
                Server::Nobody => T::ShownNone,
                Server::Ourselves => T::ShownSelf,
                Server::Peer(_) => T::ShownPeer,
            });
        }
    }

    fn walk(&mut self, frame: &[u8]) {
        let Ok(basic) = Basic::read(frame) else {
            return;
        };
        let walk = Walk::over(frame, &basic);
        self.count_if(basic.ckn.len() % 4 != 0, T::WalkPadded);
        self.count_if(frame.len() > 4 + usize::from(u16_at(frame, 2)), T::WalkTrailing);
        for set in &walk.sets {
            match (&set.kind, set.length) {
                (Kind::Live(_) | Kind::Potential(_), 0) => self.count(T::WalkListEmpty),
                (Kind::Live(_) | Kind::Potential(_), length) => {
                    self.count(T::WalkList);
                    self.count_if(length >= 256, T::WalkListLong);
                }
                (Kind::SakUse(uses), _) => {
                    self.count(if uses.is_some() { T::WalkUse } else { T::WalkUseEmpty })
                }
                (Kind::DistributedSak(_), 0) => self.count(T::WalkSakEmpty),
                (Kind::DistributedSak(_), 28) => self.count(T::WalkSak28),
                (Kind::DistributedSak(_), 36) => self.count(T::WalkSak36),
                (Kind::DistributedSak(_), _) => self.count(T::WalkSak52),
                (Kind::IcvIndicator, _) => self.count(T::WalkIndicator),
            }
        }
        match walk.bad {
            None => {
                self.count(T::WalkEnd);
                let told: usize = walk.sets.iter().map(|set| 4 + set.length).sum();
                self.count_if(basic.sets + told < basic.icv, T::WalkOther);
            }
            Some((_, fault)) => self.count(match fault {
                Fault::Fit => T::FaultFit,
                Fault::Length => T::FaultLength,
                Fault::Twice => T::FaultTwice,
                Fault::KeyNumberZero => T::FaultKeyNumberZero,
                Fault::IndicatorPlace => T::FaultIndicatorPlace,
                Fault::IndicatorLength => T::FaultIndicatorLength,
            }),
        }
    }

    fn call(&mut self, before: &Port, call: &Call, line: &Line, after: &Port) {
        let done = matches!(line, Line::Said(_));
        if let Some(time) = time(call) {
            self.expiry(before, call, time, done);
        }
        match *call {
            Call::Receive { time, verdict, frame } => {
                self.walk(frame);
                match line {
                    Line::Refused(number) => self.receive_refused(before, time, verdict, frame, *number),
                    _ => self.received(before, time, frame, after),
                }
            }
            Call::Send { room, .. } => self.sending(before, room, line, after),
            Call::Distribute { time, wrapped } => self.distribution(before, time, wrapped, line, after),
            Call::NewMi { mi, .. } => {
                self.count_if(mi == before.mi, T::MiPresent);
                self.count_if(before.keys.first().is_some_and(|k| k.mi == mi), T::MiOfLatest);
                self.count_if(before.keys.get(1).is_some_and(|k| k.mi == mi), T::MiOfOld);
                self.count_if(done && before.peers.iter().any(|e| e.mi == mi), T::MiOfPeer);
                self.count_if(done, T::MiTaken);
                self.count_if(done && !before.keys.is_empty(), T::MiWithKeys);
            }
            Call::Report { what, mi, kn } => self.reporting(before, what, (mi, kn), done),
            Call::Ask => self.questions(before),
            Call::Save { room } => {
                let length = before.save(usize::MAX).map_or(0, |image| image.len());
                self.count_if(room == length, T::SaveExact);
                self.count_if(room + 1 == length, T::SaveShort);
                self.count_if(before.peers.is_empty(), T::SavedEmpty);
                self.count_if(before.peers.len() == MOST_PEERS, T::SavedFull);
                self.count([T::SavedNoKey, T::SavedOneKey, T::SavedTwoKeys][before.keys.len().min(2)]);
            }
            Call::Tick { .. } | Call::Create(_) | Call::Show { .. } | Call::Sets { .. } => {}
        }
    }

    fn expiry(&mut self, before: &Port, call: &Call, time: u64, done: bool) {
        let left = expired(&before.peers, time);
        let gone = before.peers.len() - left.len();
        let lost = left.iter().filter(|e| !e.live()).count()
            - before.peers.iter().filter(|e| !e.live() && left.iter().any(|l| l.mi == e.mi)).count();
        if !done {
            return self.count_if(time >= before.clock && gone + lost > 0, T::WouldGoRefused);
        }
        self.count_if(time == 0, T::TimeZero);
        self.count_if(time == u64::MAX, T::TimeLast);
        self.count_if(time == before.clock, T::TimeEqual);
        self.count_if(lost > 0, T::LostProof);
        if gone > 0 {
            match call {
                Call::Receive { .. } => self.count(T::RemovedByReceive),
                Call::Send { .. } => self.count(T::RemovedBySend),
                Call::Distribute { .. } => self.count(T::RemovedByDistribute),
                Call::Tick { .. } => self.count(T::RemovedByTick),
                _ => {}
            }
        }
        for entry in &before.peers {
            let (heard, proved) = (age(time, entry.accepted), entry.proof.map(|proof| age(time, proof)));
            self.count_if(heard == LIFE, T::RemovedAt6000);
            self.count_if(heard == LIFE - 1, T::KeptAt5999);
            self.count_if(heard < LIFE && proved == Some(LIFE), T::LostAt6000);
            self.count_if(heard < LIFE && proved == Some(LIFE - 1), T::HeldAt5999);
        }
    }

    fn receive_refused(&mut self, before: &Port, time: u64, verdict: bool, frame: &[u8], number: u8) {
        let basic = match Basic::read(frame) {
            Ok(basic) => basic,
            Err(_) => {
                let odd = frame.len() >= 4 && !u16_at(frame, 2).is_multiple_of(4);
                self.count_if(number == 1, T::OneBeforeFrame);
                return self.count_if(number == 3 && odd, T::ThreeBeforeFour);
            }
        };
        let bad = Walk::over(frame, &basic).bad.is_some();
        let left = expired(&before.peers, time);
        let held = left.iter().find(|e| e.mi == basic.mi);
        match number {
            6 => self.count_if(basic.agility != AGILITY, T::SixBeforeSeven),
            7 => self.count_if(!verdict, T::SevenBeforeEight),
            8 => self.count_if(bad, T::EightBeforeNine),
            9 => self.count_if(basic.mi == before.mi, T::NineBeforeTen),
            10 => self.count_if(basic.mn == 0, T::TenBeforeEleven),
            11 => {
                self.count_if(basic.mn == 0, T::NumberZero);
                self.count_if(held.is_some_and(|e| e.mn == basic.mn), T::NumberEqual);
                self.count_if(basic.mn > 0 && held.is_some_and(|e| basic.mn < e.mn), T::NumberLower);
                self.count_if(held.is_none() && left.len() == MOST_PEERS, T::ElevenBeforeTwelve);
            }
            _ => {}
        }
    }

    fn sending(&mut self, before: &Port, room: usize, line: &Line, after: &Port) {
        if let Line::Refused(number) = line {
            let time = before.clock;
            let length = before.clone().send(time, usize::MAX, 0, 0).map_or(0, |frame| frame.len());
            return self.count_if(*number == 13 && room + 1 == length, T::RoomShort);
        }
        let Line::Said(text) = line else {
            return;
        };
        self.count_if((text.len() - "sent ".len()) / 2 == room, T::RoomExact);
        let live = after.peers.iter().filter(|e| e.live()).count();
        self.count_if(live > 0 && live < after.peers.len(), T::SentBothLists);
        self.count_if(after.peers.len() == MOST_PEERS, T::Sent16);
        self.count_if(after.keys.len() == 1, T::SentUse);
        self.count_if(after.keys.len() == 2, T::SentUseOld);
        let server = after.server();
        self.count_if(matches!(server, Server::Peer(_)), T::SentUnflagged);
        self.count_if(after.priority == 255 && server == Server::Nobody, T::SentFlagged255);
        if after.keys.first().is_some_and(|k| k.mi == after.mi) {
            self.count(match (server, after.mark) {
                (Server::Ourselves, false) => T::SentSak,
                (Server::Ourselves, true) => T::SentSakWithheld,
                _ => T::SentSakUnelected,
            });
        }
    }

    fn distribution(&mut self, before: &Port, time: u64, wrapped: &[u8], line: &Line, after: &Port) {
        if time < before.clock {
            return;
        }
        let mut then = before.clone();
        then.peers = expired(&then.peers, time);
        then.clock = time;
        let pause = age(time, then.last_distribution);
        let potential = then.peers.iter().any(|e| !e.live());
        if matches!(line, Line::Refused(_)) {
            self.count_if(wrapped.len() != 24 && !then.fresh_due(), T::FifteenBeforeSeventeen);
            let elected = then.server() == Server::Ourselves;
            self.count_if(!elected, T::NotDueUnelected);
            self.count_if(elected && !then.mark, T::NotDueUnmarked);
            self.count_if(elected && then.mark && !then.fresh_due(), T::NotDuePaused);
            self.count_if(elected && then.mark && potential && pause == LIFE - 1, T::PauseAt5999);
            return;
        }
        self.count_if(then.kn == 0, T::OwnFirst);
        self.count_if(then.kn > 0 && potential, T::OwnAfterPause);
        self.count_if(then.kn > 0 && potential && pause == LIFE, T::PauseAt6000);
        self.count_if(then.kn > 0 && pause < LIFE, T::OwnSettled);
        let latest = before.keys.first();
        self.count_if(latest.is_some_and(|k| k.mi != before.mi), T::OwnAfterPeer);
        self.count_if(latest.is_some_and(|k| k.an == 3), T::AnRound);
        self.count_if(latest.is_none(), T::AnFirst);
        self.count(if after.keys[0].confidentiality == 0 { T::Open } else { T::Confidential });
    }

    fn reporting(&mut self, before: &Port, what: Report, named: ([u8; 12], u32), done: bool) {
        let Some(latest) = before.keys.first() else {
            return self.count(T::ReportNoKey);
        };
        let old = before.keys.get(1).is_some_and(|k| (k.mi, k.kn) == named);
        let is_latest = (latest.mi, latest.kn) == named;
        self.count_if(old, T::ReportOld);
        self.count_if(!old && named.0 != latest.mi, T::ReportOtherMi);
        self.count_if(named.0 == latest.mi && named.1 != latest.kn, T::ReportOtherKn);
        self.count_if(is_latest && !done, T::ReportTransmitFirst);
        if done {
            let (thing, set) = match what {
                Report::Receive => (T::ReportReceive, latest.receive),
                Report::Transmit => (T::ReportTransmit, latest.transmit),
            };
            self.count(if set { T::ReportRepeated } else { thing });
            self.count_if(what == Report::Receive && latest.transmit, T::ReportReceiveAfter);
        }
    }

    fn questions(&mut self, port: &Port) {
        self.election(port);
        let pause = age(port.clock, port.last_send);
        self.count_if(port.mn == 0, T::HelloFirst);
        self.count_if(port.mn > 0 && pause == 1_999, T::HelloAt1999);
        self.count_if(port.mn > 0 && pause == 2_000, T::HelloAt2000);
        self.count(if port.fresh_due() { T::FreshDue } else { T::FreshNot });
    }
}

/// The op of a call that can be refused.
fn op(call: &Call) -> u8 {
    match call {
        Call::Create(_) => 1,
        Call::Receive { .. } => 2,
        Call::Send { .. } => 3,
        Call::Distribute { .. } => 4,
        Call::Tick { .. } => 5,
        Call::NewMi { .. } => 6,
        Call::Report { .. } => 7,
        Call::Ask => 8,
        Call::Save { .. } => 9,
        Call::Show { .. } => 10,
        Call::Sets { .. } => 11,
    }
}

fn time(call: &Call) -> Option<u64> {
    match *call {
        Call::Receive { time, .. }
        | Call::Send { time, .. }
        | Call::Distribute { time, .. }
        | Call::Tick { time }
        | Call::NewMi { time, .. } => Some(time),
        _ => None,
    }
}
