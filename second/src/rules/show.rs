//! The lines that tell a state (SCOPE, portshow) or the sets of a frame (SCRIPTS).

use super::port::Port;
use super::sets::{KeyUse, Kind, Listed, Set, Walk};
use super::table::Server;
use crate::octets::hex;

/// The line of `portshow`.
pub fn status(port: &Port) -> String {
    let live = port.peers.iter().filter(|e| e.live()).count();
    let potential = port.peers.len() - live;
    let server = match port.server() {
        Server::Nobody => "none".to_string(),
        Server::Ourselves => "self".to_string(),
        Server::Peer(mi) => hex(&mi),
    };
    let key = port.keys.first().map_or("none".to_string(), |latest| latest.kn.to_string());
    format!("sent {} live {live} potential {potential} server {server} key {key}", port.mn)
}

/// The status and what is due.
pub fn questions(port: &Port) -> String {
    let due = |yes| if yes { "due" } else { "no" };
    format!("{} hello {} fresh {}", status(port), due(port.hello_due()), due(port.fresh_due()))
}

/// The words of a walk, parted by one blank.
pub fn sets(walk: &Walk) -> String {
    let mut words = vec!["sets".to_string()];
    words.extend(walk.sets.iter().map(word));
    words.push(match walk.bad {
        None => "end".to_string(),
        Some((place, _)) => format!("bad@{place}"),
    });
    words.join(" ")
}

fn word(set: &Set) -> String {
    let (number, fields) = match &set.kind {
        Kind::Live(list) => (1, entries(list)),
        Kind::Potential(list) => (2, entries(list)),
        Kind::SakUse(uses) => {
            let both = uses.map(|[latest, old]| format!("{};{}", key_use(&latest), key_use(&old)));
            (3, both.unwrap_or_default())
        }
        Kind::DistributedSak(sak) => {
            let sak = sak.map(|s| {
                let suite = hex(&s.suite);
                format!("{},{},{},{suite},{},{}", s.an, s.confidentiality, s.kn, s.place, s.length)
            });
            (4, sak.unwrap_or_default())
        }
        Kind::IcvIndicator => (255, String::new()),
    };
    let colon = if fields.is_empty() { "" } else { ":" };
    format!("{number}@{}+{}{colon}{fields}", set.place, set.length)
}

fn entries(list: &[Listed]) -> String {
    let all: Vec<String> = list.iter().map(|e| format!("{}.{}", hex(&e.mi), e.mn)).collect();
    all.join(",")
}

fn key_use(u: &KeyUse) -> String {
    let (transmit, receive) = (u8::from(u.transmit), u8::from(u.receive));
    format!("{},{transmit},{receive},{},{},{}", u.an, hex(&u.mi), u.kn, u.pn)
}
