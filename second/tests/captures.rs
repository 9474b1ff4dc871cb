//! Frames captured between two other implementations.

mod common;
use common::Script;
use second::octets::unhex;

struct Heard {
    time: u64,
    good: bool,
    sender: String,
    frame: Vec<u8>,
}

fn capture(text: &str) -> Vec<Heard> {
    let line = |line: &str| {
        let words: Vec<&str> = line.split_whitespace().collect();
        Heard {
            time: words[0].parse().expect("a time"),
            good: words[1] == "yes",
            sender: words[2].to_string(),
            frame: unhex(words[3]).expect("hex"),
        }
    };
    text.lines().map(line).collect()
}

const CAPTURES: [(&str, &[u8]); 2] =
    [(include_str!("../data/pair128.hex"), b"ABCD"), (include_str!("../data/odd_ckn.hex"), b"ABCDE")];

#[test]
fn passive_participant_hears_all() {
    for (text, ckn) in CAPTURES {
        let mut script = Script::default().create(0, 255, 2, ckn);
        for heard in capture(text) {
            assert!(heard.good);
            script = script.receive(heard.time, &heard.frame).sets(&heard.frame);
        }
        let lines = script.ask().lines();
        for pair in lines[1..lines.len() - 1].chunks(2) {
            // Nobody is elected without a proof, so every key is passed over.
            assert_eq!(pair[0], "accepted key 0 0");
            assert!(pair[1].starts_with("sets ") && pair[1].ends_with(" end"), "{}", pair[1]);
        }
        let last = lines.last().expect("a line");
        assert!(last.starts_with("sent 0 live 0 potential 2 server none key none"), "{last}");
    }
}

#[test]
fn other_name_is_refused() {
    for (text, _) in CAPTURES {
        for heard in capture(text) {
            let lines =
                Script::default().create(0, 255, 2, b"ABCF").receive(heard.time, &heard.frame).lines();
            assert_eq!(lines[1], "refused 6");
        }
    }
}

/// Frames with an ICV that was made for them, one with octets behind its body.
#[test]
fn made_frames() {
    let basic = "0110e0200200000000010001111111111111111111111111000000010080c20141424344";
    let bare = unhex(&format!("03050034{basic}2b3d40aee03e264eaf7fe4f9c2b4c9c2")).expect("hex");
    assert_eq!(Script::default().sets(&bare).last(), "sets end");
    let list = "030500540110e02c0200000000010001111111111111111111111111000000020080c201\
        96437a93ccf10d9dfe347846cce52c7d0100001022222222222222222222222200000007\
        f76d17511e553a88d60a4c8d49904e860000000000000000";
    let list = unhex(list).expect("hex");
    assert_eq!(Script::default().sets(&list).last(), "sets 1@52+16:222222222222222222222222.7 end");
    let ckn = unhex("96437a93ccf10d9dfe347846cce52c7d").expect("hex");
    let mut script = Script::default().record(1, &[&[0; 8], &[0x22; 12], &[9; 8], &[32, 2, 1], &ckn]);
    for _ in 0..7 {
        script = script.send(0);
    }
    let heard = script.receive(1, &list).ask().last();
    assert!(heard.contains("live 1 potential 0 server 111111111111111111111111 "), "{heard}");
}

/// Takes the place of the second station: hears the first one's frames, and sends where it sent.
#[test]
fn in_the_place_of_the_second_station() {
    for (text, ckn) in CAPTURES {
        let heard = capture(text);
        let ours = |h: &Heard| h.sender == "020000000002";
        let first = heard.iter().find(|h| ours(h)).expect("a frame of ours");
        let server = heard.iter().find(|h| !ours(h)).expect("a frame of the other's");
        let bits = first.frame[6];
        let mut script = Script::default().record(
            1,
            &[
                &[0; 8],
                &first.frame[16..28],
                &first.frame[8..16],
                &[first.frame[5], bits >> 4 & 3, bits >> 6 & 1],
                ckn,
            ],
        );
        for h in &heard {
            script = if ours(h) { script.send(h.time) } else { script.receive(h.time, &h.frame) };
        }
        let lines = script.ask().lines();
        let keys = lines.iter().filter(|l| l.starts_with("accepted key") && l.ends_with(" 24")).count();
        assert_eq!(keys, 1, "the one key that was handed out");
        let last = lines.last().expect("a line");
        let elected = second::octets::hex(&server.frame[16..28]);
        assert!(last.contains(&format!("live 1 potential 0 server {elected} key 1")), "{last}");
        // One of our frames has to be theirs octet by octet, up to the ICV.
        let same = heard.iter().zip(&lines[1..]).filter(|(h, line)| {
            let plain = second::octets::hex(&h.frame[..h.frame.len() - 16]);
            ours(h) && line.strip_prefix("sent ").is_some_and(|sent| sent.starts_with(&plain))
        });
        assert!(same.count() >= 1);
    }
}
