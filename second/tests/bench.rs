//! SCOPE, Bench cases.

mod common;
use common::{echo, frame, mi_text, set, Script};

fn status(script: Script) -> String {
    script.ask().last()
}

/// A participant that sent `sent` frames at time 0.
fn sent(sent: u32) -> Script {
    (0..sent).fold(Script::case_1(), |script, _| script.send(0))
}

#[test]
fn case_1_image() {
    let line = Script::case_1().save(144).last();
    let image = line.strip_prefix("image ").expect("an image");
    assert_eq!(image.len(), 2 * 144);
    assert!(image.starts_with("00030000000100010000001c00020000000000900003000000000090"));
    assert_eq!(Script::case_1().save(143).last(), "refused 13");
    let octets = second::octets::unhex(image).expect("hex");
    let shown = Script::default().show(&octets).last();
    assert_eq!(shown, "sent 0 live 0 potential 0 server none key none");
}

#[test]
fn case_2_first_send() {
    let want = "sent 030500340110e020".to_string()
        + "0200000000010001111111111111111111111111000000010080c20141424344"
        + "00000000000000000000000000000000";
    assert_eq!(Script::case_1().send_room(0, 56).last(), want);
    let short = Script::case_1().send_room(0, 55).send_room(0, 56).lines();
    assert_eq!(short[1], "refused 13");
    assert_eq!(short[2], want, "a refused send leaves the number");
}

#[test]
fn case_3_recent() {
    let live = |numbers: u32, told: u32| {
        let line = status(sent(numbers).receive(1, &frame(0x22, 1, 16, 9, &[echo(told)])));
        line.contains(" live 1 ")
    };
    let recent: Vec<u32> = (0..=9).filter(|&told| live(7, told)).collect();
    assert_eq!(recent, [4, 5, 6, 7]);
    let recent: Vec<u32> = (0..=9).filter(|&told| live(2, told)).collect();
    assert_eq!(recent, [1, 2]);
}

#[test]
fn case_4_proof_lasts() {
    let base = || {
        let proved = frame(0x22, 1, 16, 9, &[echo(1)]);
        Script::case_1().send(0).receive(1_000, &proved).receive(3_000, &frame(0x22, 2, 16, 9, &[]))
    };
    assert!(status(base().tick(6_999)).contains("live 1 potential 0"));
    assert!(status(base().tick(7_000)).contains("live 0 potential 1"));
    assert!(status(base().tick(8_999)).contains("live 0 potential 1"));
    assert!(status(base().tick(9_000)).contains("live 0 potential 0"));
}

#[test]
fn case_5_replay() {
    let f = frame(0x22, 5, 16, 9, &[]);
    let lines =
        Script::case_1().receive(10, &f).receive(10, &f).receive(6_009, &f).receive(6_010, &f).lines();
    assert_eq!(lines[1..], ["accepted key 0 0", "refused 11", "refused 11", "accepted key 0 0"]);
}

#[test]
fn case_6_election() {
    let heard = |own: u8, priority: u8, sci_end: u8| {
        status(Script::created(0, own).send(0).receive(1, &frame(0x22, 1, priority, sci_end, &[echo(1)])))
    };
    assert!(heard(16, 16, 0).contains(&format!("server {} ", mi_text(0x22))));
    assert!(heard(16, 16, 2).contains("server self "));
    assert!(heard(16, 15, 2).contains(&format!("server {} ", mi_text(0x22))));
    assert!(heard(16, 17, 0).contains("server self "));
    assert!(heard(255, 255, 0).contains("server none "));
    // The same SCI: the MI decides, 11.. before 22..
    assert!(heard(16, 16, 1).contains("server self "));
}

#[test]
fn case_7_lengths() {
    let mut f = frame(0x22, 1, 16, 9, &[]);
    f[7] = 28;
    assert_eq!(Script::case_1().receive(0, &f).last(), "refused 5");
    assert_eq!(Script::default().sets(&f).last(), "refused 5");
    let f = frame(0x22, 1, 16, 9, &[set(1, 0, &[0; 8])]);
    assert_eq!(Script::case_1().receive(0, &f).last(), "refused 9");
    assert_eq!(Script::default().sets(&f).last(), "sets bad@40");
}

#[test]
fn case_8_seventeenth() {
    let full = || {
        (0..16u8).fold(Script::case_1(), |script, i| {
            script.receive(100 + u64::from(i), &frame(0x20 + i, 1, 16, 9, &[]))
        })
    };
    let next = frame(0x40, 1, 16, 9, &[]);
    assert_eq!(full().receive(200, &next).last(), "refused 12");
    assert_eq!(full().receive(6_099, &next).last(), "refused 12");
    assert_eq!(full().receive(6_100, &next).last(), "accepted key 0 0");
    assert!(status(full().receive(6_100, &next)).contains("potential 16 "));
    let zero = frame(0x40, 0, 16, 9, &[]);
    assert_eq!(full().receive(200, &zero).last(), "refused 11");
}
