//! Calls and records outside the bench cases.

mod common;
use common::{echo, frame, sak, set, Script, OWN};
use second::rules::keys::Report;
use second::rules::port::{Creation, Port};

fn port() -> Port {
    let creation = Creation {
        time: 0,
        mi: OWN,
        sci: common::SCI,
        priority: 16,
        capability: 2,
        desired: true,
        ckn: common::CKN,
    };
    Port::create(&creation).expect("created")
}

/// No script reaches refusal 14: it takes as many calls as there are numbers.
#[test]
fn numbers_at_their_end() {
    let mut p = port();
    p.mn = u32::MAX;
    let before = p.clone();
    assert_eq!(p.send(5, 0, 0, 0), Err(14));
    assert_eq!(p, before);
    p.mn = 1;
    p.receive(5, true, &frame(0x22, 1, 17, 9, &[echo(1)])).expect("accepted");
    p.kn = u32::MAX;
    let before = p.clone();
    assert_eq!(p.distribute(6, &[0; 23]), Err(15));
    assert_eq!(p.distribute(6, &[0; 24]), Err(14));
    p.mark = false;
    assert_eq!(p.distribute(6, &[0; 24]), Err(17));
    p.mark = true;
    assert_eq!(p, before);
}

#[test]
fn malformed_and_none() {
    assert_eq!(Script::default().lines(), Vec::<String>::new());
    assert_eq!(Script::default().ask().tick(0).lines(), ["none", "none"]);
    let refused = Script::default().create(0, 16, 4, b"A").create(0, 16, 2, b"").create(0, 16, 1, &[0; 33]);
    assert_eq!(refused.ask().lines(), ["refused 15", "refused 15", "refused 15", "none"]);
    for (op, length) in
        [(0, 0), (12, 0), (1, 30), (2, 8), (3, 17), (3, 19), (4, 7), (5, 9), (6, 21), (8, 1), (9, 1)]
    {
        let lines = Script::case_1().record(op, &[&vec![1; length]]).ask().lines();
        assert_eq!(lines, ["created", "malformed"], "op {op} length {length}");
    }
    assert_eq!(Script::case_1().report(3, OWN, 1).ask().lines(), ["created", "malformed"]);
    for cut in [&[8][..], &[8, 0], &[5, 0, 8, 0, 0]] {
        assert_eq!(Script::case_1().raw(cut).lines(), ["created", "malformed"]);
    }
}

#[test]
fn indicator() {
    let indicator = [255, 7, 0xf0, 16];
    let good = frame(0x22, 1, 16, 9, &[indicator.to_vec()]);
    assert_eq!(Script::default().sets(&good).last(), "sets 255@40+16 end");
    let behind = frame(0x22, 1, 16, 9, &[[&indicator[..], &[0; 16]].concat()]);
    assert_eq!(Script::default().sets(&behind).last(), "sets bad@40");
    let short = frame(0x22, 1, 16, 9, &[vec![255, 0, 0, 12]]);
    assert_eq!(Script::default().sets(&short).last(), "sets bad@40");
}

#[test]
fn words_of_sets() {
    let uses: Vec<u8> = (0..40).collect();
    let f = frame(
        0x22,
        1,
        16,
        9,
        &[set(9, 1, &[0; 4]), echo(7), set(3, 0b10_01_01_10, &uses), sak(258), set(2, 0, &[])],
    );
    let line = Script::default().sets(&f).last();
    let want = "sets 1@48+16:111111111111111111111111.7 \
        3@68+40:2,0,1,000102030405060708090a0b,202182159,269554195;1,1,0,1415161718191a1b1c1d1e1f,539042339,606414375 \
        4@112+28:1,1,258,0000000000000000,120,24 2@144+0 end";
    assert_eq!(line, want);
}

#[test]
fn own_keys() {
    let proved = frame(0x22, 1, 17, 9, &[echo(1)]);
    let base = || Script::case_1().send(0).receive(1, &proved);
    assert!(base().ask().last().ends_with("server self key none hello no fresh due"));
    let lines = base().distribute(2, &[0; 23]).distribute(2, &[7; 24]).distribute(2, &[7; 24]).lines();
    assert_eq!(lines[3..], ["refused 15", "distributed 1 0", "refused 17"]);
    let sent = base().distribute(2, &[7; 24]).report(1, OWN, 1).report(2, OWN, 1).send(3).last();
    let want = [
        "sent 030500940110e0200200000000010001111111111111111111111111000000020080c20141424344",
        "0100001022222222222222222222222200000001",
        "0330002811111111111111111111111100000001000000050000000000000000000000000000000000000000",
        "0410001c00000001",
        &"07".repeat(24),
        &"00".repeat(16),
    ];
    assert_eq!(sent, want.concat());
    let mut p = port();
    assert_eq!(p.report(Report::Receive, OWN, 1), Err(18));
}

#[test]
fn taken_over_in_one_frame() {
    // Elected by the very frame that brings the key.
    let f = frame(0x22, 1, 0, 9, &[echo(1), sak(1)]);
    assert_eq!(Script::case_1().send(0).receive(1, &f).last(), "accepted key 68 24");
    // Elected before the frame, its flag gone with it.
    let lead = frame(0x22, 1, 0, 9, &[echo(1)]);
    let mut gone = frame(0x22, 2, 0, 9, &[echo(1), sak(1)]);
    gone[6] &= 0x7f;
    assert_eq!(Script::case_1().send(0).receive(1, &lead).receive(1, &gone).last(), "accepted key 0 0");
}

#[test]
fn refusals_change_nothing() {
    let proved = frame(0x22, 1, 17, 9, &[echo(1)]);
    let base = || Script::case_1().send(0).receive(1, &proved);
    let before = base().save(2_048).last();
    for refused in [
        base().tick(0),
        base().receive(9_000, &proved[..50]),
        base().send_room(9_000, 10),
        base().distribute(9_000, &[]),
        base().new_mi(9_000, OWN),
        base().report(1, OWN, 1),
        base().save(100),
    ] {
        assert!(refused.last().starts_with("refused "));
        assert_eq!(refused.save(2_048).last(), before);
    }
}
