//! The rules of SCOPE, Port image, one by one.

mod common;
use common::{echo, frame, sak, Script};
use second::octets::unhex;
use second::rules::port::Port;

const OWN: usize = 28;
const PEER: usize = 144;
const KEY: usize = 144 + 2 * 44;

/// Two peers, the first Live and elected, the second Potential; two keys; clock 20,000.
fn image() -> Vec<u8> {
    let line = Script::created(10_000, 16)
        .send(20_000)
        .receive(20_000, &frame(0x22, 1, 0, 9, &[echo(1), sak(3)]))
        .receive(20_000, &frame(0x22, 2, 0, 9, &[echo(1), sak(4)]))
        .receive(20_000, &frame(0x33, 7, 16, 9, &[]))
        .save(2_048)
        .last();
    unhex(line.strip_prefix("image ").expect("an image")).expect("hex")
}

fn good(image: &[u8]) -> bool {
    Port::read_image(image).is_ok()
}

fn with(at: usize, octets: &[u8]) -> Vec<u8> {
    let mut image = image();
    image[at..at + octets.len()].copy_from_slice(octets);
    image
}

fn time(t: u64) -> [u8; 8] {
    t.to_be_bytes()
}

#[test]
fn saved_and_shown() {
    assert_eq!(image().len(), 144 + 2 * 44 + 2 * 28);
    let shown = Script::default().show(&image()).last();
    assert_eq!(shown, "sent 1 live 1 potential 1 server 222222222222222222222222 key 4");
}

#[test]
fn layout() {
    for length in 0..image().len() {
        assert!(!good(&image()[..length]), "cut to {length}");
    }
    assert!(!good(&[image(), vec![0]].concat()));
    for at in 0..OWN {
        assert!(!good(&with(at, &[image()[at] ^ 1])), "contents octet {at}");
    }
    // A kind without records has the offset where its body would stand.
    let mut no_keys = image();
    no_keys.truncate(KEY);
    no_keys[23] = 0;
    assert!(good(&no_keys));
    no_keys[24..28].fill(0);
    assert!(!good(&no_keys));
}

#[test]
fn own_record() {
    for (at, octets, want) in [
        (12, vec![0, 0, 0, 0], false), // MN 0 with a send time
        (25, vec![0], false),
        (25, vec![3], true),
        (25, vec![4], false),
        (26, vec![0], true),
        (26, vec![2], false),
        (27, vec![2], false),
        (36, time(20_001).to_vec(), false), // last send after the clock
        (36, time(0).to_vec(), true),       // MN not 0 with send time 0
        (44, vec![0, 0, 0, 1], true),       // KN without distribution or wrapped key
        (48, time(1).to_vec(), false),      // distribution with KN 0
        (56, vec![0, 0, 0, 0], false),
        (56, vec![0, 0, 0, 3], false), // the fourth octet is unused then
        (56, vec![0, 0, 0, 5], true),
        (56, vec![0, 0, 0, 33], false),
        (56, vec![1, 0, 0, 4], false),
        (64, vec![1], false),       // past the CKN
        (92, vec![1], false),       // wrapped key with KN 0
        (0, vec![0x33; 12], false), // a peer is ours
    ] {
        assert_eq!(good(&with(OWN + at, &octets)), want, "own octet {at} {octets:?}");
    }
    let mut unsent = with(OWN + 12, &[0; 4]);
    unsent[OWN + 36..OWN + 44].fill(0);
    assert!(good(&unsent), "Live peers with MN 0 break no rule");
}

#[test]
fn peers() {
    for (at, octets, want) in [
        (12, vec![0; 4], false),
        (25, vec![0x37], true),
        (25, vec![0x08 | 1], false),
        (25, vec![0x40 | 1], false),
        (25, vec![0x80 | 1], false),
        (25, vec![0], false), // no proof, but a proof time
        (26, vec![1], false),
        (27, vec![1], false),
        (28, time(20_001).to_vec(), false),
        (28, time(19_999).to_vec(), false), // proof after accepted
        (36, time(14_001).to_vec(), true),
        (36, time(14_000).to_vec(), false),
        (0, vec![0x33; 12], false), // the other peer
        (0, vec![0x11; 12], false), // ours
    ] {
        assert_eq!(good(&with(PEER + at, &octets)), want, "peer octet {at} {octets:?}");
    }
    // The Potential one: its proof time is 0, and that has no age.
    assert!(good(&with(PEER + 44 + 28, &time(14_001))));
    assert!(!good(&with(PEER + 44 + 28, &time(14_000))));
    assert!(!good(&with(PEER + 44 + 36, &time(1))));
}

#[test]
fn keys() {
    for (at, octets, want) in [
        (12, vec![0; 4], false),
        (12, vec![0, 0, 0, 3], false), // the old key
        (12, vec![0, 0, 0, 2], true),  // lower than the old one of the same MI
        (16, vec![3], true),
        (16, vec![4], false),
        (17, vec![1], true),
        (17, vec![2], false),
        (17, vec![3], true),
        (17, vec![4], false),
        (18, vec![3], true),
        (18, vec![4], false),
        (19, vec![1], false),
        (20, vec![255; 8], true),
        (0, vec![0x11; 12], false), // ours, above our KN of 0
        (0, vec![0x33; 12], true),
    ] {
        assert_eq!(good(&with(KEY + at, &octets)), want, "key octet {at} {octets:?}");
    }
    let mut ours = with(KEY, &[0x11; 12]);
    ours[OWN + 47] = 4;
    assert!(good(&ours), "equal to our KN");
    let third = [image(), image()[KEY..KEY + 28].to_vec()].concat();
    let mut third = third;
    third[23] = 3;
    let at = third.len() - 28;
    third[at + 15] = 9;
    assert!(!good(&third), "three keys");
}
