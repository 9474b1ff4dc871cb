//! The generated scripts reach what is listed, and tell every wrong rule from the right one.

use second::gen::{generate, Kind};
use second::mutants::{self, play_copy};
use second::rules::script::{play, read_record, records};
use second::runs::Runs;

fn runs() -> Runs {
    Runs { seeds: 1..301, calls: 200, kinds: Kind::ALL.to_vec(), without: Vec::new() }
}

#[test]
fn every_wrong_rule_is_noticed() {
    assert!(mutants::ALL.len() >= 212, "none may be lost");
    let noticed = mutants::try_all(&runs());
    assert!(noticed.iter().all(Option::is_some), "{:#?}", mutants::told(&noticed));
}

#[test]
fn the_copy_without_a_wrong_rule_is_right() {
    for (seed, _, script) in runs().scripts() {
        assert_eq!(play_copy(&script, None), play(&script), "seed {seed}");
    }
}

#[test]
fn all_is_reached() {
    assert_eq!(runs().reach().missing(), Vec::<String>::new());
}

#[test]
fn scripts_come_from_their_seed() {
    for kind in Kind::ALL {
        let script = generate(7, 100, kind);
        assert_eq!(script, generate(7, 100, kind));
        assert_ne!(script, generate(8, 100, kind));
        let good = records(&script).iter().filter(|record| read_record(record).is_some()).count();
        assert!(good >= 100, "{}", kind.name());
        let ops: Vec<u8> = records(&script).iter().map(|record| record[0]).collect();
        match kind {
            Kind::Codec => assert!(ops.iter().all(|&op| op == 11)),
            Kind::Table => assert!(ops.iter().all(|&op| (1..=8).contains(&op))),
            _ => {}
        }
    }
}
