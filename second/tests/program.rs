//! The program's commands: what they print, where they fail, and what they say of bad arguments, input and output.

use std::fs::File;
use std::io::Write;
use std::process::{Command, Output, Stdio};

const SECOND: &str = env!("CARGO_BIN_EXE_second");

fn second(words: &str) -> Command {
    let mut command = Command::new(SECOND);
    command.args(words.split_whitespace()).env("SECOND", SECOND).stdin(Stdio::null());
    command.current_dir(concat!(env!("CARGO_MANIFEST_DIR"), "/tests"));
    command
}

/// Exit status, standard output and standard error.
fn ended(output: Output) -> (i32, String, String) {
    let text = |octets| String::from_utf8(octets).expect("text");
    (output.status.code().expect("an exit status"), text(output.stdout), text(output.stderr))
}

fn run(words: &str) -> (i32, String, String) {
    ended(second(words).output().expect("run"))
}

fn fed(words: &str, input: &[u8]) -> (i32, String, String) {
    let mut child = second(words)
        .stdin(Stdio::piped())
        .stdout(Stdio::piped())
        .stderr(Stdio::piped())
        .spawn()
        .expect("started");
    child.stdin.take().expect("piped").write_all(input).expect("written");
    ended(child.wait_with_output().expect("run"))
}

/// Where the command can't do its work: one line on standard error alone.
fn assert_unable((status, out, err): (i32, String, String), said: &str) {
    assert_eq!((status, out.as_str()), (2, ""), "{err}");
    assert!(err.starts_with("second") && err.contains(&format!(": {said}")), "{err:?} and not {said:?}");
    assert_eq!(err.matches('\n').count(), 1, "{err:?}");
}

fn compared(program: &str) -> (i32, String, String) {
    run(&format!("compare --seeds 1..4 --calls 20 --any-reach --with {program}"))
}

fn assert_different((status, out, _): (i32, String, String), said: &str) {
    assert_eq!(status, 1, "{out}");
    assert!(out.lines().any(|line| line.contains(said)), "{out:?} and not {said:?}");
    assert!(!out.contains("0 differences"), "{out}");
}

#[test]
fn compare_passes_where_all_is_the_same() {
    let (status, out, _) = compared("./programs/plays");
    assert!(out.ends_with("compared 3 scripts, 60 calls, 0 differences\n"), "{out}");
    assert_eq!(status, 0);
    let (status, out, _) = run("compare --seeds 1..2 --calls 1 --with ./programs/plays");
    assert!(out.starts_with("not reached: "), "{out}");
    assert_eq!(status, 1);
}

#[test]
fn compare_fails_on_a_difference() {
    let (status, out, _) = compared("./programs/says_nothing");
    assert!(out.starts_with("seed 1 kind codec record 1\nrecord 0b"), "{out}");
    assert!(out.ends_with("\ntheirs \n"), "{out}");
    assert_eq!(status, 1);
}

#[test]
fn compare_fails_on_the_exit_status() {
    assert_different(
        compared("./programs/ends_with_3"),
        "seed 1 kind codec: ./programs/ends_with_3 ended with exit status: 3",
    );
    assert_different(compared("./programs/is_killed"), "./programs/is_killed ended with signal: 9");
    assert_different(
        compared("./programs/absent"),
        "./programs/absent can't be run: No such file or directory",
    );
    assert_different(compared("./common"), "./common can't be run: Permission denied");
}

#[test]
fn compare_saves_the_script() {
    let path = std::env::temp_dir().join(format!("second-{}.script", std::process::id()));
    let words =
        format!("compare --seeds 2..3 --calls 9 --with ./programs/ends_with_3 --save {}", path.display());
    assert_different(run(&words), "script written to ");
    let saved = std::fs::read(&path).expect("saved");
    std::fs::remove_file(&path).expect("removed");
    assert_eq!(saved, second::gen::generate(2, 9, second::gen::Kind::Table));

    let (status, out, err) =
        run("compare --seeds 2..3 --calls 9 --with ./programs/ends_with_3 --save absent/file");
    assert!(out.contains("ended with exit status: 3"), "{out}");
    assert_eq!(
        (status, err.as_str()),
        (2, "second compare: can't write absent/file: No such file or directory (os error 2)\n")
    );
}

#[test]
fn help() {
    for words in ["--help", "-h", "help"] {
        let (status, out, err) = run(words);
        assert_eq!((status, err.as_str()), (0, ""));
        for command in ["play", "show", "trace", "pack", "cost", "gen", "reach", "mutants", "compare"] {
            assert!(out.lines().any(|line| line.starts_with(&format!("second {command} "))), "{command}");
        }
    }
}

#[test]
fn bad_arguments() {
    let runs = "--seeds 1..2 --calls 1";
    for (words, said) in [
        ("", "there is no command \"\"; second --help lists them"),
        ("plya", "there is no command \"plya\""),
        ("play script", "script isn't an option of this command"),
        ("show --wrong TwiceRead", "--wrong isn't an option of this command"),
        ("play --wrong", "--wrong takes a value"),
        ("play --wrong Twice", "--wrong: there is no rule Twice"),
        ("gen --calls 1 --kind keys", "--seed is missing"),
        ("gen --seed 1 --kind keys", "--calls is missing"),
        ("gen --seed 1 --calls 1", "--kind is missing"),
        ("gen --seed -1 --calls 1 --kind keys", "--seed takes a number, not -1"),
        ("gen --seed 1 --seed 2 --calls 1 --kind keys", "--seed is given twice"),
        ("gen --seed 1 --calls 1 --kind keys,table", "there is no kind keys,table"),
        ("reach --calls 1", "--seeds is missing"),
        ("reach --seeds 1 --calls 1", "--seeds takes A..B with A below B, not 1"),
        ("mutants --seeds 2..2 --calls 1", "--seeds takes A..B with A below B, not 2..2"),
        (&format!("mutants {runs} --kinds key"), "there is no kind key"),
        (&format!("mutants {runs} --without 12"), "--without: there is no op 12"),
        (&format!("compare {runs}"), "--with is missing"),
    ] {
        assert_unable(run(words), said);
    }
}

#[test]
fn bad_input() {
    assert_unable(fed("pack", b"0"), "the input isn't hex, or ends within an octet");
    assert_unable(fed("pack", &[255]), "the input isn't text");
    for script in [&[][..], &[8, 0, 0], &[12, 0], &[12, 0, 4, 0, 0, 0, 1], &[12, 0, 5, 0, 0, 0, 1, 0]] {
        assert_unable(fed("cost", script), "the input is no script of portcost");
    }
    for words in ["play", "show", "trace", "pack", "cost"] {
        let folder = File::open(".").expect("a folder");
        let output = second(words).stdin(folder).output().expect("run");
        assert_unable(ended(output), "can't read standard input: Is a directory");
    }
}

#[test]
fn failed_writes() {
    for words in [
        "--help",
        "show",
        "gen --seed 1 --calls 9 --kind keys",
        "reach --seeds 1..2 --calls 1",
        "mutants --seeds 1..2 --calls 1",
        "compare --seeds 1..2 --calls 1 --with ./programs/plays",
        "compare --seeds 1..2 --calls 1 --with ./programs/absent",
    ] {
        let full = File::options().write(true).open("/dev/full").expect("/dev/full");
        let child = second(words).stdout(full).stderr(Stdio::piped()).spawn().expect("started");
        assert_unable(
            ended(child.wait_with_output().expect("run")),
            "can't write standard output: No space left",
        );
    }
}

#[test]
fn play_with_a_rule_wrong() {
    // A tick and a question before any create, and a frame of 3 octets.
    let script = [5, 0, 8, 0, 0, 0, 0, 0, 0, 0, 0, 8, 0, 0, 11, 0, 3, 3, 5, 0];
    assert_eq!(fed("play", &script), (0, "none\nnone\nrefused 2\n".to_string(), String::new()));
    // Version 2, type 5, a body of 32.
    let frame = [&[11, 0, 36, 2, 5, 0, 32][..], &[0; 32]].concat();
    assert_eq!(fed("play", &frame).1, "refused 3\n");
    assert_eq!(fed("play --wrong VersionTwoRead", &frame).1, "refused 5\n");
}
