//! The program: plays call scripts, makes them, and compares.

mod args;

use std::io::{self, Read, Write};
use std::process::ExitCode;

use args::Args;
use second::compare::{compare, Failure};
use second::cost::cost;
use second::gen::generate;
use second::mutants;
use second::octets::{hex, unhex};
use second::reach::Reach;
use second::rules::script::{play, records, show_image};

const HELP: &str = "\
A second MKA participant, by docs/SCOPE.md; call scripts are described in docs/SCRIPTS.md.

second play [--wrong RULE] < script
    prints the line of each record; RULE, a name that mutants prints, is wrong then
second show < image
    prints the line of portshow
second trace < script
    prints each record in hex, and its line
second pack < hex
    writes the octets of hex text; what stands behind a # is a comment
second cost < script
    plays the last call of a script of portcost many times, and prints its sum
second gen --seed N --calls K --kind KIND
    writes the script of a seed, K calls long
second reach --seeds A..B --calls K [--kinds KIND,..] [--without OP,..]
    plays scripts and counts what they reach; fails if something on the list is missing
second mutants --seeds A..B --calls K [--kinds KIND,..] [--without OP,..]
    plays scripts with one rule wrong at a time; fails if one is never noticed
second compare --seeds A..B --calls K --with PROGRAM [--kinds KIND,..] [--without OP,..]
               [--save FILE] [--reach] [--any-reach]
    runs PROGRAM on scripts and compares every line; fails at the first difference, if PROGRAM can't be
    started or doesn't end with exit status 0, and if something on the list of reach is missing
    --save       writes the script that failed to FILE
    --reach      prints what was reached
    --any-reach  lets a run pass that doesn't reach all

Seeds go from A up to B, without B. KIND is mixed, codec, table, image, keys or garbage; the kinds are taken in
turn, all six if none are named. --without leaves the records of an op, 1 to 11, out of each script.
The exit status is 0 where all is well, 1 where a command fails as said above, 2 where it can't do its work.
";

/// The name of a command, its options, and its work, which answers whether all is well.
type Command = (&'static str, &'static [&'static str], fn(&Args) -> Result<bool, String>);

const COMMANDS: [Command; 9] = [
    ("play", &["--wrong"], run_play),
    ("show", &[], run_show),
    ("trace", &[], run_trace),
    ("pack", &[], run_pack),
    ("cost", &[], run_cost),
    ("gen", &["--seed", "--calls", "--kind"], run_gen),
    ("reach", &["--seeds", "--calls", "--kinds", "--without"], run_reach),
    ("mutants", &["--seeds", "--calls", "--kinds", "--without"], run_mutants),
    (
        "compare",
        &["--seeds", "--calls", "--kinds", "--without", "--with", "--save", "--reach", "--any-reach"],
        run_compare,
    ),
];

fn input() -> Result<Vec<u8>, String> {
    let mut octets = Vec::new();
    io::stdin().read_to_end(&mut octets).map_err(|e| format!("can't read standard input: {e}"))?;
    Ok(octets)
}

/// Writes all; there is nothing in it that could be amiss but a failed write.
fn output(octets: &[u8]) -> Result<bool, String> {
    let mut out = io::stdout();
    let written = out.write_all(octets).and_then(|()| out.flush());
    written.map(|()| true).map_err(|e| format!("can't write standard output: {e}"))
}

fn print(lines: &[String]) -> Result<bool, String> {
    let text: String = lines.iter().flat_map(|line| [line, "\n"]).collect();
    output(text.as_bytes())
}

fn run_play(args: &Args) -> Result<bool, String> {
    match args.wrong()? {
        None => print(&play(&input()?)),
        wrong => print(&mutants::play_copy(&input()?, wrong)),
    }
}

fn run_show(_: &Args) -> Result<bool, String> {
    print(&[show_image(&input()?).to_string()])
}

fn run_trace(_: &Args) -> Result<bool, String> {
    let script = input()?;
    let played = (1..).zip(records(&script)).zip(play(&script));
    let lines: Vec<String> =
        played.map(|((number, record), line)| format!("{number} {}\n  {line}", hex(record))).collect();
    print(&lines)
}

fn run_pack(_: &Args) -> Result<bool, String> {
    let text = String::from_utf8(input()?).map_err(|e| format!("the input isn't text: {e}"))?;
    let plain: String = text.lines().map(|line| line.split('#').next().unwrap_or("")).collect();
    output(&unhex(&plain).ok_or("the input isn't hex, or ends within an octet")?)
}

fn run_cost(_: &Args) -> Result<bool, String> {
    let sum = cost(&input()?).ok_or("the input is no script of portcost")?;
    print(&[format!("check {sum}")])
}

fn run_gen(args: &Args) -> Result<bool, String> {
    output(&generate(args.number("--seed")?, args.calls()?, args.kind()?))
}

fn run_reach(args: &Args) -> Result<bool, String> {
    let reach = args.runs()?.reach();
    let missing = missing(&reach);
    print(&[reach.lines(), missing.clone()].concat())?;
    Ok(missing.is_empty())
}

/// What wasn't reached, a line each.
fn missing(reach: &Reach) -> Vec<String> {
    reach.missing().iter().map(|name| format!("not reached: {name}")).collect()
}

fn run_mutants(args: &Args) -> Result<bool, String> {
    let noticed = mutants::try_all(&args.runs()?);
    print(&mutants::told(&noticed))?;
    Ok(noticed.iter().all(Option::is_some))
}

fn run_compare(args: &Args) -> Result<bool, String> {
    let mut reach = Reach::default();
    let summary = match compare(&args.runs()?, args.needed("--with")?, &mut reach) {
        Ok(summary) => summary,
        Err(failure) => return run_failure(&failure, args.value("--save")),
    };
    let missing = missing(&reach);
    let counts = if args.has("--reach") { reach.lines() } else { Vec::new() };
    print(&[counts, missing.clone(), vec![summary]].concat())?;
    Ok(missing.is_empty() || args.has("--any-reach"))
}

fn run_failure(failure: &Failure, save: Option<&str>) -> Result<bool, String> {
    print(&failure.lines)?;
    if let Some(path) = save {
        std::fs::write(path, &failure.script).map_err(|e| format!("can't write {path}: {e}"))?;
        print(&[format!("script written to {path}")])?;
    }
    Ok(false)
}

/// Whether all is well; else what kept the command from its work.
fn run(name: &str, words: Vec<String>) -> Result<bool, String> {
    if ["--help", "-h", "help"].contains(&name) {
        return output(HELP.as_bytes()).map_err(|e| format!("second: {e}"));
    }
    let Some((_, known, work)) = COMMANDS.iter().find(|(command, ..)| *command == name) else {
        return Err(format!("second: there is no command {name:?}; second --help lists them"));
    };
    Args::read(words, known).and_then(|args| work(&args)).map_err(|e| format!("second {name}: {e}"))
}

fn main() -> ExitCode {
    let mut words = std::env::args_os().skip(1).map(|word| word.to_string_lossy().into_owned());
    let name = words.next().unwrap_or_default();
    match run(&name, words.collect()) {
        Ok(true) => ExitCode::SUCCESS,
        Ok(false) => ExitCode::from(1),
        Err(message) => {
            // There is nobody left to tell if this fails too.
            drop(writeln!(io::stderr(), "{message}"));
            ExitCode::from(2)
        }
    }
}
