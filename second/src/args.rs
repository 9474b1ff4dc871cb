//! The words behind a command.

use std::ops::Range;

use second::gen::Kind;
use second::mutants;
use second::runs::Runs;

/// Options that stand alone; each other one is followed by its value.
const FLAGS: [&str; 2] = ["--reach", "--any-reach"];

/// Each option with its value, which is empty for one that stands alone.
pub struct Args(Vec<(String, String)>);

impl Args {
    /// Takes the options that the command knows, each at most once.
    pub fn read(words: Vec<String>, known: &[&str]) -> Result<Args, String> {
        let mut args = Args(Vec::new());
        let mut words = words.into_iter();
        while let Some(name) = words.next() {
            if !known.contains(&name.as_str()) {
                return Err(format!("{name} isn't an option of this command"));
            }
            if args.has(&name) {
                return Err(format!("{name} is given twice"));
            }
            let value = match FLAGS.contains(&name.as_str()) {
                true => String::new(),
                false => words.next().ok_or(format!("{name} takes a value"))?,
            };
            args.0.push((name, value));
        }
        Ok(args)
    }

    pub fn has(&self, name: &str) -> bool {
        self.value(name).is_some()
    }

    pub fn value(&self, name: &str) -> Option<&str> {
        self.0.iter().find(|(option, _)| option == name).map(|(_, value)| value.as_str())
    }

    pub fn needed(&self, name: &str) -> Result<&str, String> {
        self.value(name).ok_or(format!("{name} is missing"))
    }

    pub fn number(&self, name: &str) -> Result<u64, String> {
        let value = self.needed(name)?;
        value.parse().map_err(|_| format!("{name} takes a number, not {value}"))
    }

    pub fn calls(&self) -> Result<usize, String> {
        usize::try_from(self.number("--calls")?).map_err(|e| format!("--calls: {e}"))
    }

    pub fn runs(&self) -> Result<Runs, String> {
        Ok(Runs {
            seeds: self.seeds()?,
            calls: self.calls()?,
            kinds: self.kinds()?,
            without: self.without()?,
        })
    }

    fn seeds(&self) -> Result<Range<u64>, String> {
        let value = self.needed("--seeds")?;
        let ends = value.split_once("..").and_then(|(a, b)| Some(a.parse().ok()?..b.parse().ok()?));
        ends.filter(|seeds| !seeds.is_empty())
            .ok_or(format!("--seeds takes A..B with A below B, not {value}"))
    }

    fn kinds(&self) -> Result<Vec<Kind>, String> {
        self.value("--kinds").map_or(Ok(Kind::ALL.to_vec()), |names| names.split(',').map(kind).collect())
    }

    pub fn kind(&self) -> Result<Kind, String> {
        kind(self.needed("--kind")?)
    }

    fn without(&self) -> Result<Vec<u8>, String> {
        let op = |word: &str| {
            let op = word.parse().ok().filter(|op| (1..=11).contains(op));
            op.ok_or(format!("--without: there is no op {word}"))
        };
        self.value("--without").map_or(Ok(Vec::new()), |words| words.split(',').map(op).collect())
    }

    /// The number of the rule to turn wrong.
    pub fn wrong(&self) -> Result<Option<usize>, String> {
        let Some(name) = self.value("--wrong") else {
            return Ok(None);
        };
        let number = mutants::ALL.iter().position(|(rule, _)| *rule == name);
        number.map(Some).ok_or(format!("--wrong: there is no rule {name}"))
    }
}

fn kind(name: &str) -> Result<Kind, String> {
    Kind::named(name).ok_or(format!("there is no kind {name}"))
}
