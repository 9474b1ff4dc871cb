//! Wrong rules as patches of a rule file, and the copy of that file in which each can be turned on.

/// A single rule turned wrong.
pub struct Mutant {
    pub name: String,
    pub text: String,
    patches: Vec<Patch>,
}

/// Text that stands in the rule file exactly once, and what takes its place.
#[derive(Default)]
struct Patch {
    find: Vec<String>,
    replace: Vec<String>,
}

/// The mutants of a table: a line `Name: what is wrong`, then `- ` lines for the text to find and `+ ` lines for what takes
/// its place, maybe for several places. Lines that begin with `#` and empty ones are passed over.
pub fn read(table: &str) -> Result<Vec<Mutant>, String> {
    let mut mutants: Vec<Mutant> = Vec::new();
    for (number, line) in (1..).zip(table.lines()) {
        if line.is_empty() || line.starts_with('#') {
            continue;
        }
        let read = match (line.split_at_checked(2), mutants.last_mut()) {
            (Some(("- ", text)), Some(mutant)) => mutant.find(text),
            (Some(("+ ", text)), Some(mutant)) => mutant.replace(text),
            _ => Mutant::named(line).map(|mutant| mutants.push(mutant)),
        };
        read.ok_or(format!("line {number}: {line:?} is neither a name with its text nor a part of a patch"))?;
    }
    Ok(mutants)
}

impl Mutant {
    fn named(line: &str) -> Option<Mutant> {
        let (name, text) = line.split_once(": ")?;
        let good = !name.is_empty() && name.chars().all(|c| c.is_ascii_alphanumeric());
        good.then(|| Mutant { name: name.to_string(), text: text.to_string(), patches: Vec::new() })
    }

    /// The first line to find after one to put begins the next place.
    fn find(&mut self, text: &str) -> Option<()> {
        if self.patches.last().is_none_or(|patch| !patch.replace.is_empty()) {
            self.patches.push(Patch::default());
        }
        self.patches.last_mut()?.find.push(text.to_string());
        Some(())
    }

    fn replace(&mut self, text: &str) -> Option<()> {
        self.patches.last_mut()?.replace.push(text.to_string());
        Some(())
    }

    /// The rule file with this rule wrong.
    fn applied(&self, source: &str) -> Result<String, String> {
        let mut wrong = source.to_string();
        for patch in &self.patches {
            let find = patch.find.join("\n");
            match wrong.matches(&find).count() {
                1 => wrong = wrong.replace(&find, &patch.replace.join("\n")),
                n => return Err(format!("{find:?} stands {n} times in the rule file, not once")),
            }
        }
        Ok(wrong)
    }
}

/// The rule file with a choice in each function that some mutant changes: `wrong` is asked for the number of the mutant that
/// is on, counted from `first`.
pub fn switched(source: &str, mutants: &[Mutant], first: usize, wrong: &str) -> Result<String, String> {
    let right = parts(source);
    let mut variants = vec![String::new(); right.len()];
    for (number, mutant) in (first..).zip(mutants) {
        let told = |what: String| format!("{}: {what}", mutant.name);
        let patched = mutant.applied(source).map_err(told)?;
        let patched = parts(&patched);
        let changed: Vec<usize> = (0..right.len()).filter(|&i| patched.get(i) != Some(&right[i])).collect();
        if changed.is_empty() || patched.len() != right.len() || changed.iter().any(|i| i % 2 == 0) {
            return Err(told("it has to change the bodies of functions and nothing else".to_string()));
        }
        for i in changed {
            variants[i] += &format!("Some({number}) => {{\n{}}}\n", patched[i]);
        }
    }
    let choice = |(part, variants): (&&str, &String)| match variants.is_empty() {
        true => part.to_string(),
        false => format!("match {wrong} {{\n{variants}_ => {{\n{part}}}\n}}\n"),
    };
    Ok(right.iter().zip(&variants).map(choice).collect())
}

/// A rule file cut at its functions' bodies, which are every second part. It is formatted as rustfmt does: a signature's last
/// line ends in a brace, and a body ends at a brace that is indented as `fn` is.
fn parts(source: &str) -> Vec<&str> {
    let mut parts = Vec::new();
    let (mut from, mut at) = (0, 0);
    let (mut close, mut signature) = (None, false);
    for line in source.split_inclusive('\n') {
        let code = line.trim_end();
        if close.as_deref() == Some(code) {
            parts.push(&source[from..at]);
            (from, close) = (at, None);
        } else if close.is_none() && begins_function(code) {
            let indent = code.len() - code.trim_start().len();
            (close, signature) = (Some(" ".repeat(indent) + "}"), true);
        }
        at += line.len();
        if signature && code.ends_with('{') {
            parts.push(&source[from..at]);
            (from, signature) = (at, false);
        }
    }
    parts.push(&source[from..]);
    parts
}

fn begins_function(code: &str) -> bool {
    code.trim_start()
        .split_once("fn ")
        .is_some_and(|(before, _)| before.is_empty() || before.starts_with("pub"))
}
