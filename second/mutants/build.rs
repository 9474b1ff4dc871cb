//! Makes `copy.rs` in the build's folder: the rule files, each as a module, with the wrong rules of `mutants/` in them.

mod patch;

use std::path::Path;
use std::{env, fs, io};

const RULES: &str = "src/rules";
const TABLES: &str = "mutants";

fn main() {
    println!("cargo::rerun-if-changed={RULES}");
    println!("cargo::rerun-if-changed={TABLES}");
    if let Err(message) = write_copy() {
        println!("cargo::error={message}");
    }
}

fn write_copy() -> Result<(), String> {
    let names = |folder, ending| names(folder, ending).map_err(|e| format!("{folder}: {e}"));
    let tables = names(TABLES, ".txt")?;
    let files: Vec<String> = names(RULES, ".rs")?.into_iter().filter(|name| name != "mod").collect();
    if let Some(table) = tables.iter().find(|table| !files.contains(table)) {
        return Err(format!("{TABLES}/{table}.txt: there is no {RULES}/{table}.rs"));
    }
    let mut copy = String::new();
    let mut all: Vec<(String, String)> = Vec::new();
    for name in files {
        let source = read(&format!("{RULES}/{name}.rs"))?;
        let path = format!("{TABLES}/{name}.txt");
        let table = if tables.contains(&name) { read(&path)? } else { String::new() };
        let told = |message| format!("{path}: {message}");
        let mutants = patch::read(&table).map_err(told)?;
        let switched =
            patch::switched(&source, &mutants, all.len(), "crate::mutants::wrong()").map_err(told)?;
        copy += &format!("pub mod {name} {{\n{switched}}}\n");
        for mutant in mutants {
            if all.iter().any(|(name, _)| *name == mutant.name) {
                return Err(told(format!("there are two named {}", mutant.name)));
            }
            all.push((mutant.name, mutant.text));
        }
    }
    copy += &format!("/// Name and text of each.\npub const ALL: &[(&str, &str)] = &{all:?};\n");
    let folder = env::var("OUT_DIR").map_err(|e| format!("OUT_DIR: {e}"))?;
    let path = Path::new(&folder).join("copy.rs");
    fs::write(&path, copy).map_err(|e| format!("{}: {e}", path.display()))
}

fn read(path: &str) -> Result<String, String> {
    fs::read_to_string(path).map_err(|e| format!("{path}: {e}"))
}

/// The files of a folder that have this ending, without it, in order.
fn names(folder: &str, ending: &str) -> io::Result<Vec<String>> {
    let mut names = Vec::new();
    for entry in fs::read_dir(folder)? {
        let name = entry?.file_name();
        names.extend(name.to_str().and_then(|name| name.strip_suffix(ending)).map(str::to_string));
    }
    names.sort();
    Ok(names)
}
