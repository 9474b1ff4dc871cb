//! Tables of wrong rules: how they are read, and what stops a build.

#[path = "../mutants/patch.rs"]
mod patch;

const SOURCE: &str = "\
const LIFE: u64 = 6;

pub fn old(age: u64) -> bool {
    age >= LIFE
}

impl Port {
    fn both(
        &self,
        age: u64,
    ) -> bool {
        if old(age) {
            return true;
        }
        age == LIFE
    }
}
";

fn switched(table: &str) -> Result<String, String> {
    patch::switched(SOURCE, &patch::read(table)?, 7, "on()")
}

fn fault(table: &str) -> String {
    switched(table).expect_err("a table that can't be used")
}

#[test]
fn without_mutants_nothing_changes() {
    assert_eq!(switched("# nothing\n\n").as_deref(), Ok(SOURCE));
}

#[test]
fn names_and_texts() {
    let table = "# Two.\n\nOld6: 6 isn't old\n- a\n+ b\nNew: image: a new one\n- c\n";
    let mutants = patch::read(table).expect("read");
    let told: Vec<(&str, &str)> = mutants.iter().map(|m| (m.name.as_str(), m.text.as_str())).collect();
    assert_eq!(told, [("Old6", "6 isn't old"), ("New", "image: a new one")]);
}

#[test]
fn each_changed_function_has_a_choice() {
    let table = "\
Never: nothing is old
- age >= LIFE
+ false

Two: wrong at two places
- old(age)
+ !old(age)
-             return true;
-         }
+             return false;
+         }

Gone: lines are left out
-         if old(age) {
-             return true;
-         }
";
    let old = "match on() {\nSome(7) => {\n    false\n}\n_ => {\n    age >= LIFE\n}\n}\n";
    let returned = "        if old(age) {\n            return true;\n        }\n        age == LIFE\n";
    let changed = "        if !old(age) {\n            return false;\n        }\n        age == LIFE\n";
    let left_out = "\n        age == LIFE\n";
    let both = format!(
        "match on() {{\nSome(8) => {{\n{changed}}}\nSome(9) => {{\n{left_out}}}\n_ => {{\n{returned}}}\n}}\n"
    );
    let want = SOURCE.replace("    age >= LIFE\n", old).replace(returned, &both);
    assert_eq!(switched(table), Ok(want));
}

#[test]
fn text_to_find_stands_once() {
    assert!(fault("A: b\n- LIFE * 2\n+ 0\n").contains("A: \"LIFE * 2\" stands 0 times"));
    assert!(fault("A: b\n- age\n+ 0\n").contains("stands 5 times"));
}

#[test]
fn only_bodies_change() {
    let said = "A: it has to change the bodies of functions and nothing else";
    assert_eq!(fault("A: b\n"), said);
    assert_eq!(fault("A: b\n- = 6\n+ = 7\n"), said);
    assert_eq!(fault("A: b\n- age >= LIFE\n+ age >= LIFE\n"), said);
    assert_eq!(fault("A: b\n- pub fn old(\n+ fn young() {\n+ }\n+ pub fn old(\n"), said);
}

#[test]
fn lines_of_a_table() {
    for (table, number) in
        [("- a\n", 1), ("A: b\n\n+ c\n", 3), ("A: b\n-c\n", 2), ("no name\n", 1), ("a b: c\n", 1)]
    {
        assert!(fault(table).starts_with(&format!("line {number}: ")), "{table:?}");
    }
}
