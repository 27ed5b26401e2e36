//! What guards the promises is there: each field of a statement is used in its full range by a theorem that takes the statement as an assumption, and some must-fail edit makes the
//! field say less; each definition that statements are made of has a theorem that says in full what it means; each theorem that PROMISES quotes is declared where PROMISES says, and stands
//! once more in full on one page. PROMISES names all guards, and none that is not there.

use std::collections::{BTreeMap, BTreeSet};
use std::fs;
use std::path::{Path, PathBuf};

use crate::sold::ARCHIVES;

/// The crates whose specs/ folders hold what is promised.
const PROMISED: [&str; 3] = ["definitions", "statements", "answers"];

/// Statements that theorems assume. Less in them is more in the theorem; a guard shows that they hold where they should.
const ASSUMED: [&str; 2] = ["SameRead", "Compressed"];

fn crates() -> PathBuf {
    Path::new(env!("CARGO_MANIFEST_DIR")).join("../crates")
}

/// The antt files of a folder and of those below it, with their texts.
fn files(folder: &Path) -> Vec<(PathBuf, String)> {
    let Ok(entries) = fs::read_dir(folder) else { return vec![] };
    let mut found = vec![];
    for path in entries.map(|entry| entry.unwrap().path()) {
        if path.is_dir() {
            found.extend(files(&path));
        } else if path.extension().is_some_and(|end| end == "antt") {
            let text = fs::read_to_string(&path).unwrap();
            found.push((path, text));
        }
    }
    found.sort();
    found
}

/// A record of a specs/ folder: its name, whether it has parameters, and its fields, each with its type and its line.
struct Record {
    owner: &'static str,
    file: String,
    name: String,
    parameters: bool,
    fields: Vec<(String, String, String)>,
}

fn records() -> Vec<Record> {
    let mut found = vec![];
    for owner in PROMISED {
        for (path, text) in files(&crates().join(owner).join("specs")) {
            let file = format!("specs/{}", path.file_name().unwrap().to_str().unwrap());
            let mut inside: Option<(usize, Record)> = None;
            for line in text.lines().chain([""]) {
                let depth = line.len() - line.trim_start().len();
                let declared = line.trim_start();
                if let Some((at, record)) = &mut inside {
                    if depth > *at {
                        if declared.starts_with("--") {
                            continue;
                        }
                        // a field that is not public would be a part of the statement that nobody can use
                        let field = declared.strip_prefix("pub ").and_then(|field| field.split_once(" : "));
                        let (name, of) = field.unwrap_or_else(|| panic!("{file}: {line} is no public field"));
                        record.fields.push((name.to_string(), of.to_string(), line.to_string()));
                        continue;
                    }
                    found.push(inside.take().unwrap().1);
                }
                if let Some(rest) = declared.strip_prefix("pub record ") {
                    let name: String = rest.chars().take_while(|c| c.is_alphanumeric()).collect();
                    let parameters = !rest[name.len()..].starts_with(" : ");
                    let file = file.clone();
                    inside = Some((depth, Record { owner, file, name, parameters, fields: vec![] }));
                }
            }
        }
    }
    found
}

/// The names of data: numbers, lists, enumerations, and records of data without parameters.
fn data(records: &[Record]) -> BTreeSet<String> {
    let mut names: BTreeSet<String> = ["ℕ", "List", "Bool", "Kind", "Call", "→"].map(str::to_string).into();
    loop {
        let plain = |record: &&Record| {
            !record.parameters && record.fields.iter().all(|(_, of, _)| is_data(of, &names))
        };
        let more: Vec<String> = records.iter().filter(plain).map(|record| record.name.clone()).collect();
        let before = names.len();
        names.extend(more);
        if names.len() == before {
            return names;
        }
    }
}

fn is_data(of: &str, names: &BTreeSet<String>) -> bool {
    of.split([' ', '(', ')']).filter(|word| !word.is_empty()).all(|word| names.contains(word))
}

/// `OfOne` as theorems and edits begin, of_one. What is in small letters is so already.
fn apart(name: &str) -> String {
    let mut out = String::new();
    for c in name.chars() {
        if (c.is_uppercase() || c.is_numeric()) && !out.is_empty() && !out.ends_with('_') {
            out.push('_');
        }
        out.extend(c.to_lowercase());
    }
    out
}

/// The guards of a crate: each public theorem of its Refused files with its text.
fn guards(owner: &str) -> Vec<(String, String)> {
    let proofs = crates().join(owner).join("proofs");
    let mut found: Vec<(String, String)> = vec![];
    for (path, text) in files(&proofs) {
        if !path.strip_prefix(&proofs).unwrap().to_str().unwrap().starts_with("Refused") {
            continue;
        }
        let mut open = false;
        for line in text.lines() {
            let declared = line.trim_start();
            let name =
                declared.strip_prefix("pub ").and_then(|rest| rest.split_once(" :")).map(|(name, _)| name);
            if let Some(name) = name.filter(|name| !name.contains(' ')) {
                found.push((name.to_string(), String::new()));
                open = true;
            } else if declared.starts_with("abbrev") || declared.starts_with("-- ----") {
                open = false;
            }
            if let Some((_, body)) = found.last_mut().filter(|_| open) {
                body.push_str(line);
                body.push('\n');
            }
        }
    }
    found
}

/// Every must-fail edit of a crate: what it is about, its file and the text that it replaces.
fn edits(owner: &str) -> Vec<(String, String, String)> {
    let mut found = vec![];
    for entry in fs::read_dir(crates().join(owner).join("must-fail")).unwrap() {
        let path = entry.unwrap().path();
        let about = path.file_stem().unwrap().to_str().unwrap().split("__").next().unwrap().to_string();
        let mut file = String::new();
        for line in fs::read_to_string(&path).unwrap().lines() {
            if let Some(name) = line.strip_prefix("file: ") {
                file = name.to_string();
            } else if let Some(old) = line.strip_prefix("old: ") {
                found.push((about.clone(), file.clone(), old.to_string()));
            }
        }
    }
    found
}

/// Whether a guard projects this field from one of its own arguments that is no arena, `w.field`, or gives it, `field =`.
fn uses(guard: &(String, String), field: &str, given: bool) -> bool {
    let (name, text) = guard;
    if given {
        return text.contains(&format!(" {field} = "));
    }
    let head = text
        .lines()
        .map(str::trim_start)
        .find(|line| line.starts_with(&format!("{name} ")) && !line.starts_with(&format!("{name} :")));
    let Some((head, _)) = head.and_then(|line| line.split_once('=')) else { return false };
    let arguments: Vec<&str> =
        head.split_whitespace().skip(1).filter(|word| !["a", "b"].contains(word)).collect();
    // the argument of a parameter of the whole module, as the demand itself
    let arguments = arguments.into_iter().chain(["d"]);
    let wanted = format!(".{field}");
    let mut at: Vec<(usize, &str)> = text.match_indices(&wanted).collect();
    at.retain(|(at, _)| {
        let next = text[at + wanted.len()..].chars().next().unwrap_or(' ');
        !(next.is_alphanumeric() || next == '_' || next == '\'')
    });
    let owners: Vec<&str> = at
        .iter()
        .map(|(at, _)| text[..*at].rsplit([' ', '(', '\n', ',']).next().unwrap_or_default())
        .collect();
    arguments.into_iter().any(|argument| owners.contains(&argument))
}

#[test]
fn every_field_of_a_statement_has_a_guard() {
    let records = records();
    let data = data(&records);
    let mut fields = 0;
    for record in &records {
        let prefix = format!("{}_", apart(&record.name));
        let assumed = ASSUMED.contains(&record.name.as_str());
        let own: Vec<_> =
            guards(record.owner).into_iter().filter(|(name, _)| name.starts_with(&prefix)).collect();
        for (field, of, _) in record.fields.iter().filter(|(_, of, _)| !is_data(of, &data)) {
            let whole = own.iter().filter(|(name, _)| name.ends_with("_whole"));
            assert!(
                whole.clone().any(|guard| uses(guard, field, assumed)),
                "no guard {prefix}.._whole uses {}.{field} : {of}",
                record.name
            );
            let small = own.iter().filter(|(name, _)| !name.ends_with("_whole"));
            assert!(
                small.clone().any(|guard| uses(guard, field, assumed)),
                "no small wrong case {prefix}.. uses {}.{field} : {of}",
                record.name
            );
            fields += 1;
        }
    }
    assert!(fields > 100, "only {fields} fields were found");
}

#[test]
fn every_field_of_a_statement_is_weakened_by_an_edit() {
    let records = records();
    let data = data(&records);
    for record in &records {
        let text = fs::read_to_string(crates().join(record.owner).join(&record.file)).unwrap();
        let here: Vec<String> = edits(record.owner)
            .into_iter()
            .filter(|(_, file, _)| *file == record.file)
            .map(|(_, _, old)| text.lines().find(|line| line.contains(&old)).unwrap_or_default().to_string())
            .collect();
        let edited = |line: &str| here.iter().any(|edited| edited == line);
        let statements: Vec<_> = record.fields.iter().filter(|(_, of, _)| !is_data(of, &data)).collect();
        if ASSUMED.contains(&record.name.as_str()) {
            assert!(
                statements.iter().any(|(_, _, line)| edited(line)),
                "no edit asks for more in {}",
                record.name
            );
            continue;
        }
        for (field, of, line) in statements {
            // what a field says may be said by an abbreviation of the same file
            let said = format!("{} ", of.split(' ').next().unwrap());
            let abbreviated =
                text.lines().filter(|other| other.starts_with(&said) && other.contains(" = ")).any(edited);
            assert!(edited(line) || abbreviated, "no edit weakens {}.{field}", record.name);
        }
    }
}

/// What is declared by name in specs/ of a crate and computes: functions and abbreviations.
fn definitions(owner: &str) -> BTreeSet<String> {
    let mut found = BTreeSet::new();
    for (_, text) in files(&crates().join(owner).join("specs")) {
        for line in text.lines().map(str::trim_start) {
            let rest = line.strip_prefix("abbrev pub ").or(line.strip_prefix("unfoldable pub "));
            found.extend(rest.and_then(|rest| rest.split_once(" :")).map(|(name, _)| name.to_string()));
        }
    }
    found
}

#[test]
fn every_definition_that_a_statement_is_made_of_has_its_meaning_in_full() {
    // what the calls compute: the code is held to these, the tables of cases are, and the page of promises ties each to the public call
    let computed = [
        "verdict",
        "reply_to",
        "accepted",
        "step",
        "walk_start",
        "walk_step",
        "drain",
        "insert",
        "applied",
        "answers_of",
        "compress_generation",
        "compress_with",
        "laid_out",
        "canonical_arena",
        "compress_canonical",
        "overflows",
        "removed_all",
    ];
    let below = definitions("definitions");
    let mut wanted: Vec<(&str, String)> = vec![];
    let mut texts = vec![fs::read_to_string(crates().join("every_call/proofs/InFull.antt")).unwrap()];
    for owner in ["statements", "answers"] {
        wanted.extend(definitions(owner).into_iter().map(|name| (owner, name)));
        texts.extend(files(&crates().join(owner).join("specs")).into_iter().map(|(_, text)| text));
    }
    for line in texts.iter().flat_map(|text| text.split("\nuse Rattle.definitions.specs.").skip(1)) {
        let names = line.split_once('{').unwrap().1.split_once('}').unwrap().0;
        let names =
            names.split(',').map(str::trim).filter(|name| below.contains(*name) && !computed.contains(name));
        wanted.extend(names.map(|name| ("definitions", name.to_string())));
    }
    assert!(wanted.len() > 30, "only {} definitions were found", wanted.len());
    for (owner, name) in wanted {
        // what is lent on is called so by a field, and by its guard
        let named = if name == "lent_part" { "lent_on".to_string() } else { apart(&name) };
        assert!(
            guards(owner).iter().any(|(guard, _)| *guard == format!("{named}_whole")),
            "no guard {named}_whole says what {name} means"
        );
    }
}

#[test]
fn every_quoted_theorem_is_declared_and_stands_in_full() {
    let promises = fs::read_to_string(crates().join("../docs/PROMISES.md")).unwrap();
    let (_, refused) = promises.split_once("## What refuses a weakened statement").unwrap();
    let rows: BTreeSet<&str> =
        refused.lines().filter_map(|line| line.strip_prefix("| `")?.split('`').next()).collect();
    let (_, table) = promises.split_once("## Theorems over the definitions").unwrap();
    let (table, _) = table.split_once("\n## ").unwrap();
    let page = fs::read_to_string(crates().join("every_call/proofs/InFull.antt")).unwrap();
    let tables = fs::read_to_string(crates().join("definitions/proofs/Refused/Tables.antt")).unwrap();
    let mut quoted = 0;
    for row in table.lines().filter(|line| line.starts_with("| ")).skip(1) {
        let cells: Vec<&str> = row.trim_matches('|').split(" | ").collect();
        assert_eq!(cells.len(), 4, "{row}");
        let linked: String = cells[2]
            .split("](../")
            .skip(1)
            .map(|rest| {
                fs::read_to_string(crates().join("..").join(rest.split(')').next().unwrap())).unwrap()
            })
            .collect();
        for name in cells[1].split('`').skip(1).step_by(2) {
            assert!(linked.contains(&format!("pub {name} :")), "{name} is not declared where PROMISES says");
            // a theorem that would have the name of a definition has `_lem` behind it
            let full = page.contains(&format!("pub {}_in_full :", name.trim_end_matches("_lem")))
                || page.contains(&format!("pub {name} :"))
                || tables.contains(&format!("pub {name}_whole :"));
            assert!(full, "{name} does not stand in full");
            quoted += 1;
        }
        // among the guards a name is that of a row of the table of guards, or of a theorem that stands in full too, or of a guard by its place
        let placed: Vec<String> =
            PROMISED.iter().flat_map(|owner| guards(owner)).map(|(name, _)| name).collect();
        for name in cells[3].split('`').skip(1).step_by(2).filter(|name| !rows.contains(name)) {
            // an edit of a call is a guard too
            if ARCHIVES.iter().any(|archive| archive.exports.contains(&name)) {
                continue;
            }
            let full =
                page.contains(&format!("pub {name}_in_full :")) || placed.iter().any(|guard| guard == name);
            assert!(full, "{name}, a guard in PROMISES, is no row and does not stand in full");
        }
    }
    assert!(quoted > 30, "only {quoted} theorems were found");
}

/// A number for a text that another text will hardly have (FNV-1a).
fn digest(text: &str) -> u64 {
    text.bytes()
        .fold(0xcbf2_9ce4_8422_2325, |sum, byte| (sum ^ u64::from(byte)).wrapping_mul(0x100_0000_01b3))
}

#[test]
fn no_row_of_a_computed_table_is_exchanged_for_another() {
    // whoever changes a row, or what a row means, changes its file's number here
    for (file, rows, number) in [
        ("Cases.antt", 40, 0x685b10a945e66472),
        ("Insertions.antt", 43, 0xb0e3a54342f5846c),
        ("Refusals.antt", 58, 0xbd7e655f0550887c),
        ("Lines.antt", 19, 0xc39ad18c5bf8bbe3),
    ] {
        let text = fs::read_to_string(crates().join("definitions/specs").join(file)).unwrap();
        let said =
            text.lines().map(str::trim).filter(|line| !line.starts_with("--") && !line.starts_with("use "));
        let said: Vec<&str> = said.collect();
        let begins = ["row ", "prev_of ", "next_of ", "record { number"];
        let row = |line: &&&str| begins.iter().any(|begin| line.starts_with(begin));
        let listed: Vec<&&str> = said.iter().filter(row).filter(|line| line.ends_with('∷')).collect();
        assert_eq!(listed.len(), rows, "{file}");
        assert_eq!(listed.iter().collect::<BTreeSet<_>>().len(), rows, "{file} has a row twice");
        assert_eq!(digest(&said.concat()), number, "{file}");
    }
}

#[test]
fn promises_names_every_guard_and_no_other() {
    let text = fs::read_to_string(crates().join("../docs/PROMISES.md")).unwrap();
    let (_, table) = text.split_once("## What refuses a weakened statement").unwrap();
    let (table, _) = table.split_once("\n## ").unwrap();
    let mut named: BTreeMap<String, usize> = BTreeMap::new();
    for row in table.lines().filter(|line| line.starts_with("| `")) {
        let cells: Vec<&str> = row.split(" | ").collect();
        for part in cells[2].split("; ") {
            let (family, members) = part.split_once(": ").unwrap_or((part, ""));
            if let Some((before, after)) = family.trim_matches('`').split_once("..") {
                for member in members.split(", ") {
                    *named.entry(format!("{before}{member}{after}")).or_default() += 1;
                }
            } else {
                for name in part.split(", ") {
                    *named.entry(name.trim_matches('`').to_string()).or_default() += 1;
                }
            }
        }
    }
    let there: BTreeSet<String> =
        PROMISED.iter().flat_map(|owner| guards(owner)).map(|(name, _)| name).collect();
    for name in there.iter().filter(|name| !name.ends_with("_is_open")) {
        assert!(named.contains_key(name), "PROMISES does not name the guard {name}");
    }
    for name in named.keys() {
        assert!(there.contains(name), "PROMISES names the guard {name}, which is not there");
    }
}
