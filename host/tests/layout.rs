//! The exports in Rattle, the C header and the Rust declarations say the same of every call: the same parameters and the same fields of its result, by name
//! and type, in the same order. Every word is 32 bits wide. The proofs do not hold these places, so faults are planted for each export: any two parameters,
//! and any two fields, of one type exchanged in the Rattle source are found, and so is a narrower word in any of the three.
//!
//! An archive's exports stand in a crate of their own, NAME_c, which only hands on: the five slices of an arena as one struct, the two words of a pointer as a
//! pointer. The function that an export calls has its name and its promise, of that struct and these pointers, and is in one of the crates below.
//!
//! What each export promises follows from its signature, so that is held too: `Answered` of its own call with its own arguments, of the arena at entry and
//! at exit, of every field and of what is lent; without an arena, that its number and every field are what is defined of its own arguments; where it writes an
//! arena, that these and the arena at exit are what is defined of the arena at entry and of its own arguments; and nothing is asked of the caller. A weaker
//! promise with a proof that fits it would pass the prover.

use std::collections::BTreeSet;
use std::fs;
use std::path::{Path, PathBuf};

use crate::exports_of;
use crate::sold::{ARCHIVES, Archive, WITHOUT_ARENA, WRITES_ARENA, is_on_arena};

/// A parameter or a field: its name, and its type as Rust has it.
type Place = (String, String);

/// What is declared of a call: its parameters, a slice as pointer and count, and the fields of its result.
#[derive(Debug, PartialEq)]
struct Declared {
    parameters: Vec<Place>,
    fields: Vec<Place>,
}

fn root() -> PathBuf {
    Path::new(env!("CARGO_MANIFEST_DIR")).join("..")
}

fn read(name: &str) -> String {
    fs::read_to_string(root().join(name)).unwrap_or_else(|error| panic!("{name}: {error}"))
}

/// The Rattle source of a crate, without comments. It is one file, so that nothing is declared where nobody looks.
fn source(name: &str) -> String {
    let files = std::fs::read_dir(root().join(format!("crates/{name}/src"))).unwrap().count();
    let source = read(&format!("crates/{name}/src/lib.rt"));
    assert!(files == 1 && plain(&source), "{name} has more than one file of plain source");
    uncommented(&source)
}

/// The crates that an archive's exports call: those that its crate of exports depends on and that have its name, or begin with it and `_`.
fn called(archive: &Archive) -> Vec<String> {
    let list = read("crates.txt");
    let begins = format!("{} staticlib:", exports_of(archive.name));
    let mut lines = list.lines().filter_map(|line| line.strip_prefix(&begins));
    let line = lines.next().unwrap_or_else(|| panic!("crates.txt has no line {begins}"));
    let own = |name: &&str| {
        name.strip_prefix(archive.name).is_some_and(|rest| rest.is_empty() || rest.starts_with('_'))
    };
    line.split_whitespace().filter(own).map(str::to_string).collect()
}

/// Whether a source has no other module and no comment but those that begin a line with `//`.
fn plain(source: &str) -> bool {
    let words = |line: &str| line.split_whitespace().next().map(str::to_string).unwrap_or_default();
    !source.contains("/*")
        && source.lines().all(|line| {
            let first = words(line);
            let module = line.split_whitespace().any(|word| word == "mod");
            let uses = line.matches("ghost use ").count();
            first.starts_with("//")
                || (!line.contains("//")
                    && !module
                    && (uses == 0 || (uses == 1 && line.starts_with("ghost use "))))
        })
}

/// A plain source without its comments.
fn uncommented(source: &str) -> String {
    source
        .lines()
        .filter(|line| !line.trim_start().starts_with("//"))
        .map(|line| format!("{line}\n"))
        .collect()
}

/// The Rattle source of what an archive exports.
fn exporting(archive: &Archive) -> String {
    source(&exports_of(archive.name))
}

/// The Rattle source of what an archive's exports call.
fn below(archive: &Archive) -> String {
    called(archive).iter().map(|name| source(name)).collect()
}

/// The Rattle source of all exports.
fn all_exports() -> String {
    ARCHIVES.iter().map(exporting).collect()
}

/// The Rattle source of all that exports call, where their results are declared, and of the results that they share.
fn all_below() -> String {
    ARCHIVES.iter().map(below).collect::<String>() + &source("answers")
}

/// The Rattle source of what is exported, in front of that of what it calls.
fn rattle() -> String {
    all_exports() + &all_below()
}

/// The text between two marks, the first of which stands behind a start.
fn between<'a>(text: &'a str, start: &str, end: &str) -> &'a str {
    let at = text.find(start).unwrap_or_else(|| panic!("{start} is not declared")) + start.len();
    let rest = &text[at..];
    &rest[..rest.find(end).unwrap_or_else(|| panic!("{start} has no end"))]
}

/// The items of a list with commas or semicolons.
fn items(list: &str) -> Vec<&str> {
    list.split([',', ';']).map(str::trim).filter(|item| !item.is_empty()).collect()
}

/// `name: type` as a place.
fn named(item: &str) -> Place {
    let (name, of) =
        item.trim_start_matches("pub ").split_once(": ").unwrap_or_else(|| panic!("{item} has no type"));
    (name.to_string(), of.to_string())
}

/// A Rattle or Rust parameter as it crosses: a slice is a pointer and a count.
fn crossing(item: &str) -> Vec<Place> {
    let (name, of) = named(item);
    let slice = |pointer: &str, element: &str| {
        vec![(name.clone(), format!("*{pointer} {element}")), (format!("{name}_len"), "usize".to_string())]
    };
    if let Some(element) = of.strip_prefix("&mut [") {
        slice("mut", element.trim_end_matches(']'))
    } else if let Some(element) = of.strip_prefix("&[") {
        slice("const", element.trim_end_matches(']'))
    } else {
        vec![(name, of)]
    }
}

/// The name of a call's result: what stands behind its arrow, up to the line's end.
fn result<'a>(text: &'a str, call: &str) -> &'a str {
    let (_, behind) =
        text.split_once(&format!("fn {call}(")).unwrap_or_else(|| panic!("{call} is not declared"));
    between(behind, ") -> ", "\n").trim_end_matches(';')
}

/// The fields of a Rattle or Rust struct; those of the answer that a result begins with are its own.
fn fields(text: &str, of: &str) -> Vec<Place> {
    let declared = items(between(text, &format!("pub struct {of} {{"), "}")).into_iter().map(named);
    declared
        .flat_map(|place| if place.1 == "Answer" { fields(text, "Answer") } else { vec![place] })
        .collect()
}

/// What a Rattle or a Rust text declares.
fn of_rust(text: &str, call: &str) -> Declared {
    let parameters =
        items(between(text, &format!("fn {call}("), ")")).into_iter().flat_map(crossing).collect();
    Declared { parameters, fields: fields(text, result(text, call)) }
}

/// A parameter or a field of C.
fn of_c_item(item: &str) -> Place {
    let (of, name) = item.rsplit_once([' ', '*']).unwrap_or_else(|| panic!("{item} has no name"));
    let pointer = item.contains('*');
    let element = of.trim_start_matches("const ").trim();
    let element = match element.trim_end_matches('*').trim() {
        "uint32_t" => "u32",
        "size_t" => "usize",
        other => other,
    };
    let of = match (pointer, of.starts_with("const ")) {
        (true, true) => format!("*const {element}"),
        (true, false) => format!("*mut {element}"),
        (false, _) => element.to_string(),
    };
    (name.to_string(), of)
}

/// What the C header declares.
fn of_c(text: &str, call: &str) -> Declared {
    let places = |list: &str| items(list).into_iter().map(of_c_item).collect();
    Declared {
        parameters: places(between(text, &format!(" {call}("), ")")),
        fields: places(between(text, &format!("typedef struct {} {{", result_in_c(text, call)), "}")),
    }
}

/// The name of a call's result in the C header: what stands before the call on its line.
fn result_in_c<'a>(text: &'a str, call: &str) -> &'a str {
    let before = &text[..text.find(&format!(" {call}(")).unwrap_or_else(|| panic!("{call} is not declared"))];
    before.rsplit('\n').next().unwrap_or_default()
}

/// Whether each parameter is a word of 32 bits, a pointer to such words or a count, and each field such a word.
fn has_whole_words(declared: &Declared) -> bool {
    let crosses = |of: &str| ["u32", "*const u32", "*mut u32", "usize"].contains(&of);
    declared.parameters.iter().all(|(_, of)| crosses(of)) && declared.fields.iter().all(|(_, of)| of == "u32")
}

/// Every call.
fn calls() -> impl Iterator<Item = &'static str> {
    ARCHIVES.iter().flat_map(|archive| archive.exports).copied()
}

/// The text with two items of the list behind a start exchanged.
fn exchanged(text: &str, start: &str, end: &str, a: &str, b: &str) -> String {
    let list = between(text, start, end);
    let other: Vec<&str> = items(list)
        .into_iter()
        .map(|item| {
            if item == a {
                b
            } else if item == b {
                a
            } else {
                item
            }
        })
        .collect();
    text.replacen(&format!("{start}{list}"), &format!("{start}\n    {},\n", other.join(",\n    ")), 1)
}

/// Each pair of items of one type of the list behind a start.
fn pairs<'a>(text: &'a str, start: &str, end: &str) -> Vec<(&'a str, &'a str)> {
    let all = items(between(text, start, end));
    let pairs = (0..all.len()).flat_map(|j| (0..j).map(move |i| (i, j)));
    pairs.map(|(i, j)| (all[i], all[j])).filter(|(a, b)| named(a).1 == named(b).1).collect()
}

/// A list as a contract writes it.
fn listed(items: Vec<String>) -> String {
    let all: Vec<String> = items.into_iter().chain(["[]".to_string()]).collect();
    if all.len() == 1 { "[]".to_string() } else { format!("({})", all.join(" ∷ ")) }
}

/// The parameters of an export as they stand in its signature.
fn parameters(text: &str, call: &str) -> Vec<Place> {
    items(between(text, &format!("fn {call}("), ")")).into_iter().map(named).collect()
}

/// The words of an export's result as a contract writes them, those of the answer that it may begin with left out.
fn words(text: &str, of: &str) -> Vec<String> {
    items(between(text, &format!("pub struct {of} {{"), "}"))
        .into_iter()
        .map(named)
        .filter(|(_, of)| of == "u32")
        .map(|(name, _)| format!("result.{name}"))
        .collect()
}

/// The contract that an export's signature asks for.
fn promised(text: &str, call: &str) -> String {
    if WITHOUT_ARENA.contains(&call) {
        promised_without_arena(text, call)
    } else if WRITES_ARENA.contains(&call) {
        promised_of_written(text, call)
    } else {
        promised_of_arena(text, call)
    }
}

/// The arguments of a definition that takes words alone.
fn arguments(call: &str, parameters: &[Place]) -> String {
    let word = |(name, of): &Place| {
        assert_eq!(of, "u32", "{call}: {name}");
        name.clone()
    };
    parameters.iter().map(word).collect::<Vec<_>>().join(" ")
}

/// The words of a result that begins with the number alone, those behind it.
fn further(text: &str, call: &str) -> String {
    let mut words = words(text, result(text, call));
    assert_eq!(words.remove(0), "result.number", "{call}");
    listed(words)
}

/// The contract of an export that takes words and no arena: its number and its further fields are what is defined of these words.
fn promised_without_arena(text: &str, call: &str) -> String {
    let (defined, arguments) = (definition_of(call), arguments(call, &parameters(text, call)));
    format!("ensures {{ told result.number {} ≡ {defined} {arguments} }}", further(text, call))
}

/// The names of the five slices that an arena is lent as, with which the parameters begin.
const COLUMNS: [&str; 5] = ["prev", "next", "generation", "payload", "header"];

/// The lent arena at entry and at exit, as a contract writes it. Where no column can be written, both are of what it is now.
fn lent_arena(columns: &[Place]) -> [String; 2] {
    let is_written = |of: &str| of.starts_with("&mut [");
    if !columns.iter().any(|(_, of)| is_written(of)) {
        return ["at_entry", "at_exit"].map(|at| format!("({at} {})", COLUMNS.join(" ")));
    }
    ["old", "new"].map(|at| {
        let word = |(name, of): &Place| format!("{name}.{}", if is_written(of) { at } else { "now" });
        format!("(arena {})", columns.iter().map(word).collect::<Vec<_>>().join(" "))
    })
}

/// The contract of an export that writes an arena: its number, its further fields and the arena at exit are what is defined of the arena at entry and of its
/// words, and nothing else is handed back.
fn promised_of_written(text: &str, call: &str) -> String {
    let parameters = parameters(text, call);
    let written: Vec<&str> = parameters[..5].iter().map(|(name, _)| name.as_str()).collect();
    assert_eq!(written, COLUMNS, "{call}");
    assert!(parameters[..5].iter().all(|(_, of)| of.starts_with("&mut [")), "{call} writes all of them");
    let ([entry, exit], defined) = (lent_arena(&parameters[..5]), definition_of(call));
    let (fields, arguments) = (further(text, call), arguments(call, &parameters[5..]));
    format!(
        "ensures {{ reply result.number {fields} {exit} [] ≡ {defined} capacity_limit {entry} {arguments} }}"
    )
}

/// The contract of an export that takes an arena. A walk's step is handed the words of its state, and hands them back.
fn promised_of_arena(text: &str, call: &str) -> String {
    let parameters = parameters(text, call);
    let names: Vec<&str> = parameters.iter().map(|(name, _)| name.as_str()).collect();
    let own = &parameters[5..];
    assert_eq!(names[..5], COLUMNS, "{call}");
    let of = result(text, call);
    let mut fields = if of == "Answer" { vec![] } else { words(text, of) };
    let (mut arguments, mut lent, mut back) = (vec![], "[]".to_string(), "[]".to_string());
    if call == "chain_arena_walk_step" {
        lent = listed(own.iter().map(|(name, _)| name.clone()).collect());
        back = listed(fields.split_off(fields.len() - own.len()));
    } else {
        for (name, of) in own {
            match of.as_str() {
                "u32" if name.ends_with("_slot") => {
                    arguments.push(format!("(pointer {name} {})", name.replace("_slot", "_generation")))
                }
                "u32"
                    if name.ends_with("_generation")
                        && names.contains(&name.replace("_generation", "_slot").as_str()) => {}
                "u32" if name == "reset" => arguments.push("(not (eqb reset 0))".to_string()),
                "u32" => arguments.push(name.clone()),
                slice if slice.starts_with("&mut [") => {
                    (lent, back) = (format!("{name}.old"), format!("{name}.new"));
                }
                _ => arguments.push(format!("{name}.now")),
            }
        }
    }
    let made = call_of(call);
    let made = if arguments.is_empty() { made } else { format!("({made} {})", arguments.join(" ")) };
    let answer = if of == "Answer" { "result" } else { "result.answer" };
    let ([entry, exit], fields) = (lent_arena(&parameters[..5]), listed(fields));
    format!("ensures {{ Answered {made} {entry} {lent} {answer} {fields} {exit} {back} }}")
}

/// All that stands between an export's signature and its body, on one line.
fn stated(text: &str, call: &str) -> String {
    let (_, behind) =
        text.split_once(&format!("fn {call}(")).unwrap_or_else(|| panic!("{call} is not declared"));
    let (_, contract) =
        between(behind, ") -> ", "\n{").split_once('\n').unwrap_or_else(|| panic!("{call} promises nothing"));
    contract.split_whitespace().collect::<Vec<_>>().join(" ")
}

#[test]
fn every_export_promises_what_its_signature_asks_for_and_asks_nothing() {
    let rattle = rattle();
    for call in calls() {
        assert_eq!(stated(&rattle, call), promised(&rattle, call), "{call}");
    }
    // the words of a contract mean what these modules say: they come from there, and none is renamed
    for line in rattle.lines().filter(|line| line.starts_with("ghost use ")) {
        assert!(from_home(line), "{line}");
    }
}

/// What an export does: its body, on one line.
fn body(text: &str, call: &str) -> String {
    let (_, behind) = text.split_once(&format!("fn {call}(")).unwrap();
    let body = between(behind, "\n{\n", "\n}\n");
    let line = body.split_whitespace().collect::<Vec<_>>().join(" ");
    line.replace("( ", "(").replace(", )", ")").replace(", }", " }").replace(",)", ")")
}

/// How an export hands on what it is lent: the struct of its five slices, the parameters of the function that it calls, and with what it calls it.
struct Handed {
    lent: Option<&'static str>,
    parameters: Vec<Place>,
    arguments: Vec<String>,
}

/// The structs that a lent arena is handed on as, by which of its slices can be written.
const LENT: [(&str, [bool; 5]); 4] = [
    ("LentArena", [false; 5]),
    ("LinksMut", [true, true, false, false, false]),
    ("HeaderMut", [false, false, false, false, true]),
    ("ArenaMut", [true; 5]),
];

/// The words of a walk's state, and how they are handed on as one.
const STATE: [&str; 4] = ["start", "position", "direction", "left"];
const WALK: &str = "ChainPtrAdvancer { init: Slot(start), ptr: Slot(position), switch: direction, max_advances: left }";

/// How an export with these parameters hands on: five slices as the struct that fits them, if one does; the two words of a pointer as a pointer; the four of a
/// walk's state as a walk; all else as it is.
fn handed(parameters: &[Place]) -> Handed {
    let as_it_is = |place: &Place| (place.clone(), place.0.clone());
    let columns = parameters.len() >= 5 && parameters.iter().map(|(name, _)| name).zip(COLUMNS).all(|(name, of)| name == of);
    let written: Vec<bool> = parameters.iter().take(5).map(|(_, of)| of.starts_with("&mut [")).collect();
    let lent = LENT.into_iter().find(|(_, of)| columns && written == of).map(|(name, _)| name);
    let mut places: Vec<(Place, String)> = match lent {
        None => parameters.iter().take(5).map(as_it_is).collect(),
        Some(name) => {
            let changed = if name == "LentArena" { "" } else { "&mut " };
            let made = format!("{changed}{name} {{ {} }}", COLUMNS.join(", "));
            vec![(("arena".to_string(), format!("{changed}{name}<'_>")), made)]
        }
    };
    if parameters.iter().skip(5).map(|(name, _)| name).eq(STATE) {
        places.push((("mut walk".to_string(), "ChainPtrAdvancer".to_string()), WALK.to_string()));
        let (parameters, arguments) = places.into_iter().unzip();
        return Handed { lent, parameters, arguments };
    }
    for place in parameters.iter().skip(5) {
        match place.0.strip_suffix("_generation").filter(|name| ends_in_pointer(&places, name)) {
            Some(name) => {
                places.pop();
                let made = format!("Ptr::new({name}_slot, {name}_generation)");
                places.push(((name.to_string(), "Ptr".to_string()), made));
            }
            None => places.push(as_it_is(place)),
        }
    }
    let (parameters, arguments) = places.into_iter().unzip();
    Handed { lent, parameters, arguments }
}

/// Whether the last place is the slot of the pointer of this name.
fn ends_in_pointer(places: &[(Place, String)], name: &str) -> bool {
    places.last().is_some_and(|((last, _), _)| *last == format!("{name}_slot"))
}

/// The promise of the function that an export with this promise calls: the same of the struct and of the pointers that it is handed. What can be written stays the same buffers.
fn handed_on(promise: &str, handed: &Handed) -> String {
    let mut promise = promise.to_string();
    for (name, _) in handed.parameters.iter().filter(|(_, of)| of == "Ptr") {
        promise = promise.replace(&format!("(pointer {name}_slot {name}_generation)"), &format!("(pointer_of {name})"));
    }
    let [columns, all] = [COLUMNS.map(|name| format!("{name}.now")), COLUMNS.map(str::to_string)].map(|names| names.join(" "));
    let (held, same) = match handed.lent {
        None => return promise,
        Some("LentArena") => {
            assert!(!promise.contains(&columns));
            let lent = "(lent_of arena.entry)";
            let state = format!("({} ∷ [])", STATE.join(" ∷ "));
            let promise = promise.replace(&state, "(state_words (walk_of walk))");
            return promise.replace(&format!("(at_entry {all})"), lent).replace(&format!("(at_exit {all})"), lent);
        }
        Some("LinksMut") => ("links_of", "SameLinks"),
        Some("HeaderMut") => ("header_of", "SameHeader"),
        Some(_) => ("held_in", "SameBuffers"),
    };
    for at in ["old", "new"] {
        let of = LENT.into_iter().find(|(name, _)| Some(*name) == handed.lent).unwrap().1;
        let word = |(name, written): (&str, bool)| format!("{name}.{}", if written { at } else { "now" });
        let words: Vec<String> = COLUMNS.into_iter().zip(of).map(word).collect();
        promise = promise.replace(&format!("(arena {})", words.join(" ")), &format!("({held} arena.{at})"));
    }
    format!("ensures lent {{ {same} arena.old arena.new }} {}", promise.replacen("ensures {", "ensures answered {", 1))
}

#[test]
fn every_export_only_hands_on_to_the_function_of_its_name_which_promises_the_same() {
    for archive in ARCHIVES {
        let exports = exporting(archive);
        for call in archive.exports {
            let owners: Vec<String> = called(archive)
                .into_iter()
                .filter(|name| source(name).contains(&format!("\npub fn {call}(")))
                .collect();
            assert_eq!(owners.len(), 1, "{call} is in {owners:?}");
            let below = source(&owners[0]);
            let handed = handed(&parameters(&exports, call));
            assert_eq!(stated(&below, call), handed_on(&stated(&exports, call), &handed), "{call}");
            assert_eq!(parameters(&below, call), handed.parameters, "{call}");
            assert_eq!(result(&exports, call), result(&below, call), "{call}");
            assert_eq!(
                body(&exports, call),
                format!("{}::{call}({})", owners[0], handed.arguments.join(", ")),
                "{call}"
            );
        }
    }
}

/// The call of a contract, as the definitions name it.
fn call_of(export: &str) -> String {
    let words = export.strip_prefix("chain_arena_").unwrap_or(export).split('_');
    words.map(|word| word[..1].to_uppercase() + &word[1..]).collect()
}

/// What is defined of a call that is not on an arena, as the definitions name it.
fn definition_of(export: &str) -> &str {
    export.strip_prefix("chain_arena_").unwrap_or(export)
}

/// Whether a line brings in each word of a contract from the module that gives it its meaning.
fn from_home(line: &str) -> bool {
    let (module, _) = line.trim_start_matches("ghost use ").split_once(".{").expect("a module and names");
    let home = |name: &str| match name {
        "Answered" => Some("Rattle.answers.specs.Answered"),
        "told" => Some("Rattle.definitions.specs.Clock"),
        name if WITHOUT_ARENA.iter().any(|call| definition_of(call) == name) => {
            Some("Rattle.definitions.specs.Clock")
        }
        "reply" => Some("Rattle.definitions.specs.Reply"),
        "arena" | "capacity_limit" => Some("Rattle.definitions.specs.Arena"),
        name if WRITES_ARENA.iter().any(|call| definition_of(call) == name) => {
            Some("Rattle.all_small.specs.SmallArena")
        }
        "at_entry" | "at_exit" => Some("Rattle.definitions.specs.Lent"),
        "pointer" => Some("Rattle.definitions.specs.Read"),
        "◌≡◌" | "[]" | "◌∷◌" | "not" | "eqb" => Some("Rattle.std.specs.Prelude"),
        "result" | "now" | "old" | "new" => Some("the language itself"),
        name => calls().any(|call| call_of(call) == name).then_some("Rattle.definitions.specs.Calls"),
    };
    !line.contains(" as ")
        && between(line, "{", "}").split(", ").all(|name| home(name).is_none_or(|home| home == module))
}

/// What a line has that exports a function.
const EXPORTED: &str = "#[unsafe(no_mangle)]\npub extern \"C\" fn ";

/// Whether every export, and every struct of its result, is declared once in these sources, the export as one, and what it calls is none.
fn declared_once(exports: &str, below: &str) -> bool {
    let both = format!("{exports}{below}");
    !["no_mangle", "extern", "export_name"].iter().any(|word| below.contains(word))
        && calls().all(|call| {
            exports.matches(&format!("{EXPORTED}{call}(")).count() == 1
                && exports.matches(&format!("fn {call}(")).count() == 1
                && below.matches(&format!("fn {call}(")).count() == 1
                && both.matches(&format!("struct {} {{", result(exports, call))).count() == 1
        })
}

#[test]
fn what_is_looked_at_is_what_is_exported() {
    let (exports, below) = (all_exports(), all_below());
    assert!(declared_once(&exports, &below));
    for call in calls() {
        let decoy = format!("fn {call}(prev: &[u32]) -> Answer\n    ensures {{ result ≡ result }}\n{{\n}}\n");
        assert!(!declared_once(&format!("{decoy}{exports}"), &below), "{call}");
        assert!(!declared_once(&exports, &format!("{decoy}{below}")), "{call}");
        let called = format!("pub fn {call}(");
        assert!(!declared_once(&exports, &below.replace(&called, &format!("{EXPORTED}{call}("))), "{call}");
    }
}

#[test]
fn a_declaration_where_nobody_looks_is_found() {
    for source in [
        "pub mod real;\n",
        "/* pub extern \"C\" fn f() */\n",
        " ghost use A.{B};\n",
        "ghost use A.{B}; ghost use C.{D};\n",
        "fn f() // {\n",
    ] {
        assert!(!plain(source), "{source}");
    }
    assert_eq!(uncommented("// fn f()\nfn g()\n"), "fn g()\n");
}

#[test]
fn a_word_of_a_contract_from_elsewhere_is_found() {
    for line in [
        "ghost use Rattle.answers.specs.Mine.{Connect, BreakPrev};",
        "ghost use Rattle.answers.specs.Mine.{at_exit};",
        "ghost use Rattle.answers.specs.Mine.{arena};",
        "ghost use Rattle.answers.specs.Mine.{now};",
        "ghost use Rattle.answers.specs.Mine.{old, new};",
        "ghost use Rattle.answers.specs.Mine.{result};",
        "ghost use Rattle.answers.specs.Mine.{◌∷◌};",
        "ghost use Rattle.answers.specs.Mine.{◌≡◌};",
        "ghost use Rattle.answers.specs.Mine.{told};",
        "ghost use Rattle.answers.specs.Mine.{line_of_dot};",
        "ghost use Rattle.definitions.specs.Calls.{DueCount, line_dots};",
        "ghost use Rattle.definitions.specs.Clock.{told, DueEvents};",
        "ghost use Rattle.definitions.specs.Clock.{line_dots as line_of_dot};",
        "ghost use Rattle.all_small.specs.Mine.{reply};",
        "ghost use Rattle.all_small.specs.Mine.{Arena, capacity_limit};",
        "ghost use Rattle.all_small.specs.Mine.{small_arena};",
        "ghost use Rattle.all_small.specs.SmallArena.{small_arena, at_entry};",
        "ghost use Rattle.definitions.specs.Clock.{small_arena};",
        "ghost use Rattle.definitions.specs.Calls.{Connect as BreakPrev, BreakPrev as Connect};",
    ] {
        assert!(!from_home(line), "{line}");
    }
}

#[test]
fn a_weaker_promise_is_found_in_every_export() {
    let rattle = rattle();
    for call in calls() {
        let (before, behind) = rattle.split_once(&format!("fn {call}(")).unwrap();
        let wrong = |from: &str, to: &str| {
            let changed = behind.replacen(from, to, 1);
            assert_ne!(changed, behind, "{call}: {from}");
            format!("{before}fn {call}({changed}")
        };
        let mut weaker = vec![wrong("    ensures {", "    requires { 0 ≡ 0 }\n    ensures {")];
        if WITHOUT_ARENA.contains(&call) {
            let (defined, first) = (definition_of(call), &parameters(&rattle, call)[0].0);
            let other = WITHOUT_ARENA.iter().map(|call| definition_of(call)).find(|other| *other != defined);
            weaker.extend([
                wrong("{ told ", "{ ⊥ → told "),
                wrong("told result.number ", "told 0 "),
                wrong("result.number (", "result.number (0 ∷ "),
                wrong(" ∷ [])", " ∷ result.number ∷ [])"),
                wrong(&format!("≡ {defined} {first} }}"), &format!("≡ {defined} 0 }}")),
                wrong(&format!("≡ {defined} "), &format!("≡ {} ", other.unwrap())),
            ]);
        } else if WRITES_ARENA.contains(&call) {
            let (defined, own) = (definition_of(call), &parameters(&rattle, call)[5].0);
            let fields = further(&rattle, call);
            let exchanged = fields.replace("result.found ∷ result.length", "result.length ∷ result.found");
            weaker.extend([
                wrong("{ reply ", "{ ⊥ → reply "),
                wrong("prev.new ", "prev.old "),
                wrong("prev.old ", "prev.new "),
                wrong("(arena prev.new next.new ", "(arena next.new prev.new "),
                wrong("generation.old payload.old ", "payload.old generation.old "),
                wrong("reply result.number ", "reply 0 "),
                wrong(&fields, &exchanged),
                wrong(&fields, &fields.replace("result.length ∷ ", "")),
                wrong(&fields, &fields.replace("result.found", "1")),
                wrong(" header.new) []", " header.new) prev.new"),
                wrong(&format!("≡ {defined} "), "≡ line_of_dot "),
                wrong(" capacity_limit (", " 3 ("),
                wrong(&format!(" {own} }}"), " 0 }"),
            ]);
        } else {
            weaker.push(wrong("{ Answered ", "{ ⊥ → Answered "));
            let contract = &behind[..behind.find("\n{").unwrap()];
            if contract.contains("(at_exit ") {
                weaker.extend([wrong("(at_exit ", "(at_entry "), wrong("(at_entry ", "(at_exit ")]);
            } else {
                let written: Vec<&str> = COLUMNS
                    .into_iter()
                    .filter(|column| contract.contains(&format!("{column}.new")))
                    .collect();
                assert!(!written.is_empty(), "{call} writes a column");
                for column in written {
                    weaker.push(wrong(&format!("{column}.new"), &format!("{column}.old")));
                    weaker.push(wrong(&format!("{column}.old"), &format!("{column}.new")));
                }
            }
        }
        for text in weaker {
            assert_ne!(stated(&text, call), promised(&text, call), "{call}");
        }
    }
}

#[test]
fn each_archive_lists_what_its_crates_export() {
    for archive in ARCHIVES {
        let source = exporting(archive);
        let exports = source.split(EXPORTED).skip(1);
        let names: BTreeSet<&str> = exports.filter_map(|text| text.split('(').next()).collect();
        assert_eq!(archive.exports.iter().copied().collect::<BTreeSet<_>>(), names, "{}", archive.name);
        assert_eq!(archive.exports.len(), names.len(), "{} lists a name twice", archive.name);
    }
}

#[test]
fn rattle_c_and_rust_declare_the_same() {
    let (rattle, header, rust) = (rattle(), read("include/chain_arena.h"), read("host/src/ffi.rs"));
    for call in calls() {
        let exported = of_rust(&rattle, call);
        let first: &[&str] = if is_on_arena(call) { &["number", "broken", "side"] } else { &["number"] };
        let names: Vec<&str> = exported.fields.iter().map(|(name, _)| name.as_str()).collect();
        let shared = names.iter().copied().filter(|name| ["number", "broken", "side"].contains(name));
        assert!(names.starts_with(first) && shared.eq(first.iter().copied()), "{call}: {names:?}");
        assert!(has_whole_words(&exported), "{call}: {exported:?}");
        assert_eq!(of_c(&header, call), exported, "{call} in the C header");
        assert_eq!(of_rust(&rust, call), exported, "{call} in host/src/ffi.rs");
    }
}

/// The texts in which one type of the list behind a start is another, each in turn.
fn narrowed(text: &str, start: &str, end: &str, [wide, narrow]: [&str; 2]) -> Vec<String> {
    let list = between(text, start, end);
    let (before, behind) = text.split_once(&format!("{start}{list}")).unwrap();
    let changed = |(place, _)| {
        let (left, right) = list.split_at(place);
        format!("{before}{start}{left}{}{behind}", right.replacen(wide, narrow, 1))
    };
    list.match_indices(wide).map(changed).collect()
}

#[test]
fn a_narrower_word_is_found_in_every_export() {
    type Read = fn(&str, &str) -> Declared;
    let texts: [(String, Read, &str); 3] = [
        (rattle(), of_rust, "u32"),
        (read("host/src/ffi.rs"), of_rust, "u32"),
        (read("include/chain_arena.h"), of_c, "uint32_t"),
    ];
    for call in calls() {
        for (text, declared, wide) in &texts {
            let (c, narrow) = (*wide == "uint32_t", wide.replace("32", "16"));
            let name = if c { result_in_c(text, call) } else { result(text, call) };
            let (parameters, fields) = match c {
                true => (format!(" {call}("), format!("typedef struct {name} {{")),
                false => (format!("fn {call}("), format!("pub struct {name} {{")),
            };
            let wrongs = [
                narrowed(text, &parameters, ")", [wide, &narrow]),
                narrowed(text, &fields, "}", [wide, &narrow]),
            ];
            let wide_words = declared(text, call).parameters.iter().filter(|(_, of)| of != "usize").count();
            assert_eq!(wrongs[0].len(), wide_words, "{call}");
            for wrong in wrongs.iter().flatten() {
                assert!(!has_whole_words(&declared(wrong, call)), "{call}");
            }
        }
    }
}

#[test]
fn an_exchange_of_two_parameters_or_fields_is_found_in_every_export() {
    let (rattle, header) = (rattle(), read("include/chain_arena.h"));
    for call in calls() {
        let declared = of_c(&header, call);
        let mut planted = 0;
        let mut plant = |start: &str, end: &str| {
            for (a, b) in pairs(&rattle, start, end) {
                let wrong = exchanged(&rattle, start, end, a, b);
                assert_ne!(of_rust(&wrong, call), declared, "{call}: {a} and {b} exchanged");
                planted += 1;
            }
        };
        plant(&format!("fn {call}("), ")");
        let shared: &[&str] = if is_on_arena(call) { &["Answer"] } else { &[] };
        let least = if WITHOUT_ARENA.contains(&call) { 1 } else { 5 };
        for of in shared.iter().copied().chain([result(&rattle, call)]) {
            plant(&format!("pub struct {of} {{"), "}");
        }
        assert!(
            planted >= least,
            "{call}: prev and next, generation and payload, any two of number, broken and side or of other fields; without an arena, the number and a field"
        );
    }
}
