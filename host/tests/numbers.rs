//! The numbers are told alike wherever they stand: in the README, in REFERENCE, in the C header's comment and constants, and in `RefusalKind`; and each method
//! of the wrapper tells in `# Errors` the numbers that the table gives to its call. So are the sides, in the C header and in `Side`, and the longest columns.

use std::collections::BTreeSet;
use std::fs;
use std::path::Path;

use chain_arena::{Arena, RefusalKind, Side};

use crate::sold::{ARCHIVES, is_on_arena};

/// A row of the table: number, name as C has it, meaning, and which calls.
type Row = (u32, String, String, String);

/// A file of the repository.
fn read(name: &str) -> String {
    fs::read_to_string(Path::new(env!("CARGO_MANIFEST_DIR")).join("..").join(name)).unwrap()
}

/// `StalePointer` as `STALE_POINTER`.
fn shouted(name: &str) -> String {
    let mut shouted = String::new();
    for (place, letter) in name.char_indices() {
        shouted += if place > 0 && letter.is_uppercase() { "_" } else { "" };
        shouted.extend(letter.to_uppercase());
    }
    shouted
}

/// The table of a document.
fn told(document: &str) -> Vec<Row> {
    let text = read(document);
    let (_, table) =
        text.split_once("| number | name | what is wrong | which calls |\n|---|---|---|---|\n").unwrap();
    let rows = table.lines().take_while(|line| line.starts_with('|'));
    rows.map(|row| {
        let row = row.replace('`', "");
        let cells: Vec<&str> = row.trim_matches('|').split('|').map(str::trim).collect();
        let &[number, name, meaning, calls] = cells.as_slice() else { panic!("{row} has not four cells") };
        let name = match number {
            "0" => "DONE".to_string(),
            "100" => "OVERFLOWED".to_string(),
            _ => shouted(name),
        };
        (number.parse().unwrap(), name, meaning.to_string(), calls.to_string())
    })
    .collect()
}

/// The table of the C header's comment: a meaning goes on at its own column, the calls stand two further to the right.
fn commented() -> Vec<Row> {
    let header = read("include/chain_arena.h");
    let (_, table) = header.split_once(" *  number  name ").unwrap();
    let mut rows: Vec<Row> = Vec::new();
    for line in table.split(" */").next().unwrap().lines().skip(1) {
        let (numbered, text) = line.split_at(32);
        let mut words = numbered.split_whitespace().skip(1);
        match (words.next().and_then(|word| word.parse().ok()), rows.last_mut()) {
            (Some(number), _) => {
                rows.push((
                    number,
                    words.next().unwrap().to_string(),
                    text.trim().to_string(),
                    String::new(),
                ));
            }
            (None, _) if numbered.contains("name") => {}
            (None, Some(row)) => {
                let part = if text.starts_with("    ") { &mut row.3 } else { &mut row.2 };
                *part += if part.is_empty() { "" } else { " " };
                *part += text.trim();
            }
            (None, None) => panic!("{line} is no row"),
        }
    }
    rows
}

/// The constants of the C header that begin with a prefix: number and name.
fn constants(prefix: &str) -> Vec<(u32, String)> {
    let header = read("include/chain_arena.h");
    let defined = header.lines().filter_map(|line| line.strip_prefix("#define ")?.strip_prefix(prefix));
    let pairs = defined.filter_map(|rest| rest.split_once(' '));
    pairs
        .map(|(name, value)| (value.trim().trim_end_matches('u').parse().unwrap(), name.to_string()))
        .collect()
}

#[test]
fn the_table_is_the_same_everywhere() {
    let table = told("docs/REFERENCE.md");
    assert_eq!(told("README.md"), table);
    let mut commented = commented();
    for row in commented.iter_mut().filter(|row| row.0 <= 11) {
        let all = if row.0 == 0 { "all" } else { "all with an arena" };
        let more = if row.3.is_empty() { "" } else { ", " };
        row.3.insert_str(0, &format!("{all}{more}"));
    }
    assert_eq!(commented, table);
}

#[test]
fn each_refusal_has_its_kind_and_its_constant() {
    let refusals: Vec<Row> =
        told("docs/REFERENCE.md").into_iter().filter(|(number, ..)| ![0, 100].contains(number)).collect();
    let kinds =
        RefusalKind::ALL.iter().map(|kind| (*kind as u32, shouted(&format!("{kind:?}")), kind.to_string()));
    assert!(
        refusals.iter().map(|(number, name, meaning, _)| (*number, name.clone(), meaning.clone())).eq(kinds)
    );
    assert!(
        refusals.into_iter().map(|(number, name, ..)| (number, name)).eq(constants("CHAIN_ARENA_REFUSED_"))
    );
    let done: Vec<(u32, String)> =
        constants("CHAIN_ARENA_").into_iter().filter(|(_, name)| !name.contains('_')).collect();
    assert_eq!(done, [(0, "DONE".to_string()), (100, "OVERFLOWED".to_string())]);
}

#[test]
fn each_side_has_its_word_and_its_constant() {
    let sides = [Side::Prev, Side::Next].map(|side| (side as u32, shouted(&format!("{side:?}"))));
    assert_eq!(sides, [(1, "PREV".to_string()), (2, "NEXT".to_string())]);
    assert_eq!(constants("CHAIN_ARENA_SIDE_"), sides);
    let header = read("include/chain_arena.h");
    let (_, told) = header.split_once(" *   side     ").unwrap();
    assert!(told.lines().next().unwrap().contains("CHAIN_ARENA_SIDE_..: 1 at the prev, 2 at the next alone"));
}

#[test]
fn the_limit_is_that_of_the_wrapper_and_of_the_words() {
    assert_eq!(Arena::CAPACITY_LIMIT, 1 << 20);
    assert_eq!(constants("CHAIN_ARENA_CAPACITY_"), [(Arena::CAPACITY_LIMIT as u32, "LIMIT".to_string())]);
    let limit = Arena::CAPACITY_LIMIT;
    let told =
        format!("are longer than {},{:03},{:03},", limit / 1_000_000, limit / 1000 % 1000, limit % 1000);
    assert!(RefusalKind::Shape.words().contains(&told), "{told}");
    let header = read("include/chain_arena.h");
    assert_eq!(header.matches("are longer than ").count(), header.matches(&told).count());
}

#[cfg(feature = "level-two")]
#[test]
fn the_codes_and_word_counts_are_those_of_the_wrapper() {
    use chain_arena::{Command, Header, LinkInsertKind, Ptr};
    let p = Ptr { slot: 1, generation: 2 };
    let commands = [
        Command::Connect(p, p),
        Command::BreakPrev(p),
        Command::BreakNext(p),
        Command::ExchangeNext(p, p),
        Command::Remove(p),
    ];
    let name = |debug: String| shouted(debug.split(['(', ' ']).next().unwrap());
    let codes = commands.iter().map(|command| (command.words()[0], name(format!("{command:?}"))));
    let (words, constants): (Vec<_>, Vec<_>) =
        constants("CHAIN_ARENA_COMMAND_").into_iter().partition(|(_, name)| name == "WORDS");
    assert!(constants.into_iter().eq(codes));
    assert_eq!(words, [(Command::WORDS as u32, "WORDS".to_string())]);
    let kinds = [
        LinkInsertKind::Disconnected,
        LinkInsertKind::SingleLinkCyclic,
        LinkInsertKind::ChainEnd(p),
        LinkInsertKind::ChainEndInx(1),
        LinkInsertKind::ChainStart(p),
        LinkInsertKind::ChainStartInx(1),
        LinkInsertKind::NextTo(p),
        LinkInsertKind::NextToInx(1),
        LinkInsertKind::PrevTo(p),
        LinkInsertKind::PrevToInx(1),
        LinkInsertKind::AtInterlink { next_to: p, prev_to: p },
        LinkInsertKind::AtInterlinkInx { next_to: 1, prev_to: 1 },
        LinkInsertKind::Bridge { end: p, start: p },
        LinkInsertKind::BridgeInx { end: 1, start: 1 },
    ];
    let codes = kinds.map(|kind| (kind.code(), name(format!("{kind:?}"))));
    assert_eq!(self::constants("CHAIN_ARENA_INSERT_"), codes);
    for kind in kinds {
        assert_eq!(Command::Insert(kind, 9).words()[0], kind.code());
    }
    let manual = read("docs/REFERENCE.md");
    let (_, table) = manual.split_once("| code | kind |").unwrap();
    let rows = table.lines().skip(2).take_while(|line| line.starts_with('|'));
    let told = rows.flat_map(|row| {
        let cells: Vec<Vec<String>> = row
            .split('|')
            .map(|cell| cell.split(", ").map(|word| word.trim().replace('`', "")).collect())
            .collect();
        let pairs = cells[1].iter().zip(&cells[2]);
        pairs.map(|(code, name)| (code.parse().unwrap(), shouted(name))).collect::<Vec<(u32, String)>>()
    });
    assert!(told.eq(codes), "REFERENCE has the kinds in a table");
    let (_, table) = manual.split_once("| code | edit |").unwrap();
    let rows: Vec<Vec<&str>> = table
        .lines()
        .skip(2)
        .take_while(|line| line.starts_with('|'))
        .map(|row| row.split('|').map(str::trim).collect())
        .collect();
    let (insertion, edits) = rows.split_last().unwrap();
    let told = edits.iter().map(|row| (row[1].parse().unwrap(), row[2].replace(' ', "_").to_uppercase()));
    assert!(
        told.eq(self::constants("CHAIN_ARENA_COMMAND_").into_iter().filter(|(_, name)| name != "WORDS")),
        "REFERENCE has the edits of a run in a table"
    );
    assert_eq!(insertion[1..3], ["6 to 19", "[insert](#insert), with the code as the kind"]);
    assert_eq!(self::constants("CHAIN_ARENA_HEADER_"), [(Header::WORDS as u32, "WORDS".to_string())]);
    let drained = chain_arena::DrainedLink::WORDS as u32;
    assert_eq!(self::constants("CHAIN_ARENA_DRAIN_"), [(drained, "WORDS".to_string())]);
}

#[cfg(feature = "level-one")]
#[test]
fn the_frame_is_that_of_the_wrapper() {
    use chain_arena::{Dot, Line};
    let frame = [(Line::COUNT, "LINES"), (Line::DOTS, "LINE_DOTS"), (Dot::COUNT, "DOTS")];
    assert_eq!(constants("CHAIN_ARENA_FRAME_"), frame.map(|(value, name)| (value, name.to_string())));
    assert_eq!(frame.map(|(value, _)| value), [262, 341, 89_342]);
}

#[cfg(feature = "level-three")]
#[test]
fn the_words_of_a_moved_link_are_those_of_the_wrapper() {
    let moved = chain_arena::Moved::<chain_arena::Ptr>::WORDS as u32;
    assert_eq!(constants("CHAIN_ARENA_COMPRESS_"), [(moved, "WORDS".to_string())]);
}

/// The numbers in the comment that stands above a declaration: from 12 to 19, but for the codes of insertions, 6 to 19; or, if
/// the call checks no arena, all before a colon.
fn above(source: &str, declaration: &str, checks: bool) -> Vec<u32> {
    let start = source.find(declaration).unwrap_or_else(|| panic!("{declaration} is not there"));
    let comment = |line: &&str| ["/*", " *", "    ///"].iter().any(|sign| line.starts_with(sign));
    let mut lines: Vec<&str> = source[..start].trim_end().lines().rev().take_while(comment).collect();
    lines.reverse();
    let text = lines.join(" ").replace("6 to 19", "");
    if !checks {
        let before = text.match_indices(':').filter_map(|(place, _)| text[..place].rsplit(' ').next());
        return once(before.filter_map(|word| word.parse().ok()));
    }
    let numbers = text.split(|c: char| !c.is_ascii_digit());
    once(numbers.filter_map(|word| word.parse().ok()).filter(|n| (12..=19).contains(n)))
}

/// The numbers in the order in which each comes first.
fn once(numbers: impl Iterator<Item = u32>) -> Vec<u32> {
    let mut found = vec![];
    for number in numbers {
        if !found.contains(&number) {
            found.push(number);
        }
    }
    found
}

#[test]
fn each_declaration_tells_the_numbers_of_its_call() {
    let (ffi, header) = (read("host/src/ffi.rs"), read("include/chain_arena.h"));
    for (call, order) in ORDER {
        let (numbers, checks) = (once(order.iter().copied()), is_on_arena(&format!("chain_arena_{call}")));
        let declared = format!("    pub fn chain_arena_{call}(");
        assert_eq!(above(&ffi, &declared, checks), numbers, "{call} in ffi.rs");
        let line = header.lines().find(|line| line.ends_with(&format!(" chain_arena_{call}("))).unwrap();
        assert_eq!(above(&header, line, checks), numbers, "{call} in the C header");
    }
}

#[test]
fn the_sections_that_the_header_names_are_there() {
    let (header, manual) = (read("include/chain_arena.h"), read("docs/REFERENCE.md"));
    let comments = header.split("/*").skip(1).filter_map(|rest| rest.split("*/").next());
    let brackets =
        comments.flat_map(|comment| comment.split('(').skip(1)).filter_map(|rest| rest.split(')').next());
    let sections: Vec<&str> = brackets.filter(|words| words.starts_with(char::is_uppercase)).collect();
    assert!(sections.len() > 15, "{sections:?}");
    for section in sections {
        let heading = |line: &str| line.trim_start_matches('#').trim() == section && line.starts_with("##");
        assert!(manual.lines().any(heading), "REFERENCE has no section {section}");
    }
}

/// The numbers that are told under `# Errors` of a method, in their order; if `checks`, those behind the check's, which are told
/// first.
fn documented(source: &str, method: &str, checks: bool) -> Vec<u32> {
    let start = source.find(&format!("    {method}")).unwrap_or_else(|| panic!("no method {method}"));
    let doc = |line: &&str| line.trim_start().starts_with("//") || line.contains("#[");
    let lines = source[..start].trim_end_matches(' ').lines().rev().take_while(doc);
    let errors: Vec<&str> = lines.take_while(|line| !line.contains("# Errors")).collect();
    let text = errors.into_iter().rev().map(|line| line.trim().trim_start_matches("///")).collect::<String>();
    let own = text.split("What is refused of a command").next().unwrap();
    let own = match own.split_once("1 to 11") {
        Some((before, own)) if checks && before.trim().is_empty() => own,
        None if !checks => own,
        _ => panic!("{method} tells: {text}"),
    };
    own.split(|c: char| !c.is_ascii_digit())
        .filter_map(|word| word.parse().ok())
        .filter(|&n| !checks || n > 11)
        .collect()
}

/// What each call refuses of its own, in its order (REFERENCE, the call's section).
const ORDER: [(&str, &[u32]); 24] = [
    ("check", &[]),
    ("get_link", &[12]),
    ("get_link_no_gen", &[12]),
    ("are_neighbors", &[]),
    ("walk_start", &[12]),
    ("walk_step", &[]),
    ("line_of_dot", &[19]),
    ("line_dots", &[19]),
    ("due_count", &[12, 19]),
    ("due_events", &[12, 19, 14]),
    ("connect", &[12, 13, 12, 13]),
    ("break_prev", &[12, 13]),
    ("break_next", &[12, 13]),
    ("exchange_next", &[12, 13]),
    ("insert", &[16, 17, 18]),
    ("remove", &[12]),
    ("drain", &[12, 14]),
    ("set_generation", &[15]),
    ("inc_generation", &[]),
    ("canonicalize_freelist", &[]),
    ("run", &[16, 14]),
    ("compress_with", &[14]),
    ("compress_canonical", &[14]),
    ("small_arena", &[1, 14]),
];

#[test]
fn each_method_tells_the_numbers_of_its_call() {
    let own: Vec<Row> =
        told("docs/REFERENCE.md").into_iter().filter(|row| (1..100).contains(&row.0)).collect();
    let calls =
        ARCHIVES.iter().flat_map(|archive| archive.exports.iter().map(move |export| (archive, export)));
    assert_eq!(calls.clone().count(), ORDER.len());
    for ((archive, export), (call, order)) in calls.zip(ORDER) {
        assert_eq!(export.strip_prefix("chain_arena_"), Some(call));
        let called = |calls: &str| calls.split(';').next().unwrap().split(", ").any(|name| name == call);
        let numbers = own.iter().filter(|(.., calls)| called(calls)).map(|(number, ..)| *number);
        assert_eq!(
            order.iter().copied().collect::<BTreeSet<u32>>(),
            numbers.collect(),
            "{call} in the table"
        );
        let file = match call {
            "walk_step" => "walk",
            "line_of_dot" | "line_dots" => "clock",
            "small_arena" => "small",
            _ => archive.name,
        };
        let source = read(&format!("host/src/{file}.rs"));
        let method = match call {
            "walk_step" => "pub fn step(",
            "run" => "pub fn run_words(",
            // a dot and a line are refused when they are made
            "line_of_dot" => "fn try_from(dot: u32)",
            "line_dots" => "fn try_from(line: u32)",
            "due_events" | "drain" | "compress_with" | "compress_canonical" => &format!("pub fn {call}<"),
            _ => &format!("pub fn {call}("),
        };
        // a kind that Rust has typed is never unknown, and a window is one of the frame
        let typed =
            |number: &&u32| matches!((call, **number), ("insert", 16) | ("due_count" | "due_events", 19));
        let told: Vec<u32> = order.iter().filter(|number| !typed(number)).copied().collect();
        assert_eq!(documented(&source, method, is_on_arena(export)), told, "{call}");
    }
}

#[test]
fn each_method_that_is_no_call_tells_its_numbers() {
    let [one, two, view, clock] =
        ["level_one", "level_two", "checked", "clock"].map(|name| read(&format!("host/src/{name}.rs")));
    assert_eq!(documented(&one, "pub fn walk(", true), [12]);
    assert_eq!(documented(&one, "pub fn walk_from(", true), []);
    assert_eq!(documented(&two, "pub fn run<", true), []);
    assert_eq!(documented(&clock, "pub fn due_events(", true), [12]);
    assert!(two.contains("What is refused of a command is in its answer: 12, 13, 17 or 18."));
    assert!(two.contains("is in its answer word: 12, 13, 17, 18, or 16 for an"));
    assert_eq!(documented(&view, "pub fn checked(&self) -> Result<Checked<'a>", true), []);
    assert_eq!(documented(&view, "pub fn checked(&self) -> Result<Checked<'_>", true), []);
    for method in ["link", "link_no_gen", "payload", "prev", "next", "chain", "chain_from_first", "due"] {
        assert_eq!(documented(&view, &format!("pub fn {method}("), false), [12], "{method}");
    }
    assert!(
        one.contains("[`Checked::chain`](crate::Checked::chain) gives the same links"),
        "walk points to the view"
    );
    assert!(
        one.contains("[`Checked::due`](crate::Checked::due) gives the same links"),
        "due_events points to the view"
    );
}
