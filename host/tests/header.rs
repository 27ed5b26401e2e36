//! include/chain_arena.h declares the calls as the archives have them: every_call.c makes each one and prints every word that it answers and leaves. Any two
//! arguments of one type, exchanged, are seen in what it prints, and so are any two fields of a result. It makes each call on slots whose numbers need more than
//! 16 bits too, and with the longest columns. The README's examples for C are tried too.

use std::path::{Path, PathBuf};
use std::process::{Command, Output};
use std::sync::LazyLock;

use chain_arena::Arena;

use crate::sold;

/// Each archive: whether it is linked, the options that a C program takes for it, and what every_call.c prints of it.
const ARCHIVES: [(bool, [&str; 2], &str); 4] = [
    (cfg!(feature = "level-one"), ["-DLEVEL_ONE", "-llevel_one"], include_str!("every_call/level_one.txt")),
    (cfg!(feature = "level-two"), ["-DLEVEL_TWO", "-llevel_two"], include_str!("every_call/level_two.txt")),
    (
        cfg!(feature = "level-three"),
        ["-DLEVEL_THREE", "-llevel_three"],
        include_str!("every_call/level_three.txt"),
    ),
    (
        cfg!(feature = "small-arenas"),
        ["-DSMALL_ARENAS", "-lsmall_arenas"],
        include_str!("every_call/small_arenas.txt"),
    ),
];

/// Fields that every reply of a call has alike, so that no reply can show their places: a walk's position begins at its start.
const ALIKE: [(&str, &str, &str); 1] = [("walk_start", "start", "position")];

/// The program that makes every call.
static EVERY_CALL: LazyLock<PathBuf> =
    LazyLock::new(|| compiled(&package().join("tests/every_call.c"), "every_call"));

/// The folder of the package.
fn package() -> PathBuf {
    PathBuf::from(env!("CARGO_MANIFEST_DIR"))
}

/// Compiles a C program with the archives that are linked, warnings being errors, and answers where it is.
fn compiled(source: &Path, name: &str) -> PathBuf {
    let program = Path::new(env!("CARGO_TARGET_TMPDIR")).join(name);
    let mut command = Command::new("cc");
    command
        .args(["-std=c99", "-Wall", "-Wextra", "-Werror", "-pedantic", "-I"])
        .arg(package().join("../include"));
    command.arg(source).arg("-o").arg(&program).arg("-L").arg(env!("CHAIN_ARENA_LINKED"));
    for (_, options, _) in ARCHIVES.iter().filter(|(linked, ..)| *linked) {
        command.args(options);
    }
    assert!(command.status().expect("the C compiler, cc").success(), "{} was not compiled", source.display());
    program
}

/// What a program prints.
fn text(output: Output) -> String {
    assert!(output.status.success(), "it ended with {}", output.status);
    String::from_utf8(output.stdout).unwrap()
}

/// What every_call prints, call by call: the call's name, and its lines.
fn calls() -> Vec<(String, String)> {
    let mut calls: Vec<(String, String)> = Vec::new();
    for line in text(Command::new(&*EVERY_CALL).output().unwrap()).lines() {
        let name = line.split(' ').next().unwrap_or_default();
        if !name.is_empty() && calls.last().is_none_or(|(last, _)| last != name) {
            calls.push((name.to_string(), String::new()));
        }
        calls.last_mut().expect("a call's name comes first").1 += &format!("{line}\n");
    }
    calls
}

/// Whether a call is one on an arena.
fn is_on_arena(name: &str) -> bool {
    sold::is_on_arena(&format!("chain_arena_{name}"))
}

/// The calls of a list, each with its lines.
fn listed(exports: &[&str]) -> impl Iterator<Item = (String, String)> {
    calls().into_iter().filter(|(name, _)| exports.contains(&&*format!("chain_arena_{name}")))
}

/// The fields of each reply among a call's lines: name and value.
fn replies(lines: &str) -> Vec<Vec<(&str, &str)>> {
    let replies = lines.lines().filter(|line| !line.starts_with(' '));
    let fields = replies.map(|line| line.split(' ').skip(1).collect::<Vec<_>>());
    fields.map(|words| words.chunks(2).map(|pair| (pair[0], pair[1])).collect()).collect()
}

#[test]
fn a_c_program_makes_every_call() {
    let linked = ARCHIVES.iter().filter(|(linked, ..)| *linked);
    let expected: String = linked.map(|(_, _, printed)| *printed).collect();
    assert_eq!(calls().into_iter().map(|(_, lines)| lines).collect::<String>(), expected);
    let linked = sold::ARCHIVES.iter().zip(&ARCHIVES).filter(|(_, (linked, ..))| *linked);
    let exports: Vec<&str> = linked.flat_map(|(archive, _)| archive.exports).copied().collect();
    assert_eq!(calls().iter().map(|(name, _)| format!("chain_arena_{name}")).collect::<Vec<_>>(), exports);
}

#[test]
fn any_two_arguments_of_one_type_exchanged_are_seen() {
    for (name, lines) in calls() {
        let mut seen = 0;
        for kind in 0..2 {
            for (i, j) in (1..7).flat_map(|j| (0..j).map(move |i| (i, j))) {
                let words = [name.clone(), kind.to_string(), i.to_string(), j.to_string()];
                let output = Command::new(&*EVERY_CALL).args(&words).output().unwrap();
                if output.status.code() != Some(2) {
                    let printed = text(output);
                    assert!(!lines.starts_with(&printed), "{name}: arguments {i} and {j} of kind {kind}");
                    seen += 1;
                }
            }
        }
        let least = if lines.contains(" | ") { 10 } else { 0 };
        assert!(seen >= least, "{name}: any two of prev, next, generation, payload and header");
    }
}

#[test]
fn any_two_fields_exchanged_are_seen() {
    for (name, lines) in calls() {
        let replies = replies(&lines);
        let fields: Vec<&str> = replies[0].iter().map(|(field, _)| *field).collect();
        let first: &[&str] = if is_on_arena(&name) { &["number", "broken", "side"] } else { &["number"] };
        let shared = fields.iter().filter(|field| ["number", "broken", "side"].contains(*field));
        assert!(fields.starts_with(first) && shared.count() == first.len(), "{name}: {fields:?}");
        for (i, j) in (0..fields.len()).flat_map(|j| (0..j).map(move |i| (i, j))) {
            let seen = replies.iter().any(|reply| reply[i].1 != reply[j].1);
            assert_eq!(
                seen,
                !ALIKE.contains(&(&*name, fields[i], fields[j])),
                "{name}: {} and {}",
                fields[i],
                fields[j]
            );
        }
    }
}

#[test]
fn every_call_names_the_lowest_slot_and_its_side() {
    for (name, lines) in calls().into_iter().filter(|(name, _)| is_on_arena(name)) {
        let first: Vec<[&str; 3]> =
            replies(&lines).iter().map(|reply| [0, 1, 2].map(|k| reply[k].1)).collect();
        assert_eq!(first[..3], [["0", "0", "0"], ["11", "5", "1"], ["11", "4", "2"]], "{name}");
        assert_eq!(first[3..6], [["0", "0", "0"], ["11", "65541", "1"], ["11", "65540", "2"]], "{name}");
    }
}

#[test]
fn columns_may_be_as_long_as_the_limit_and_no_longer() {
    let limit = Arena::CAPACITY_LIMIT;
    for (name, lines) in calls().into_iter().filter(|(_, lines)| lines.contains(" | ")) {
        let lines: Vec<&str> = lines.lines().collect();
        let long = lines.windows(2).filter_map(|pair| Some((pair[1].strip_prefix(" columns of ")?, pair[0])));
        let numbers = long.map(|(length, reply)| (length.parse().unwrap(), replies(reply)[0][0].1));
        let expected = [(65_535, "0"), (65_536, "0"), (limit, "0"), (limit + 1, "1")];
        assert_eq!(numbers.collect::<Vec<(usize, &str)>>(), expected, "{name}");
    }
}

#[test]
fn a_call_without_an_arena_refuses_the_last_of_its_words_with_19() {
    for (name, lines) in listed(sold::WITHOUT_ARENA) {
        let numbers: Vec<&str> = replies(&lines).iter().map(|reply| reply[0].1).collect();
        assert_eq!(numbers, ["0", "0", "19"], "{name}");
        let refused = replies(&lines)[2][1..].to_vec();
        assert!(refused.iter().all(|(_, word)| *word == "0"), "{name}: {refused:?}");
    }
}

#[test]
fn a_call_that_writes_an_arena_refuses_lengths_with_1_and_14_and_writes_only_where_it_finds_one() {
    for (name, lines) in listed(sold::WRITES_ARENA) {
        let found: Vec<Vec<&str>> =
            replies(&lines).iter().map(|reply| reply.iter().map(|(_, word)| *word).collect()).collect();
        let turns = [["0", "1", "3"], ["0", "0", "0"], ["1", "0", "0"], ["14", "0", "0"]];
        assert_eq!(found[..8], [turns, turns].concat(), "{name}");
        let left: Vec<&str> = lines.lines().filter(|line| line.contains(" | ")).collect();
        let words = " 0 1 99 2 0 99 | 2 4 3 0 0 99 | 5 6 0 7 9 99 | 10 20 99 40 50 99 | 5 4 3 11";
        assert_eq!(left[1..4], [words; 3], "{name}");
        // the first three words of each column are the arena's, and the others stay
        let further = |line: &str, first: usize| -> Vec<String> {
            let columns = line.split('|').take(4);
            columns.flat_map(|words| words.split_whitespace().skip(first)).map(str::to_string).collect()
        };
        assert_eq!(further(left[0], 3), further(words, 3), "{name}");
        // in long columns these are below the words that are printed: 3 0 0, 0 2 1, 2 0 2 and 1 0 3
        let changed =
            left[4..].iter().map(|line| line.split(" | ").take(4).map(|words| words.split(':').next()));
        let changed: Vec<Vec<&str>> =
            changed.map(|counts| counts.flatten().map(str::trim).collect()).collect();
        assert_eq!(changed, [["1", "2", "3", "3"], ["0"; 4], ["0"; 4], ["0"; 4]], "{name}");
        assert!(left[5..].iter().all(|line| further(line, 1) == further(left[4], 1)), "{name}");
    }
}

/// What the README's examples for C print, in their order.
#[cfg(all(feature = "level-one", feature = "level-two", feature = "level-three", feature = "small-arenas"))]
const PRINTED: [&str; 3] =
    ["5 0: 1 5 3 4 2\n", "line 2: 682 to 1022\n2 due: slots 3 1\n", "90 small arenas pass the check\n"];

#[cfg(all(feature = "level-one", feature = "level-two", feature = "level-three", feature = "small-arenas"))]
#[test]
fn the_examples_of_the_readme_run() {
    let readme = std::fs::read_to_string(package().join("../README.md")).unwrap();
    let examples: Vec<&str> =
        readme.split("```c\n").skip(1).filter_map(|rest| rest.split("```").next()).collect();
    assert_eq!(examples.len(), PRINTED.len());
    for (k, (example, printed)) in examples.iter().zip(PRINTED).enumerate() {
        let source = Path::new(env!("CARGO_TARGET_TMPDIR")).join(format!("readme_{k}.c"));
        std::fs::write(&source, example).unwrap();
        let program = compiled(&source, &format!("readme_{k}"));
        assert_eq!(text(Command::new(program).output().unwrap()), printed);
    }
}

/// Every dialect that the header is for: the compiler, and the option for the dialect.
const DIALECTS: [(&str, &[&str]); 2] =
    [("cc", &["c89", "c99", "c11", "c17", "c2x"]), ("c++", &["c++98", "c++11", "c++14", "c++17", "c++20"])];

#[test]
fn the_header_is_good_in_every_dialect_and_its_numbers_differ() {
    let header = std::fs::read_to_string(package().join("../include/chain_arena.h")).unwrap();
    let constants = |prefix: &str| {
        let names = header.lines().filter_map(|line| line.strip_prefix("#define ")?.split(' ').next());
        let names = names
            .filter(|name| name.starts_with(prefix) && !name.ends_with("_H") && !name.ends_with("_WORDS"));
        names.map(|name| format!("    case {name}:\n")).collect::<Vec<_>>()
    };
    let codes = [constants("CHAIN_ARENA_COMMAND_"), constants("CHAIN_ARENA_INSERT_")].concat();
    let sides = constants("CHAIN_ARENA_SIDE_");
    let frame = constants("CHAIN_ARENA_FRAME_");
    let limit = constants("CHAIN_ARENA_CAPACITY_");
    let other = |name: &String| ![&codes, &sides, &frame, &limit].iter().any(|names| names.contains(name));
    let numbers: Vec<String> = constants("CHAIN_ARENA_").into_iter().filter(other).collect();
    let counts = [&numbers, &codes, &sides, &frame, &limit].map(|names| names.len());
    assert_eq!(counts, [21, 19, 2, 3, 1]);
    // Two cases of one value are an error, and so is a value that is no constant.
    let known = |name: &str, cases: &[String]| {
        let cases = cases.concat();
        format!(
            "int {name}(uint32_t word);\nint {name}(uint32_t word) {{\n    switch (word) {{\n{cases}        return 1;\n    default:\n        return 0;\n    }}\n}}\n"
        )
    };
    let program = format!(
        "#include \"chain_arena.h\"\n{}{}{}{}{}",
        known("is_number", &numbers),
        known("is_code", &codes),
        known("is_side", &sides),
        known("is_of_the_frame", &frame),
        known("is_the_limit", &limit)
    );
    let mut tried = 0;
    for (compiler, dialects) in DIALECTS {
        let source =
            Path::new(env!("CARGO_TARGET_TMPDIR")).join(format!("dialects.{compiler}").replace("cc", "c"));
        std::fs::write(&source, &program).unwrap();
        for dialect in dialects {
            let mut command = Command::new(compiler);
            command.args(["-Wall", "-Wextra", "-Wconversion", "-Werror", "-pedantic", "-fsyntax-only"]);
            command.arg(format!("-std={dialect}")).arg("-I").arg(package().join("../include")).arg(&source);
            match command.status() {
                Ok(status) => {
                    assert!(status.success(), "{compiler} refuses the header in {dialect}");
                    tried += 1;
                }
                Err(error) => eprintln!("SKIPPED: {compiler} {dialect}: {error}"),
            }
        }
    }
    assert!(tried >= 5, "the C compiler, cc");
}
