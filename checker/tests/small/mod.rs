//! The small arenas: the list of all, the text of each, and what is wrong use.

use std::fs;
use std::fs::File;
use std::path::Path;

use super::{arenas, checker, folder, program, ran, says, with_input, word};

/// What a file beside this package holds.
fn beside(path: &str) -> String {
    fs::read_to_string(Path::new(env!("CARGO_MANIFEST_DIR")).join("..").join(path)).unwrap()
}

/// The stored list: what each small arena holds, and the last line.
fn listed() -> (Vec<String>, String) {
    let list = fs::read_to_string(arenas().join("small.out")).unwrap();
    let (lines, last) = list.trim_end().rsplit_once('\n').unwrap();
    let held = lines.lines().enumerate().map(|(index, line)| {
        let (number, held) = line.trim_start().split_once("  ").unwrap();
        assert_eq!(number, index.to_string(), "{line}");
        held.to_string()
    });
    (held.collect(), last.to_string())
}

#[test]
fn all_small_arenas_are_listed() {
    says(&["small"], "small.out", 0);
    let (mut held, last) = listed();
    let counts = "1 of stack length 0, 3 of stack length 1, 13 of stack length 2, 73 of stack length 3";
    assert_eq!((held.len(), last), (90, format!("90 small arenas: {counts}")));
    held.sort_unstable();
    assert!(held.is_sorted_by(|one, other| one < other));
}

#[test]
fn one_small_arena_is_printed() {
    says(&["small", "84"], "small.84.out", 0);
    says(&["small", "0084"], "small.84.out", 0);
    says(&["small", "0"], "small.0.out", 0);
}

/// The words of a text, one arena on a line, as the program `small_printer` writes them: the header's, then prev, next,
/// generation and payload of each slot.
fn words(text: &str) -> String {
    let mut lines = text.lines().filter(|line| !line.starts_with('#'));
    let header = lines.next().unwrap().strip_prefix("header ").unwrap().to_string();
    lines.enumerate().fold(header, |words, (k, line)| {
        let row: Vec<&str> = line.split_whitespace().collect();
        assert_eq!(row[0], (k + 1).to_string());
        format!("{words} | {}", row[1..].join(" "))
    })
}

#[test]
fn every_small_arena_is_printed_read_again_and_passes_the_check() {
    let file = folder("small-texts").join("arena.txt");
    let (held, _) = listed();
    let printed = beside("crates/small_printer/stdout");
    assert_eq!(printed.lines().count(), held.len());
    for (index, (held, expected)) in held.iter().zip(printed.lines()).enumerate() {
        let output = File::create(&file).unwrap();
        let small = ran(program(&["small", &index.to_string()]).stdout(output).output().unwrap());
        assert_eq!((small.stderr.as_str(), small.status), ("", 0));
        let text = fs::read_to_string(&file).unwrap();
        assert_eq!(text.lines().next(), Some(format!("# small arena {index}: {held}").as_str()));
        assert_eq!(words(&text), expected);
        let from_file = checker(&["check", word(&file)]);
        let from_input = with_input(&["check", "-"], text.as_bytes());
        for (checked, name) in [(from_file, word(&file)), (from_input, "standard input")] {
            let (verdict, rows) = checked.stdout.split_once('\n').unwrap();
            assert!(verdict.starts_with(&format!("{name}: passes the check: ")), "{verdict}");
            let rows: Vec<String> =
                rows.lines().map(|row| row.split_whitespace().collect::<Vec<_>>().join(" ")).collect();
            assert_eq!(rows.join(", "), if index == 0 { "" } else { held });
            assert_eq!((checked.stderr.as_str(), checked.status), ("", 0));
        }
    }
}

#[test]
fn a_small_arena_is_drawn_as_by_the_check() {
    let folder = folder("small-drawn");
    let file = folder.join("arena.txt");
    for index in ["0", "43", "84", "89"] {
        fs::write(&file, checker(&["small", index]).stdout).unwrap();
        for option in ["--svg", "--html"] {
            let drawn = |name: &str, command: &[&str]| {
                let out = folder.join(name);
                assert_eq!(checker(&[command, &[option, word(&out)]].concat()).status, 0);
                fs::read_to_string(out).unwrap()
            };
            let small = drawn("small", &["small", index]);
            let title = format!("small arena {index}");
            assert!(small.contains(&title) && small.contains("passes the check"));
            assert_eq!(small.replace(&title, word(&file)), drawn("checked", &["check", word(&file)]));
        }
    }
}

#[test]
fn wrong_use_is_told() {
    let folder = folder("small-misused");
    let out = folder.join("out.svg");
    let too_large = ["90", "91", "128", "256", "65536", "4294967295", "4294967296", "99999999999999999999"];
    for index in too_large.into_iter().chain(["", "x", "+1", "1.0", "0x1", "8 4", "\u{661}"]) {
        let ran = checker(&["small", index, "--svg", word(&out)]);
        let message = format!("`small` takes INDEX, a number from 0 to 89, found `{index}`\n");
        assert_eq!((ran.stdout.as_str(), ran.status), ("", 2));
        assert_eq!(ran.stderr, format!("{message}`checker --help` tells how it is called\n"));
    }
    for (arguments, message) in [
        (&["small", "1", "2"][..], "`small` takes one INDEX or none, but 2 are given"),
        (&["small", "--svg", word(&out)], "`--svg` goes with `small INDEX`, not with `small` alone"),
        (&["small", "--html", word(&out)], "`--html` goes with `small INDEX`, not with `small` alone"),
        (&["small", "1", "--around", "1"], "`--around` goes with `check`, `compress` and `apply` only"),
    ] {
        let ran = checker(arguments);
        assert_eq!((ran.stdout.as_str(), ran.status), ("", 2), "checker {arguments:?}");
        assert_eq!(ran.stderr, format!("{message}\n`checker --help` tells how it is called\n"));
    }
    assert!(!out.exists());
}

#[cfg(target_os = "linux")]
#[test]
fn a_failed_write_is_told_and_a_reader_that_has_gone_away_is_not() {
    for arguments in [&["small"][..], &["small", "84"]] {
        let full = File::create("/dev/full").unwrap();
        let told = ran(program(arguments).stdout(full).output().unwrap());
        assert!(told.stderr.starts_with("standard output: ") && told.status == 2, "{}", told.stderr);
        let (reader, writer) = std::io::pipe().unwrap();
        drop(reader);
        let gone = ran(program(arguments).stdout(writer).output().unwrap());
        assert_eq!((gone.stderr.as_str(), gone.status), ("", 2));
    }
}

#[test]
fn what_the_document_shows_is_what_is_said() {
    let document = beside("docs/FORMAT.md");
    let part = document.split("\n## All small arenas\n").nth(1).unwrap().split("\n## ").next().unwrap();
    let shown: Vec<&str> = part.lines().filter_map(|line| line.strip_prefix("    ")).collect();
    let said = ["small.out", "small.84.out"].map(|name| fs::read_to_string(arenas().join(name)).unwrap());
    let message = checker(&["small", "90"]).stderr;
    let said: Vec<&str> = said.iter().chain([&message]).flat_map(|text| text.lines()).collect();
    assert!(shown.len() > 10);
    for line in shown.into_iter().filter(|line| *line != "..") {
        assert!(said.contains(&line), "{line}");
    }
}
