//! The checker, run as a tester runs it: what it says, what it draws and how it ends.

#[cfg(feature = "level-two")]
mod apply;
mod due;
#[cfg(feature = "small-arenas")]
mod small;
mod xml;

use std::fs::{self, File};
use std::io::Write;
use std::path::{Path, PathBuf};
use std::process::{Command, Output, Stdio};

/// How a run of the program ended, and what it wrote.
struct Ran {
    status: i32,
    stdout: String,
    stderr: String,
}

/// The folder of the arenas that are checked here, with the text that is expected of each.
fn arenas() -> PathBuf {
    Path::new(env!("CARGO_MANIFEST_DIR")).join("tests/arenas")
}

/// The program, to be run in the folder of the arenas.
fn program(arguments: &[&str]) -> Command {
    let mut program = Command::new(env!("CARGO_BIN_EXE_checker"));
    program.args(arguments).current_dir(arenas());
    program
}

/// What became of a run.
fn ran(output: Output) -> Ran {
    Ran {
        status: output.status.code().unwrap(),
        stdout: String::from_utf8(output.stdout).unwrap(),
        stderr: String::from_utf8(output.stderr).unwrap(),
    }
}

/// Runs the program in the folder of the arenas.
fn checker(arguments: &[&str]) -> Ran {
    ran(program(arguments).output().unwrap())
}

/// Runs the program with a text on its standard input.
fn with_input(arguments: &[&str], text: &[u8]) -> Ran {
    let streams = || Stdio::piped();
    let mut child = program(arguments).stdin(streams()).stdout(streams()).stderr(streams()).spawn().unwrap();
    child.stdin.take().unwrap().write_all(text).unwrap();
    ran(child.wait_with_output().unwrap())
}

/// A fresh folder for the files of a test.
fn folder(name: &str) -> PathBuf {
    let folder = Path::new(env!("CARGO_TARGET_TMPDIR")).join(name);
    let _ = fs::remove_dir_all(&folder);
    fs::create_dir(&folder).unwrap();
    folder
}

/// A path as an argument.
fn word(path: &Path) -> &str {
    path.to_str().unwrap()
}

/// Runs the program on a text with further options, and answers too what it drew.
fn on_text(command: &str, name: &str, text: &[u8], options: &[&str]) -> (Ran, String) {
    let file = Path::new(env!("CARGO_TARGET_TMPDIR")).join(name);
    let picture = file.with_extension("svg");
    let _ = fs::remove_file(&picture);
    fs::write(&file, text).unwrap();
    let (file, out) = (word(&file), word(&picture));
    let ran = checker(&[&[command, file, "--svg", out], options].concat());
    let said = ran.stdout.replace(file, name);
    let failed = ran.stderr.replace(file, name);
    let drawn = fs::read_to_string(&picture).unwrap_or_default();
    if !drawn.is_empty() {
        assert_eq!(xml::well_formed(&drawn), Ok(()));
    }
    (Ran { stdout: said, stderr: failed, ..ran }, drawn)
}

/// Holds what the program says to a stored text.
fn says(arguments: &[&str], stored: &str, status: i32) {
    let ran = checker(arguments);
    let expected = fs::read_to_string(arenas().join(stored)).unwrap();
    assert_eq!(ran.stdout, expected, "checker {arguments:?} should say what is in {stored}");
    assert_eq!((ran.stderr.as_str(), ran.status), ("", status));
}

#[test]
fn a_whole_arena_is_listed() {
    says(&["check", "whole.txt"], "whole.check.out", 0);
    says(&["check", "empty.txt"], "empty.check.out", 0);
}

#[test]
fn a_broken_arena_is_explained() {
    says(&["check", "broken.txt"], "broken.check.out", 1);
    says(&["check", "broken_next.txt"], "broken_next.check.out", 1);
    says(&["check", "broken_both.txt"], "broken_both.check.out", 1);
    says(&["check", "broken_two.txt"], "broken_two.check.out", 1);
}

#[test]
fn the_format_page_shows_how_a_broken_arena_is_explained() {
    let page = Path::new(env!("CARGO_MANIFEST_DIR")).join("../docs/FORMAT.md");
    let shown = fs::read_to_string(page).unwrap();
    let said = fs::read_to_string(arenas().join("broken_two.check.out")).unwrap();
    let example: String = said.lines().map(|line| format!("    {line}\n")).collect();
    assert!(shown.contains(&format!("\n\n{example}\n")), "{example}");
    assert!(shown.contains(&format!("\n\n    {NAMED_OF_TWO}\n\n")));
}

#[test]
fn the_chain_of_a_slot_is_shown_alone() {
    says(&["check", "whole.txt", "--around", "5"], "whole.around5.out", 0);
    says(&["check", "whole.txt", "--around=9"], "whole.around9.out", 0);
    says(&["check", "whole.txt", "--around", "6"], "whole.around6.out", 0);
    says(&["check", "broken.txt", "--around", "2"], "broken.around2.out", 1);
    // The freelist ends at slot 1 and misses slots 2 and 3.
    let text = b"header 3 0 1 5\n1 0 1 0 0\n2 0 3 0 0\n3 0 3 0 0\n";
    let (ran, _) = on_text("check", "missed.txt", text, &["--around", "3"]);
    assert_eq!((ran.stdout.lines().last(), ran.status), (Some("  not listed 2 [3]"), 1));
    for slot in ["10", "65541", "4294967295"] {
        let ran = checker(&["check", "whole.txt", "--around", slot]);
        let message = format!("whole.txt: slot {slot} is not on the stack, whose length is 9\n");
        assert_eq!((ran.stdout, ran.stderr, ran.status), (String::new(), message, 2));
    }
    let short = changed(&[("header 5 4 3 5", "header 8 4 3 5")]);
    for (slot, message) in [
        ("8", "short.txt: there is no slot 8, since the columns have only 5 slots\n"),
        ("9", "short.txt: slot 9 is not on the stack, whose length is 8\n"),
    ] {
        let (ran, _) = on_text("check", "short.txt", short.as_bytes(), &["--around", slot]);
        assert_eq!((ran.stdout.as_str(), ran.stderr.as_str(), ran.status), ("", message, 2));
    }
}

#[test]
fn rows_with_a_wrong_pointer_to_the_chain_of_a_slot_are_shown() {
    // 3 names 1 as its prev and 4 names 2 as its next, but 1 -> 2 names neither; 5 and 6 have nothing to do with them.
    let text = b"header 6 6 0 5\n1 0 2 5 0\n2 1 0 5 0\n3 1 0 5 0\n4 0 2 5 0\n5 0 6 5 0\n6 5 0 5 0\n";
    for (slot, own) in [("1", "[1] -> 2"), ("2", "1 -> [2]")] {
        let (ran, _) = on_text("check", "joined.txt", text, &["--around", slot]);
        let rows: Vec<&str> = ran.stdout.lines().filter(|line| line.starts_with("  open ")).collect();
        let own = format!("  open    {own}");
        assert_eq!(rows, [own.as_str(), "  open    (prev 1 is wrong) 3", "  open    4 -> (2 is wrong)"]);
    }
}

#[test]
fn counts_agree_with_their_nouns() {
    for (text, counts) in [
        (
            "header 2 1 1 5\n1 0 1 0 0\n2 0 0 5 5",
            "1 link on 1 open and 0 closed chains, 1 free slot, room for 2 slots",
        ),
        ("header 1 1 0 5\n1 1 1 5 5", "1 link on 0 open and 1 closed chain, 0 free slots, room for 1 slot"),
    ] {
        let (ran, _) = on_text("check", "counts.txt", text.as_bytes(), &[]);
        assert_eq!(
            ran.stdout.lines().next(),
            Some(format!("counts.txt: passes the check: {counts}").as_str())
        );
    }
}

#[cfg(feature = "level-three")]
#[test]
fn a_compression_is_shown_side_by_side() {
    says(&["compress", "whole.txt"], "whole.compress.out", 0);
    says(&["compress", "empty.txt"], "empty.compress.out", 0);
    says(&["compress", "broken.txt"], "broken.check.out", 1);
    says(&["compress", "whole.txt", "--reset"], "whole.compress.reset.out", 0);
    says(&["compress", "whole.txt", "--order-preserving"], "whole.compress.order.out", 0);
    says(&["compress", "whole.txt", "--around", "2"], "whole.compress.around2.out", 0);
    says(&["compress", "whole.txt", "--around", "6"], "whole.compress.around6.out", 0);
}

#[cfg(feature = "level-three")]
#[test]
fn an_overflow_is_told() {
    let sentence =
        "the generation overflowed, from 4294967295 to 2: pointers kept from before may name other links";
    let text = "header 2 1 1 4294967295\n1 0 1 0 0\n2 0 0 7 10\n";
    for (options, overflows) in [
        (&[][..], true),
        (&["--order-preserving"], true),
        (&["--reset"], false),
        (&["--reset", "--order-preserving"], false),
    ] {
        let (ran, picture) = on_text("compress", "overflow.txt", text.as_bytes(), options);
        assert_eq!((ran.stderr.as_str(), ran.status), ("", 0));
        assert_eq!(ran.stdout.lines().any(|line| line == sentence), overflows, "{options:?}: {}", ran.stdout);
        assert_eq!(picture.contains(&format!(">{sentence}</text>")), overflows, "{options:?}");
        assert!(ran.stdout.contains("after: stack length 1, link count 1, root 0, generation 2\n"));
    }
    let (ran, _) = on_text("compress", "no_links.txt", b"header 0 0 0 4294967295", &[]);
    assert!(!ran.stdout.contains("overflowed"));
}

#[cfg(feature = "level-three")]
#[test]
fn arenas_are_compared() {
    says(&["compare", "whole.txt", "whole.txt"], "compare.same.out", 0);
    says(&["compare", "whole.txt", "renamed.txt"], "compare.renamed.out", 0);
    says(&["compare", "whole.txt", "changed.txt"], "compare.changed.out", 1);
    says(&["compare", "changed.txt", "empty.txt"], "compare.empty.out", 1);
    says(&["compare", "empty.txt", "empty.txt"], "compare.none.out", 0);
    says(&["compare", "whole.txt", "broken.txt"], "compare.broken.out", 1);
    says(&["compare", "broken.txt", "broken.txt"], "compare.both_broken.out", 1);
    let ran = with_input(&["compare", "-", "whole.txt"], &fs::read(arenas().join("renamed.txt")).unwrap());
    assert!(
        ran.stdout.starts_with("A: standard input: 7 links on 2 open and 2 closed chains\nB: whole.txt: ")
    );
    assert_eq!((ran.stderr.as_str(), ran.status), ("", 0));
}

#[cfg(feature = "level-three")]
#[test]
fn what_differs_is_drawn() {
    let out = folder("compared").join("out.svg");
    let ran = checker(&["compare", "whole.txt", "changed.txt", "--svg", word(&out)]);
    assert_eq!(ran.status, 1);
    let picture = fs::read_to_string(&out).unwrap();
    assert_eq!(xml::well_formed(&picture), Ok(()));
    assert_eq!(picture.matches("class=\"title\"").count(), 2);
    // The closed chain from slot 4 to slot 5 of A is open in B, and the payload of slot 6 is another.
    assert_eq!(drawn_broken(&picture), ["4", "5", "6", "4", "5", "6"]);
    let [a, b] = panels(&picture);
    for (panel, other) in [(a, "B"), (b, "A")] {
        let title = |slots| format!("<title>its chain, {slots}, has no partner in {other}</title>");
        assert_eq!(panel.matches(&title("slots 4 to 5")).count(), 2);
        assert_eq!(panel.matches(&title("slot 6")).count(), 1);
    }
    let said = [
        "passes the check",
        "does not hold the same chains as B: 2 chains are only in A",
        "the first only in A and the chain of B that begins most like it part at place 3: \
         the way back to old slot 2 in A, the end in B",
        "canonically compressed, they first differ at slot 4: prev 5 in A, 0 in B",
    ];
    assert_eq!(verdicts(a), said);
    assert_eq!(verdicts(b), [said[0], "does not hold the same chains as A: 2 chains are only in B"]);
}

#[cfg(feature = "level-three")]
#[test]
fn that_two_arenas_hold_the_same_is_drawn() {
    let out = folder("same").join("out.svg");
    for (other, order) in [("whole.txt", ""), ("renamed.txt", ", in another order")] {
        let ran = checker(&["compare", "whole.txt", other, "--svg", word(&out)]);
        let picture = fs::read_to_string(&out).unwrap();
        assert_eq!((ran.status, drawn_broken(&picture).len()), (0, 0));
        for (panel, label) in panels(&picture).into_iter().zip(["B", "A"]) {
            assert_eq!(
                verdicts(panel),
                [format!("passes the check and holds the same chains as {label}{order}")]
            );
        }
    }
    let ran = checker(&["compare", "whole.txt", "broken.txt", "--svg", word(&out)]);
    let picture = fs::read_to_string(&out).unwrap();
    let [a, b] = panels(&picture);
    assert!(a.starts_with("A: whole.txt<") && b.starts_with("B: broken.txt<"));
    assert_eq!((verdicts(a), ran.status), (vec!["passes the check", "not compared"], 1));
    let verdict = "refused with 11 at the next of slot 1: its next is 2, but the prev of slot 2 is 4, not 1";
    assert_eq!(verdicts(b), [&format!("{verdict} (2 faults at 2 slots)"), "not compared"]);
}

/// The two panels of a picture, each from its title on.
#[cfg(any(feature = "level-two", feature = "level-three"))]
fn panels(picture: &str) -> [&str; 2] {
    let panels: Vec<&str> = picture.split("<text class=\"title\" x=\"20\" y=").skip(1).collect();
    [panels[0], panels[1]].map(|panel| panel.split_once('>').unwrap().1)
}

/// What is said of a panel below its title.
#[cfg(any(feature = "level-two", feature = "level-three"))]
fn verdicts(panel: &str) -> Vec<&str> {
    let lines = panel.lines().skip(1).take_while(|line| line.starts_with("<text "));
    lines.map(|line| line.split_once('>').unwrap().1.split('<').next().unwrap()).collect()
}

#[cfg(feature = "level-three")]
#[test]
fn without_arguments_it_shows_arenas_of_its_own() {
    says(&[], "samples.out", 0);
}

#[cfg(not(feature = "level-two"))]
#[test]
fn applying_commands_needs_level_two() {
    let ran = checker(&["apply", "whole.txt", "edits.txt"]);
    let message = "apply needs Level Two: build with the feature level-two\n";
    assert_eq!((ran.stdout.as_str(), ran.stderr.as_str(), ran.status), ("", message, 2));
}

#[cfg(not(feature = "level-three"))]
#[test]
fn compressing_and_comparing_need_level_three() {
    for (command, files) in [("compress", &["whole.txt"][..]), ("compare", &["whole.txt", "whole.txt"])] {
        let ran = checker(&[&[command], files].concat());
        let message = format!("{command} needs Level Three: build with the feature level-three\n");
        assert_eq!((ran.stdout.as_str(), ran.stderr, ran.status), ("", message, 2));
    }
}

#[cfg(not(feature = "small-arenas"))]
#[test]
fn small_arenas_need_their_archive() {
    for arguments in [&["small"][..], &["small", "42"], &["small", "90"]] {
        let ran = checker(arguments);
        let message = "small needs the small arenas: build with the feature small-arenas\n";
        assert_eq!((ran.stdout.as_str(), ran.stderr.as_str(), ran.status), ("", message, 2));
    }
}

#[test]
fn help_and_version_are_printed() {
    for option in ["--help", "-h"] {
        let ran = checker(&["check", option]);
        assert!(ran.stdout.starts_with("usage: checker [COMMAND] [OPTION]..\n"), "{}", ran.stdout);
        for name in [
            "check FILE",
            "compress FILE",
            "compare A B",
            "apply FILE COMMANDS",
            "due FILE SLOT GENERATION FROM TO",
            "small [INDEX]",
            "--reset",
            "--order-preserving",
            "--around SLOT",
            "--svg OUT",
            "--html OUT",
        ] {
            assert!(ran.stdout.lines().any(|line| line.trim_start().starts_with(name)), "{name}");
        }
        assert_eq!((ran.stderr.as_str(), ran.status), ("", 0));
    }
    for option in ["--version", "-V"] {
        let ran = checker(&[option]);
        let version = concat!("checker ", env!("CARGO_PKG_VERSION"), "\n");
        assert_eq!((ran.stdout.as_str(), ran.stderr.as_str(), ran.status), (version, "", 0));
    }
}

#[test]
fn wrong_use_is_told() {
    for (arguments, message) in [
        (&["check"][..], "`check` needs one file, but none is given"),
        (&["look", "whole.txt"], "unknown command `look`"),
        (&["check", "whole.txt", "--foo"], "unknown option `--foo`"),
        (&["check", "whole.txt", "--svg"], "`--svg` needs the name of a file to write"),
        (&["compare", "-", "-"], "`compare - -`: standard input can be read only once"),
    ] {
        let ran = checker(arguments);
        assert_eq!((ran.stdout.as_str(), ran.status), ("", 2), "checker {arguments:?}");
        assert_eq!(ran.stderr, format!("{message}\n`checker --help` tells how it is called\n"));
    }
    for (arguments, name) in [
        (&["check", "nowhere.txt"][..], "nowhere.txt: "),
        (&["check", "."], ".: "),
        (&["check", ""], "``: "),
        (&["check", "nowhere\n\u{1b}.txt"], r"nowhere\n\u{1b}.txt: "),
        (&["check", "whole.txt", "--svg", "nowhere/picture.svg"], "nowhere/picture.svg: "),
    ] {
        let ran = checker(arguments);
        assert_eq!((ran.stdout.as_str(), ran.status), ("", 2));
        assert!(ran.stderr.starts_with(name), "{}", ran.stderr);
    }
}

#[test]
fn a_dash_is_standard_input() {
    let text = fs::read(arenas().join("whole.txt")).unwrap();
    let ran = with_input(&["check", "-"], &text);
    let expected = fs::read_to_string(arenas().join("whole.check.out")).unwrap();
    assert_eq!(ran.stdout, expected.replace("whole.txt", "standard input"));
    assert_eq!((ran.stderr.as_str(), ran.status), ("", 0));
    let ran = with_input(&["check", "-"], b"header 1 x");
    let message =
        "standard input:1:10: found `x`, expected a word of the header, a number from 0 to 4294967295\n";
    assert_eq!((ran.stdout.as_str(), ran.stderr.as_str(), ran.status), ("", message, 2));
}

#[cfg(unix)]
#[test]
fn what_is_read_is_not_written_over() {
    // it has a link, and the toolchain's gate refuses links in the repository
    let folder = std::env::temp_dir().join(format!("checker-written-over-{}", std::process::id()));
    let _ = fs::remove_dir_all(&folder);
    fs::create_dir(&folder).unwrap();
    let text = fs::read(arenas().join("whole.txt")).unwrap();
    let file = folder.join("arena.txt");
    fs::write(&file, &text).unwrap();
    fs::create_dir(folder.join("inner")).unwrap();
    fs::hard_link(&file, folder.join("hard.svg")).unwrap();
    std::os::unix::fs::symlink(&file, folder.join("soft.svg")).unwrap();
    for out in ["arena.txt", "./arena.txt", "inner/../arena.txt", "hard.svg", "soft.svg"] {
        for (command, files) in [("check", &["arena.txt"][..]), ("compare", &["hard.svg", "arena.txt"])] {
            let arguments = [&[command], files, &["--svg", out]].concat();
            let ran = ran(program(&arguments).current_dir(&folder).output().unwrap());
            let message = format!("`--svg {out}` would write over {}, which is read\n", files[0]);
            assert_eq!((ran.stdout.as_str(), ran.stderr, ran.status), ("", message, 2));
        }
        let input = File::open(&file).unwrap();
        let arguments = ["check", "-", "--svg", out];
        let ran = ran(program(&arguments).current_dir(&folder).stdin(input).output().unwrap());
        let message = format!("`--svg {out}` would write over standard input, which is read\n");
        assert_eq!((ran.stdout.as_str(), ran.stderr, ran.status), ("", message, 2));
    }
    let ran = checker(&["compare", "whole.txt", word(&file), "--svg", word(&file)]);
    let message = "would write over FILE, which is read\n".replace("FILE", word(&file));
    assert!(ran.stderr.ends_with(&message) && ran.status == 2, "{}", ran.stderr);
    assert_eq!(fs::read(&file).unwrap(), text);
    let said = folder.join("said");
    for option in ["--svg", "--html"] {
        let mut run = program(&["check", "whole.txt", option, word(&said)]);
        let ran = self::ran(run.stdout(File::create(&said).unwrap()).output().unwrap());
        assert_eq!((ran.status, fs::read(&said).unwrap()), (2, Vec::new()));
        assert!(
            ran.stderr.ends_with("would write over standard output, which goes to that file\n"),
            "{}",
            ran.stderr
        );
    }
    fs::remove_dir_all(folder).unwrap();
}

#[cfg(unix)]
#[test]
fn what_is_no_file_cannot_be_written_over() {
    let null = "/dev/null";
    let ran_quietly = |arguments: &[&str]| {
        ran(program(arguments).stdin(Stdio::null()).stdout(Stdio::null()).output().unwrap())
    };
    let ran = ran_quietly(&["check", "whole.txt", "--svg", null]);
    assert_eq!((ran.stderr.as_str(), ran.status), ("", 0));
    let ran = ran_quietly(&["check", "-", "--svg", null]);
    assert_eq!(ran.stderr, "standard input:1:1: found the end of the text, expected `header`\n");
}

#[cfg(target_os = "linux")]
#[test]
fn a_failed_write_is_told() {
    let full = || File::create("/dev/full").unwrap();
    for arguments in [&["check", "whole.txt"][..], &["--help"], &["--version"], &[]] {
        let ran = ran(program(arguments).stdout(full()).output().unwrap());
        assert_eq!(ran.status, 2);
        assert!(ran.stderr.starts_with("standard output: "), "{}", ran.stderr);
    }
    let ran = checker(&["check", "whole.txt", "--svg", "/dev/full"]);
    assert_eq!((ran.stdout.as_str(), ran.status), ("", 2));
    assert!(ran.stderr.starts_with("/dev/full: "), "{}", ran.stderr);
}

#[cfg(unix)]
#[test]
fn a_reader_that_has_gone_away_needs_no_message() {
    let (reader, writer) = std::io::pipe().unwrap();
    drop(reader);
    let ran = ran(program(&["check", "whole.txt"]).stdout(writer).output().unwrap());
    assert_eq!((ran.stderr.as_str(), ran.status), ("", 2));
}

#[cfg(unix)]
#[test]
fn a_file_may_have_any_name() {
    use std::ffi::OsStr;
    use std::os::unix::ffi::OsStrExt;
    let folder = folder("names");
    let text = fs::read(arenas().join("whole.txt")).unwrap();
    for (name, shown) in [
        (&b"<&>\"'.txt"[..], "&lt;&amp;&gt;&quot;&apos;.txt"),
        (b"]]>&amp;", "]]&gt;&amp;amp;"),
        (b"\x01\x1b\n\x7f", r"\u{1}\u{1b}\n\u{7f}"),
        (b"\xff\xef\xbf\xbf", "\u{fffd}\\u{ffff}"),
        ("--\u{202e}\u{1f600}".as_bytes(), "--\\u{202e}\u{1f600}"),
    ] {
        let name = OsStr::from_bytes(name);
        fs::write(folder.join(name), &text).unwrap();
        let mut run = program(&["check", "--svg", "out.svg", "--"]);
        let ran = ran(run.arg(name).current_dir(&folder).output().unwrap());
        assert_eq!((ran.stderr.as_str(), ran.status), ("", 0), "{name:?}");
        let picture = fs::read_to_string(folder.join("out.svg")).unwrap();
        assert_eq!(xml::well_formed(&picture), Ok(()), "{name:?}");
        assert!(
            picture.contains(&format!("<text class=\"title\" x=\"20\" y=\"34\">{shown}</text>")),
            "{name:?}"
        );
    }
}

#[test]
fn a_parse_error_has_its_place_and_what_was_found() {
    let word_of_header = "expected a word of the header, a number from 0 to 4294967295";
    let long = format!("header {}", "9".repeat(50));
    let cases: &[(&[u8], &str)] = &[
        (b"", "1:1: found the end of the text, expected `header`"),
        (b"# nothing\n\n", "3:1: found the end of the text, expected `header`"),
        (b"\n# nothing", "2:10: found the end of the text, expected `header`"),
        (b"\n head 1 1 0 5\n", "2:2: found `head`, expected `header`"),
        (b"header 1 x 0 5\n", &format!("1:10: found `x`, {word_of_header}")),
        (b"header 1 1 0 4294967296", &format!("1:14: found `4294967296`, {word_of_header}")),
        (long.as_bytes(), &format!("1:8: found `{}..`, {word_of_header}", "9".repeat(40))),
        (b"header \x1b[31m\x00\n", &format!(r"1:8: found `\u{{1b}}[31m\0`, {word_of_header}")),
        (b"header 1 1 0 5\n2 0 0 5 5", "2:1: found `2`, expected slot 1"),
        (b"header 2 2 0 5\n1 0 0 5 5\n\n1 0 0 5 5", "4:1: found `1`, expected slot 2"),
        (
            b"header 1 1 0 5\n1 +0 0 5 5",
            "2:3: found `+0`, expected the prev of slot 1, a number from 0 to 4294967295 or `-`",
        ),
        (
            b"header 1 1 0 5\n1 0 4294967296 5 5",
            "2:5: found `4294967296`, expected the next of slot 1, a number from 0 to 4294967295 or `-`",
        ),
        (
            b"header 1 1 0 5\r\n1 0\t0 -5 5\r\n",
            "2:7: found `-5`, expected the generation of slot 1, a number from 0 to 4294967295 or `-`",
        ),
        (
            b"header 1 1 0 5\n1 0 0 5 # 5",
            "2:8: found the end of the line, expected the payload of slot 1, a number from 0 to 4294967295 or `-`",
        ),
        (b"header 1 1 0 5\n1 0 0 5 5  6 # six", "2:12: found `6`, expected the end of the line"),
        (
            b"header 2 2 0 5\n1 0 0 5 -\n2 0 0 5 7",
            "3:9: found `7`, expected `-`, since the payload column ended before slot 1",
        ),
        ("# \u{e9}\nheader \u{e9} 1".as_bytes(), &format!("2:8: found `\u{e9}`, {word_of_header}")),
        ("header\u{a0}1\u{a0}x".as_bytes(), &format!("1:10: found `x`, {word_of_header}")),
        (b"header 1 1\n1 \xff", "2:3: found the byte 0xff, expected UTF-8 text"),
        (b"\xef\xbb\xbfhead", "1:1: found `head`, expected `header`"),
        (b"\xef\xbb\xbf\xef\xbb\xbfheader", r"1:1: found `\u{feff}header`, expected `header`"),
        (
            b"\xff\xfeh\x00",
            "1:1: found the byte 0xff, expected UTF-8 text; it seems to be UTF-16, save it as UTF-8",
        ),
        (
            b"\xfe\xff\x00h",
            "1:1: found the byte 0xfe, expected UTF-8 text; it seems to be UTF-16, save it as UTF-8",
        ),
    ];
    for (k, (text, expected)) in cases.iter().enumerate() {
        let (ran, picture) = on_text("check", &format!("parse{k}.txt"), text, &[]);
        assert_eq!(ran.stderr, format!("parse{k}.txt:{expected}\n"));
        assert_eq!((ran.stdout.as_str(), ran.status, picture.as_str()), ("", 2, ""));
    }
}

#[test]
fn a_byte_order_mark_is_skipped() {
    let (ran, _) = on_text("check", "marked.txt", b"\xef\xbb\xbfheader 0 0 0 2", &[]);
    assert!(ran.stdout.starts_with("marked.txt: passes the check"));
    assert_eq!((ran.stderr.as_str(), ran.status), ("", 0));
}

/// 1 -> 5, the closed 2 -> 4 -> (2), and the free slot 3.
const SAMPLE: &str = "\
header 5 4 3 5
1 0 5 5 10
2 4 4 5 20
3 0 3 0 0
4 2 2 5 40
5 1 0 5 50
";

/// The sample with some of its lines exchanged.
fn changed(lines: &[(&str, &str)]) -> String {
    lines.iter().fold(SAMPLE.to_string(), |text, (from, to)| {
        assert!(text.contains(from), "{from}");
        text.replace(from, to)
    })
}

/// The slots that are drawn with a class: the first text of each such box.
fn drawn_as<'p>(picture: &'p str, class: &str) -> Vec<&'p str> {
    let boxes = picture.split("<g class=\"slot").skip(1);
    let boxes = boxes.filter(|text| text.split('>').next().unwrap().contains(class));
    boxes.map(|text| text.split("</text>").next().and_then(|text| text.rsplit('>').next()).unwrap()).collect()
}

/// The slots that are drawn as broken.
fn drawn_broken(picture: &str) -> Vec<&str> {
    drawn_as(picture, "broken")
}

#[test]
fn each_refusal_is_explained_and_its_slot_is_drawn_red() {
    // Slot 5 is free too, and slot 1 is alone.
    let two_free = |next_of_3, next_of_5| {
        changed(&[
            ("header 5 4 3 5", "header 5 3 3 5"),
            ("1 0 5 5 10", "1 0 0 5 10"),
            ("3 0 3 0 0", &format!("3 0 {next_of_3} 0 0")),
            ("5 1 0 5 50", &format!("5 0 {next_of_5} 0 0")),
        ])
    };
    let header = |header: &str| changed(&[("header 5 4 3 5", header)]);
    let row = |from, to| changed(&[(from, to)]);
    let cases = [
        (1, header("header 5 4 3"), "the header has 3 words, but it must have 4", ""),
        (1, header("header 5"), "the header has 1 word, but it must have 4", ""),
        (
            1,
            row("5 1 0 5 50", "5 1 0 5 -"),
            "the columns differ in length: prev has 5 words, next 5, generation 5 and payload 4",
            "",
        ),
        (2, header("header 5 4 3 1"), "the current generation is 1, but it must be at least 2", ""),
        (3, header("header 6 4 3 5"), "the stack length is 6, but the columns have only 5 slots", ""),
        (3, header("header 5 7 3 5"), "the link count is 7, but the columns have only 5 slots", ""),
        (4, header("header 5 5 3 5"), "the link count is 5, but the stack of 5 slots has 4 links", ""),
        (5, header("header 5 4 0 5"), "there is no freelist root, but slot 3 is free", "3"),
        (
            5,
            two_free(3, 3).replace(" 3 3 5\n", " 3 0 5\n"),
            "there is no freelist root, but slot 3 is free",
            "3",
        ),
        (5, "header 1 1 1 5\n1 0 0 5 10".to_string(), "the freelist root is 1, but no slot is free", "1"),
        (
            6,
            row("3 0 3 0 0", "3 0 0 0 0"),
            "the freelist comes from slot 3 to 0, but its last slot must point at itself",
            "3",
        ),
        (
            7,
            header("header 5 4 70000 5"),
            "the freelist root is 70000, which is above the stack length 5",
            "",
        ),
        (
            7,
            row("3 0 3 0 0", "3 0 6 0 0"),
            "the freelist comes from slot 3 to 6, which is above the stack length 5",
            "3",
        ),
        (8, header("header 5 4 1 5"), "the freelist root is 1, but slot 1 is a link", "1"),
        (8, row("3 0 3 0 0", "3 0 4 0 0"), "the freelist comes from slot 3 to 4, but slot 4 is a link", "4"),
        (
            9,
            two_free(5, 3),
            "the freelist comes from slot 5 to 3 again, and none of its slots points at itself",
            "5",
        ),
        (10, two_free(3, 0), "the freelist ends at slot 3 after 1 of 2 free slots: slot 5 is not on it", "5"),
        (
            10,
            "header 3 0 1 5\n1 0 1 0 0\n2 0 3 0 0\n3 0 3 0 0".to_string(),
            "the freelist ends at slot 1 after 1 of 3 free slots: slot 2 is not on it",
            "2",
        ),
        (
            11,
            row("1 0 5 5 10", "1 6 5 5 10"),
            "slot 1: its prev is 6, which is above the stack length 5",
            "1",
        ),
        // 65,539 is 3 in 16 bits
        (
            7,
            row("3 0 3 0 0", "3 0 65539 0 0"),
            "the freelist comes from slot 3 to 65539, which is above the stack length 5",
            "3",
        ),
        (
            11,
            row("1 0 5 5 10", "1 4294967295 5 5 10"),
            "slot 1: its prev is 4294967295, which is above the stack length 5",
            "1",
        ),
        (11, row("1 0 5 5 10", "1 3 5 5 10"), "slot 1: its prev is 3, but slot 3 is free", "1"),
        (11, row("5 1 0 5 50", "5 0 0 5 50"), "slot 1: its next is 5, but slot 5 has no prev", "1"),
        (11, row("1 0 5 5 10", "1 0 0 5 10"), "slot 5: its prev is 1, but slot 1 has no next", "5"),
    ];
    for (number, text, why, slot) in cases {
        let (ran, picture) = on_text("check", "refused.txt", text.as_bytes(), &[]);
        let (refused, reason) = refused_with(number, why);
        assert!(ran.stdout.starts_with(&format!("refused.txt: {refused}: ")), "{why}: {}", ran.stdout);
        assert_eq!(ran.stdout.lines().nth(1), Some(format!("  {why}").as_str()));
        assert_eq!((ran.stdout.lines().count(), ran.stderr.as_str(), ran.status), (2, "", 1));
        assert_eq!(drawn_broken(&picture).concat(), slot, "the red slot, where {why}");
        assert!(picture.contains(&format!(">{refused}: {reason}</text>")));
    }
}

/// What a refusal says before its reason, and the reason; a fault of rule 11 names its slot and its side.
fn refused_with(number: u32, why: &str) -> (String, &str) {
    let refused = format!("refused with {number}");
    match why.strip_prefix("slot ").and_then(|rest| rest.split_once(": ")) {
        Some((slot, reason)) => {
            let side = reason.split(' ').nth(1).unwrap();
            (format!("{refused} at the {side} of slot {slot}"), reason)
        }
        None => (refused, why),
    }
}

#[test]
fn all_faults_of_rule_11_are_listed_and_drawn_red() {
    let cases = [
        (
            &[("1 0 5 5 10", "1 0 6 5 10")][..],
            &[
                "slot 1: its next is 6, which is above the stack length 5",
                "slot 5: its prev is 1, but the next of slot 1 is 6, not 5",
                "2 faults at 2 slots",
            ][..],
            "15",
        ),
        (
            &[("1 0 5 5 10", "1 0 65541 5 10")],
            &[
                "slot 1: its next is 65541, which is above the stack length 5",
                "slot 5: its prev is 1, but the next of slot 1 is 65541, not 5",
                "2 faults at 2 slots",
            ],
            "15",
        ),
        (
            &[("1 0 5 5 10", "1 0 3 5 10")],
            &[
                "slot 1: its next is 3, but slot 3 is free",
                "slot 5: its prev is 1, but the next of slot 1 is 3, not 5",
                "2 faults at 2 slots",
            ],
            "15",
        ),
        (
            &[("2 4 4 5 20", "2 1 4 5 20")],
            &[
                "slot 2: its prev is 1, but the next of slot 1 is 5, not 2",
                "slot 4: its next is 2, but the prev of slot 2 is 1, not 4",
                "2 faults at 2 slots",
            ],
            "24",
        ),
        (
            &[("1 0 5 5 10", "1 4 6 5 10"), ("5 1 0 5 50", "5 1 3 5 50")],
            &[
                "slot 1: its prev is 4, but the next of slot 4 is 2, not 1",
                "slot 1: its next is 6, which is above the stack length 5",
                "slot 5: its prev is 1, but the next of slot 1 is 6, not 5",
                "slot 5: its next is 3, but slot 3 is free",
                "4 faults at 2 slots",
            ],
            "15",
        ),
        (
            &[("1 0 5 5 10", "1 4 6 5 10"), ("5 1 0 5 50", "5 0 0 5 50")],
            &[
                "slot 1: its prev is 4, but the next of slot 4 is 2, not 1",
                "slot 1: its next is 6, which is above the stack length 5",
                "2 faults at 1 slot",
            ],
            "1",
        ),
    ];
    for (lines, said, slots) in cases {
        let (ran, picture) = on_text("check", "faults.txt", changed(lines).as_bytes(), &[]);
        let (refused, reason) = refused_with(11, said[0]);
        assert!(ran.stdout.starts_with(&format!("faults.txt: {refused}: ")), "{}", ran.stdout);
        let faults: Vec<&str> = ran.stdout.lines().skip(1).map(str::trim_start).collect();
        let mut listed: Vec<String> = said.iter().map(|line| line.to_string()).collect();
        listed[0] += " (named by the check)";
        assert_eq!((faults, ran.status), (listed.iter().map(String::as_str).collect(), 1));
        assert_eq!(drawn_broken(&picture).concat(), slots);
        let (count, faults) = listed.split_last().unwrap();
        assert!(picture.contains(&format!(">{refused}: {reason} ({count})</text>")));
        assert!(faults.iter().all(|fault| picture.contains(fault)));
    }
}

/// The verdict of a picture on broken_two.txt.
const NAMED_OF_TWO: &str =
    "refused with 11 at the next of slot 3: its next is 1, but slot 1 has no prev (3 faults at 2 slots)";

#[test]
fn the_named_slot_and_its_side_are_drawn() {
    let out = folder("named").join("out.svg");
    let slots_of = |title: &str| title.split(": ").next().map(|slot| slot.replace("slot ", "")).unwrap();
    for (file, verdict, titles) in [
        (
            "broken_next.txt",
            "refused with 11 at the next of slot 4: its next is 2, but slot 2 has no prev",
            &["slot 4: its next is 2, but slot 2 has no prev"][..],
        ),
        (
            "broken_both.txt",
            "refused with 11 at the prev of slot 3: its prev is 4, but slot 4 is free (2 faults at 1 slot)",
            &["slot 3: its prev is 4, but slot 4 is free (named by the check); \
               slot 3: its next is 9, which is above the stack length 5"],
        ),
        (
            "broken_two.txt",
            NAMED_OF_TWO,
            &[
                "slot 3: its next is 1, but slot 1 has no prev (named by the check)",
                "slot 5: its prev is 4, but slot 4 has no next; slot 5: its next is 6, but slot 6 has no prev",
            ],
        ),
    ] {
        assert_eq!(checker(&["check", file, "--svg", word(&out)]).status, 1);
        let picture = fs::read_to_string(&out).unwrap();
        assert_eq!(
            picture.matches(&format!("<text class=\"wrong\" x=\"20\" y=\"58\">{verdict}</text>")).count(),
            1
        );
        let drawn: Vec<&str> =
            picture.split("<title>").skip(1).map(|text| text.split('<').next().unwrap()).collect();
        assert_eq!(drawn, titles, "{file}");
        assert!(drawn_broken(&picture).into_iter().eq(titles.iter().map(|title| slots_of(title))), "{file}");
    }
}

#[test]
fn every_slot_of_the_stack_is_drawn_once() {
    let (_, picture) = on_text("check", "drawn.txt", &fs::read(arenas().join("whole.txt")).unwrap(), &[]);
    for slot in 1..=9 {
        let number = |text: &&str| text.contains(&format!(">{slot}</text>\n<text class=\"note\""));
        let drawn = picture.split("<text class=\"number\"").filter(number);
        assert_eq!(drawn.count(), 1, "slot {slot}");
    }
    assert_eq!(picture.matches("<g class=\"slot\">").count(), 7);
    assert_eq!(picture.matches("<g class=\"slot free\">").count(), 2);
    // 1 -> 5, 5 -> 3, 2 -> 4, 4 -> 2 and 7 -> 7; from the root to 8, 8 -> 6 and 6 -> 6.
    assert_eq!(picture.matches("<path class=\"next\"").count(), 5);
    assert_eq!(picture.matches("<path class=\"freelist\"").count(), 3);
    assert_eq!(picture.matches("<path class=\"wrong\"").count(), 0);
}

/// As many slots as an arena can have. With fewer levels the gate does not optimise the program, and so many would take long.
const MOST: u32 = if cfg!(feature = "level-three") { 1_048_576 } else { 70_000 };

/// The text of an arena that is one chain through all slots, closed or not.
fn one_chain(slots: u32, closed: bool) -> String {
    let mut text = format!("header {slots} {slots} 0 5\n");
    for slot in 1..=slots {
        let (prev, next) = (slot - 1, if slot == slots { 0 } else { slot + 1 });
        let ends = |neighbour, other| if closed && neighbour == 0 { other } else { neighbour };
        text += &format!("{slot} {} {} 5 {slot}\n", ends(prev, slots), ends(next, 1));
    }
    text
}

#[test]
fn a_large_arena_is_drawn_in_part() {
    for (slots, closed) in [(65_535, false), (65_536, true), (MOST, false)] {
        let (ran, picture) = on_text("check", "large.txt", one_chain(slots, closed).as_bytes(), &[]);
        assert_eq!(ran.status, 0);
        assert!(ran.stdout.lines().all(|line| line.len() <= 110));
        let numbers = ran.stdout.split_whitespace().filter(|word| word.parse::<u32>().is_ok()).count();
        assert_eq!(numbers, slots as usize + 5);
        assert!(
            picture.contains(&format!("The picture is cut: 600 of {slots} slots of the stack are drawn."))
        );
        assert_eq!(picture.matches("<g class=\"slot\">").count(), 600);
    }
    let (_, picture) = on_text("check", "just.txt", one_chain(600, false).as_bytes(), &[]);
    assert!(!picture.contains("The picture is cut"));
    let (_, picture) = on_text("check", "just.txt", one_chain(601, false).as_bytes(), &[]);
    assert!(picture.contains("The picture is cut: 600 of 601 slots of the stack are drawn."));
}

#[test]
fn a_wrong_root_is_drawn_however_large_the_arena() {
    let text = one_chain(2000, false).replace("header 2000 2000 0 5", "header 2000 2000 70000 5");
    let (ran, picture) = on_text("check", "root.txt", text.as_bytes(), &[]);
    assert_eq!(ran.status, 1);
    assert_eq!(picture.matches("<path class=\"wrong\"").count(), 1);
    assert_eq!((picture.matches(">70000</text>").count(), picture.matches(">free</text>").count()), (2, 1));
}

#[test]
fn the_broken_slot_of_a_large_arena_is_drawn() {
    let text = one_chain(65_535, false).replace("\n60000 59999 60001 5", "\n60000 59998 60001 5");
    let (ran, picture) = on_text("check", "large_broken.txt", text.as_bytes(), &[]);
    assert_eq!(ran.status, 1);
    assert_eq!(drawn_broken(&picture), ["59999", "60000"]);
    // The line with slot 59999 is the middle one of sixty.
    assert!(picture.contains(">from place 59691</text>"));
}

#[cfg(feature = "level-three")]
#[test]
fn an_arena_that_is_too_large_is_refused() {
    let (ran, _) = on_text("check", "too_large.txt", one_chain(MOST + 1, false).as_bytes(), &[]);
    assert!(ran.stdout.starts_with("too_large.txt: refused with 1: "));
    let why = "  the columns have 1048577 words each, but the most is 1,048,576";
    assert_eq!((ran.stdout.lines().nth(1), ran.status), (Some(why), 1));
}

#[cfg(feature = "level-three")]
#[test]
fn a_compression_is_drawn_before_and_after() {
    let (ran, picture) = on_text("compress", "both.txt", &fs::read(arenas().join("whole.txt")).unwrap(), &[]);
    assert_eq!(ran.status, 0);
    assert_eq!(picture.matches("<g class=\"slot\">").count(), 14);
    assert_eq!(picture.matches("<g class=\"slot free\">").count(), 2);
    for from in [1, 5, 3, 2, 4, 7, 9] {
        assert_eq!(picture.matches(&format!(">from {from}</text>")).count(), 1, "from {from}");
    }
}

/// The slots that are drawn as the one that is asked for.
fn drawn_asked(picture: &str) -> Vec<&str> {
    drawn_as(picture, "asked")
}

#[test]
fn the_header_and_other_generations_are_drawn() {
    let (_, picture) = on_text("check", "header.txt", &fs::read(arenas().join("whole.txt")).unwrap(), &[]);
    let cells: Vec<&str> = picture.split("<g class=\"cell\">").skip(1).collect();
    let names = ["Stack length", "Link count", "Root", "Current generation", "Capacity"];
    for (cell, (name, word)) in cells.iter().zip(names.into_iter().zip(["9", "7", "8", "5", "10"])) {
        assert!(
            cell.contains(&format!(">{name}</text>")) && cell.contains(&format!(">{word}</text>")),
            "{cell}"
        );
    }
    // Slots 5, 3 and 9 have other generations; that of every other link is 5. All boxes are higher for that.
    assert_eq!(
        (picture.matches("height=\"55\" rx").count(), picture.matches("height=\"40\" rx").count()),
        (9, 0)
    );
    assert_eq!(cells.len(), 5);
    assert_eq!(picture.matches(">g ").count(), 3);
    assert!([2, 3, 4].iter().all(|generation| picture.contains(&format!(">g {generation}</text>"))));
    let (_, picture) = on_text("check", "ended.txt", changed(&[("5 1 0 5 50", "5 1 0 5 -")]).as_bytes(), &[]);
    assert_eq!((picture.matches("height=\"40\" rx").count(), picture.matches(">missing<").count()), (5, 1));
    let (_, picture) = on_text("check", "short_header.txt", b"header 5 4 3", &[]);
    assert_eq!((picture.matches("<g class=\"cell\">").count(), picture.matches(">missing<").count()), (5, 1));
    let (_, picture) = on_text("check", "long.txt", format!("header{}", " 7".repeat(900)).as_bytes(), &[]);
    assert_eq!(picture.matches("<g class=\"cell\">").count(), 9);
    assert!(picture.contains(">Word 7</text>") && picture.contains(">893</text>"));
}

#[test]
fn lone_links_are_packed() {
    let rows: String = (1..=23).map(|slot| format!("{slot} 0 0 5 {slot}\n")).collect();
    let (ran, picture) = on_text("check", "lone.txt", format!("header 23 23 0 5\n{rows}").as_bytes(), &[]);
    let said: Vec<&str> = ran.stdout.lines().skip(1).collect();
    let expected =
        ["  lone    1 2 3 4 5 6 7 8 9 10", "          11 12 13 14 15 16 17 18 19 20", "          21 22 23"];
    assert_eq!(said, expected);
    assert_eq!(picture.matches("<g class=\"slot\">").count(), 23);
    assert_eq!((picture.matches("marker-end").count(), picture.matches(">lone</text>").count()), (0, 1));
    let (ran, picture) =
        on_text("check", "lone.txt", format!("header 23 23 0 5\n{rows}").as_bytes(), &["--around", "7"]);
    assert_eq!(ran.stdout.lines().nth(1), Some("  lone    [7]"));
    assert_eq!((picture.matches("<g class=\"slot").count(), drawn_asked(&picture)), (1, vec!["7"]));
}

#[test]
fn a_long_chain_is_drawn_around_a_slot() {
    for closed in [false, true] {
        for slot in ["1", "40000", "65535"] {
            let text = one_chain(65_535, closed);
            let (ran, picture) = on_text("check", "around.txt", text.as_bytes(), &["--around", slot]);
            assert_eq!((ran.stdout.matches(&format!("[{slot}]")).count(), ran.status), (1, 0));
            assert_eq!(drawn_asked(&picture), [slot]);
            let drawn = picture.matches("<g class=\"slot").count();
            assert!((105..=110).contains(&drawn));
            let note = format!("The picture is cut: {drawn} of 65535 slots are drawn.");
            assert!(picture.contains(&note));
            // The line of the slot is the middle one, where there is room.
            assert_eq!(picture.contains(">from place 39941</text>"), slot == "40000");
            assert_eq!(picture.contains(">back to 1</text>"), closed && slot == "65535");
        }
    }
}

#[test]
fn the_end_of_a_long_row_is_drawn_that_leads_to_the_chain_of_a_slot() {
    // 200 names 202 as its next.
    let text = one_chain(200, false)
        .replace("header 200 200", "header 202 202")
        .replace("\n200 199 0", "\n200 199 202");
    let text = text + "201 0 202 5 0\n202 201 0 5 0\n";
    let (_, picture) = on_text("check", "leads.txt", text.as_bytes(), &["--around", "201"]);
    let drawn = drawn_as(&picture, "");
    assert_eq!((drawn.len(), drawn[..4].to_vec(), drawn[111]), (112, vec!["201", "202", "91", "92"], "200"));
    assert!(picture.contains("The picture is cut: 112 of 202 slots are drawn."));
}

#[cfg(feature = "level-three")]
#[test]
fn the_chain_of_a_slot_is_drawn_before_and_after() {
    let text = fs::read(arenas().join("whole.txt")).unwrap();
    let (_, picture) = on_text("compress", "moved.txt", &text, &["--around", "2"]);
    assert_eq!((picture.matches("<g class=\"slot").count(), drawn_asked(&picture)), (4, vec!["2", "5"]));
    // Slot 6 is free and gone afterwards, so that the other panel shows all.
    let (_, picture) = on_text("compress", "gone.txt", &text, &["--around", "6"]);
    assert_eq!((picture.matches("<g class=\"slot").count(), drawn_asked(&picture)), (2 + 7, vec!["6"]));
    let (ran, _) = on_text("compress", "away.txt", &text, &["--around", "10"]);
    assert_eq!((ran.stdout.as_str(), ran.status), ("", 2));
}
