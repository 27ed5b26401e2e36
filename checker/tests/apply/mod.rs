//! Commands applied to arenas: what is said of each, what is left, and what is wrong with a text of commands.

use std::fs;
use std::path::Path;

use super::{Ran, SAMPLE, arenas, checker, folder, one_chain, panels, says, verdicts, with_input, word};

/// The kinds of pointers and numbers that are expected in commands.
const POINTER: &str =
    "a pointer `SLOT:GENERATION` with a slot from 0 to 4294967295 and a generation from 0 to 4294967295";
const SLOT: &str = "a slot without a generation, a number from 0 to 4294967295";
const NUMBER: &str = "a number from 0 to 4294967295";

/// What is expected where a command or a kind of insertion stands.
const COMMANDS: &str = "`connect`, `break_prev`, `break_next`, `exchange_next`, `remove` or `insert`";
const KINDS: &str = "a kind of insertion: `disconnected`, `single_link_cyclic`, `chain_end`, `chain_end_inx`, `chain_start`, \
                     `chain_start_inx`, `next_to`, `next_to_inx`, `prev_to`, `prev_to_inx`, `at_interlink`, \
                     `at_interlink_inx`, `bridge` or `bridge_inx`";

/// Applies commands to an arena, both given as texts, with further options. What is said goes by the names FILE and COMMANDS.
fn apply(name: &str, arena: &[u8], commands: &[u8], options: &[&str]) -> Ran {
    let folder = folder(&format!("apply-{name}"));
    let [file, list] = ["arena.txt", "commands.txt"].map(|name| folder.join(name));
    fs::write(&file, arena).unwrap();
    fs::write(&list, commands).unwrap();
    let ran = checker(&[&["apply", word(&file), word(&list)], options].concat());
    let named = |text: String| text.replace(word(&file), "FILE").replace(word(&list), "COMMANDS");
    Ran { stdout: named(ran.stdout), stderr: named(ran.stderr), status: ran.status }
}

/// The chains that are told under a heading, such as `after`.
fn rows<'s>(said: &'s str, heading: &str) -> Vec<&'s str> {
    let lines = said.lines().skip_while(|line| !line.starts_with(&format!("# {heading}: "))).skip(1);
    lines.map_while(|line| line.strip_prefix("#   ")).collect()
}

#[test]
fn commands_are_applied_and_told() {
    says(&["apply", "whole.txt", "edits.txt"], "whole.apply.out", 1);
    let all = fs::read_to_string(arenas().join("whole.apply.out")).unwrap();
    let ran = with_input(&["check", "-"], all.as_bytes());
    let checked: Vec<&str> = ran.stdout.lines().skip(1).map(str::trim_start).collect();
    assert_eq!((checked, ran.status), (rows(&all, "after"), 0));
}

/// 1 -> 2, the lone link 3, the closed chain 4 -> 5 -> (4), the free slot 6, and room for one more.
const PLAIN: &str = "\
header 6 5 6 5
1 0 2 5 10
2 1 0 5 20
3 0 0 5 30
4 5 5 5 40
5 4 4 5 50
6 0 6 0 0
7 9 9 9 9
";

#[test]
fn every_command_does_what_it_is_for() {
    let (pair, lone, closed) = ("open    1 -> 2", "lone    3", "closed  4 -> 5 -> (4)");
    let free = "free    6";
    for (command, rows_after) in [
        ("connect 2:5 3:5", &["open    1 -> 2 -> 3", closed, free][..]),
        ("connect 3:5 3:5", &[pair, "closed  3 -> (3)", closed, free]),
        ("break_prev 2:5", &[closed, "lone    1 2 3", free]),
        ("break_prev 4:5", &[pair, "open    4 -> 5", lone, free]),
        ("break_next 1:5", &[closed, "lone    1 2 3", free]),
        ("break_next 4:5", &[pair, "open    5 -> 4", lone, free]),
        ("exchange_next 1:5 4:5", &["open    1 -> 5 -> 4 -> 2", lone, free]),
        ("remove 2:5", &[closed, "lone    1 3", "free    2 -> 6"]),
        ("insert disconnected 7", &[pair, closed, "lone    3 6"]),
        ("insert single_link_cyclic 7", &[pair, closed, "closed  6 -> (6)", lone]),
        ("insert chain_end 2:5 7", &["open    1 -> 2 -> 6", closed, lone]),
        ("insert chain_end_inx 2 7", &["open    1 -> 2 -> 6", closed, lone]),
        ("insert chain_start 1:5 7", &["open    6 -> 1 -> 2", closed, lone]),
        ("insert chain_start_inx 1 7", &["open    6 -> 1 -> 2", closed, lone]),
        ("insert next_to 1:5 7", &["open    1 -> 6 -> 2", closed, lone]),
        ("insert next_to_inx 5 7", &[pair, "closed  4 -> 5 -> 6 -> (4)", lone]),
        ("insert prev_to 1:5 7", &["open    6 -> 1 -> 2", closed, lone]),
        ("insert prev_to_inx 2 7", &["open    1 -> 6 -> 2", closed, lone]),
        ("insert at_interlink 4:5 5:5 7", &[pair, "closed  4 -> 6 -> 5 -> (4)", lone]),
        ("insert at_interlink_inx 5 4 7", &[pair, "closed  4 -> 5 -> 6 -> (4)", lone]),
        ("insert bridge 2:5 3:5 7", &["open    1 -> 2 -> 6 -> 3", closed]),
        ("insert bridge_inx 3 3 7", &[pair, "closed  3 -> 6 -> (3)", closed]),
    ] {
        let ran = apply("done", PLAIN.as_bytes(), command.as_bytes(), &[]);
        let became = if command.starts_with("insert ") { "done: the new link is 6:5" } else { "done" };
        let said: Vec<&str> = ran.stdout.lines().take(2).collect();
        let expected = [
            "# FILE, after COMMANDS: 1 command, none refused".to_string(),
            format!("#   line 1  {command}  {became}"),
        ];
        assert_eq!(said, expected);
        assert_eq!((ran.stderr.as_str(), ran.status), ("", 0));
        assert_eq!(rows(&ran.stdout, "before"), [pair, closed, lone, free], "{command}");
        assert_eq!(rows(&ran.stdout, "after"), rows_after, "{command}");
        if command.starts_with("insert ") {
            let new = ran.stdout.lines().find(|line| line.starts_with("     6 ")).unwrap();
            assert!(new.ends_with("           5           7"), "{command}: {new}");
        }
    }
}

#[test]
fn later_commands_name_the_links_of_earlier_ones() {
    let commands =
        "insert disconnected 7\ninsert chain_end 6:5 8\nbreak_next 6:5\nremove 6:5\ninsert disconnected 9";
    let ran = apply("later", PLAIN.as_bytes(), commands.as_bytes(), &[]);
    let expected = "\
#   line 1  insert disconnected 7   done: the new link is 6:5
#   line 2  insert chain_end 6:5 8  done: the new link is 7:5
#   line 3  break_next 6:5          done
#   line 4  remove 6:5              done
#   line 5  insert disconnected 9   done: the new link is 6:6
";
    assert!(ran.stdout.contains(expected), "{}", ran.stdout);
    assert_eq!((rows(&ran.stdout, "after").last(), ran.status), (Some(&"lone    3 6 7"), 0));
}

#[test]
fn no_commands_change_nothing() {
    let text = fs::read_to_string(arenas().join("whole.txt")).unwrap();
    let ran = apply("none", text.as_bytes(), b"# nothing\n", &[]);
    assert!(
        ran.stdout.starts_with("# FILE, after COMMANDS: 0 commands, none refused\n# before: "),
        "{}",
        ran.stdout
    );
    let words = |text: &str| -> Vec<String> {
        let lines = text.lines().map(|line| line.split('#').next().unwrap());
        lines.flat_map(str::split_whitespace).map(str::to_string).collect()
    };
    assert_eq!((words(&ran.stdout), ran.status), (words(&text), 0));
    let ran = apply("none", b"header 0 0 0 2", b"", &[]);
    let expected = "\
# FILE, after COMMANDS: 0 commands, none refused
# before: stack length 0, link count 0, root 0, generation 2
# after: stack length 0, link count 0, root 0, generation 2
header 0 0 0 2
# slot  prev  next  generation     payload
";
    assert_eq!((ran.stdout.as_str(), ran.stderr.as_str(), ran.status), (expected, "", 0));
}

#[test]
fn what_became_of_commands_stands_below_each_other() {
    // One that is longer than 40 characters does not draw the others out.
    let [short, almost] = ["remove 9:9".to_string(), format!("remove {}9:9", "0".repeat(29))];
    let long = "insert at_interlink_inx 65537 4294967295 4294967295";
    let ran = apply("width", PLAIN.as_bytes(), format!("{short}\n{almost}\n{long}").as_bytes(), &[]);
    let said: Vec<&str> = ran.stdout.lines().skip(1).take(3).collect();
    let stale = "refused with 12: 9:9 is stale: slot 9 is not on the stack, whose length is 6";
    let expected = [
        format!("#   line 1  {short}{}  {stale}", " ".repeat(30)),
        format!("#   line 2  {almost}   {stale}"),
        format!("#   line 3  {long}  refused with 17: slot 65537 is not on the stack, whose length is 6"),
    ];
    assert_eq!(said, expected);
}

#[test]
fn an_arena_grows_from_nothing() {
    let commands =
        "insert disconnected 10\ninsert chain_end 1:2 20\ninsert bridge 2:2 1:2 30\ninsert disconnected 40";
    let ran = apply("grown", b"header 0 0 0 2\n1 9 9 9 9\n2 9 9 9 9\n3 9 9 9 9", commands.as_bytes(), &[]);
    let expected = "\
# FILE, after COMMANDS: 4 commands, 1 refused
#   line 1  insert disconnected 10    done: the new link is 1:2
#   line 2  insert chain_end 1:2 20   done: the new link is 2:2
#   line 3  insert bridge 2:2 1:2 30  done: the new link is 3:2
#   line 4  insert disconnected 40    refused with 18: there is no room: the capacity is 3, and no slot is free
# before: stack length 0, link count 0, root 0, generation 2
# after: stack length 3, link count 3, root 0, generation 2
#   closed  1 -> 2 -> 3 -> (1)
header 3 3 0 2
# slot  prev  next  generation     payload
     1     3     2           2          10
     2     1     3           2          20
     3     2     1           2          30
";
    assert_eq!((ran.stdout.as_str(), ran.stderr.as_str(), ran.status), (expected, "", 1));
}

#[test]
fn an_overflow_by_a_command_is_told() {
    let sentence =
        "the generation overflowed, from 4294967295 to 2: pointers kept from before may name other links";
    let arena = b"header 2 2 0 4294967295\n1 0 0 7 10\n2 0 0 7 20\n";
    let out = folder("apply-overflow-out").join("out.svg");
    let ran = apply("overflow", arena, b"remove 1:7\nremove 2:7\n", &["--svg", word(&out)]);
    let said: Vec<&str> = ran.stdout.lines().take(3).collect();
    let overflowed = format!("#   line 1  remove 1:7  done, and {sentence}");
    let expected = [
        "# FILE, after COMMANDS: 2 commands, none refused",
        overflowed.as_str(),
        "#   line 2  remove 2:7  done",
    ];
    assert_eq!((said, ran.status), (expected.to_vec(), 0));
    assert!(ran.stdout.contains("\n# after: stack length 1, link count 0, root 1, generation 3\n"));
    let picture = fs::read_to_string(out).unwrap();
    let [_, after] = panels(&picture);
    assert_eq!(verdicts(after), ["passes the check", "2 commands, none refused", sentence]);
}

#[test]
fn a_broken_arena_is_explained_and_left_alone() {
    let out = folder("apply-broken-out").join("out.svg");
    says(&["apply", "broken.txt", "edits.txt", "--svg", word(&out)], "broken.check.out", 1);
    assert_eq!(fs::read_to_string(&out).unwrap().matches("class=\"title\"").count(), 1);
    says(&["apply", "broken.txt", "edits.txt", "--around", "2"], "broken.around2.out", 1);
    // A text that is none is told before.
    let broken = fs::read(arenas().join("broken.txt")).unwrap();
    let ran = apply("broken", &broken, b"look", &[]);
    assert_eq!((ran.stdout, ran.status), (String::new(), 2));
    assert_eq!(ran.stderr, format!("COMMANDS:1:1: found `look`, expected {COMMANDS}\n"));
}

#[test]
fn the_chain_of_a_slot_is_shown_before_and_after() {
    let shown = |slot: &str| {
        let ran = checker(&["apply", "whole.txt", "edits.txt", "--around", slot]);
        assert_eq!((ran.stderr.as_str(), ran.status), ("", 1));
        let all = fs::read_to_string(arenas().join("whole.apply.out")).unwrap();
        let rest = |text: &str| {
            let is_row = |line: &&str| line.starts_with("#   ") && !line.starts_with("#   line ");
            text.lines().filter(|line| !is_row(line)).map(str::to_string).collect::<Vec<_>>()
        };
        assert_eq!(rest(&ran.stdout), rest(&all), "all but the chains is as without the option");
        [rows(&ran.stdout, "before").join("/"), rows(&ran.stdout, "after").join("/")]
    };
    assert_eq!(shown("5"), ["open    1 -> [5] -> 3", "closed  1 -> [5] -> 3 -> 8 -> 6 -> (1)"]);
    assert_eq!(shown("6"), ["free    8 -> [6]", "closed  1 -> 5 -> 3 -> 8 -> [6] -> (1)"]);
    assert_eq!(shown("10"), ["slot 10 is not on the stack, whose length is 9", "lone    [10]"]);
    let ran = checker(&["apply", "whole.txt", "edits.txt", "--around", "11"]);
    let message = "whole.txt, after edits.txt: slot 11 is not on the stack, whose length is 10\n";
    assert_eq!((ran.stdout.as_str(), ran.stderr.as_str(), ran.status), ("", message, 2));
    // The last slot is popped, so that it is only there before.
    let ran = apply("popped", b"header 2 2 0 5\n1 0 0 5 1\n2 0 0 5 2", b"remove 2:5", &["--around", "2"]);
    assert_eq!(rows(&ran.stdout, "before"), ["lone    [2]"]);
    assert_eq!(
        (rows(&ran.stdout, "after"), ran.status),
        (vec!["slot 2 is not on the stack, whose length is 1"], 0)
    );
}

#[test]
fn what_commands_did_is_drawn() {
    let folder = folder("apply-drawn");
    let [svg, html] = ["out.svg", "out.html"].map(|name| folder.join(name));
    let outputs = ["--svg", word(&svg), "--html", word(&html)];
    let ran = checker(&[&["apply", "whole.txt", "edits.txt"][..], &outputs].concat());
    assert_eq!(ran.status, 1);
    let picture = fs::read_to_string(&svg).unwrap();
    assert_eq!(super::xml::well_formed(&picture), Ok(()));
    let [before, after] = panels(&picture);
    assert!(before.starts_with("whole.txt<") && after.starts_with("whole.txt, after edits.txt<"));
    assert_eq!(verdicts(before), ["passes the check"]);
    let told = [
        "passes the check",
        "13 commands, 6 refused",
        "line 11, insert disconnected 11: refused with 18: there is no room: the capacity is 10, and no slot is free",
        "line 12, connect 1:5 4:5: refused with 13: the link at 1:5 has a next, slot 5",
        "line 13, exchange_next 1:5 5:3: refused with 12: 5:3 is stale: slot 5 holds generation 2",
        "line 14, remove 2:5: refused with 12: 2:5 is stale: slot 2 holds generation 6",
        "line 15, insert at_interlink_inx 1 3 12: refused with 17: the next of the link in slot 1 is slot 5, not slot 3",
        "and 1 more refused",
    ];
    assert_eq!(verdicts(after), told);
    let boxes = |panel: &str| panel.matches("<g class=\"slot").count();
    assert_eq!((boxes(before), boxes(after)), (9, 10));
    // The slots stay what they are, so that the page follows them by their numbers, as it does in a comparison.
    let page = fs::read_to_string(&html).unwrap();
    assert_eq!((page.matches("\"follows\":false").count(), page.matches("\"around\":0").count()), (2, 2));
    assert!(page.contains("title-2\">whole.txt, after edits.txt</h2>"));
    assert!(told[1..].iter().all(|told| page.contains(&format!("<p class=\"verdict told\">{told}</p>"))));
    for (slot, asked, drawn) in [("10", 1, (9, 1)), ("5", 2, (3, 5))] {
        let ran = checker(&[&["apply", "whole.txt", "edits.txt", "--around", slot][..], &outputs].concat());
        assert_eq!(ran.status, 1);
        let picture = fs::read_to_string(&svg).unwrap();
        assert_eq!(super::drawn_asked(&picture), vec![slot; asked]);
        let [before, after] = panels(&picture);
        assert_eq!((boxes(before), boxes(after)), drawn, "{slot}");
    }
}

#[test]
fn either_text_may_be_standard_input() {
    let [arena, edits] = ["whole.txt", "edits.txt"].map(|name| fs::read(arenas().join(name)).unwrap());
    let expected = fs::read_to_string(arenas().join("whole.apply.out")).unwrap();
    for (arguments, input, name) in
        [(["apply", "-", "edits.txt"], arena, "whole.txt"), (["apply", "whole.txt", "-"], edits, "edits.txt")]
    {
        let ran = with_input(&arguments, &input);
        assert_eq!(ran.stdout, expected.replace(name, "standard input"));
        assert_eq!((ran.stderr.as_str(), ran.status), ("", 1));
    }
    let ran = checker(&["apply", "-", "-"]);
    assert!(ran.stderr.starts_with("`apply - -`: standard input can be read only once\n") && ran.status == 2);
    let ran = with_input(&["apply", "whole.txt", "-"], b"\nremove 1");
    let message = format!("standard input:2:8: found `1`, expected P of `remove`, {POINTER}\n");
    assert_eq!((ran.stdout, ran.stderr, ran.status), (String::new(), message, 2));
}

#[test]
fn files_that_cannot_be_read_are_told() {
    for (files, name) in [
        (["nowhere.txt", "nothing.txt"], "nowhere.txt: "),
        (["whole.txt", "nothing.txt"], "nothing.txt: "),
        (["whole.txt", "."], ".: "),
        (["whole.txt", ""], "``: "),
        (["edits.txt", "whole.txt"], "edits.txt:2:1: found `insert`, expected `header`"),
        (["whole.txt", "whole.txt"], &format!("whole.txt:3:1: found `header`, expected {COMMANDS}\n")),
    ] {
        let ran = checker(&["apply", files[0], files[1]]);
        assert_eq!((ran.stdout.as_str(), ran.status), ("", 2));
        assert!(ran.stderr.starts_with(name), "{}", ran.stderr);
    }
}

#[test]
fn commands_are_not_written_over() {
    let folder = folder("apply-over");
    let commands = folder.join("commands.txt");
    fs::write(&commands, "remove 1:5").unwrap();
    for option in ["--svg", "--html"] {
        let ran = checker(&["apply", "whole.txt", word(&commands), option, word(&commands)]);
        let message = "`OPTION FILE` would write over FILE, which is read\n";
        let message = message.replace("OPTION", option).replace("FILE", word(&commands));
        assert_eq!((ran.stdout, ran.stderr, ran.status), (String::new(), message, 2));
    }
    assert_eq!(fs::read_to_string(&commands).unwrap(), "remove 1:5");
}

#[test]
fn what_is_left_is_not_written_over_what_is_read() {
    let folder = folder("apply-onto");
    let [arena, commands] = ["arena.txt", "commands.txt"].map(|name| folder.join(name));
    for over in [&arena, &commands] {
        fs::copy(arenas().join("whole.txt"), &arena).unwrap();
        fs::write(&commands, "remove 2:5\n").unwrap();
        let before = fs::read(over).unwrap();
        let output = fs::File::options().append(true).open(over).unwrap();
        let ran = super::program(&["apply", word(&arena), word(&commands)]).stdout(output).output().unwrap();
        let message =
            format!("standard output goes to {}, which is read; save it in another file\n", word(over));
        assert_eq!((String::from_utf8(ran.stderr).unwrap(), ran.status.code()), (message, Some(2)));
        assert_eq!(fs::read(over).unwrap(), before);
    }
}

/// Holds what is said of a text that is no list of commands. Nothing is drawn then.
fn is_told(name: &str, text: &[u8], message: &str) {
    let picture = Path::new(env!("CARGO_TARGET_TMPDIR")).join(format!("apply-{name}.svg"));
    let _ = fs::remove_file(&picture);
    let ran = apply(name, SAMPLE.as_bytes(), text, &["--svg", word(&picture)]);
    assert_eq!(ran.stderr, format!("COMMANDS:{message}\n"), "{}", String::from_utf8_lossy(text));
    assert_eq!((ran.stdout.as_str(), ran.status, picture.exists()), ("", 2, false));
}

#[test]
fn what_is_wrong_with_a_command_has_its_place() {
    let end = "found the end of the line, expected";
    let long = format!("remove {}:5", "9".repeat(50));
    for (text, message) in [
        // Names.
        ("conect 1:5 2:5", format!("1:1: found `conect`, expected {COMMANDS}; the nearest is `connect`")),
        // A kind without its command, as it is and almost.
        (
            "chain_end 2:5 7",
            format!("1:1: found `chain_end`, expected {COMMANDS}; the nearest is `insert chain_end`"),
        ),
        (
            "disconnect 2:5",
            format!("1:1: found `disconnect`, expected {COMMANDS}; the nearest is `insert disconnected`"),
        ),
        (
            "# \u{e9}\n\n \t Remove 1:5",
            format!("3:4: found `Remove`, expected {COMMANDS}; the nearest is `remove`"),
        ),
        ("look 1:5", format!("1:1: found `look`, expected {COMMANDS}")),
        ("1:5", format!("1:1: found `1:5`, expected {COMMANDS}")),
        ("insert", format!("1:7: {end} {KINDS}")),
        ("insert # disconnected 5", format!("1:7: {end} {KINDS}")),
        ("insert 7", format!("1:8: found `7`, expected {KINDS}")),
        (
            "insert chain_ed 1:5 7",
            format!("1:8: found `chain_ed`, expected {KINDS}; the nearest is `chain_end`"),
        ),
        (
            "insert Bridge 1:5 1:5 7",
            format!("1:8: found `Bridge`, expected {KINDS}; the nearest is `bridge`"),
        ),
        (
            "insert connect 1:5 2:5",
            format!("1:8: found `connect`, expected {KINDS}; the nearest is `disconnected`"),
        ),
        // Too few words, and too many.
        ("remove 1:5\nconnect", format!("2:8: {end} P_PREV of `connect`, {POINTER}")),
        ("connect 1:5   # 2:5", format!("1:12: {end} P_NEXT of `connect`, {POINTER}")),
        ("connect 1:5 2:5 3:5", "1:17: found `3:5`, expected the end of the line".to_string()),
        ("break_prev 1:5 2:5", "1:16: found `2:5`, expected the end of the line".to_string()),
        ("remove 1:5 insert", "1:12: found `insert`, expected the end of the line".to_string()),
        ("insert disconnected", format!("1:20: {end} PAYLOAD of `insert disconnected`, {NUMBER}")),
        ("insert disconnected 7 8", "1:23: found `8`, expected the end of the line".to_string()),
        ("insert chain_end 1:5", format!("1:21: {end} PAYLOAD of `insert chain_end`, {NUMBER}")),
        ("insert chain_end 10", format!("1:18: found `10`, expected P of `insert chain_end`, {POINTER}")),
        (
            "insert single_link_cyclic 1:5 7",
            format!("1:27: found `1:5`, expected PAYLOAD of `insert single_link_cyclic`, {NUMBER}"),
        ),
        // Pointers and slots.
        ("connect 1:5 2", format!("1:13: found `2`, expected P_NEXT of `connect`, {POINTER}")),
        ("remove 1 5", format!("1:8: found `1`, expected P of `remove`, {POINTER}")),
        (
            "insert chain_end_inx 1:5 7",
            format!("1:22: found `1:5`, expected SLOT of `insert chain_end_inx`, {SLOT}"),
        ),
        (
            "insert chain_end_inx 4294967296 7",
            format!("1:22: found `4294967296`, expected SLOT of `insert chain_end_inx`, {SLOT}"),
        ),
        // Characters.
        ("remove\u{a0}\u{e9}", format!("1:8: found `\u{e9}`, expected P of `remove`, {POINTER}")),
        ("remove \u{e9}:5 x", format!("1:8: found `\u{e9}:5`, expected P of `remove`, {POINTER}")),
        ("\u{1b}[31m", format!(r"1:1: found `\u{{1b}}[31m`, expected {COMMANDS}")),
        (&long, format!("1:8: found `{}..`, expected P of `remove`, {POINTER}", "9".repeat(40))),
        (
            "\u{feff}\u{feff}remove",
            format!(r"1:1: found `\u{{feff}}remove`, expected {COMMANDS}; the nearest is `remove`"),
        ),
    ] {
        is_told("place", text.as_bytes(), &message);
    }
    for (bytes, message) in [
        (&b"remove 1:5\nremove \xff:5"[..], "2:8: found the byte 0xff, expected UTF-8 text"),
        (&b"# \xc3\xa9 \xff"[..], "1:5: found the byte 0xff, expected UTF-8 text"),
        (
            b"\xff\xfer\x00",
            "1:1: found the byte 0xff, expected UTF-8 text; it seems to be UTF-16, save it as UTF-8",
        ),
    ] {
        is_told("bytes", bytes, message);
    }
}

#[test]
fn only_numbers_that_fit_are_read() {
    let signs = ["-1", "+1", "0x1", "1_0", "1,0", "1.0", "1e2", "x", "\u{661}"];
    let wrong = || signs.map(str::to_string).into_iter().chain(["4294967296".to_string(), "9".repeat(30)]);
    let pointers = wrong().flat_map(|word| [format!("{word}:5"), format!("1:{word}")]);
    for word in pointers.chain(["1", "1:", ":5", ":", "1:5:7", "1::5"].map(str::to_string)) {
        is_told(
            "pointer",
            format!("remove {word}").as_bytes(),
            &format!("1:8: found `{word}`, expected P of `remove`, {POINTER}"),
        );
    }
    for word in wrong() {
        let message = format!("1:21: found `{word}`, expected SLOT of `insert next_to_inx`, {SLOT}");
        is_told("slot", format!("insert next_to_inx  {word} 7").as_bytes(), &message);
    }
    for word in wrong() {
        let message = format!("1:21: found `{word}`, expected PAYLOAD of `insert disconnected`, {NUMBER}");
        is_told("payload", format!("insert disconnected {word}").as_bytes(), &message);
    }
}

#[test]
fn every_word_that_is_missing_is_named() {
    for (command, names) in [
        ("connect", &["P_PREV", "P_NEXT"][..]),
        ("break_prev", &["P"]),
        ("break_next", &["P"]),
        ("exchange_next", &["P0", "P1"]),
        ("remove", &["P"]),
        ("insert disconnected", &["PAYLOAD"]),
        ("insert single_link_cyclic", &["PAYLOAD"]),
        ("insert chain_end", &["P", "PAYLOAD"]),
        ("insert chain_end_inx", &["SLOT", "PAYLOAD"]),
        ("insert chain_start", &["P", "PAYLOAD"]),
        ("insert chain_start_inx", &["SLOT", "PAYLOAD"]),
        ("insert next_to", &["P", "PAYLOAD"]),
        ("insert next_to_inx", &["SLOT", "PAYLOAD"]),
        ("insert prev_to", &["P", "PAYLOAD"]),
        ("insert prev_to_inx", &["SLOT", "PAYLOAD"]),
        ("insert at_interlink", &["NEXT_TO", "PREV_TO", "PAYLOAD"]),
        ("insert at_interlink_inx", &["NEXT_TO", "PREV_TO", "PAYLOAD"]),
        ("insert bridge", &["END", "START", "PAYLOAD"]),
        ("insert bridge_inx", &["END", "START", "PAYLOAD"]),
    ] {
        let by_slot = command.ends_with("_inx");
        let mut text = command.to_string();
        for name in names {
            let (expected, word) = match *name {
                "PAYLOAD" => (NUMBER, "7"),
                _ if by_slot => (SLOT, "1"),
                _ => (POINTER, "1:5"),
            };
            let message = format!(
                "1:{}: found the end of the line, expected {name} of `{command}`, {expected}",
                text.len() + 1
            );
            is_told("missing", text.as_bytes(), &message);
            text += &format!(" {word}");
        }
        is_told(
            "more",
            format!("{text} x").as_bytes(),
            &format!("1:{}: found `x`, expected the end of the line", text.len() + 2),
        );
    }
}

#[test]
fn commands_are_applied_to_a_large_arena() {
    let arena = one_chain(65_535, false);
    let commands = "insert disconnected 1\nremove 65535:5\ninsert prev_to_inx 1 7\nremove 2:5\ninsert bridge_inx 65535 1 8\n";
    let ran = apply("largest", arena.as_bytes(), commands.as_bytes(), &[]);
    let said: Vec<&str> = ran.stdout.lines().take(6).collect();
    let expected = [
        "# FILE, after COMMANDS: 5 commands, 2 refused",
        "#   line 1  insert disconnected 1        refused with 18: there is no room: the capacity is 65535, and no slot is free",
        "#   line 2  remove 65535:5               done",
        "#   line 3  insert prev_to_inx 1 7       done: the new link is 65535:6",
        "#   line 4  remove 2:5                   done",
        "#   line 5  insert bridge_inx 65535 1 8  refused with 17: the link in slot 65535 has a next, slot 1",
    ];
    assert_eq!((said, ran.status), (expected.to_vec(), 1));
    assert!(ran.stdout.ends_with("\n 65535     0     1           6           7\n"));
    let left = with_input(&["check", "-"], ran.stdout.as_bytes());
    assert!(
        left.stdout
            .starts_with("standard input: passes the check: 65534 links on 1 open and 0 closed chains, ")
    );
}

#[test]
fn commands_name_slots_past_65535() {
    // 65,541 is 5 in 16 bits, and 65,536 is none
    let arena = one_chain(70_000, false);
    let commands = "remove 65541:5\nbreak_next 65536:5\ninsert chain_end_inx 65536 7\nexchange_next 4:5 65545:5\nremove 131077:5\n";
    let ran = apply("past", arena.as_bytes(), commands.as_bytes(), &["--around", "5"]);
    let said: Vec<&str> = ran.stdout.lines().take(6).collect();
    let expected = [
        "# FILE, after COMMANDS: 5 commands, 1 refused",
        "#   line 1  remove 65541:5                done",
        "#   line 2  break_next 65536:5            done",
        "#   line 3  insert chain_end_inx 65536 7  done: the new link is 65541:6",
        "#   line 4  exchange_next 4:5 65545:5     done",
        "#   line 5  remove 131077:5               refused with 12: 131077:5 is stale: slot 131077 is not on the stack, whose length is 70000",
    ];
    assert_eq!((said, ran.status), (expected.to_vec(), 1));
    let row = |slot: u32| ran.stdout.lines().find(|line| line.starts_with(&format!("{slot:>6} "))).unwrap();
    let neighbours = |slot| row(slot).split_whitespace().skip(1).take(2).collect::<Vec<_>>().join(" ");
    let found = [4, 5, 65_536, 65_537, 65_540, 65_541, 65_542, 65_545, 65_546].map(neighbours);
    let expected = [
        "3 65546",
        "65545 6",
        "65535 65541",
        "0 65538",
        "65539 65542",
        "65536 0",
        "65540 65543",
        "65544 5",
        "4 65547",
    ];
    assert_eq!(found, expected);
    let left = with_input(&["check", "-"], ran.stdout.as_bytes());
    assert!(
        left.stdout
            .starts_with("standard input: passes the check: 70000 links on 2 open and 0 closed chains, ")
    );
}

/// The part of docs/FORMAT.md that is about commands.
fn document() -> String {
    let all = fs::read_to_string(Path::new(env!("CARGO_MANIFEST_DIR")).join("../docs/FORMAT.md")).unwrap();
    let part = all.split("\n## Applying commands\n").nth(1).unwrap();
    part.split("\n## ").next().unwrap().to_string()
}

#[test]
fn every_command_is_in_the_document_as_it_is_read() {
    let document = document();
    let cells = document.lines().filter_map(|line| line.strip_prefix("| `")?.split('|').next());
    let forms: Vec<&str> = cells.flat_map(|cell| cell.trim_end_matches(['`', ' ']).split("`, `")).collect();
    assert_eq!(forms.len(), 19);
    let mut lines = String::new();
    for form in &forms {
        let by_slot = form.contains("_inx ");
        let argument = |word: &str| match word {
            "PAYLOAD" => "7".to_string(),
            _ if word.chars().any(char::is_lowercase) => word.to_string(),
            _ => if by_slot { "1" } else { "1:5" }.to_string(),
        };
        lines += &format!("{}\n", form.split(' ').map(argument).collect::<Vec<_>>().join(" "));
        // What a word is called in a message is what it is called in the document.
        let words: Vec<&str> = form.split(' ').collect();
        let names = words.iter().take_while(|word| word.chars().any(char::is_lowercase)).count();
        let command = words[..names].join(" ");
        let ran = apply("document", SAMPLE.as_bytes(), command.as_bytes(), &[]);
        assert!(
            ran.stderr.contains(&format!("expected {} of `{command}`, ", words[names])),
            "{}",
            ran.stderr
        );
    }
    let ran = apply("document", SAMPLE.as_bytes(), lines.as_bytes(), &[]);
    assert!(ran.stdout.starts_with("# FILE, after COMMANDS: 19 commands, "), "{}", ran.stderr);
    for name in [COMMANDS, KINDS].into_iter().flat_map(|names| names.split('`').skip(1).step_by(2)) {
        assert!(forms.iter().any(|form| form.split(' ').any(|word| word == name)), "{name}");
    }
}

#[test]
fn what_the_document_shows_is_what_is_said() {
    let document = document();
    let shown = document.lines().filter_map(|line| line.strip_prefix("    "));
    let said: Vec<&str> = shown.clone().skip_while(|line| !line.starts_with("# whole.txt")).collect();
    let stored = fs::read_to_string(arenas().join("whole.apply.out")).unwrap();
    assert!(said.len() > 10);
    for line in said.iter().filter(|line| **line != "..") {
        assert!(stored.lines().any(|stored| stored == *line), "{line}");
    }
    let edits = fs::read_to_string(arenas().join("edits.txt")).unwrap();
    let commands: Vec<&str> = shown.clone().filter(|line| line.starts_with("insert ")).collect();
    assert!(!commands.is_empty() && commands.iter().all(|command| edits.contains(command)));
    for message in shown.filter_map(|line| line.strip_prefix("COMMANDS:")) {
        let text = match message.split(',').next().unwrap() {
            "1:1: found `conect`" => "conect 1:5 2:5",
            "4:13: found `2`" => "\n\n\nconnect 1:5 2",
            "6:22: found `1:5`" => "\n\n\n\n\ninsert chain_end_inx 1:5 7",
            "7:20: found the end of the line" => "\n\n\n\n\n\ninsert disconnected",
            other => panic!("{other}"),
        };
        is_told("shown", text.as_bytes(), message);
    }
}
