//! What of a chain is due in a window of the frame: what is listed, what is refused, and what is drawn.

use std::fs;
use std::path::Path;

use super::{
    MOST, Ran, SAMPLE, arenas, changed, checker, drawn_as, folder, one_chain, says, with_input, word, xml,
};

/// Asks what is due in the arena of a text, which is called FILE in what is said.
fn due(name: &str, text: &str, when: [&str; 4]) -> Ran {
    let file = folder(&format!("due-{name}")).join("arena.txt");
    fs::write(&file, text).unwrap();
    let ran = checker(&[&["due", word(&file)], &when[..]].concat());
    let named = |text: String| text.replace(word(&file), "FILE");
    Ran { stdout: named(ran.stdout), stderr: named(ran.stderr), status: ran.status }
}

#[test]
fn what_is_due_is_listed_in_the_order_of_the_walk() {
    for (when, stored) in [
        // over the end of the frame
        (["6", "6", "89000", "342"], "over"),
        (["6", "6", "340", "342"], "two"),
        // the last line, up to the end of the frame
        (["2", "6", "89001", "89342"], "last_line"),
        // the whole frame
        (["7", "6", "0", "89342"], "frame"),
        // the whole frame but its first dot
        (["4", "6", "1", "0"], "to_zero"),
        // equal ends
        (["6", "6", "341", "341"], "empty"),
        // a payload that is no dot
        (["9", "4", "0", "89342"], "never"),
    ] {
        says(&[&["due", "frame.txt"], &when[..]].concat(), &format!("frame.due.{stored}.out"), 0);
    }
    let text = fs::read(arenas().join("frame.txt")).unwrap();
    let ran = with_input(&["due", "-", "6", "6", "89000", "342"], &text);
    let expected = fs::read_to_string(arenas().join("frame.due.over.out")).unwrap();
    assert_eq!(ran.stdout, expected.replace("frame.txt", "standard input"));
    assert_eq!((ran.stderr.as_str(), ran.status), ("", 0));
}

#[test]
fn the_format_page_shows_what_is_due() {
    let page = Path::new(env!("CARGO_MANIFEST_DIR")).join("../docs/FORMAT.md");
    let shown = fs::read_to_string(page).unwrap();
    let said = fs::read_to_string(arenas().join("frame.due.over.out")).unwrap();
    let example: String = said.lines().map(|line| format!("    {line}\n")).collect();
    assert!(shown.contains(&format!("\n\n{example}\n")), "{example}");
    for refused in [
        "frame.txt: refused with 12: 3:6 is stale: slot 3 holds generation 5",
        "frame.txt: refused with 19: FROM is 89342, but the last dot of the frame is 89341",
    ] {
        assert!(shown.contains(&format!("\n    {refused}\n")), "{refused}");
    }
}

#[test]
fn every_dot_of_a_window_is_in_it_and_no_other() {
    // The lone link 1 has each dot in turn; the first window is a line, the second all but that line.
    for (payload, on_the_line) in
        [("340", false), ("341", true), ("500", true), ("681", true), ("682", false)]
    {
        let text = format!("header 1 1 0 5\n1 0 0 5 {payload}\n");
        for (from, to, due_in_it) in [("341", "682", on_the_line), ("682", "341", !on_the_line)] {
            let ran = due("dots", &text, ["1", "5", from, to]);
            let many = if due_in_it { "1 is due" } else { "none is due" };
            let first = format!("FILE: the chain of 1:5 has 1 link, of which {many}");
            assert_eq!(ran.stdout.lines().next(), Some(first.as_str()), "{payload} from {from} to {to}");
            assert_eq!(ran.stdout.lines().count(), if due_in_it { 4 } else { 2 });
            assert_eq!((ran.stderr.as_str(), ran.status), ("", 0));
        }
    }
}

#[test]
fn a_stale_pointer_is_refused_before_a_window_that_is_none() {
    for (slot, generation, why) in [
        ("0", "0", "there is no slot 0"),
        ("3", "0", "slot 3 is free"),
        ("3", "5", "slot 3 is free"),
        ("1", "4", "slot 1 holds generation 5"),
        ("6", "5", "slot 6 is not on the stack, whose length is 5"),
        ("65537", "5", "slot 65537 is not on the stack, whose length is 5"),
        ("4294967295", "4294967295", "slot 4294967295 is not on the stack, whose length is 5"),
    ] {
        for (from, to) in [("0", "89342"), ("89342", "0"), ("0", "89343"), ("4294967295", "4294967295")] {
            let ran = due("stale", SAMPLE, [slot, generation, from, to]);
            let refused = format!("FILE: refused with 12: {slot}:{generation} is stale: {why}\n");
            assert_eq!((ran.stdout, ran.stderr.as_str(), ran.status), (refused, "", 1));
        }
    }
}

#[test]
fn links_past_65535_are_listed_by_their_slots() {
    // the last slot has the payload that slot 7 has
    let links = MOST.to_string();
    let text = one_chain(MOST, false).replace(&format!(" 0 5 {links}\n"), " 0 5 7\n");
    let ran = due("past", &text, ["65538", "5", "7", "9"]);
    let said: Vec<&str> = ran.stdout.lines().collect();
    let first = format!("FILE: the chain of 65538:5 has {links} links, of which 3 are due");
    assert_eq!((said[0], ran.stderr.as_str(), ran.status), (first.as_str(), "", 0));
    let width = links.len() + 2;
    let line = |slot: &str, rest: &str| format!("{slot:>width$}{rest}");
    let listed = [
        line("slot", "  line  place  payload"),
        line(&links, "     0      7        7"),
        line("8", "     0      8        8"),
        line("7", "     0      7        7"),
    ];
    assert_eq!(said[said.len() - 4..], listed);
}

#[test]
fn a_window_that_the_frame_does_not_have_is_refused() {
    for (from, to, why) in [
        ("89342", "0", "FROM is 89342, but the last dot of the frame is 89341"),
        ("4294967295", "5", "FROM is 4294967295, but the last dot of the frame is 89341"),
        ("89342", "89343", "FROM is 89342, but the last dot of the frame is 89341"),
        ("0", "89343", "TO is 89343, but a window ends at 89342 at the latest"),
        ("89341", "4294967295", "TO is 4294967295, but a window ends at 89342 at the latest"),
    ] {
        let ran = due("out", SAMPLE, ["1", "5", from, to]);
        let refused = format!("FILE: refused with 19: {why}\n");
        assert_eq!((ran.stdout, ran.stderr.as_str(), ran.status), (refused, "", 1));
    }
}

#[test]
fn a_broken_arena_is_refused_as_by_the_check() {
    for (arena, stored) in [("broken", "broken.check.out"), ("broken_two", "broken_two.check.out")] {
        for when in [["1", "5", "0", "89342"], ["0", "0", "89342", "89343"]] {
            says(&[&["due", &format!("{arena}.txt")], &when[..]].concat(), stored, 1);
        }
    }
    for (from, to, number) in [
        ("header 5 4 3 5", "header 5 4 3 5 0", 1),
        ("header 5 4 3 5", "header 5 4 3 1", 2),
        ("header 5 4 3 5", "header 6 4 3 5", 3),
        ("header 5 4 3 5", "header 5 5 3 5", 4),
        ("header 5 4 3 5", "header 5 4 0 5", 5),
        ("3 0 3 0 0", "3 0 0 0 0", 6),
        ("3 0 3 0 0", "3 0 6 0 0", 7),
        ("3 0 3 0 0", "3 0 1 0 0", 8),
        ("5 1 0 5 50", "5 0 0 5 50", 11),
        ("5 1 0 5 50", "5 1 0 5 -", 1),
    ] {
        let ran = due("damaged", &changed(&[(from, to)]), ["1", "5", "0", "89342"]);
        assert!(ran.stdout.starts_with(&format!("FILE: refused with {number}")), "{}", ran.stdout);
        assert_eq!((ran.stderr.as_str(), ran.status), ("", 1));
    }
    let ran = due("no-arena", "header 1 x", ["1", "5", "0", "5"]);
    let message = "FILE:1:10: found `x`, expected a word of the header, a number from 0 to 4294967295\n";
    assert_eq!((ran.stdout.as_str(), ran.stderr.as_str(), ran.status), ("", message, 2));
}

#[test]
fn wrong_use_is_told() {
    let needs = "`due` needs a file, SLOT, GENERATION, FROM and TO, but";
    let words = ["due", "frame.txt", "6", "6", "0", "5", "7"];
    for (count, given) in
        [(1, "none is given"), (2, "only one is given"), (5, "only 4 are given"), (7, "6 are given")]
    {
        let ran = checker(&words[..count]);
        let message = format!("{needs} {given}\n`checker --help` tells how it is called\n");
        assert_eq!((ran.stdout.as_str(), ran.stderr, ran.status), ("", message, 2));
    }
    for (place, name) in [(2, "SLOT"), (3, "GENERATION"), (4, "FROM"), (5, "TO")] {
        for word in ["", "x", "+6", "6.0", "0x6", "4294967296", "99999999999999999999"] {
            let mut words = words[..6].to_vec();
            words[place] = word;
            let ran = checker(&words);
            let message = format!("`due` needs {name}, a number from 0 to 4294967295, found `{word}`\n");
            assert_eq!((ran.stdout.as_str(), ran.status), ("", 2));
            assert_eq!(ran.stderr, format!("{message}`checker --help` tells how it is called\n"));
        }
    }
    let ran = checker(&[&words[..6], &["--around", "1"]].concat());
    assert!(ran.stderr.starts_with("`--around` goes with `check`, `compress` and `apply` only\n"));
    let ran = checker(&["due", "nowhere.txt", "6", "6", "0", "5"]);
    assert!(ran.stderr.starts_with("nowhere.txt: ") && ran.status == 2, "{}", ran.stderr);
}

/// The picture of what is due in the arena of a file.
fn picture(name: &str, file: &str, when: [&str; 4]) -> String {
    let out = folder(&format!("due-picture-{name}")).join("out.svg");
    checker(&[&["due", file, "--svg", word(&out)], &when[..]].concat());
    let picture = fs::read_to_string(&out).unwrap();
    assert_eq!(xml::well_formed(&picture), Ok(()));
    picture
}

/// The boxes of a picture with their numbers among what is due, as `6: due 1`.
fn numbered(picture: &str) -> Vec<String> {
    let boxes = picture.split("<g class=\"slot").skip(1).map(|text| text.split("</g>").next().unwrap());
    let numbered = boxes.filter_map(|text| {
        let slot = text.split("<text class=\"number\"").nth(1)?.split('>').nth(1)?.split('<').next()?;
        let number = text.split("<text class=\"due\"").nth(1)?.split('>').nth(1)?.split('<').next()?;
        Some(format!("{slot}: {number}"))
    });
    numbered.collect()
}

#[test]
fn what_is_due_is_drawn_with_a_colour_an_edge_and_a_number() {
    let drawn = picture("drawn", "frame.txt", ["6", "6", "89000", "342"]);
    // The chain of slot 6 alone, along next; the numbers are in the order of the walk.
    assert_eq!(drawn_as(&drawn, ""), ["4", "1", "6", "3", "8"]);
    assert_eq!(drawn_as(&drawn, "due"), ["1", "6", "3"]);
    assert_eq!(drawn_as(&drawn, "asked"), ["6"]);
    assert_eq!(numbered(&drawn), ["1: due 3", "6: due 1", "3: due 2"]);
    // A second edge for each of them, and for the sample in the legend.
    assert_eq!(drawn.matches("<rect class=\"inner\"").count(), 4);
    let style = drawn.split("</style>").next().unwrap();
    for rule in [".due rect { fill: #ffe3b8;", ".due rect.inner { fill: none;", ".asked rect { stroke: #06c;"]
    {
        assert!(style.contains(rule), "{rule}");
    }
    for (sample, words) in [
        ("due", "Due: orange, with a second edge, and numbered in the order of the walk."),
        ("asked", "The walk begins here: a blue edge."),
    ] {
        let (before, _) = drawn.split_once(&format!(">{words}</text>")).unwrap();
        assert!(before.rsplit("<g class=\"sample ").next().unwrap().starts_with(&format!("{sample}\">")));
    }
    for told in [
        "passes the check",
        "the chain of 6:6 has 5 links, of which 3 are due",
        "from dot 89000 (line 260, place 340) over the end of the frame to before dot 342 (line 1, place 1)",
        "1 link of it is never due, since its payload is over 89341",
    ] {
        assert!(drawn.contains(&format!(">{told}</text>")), "{told}");
    }
    let closed = picture("drawn", "frame.txt", ["7", "6", "0", "89342"]);
    assert_eq!(numbered(&closed), ["2: due 2", "7: due 1"]);
}

#[test]
fn where_nothing_is_due_there_is_no_legend() {
    for when in [["6", "6", "341", "341"], ["9", "4", "0", "89342"]] {
        let drawn = picture("none", "frame.txt", when);
        assert_eq!((drawn_as(&drawn, "asked").len(), drawn_as(&drawn, "due").len()), (1, 0));
        assert!(!drawn.contains("sample ") && !drawn.contains("<rect class=\"inner\""));
        assert!(drawn.contains(", of which none is due</text>"));
    }
    // Refused: all is drawn, and why it is not told.
    for (when, why) in [
        (["3", "6", "0", "5"], "refused with 12: 3:6 is stale: slot 3 holds generation 5"),
        (["6", "6", "89342", "5"], "refused with 19: FROM is 89342, but the last dot of the frame is 89341"),
    ] {
        let drawn = picture("none", "frame.txt", when);
        assert_eq!((drawn_as(&drawn, "").len(), drawn_as(&drawn, "asked").len()), (9, 0));
        assert!(drawn.contains(&format!(">{why}</text>")) && drawn.contains(">passes the check</text>"));
    }
    let drawn = picture("none", "broken.txt", ["1", "5", "0", "5"]);
    assert!(!drawn_as(&drawn, "broken").is_empty() && drawn_as(&drawn, "due").is_empty());
}
