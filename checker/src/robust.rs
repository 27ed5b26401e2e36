//! Whatever text there is: nothing panics, and every picture is well-formed XML.

#[path = "../tests/xml/mod.rs"]
mod xml;

#[cfg(feature = "level-two")]
use chain_arena::OwnedArena;
use chain_arena::Ptr;

use crate::Shown;
use crate::arguments::{How, When};
use crate::by_slot::BySlot;
use crate::due::due;
use crate::format::text;
use crate::judged::Judged;
use crate::panel::Panel;
use crate::picture::Picture;
use crate::random::Random;
use crate::svg;
#[cfg(feature = "level-two")]
use crate::{apply::applied, commands::Commands, format, random::text_of};

/// Words that damaged texts of arenas are made of, and how many of them, the first ones, are numbers that leave a text an
/// arena.
const WORDS: [&str; 24] = [
    "0",
    "1",
    "2",
    "3",
    "7",
    "8",
    "9",
    "255",
    "65535",
    "65537",
    "4294967295",
    "4294967296",
    "99999999999999999999",
    "-",
    "-1",
    "header",
    "#",
    "x",
    "\u{feff}",
    "\u{e9}",
    "\u{2028}",
    "\0",
    "\r",
    "]]>&<",
];

const SMALL: usize = 11;

/// Words that damaged texts of commands are made of, and how many of them, the first ones, leave a text what it is.
#[cfg(feature = "level-two")]
const COMMAND_WORDS: [&str; 24] = [
    "1:5",
    "2:5",
    "3:7",
    "0:0",
    "4294967295:4294967295",
    "1",
    "2",
    "65537",
    "remove",
    "insert",
    "connect",
    "disconnected",
    "bridge_inx",
    "4294967296:1",
    "1:4294967296",
    "99999999999999999999",
    ":",
    "1:",
    "-1:5",
    "#",
    "\u{feff}",
    "\u{2028}",
    "\0",
    "]]>&<",
];

#[cfg(feature = "level-two")]
const POINTERS: usize = 5;

/// A text with a few of its bytes, words or lines changed, left out or doubled. What is put in is mostly one of so many first
/// words.
fn damaged(text: &str, (words, first): (&[&str], usize), random: &mut Random) -> Vec<u8> {
    let mut lines: Vec<Vec<String>> =
        text.lines().map(|line| line.split_whitespace().map(str::to_string).collect()).collect();
    for _ in 0..random.below(4) {
        let place = random.below(lines.len());
        let word = random.below(lines[place].len().max(1));
        match random.below(30) {
            0 if lines.len() > 1 => drop(lines.remove(place)),
            1 => lines.insert(place, lines[place].clone()),
            2 if !lines[place].is_empty() => drop(lines[place].remove(word)),
            _ => {
                let count = if random.below(4) == 0 { words.len() } else { first };
                let other = words[random.below(count)].to_string();
                match lines[place].get_mut(word) {
                    Some(word) => *word = other,
                    None => lines[place].push(other),
                }
            }
        }
    }
    let mut bytes = lines.iter().map(|line| line.join(" ")).collect::<Vec<_>>().join("\n").into_bytes();
    if random.below(8) == 0 && !bytes.is_empty() {
        let place = random.below(bytes.len());
        bytes[place] = random.below(256) as u8;
    }
    bytes
}

/// Draws panels, which must give a well-formed picture.
fn draw(panels: &[Panel]) {
    let picture = svg::draw(panels);
    assert_eq!(xml::well_formed(&picture), Ok(()), "{picture}");
}

/// Draws what needs Level Three, if that is linked.
fn draw_if_done(shown: Result<Shown, String>) {
    match shown {
        Ok(shown) => draw(&shown.panels),
        Err(message) => assert!(message.contains("needs Level Three"), "{message}"),
    }
}

/// Shows an arena in every way there is.
fn show(checked: Judged, other: &Judged, slot: u32) -> bool {
    let shown = checked.show();
    draw(&shown.panels);
    let mut slots: Vec<u32> =
        Picture::of(&checked.arena).rows.into_iter().flat_map(|row| row.slots).collect();
    slots.sort_unstable();
    assert!(slots.is_sorted_by(|one, other| one < other));
    let how = How { reset: slot.is_multiple_of(2), order_preserving: slot.is_multiple_of(3) };
    draw_if_done(crate::compress(&checked, how));
    draw_if_done(crate::compare(&checked, other));
    for (from, to) in [(0, 5), (5, 0), (3, 3), (0, 89_342), (89_342, 7)] {
        let p = Ptr { slot, generation: checked.arena.generation(slot) };
        let due = due(&checked, When { p, from, to });
        draw(&due.panels);
        assert_eq!(due.passes, shown.passes && checked.arena.is_link(slot) && from < 89_342);
    }
    if let Ok(around) = checked.around(Some(slot)) {
        draw(&around.show().panels);
        draw_if_done(crate::compress(&around, How::default()));
    }
    shown.passes
}

#[test]
fn damaged_texts_do_no_harm() {
    let mut random = Random::new(5);
    // Texts that are no arenas, arenas that are refused, and whole ones.
    let mut seen = [0; 3];
    for round in 0..4000 {
        let chains = random.chains(round % 5, 4, 9);
        let arena = random.arena(&chains, round % 3);
        let bytes = damaged(&text(&arena), (&WORDS, SMALL), &mut random);
        let name = format!("{}<\u{1}\u{ffff}&\"'>]]>", round);
        seen[match Judged::parse(name.clone(), &bytes) {
            Err(message) => {
                let message = message.strip_prefix(&name).unwrap();
                assert!(message.contains(": found ") && !message.contains(char::is_control), "{message}");
                0
            }
            Ok(checked) => {
                let slot = 1 + random.below(9) as u32;
                let other = Judged::new(String::new(), arena);
                1 + usize::from(show(checked, &other, slot))
            }
        }] += 1;
    }
    assert!(seen.iter().all(|&count| count > 300), "{seen:?}");
}

#[test]
fn columns_and_headers_of_any_length_do_no_harm() {
    let mut random = Random::new(6);
    for round in 0..1000 {
        let chains = random.chains(3, 4, 9);
        let whole = random.arena(&chains, round % 3);
        let mut arena = whole.clone();
        let mut lengths = [0; 5].map(|_| random.below(14));
        lengths[4] = if random.below(2) == 0 { 4 } else { lengths[4] };
        arena.prev.resize(lengths[0], 3);
        arena.next.resize(lengths[1], 2);
        arena.generation.resize(lengths[2], round as u32 % 2);
        arena.payload.resize(lengths[3], u32::MAX);
        arena.header.resize(lengths[4], u32::MAX);
        arena.header.iter_mut().for_each(|word| *word ^= if random.below(5) == 0 { u32::MAX } else { 0 });
        let read = Judged::parse("read".to_string(), text(&arena).as_bytes()).unwrap();
        assert_eq!(read.arena, arena);
        show(read, &Judged::new(String::new(), whole), 1 + random.below(14) as u32);
    }
}

#[test]
fn many_faults_do_no_harm() {
    let mut random = Random::new(7);
    let chains = random.chains(20_000, 5, 9);
    let mut arena = random.arena(&chains, 2000);
    let length = arena.capacity();
    assert!(length > 40_000);
    for (prev, next) in arena.prev.iter_mut().zip(&mut arena.next) {
        if *next != 0 && random.below(2) == 0 {
            (*prev, *next) = (*next, 7);
        }
    }
    let whole = Judged::new(String::new(), random.arena(&chains, 0));
    for slot in [1, 7, 40_000] {
        assert!(!show(Judged::new(String::new(), arena.clone()), &whole, slot));
    }
}

/// Applies commands to an arena. What is left must be an arena again if it was one.
#[cfg(feature = "level-two")]
fn apply(arena: &OwnedArena, commands: &Commands, around: Option<u32>) {
    let judged = Judged::new(String::new(), arena.clone());
    let whole = judged.refused.is_none();
    match applied(judged, commands, around) {
        Ok(shown) => {
            draw(&shown.panels);
            assert_eq!(shown.panels.len(), if whole { 2 } else { 1 });
            if whole {
                let left = Judged::parse(String::new(), shown.text.as_bytes()).unwrap();
                assert!(left.refused.is_none() && left.arena == shown.panels[1].arena);
            }
        }
        Err(message) => assert!(around.is_some() && message.contains(" slot "), "{message}"),
    }
}

#[cfg(feature = "level-two")]
#[test]
fn damaged_commands_do_no_harm() {
    let mut random = Random::new(11);
    // Texts that are no commands, and such that are.
    let mut seen = [0; 2];
    for round in 0..4000 {
        let chains = random.chains(round % 5, 4, 9);
        let arena = random.arena(&chains, round % 3);
        let lines: Vec<String> = (0..1 + random.below(5)).map(|_| text_of(random.command(&arena))).collect();
        let bytes = damaged(&lines.join("\n"), (&COMMAND_WORDS, POINTERS), &mut random);
        let name = "a<\u{1}\u{ffff}&\"'>]]>".to_string();
        match Commands::parse(name.clone(), &bytes) {
            Err(message) => {
                let message = message.strip_prefix(&name).unwrap();
                assert!(message.contains(": found ") && !message.contains(char::is_control), "{message}");
                seen[0] += 1;
            }
            Ok(commands) => {
                let around = Some(random.below(12) as u32).filter(|_| round % 2 == 0);
                apply(&arena, &commands, around);
                let broken = format::parse(&damaged(&text(&arena), (&WORDS, SMALL), &mut random));
                apply(&broken.unwrap_or_default(), &commands, around);
                seen[1] += 1;
            }
        }
    }
    assert!(seen.iter().all(|&count| count > 300), "{seen:?}");
}

#[cfg(feature = "level-two")]
#[test]
fn whatever_bytes_there_are_do_no_harm() {
    let mut random = Random::new(12);
    let alphabet = b"insert conect_remv:0123456789#\r\n\t \xff\xc3\xa9\xef\xbb\xbf\0\x1b";
    for round in 0..20_000 {
        let byte = |random: &mut Random| match round % 2 {
            0 => random.below(256) as u8,
            _ => alphabet[random.below(alphabet.len())],
        };
        let bytes: Vec<u8> = (0..random.below(40)).map(|_| byte(&mut random)).collect();
        for message in
            [Commands::parse(String::new(), &bytes).err(), Judged::parse(String::new(), &bytes).err()]
        {
            assert!(message.is_none_or(|message| !message.contains(char::is_control)), "{bytes:?}");
        }
    }
}
