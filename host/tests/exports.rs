//! The archives export the names of the list and no others, and need nothing from outside but the C library's copying; the
//! C header declares the same names, and the wrapper calls each of them.

use std::collections::BTreeSet;
use std::fs;
use std::path::{Path, PathBuf};
use std::process::Command;

use crate::sold::{ARCHIVES, Archive};

/// What a compiler may call to copy, fill and compare memory.
const COPYING: [&str; 5] = ["bcmp", "memcmp", "memcpy", "memmove", "memset"];

/// An archive where it was linked from.
fn file(archive: &Archive) -> PathBuf {
    Path::new(env!("CHAIN_ARENA_LINKED")).join(format!("lib{}.a", archive.name))
}

/// The archives that were linked.
fn linked() -> impl Iterator<Item = &'static Archive> {
    ARCHIVES.iter().filter(|archive| file(archive).exists())
}

/// A linked archive's global names: those that it has, or those that it wants.
fn names(archive: &Archive, which: &str) -> BTreeSet<String> {
    let file = file(archive);
    let output = Command::new("nm").args(["-g", "-P", which]).arg(&file).output();
    let output = output.expect("nm, which stands beside the linker");
    assert!(output.status.success(), "nm could not read {}", file.display());
    let text = String::from_utf8_lossy(&output.stdout).into_owned();
    text.lines().filter(|line| !line.ends_with(':')).filter_map(first_word).collect()
}

/// The first word of a line, if there is one.
fn first_word(line: &str) -> Option<String> {
    line.split_whitespace().next().map(str::to_string)
}

#[test]
fn the_archives_that_are_asked_for_are_linked() {
    let asked = [
        cfg!(feature = "level-one"),
        cfg!(feature = "level-two"),
        cfg!(feature = "level-three"),
        cfg!(feature = "small-arenas"),
    ];
    assert_eq!(ARCHIVES.iter().map(|archive| file(archive).exists()).collect::<Vec<_>>(), asked);
}

#[test]
fn each_archive_exports_the_names_of_the_list() {
    for archive in linked() {
        let listed: BTreeSet<String> = archive.exports.iter().map(|name| name.to_string()).collect();
        assert_eq!(names(archive, "--defined-only"), listed, "the archive {}", archive.name);
    }
}

#[test]
fn no_archive_needs_memory_or_anything_else_from_outside() {
    for archive in linked() {
        let wanted = names(archive, "--undefined-only");
        let outside: Vec<&String> = wanted.iter().filter(|name| !COPYING.contains(&name.as_str())).collect();
        assert!(outside.is_empty(), "the archive {} wants {outside:?}", archive.name);
    }
}

#[test]
fn the_header_declares_the_names_of_the_list() {
    let header = Path::new(env!("CARGO_MANIFEST_DIR")).join("../include/chain_arena.h");
    let text = fs::read_to_string(header).unwrap();
    let declared: Vec<&str> =
        text.lines().filter_map(|line| line.strip_suffix('(')?.split(' ').nth(1)).collect();
    let listed: Vec<&str> = ARCHIVES.iter().flat_map(|archive| archive.exports).copied().collect();
    assert_eq!(declared, listed);
}

/// The sources of the wrapper but for the declarations, one behind the other.
fn wrapper() -> String {
    let folder = Path::new(env!("CARGO_MANIFEST_DIR")).join("src");
    let files = fs::read_dir(folder).unwrap().map(|entry| entry.unwrap().path());
    let sources = files.filter(|file| !file.ends_with("ffi.rs"));
    sources.map(|file| fs::read_to_string(file).unwrap()).collect()
}

#[test]
fn the_wrapper_calls_every_export() {
    let wrapper = wrapper();
    for call in ARCHIVES.iter().flat_map(|archive| archive.exports) {
        assert!(wrapper.contains(&format!("{call}(")), "{call}");
    }
}

/// The body of a function that stands in the wrapper.
fn body<'w>(wrapper: &'w str, function: &str) -> &'w str {
    let (_, behind) = wrapper.split_once(function).unwrap_or_else(|| panic!("{function} is not there"));
    let (_, body) = behind.split_once("{\n").unwrap();
    body.split("}\n").next().unwrap()
}

#[test]
fn what_a_dot_and_a_line_answer_comes_from_the_proved_calls() {
    let wrapper = wrapper();
    for (function, call) in [
        ("fn line_of_dot(dot: u32)", "unsafe { chain_arena_line_of_dot(dot)"),
        ("fn line_dots(line: u32)", "unsafe { chain_arena_line_dots(line)"),
        ("pub fn line(self) -> Line", "Line(line_of_dot(self.0).line)"),
        ("pub fn place(self) -> u32", "self.0 - self.line().first().0"),
        ("pub fn first(self) -> Dot", "Dot(line_dots(self.0).first)"),
        ("pub fn last(self) -> Dot", "Dot(line_dots(self.0).last)"),
        ("pub fn dot(self, place: u32)", "Dot(self.first().0 + place)"),
        ("pub fn window(self) -> Window", "= line_dots(self.0);"),
        ("fn try_from(dot: u32)", "line_of_dot(dot).done()"),
        ("fn try_from(line: u32)", "line_dots(line).done()"),
    ] {
        assert!(body(&wrapper, function).contains(call), "{function}");
    }
}

#[test]
fn the_words_and_the_number_of_small_arenas_come_from_the_proved_call() {
    let wrapper = wrapper();
    for (function, call) in [
        (
            "pub fn small_arena(&mut self, index: u32)",
            "call!(chain_arena_small_arena(self, as_mut_ptr, index))",
        ),
        ("pub fn new(index: u32) -> Option<Self>", "length: LONGEST,"),
        ("pub fn small_arenas() -> SmallArenas", ".find(|&index| SmallArena::new(index).is_none())"),
    ] {
        assert!(body(&wrapper, function).contains(call), "{function}");
    }
    let source = fs::read_to_string(Path::new(env!("CARGO_MANIFEST_DIR")).join("src/small.rs")).unwrap();
    let code: String = source.lines().filter(|line| !line.trim_start().starts_with("//")).collect();
    assert!(code.contains("small.as_arena_mut().small_arena(index)"));
    for count in ["89", "90"] {
        assert!(!code.contains(count), "the call alone tells how many there are");
    }
}
