// Links each archive that is asked for as a feature: a ready one from the folder that CHAIN_ARENA_ARCHIVES names, else
// one that the repository's script `archives` proves and makes, or finds made.

use std::env;
use std::fs::{self, File, OpenOptions};
use std::io::{BufRead, BufReader, IsTerminal, Write};
use std::os::unix::fs::FileTypeExt;
use std::os::unix::process::parent_id;
use std::path::{Path, PathBuf};
use std::process::{Command, Stdio, exit};
use std::time::Instant;

#[expect(dead_code, reason = "what an archive exports is for the tests")]
#[path = "levels.rs"]
mod levels;

use levels::{ARCHIVES, Archive};

/// The environment variable that names a folder with ready archives. Where it is set nothing is proved here.
const READY: &str = "CHAIN_ARENA_ARCHIVES";

/// Ends with a message. Cargo shows it and lets the build fail because of it.
fn stop(message: &str) -> ! {
    for line in message.lines() {
        println!("cargo::error={line}");
    }
    exit(0);
}

/// A variable that cargo sets, empty where it does not.
fn set_by_cargo(name: &str) -> String {
    env::var(name).unwrap_or_default()
}

/// Ends where the archives cannot be linked: they hold code for x86-64 Linux.
fn hold_target() {
    let [arch, os, width] =
        ["ARCH", "OS", "POINTER_WIDTH"].map(|of| set_by_cargo(&format!("CARGO_CFG_TARGET_{of}")));
    if (arch.as_str(), os.as_str(), width.as_str()) != ("x86_64", "linux", "64") {
        let target = set_by_cargo("TARGET");
        stop(&format!(
            "chain_arena is proved code that was compiled for x86-64 Linux, and cannot be linked for {target}"
        ));
    }
}

/// Names in a sentence: `a`, `a and b`, `a, b and c`.
fn sentence(names: &[String]) -> String {
    match names {
        [] => String::new(),
        [one] => one.clone(),
        [first @ .., last] => format!("{} and {last}", first.join(", ")),
    }
}

/// The file of an archive.
fn file(name: &str) -> String {
    format!("lib{name}.a")
}

/// Where cargo's own messages go, if that is a terminal or a pipe. A build script's output is shown only when it has ended,
/// which would leave minutes of proving without a word.
fn messages() -> Option<File> {
    let path = format!("/proc/{}/fd/2", parent_id());
    let kind = fs::metadata(&path).ok()?.file_type();
    let open = || OpenOptions::new().append(true).open(&path).ok();
    (kind.is_char_device() || kind.is_fifo()).then(open)?
}

/// Says a line at once, over cargo's progress bar if there may be one.
fn say(messages: &mut Option<File>, line: &str) {
    if let Some(out) = messages {
        let clear = if out.is_terminal() { "\r\x1b[K" } else { "" };
        let _ = writeln!(out, "{clear}{line}");
    }
    eprintln!("{line}");
}

/// Has `archives` make the named archives, or find them made, and write them into the folder. What it says of its progress is
/// said at once; where nobody can be told meanwhile, a warning tells afterwards that something was proved.
fn prove(root: &Path, names: &[&str], out: &Path) {
    let began = Instant::now();
    let spawned = Command::new("bash")
        .arg("archives")
        .arg(out)
        .args(names)
        .current_dir(root)
        .stdout(Stdio::null())
        .stderr(Stdio::piped())
        .spawn();
    let mut child = match spawned {
        Ok(child) => child,
        Err(error) => stop(&format!(
            "bash, which makes the archives that this package links, could not be run: {error}"
        )),
    };
    let mut messages = messages();
    let mut said = Vec::new();
    for line in
        child.stderr.take().into_iter().flat_map(|stderr| BufReader::new(stderr).split(b'\n')).flatten()
    {
        let line = String::from_utf8_lossy(&line).into_owned();
        if line.starts_with("archives: ") {
            say(&mut messages, &format!("{line} ({} s)", began.elapsed().as_secs()));
        }
        said.push(line);
    }
    if !child.wait().is_ok_and(|status| status.success()) {
        let said = said.join("\n");
        stop(&format!(
            "{said}\n`bash archives` failed. A folder with ready archives can be named in {READY}."
        ));
    }
    if said.iter().any(|line| line.contains(" is proved")) && messages.is_none() {
        println!("cargo::warning=the archives were proved and compiled in {} s", began.elapsed().as_secs());
    }
}

/// The folders that the archives are made from. What proving writes beside them is left out.
fn sources(root: &Path) -> Vec<PathBuf> {
    let crates = fs::read_dir(root.join("crates")).into_iter().flatten().flatten();
    let parts = crates.flat_map(|entry| ["src", "specs", "proofs"].map(|part| entry.path().join(part)));
    let mut found: Vec<PathBuf> = parts.filter(|part| part.is_dir()).collect();
    found.sort();
    found
}

/// The folder of ready archives: a relative one is meant from where cargo was called.
fn ready_folder(named: &Path) -> PathBuf {
    let called_from = fs::read_link(format!("/proc/{}/cwd", parent_id())).or_else(|_| env::current_dir());
    called_from.map_or_else(|_| named.to_path_buf(), |folder| folder.join(named))
}

/// Copies the named archives, which are ready, into the folder.
fn copy(ready: &Path, names: &[&str], out: &Path) {
    if !ready.is_dir() {
        stop(&format!("{READY} names {}, and there is no such folder", ready.display()));
    }
    let held = |name: &&str| ready.join(file(name)).is_file();
    let lacks: Vec<&str> = names.iter().copied().filter(|name| !held(name)).collect();
    if !lacks.is_empty() {
        let holds: Vec<String> = ARCHIVES.iter().map(|archive| archive.name).filter(held).map(file).collect();
        let holds = if holds.is_empty() { "no archive".to_string() } else { sentence(&holds) };
        let files: Vec<String> = lacks.iter().map(|name| file(name)).collect();
        let features: Vec<String> = lacks.iter().map(|name| name.replace('_', "-")).collect();
        stop(&format!(
            "the folder {}, which {READY} names, lacks {}; it has {holds}\n`bash archives OUT` writes all of them into a folder OUT; without the cargo feature {} the build does not ask for {}",
            ready.display(),
            sentence(&files),
            sentence(&features),
            if lacks.len() == 1 { "it" } else { "them" },
        ));
    }
    for name in names {
        let (from, to) = (ready.join(file(name)), out.join(file(name)));
        println!("cargo::rerun-if-changed={}", from.display());
        if fs::canonicalize(&from).ok() == fs::canonicalize(&to).ok() {
            continue;
        }
        // A copy keeps the permissions, so that an old one may not be written over.
        let _ = fs::remove_file(&to);
        if let Err(error) = fs::copy(&from, &to) {
            stop(&format!("{} could not be copied: {error}", from.display()));
        }
    }
}

/// Whether the archive is asked for as a feature.
fn wanted(archive: &Archive) -> bool {
    env::var_os(format!("CARGO_FEATURE_{}", archive.name.to_uppercase())).is_some()
}

fn main() {
    let out = PathBuf::from(env::var_os("OUT_DIR").expect("cargo sets OUT_DIR"));
    let root = Path::new("..");
    println!("cargo::rerun-if-env-changed={READY}");
    let named = env::var_os(READY).map(PathBuf::from).filter(|folder| !folder.as_os_str().is_empty());
    if named.as_ref().is_some_and(|folder| folder.is_relative()) {
        // The same words mean another folder where cargo is called from elsewhere.
        println!("cargo::rerun-if-env-changed=PWD");
    }
    for read in ["build.rs", "levels.rs"] {
        println!("cargo::rerun-if-changed={read}");
    }
    println!("cargo::rustc-link-search=native={}", out.display());
    println!("cargo::rustc-env=CHAIN_ARENA_LINKED={}", out.display());
    let (asked, left): (Vec<&Archive>, Vec<&Archive>) = ARCHIVES.iter().partition(|archive| wanted(archive));
    let names: Vec<&str> = asked.iter().map(|archive| archive.name).collect();
    if !names.is_empty() {
        hold_target();
    }
    for archive in left {
        let _ = fs::remove_file(out.join(file(archive.name)));
    }
    match named {
        Some(named) => copy(&ready_folder(&named), &names, &out),
        None if names.is_empty() => {}
        None if !root.join("archives").is_file() => stop(&format!(
            "this package stands alone, so its archives cannot be proved here: {READY} must name a folder with ready ones"
        )),
        None => {
            for read in
                ["archives", "crates.txt"].map(|name| root.join(name)).into_iter().chain(sources(root))
            {
                println!("cargo::rerun-if-changed={}", read.display());
            }
            prove(root, &names, &out);
        }
    }
    for name in names {
        println!("cargo::rustc-link-lib=static={name}");
        println!("cargo::metadata={name}=linked");
    }
}
