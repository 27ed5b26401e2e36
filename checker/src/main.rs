//! The checker for testers: reads arenas from plain text and says what the proved calls make of them, as text, as a
//! picture and as a page. `USAGE` says how it is called.

#[cfg(feature = "level-three")]
mod alike;
#[cfg(feature = "level-two")]
mod apply;
mod arguments;
mod by_slot;
#[cfg(feature = "level-three")]
mod chains;
#[cfg(feature = "level-two")]
mod commands;
#[cfg(feature = "level-three")]
mod compare;
#[cfg(feature = "level-three")]
mod compress;
mod due;
mod explain;
mod files;
mod format;
mod html;
mod judged;
mod lines;
#[cfg(feature = "level-two")]
mod nearest;
mod panel;
mod picture;
mod pointer;
mod quote;
#[cfg(test)]
mod random;
#[cfg(feature = "level-two")]
mod refused;
#[cfg(test)]
mod robust;
#[cfg(feature = "small-arenas")]
mod small;
mod svg;
mod wording;

use std::env;
use std::io::{self, ErrorKind, Write};
use std::process::ExitCode;

#[cfg(feature = "level-two")]
use apply::apply;
use arguments::{Asked, Command, How, Job};
use due::due;
use judged::Judged;
use panel::Panel;
#[cfg(feature = "small-arenas")]
use small::small;
#[cfg(feature = "level-three")]
use {compare::compare, compress::compress};

const USAGE: &str = "\
usage: checker [COMMAND] [OPTION]..
commands:
  check FILE           says which rule the arena breaks, at which slots and why, or lists its chains
  compress FILE        shows the arena before and after canonical compression, and where each link came from
  compare A B          says whether two arenas hold the same chains of payloads, and where they first differ
  apply FILE COMMANDS  applies a list of edits, says what became of each, and prints the arena that is left
  due FILE SLOT GENERATION FROM TO
                       lists the links of a chain that are due from dot FROM of the frame to before dot TO
  small [INDEX]        lists all small arenas, one on a line, or prints the one of an index as a FILE
  none                 checks and compresses an arena of its own, and explains a broken one
options:
  --reset              for compress: the links get generation 2, not the next one
  --order-preserving   for compress: the links stay in the order of their slots
  --around SLOT        for check, compress and apply: shows only the chain of a slot
  --svg OUT            draws what is shown
  --html OUT           makes a page of it for a browser, to be searched and followed by a click
  -h, --help           prints this
  -V, --version        prints the version
  --                   what follows is no option
FILE, A, B and COMMANDS: `-` is standard input. docs/FORMAT.md describes both texts.
status:
  0                    the arena passes the check; the two hold the same; every command was done; what is due or small was told
  1                    it is refused; they do not, or one is refused; a command was refused; the pointer or the window was
  2                    wrong use, a file that cannot be read or written, or a text that is no arena or no commands
";

const VERSION: &str = concat!("checker ", env!("CARGO_PKG_VERSION"), "\n");

/// How the panels are drawn for an option that names a file.
type Draw = fn(&[Panel]) -> String;

/// The options that name a file to draw into.
const DRAWINGS: &[(&str, Draw)] = &[("--svg", svg::draw), ("--html", html::page)];

/// What `cargo run` shows: case K11 (REFERENCE, Marked cases), and an arena with one wrong pointer.
const WHOLE: &str = include_str!("../arenas/k11.txt");
const BROKEN: &str = include_str!("../arenas/broken.txt");

/// What is said and drawn, and whether the status is 0.
struct Shown {
    text: String,
    panels: Vec<Panel>,
    passes: bool,
}

impl Shown {
    /// A text and nothing else.
    fn text(text: &str) -> Self {
        Self { text: text.to_string(), panels: Vec::new(), passes: true }
    }
}

/// Level Two is not linked.
#[cfg(not(feature = "level-two"))]
fn apply(_: Judged, _: &files::Source, _: Option<u32>) -> Result<Shown, String> {
    Err("apply needs Level Two: build with the feature level-two".to_string())
}

/// Level Three is not linked.
#[cfg(not(feature = "level-three"))]
fn compress(_: &Judged, _: How) -> Result<Shown, String> {
    Err("compress needs Level Three: build with the feature level-three".to_string())
}

/// Level Three is not linked.
#[cfg(not(feature = "level-three"))]
fn compare(_: &Judged, _: &Judged) -> Result<Shown, String> {
    Err("compare needs Level Three: build with the feature level-three".to_string())
}

/// The small arenas are not linked.
#[cfg(not(feature = "small-arenas"))]
fn small(_: Option<&std::ffi::OsStr>) -> Result<Shown, String> {
    Err("small needs the small arenas: build with the feature small-arenas".to_string())
}

/// Checks and compresses the whole arena of its own, and checks the broken one.
fn samples() -> Result<Shown, String> {
    let whole = Judged::parse("K11".to_string(), WHOLE.as_bytes())?;
    let broken = Judged::parse("a broken arena".to_string(), BROKEN.as_bytes())?.show();
    let compressed = compress(&whole, How::default())
        .unwrap_or_else(|message| Shown { text: message + "\n", ..whole.show() });
    Ok(Shown {
        text: [whole.text(), compressed.text, broken.text].join("\n"),
        panels: compressed.panels.into_iter().chain(broken.panels).collect(),
        passes: true,
    })
}

/// Does a job: reads, then draws.
fn done(job: Job) -> Result<Shown, String> {
    files::no_clash(&job.command.sources(), &job.targets)?;
    let shown = match &job.command {
        Command::Check(file) => Judged::read(file)?.around(job.around)?.show(),
        Command::Compress(file, how) => compress(&Judged::read(file)?.around(job.around)?, *how)?,
        Command::Compare(a, b) => compare(&Judged::read(a)?, &Judged::read(b)?)?,
        Command::Apply(file, commands) => apply(Judged::read(file)?, commands, job.around)?,
        Command::Due(file, when) => due(&Judged::read(file)?, *when),
        Command::Small(index) => small(index.as_deref())?,
        Command::Samples => samples()?,
    };
    for target in &job.targets {
        for (_, draw) in DRAWINGS.iter().filter(|(option, _)| *option == target.option) {
            target.write(&draw(&shown.panels))?;
        }
    }
    Ok(shown)
}

/// The message of a wrong use.
fn misused(message: String) -> String {
    format!("{message}\n`checker --help` tells how it is called")
}

/// Does what the arguments ask for.
fn answer() -> Result<Shown, String> {
    let asked = arguments::parse(env::args_os().skip(1), DRAWINGS.iter().map(|(option, _)| *option));
    match asked.map_err(misused)? {
        Asked::Help => Ok(Shown::text(USAGE)),
        Asked::Version => Ok(Shown::text(VERSION)),
        Asked::Job(job) => done(job),
    }
}

/// Prints a text on standard output. That its reader has gone away, such as `head`, needs no message.
fn print(text: &str) -> Result<(), Option<String>> {
    let mut output = io::stdout().lock();
    let written = output.write_all(text.as_bytes()).and_then(|()| output.flush());
    written.map_err(|error| {
        Some(format!("standard output: {error}")).filter(|_| error.kind() != ErrorKind::BrokenPipe)
    })
}

fn main() -> ExitCode {
    let printed = answer().map_err(Some).and_then(|shown| print(&shown.text).map(|()| shown.passes));
    match printed {
        Ok(passes) => ExitCode::from(u8::from(!passes)),
        Err(message) => {
            let _ =
                io::stderr().write_all(message.map(|message| message + "\n").unwrap_or_default().as_bytes());
            ExitCode::from(2)
        }
    }
}
