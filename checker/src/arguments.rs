//! What the program is asked for, read from its arguments.

use std::ffi::{OsStr, OsString};

use chain_arena::{Ptr, Slot};

use crate::files::{Source, Target};
use crate::lines::number;
use crate::quote::{listed, quoted};

/// What is asked for.
#[derive(Debug, PartialEq, Eq)]
pub enum Asked {
    Help,
    Version,
    Job(Job),
}

/// A command with its options.
#[derive(Debug, PartialEq, Eq)]
pub struct Job {
    pub command: Command,
    /// The slot whose chain alone is shown
    pub around: Option<Slot>,
    pub targets: Vec<Target>,
}

/// What is done, and to which arenas.
#[derive(Debug, PartialEq, Eq)]
pub enum Command {
    Check(Source),
    Compress(Source, How),
    Compare(Source, Source),
    /// An arena, and the commands that are applied to it
    Apply(Source, Source),
    Due(Source, When),
    /// The index of a small arena, as it is given; all of them if none is
    Small(Option<OsString>),
    Samples,
}

impl Command {
    /// What is read.
    pub fn sources(&self) -> Vec<&Source> {
        match self {
            Self::Check(file) | Self::Compress(file, _) | Self::Due(file, _) => vec![file],
            Self::Compare(a, b) | Self::Apply(a, b) => vec![a, b],
            Self::Small(_) | Self::Samples => Vec::new(),
        }
    }
}

/// How an arena is compressed.
#[derive(Clone, Copy, Debug, Default, PartialEq, Eq)]
pub struct How {
    /// Whether the links get generation 2 and not the next one
    pub reset: bool,
    /// Whether the links stay in the order of their slots; else the compression is canonical
    pub order_preserving: bool,
}

/// Of which chain, and in which window of the frame, it is asked what is due: the link that the walk begins with, and the
/// window's ends as they are given.
#[derive(Clone, Copy, Debug, PartialEq, Eq)]
pub struct When {
    pub p: Ptr,
    pub from: u32,
    pub to: u32,
}

/// The options that stand alone or with a value, besides those that name a file to write. With each, the commands it goes
/// with.
const OPTIONS: [(&str, &[&str]); 3] =
    [(RESET, &["compress"]), (ORDER_PRESERVING, &["compress"]), (AROUND, &["check", "compress", "apply"])];
const RESET: &str = "--reset";
const ORDER_PRESERVING: &str = "--order-preserving";
const AROUND: &str = "--around";

/// What the arguments ask for, or what is wrong with them. `outputs` are the options that name a file to write.
pub fn parse(
    arguments: impl Iterator<Item = OsString>,
    outputs: impl Iterator<Item = &'static str> + Clone,
) -> Result<Asked, String> {
    let mut arguments = arguments.peekable();
    let mut given = Given::default();
    while let Some(word) = arguments.next() {
        if word == "--" {
            given.names.extend(arguments);
            break;
        }
        let Some((name, joined)) = option(&word) else {
            given.names.push(word);
            continue;
        };
        match name.as_str() {
            "-h" | "--help" => return alone(&name, joined.as_deref()).map(|()| Asked::Help),
            "-V" | "--version" => return alone(&name, joined.as_deref()).map(|()| Asked::Version),
            _ => {}
        }
        let known =
            OPTIONS.map(|(name, _)| name).into_iter().chain(outputs.clone()).find(|&known| known == name);
        let name = known.ok_or_else(|| format!("unknown option {}", quoted(&name)))?;
        let value = match name {
            RESET | ORDER_PRESERVING => alone(name, joined.as_deref()).map(|()| OsString::new())?,
            _ => {
                let apart = || arguments.next_if(|word| !word.as_encoded_bytes().starts_with(b"--"));
                joined.or_else(apart).filter(|value| !value.is_empty()).ok_or_else(|| needs(name))?
            }
        };
        given.option(name, value)?;
    }
    given.job().map(Asked::Job)
}

/// The arguments so far: the command with its files, and the options with their values.
#[derive(Default)]
struct Given {
    names: Vec<OsString>,
    options: Vec<(&'static str, OsString)>,
}

impl Given {
    /// Adds an option, which must be new.
    fn option(&mut self, name: &'static str, value: OsString) -> Result<(), String> {
        if self.value(name).is_some() {
            return Err(format!("`{name}` is given twice"));
        }
        self.options.push((name, value));
        Ok(())
    }

    /// The value of an option, if it is given.
    fn value(&self, name: &str) -> Option<&OsStr> {
        self.options.iter().find(|(given, _)| *given == name).map(|(_, value)| value.as_os_str())
    }

    /// The job that is asked for.
    fn job(self) -> Result<Job, String> {
        let command = self.command()?;
        for (name, commands) in OPTIONS {
            let fits = self.names.first().is_some_and(|command| commands.iter().any(|name| command == name));
            if self.value(name).is_some() && !fits {
                return Err(format!("`{name}` goes with {} only", listed(commands.iter().copied(), "and")));
            }
        }
        let around = self.value(AROUND).map(slot).transpose()?;
        let is_output = |name: &str| OPTIONS.iter().all(|(other, _)| *other != name);
        let outputs = self.options.into_iter().filter(|(name, _)| is_output(name));
        let targets: Vec<Target> =
            outputs.map(|(option, path)| target(option, path)).collect::<Result<_, _>>()?;
        if let (Command::Small(None), Some(Target { option, .. })) = (&command, targets.first()) {
            return Err(format!("`{option}` goes with `small INDEX`, not with `small` alone"));
        }
        Ok(Job { command, around, targets })
    }

    /// The command with its files.
    fn command(&self) -> Result<Command, String> {
        let Some((name, words)) = self.names.split_first() else { return Ok(Command::Samples) };
        let files: Vec<Source> = words.iter().map(source).collect();
        match name.to_str() {
            Some("check") => exactly("check", files).map(|[file]| Command::Check(file)),
            Some("compress") => exactly("compress", files).map(|[file]| Command::Compress(file, self.how())),
            Some("compare") => two("compare", files).map(|[a, b]| Command::Compare(a, b)),
            Some("apply") => two("apply", files).map(|[file, commands]| Command::Apply(file, commands)),
            Some("due") => due(words),
            Some("small") => small(words),
            _ => Err(format!("unknown command {}", quoted(&name.to_string_lossy()))),
        }
    }

    /// How to compress.
    fn how(&self) -> How {
        How { reset: self.value(RESET).is_some(), order_preserving: self.value(ORDER_PRESERVING).is_some() }
    }
}

/// An option's name and the value that is joined to it by `=`; none if the word is no option.
fn option(word: &OsStr) -> Option<(String, Option<OsString>)> {
    let bytes = word.as_encoded_bytes();
    if !bytes.starts_with(b"-") || bytes == b"-" {
        return None;
    }
    match bytes.iter().position(|&byte| byte == b'=').filter(|_| bytes.starts_with(b"--")) {
        Some(place) => Some((String::from_utf8_lossy(&bytes[..place]).into(), Some(after(word, place + 1)))),
        None => Some((word.to_string_lossy().into(), None)),
    }
}

/// What a word holds from a byte on.
#[cfg(unix)]
fn after(word: &OsStr, place: usize) -> OsString {
    use std::os::unix::ffi::OsStrExt;
    OsStr::from_bytes(&word.as_bytes()[place..]).to_os_string()
}

/// What a word holds from a byte on, if it is text.
#[cfg(not(unix))]
fn after(word: &OsStr, place: usize) -> OsString {
    word.to_str().map(|word| word[place..].into()).unwrap_or_default()
}

/// Refuses a value of an option that takes none.
fn alone(name: &str, joined: Option<&OsStr>) -> Result<(), String> {
    match joined {
        None => Ok(()),
        Some(value) => Err(format!("`{name}` takes no value, found {}", quoted(&value.to_string_lossy()))),
    }
}

/// The message that an option's value is missing.
fn needs(name: &str) -> String {
    match name {
        AROUND => format!("`{AROUND}` needs a slot, a number from 1 to {}", Slot::MAX),
        _ => format!("`{name}` needs the name of a file to write"),
    }
}

/// The slot that is named by a word.
fn slot(word: &OsStr) -> Result<Slot, String> {
    let slot = digits(word).filter(|&slot| slot != 0);
    slot.ok_or_else(|| format!("{}, found {}", needs(AROUND), quoted(&word.to_string_lossy())))
}

/// The number of a word of decimal digits, if it is not too large.
fn digits(word: &OsStr) -> Option<u32> {
    word.to_str().and_then(number)
}

/// A file, the link that a walk begins with, and the ends of a window.
fn due(words: &[OsString]) -> Result<Command, String> {
    let needs = "`due` needs a file, SLOT, GENERATION, FROM and TO, but";
    let [file, slot, generation, from, to] = words else {
        return Err(match words.len() {
            0 => format!("{needs} none is given"),
            1 => format!("{needs} only one is given"),
            count @ 2..5 => format!("{needs} only {count} are given"),
            count => format!("{needs} {count} are given"),
        });
    };
    let p = Ptr { slot: needed("SLOT", slot)?, generation: needed("GENERATION", generation)? };
    let when = When { p, from: needed("FROM", from)?, to: needed("TO", to)? };
    Ok(Command::Due(source(file), when))
}

/// The index of a small arena, or none.
fn small(words: &[OsString]) -> Result<Command, String> {
    match words {
        [] => Ok(Command::Small(None)),
        [index] => Ok(Command::Small(Some(index.clone()))),
        _ => Err(format!("`small` takes one INDEX or none, but {} are given", words.len())),
    }
}

/// The number of a word that `due` knows by a name.
fn needed(name: &str, word: &OsStr) -> Result<u32, String> {
    digits(word).ok_or_else(|| {
        let (most, found) = (u32::MAX, quoted(&word.to_string_lossy()));
        format!("`due` needs {name}, a number from 0 to {most}, found {found}")
    })
}

/// The file to write that is named by a word.
fn target(option: &'static str, path: OsString) -> Result<Target, String> {
    if path == "-" {
        return Err(format!("`{option} -`: standard output gets the text; `./-` is a file of that name"));
    }
    Ok(Target { option, path: path.into() })
}

/// Where to read what is named by a word.
fn source(word: &OsString) -> Source {
    if word == "-" { Source::StandardInput } else { Source::File(word.into()) }
}

/// Two files, of which one may be standard input.
fn two(command: &str, files: Vec<Source>) -> Result<[Source; 2], String> {
    match exactly(command, files)? {
        [Source::StandardInput, Source::StandardInput] => {
            Err(format!("`{command} - -`: standard input can be read only once"))
        }
        files => Ok(files),
    }
}

/// So many files, no more and no fewer.
fn exactly<const N: usize>(command: &str, files: Vec<Source>) -> Result<[Source; N], String> {
    let needed = if N == 1 { "one file" } else { "two files" };
    files.try_into().map_err(|files: Vec<Source>| match files.len() {
        0 => format!("`{command}` needs {needed}, but none is given"),
        1 => format!("`{command}` needs {needed}, but only one is given"),
        count => format!("`{command}` needs {needed}, but {count} are given"),
    })
}

#[cfg(test)]
mod tests {
    use super::*;

    /// What arguments ask for, with `--svg` and `--page` as options that name a file.
    fn asked(words: &[&str]) -> Result<Asked, String> {
        parse(words.iter().map(OsString::from), ["--svg", "--page"].into_iter())
    }

    /// The job that arguments ask for.
    fn job(words: &[&str]) -> Job {
        match asked(words) {
            Ok(Asked::Job(job)) => job,
            other => panic!("{words:?}: {other:?}"),
        }
    }

    /// A file to read.
    fn file(name: &str) -> Source {
        Source::File(name.into())
    }

    #[test]
    fn commands_take_their_files() {
        assert_eq!(job(&[]).command, Command::Samples);
        assert_eq!(job(&["check", "f"]).command, Command::Check(file("f")));
        assert_eq!(job(&["check", "-"]).command, Command::Check(Source::StandardInput));
        assert_eq!(job(&["check", "./-"]).command, Command::Check(file("./-")));
        assert_eq!(job(&["compress", "f"]).command, Command::Compress(file("f"), How::default()));
        assert_eq!(job(&["compare", "a", "-"]).command, Command::Compare(file("a"), Source::StandardInput));
        assert_eq!(job(&["apply", "-", "c"]).command, Command::Apply(Source::StandardInput, file("c")));
        assert_eq!(job(&["apply", "a", "-"]).command, Command::Apply(file("a"), Source::StandardInput));
        assert_eq!(job(&["check", "--", "--svg"]).command, Command::Check(file("--svg")));
        assert_eq!(job(&["--", "check", "--"]).command, Command::Check(file("--")));
        let when = |slot, generation, from, to| When { p: Ptr { slot, generation }, from, to };
        assert_eq!(job(&["due", "f", "1", "2", "3", "4"]).command, Command::Due(file("f"), when(1, 2, 3, 4)));
        let most = Command::Due(Source::StandardInput, when(u32::MAX, u32::MAX, u32::MAX, u32::MAX));
        assert_eq!(job(&["due", "-", "4294967295", "4294967295", "4294967295", "4294967295"]).command, most);
        assert_eq!(
            job(&["due", "7", "007", "0", "0", "0"]).command,
            Command::Due(file("7"), when(7, 0, 0, 0))
        );
        assert_eq!(job(&["due", "f", "1", "2", "3", "4"]).command.sources(), [&file("f")]);
        assert_eq!(job(&["small"]).command, Command::Small(None));
        assert_eq!(job(&["small", "42"]).command, Command::Small(Some("42".into())));
        assert_eq!(job(&["small", "--", "-1"]).command, Command::Small(Some("-1".into())));
        assert!(job(&["small", "42"]).command.sources().is_empty());
    }

    #[test]
    fn options_stand_anywhere() {
        let how = |reset, order_preserving| Command::Compress(file("f"), How { reset, order_preserving });
        assert_eq!(job(&["--reset", "compress", "f"]).command, how(true, false));
        assert_eq!(job(&["compress", "--order-preserving", "f"]).command, how(false, true));
        assert_eq!(job(&["compress", "f", "--order-preserving", "--reset"]).command, how(true, true));
        assert_eq!(job(&["check", "--around", "65536", "f"]).around, Some(65_536));
        assert_eq!(job(&["check", "--around", "4294967295", "f"]).around, Some(u32::MAX));
        assert_eq!(job(&["check", "--around=007", "f"]).around, Some(7));
        assert_eq!(job(&["apply", "f", "--around", "1", "c"]).around, Some(1));
        let target = |option, path: &str| Target { option, path: path.into() };
        assert_eq!(job(&["--svg", "-x"]).targets, [target("--svg", "-x")]);
        assert_eq!(
            job(&["--svg=--=x", "--page", "p"]).targets,
            [target("--svg", "--=x"), target("--page", "p")]
        );
        assert_eq!(job(&["small", "--svg", "o", "3"]).targets, [target("--svg", "o")]);
    }

    #[test]
    fn help_and_version_need_nothing_else() {
        for words in [&["--help"][..], &["-h"], &["check", "--help"], &["--svg", "o", "-h", "--foo"]] {
            assert_eq!(asked(words), Ok(Asked::Help), "{words:?}");
        }
        for words in [&["--version"][..], &["-V"], &["compare", "a", "-V"]] {
            assert_eq!(asked(words), Ok(Asked::Version), "{words:?}");
        }
        assert_eq!(job(&["check", "--", "--help"]).command, Command::Check(file("--help")));
    }

    #[test]
    fn wrong_use_is_told_by_name() {
        let around = "`--around` needs a slot, a number from 1 to 4294967295";
        for (words, message) in [
            (&["--foo", "--help"][..], "unknown option `--foo`"),
            (&["check", "f", "-x"], "unknown option `-x`"),
            (&["check", "f", "--foo=bar"], "unknown option `--foo`"),
            (&["check", "f", "--=bar"], "unknown option `--`"),
            (&["check", "f", "--\u{1b}"], r"unknown option `--\u{1b}`"),
            (&["look", "f"], "unknown command `look`"),
            (&["-"], "unknown command `-`"),
            (&["check"], "`check` needs one file, but none is given"),
            (&["compress", "a", "b"], "`compress` needs one file, but 2 are given"),
            (&["compare", "a"], "`compare` needs two files, but only one is given"),
            (&["compare", "a", "b", "c"], "`compare` needs two files, but 3 are given"),
            (&["compare", "-", "-"], "`compare - -`: standard input can be read only once"),
            (&["check", "f", "--svg"], "`--svg` needs the name of a file to write"),
            (&["check", "f", "--svg", "--around", "3"], "`--svg` needs the name of a file to write"),
            (&["check", "f", "--svg="], "`--svg` needs the name of a file to write"),
            (&["check", "f", "--svg", ""], "`--svg` needs the name of a file to write"),
            (&["check", "f", "--svg", "a", "--svg", "b"], "`--svg` is given twice"),
            (&["compress", "f", "--reset", "--reset"], "`--reset` is given twice"),
            (
                &["check", "f", "--svg", "-"],
                "`--svg -`: standard output gets the text; `./-` is a file of that name",
            ),
            (&["check", "f", "--around"], around),
            (&["compress", "f", "--reset=1"], "`--reset` takes no value, found `1`"),
            (&["--help=me"], "`--help` takes no value, found `me`"),
            (&["check", "f", "--reset"], "`--reset` goes with `compress` only"),
            (&["--reset"], "`--reset` goes with `compress` only"),
            (&["compare", "a", "b", "--order-preserving"], "`--order-preserving` goes with `compress` only"),
            (&["apply", "a"], "`apply` needs two files, but only one is given"),
            (&["apply", "a", "b", "c"], "`apply` needs two files, but 3 are given"),
            (&["apply", "-", "-"], "`apply - -`: standard input can be read only once"),
            (&["apply", "a", "b", "--reset"], "`--reset` goes with `compress` only"),
            (&["due"], "`due` needs a file, SLOT, GENERATION, FROM and TO, but none is given"),
            (&["due", "f"], "`due` needs a file, SLOT, GENERATION, FROM and TO, but only one is given"),
            (&["due", "f", "1"], "`due` needs a file, SLOT, GENERATION, FROM and TO, but only 2 are given"),
            (
                &["due", "f", "1", "2", "3", "4", "5"],
                "`due` needs a file, SLOT, GENERATION, FROM and TO, but 6 are given",
            ),
            (
                &["due", "f", "4294967296", "x", "3", "4"],
                "`due` needs SLOT, a number from 0 to 4294967295, found `4294967296`",
            ),
            (
                &["due", "f", "1", "4294967296", "3", "4"],
                "`due` needs GENERATION, a number from 0 to 4294967295, found `4294967296`",
            ),
            (&["due", "f", "1", "2", "", "4"], "`due` needs FROM, a number from 0 to 4294967295, found ``"),
            (&["due", "f", "1", "2", "3", "+4"], "`due` needs TO, a number from 0 to 4294967295, found `+4`"),
            (&["due", "f", "1", "2", "3", "-4"], "unknown option `-4`"),
            (
                &["due", "f", "1", "2", "3", "4", "--around", "1"],
                "`--around` goes with `check`, `compress` and `apply` only",
            ),
            (&["due", "f", "1", "2", "3", "4", "--reset"], "`--reset` goes with `compress` only"),
            (
                &["compare", "a", "b", "--around", "1"],
                "`--around` goes with `check`, `compress` and `apply` only",
            ),
            (&["small", "1", "2"], "`small` takes one INDEX or none, but 2 are given"),
            (&["small", "-1"], "unknown option `-1`"),
            (&["small", "--svg", "o"], "`--svg` goes with `small INDEX`, not with `small` alone"),
            (&["--page=o", "small"], "`--page` goes with `small INDEX`, not with `small` alone"),
            (&["small", "1", "--around", "1"], "`--around` goes with `check`, `compress` and `apply` only"),
            (&["small", "--reset"], "`--reset` goes with `compress` only"),
        ] {
            assert_eq!(asked(words), Err(message.to_string()), "{words:?}");
        }
        for word in ["0", "4294967296", "-3", "+3", "x", "99999999999999999999"] {
            let message = format!("{around}, found `{word}`");
            assert_eq!(asked(&["check", "f", "--around", word]), Err(message));
        }
    }

    #[cfg(unix)]
    #[test]
    fn names_need_not_be_text() {
        use std::os::unix::ffi::OsStrExt;
        let word = |bytes| OsStr::from_bytes(bytes).to_os_string();
        let words = [word(b"check"), word(b"\xff"), word(b"--svg=\xfe")];
        let Ok(Asked::Job(job)) = parse(words.into_iter(), ["--svg"].into_iter()) else { panic!() };
        assert_eq!(job.command, Command::Check(Source::File(word(b"\xff").into())));
        assert_eq!(job.targets[0].path.as_os_str(), word(b"\xfe"));
        let unknown = parse([word(b"--\xff")].into_iter(), ["--svg"].into_iter());
        assert_eq!(unknown, Err("unknown option `--\u{fffd}`".to_string()));
    }
}
