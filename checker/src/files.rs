//! Where texts come from and pictures go to. No picture is written over what is read.

use std::fs::{self, Metadata};
use std::io::{self, Read};
use std::os::fd::AsFd;
use std::os::unix::fs::MetadataExt;
use std::path::{Path, PathBuf};

use crate::quote::{plain, quoted};

/// How many links may lead from one to the other, as everywhere on Linux.
const LINKS: usize = 40;

/// Where the text of an arena or of commands comes from.
#[derive(Clone, Debug, PartialEq, Eq)]
pub enum Source {
    StandardInput,
    File(PathBuf),
}

impl Source {
    /// Its name in messages and titles.
    pub fn name(&self) -> String {
        match self {
            Self::StandardInput => "standard input".to_string(),
            Self::File(path) => name_of(path),
        }
    }

    /// Its bytes, or why there are none.
    pub fn read(&self) -> Result<Vec<u8>, String> {
        let mut bytes = Vec::new();
        match self {
            Self::StandardInput => io::stdin().read_to_end(&mut bytes).map(|_| bytes),
            Self::File(path) => fs::read(path),
        }
        .map_err(|error| format!("{}: {error}", self.name()))
    }

    /// The place that it is.
    fn place(&self) -> Place {
        match self {
            Self::StandardInput => Place { path: None, file: standard(&io::stdin()) },
            Self::File(path) => Place::of(path),
        }
    }
}

/// Where a picture goes to.
#[derive(Clone, Debug, PartialEq, Eq)]
pub struct Target {
    /// The option that asks for it
    pub option: &'static str,
    pub path: PathBuf,
}

impl Target {
    /// Writes a text there.
    pub fn write(&self, text: &str) -> Result<(), String> {
        fs::write(&self.path, text).map_err(|error| format!("{}: {error}", name_of(&self.path)))
    }

    /// The option with its file.
    fn words(&self) -> String {
        format!("`{} {}`", self.option, name_of(&self.path))
    }
}

/// Refuses to write over what is read, over standard output, or twice to one file.
pub fn no_clash(sources: &[&Source], targets: &[Target]) -> Result<(), String> {
    let output = Place { path: None, file: standard(&io::stdout()) };
    if let Some(source) = sources.iter().find(|source| source.place().is(&output)) {
        return Err(format!(
            "standard output goes to {}, which is read; save it in another file",
            source.name()
        ));
    }
    for (k, target) in targets.iter().enumerate() {
        let place = Place::of(&target.path);
        if let Some(source) = sources.iter().find(|source| source.place().is(&place)) {
            return Err(format!("{} would write over {}, which is read", target.words(), source.name()));
        }
        if output.is(&place) {
            return Err(format!(
                "{} would write over standard output, which goes to that file",
                target.words()
            ));
        }
        if let Some(other) = targets[..k].iter().find(|other| Place::of(&other.path).is(&place)) {
            return Err(format!("{} and {} are one file", other.words(), target.words()));
        }
    }
    Ok(())
}

/// The name of a file in messages and titles.
fn name_of(path: &Path) -> String {
    match path.to_string_lossy() {
        name if name.is_empty() => quoted(""),
        name => plain(&name),
    }
}

/// What tells one file from another: its path without links, and what the file system knows it by.
struct Place {
    path: Option<PathBuf>,
    file: Option<FileId>,
}

impl Place {
    /// The place that a path leads to, whether or not there is a file yet.
    fn of(path: &Path) -> Self {
        Self { path: resolved(path), file: fs::metadata(path).ok().and_then(|data| file_id(&data)) }
    }

    /// Whether both are one file.
    fn is(&self, other: &Self) -> bool {
        let path = self.path.is_some() && self.path == other.path;
        let file = self.file.is_some() && self.file == other.file;
        path || file
    }
}

/// A path without links. The last part of a path may lead to nothing yet.
fn resolved(path: &Path) -> Option<PathBuf> {
    let mut path = path.to_path_buf();
    for _ in 0..LINKS {
        if let Ok(found) = fs::canonicalize(&path) {
            return Some(found);
        }
        let folder = path.parent().filter(|folder| *folder != Path::new("")).unwrap_or(Path::new("."));
        let end = fs::canonicalize(folder).ok()?.join(path.file_name()?);
        match fs::read_link(&end) {
            // A link that leads to nothing yet is followed by hand.
            Ok(to) => path = end.parent()?.join(to),
            Err(_) => return Some(end),
        }
    }
    None
}

/// Device and number of a file.
type FileId = (u64, u64);

/// What the file system knows a file by. A device or a pipe is no file that could be written over.
fn file_id(data: &Metadata) -> Option<FileId> {
    data.is_file().then(|| (data.dev(), data.ino()))
}

/// The file that standard input or output is, if it is one.
fn standard(stream: &impl AsFd) -> Option<FileId> {
    let file = fs::File::from(stream.as_fd().try_clone_to_owned().ok()?);
    file_id(&file.metadata().ok()?)
}

#[cfg(test)]
mod tests {
    use super::*;
    use std::os::unix::fs::symlink;

    #[test]
    fn one_file_is_not_written_twice() {
        let folder = std::env::temp_dir().join(format!("checker-{}", std::process::id()));
        fs::create_dir(&folder).unwrap();
        let target = |option, name: &str| Target { option, path: folder.join(name) };
        let clash = |one: &str, other: &str| {
            no_clash(&[], &[target("--one", one), target("--other", other)]).err().map(|message| {
                assert!(message.starts_with("`--one ") && message.ends_with("` are one file"), "{message}");
            })
        };
        assert_eq!((clash("a", "a"), clash("a", "b")), (Some(()), None));
        fs::write(folder.join("a"), "").unwrap();
        fs::hard_link(folder.join("a"), folder.join("hard")).unwrap();
        symlink("a", folder.join("soft")).unwrap();
        symlink(".", folder.join("here")).unwrap();
        for other in ["a", "./a", "hard", "soft", "here/a", "here/here/soft"] {
            assert_eq!(clash("a", other), Some(()), "{other}");
        }
        assert_eq!((clash("a", "b"), clash("here/new", "new")), (None, Some(())));
        assert_eq!(clash("nowhere/a", "nowhere/a"), None);
        // Links that lead to nothing yet, one of them by way of another, and one that leads to itself.
        symlink("later", folder.join("one")).unwrap();
        symlink("here/one", folder.join("two")).unwrap();
        symlink("loop", folder.join("loop")).unwrap();
        for (one, other) in [("one", "later"), ("later", "two"), ("one", "two"), ("two", "here/later")] {
            assert_eq!(clash(one, other), Some(()), "{one} {other}");
        }
        assert_eq!((clash("one", "a"), clash("loop", "later")), (None, None));
        fs::remove_dir_all(&folder).unwrap();
    }
}
