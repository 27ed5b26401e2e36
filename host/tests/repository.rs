//! The tests that are about the repository: its scripts, its proofs' guards, its declarations, its table of line starts, its documents and its package.

use std::fs;
use std::ops::Deref;
use std::path::{Path, PathBuf};
use std::process;

/// What is sold.
#[path = "../levels.rs"]
mod sold;

mod archives;
mod build_script;
mod gate;
mod guards;
mod layout;
mod line_starts;
mod package;
mod readme;

/// The crate of exports that an archive is made from, as the script `archives` has it.
fn exports_of(archive: &str) -> String {
    format!("{archive}_c")
}

/// A new folder for what a test lays out, which goes with it. It is outside the repository: the toolchain's gate refuses links, and Rattle's sources beside the
/// crates, wherever they lie in it.
struct Outside(PathBuf);

impl Outside {
    fn new(name: &str) -> Self {
        let folder = std::env::temp_dir().join(format!("chain_arena_{name}_{}", process::id()));
        let _ = fs::remove_dir_all(&folder);
        fs::create_dir_all(&folder).unwrap();
        Self(fs::canonicalize(folder).unwrap())
    }
}

impl Deref for Outside {
    type Target = Path;

    fn deref(&self) -> &Path {
        &self.0
    }
}

impl Drop for Outside {
    fn drop(&mut self) {
        let _ = fs::remove_dir_all(&self.0);
    }
}
