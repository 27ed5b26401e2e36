//! What `cargo package` carries: the library with its README, NOTICE, C header and manual, and nothing that only the repository needs.

use std::collections::BTreeMap;
use std::fs;
use std::path::{Path, PathBuf};
use std::process::Command;

#[test]
fn the_package_carries_readme_notice_header_and_manual() {
    let mut command = Command::new(env!("CARGO"));
    command.args(["package", "--list", "--allow-dirty", "--offline"]);
    let output = command.current_dir(env!("CARGO_MANIFEST_DIR")).output().unwrap();
    assert!(output.status.success(), "{}", String::from_utf8_lossy(&output.stderr));
    let files = String::from_utf8(output.stdout).unwrap();
    let files: Vec<&str> = files.lines().collect();
    for wanted in [
        "README.md",
        "NOTICE",
        "include/chain_arena.h",
        "docs/REFERENCE.md",
        "build.rs",
        "levels.rs",
        "src/lib.rs",
    ] {
        assert!(files.contains(&wanted), "{wanted} is not in the package: {files:?}");
    }
    assert!(!files.iter().any(|file| file.starts_with("tests/")), "{files:?}");
}

/// The files of a folder and of those below it, or the one that a path names, by their places in a folder above.
fn files(above: &Path, path: &Path) -> BTreeMap<PathBuf, Vec<u8>> {
    if path.is_dir() {
        let entries = fs::read_dir(path).unwrap().map(|entry| entry.unwrap().path());
        return entries.flat_map(|entry| files(above, &entry)).collect();
    }
    [(path.strip_prefix(above).unwrap().to_path_buf(), fs::read(path).unwrap())].into()
}

#[test]
fn the_copies_are_the_repositorys() {
    let package = Path::new(env!("CARGO_MANIFEST_DIR"));
    let repository = package.join("..");
    for of in ["README.md", "NOTICE", "include", "docs"] {
        let (copy, original) = (files(package, &package.join(of)), files(&repository, &repository.join(of)));
        let names = |of: &BTreeMap<PathBuf, Vec<u8>>| of.keys().cloned().collect::<Vec<_>>();
        assert_eq!(names(&copy), names(&original), "host/{of}: `bash tools/copies` copies it again");
        for (name, text) in original {
            assert!(copy[&name] == text, "host/{}: `bash tools/copies` copies it again", name.display());
            assert!(!package.join(&name).is_symlink(), "the toolchain's gate refuses links");
        }
    }
}

#[test]
fn the_package_says_what_it_is() {
    for (name, value) in [
        ("description", env!("CARGO_PKG_DESCRIPTION")),
        ("license", env!("CARGO_PKG_LICENSE")),
        ("rust-version", env!("CARGO_PKG_RUST_VERSION")),
        ("readme", env!("CARGO_PKG_README")),
    ] {
        assert!(!value.is_empty(), "Cargo.toml has no {name}");
    }
    let read =
        |name: &str| std::fs::read_to_string(Path::new(env!("CARGO_MANIFEST_DIR")).join(name)).unwrap();
    let manifest = read("Cargo.toml");
    for list in ["keywords", "categories"] {
        assert!(manifest.contains(&format!("\n{list} = [\"")), "Cargo.toml has no {list}");
    }
    let version = env!("CARGO_PKG_RUST_VERSION");
    assert!(read("README.md").contains(&format!("Rust from {version} on")));
    assert!(read("../checker/Cargo.toml").contains(&format!("rust-version = \"{version}\"")));
    let library = read("src/lib.rs");
    assert!(library.contains("\n#![no_std]\n"));
    assert!(!library.contains("mod levels"), "the list of levels is for the build and the tests");
}
