// Finds the files of crate triple_arena 0.15.1 and copies them, unchanged, into the folder that is compiled.

use std::env;
use std::fs;
use std::path::{Path, PathBuf};

/// The files that are compiled, by their place under the crate's src.
const FILES: [&str; 14] = [
    "fundamental/advancer.rs",
    "fundamental/errors.rs",
    "fundamental/extra.rs",
    "fundamental/ptr.rs",
    "stack/arena_backing.rs",
    "stack/nonzero_inx_generic_stack.rs",
    "arena/arena_traits.rs",
    "arena/base_arena.rs",
    "arena/impl_arena_trait.rs",
    "chain/chain_arena.rs",
    "chain/chain_iterators.rs",
    "chain/chain_traits.rs",
    "chain/impl_chain_arena_trait.rs",
    "chain/links.rs",
];

/// Where the files are looked for if the environment names no folder: beside the repository.
const BESIDE: &str = "../../../shared/docs/src";

/// The environment variable that names a folder with the crate's files.
const NAMED: &str = "TRIPLE_ARENA_SRC";

/// The folder that holds every file of the list: the given one or its `src`.
fn text_in(folder: &Path) -> Option<PathBuf> {
    [folder.join("src"), folder.to_path_buf()]
        .into_iter()
        .find(|src| FILES.iter().all(|file| src.join(file).is_file()))
}

/// The folder of the crate's text. A folder that the environment names must hold it.
fn find_text() -> Option<PathBuf> {
    let Some(named) = env::var_os(NAMED) else {
        return text_in(Path::new(BESIDE));
    };
    let named = PathBuf::from(named);
    let found = text_in(&named);
    if found.is_none() {
        println!("cargo::error={NAMED} names {}, which does not hold {}", named.display(), FILES.join(", "));
    }
    found
}

/// Copies one file, and makes the folders on its way.
fn copy(from: &Path, to: &Path) {
    fs::create_dir_all(to.parent().unwrap()).unwrap();
    fs::copy(from, to).unwrap();
}

fn main() {
    println!("cargo::rerun-if-env-changed={NAMED}");
    println!("cargo::rerun-if-changed=build.rs");
    println!("cargo::rerun-if-changed=tree.rs");
    let Some(text) = find_text() else {
        return;
    };
    let out = PathBuf::from(env::var_os("OUT_DIR").unwrap());
    for file in FILES {
        let from = text.join(file);
        println!("cargo::rerun-if-changed={}", from.display());
        copy(&from, &out.join(file));
    }
    copy(Path::new("tree.rs"), &out.join("tree.rs"));
    println!("cargo::rustc-cfg=crate_text");
    println!("cargo::metadata=found=1");
}
