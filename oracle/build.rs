// Sets the cfg `crate_text` where the package of that name has found the crate's files, and the cfg of each archive that
// the wrapper has linked beside Level One.

use std::env;

fn main() {
    println!("cargo::rerun-if-changed=build.rs");
    for (found, cfg) in [
        ("DEP_CRATE_TEXT_FOUND", "crate_text"),
        ("DEP_CHAIN_ARENA_LEVEL_TWO", "level_two"),
        ("DEP_CHAIN_ARENA_LEVEL_THREE", "level_three"),
        ("DEP_CHAIN_ARENA_SMALL_ARENAS", "small_arenas"),
    ] {
        println!("cargo::rustc-check-cfg=cfg({cfg})");
        if env::var_os(found).is_some() {
            println!("cargo::rustc-cfg={cfg}");
        }
    }
}
