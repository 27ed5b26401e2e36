//! The files of crate triple_arena 0.15.1 that are at hand, compiled unchanged, and the glue that they lean on.
//!
//! The crate's text is not part of this repository: build.rs looks for it (see ../GLUE.md) and sets the cfg `crate_text`
//! where it is found. Where it is not, this package is empty.
#![cfg(crate_text)]
// Much of the crate's text is not called here.
#![allow(dead_code, unused_imports)]

// The crate's text names its `recasting` dependency, whose two traits stand in `recast`.
extern crate self as recasting;

pub mod arena_iterators;
pub mod reach;
mod recast;
mod vec_stack;

pub use recast::{Recast, Recaster};

include!(concat!(env!("OUT_DIR"), "/tree.rs"));
