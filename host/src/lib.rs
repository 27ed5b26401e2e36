//! The chain arena's proved calls, safe to use from Rust, without `std`.
//!
//! An arena is lent as five slices: prev, next, generation and payload by slot, and a header of four words. [`Arena`] reads
//! it (Level One), [`ArenaMut`] edits it (Level Two) and compresses it (Level Three). Every call on an arena checks it first,
//! answers on any words, and says with a number why it refuses; a refused call has written nothing. Level One also has a
//! clock for payloads that are dots of a frame: `Dot`, `Line` and `Window`.
//!
//! The manual is docs/REFERENCE.md: what each call does, and what each number means. 'REFERENCE, Drain' names its section
//! on drains.
//!
//! ```
//! use chain_arena::{Arena, Header, Ptr};
//!
//! // The chain 1 -> 3 and the lone link 2.
//! let arena = Arena {
//!     prev: &[0, 0, 1],
//!     next: &[3, 0, 0],
//!     generation: &[5, 5, 5],
//!     payload: &[10, 20, 30],
//!     header: &Header { stack_length: 3, link_count: 3, root: 0, generation: 5 }.words(),
//! };
//! let p = Ptr { slot: 3, generation: 5 };
//! # #[cfg(feature = "level-one")] {
//! assert_eq!(arena.get_link(p)?.payload, 30); // checks the arena, as every call on it does
//! let checked = arena.checked()?; // checks it once, for any number of reads
//! assert_eq!(checked.link(p)?.payload, 30);
//! assert!(checked.chain(p)?.map(|(p, link)| (p.slot, link.payload)).eq([(3, 30), (1, 10)]));
//! # }
//! # Ok::<(), chain_arena::Refusal>(())
//! ```
//!
//! # Levels
//!
//! The features `level-one`, `level-two` and `level-three`, all on by default, each stand alone, and so does `small-arenas`, which
//! is no level: `small_arenas` gives every small arena, to try programs on. A feature builds its archive with the Rattle
//! toolchain and links it, or the ready one in the folder that the environment variable `CHAIN_ARENA_ARCHIVES` names. The calls
//! of a feature that is off are not there. The feature `alloc` adds `OwnedArena`, whose columns are vectors.
//!
//! The archives hold code for x86-64 Linux; for another target the build stops with a sentence.
//!
//! # Buffers do not overlap
//!
//! A call that writes takes its slices as `&mut`, so that none of them overlaps another one, be it a column, a report or a
//! list of answers; only [`ffi`], which is unsafe, takes raw pointers. A column that is lent twice does not compile:
//!
//! ```compile_fail,E0499
//! # use chain_arena::ArenaMut;
//! # let (mut generation, mut payload, mut header) = ([0; 3], [0; 3], [0, 0, 0, 2]);
//! let mut column = [0; 3];
//! let arena = ArenaMut {
//!     prev: &mut column,
//!     next: &mut column,
//!     generation: &mut generation,
//!     payload: &mut payload,
//!     header: &mut header,
//! };
//! # let _ = arena.prev;
//! ```
#![no_std]
#![warn(missing_docs)]

#[cfg(feature = "alloc")]
extern crate alloc;

/// Makes an exported call on an arena's lent slices, each of which crosses as a pointer and an element count.
#[cfg(any(feature = "level-one", feature = "level-two", feature = "level-three", feature = "small-arenas"))]
macro_rules! call {
    ($call:ident($arena:expr, $pointer:ident $(, $argument:expr)* $(,)?)) => {
        // Safety: each pointer and count are those of one slice, which is borrowed until the call has answered; the slices
        // that a call writes to are borrowed by it alone.
        unsafe {
            $crate::ffi::$call(
                $arena.prev.$pointer(),
                $arena.prev.len(),
                $arena.next.$pointer(),
                $arena.next.len(),
                $arena.generation.$pointer(),
                $arena.generation.len(),
                $arena.payload.$pointer(),
                $arena.payload.len(),
                $arena.header.$pointer(),
                $arena.header.len(),
                $($argument),*
            )
        }
    };
}

mod arena;
#[cfg(feature = "level-one")]
mod checked;
#[cfg(feature = "level-one")]
mod clock;
#[expect(missing_docs, reason = "the words of a result are named as the calls name them")]
pub mod ffi;
#[cfg(feature = "level-two")]
mod insert;
#[cfg(feature = "level-one")]
mod level_one;
#[cfg(feature = "level-three")]
mod level_three;
#[cfg(feature = "level-two")]
mod level_two;
mod link;
#[cfg(feature = "alloc")]
mod owned;
mod refusal;
#[cfg(feature = "level-two")]
mod run;
#[cfg(feature = "small-arenas")]
mod small;
#[cfg(feature = "level-one")]
mod walk;

pub use arena::{Arena, ArenaMut, Header};
#[cfg(feature = "level-one")]
pub use checked::{Chain, Chains, Checked, Links};
#[cfg(feature = "level-one")]
pub use clock::{Dot, Due, DueEvent, Line, Window};
#[cfg(feature = "level-two")]
pub use insert::LinkInsertKind;
#[cfg(feature = "level-three")]
pub use level_three::{CompressedCanonical, CompressedWith, Moved, NewGeneration};
#[cfg(feature = "level-two")]
pub use level_two::{Drained, DrainedLink, Removed};
pub use link::{Link, LinkNoGen, Ptr, Slot};
#[cfg(feature = "alloc")]
pub use owned::OwnedArena;
pub use refusal::{Done, Refusal, RefusalKind, Side};
#[cfg(feature = "level-two")]
pub use run::{Answer, Answers, Command, Full, Run};
#[cfg(feature = "small-arenas")]
pub use small::{SmallArena, SmallArenas, small_arenas};
#[cfg(feature = "level-one")]
pub use walk::{Steps, Walk};

/// The README's examples, which are tested too.
#[cfg(all(
    doctest,
    feature = "level-one",
    feature = "level-two",
    feature = "level-three",
    feature = "small-arenas"
))]
#[doc = include_str!("../README.md")]
struct Readme;
