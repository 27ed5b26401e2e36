//! Three ways to make the same calls: the crate's own text, a plain model, and the proved exports.
//!
//! `model` does what docs/REFERENCE.md tells. `crate_side` runs the files of triple_arena 0.15.1, unchanged, where they are
//! at hand (see GLUE.md). `exports` calls the archives. `compare` makes one call all three ways and says where they part;
//! `sections` are the cases that it is made on, `runner` runs them, `shrink` and `show` make of a case that fails a small
//! one to be read. `wrapper` makes the calls of `exports` through the safe wrapper.

pub mod calls;
pub mod cases;
pub mod compare;
#[cfg(crate_text)]
pub mod crate_side;
pub mod demand3;
pub mod exports;
pub mod guards;
pub mod model;
pub mod payloads;
pub mod random;
pub mod runner;
pub mod sections;
mod show;
pub mod shrink;
pub mod words;
pub mod wrapper;

/// The largest number of slots that an arena can have.
pub const LIMIT: usize = 1_048_576;

/// Numbers that differ by a multiple of this are the same if they are cut to 16 bits.
pub const CUT: u32 = 65_536;

/// The place of each word in the header.
pub mod header {
    /// The stack length
    pub const STACK: usize = 0;
    /// The link count
    pub const LINKS: usize = 1;
    /// The freelist root, 0 for none
    pub const ROOT: usize = 2;
    /// The current generation
    pub const GENERATION: usize = 3;
}

/// The sides of a link, as the word `side` names them.
pub mod side {
    /// Its prev
    pub const PREV: u32 = 1;
    /// Its next
    pub const NEXT: u32 = 2;
}

/// The frame that the payloads are dots of (REFERENCE, Frame clock).
pub mod frame {
    /// Its lines
    pub const LINES: u32 = 262;
    /// The dots of a line
    pub const LINE_DOTS: u32 = 341;
    /// All its dots, of which the last is one less
    pub const DOTS: u32 = 89_342;
    const _: () = assert!(LINES * LINE_DOTS == DOTS);
}

/// How many words a command of a run has: a code, the slots and generations of two pointers, a payload.
pub const COMMAND_WORDS: usize = 6;

/// The kinds of an insertion by their codes. Of two kinds that do the same the second names its links by their slots alone.
pub mod kind {
    use std::ops::RangeInclusive;

    /// A lone link
    pub const DISCONNECTED: u32 = 6;
    /// A link closed alone
    pub const SINGLE_LINK_CYCLIC: u32 = 7;
    /// Behind the end of a chain
    pub const CHAIN_END: u32 = 8;
    pub const CHAIN_END_INX: u32 = 9;
    /// Before the start of a chain
    pub const CHAIN_START: u32 = 10;
    pub const CHAIN_START_INX: u32 = 11;
    /// Behind a link, wherever it is
    pub const NEXT_TO: u32 = 12;
    pub const NEXT_TO_INX: u32 = 13;
    /// Before a link, wherever it is
    pub const PREV_TO: u32 = 14;
    pub const PREV_TO_INX: u32 = 15;
    /// Between two neighbours
    pub const AT_INTERLINK: u32 = 16;
    pub const AT_INTERLINK_INX: u32 = 17;
    /// Between an end and a start
    pub const BRIDGE: u32 = 18;
    pub const BRIDGE_INX: u32 = 19;

    /// All of them
    pub const ALL: RangeInclusive<u32> = DISCONNECTED..=BRIDGE_INX;

    /// Whether a kind names links by their slots alone.
    pub fn by_slot(kind: u32) -> bool {
        names(kind) > 0 && kind % 2 == 1
    }

    /// How many links a kind names.
    pub fn names(kind: u32) -> usize {
        match kind {
            CHAIN_END..=PREV_TO_INX => 1,
            AT_INTERLINK..=BRIDGE_INX => 2,
            _ => 0,
        }
    }
}

pub use chain_arena::{OwnedArena as Arena, Ptr, Walk};

/// What is sold, each with an archive of its own: the three levels, and the small arenas.
#[derive(Clone, Copy, Debug, PartialEq, Eq)]
pub enum Archive {
    LevelOne,
    LevelTwo,
    LevelThree,
    SmallArenas,
}

impl Archive {
    /// All of them
    pub const ALL: [Self; 4] = [Self::LevelOne, Self::LevelTwo, Self::LevelThree, Self::SmallArenas];

    /// Its name.
    pub fn name(self) -> &'static str {
        match self {
            Self::LevelOne => "level_one",
            Self::LevelTwo => "level_two",
            Self::LevelThree => "level_three",
            Self::SmallArenas => "small_arenas",
        }
    }

    /// Whether it is linked; Level One always is.
    pub fn is_linked(self) -> bool {
        match self {
            Self::LevelOne => true,
            Self::LevelTwo => cfg!(level_two),
            Self::LevelThree => cfg!(level_three),
            Self::SmallArenas => cfg!(small_arenas),
        }
    }
}

/// What the words of an arena say, where its columns and its header are as long as they must be.
pub trait Reading {
    /// The stack length.
    fn stack(&self) -> usize;
    /// The link count.
    fn links(&self) -> usize;
    /// The freelist root, 0 for none.
    fn root(&self) -> u32;
    /// The current generation.
    fn current(&self) -> u32;
    /// Whether slot `s` is a link of the stack.
    fn is_link(&self, s: usize) -> bool;
    /// The slots of the links, rising.
    fn link_slots(&self) -> impl Iterator<Item = usize>;
    /// The pointer to the link in slot `s`.
    fn ptr(&self, s: usize) -> Ptr;
}

impl Reading for Arena {
    fn stack(&self) -> usize {
        self.header[header::STACK] as usize
    }

    fn links(&self) -> usize {
        self.header[header::LINKS] as usize
    }

    fn root(&self) -> u32 {
        self.header[header::ROOT]
    }

    fn current(&self) -> u32 {
        self.header[header::GENERATION]
    }

    fn is_link(&self, s: usize) -> bool {
        (1..=self.stack()).contains(&s) && self.generation[s - 1] != 0
    }

    fn link_slots(&self) -> impl Iterator<Item = usize> {
        (1..=self.stack()).filter(|&s| self.is_link(s))
    }

    fn ptr(&self, s: usize) -> Ptr {
        Ptr { slot: s as u32, generation: self.generation[s - 1] }
    }
}

/// A call with its arguments. The slices that it lends are in it, so that they can be compared after the call.
#[derive(Clone, Debug, PartialEq, Eq)]
pub enum Call {
    Check,
    GetLink(Ptr),
    GetLinkNoGen(Ptr),
    AreNeighbors(Ptr, Ptr),
    WalkStart(Ptr),
    WalkStep(Walk),
    Connect(Ptr, Ptr),
    BreakPrev(Ptr),
    BreakNext(Ptr),
    ExchangeNext(Ptr, Ptr),
    Remove(Ptr),
    /// The pointer and the report
    Drain(Ptr, Vec<u32>),
    SetGeneration(u32),
    IncGeneration,
    CanonicalizeFreelist,
    /// The commands and the answers
    Run(Vec<u32>, Vec<u32>),
    /// The reset word and the report
    CompressWith(u32, Vec<u32>),
    /// The reset word and the where-from column
    CompressCanonical(u32, Vec<u32>),
    /// The kind, its two pointers and the payload
    Insert(u32, Ptr, Ptr, u32),
    /// The dot
    LineOfDot(u32),
    /// The line
    LineDots(u32),
    /// The pointer and the window's two ends
    DueCount(Ptr, u32, u32),
    /// The pointer, the window's two ends and the report
    DueEvents(Ptr, u32, u32, Vec<u32>),
    /// The index; the arena is written into the columns and the header, whatever they hold
    SmallArena(u32),
}

impl Call {
    /// The archive that the call is sold with.
    pub fn archive(&self) -> Archive {
        match self {
            Self::Check
            | Self::GetLink(_)
            | Self::GetLinkNoGen(_)
            | Self::AreNeighbors(..)
            | Self::WalkStart(_)
            | Self::WalkStep(_)
            | Self::LineOfDot(_)
            | Self::LineDots(_)
            | Self::DueCount(..)
            | Self::DueEvents(..) => Archive::LevelOne,
            Self::CompressWith(..) | Self::CompressCanonical(..) => Archive::LevelThree,
            Self::SmallArena(_) => Archive::SmallArenas,
            _ => Archive::LevelTwo,
        }
    }

    /// Whether the call is made on an arena, which it checks first.
    pub fn takes_arena(&self) -> bool {
        self.takes_columns() && !matches!(self, Self::SmallArena(_))
    }

    /// Whether columns and a header are lent to the call.
    pub fn takes_columns(&self) -> bool {
        !matches!(self, Self::LineOfDot(_) | Self::LineDots(_))
    }
}

/// What a call answers: its number, with 11 where rule 11 fails, and the further words in the order of the exported struct,
/// those that it does not have being 0.
#[derive(Clone, Copy, Debug, Default, PartialEq, Eq)]
pub struct Reply {
    /// 0: done, 100: done, and the generation overflowed, any other: refused, and why (REFERENCE, Numbers)
    pub number: u32,
    /// With 11 the lowest slot at which rule 11 fails, else 0
    pub broken: u32,
    /// With 11 the side of that slot on which it fails, the prev if it does so on both; else 0
    pub side: u32,
    /// The call's further words
    pub words: [u32; 6],
}

impl Reply {
    /// A reply of a number alone.
    pub fn number(number: u32) -> Self {
        Self { number, ..Self::default() }
    }

    /// A reply of a number and the call's first further words.
    pub fn new(number: u32, words: &[u32]) -> Self {
        let mut reply = Self::number(number);
        reply.words[..words.len()].copy_from_slice(words);
        reply
    }
}
