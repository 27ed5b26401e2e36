//! A call as words and back, for the stored cases, for making a failing case smaller, and for printing it.

use std::iter::once;

use crate::{COMMAND_WORDS, Call, Ptr, Walk};

/// The calls in the order of their codes, from 1: name, names of the arguments, names of the result's further fields.
#[rustfmt::skip]
const CALLS: &[(&str, &[&str], &[&str])] = &[
    ("check", &[], &[]),
    ("get_link", POINTER, &["prev", "prev_generation", "next", "next_generation", "payload"]),
    ("get_link_no_gen", POINTER, LINK),
    ("are_neighbors", POINTERS, &["yes"]),
    ("walk_start", POINTER, STATE),
    ("walk_step", STATE, &["slot", "generation", "start", "position", "direction", "left"]),
    ("connect", POINTERS, &[]),
    ("break_prev", POINTER, &[]),
    ("break_next", POINTER, &[]),
    ("exchange_next", POINTERS, &[]),
    ("remove", POINTER, LINK),
    ("drain", POINTER, &["items", "overflowed"]),
    ("set_generation", &["generation"], &[]),
    ("inc_generation", &[], &[]),
    ("canonicalize_freelist", &[], &[]),
    ("run", COMMAND, &[]),
    ("compress_with", &["reset"], &[]),
    ("compress_canonical", &["reset"], &[]),
    ("insert", &["kind", "slot", "generation", "slot", "generation", "payload"], POINTER),
    ("line_of_dot", &["dot"], &["line"]),
    ("line_dots", &["line"], &["first", "last"]),
    ("due_count", WINDOW, &["count"]),
    ("due_events", WINDOW, &["count"]),
    ("small_arena", &["index"], &["found", "length"]),
];

const POINTER: &[&str] = &["slot", "generation"];
const POINTERS: &[&str] = &["slot", "generation", "slot", "generation"];
const STATE: &[&str] = &["start", "position", "direction", "left"];
const COMMAND: &[&str; COMMAND_WORDS] = &["code", "slot", "generation", "slot", "generation", "payload"];
const WINDOW: &[&str] = &["slot", "generation", "from", "to"];
const LINK: &[&str] = &["prev", "next", "payload"];

/// How many calls there are: their codes are 1 to this.
pub const CALLS_IN_ALL: usize = CALLS.len();
/// The code of a drain.
pub const DRAIN: usize = 12;
/// The code of a run.
pub const RUN: usize = 16;
/// The code of an order-preserving compression.
pub const COMPRESS_WITH: usize = 17;
/// The code of a canonical compression.
pub const COMPRESS_CANONICAL: usize = 18;
/// The code of an insertion.
pub const INSERT: usize = 19;
/// The codes of the two calls that take no arena.
pub const LINE_OF_DOT: usize = 20;
pub const LINE_DOTS: usize = 21;
/// The code of a count of the links that are due.
pub const DUE_COUNT: usize = 22;
/// The code of a report of the links that are due.
pub const DUE_EVENTS: usize = 23;
/// The code of the call that writes a small arena.
pub const SMALL_ARENA: usize = 24;

/// The codes of the calls that are made on an arena.
pub fn calls_on_arenas() -> impl Iterator<Item = usize> + Clone {
    (1..=CALLS_IN_ALL).filter(|code| !matches!(*code, LINE_OF_DOT | LINE_DOTS | SMALL_ARENA))
}

impl Call {
    /// The call's place in the list of calls, from 1.
    pub fn code(&self) -> usize {
        match self {
            Self::Check => 1,
            Self::GetLink(_) => 2,
            Self::GetLinkNoGen(_) => 3,
            Self::AreNeighbors(..) => 4,
            Self::WalkStart(_) => 5,
            Self::WalkStep(_) => 6,
            Self::Connect(..) => 7,
            Self::BreakPrev(_) => 8,
            Self::BreakNext(_) => 9,
            Self::ExchangeNext(..) => 10,
            Self::Remove(_) => 11,
            Self::Drain(..) => 12,
            Self::SetGeneration(_) => 13,
            Self::IncGeneration => 14,
            Self::CanonicalizeFreelist => 15,
            Self::Run(..) => RUN,
            Self::CompressWith(..) => 17,
            Self::CompressCanonical(..) => COMPRESS_CANONICAL,
            Self::Insert(..) => INSERT,
            Self::LineOfDot(_) => LINE_OF_DOT,
            Self::LineDots(_) => LINE_DOTS,
            Self::DueCount(..) => DUE_COUNT,
            Self::DueEvents(..) => DUE_EVENTS,
            Self::SmallArena(_) => SMALL_ARENA,
        }
    }

    /// The call's name.
    pub fn name(&self) -> &'static str {
        CALLS[self.code() - 1].0
    }

    /// The names of the further fields of its result.
    pub fn fields(&self) -> &'static [&'static str] {
        CALLS[self.code() - 1].2
    }

    /// Its pointers, those of a run's commands not among them.
    pub fn pointers(&self) -> Vec<Ptr> {
        match self {
            Self::GetLink(p)
            | Self::GetLinkNoGen(p)
            | Self::WalkStart(p)
            | Self::BreakPrev(p)
            | Self::BreakNext(p)
            | Self::Remove(p)
            | Self::Drain(p, _)
            | Self::DueCount(p, ..)
            | Self::DueEvents(p, ..) => vec![*p],
            Self::AreNeighbors(p, q)
            | Self::Connect(p, q)
            | Self::ExchangeNext(p, q)
            | Self::Insert(_, p, q, _) => vec![*p, *q],
            _ => vec![],
        }
    }

    /// The words of its arguments; of a run the commands.
    pub fn arguments(&self) -> Vec<u32> {
        let pointers = self.pointers().into_iter().flat_map(|p| [p.slot, p.generation]);
        match self {
            Self::WalkStep(walk) => vec![walk.start, walk.position, walk.direction, walk.left],
            Self::SetGeneration(word)
            | Self::CompressWith(word, _)
            | Self::CompressCanonical(word, _)
            | Self::LineOfDot(word)
            | Self::LineDots(word)
            | Self::SmallArena(word) => vec![*word],
            Self::Run(commands, _) => commands.clone(),
            Self::Insert(kind, _, _, payload) => once(*kind).chain(pointers).chain(once(*payload)).collect(),
            Self::DueCount(_, from, to) | Self::DueEvents(_, from, to, _) => {
                pointers.chain([*from, *to]).collect()
            }
            _ => pointers.collect(),
        }
    }

    /// The words of the slice that it lends: report, answers or where-from column.
    pub fn lent(&self) -> Vec<u32> {
        match self {
            Self::Drain(_, words)
            | Self::Run(_, words)
            | Self::CompressWith(_, words)
            | Self::CompressCanonical(_, words)
            | Self::DueEvents(.., words) => words.clone(),
            _ => vec![],
        }
    }

    /// The call of a code with these words, or none if there are too few.
    pub fn of(code: usize, arguments: &[u32], lent: Vec<u32>) -> Option<Self> {
        let word = |k: usize| arguments.get(k).copied();
        let ptr = |k| Some(Ptr { slot: word(k)?, generation: word(k + 1)? });
        Some(match code {
            1 => Self::Check,
            2 => Self::GetLink(ptr(0)?),
            3 => Self::GetLinkNoGen(ptr(0)?),
            4 => Self::AreNeighbors(ptr(0)?, ptr(2)?),
            5 => Self::WalkStart(ptr(0)?),
            6 => Self::WalkStep(Walk {
                start: word(0)?,
                position: word(1)?,
                direction: word(2)?,
                left: word(3)?,
            }),
            7 => Self::Connect(ptr(0)?, ptr(2)?),
            8 => Self::BreakPrev(ptr(0)?),
            9 => Self::BreakNext(ptr(0)?),
            10 => Self::ExchangeNext(ptr(0)?, ptr(2)?),
            11 => Self::Remove(ptr(0)?),
            12 => Self::Drain(ptr(0)?, lent),
            13 => Self::SetGeneration(word(0)?),
            14 => Self::IncGeneration,
            15 => Self::CanonicalizeFreelist,
            RUN => Self::Run(arguments.to_vec(), lent),
            17 => Self::CompressWith(word(0)?, lent),
            COMPRESS_CANONICAL => Self::CompressCanonical(word(0)?, lent),
            INSERT => Self::Insert(word(0)?, ptr(1)?, ptr(3)?, word(5)?),
            LINE_OF_DOT => Self::LineOfDot(word(0)?),
            LINE_DOTS => Self::LineDots(word(0)?),
            DUE_COUNT => Self::DueCount(ptr(0)?, word(2)?, word(3)?),
            DUE_EVENTS => Self::DueEvents(ptr(0)?, word(2)?, word(3)?, lent),
            SMALL_ARENA => Self::SmallArena(word(0)?),
            _ => return None,
        })
    }
}

/// The name of an argument of the call of a code, those of a run's commands again and again; none for a word too many.
pub fn argument_name(code: usize, place: usize) -> Option<&'static str> {
    let names = CALLS[code - 1].1;
    let place = if code == RUN { place % names.len() } else { place };
    names.get(place).copied()
}
