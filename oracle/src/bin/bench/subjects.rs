//! What the sections `before` and `wide` measure: every exported call on an arena, on arenas of several kinds and of any size.

use oracle::calls::{self, Tide};
use oracle::random::{self, Random, Style};
use oracle::{Archive, Arena, Call, Ptr, Reading, Walk, frame, kind, model};

use crate::{
    COMMANDS, above_free, broken_at, chains_of_eight, checked_kinds, clocked, compressed_kinds, empty_arena,
    one_chain,
};

/// A call, or one use of it.
pub struct Measured {
    /// Which it is
    pub what: &'static str,
    /// What its time is divided by: slot, link or command
    pub item: &'static str,
    /// Where it is sold
    pub archive: Archive,
    /// What it is made on, in arenas of so many slots
    pub subjects: fn(usize) -> Vec<Subject>,
}

/// A call on an arena of some kind.
pub struct Subject {
    pub kind: String,
    pub arena: Arena,
    pub call: Call,
    /// How many slots, links or commands it goes over
    pub items: usize,
}

/// All of them. The calls of a pointer that is stale, the step of a walk that is over, and those that raise or set the
/// generation are the check and little more; so are a removal and an insertion, which are done.
pub const ALL: [Measured; 22] = [
    one("check", Archive::LevelOne, check),
    one("get_link, stale", Archive::LevelOne, |slots| checked(slots, Call::GetLink(STALE))),
    one("get_link_no_gen, stale", Archive::LevelOne, |slots| checked(slots, Call::GetLinkNoGen(STALE))),
    one("are_neighbors, stale", Archive::LevelOne, |slots| checked(slots, Call::AreNeighbors(STALE, STALE))),
    one("walk_start, stale", Archive::LevelOne, |slots| checked(slots, Call::WalkStart(STALE))),
    one("walk_step, over", Archive::LevelOne, |slots| checked(slots, Call::WalkStep(OVER))),
    Measured { item: "link", ..one("due_count", Archive::LevelOne, due_count) },
    Measured { item: "link", ..one("due_events", Archive::LevelOne, due_events) },
    one("connect, stale", Archive::LevelTwo, |slots| checked(slots, Call::Connect(STALE, STALE))),
    one("break_prev, stale", Archive::LevelTwo, |slots| checked(slots, Call::BreakPrev(STALE))),
    one("break_next, stale", Archive::LevelTwo, |slots| checked(slots, Call::BreakNext(STALE))),
    one("exchange_next, stale", Archive::LevelTwo, |slots| checked(slots, Call::ExchangeNext(STALE, STALE))),
    one("insert", Archive::LevelTwo, insert),
    one("remove", Archive::LevelTwo, remove),
    one("set_generation", Archive::LevelTwo, |slots| checked(slots, Call::SetGeneration(7))),
    one("inc_generation", Archive::LevelTwo, |slots| checked(slots, Call::IncGeneration)),
    one("canonicalize_freelist", Archive::LevelTwo, canonicalize_freelist),
    Measured { item: "command", ..one("run", Archive::LevelTwo, run) },
    Measured { item: "command", ..one("run, grown from empty", Archive::LevelTwo, grow) },
    Measured { item: "link", ..one("drain", Archive::LevelTwo, drain) },
    Measured { item: "link", ..one("compress_with", Archive::LevelThree, compress_with) },
    Measured { item: "link", ..one("compress_canonical", Archive::LevelThree, compress_canonical) },
];

/// A call whose time is divided by the slots.
const fn one(what: &'static str, archive: Archive, subjects: fn(usize) -> Vec<Subject>) -> Measured {
    Measured { what, item: "slot", archive, subjects }
}

/// A pointer to no link.
const STALE: Ptr = Ptr { slot: 0, generation: 0 };

/// A walk that is over.
const OVER: Walk = Walk { start: 1, position: 0, direction: 1, left: 0 };

/// One call on the arenas that are checked.
fn checked(slots: usize, call: Call) -> Vec<Subject> {
    let of = |(kind, arena): (&str, Arena)| Subject {
        kind: kind.to_string(),
        arena,
        call: call.clone(),
        items: slots,
    };
    checked_kinds(slots, slots).into_iter().map(of).collect()
}

/// The check, of arenas too that are broken at their last slot and at the end of their first chain.
fn check(slots: usize) -> Vec<Subject> {
    let broken = |kind: &str, end| Subject {
        kind: kind.to_string(),
        arena: broken_at(slots, end),
        call: Call::Check,
        items: slots,
    };
    let refused =
        [broken("chains of eight, broken last", slots), broken("chains of eight, broken at slot 8", 8)];
    checked(slots, Call::Check).into_iter().chain(refused).collect()
}

/// The first link from the middle of the slots on.
fn in_the_middle(a: &Arena) -> Ptr {
    let link = |s: &usize| a.is_link(*s);
    a.ptr((a.stack() / 2..=a.stack()).find(link).expect("a link in the upper half"))
}

/// One insertion, behind a link and before the next one, into arenas with room for a link.
fn insert(slots: usize) -> Vec<Subject> {
    let of = |(kind, arena): (&str, Arena)| Subject {
        kind: kind.to_string(),
        call: Call::Insert(kind::NEXT_TO, in_the_middle(&arena), STALE, 7),
        arena,
        items: slots,
    };
    checked_kinds(slots, slots - 1).into_iter().map(of).collect()
}

/// One removal.
fn remove(slots: usize) -> Vec<Subject> {
    let of = |(kind, arena): (&str, Arena)| Subject {
        kind: kind.to_string(),
        call: Call::Remove(in_the_middle(&arena)),
        arena,
        items: slots,
    };
    checked_kinds(slots, slots).into_iter().map(of).collect()
}

/// The windows of the frame, and chains that they are asked of: the kind of the arena, whether it is scattered, of 16 chains
/// how many are closed, and the window.
fn windows() -> [(&'static str, bool, usize, (u32, u32)); 4] {
    let (half, quarter) = (frame::DOTS / 2, frame::DOTS / 4);
    [
        ("one chain, in order, half a frame", false, 0, (0, half)),
        ("one chain, scattered, half a frame", true, 0, (0, half)),
        ("one chain, scattered, one line", true, 0, (131 * frame::LINE_DOTS, 132 * frame::LINE_DOTS)),
        ("one closed chain, scattered, over the end", true, 16, (frame::DOTS - quarter, quarter)),
    ]
}

/// What is due of one chain, counted.
fn due_count(slots: usize) -> Vec<Subject> {
    let of = |(kind, scattered, closed, (from, to)): (&str, _, _, _)| {
        let arena = clocked(slots, slots, scattered, closed);
        let call = Call::DueCount(arena.ptr(1), from, to);
        Subject { kind: kind.to_string(), arena, call, items: slots }
    };
    windows().into_iter().map(of).collect()
}

/// What is due of one chain, reported; and of a chain of half of the links with a report of its length, which must be counted
/// before.
fn due_events(slots: usize) -> Vec<Subject> {
    let of = |(kind, scattered, closed, (from, to)): (&str, _, _, _)| {
        let arena = clocked(slots, slots, scattered, closed);
        let call = Call::DueEvents(arena.ptr(1), from, to, vec![0; slots]);
        Subject { kind: kind.to_string(), arena, call, items: slots }
    };
    let arena = clocked(slots, slots / 2, true, 0);
    let call = Call::DueEvents(half_of_the_links(&arena), 0, frame::DOTS / 2, vec![0; slots / 2]);
    let kind = "half of the links, scattered, half a frame".to_string();
    let half = Subject { kind, arena, call, items: slots / 2 };
    windows().into_iter().map(of).chain([half]).collect()
}

/// A link of a chain of half of the links.
pub fn half_of_the_links(arena: &Arena) -> Ptr {
    let long = |s: &usize| model::chain_of(arena, *s).len() == arena.links() / 2;
    arena.ptr(arena.link_slots().find(long).expect("a chain of half the links"))
}

/// Runs of commands on scattered chains of eight with an eighth of the slots for more: two for each slot, and at least as many
/// as the section `run` has.
fn run(slots: usize) -> Vec<Subject> {
    let arena = chains_of_eight(slots, slots - slots / 8);
    let commands = COMMANDS.max(2 * slots);
    let of = |(kind, words): (&str, Vec<u32>)| {
        let call = Call::Run(words, vec![0; commands]);
        Subject { kind: kind.to_string(), arena: arena.clone(), call, items: commands }
    };
    let edits = |fitting| calls::mixed_edits(&mut Random::new(2), &arena, commands, fitting);
    let every = |fitting| calls::mixed_commands(&mut Random::new(2), &arena, commands, Tide::Level, fitting);
    [
        ("edits, all done", edits(true)),
        ("edits on any links", edits(false)),
        ("every kind, all done", every(true)),
        ("every kind on any links", every(false)),
    ]
    .map(of)
    .into()
}

/// Runs that fill an empty arena.
fn grow(slots: usize) -> Vec<Subject> {
    let of = |(kind, of_every_kind): (&str, bool)| {
        let arena = empty_arena(slots);
        let words = calls::growth(&mut Random::new(4), &arena, of_every_kind);
        Subject { kind: kind.to_string(), arena, call: Call::Run(words, vec![0; slots]), items: slots }
    };
    [("one chain", false), ("every kind", true)].map(of).into()
}

/// The drain of one chain.
fn drain(slots: usize) -> Vec<Subject> {
    let of = |(kind, scattered): (&str, bool)| {
        let arena = one_chain(slots, scattered);
        let call = Call::Drain(arena.ptr(1), vec![0; 5 * slots]);
        Subject { kind: kind.to_string(), arena, call, items: slots }
    };
    [("one chain, in order", false), ("one chain, scattered", true)].map(of).into()
}

/// The freelist put in order.
fn canonicalize_freelist(slots: usize) -> Vec<Subject> {
    let of = |(kind, arena): (&str, Arena)| {
        let call = Call::CanonicalizeFreelist;
        Subject { kind: kind.to_string(), arena, call, items: slots }
    };
    let whole = |free, scattered| {
        let style = Style { free, longest: 8, even: true, scattered, closed: 2 };
        random::whole(&mut Random::new(slots as u64), slots, slots, style)
    };
    [
        ("no free slot, chains of eight, in order", whole(0, false)),
        ("half of it free, in order", whole(8, false)),
        ("half of it free, scattered", whole(8, true)),
        ("all of it free, in order", whole(16, false)),
        ("all of it free, scattered", whole(16, true)),
    ]
    .map(of)
    .into()
}

/// Order-preserving compression.
fn compress_with(slots: usize) -> Vec<Subject> {
    let of = |(kind, arena): (&str, Arena)| Subject {
        kind: kind.to_string(),
        items: arena.links(),
        arena,
        call: Call::CompressWith(0, vec![0; 4 * slots]),
    };
    compressed_kinds(slots).into_iter().map(of).collect()
}

/// Canonical compression.
fn compress_canonical(slots: usize) -> Vec<Subject> {
    let of = |(kind, arena): (&str, Arena)| Subject {
        kind: kind.to_string(),
        items: arena.links(),
        arena,
        call: Call::CompressCanonical(0, vec![0; slots]),
    };
    let above = ("lone links above as many free slots", above_free(slots));
    compressed_kinds(slots).into_iter().chain([above]).map(of).collect()
}
