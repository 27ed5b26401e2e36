//! The exported calls as the archives have them. A lent slice crosses as a pointer and an element count; an answer is a
//! struct by value. The same calls stand in include/chain_arena.h, and docs/REFERENCE.md is the manual of all of them.
//!
//! Every result begins with `number` (0: done, 100: done, and the generation overflowed, any other: refused, and why). Of a
//! call on an arena there follow `broken` (with 11 the lowest slot at which rule 11 fails, else 0) and `side` (with 11 where
//! it fails there, 1: at the prev, 2: at the next alone, else 0). `done` reads these. In a refusal every further field is 0;
//! only a step answers its state, as it got it.
//!
//! # Safety
//!
//! Each pointer must be aligned for its elements, good for as many of them as the count after it says, and not null even
//! where the count is 0; and no two slices of one call may overlap if the call writes to one of them. Nothing is asked of
//! the words themselves: every call ends and answers on any columns and any header.

use crate::{Done, Refusal};

/// The answer of a call that answers a number and nothing else.
#[repr(C)]
#[derive(Clone, Copy, Debug, PartialEq, Eq)]
pub struct PlainResult {
    pub number: u32,
    pub broken: u32,
    pub side: u32,
}

/// A link with its neighbours' generations; a neighbour that is not there has slot 0 and generation 0.
#[repr(C)]
#[derive(Clone, Copy, Debug, PartialEq, Eq)]
pub struct LinkResult {
    pub number: u32,
    pub broken: u32,
    pub side: u32,
    pub prev: u32,
    pub prev_generation: u32,
    pub next: u32,
    pub next_generation: u32,
    pub payload: u32,
}

/// A link, as it is or as it was before it was removed; slot 0 where there is no neighbour.
#[repr(C)]
#[derive(Clone, Copy, Debug, PartialEq, Eq)]
pub struct LinkNoGenResult {
    pub number: u32,
    pub broken: u32,
    pub side: u32,
    pub prev: u32,
    pub next: u32,
    pub payload: u32,
}

/// Whether two links are neighbours: 1 or 0.
#[repr(C)]
#[derive(Clone, Copy, Debug, PartialEq, Eq)]
pub struct NeighborsResult {
    pub number: u32,
    pub broken: u32,
    pub side: u32,
    pub yes: u32,
}

/// The state of a walk that was started.
#[repr(C)]
#[derive(Clone, Copy, Debug, PartialEq, Eq)]
pub struct WalkResult {
    pub number: u32,
    pub broken: u32,
    pub side: u32,
    pub start: u32,
    pub position: u32,
    pub direction: u32,
    pub left: u32,
}

/// What a step answers, slot 0 and generation 0 for none, and the state after it.
#[repr(C)]
#[derive(Clone, Copy, Debug, PartialEq, Eq)]
pub struct StepResult {
    pub number: u32,
    pub broken: u32,
    pub side: u32,
    pub slot: u32,
    pub generation: u32,
    pub start: u32,
    pub position: u32,
    pub direction: u32,
    pub left: u32,
}

/// How many links a drain removed, and which of them, counted from 1, made the generation overflow; 0 if none did.
#[repr(C)]
#[derive(Clone, Copy, Debug, PartialEq, Eq)]
pub struct DrainResult {
    pub number: u32,
    pub broken: u32,
    pub side: u32,
    pub items: u32,
    pub overflowed: u32,
}

/// The pointer of a link that was inserted.
#[repr(C)]
#[derive(Clone, Copy, Debug, PartialEq, Eq)]
pub struct InsertResult {
    pub number: u32,
    pub broken: u32,
    pub side: u32,
    pub slot: u32,
    pub generation: u32,
}

/// The line of a dot.
#[repr(C)]
#[derive(Clone, Copy, Debug, PartialEq, Eq)]
pub struct LineResult {
    pub number: u32,
    pub line: u32,
}

/// The first and the last dot of a line.
#[repr(C)]
#[derive(Clone, Copy, Debug, PartialEq, Eq)]
pub struct LineDotsResult {
    pub number: u32,
    pub first: u32,
    pub last: u32,
}

/// How many links of a chain are due.
#[repr(C)]
#[derive(Clone, Copy, Debug, PartialEq, Eq)]
pub struct DueResult {
    pub number: u32,
    pub broken: u32,
    pub side: u32,
    pub count: u32,
}

/// Whether there is a small arena of the index, 1 or 0, and its stack length: how many words of each column are its own.
#[repr(C)]
#[derive(Clone, Copy, Debug, PartialEq, Eq)]
pub struct SmallArenaResult {
    pub number: u32,
    pub found: u32,
    pub length: u32,
}

/// Gives each result what its first words stand for, taken by their names: the results of calls on an arena, then those of
/// calls that check none.
macro_rules! done {
    ($($result:ident)*; $($bare:ident)*) => {
        $(impl $result {
            /// That the call was done, or its refusal, as `number`, `broken` and `side` tell it.
            ///
            /// # Errors
            ///
            /// The refusal, where the number is neither 0 nor 100.
            pub const fn done(self) -> Result<Done, Refusal> {
                Done::of(self.number, self.broken, self.side)
            }
        })*
        $(impl $bare {
            /// That the call was done, or its refusal, as `number` tells it.
            ///
            /// # Errors
            ///
            /// The refusal, where the number is neither 0 nor 100.
            pub const fn done(self) -> Result<Done, Refusal> {
                Done::of(self.number, 0, 0)
            }
        })*
    };
}

done! {
    PlainResult LinkResult LinkNoGenResult NeighborsResult WalkResult StepResult DrainResult InsertResult DueResult;
    LineResult LineDotsResult SmallArenaResult
}

// Level One
#[cfg(feature = "level-one")]
#[rustfmt::skip]
unsafe extern "C" {
    /// Whether the arena can be worked with: 0, else the first rule that fails, 1 to 11. Every other call on an arena begins with it.
    pub fn chain_arena_check(
        prev: *const u32, prev_len: usize, next: *const u32, next_len: usize,
        generation: *const u32, generation_len: usize, payload: *const u32, payload_len: usize,
        header: *const u32, header_len: usize,
    ) -> PlainResult;

    /// The link at p and its neighbours with their generations. 12: p is stale.
    pub fn chain_arena_get_link(
        prev: *const u32, prev_len: usize, next: *const u32, next_len: usize,
        generation: *const u32, generation_len: usize, payload: *const u32, payload_len: usize,
        header: *const u32, header_len: usize,
        p_slot: u32, p_generation: u32,
    ) -> LinkResult;

    /// The link at p. 12: p is stale.
    pub fn chain_arena_get_link_no_gen(
        prev: *const u32, prev_len: usize, next: *const u32, next_len: usize,
        generation: *const u32, generation_len: usize, payload: *const u32, payload_len: usize,
        header: *const u32, header_len: usize,
        p_slot: u32, p_generation: u32,
    ) -> LinkNoGenResult;

    /// Whether the next of p_prev is p_next; 0 if one of them is stale.
    pub fn chain_arena_are_neighbors(
        prev: *const u32, prev_len: usize, next: *const u32, next_len: usize,
        generation: *const u32, generation_len: usize, payload: *const u32, payload_len: usize,
        header: *const u32, header_len: usize,
        p_prev_slot: u32, p_prev_generation: u32, p_next_slot: u32, p_next_generation: u32,
    ) -> NeighborsResult;

    /// A walk that begins at p. 12: p is stale.
    pub fn chain_arena_walk_start(
        prev: *const u32, prev_len: usize, next: *const u32, next_len: usize,
        generation: *const u32, generation_len: usize, payload: *const u32, payload_len: usize,
        header: *const u32, header_len: usize,
        p_slot: u32, p_generation: u32,
    ) -> WalkResult;

    /// One step of a walk in any state; direction 0 is along next, any other word along prev.
    pub fn chain_arena_walk_step(
        prev: *const u32, prev_len: usize, next: *const u32, next_len: usize,
        generation: *const u32, generation_len: usize, payload: *const u32, payload_len: usize,
        header: *const u32, header_len: usize,
        start: u32, position: u32, direction: u32, left: u32,
    ) -> StepResult;

    /// The line of a dot of the frame. 19: the frame has no such dot.
    pub fn chain_arena_line_of_dot(dot: u32) -> LineResult;

    /// The first and the last dot of a line of the frame. 19: the frame has no such line.
    pub fn chain_arena_line_dots(line: u32) -> LineDotsResult;

    /// How many links of p's chain are due, that is have a payload in the window from `from` up to, but not including, `to`. 12: p
    /// is stale; 19: the frame has no such window.
    pub fn chain_arena_due_count(
        prev: *const u32, prev_len: usize, next: *const u32, next_len: usize,
        generation: *const u32, generation_len: usize, payload: *const u32, payload_len: usize,
        header: *const u32, header_len: usize,
        p_slot: u32, p_generation: u32, from: u32, to: u32,
    ) -> DueResult;

    /// Writes the slots of those links into the report, in the order of a walk from p, and answers how many they are. 12: p is
    /// stale; 19: the frame has no such window; 14: the report has fewer words than the chain has links.
    pub fn chain_arena_due_events(
        prev: *const u32, prev_len: usize, next: *const u32, next_len: usize,
        generation: *const u32, generation_len: usize, payload: *const u32, payload_len: usize,
        header: *const u32, header_len: usize,
        p_slot: u32, p_generation: u32, from: u32, to: u32, report: *mut u32, report_len: usize,
    ) -> DueResult;
}

// Level Two
#[cfg(feature = "level-two")]
#[rustfmt::skip]
unsafe extern "C" {
    /// Makes p_next the next of p_prev. 12, 13: p_prev is stale, or has a next; then p_next is stale, or has a prev.
    pub fn chain_arena_connect(
        prev: *mut u32, prev_len: usize, next: *mut u32, next_len: usize,
        generation: *const u32, generation_len: usize, payload: *const u32, payload_len: usize,
        header: *const u32, header_len: usize,
        p_prev_slot: u32, p_prev_generation: u32, p_next_slot: u32, p_next_generation: u32,
    ) -> PlainResult;

    /// Parts the link at p from the one before it. 12: p is stale; 13: there is none.
    pub fn chain_arena_break_prev(
        prev: *mut u32, prev_len: usize, next: *mut u32, next_len: usize,
        generation: *const u32, generation_len: usize, payload: *const u32, payload_len: usize,
        header: *const u32, header_len: usize,
        p_slot: u32, p_generation: u32,
    ) -> PlainResult;

    /// Parts the link at p from the one after it. 12: p is stale; 13: there is none.
    pub fn chain_arena_break_next(
        prev: *mut u32, prev_len: usize, next: *mut u32, next_len: usize,
        generation: *const u32, generation_len: usize, payload: *const u32, payload_len: usize,
        header: *const u32, header_len: usize,
        p_slot: u32, p_generation: u32,
    ) -> PlainResult;

    /// Gives each of the links at p0 and p1 the other one's next. 12: one is stale; 13: one has no next.
    pub fn chain_arena_exchange_next(
        prev: *mut u32, prev_len: usize, next: *mut u32, next_len: usize,
        generation: *const u32, generation_len: usize, payload: *const u32, payload_len: usize,
        header: *const u32, header_len: usize,
        p0_slot: u32, p0_generation: u32, p1_slot: u32, p1_generation: u32,
    ) -> PlainResult;

    /// Inserts a link with a payload where the kind says, 6 to 19, and answers its pointer. p and q are what the kind names: both,
    /// p alone, or none; the generations are read by kinds that name pointers. 16: there is no such kind; 17: what it asks does
    /// not hold; 18: there is no room.
    pub fn chain_arena_insert(
        prev: *mut u32, prev_len: usize, next: *mut u32, next_len: usize,
        generation: *mut u32, generation_len: usize, payload: *mut u32, payload_len: usize,
        header: *mut u32, header_len: usize,
        kind: u32, p_slot: u32, p_generation: u32, q_slot: u32, q_generation: u32, new_payload: u32,
    ) -> InsertResult;

    /// Takes the link at p out, joins its neighbours and answers what it was. 12: p is stale.
    pub fn chain_arena_remove(
        prev: *mut u32, prev_len: usize, next: *mut u32, next_len: usize,
        generation: *mut u32, generation_len: usize, payload: *mut u32, payload_len: usize,
        header: *mut u32, header_len: usize,
        p_slot: u32, p_generation: u32,
    ) -> LinkNoGenResult;

    /// Removes all links of p's chain in the order of a walk from p; five words of the report for each: slot, generation,
    /// prev and next when its turn comes, payload. 12: p is stale; 14: the report is too short.
    pub fn chain_arena_drain(
        prev: *mut u32, prev_len: usize, next: *mut u32, next_len: usize,
        generation: *mut u32, generation_len: usize, payload: *mut u32, payload_len: usize,
        header: *mut u32, header_len: usize,
        p_slot: u32, p_generation: u32, report: *mut u32, report_len: usize,
    ) -> DrainResult;

    /// Sets the current generation. 15: it was to be 0 or 1.
    pub fn chain_arena_set_generation(
        prev: *const u32, prev_len: usize, next: *const u32, next_len: usize,
        generation: *const u32, generation_len: usize, payload: *const u32, payload_len: usize,
        header: *mut u32, header_len: usize,
        new_generation: u32,
    ) -> PlainResult;

    /// Raises the current generation.
    pub fn chain_arena_inc_generation(
        prev: *const u32, prev_len: usize, next: *const u32, next_len: usize,
        generation: *const u32, generation_len: usize, payload: *const u32, payload_len: usize,
        header: *mut u32, header_len: usize,
    ) -> PlainResult;

    /// Pops the free slots above the highest link and links the others in rising order from the root on.
    pub fn chain_arena_canonicalize_freelist(
        prev: *mut u32, prev_len: usize, next: *mut u32, next_len: usize,
        generation: *mut u32, generation_len: usize, payload: *mut u32, payload_len: usize,
        header: *mut u32, header_len: usize,
    ) -> PlainResult;

    /// Applies commands of six words each (a code, slot and generation of two pointers, a payload) and writes an answer for
    /// each. 16: the number of command words is not divisible by six; 14: there are more commands than answer words.
    pub fn chain_arena_run(
        prev: *mut u32, prev_len: usize, next: *mut u32, next_len: usize,
        generation: *mut u32, generation_len: usize, payload: *mut u32, payload_len: usize,
        header: *mut u32, header_len: usize,
        commands: *const u32, commands_len: usize, answers: *mut u32, answers_len: usize,
    ) -> PlainResult;
}

// Level Three
#[cfg(feature = "level-three")]
#[rustfmt::skip]
unsafe extern "C" {
    /// Moves the links into the first slots and keeps their order; four words of the report for each: slot and generation
    /// before, slot and generation afterwards. Any reset but 0 makes the generation 2. 14: the report is too short.
    pub fn chain_arena_compress_with(
        prev: *mut u32, prev_len: usize, next: *mut u32, next_len: usize,
        generation: *mut u32, generation_len: usize, payload: *mut u32, payload_len: usize,
        header: *mut u32, header_len: usize,
        reset: u32, report: *mut u32, report_len: usize,
    ) -> PlainResult;

    /// Lays the chains out from slot 1 on, one behind the other, and writes down which slot each link had before. Any reset
    /// but 0 makes the generation 2. 14: the where-from column has not the columns' length.
    pub fn chain_arena_compress_canonical(
        prev: *mut u32, prev_len: usize, next: *mut u32, next_len: usize,
        generation: *mut u32, generation_len: usize, payload: *mut u32, payload_len: usize,
        header: *mut u32, header_len: usize,
        reset: u32, where_from: *mut u32, where_from_len: usize,
    ) -> PlainResult;
}

// Small arenas
#[cfg(feature = "small-arenas")]
#[rustfmt::skip]
unsafe extern "C" {
    /// Writes the small arena of an index into the header and into the first words of each column, as many as its length says;
    /// these are lent on. Further words stay. Past the last small arena found is 0 and nothing is written. No word is looked at,
    /// only lengths. 1: two columns differ in length or are too long, or the header has not four words; 14: there is such an
    /// arena, and the columns are shorter than its length.
    pub fn chain_arena_small_arena(
        prev: *mut u32, prev_len: usize, next: *mut u32, next_len: usize,
        generation: *mut u32, generation_len: usize, payload: *mut u32, payload_len: usize,
        header: *mut u32, header_len: usize,
        index: u32,
    ) -> SmallArenaResult;
}
