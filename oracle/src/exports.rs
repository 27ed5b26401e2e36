//! The same calls through the archives, word by word as they answer, for the archives that are linked.

use crate::{Archive, Arena, Call, Reply};

/// Makes an exported call on the words between `guard` words at each end of an arena's columns and header, and answers its
/// result.
macro_rules! result {
    ($call:ident($arena:expr, $guard:expr, $pointer:ident $(, $argument:expr)*)) => {
        // Safety: each pointer and count are those of one vector, less its guard words, and no two calls lend one vector.
        unsafe {
            chain_arena::ffi::$call(
                $arena.prev.$pointer().add($guard),
                $arena.prev.len() - 2 * $guard,
                $arena.next.$pointer().add($guard),
                $arena.next.len() - 2 * $guard,
                $arena.generation.$pointer().add($guard),
                $arena.generation.len() - 2 * $guard,
                $arena.payload.$pointer().add($guard),
                $arena.payload.len() - 2 * $guard,
                $arena.header.$pointer().add($guard),
                $arena.header.len() - 2 * $guard,
                $($argument),*
            )
        }
    };
}

/// The same of a call on an arena, with the named further words of its result.
macro_rules! call {
    ($call:ident($($lent:tt)*) $($word:ident)*) => {{
        let answer = result!($call($($lent)*));
        Reply { broken: answer.broken, side: answer.side, ..Reply::new(answer.number, &[$(answer.$word),*]) }
    }};
}

/// Makes one call through the archive that exports it, or none if it is not linked.
pub fn perform(a: &mut Arena, call: &mut Call) -> Option<Reply> {
    perform_between(a, call, 0)
}

/// The same where every vector of the arena and of the call has so many guard words at each end, which are not lent.
pub fn perform_between(a: &mut Arena, call: &mut Call, guard: usize) -> Option<Reply> {
    match call.archive() {
        Archive::LevelOne => level_one(a, call, guard),
        Archive::LevelTwo => level_two(a, call, guard),
        Archive::LevelThree => level_three(a, call, guard),
        Archive::SmallArenas => small_arenas(a, call, guard),
    }
}

/// The exported check.
pub fn check(a: &Arena) -> Reply {
    call!(chain_arena_check(a, 0, as_ptr))
}

/// The calls of Level One.
#[rustfmt::skip]
fn level_one(a: &Arena, call: &mut Call, guard: usize) -> Option<Reply> {
    Some(match call {
        Call::Check => call!(chain_arena_check(a, guard, as_ptr)),
        Call::GetLink(p) => {
            call!(chain_arena_get_link(a, guard, as_ptr, p.slot, p.generation) prev prev_generation next next_generation payload)
        }
        Call::GetLinkNoGen(p) => {
            call!(chain_arena_get_link_no_gen(a, guard, as_ptr, p.slot, p.generation) prev next payload)
        }
        Call::AreNeighbors(p, q) => {
            call!(chain_arena_are_neighbors(a, guard, as_ptr, p.slot, p.generation, q.slot, q.generation) yes)
        }
        Call::WalkStart(p) => {
            call!(chain_arena_walk_start(a, guard, as_ptr, p.slot, p.generation) start position direction left)
        }
        Call::WalkStep(walk) => {
            call!(chain_arena_walk_step(a, guard, as_ptr, walk.start, walk.position, walk.direction, walk.left)
                slot generation start position direction left)
        }
        Call::LineOfDot(dot) => {
            // Safety: a number goes in, numbers come back.
            let answer = unsafe { chain_arena::ffi::chain_arena_line_of_dot(*dot) };
            Reply::new(answer.number, &[answer.line])
        }
        Call::LineDots(line) => {
            // Safety: as above.
            let answer = unsafe { chain_arena::ffi::chain_arena_line_dots(*line) };
            Reply::new(answer.number, &[answer.first, answer.last])
        }
        Call::DueCount(p, from, to) => {
            call!(chain_arena_due_count(a, guard, as_ptr, p.slot, p.generation, *from, *to) count)
        }
        Call::DueEvents(p, from, to, report) => {
            call!(chain_arena_due_events(a, guard, as_ptr, p.slot, p.generation, *from, *to, report.as_mut_ptr().add(guard),
                report.len() - 2 * guard) count)
        }
        _ => return None,
    })
}

/// The calls of Level Two.
#[cfg(level_two)]
#[rustfmt::skip]
fn level_two(a: &mut Arena, call: &mut Call, guard: usize) -> Option<Reply> {
    Some(match call {
        Call::Connect(p, q) => {
            call!(chain_arena_connect(a, guard, as_mut_ptr, p.slot, p.generation, q.slot, q.generation))
        }
        Call::BreakPrev(p) => call!(chain_arena_break_prev(a, guard, as_mut_ptr, p.slot, p.generation)),
        Call::BreakNext(p) => call!(chain_arena_break_next(a, guard, as_mut_ptr, p.slot, p.generation)),
        Call::ExchangeNext(p, q) => {
            call!(chain_arena_exchange_next(a, guard, as_mut_ptr, p.slot, p.generation, q.slot, q.generation))
        }
        Call::Insert(kind, p, q, payload) => {
            call!(chain_arena_insert(a, guard, as_mut_ptr, *kind, p.slot, p.generation, q.slot, q.generation, *payload)
                slot generation)
        }
        Call::Remove(p) => call!(chain_arena_remove(a, guard, as_mut_ptr, p.slot, p.generation) prev next payload),
        Call::Drain(p, report) => {
            call!(chain_arena_drain(a, guard, as_mut_ptr, p.slot, p.generation, report.as_mut_ptr().add(guard),
                report.len() - 2 * guard) items overflowed)
        }
        Call::SetGeneration(to) => call!(chain_arena_set_generation(a, guard, as_mut_ptr, *to)),
        Call::IncGeneration => call!(chain_arena_inc_generation(a, guard, as_mut_ptr)),
        Call::CanonicalizeFreelist => call!(chain_arena_canonicalize_freelist(a, guard, as_mut_ptr)),
        Call::Run(commands, answers) => {
            call!(chain_arena_run(a, guard, as_mut_ptr, commands.as_ptr().add(guard), commands.len() - 2 * guard,
                answers.as_mut_ptr().add(guard), answers.len() - 2 * guard))
        }
        _ => return None,
    })
}

/// Level Two is not linked.
#[cfg(not(level_two))]
fn level_two(_: &mut Arena, _: &mut Call, _: usize) -> Option<Reply> {
    None
}

/// The calls of Level Three.
#[cfg(level_three)]
#[rustfmt::skip]
fn level_three(a: &mut Arena, call: &mut Call, guard: usize) -> Option<Reply> {
    Some(match call {
        Call::CompressWith(reset, report) => {
            call!(chain_arena_compress_with(a, guard, as_mut_ptr, *reset, report.as_mut_ptr().add(guard), report.len() - 2 * guard))
        }
        Call::CompressCanonical(reset, from) => {
            call!(chain_arena_compress_canonical(a, guard, as_mut_ptr, *reset, from.as_mut_ptr().add(guard), from.len() - 2 * guard))
        }
        _ => return None,
    })
}

/// Level Three is not linked.
#[cfg(not(level_three))]
fn level_three(_: &mut Arena, _: &mut Call, _: usize) -> Option<Reply> {
    None
}

/// The call of the small arenas.
#[cfg(small_arenas)]
fn small_arenas(a: &mut Arena, call: &Call, guard: usize) -> Option<Reply> {
    let Call::SmallArena(index) = call else {
        return None;
    };
    let answer = result!(chain_arena_small_arena(a, guard, as_mut_ptr, *index));
    Some(Reply::new(answer.number, &[answer.found, answer.length]))
}

/// The small arenas are not linked.
#[cfg(not(small_arenas))]
fn small_arenas(_: &mut Arena, _: &Call, _: usize) -> Option<Reply> {
    None
}
