//! The same calls through the safe wrapper, its answers turned back into words.

use chain_arena::{Dot, Line, Link, LinkNoGen, Refusal, Window};

use crate::{Archive, Arena, Call, Ptr, Reading, Reply, Walk};
#[cfg(level_two)]
use crate::{COMMAND_WORDS, kind};

/// The two words of a pointer, 0 and 0 for none.
fn pointer_words(p: Option<Ptr>) -> [u32; 2] {
    p.map_or([0, 0], |p| [p.slot, p.generation])
}

/// The words of a link.
fn link_words(link: Link) -> Vec<u32> {
    let [prev, prev_generation] = pointer_words(link.prev);
    let [next, next_generation] = pointer_words(link.next);
    vec![prev, prev_generation, next, next_generation, link.payload]
}

/// The words of a link without its neighbours' generations.
fn no_gen_words(link: LinkNoGen) -> Vec<u32> {
    vec![link.prev.unwrap_or(0), link.next.unwrap_or(0), link.payload]
}

/// The reply that an answer stands for, where done it is a number with words.
fn reply(answer: Result<(u32, Vec<u32>), Refusal>) -> Reply {
    match answer {
        Ok((number, words)) => Reply::new(number, &words),
        Err(refusal) => {
            let broken = refusal.slot().unwrap_or(0);
            let side = refusal.side().map_or(0, |side| side as u32);
            Reply { broken, side, ..Reply::number(refusal.number()) }
        }
    }
}

/// Makes one call through the wrapper, or none if its archive is not linked or it has no name for a kind of insertion or for a
/// window.
pub fn perform(a: &mut Arena, call: &mut Call) -> Option<Reply> {
    match call.archive() {
        Archive::LevelOne => level_one(a, call),
        Archive::LevelTwo => level_two(a, call),
        Archive::LevelThree => level_three(a, call),
        Archive::SmallArenas => small_arenas(a, call),
    }
}

/// The calls of Level One.
fn level_one(a: &Arena, call: &mut Call) -> Option<Reply> {
    let arena = a.as_arena();
    Some(match call {
        Call::Check => reply(arena.check().map(|()| (0, vec![]))),
        Call::GetLink(p) => reply(arena.get_link(*p).map(|link| (0, link_words(link)))),
        Call::GetLinkNoGen(p) => reply(arena.get_link_no_gen(*p).map(|link| (0, no_gen_words(link)))),
        Call::AreNeighbors(p, q) => reply(arena.are_neighbors(*p, *q).map(|yes| (0, vec![yes.into()]))),
        Call::WalkStart(p) => reply(
            arena.walk_start(*p).map(|walk| (0, vec![walk.start, walk.position, walk.direction, walk.left])),
        ),
        Call::WalkStep(walk) => walk_step(&arena, *walk),
        Call::LineOfDot(dot) => {
            assert_eq!(Dot::new(*dot), Dot::try_from(*dot).ok());
            reply(Dot::try_from(*dot).map(|dot| (0, vec![dot.line().get()])))
        }
        Call::LineDots(line) => {
            assert_eq!(Line::new(*line), Line::try_from(*line).ok());
            reply(Line::try_from(*line).map(|line| (0, vec![line.first().get(), line.last().get()])))
        }
        Call::DueCount(p, from, to) => {
            let window = Window::of(*from, *to)?;
            reply(arena.due_count(*p, window).map(|count| (0, vec![count as u32])))
        }
        Call::DueEvents(p, from, to, report) => {
            let window = Window::of(*from, *to)?;
            reply(arena.due_events(*p, window, report).map(|due| {
                assert!(due.events().all(|event| window.contains(event.dot)));
                assert!(
                    due.events().map(|event| event.ptr).eq(due.slots().iter().map(|&s| a.ptr(s as usize)))
                );
                (0, vec![due.slots().len() as u32])
            }))
        }
        _ => return None,
    })
}

/// A step; also a refused one hands back its state.
fn walk_step(arena: &chain_arena::Arena<'_>, walk: Walk) -> Reply {
    let mut state = walk;
    let answer = state.step(arena);
    let mut reply = reply(answer.map(|p| (0, pointer_words(p).to_vec())));
    reply.words[2..].copy_from_slice(&[state.start, state.position, state.direction, state.left]);
    reply
}

/// The number of a call that was done.
#[cfg(any(level_two, level_three))]
fn number(overflowed: bool) -> u32 {
    if overflowed { 100 } else { 0 }
}

/// The calls of Level Two.
#[cfg(level_two)]
fn level_two(a: &mut Arena, call: &mut Call) -> Option<Reply> {
    let mut arena = a.as_arena_mut();
    let plain = |answer: Result<(), Refusal>| reply(answer.map(|()| (0, vec![])));
    Some(match call {
        Call::Connect(p, q) => plain(arena.connect(*p, *q)),
        Call::BreakPrev(p) => plain(arena.break_prev(*p)),
        Call::BreakNext(p) => plain(arena.break_next(*p)),
        Call::ExchangeNext(p, q) => plain(arena.exchange_next(*p, *q)),
        Call::Insert(kind, p, q, payload) => {
            let kind = insert_kind(*kind, *p, *q)?;
            reply(arena.insert(kind, *payload).map(|p| (0, pointer_words(Some(p)).to_vec())))
        }
        Call::Remove(p) => {
            reply(arena.remove(*p).map(|removed| (number(removed.overflowed), no_gen_words(removed.link))))
        }
        Call::Drain(p, report) => reply(arena.drain(*p, report).map(|drained| {
            assert_eq!(drained.links().count(), drained.report.len());
            for (item, words) in drained.links().zip(drained.report) {
                let [slot, generation] = pointer_words(Some(item.ptr));
                let link = no_gen_words(item.link);
                assert_eq!(*words, [slot, generation, link[0], link[1], link[2]]);
            }
            (0, vec![drained.report.len() as u32, drained.overflowed_at.map_or(0, |place| place as u32 + 1)])
        })),
        Call::SetGeneration(to) => plain(arena.set_generation(*to)),
        Call::IncGeneration => reply(arena.inc_generation().map(|done| (number(done.overflowed), vec![]))),
        Call::CanonicalizeFreelist => plain(arena.canonicalize_freelist()),
        Call::Run(commands, answers) => plain(run(&mut arena, commands, answers)),
        _ => return None,
    })
}

/// A run that is built where its words are commands and have room for their answers, else one of words.
#[cfg(level_two)]
fn run(arena: &mut chain_arena::ArenaMut<'_>, words: &[u32], answers: &mut [u32]) -> Result<(), Refusal> {
    let (commands, rest) = words.as_chunks();
    let Some(typed) = commands.iter().map(command).collect::<Option<Vec<_>>>() else {
        return arena.run_words(words, answers);
    };
    if !rest.is_empty() || answers.len() < typed.len() {
        return arena.run_words(words, answers);
    }
    let mut room = vec![[0; chain_arena::Command::WORDS]; typed.len()];
    let mut run = chain_arena::Run::new(&mut room, answers);
    for &command in &typed {
        run.push(command).expect("there is room for every command");
    }
    let found: Vec<chain_arena::Answer> = arena.run(&mut run)?.collect();
    assert!(found.iter().map(|answer| answer.command).eq(typed));
    for (answer, &word) in found.iter().zip(&*answers) {
        assert_eq!(answer.result.map_or_else(Refusal::number, |done| number(done.overflowed)), word);
    }
    Ok(())
}

/// The command of these words, none if they are no command. Words that a command ignores are not kept.
#[cfg(level_two)]
fn command(words: &[u32; COMMAND_WORDS]) -> Option<chain_arena::Command> {
    use chain_arena::Command;
    let &[code, p, p_generation, q, q_generation, payload] = words;
    let p = Ptr { slot: p, generation: p_generation };
    let q = Ptr { slot: q, generation: q_generation };
    Some(match code {
        1 => Command::Connect(p, q),
        2 => Command::BreakPrev(p),
        3 => Command::BreakNext(p),
        4 => Command::ExchangeNext(p, q),
        5 => Command::Remove(p),
        kind => Command::Insert(insert_kind(kind, p, q)?, payload),
    })
}

/// The wrapper's name for a kind of insertion with its pointers, none if there is no such kind.
#[cfg(level_two)]
fn insert_kind(kind: u32, p: Ptr, q: Ptr) -> Option<chain_arena::LinkInsertKind> {
    use chain_arena::LinkInsertKind;
    Some(match kind {
        kind::DISCONNECTED => LinkInsertKind::Disconnected,
        kind::SINGLE_LINK_CYCLIC => LinkInsertKind::SingleLinkCyclic,
        kind::CHAIN_END => LinkInsertKind::ChainEnd(p),
        kind::CHAIN_END_INX => LinkInsertKind::ChainEndInx(p.slot),
        kind::CHAIN_START => LinkInsertKind::ChainStart(p),
        kind::CHAIN_START_INX => LinkInsertKind::ChainStartInx(p.slot),
        kind::NEXT_TO => LinkInsertKind::NextTo(p),
        kind::NEXT_TO_INX => LinkInsertKind::NextToInx(p.slot),
        kind::PREV_TO => LinkInsertKind::PrevTo(p),
        kind::PREV_TO_INX => LinkInsertKind::PrevToInx(p.slot),
        kind::AT_INTERLINK => LinkInsertKind::AtInterlink { next_to: p, prev_to: q },
        kind::AT_INTERLINK_INX => LinkInsertKind::AtInterlinkInx { next_to: p.slot, prev_to: q.slot },
        kind::BRIDGE => LinkInsertKind::Bridge { end: p, start: q },
        kind::BRIDGE_INX => LinkInsertKind::BridgeInx { end: p.slot, start: q.slot },
        _ => return None,
    })
}

/// Level Two is not linked.
#[cfg(not(level_two))]
fn level_two(_: &mut Arena, _: &mut Call) -> Option<Reply> {
    None
}

/// The calls of Level Three.
#[cfg(level_three)]
fn level_three(a: &mut Arena, call: &mut Call) -> Option<Reply> {
    let mut arena = a.as_arena_mut();
    Some(match call {
        Call::CompressWith(reset, report) => {
            reply(arena.compress_with(new_generation(*reset), report).map(|compressed| {
                for (moved, words) in compressed.links().zip(compressed.report) {
                    let words_of = [moved.from, moved.to].map(|p| pointer_words(Some(p)));
                    assert_eq!(words_of.as_flattened(), words);
                }
                (number(compressed.overflowed), vec![])
            }))
        }
        Call::CompressCanonical(reset, from) => reply(
            arena
                .compress_canonical(new_generation(*reset), from)
                .map(|compressed| (number(compressed.overflowed), vec![])),
        ),
        _ => return None,
    })
}

/// What a reset word asks for.
#[cfg(level_three)]
fn new_generation(reset: u32) -> chain_arena::NewGeneration {
    if reset == 0 { chain_arena::NewGeneration::Next } else { chain_arena::NewGeneration::Reset }
}

/// Level Three is not linked.
#[cfg(not(level_three))]
fn level_three(_: &mut Arena, _: &mut Call) -> Option<Reply> {
    None
}

/// The call of the small arenas. What it lends on must be the first words of the columns, and the header.
#[cfg(small_arenas)]
fn small_arenas(a: &mut Arena, call: &Call) -> Option<Reply> {
    let Call::SmallArena(index) = call else {
        return None;
    };
    let given = a.as_arena_mut().small_arena(*index).map(|given| {
        given.map(|given| Arena {
            prev: given.prev.to_vec(),
            next: given.next.to_vec(),
            generation: given.generation.to_vec(),
            payload: given.payload.to_vec(),
            header: given.header.to_vec(),
        })
    });
    Some(reply(given.map(|given| match given {
        None => (0, vec![0, 0]),
        Some(given) => {
            let length = given.prev.len();
            assert_eq!(given, crate::cases::lent_on(a, length));
            (0, vec![1, length as u32])
        }
    })))
}

/// The small arenas are not linked.
#[cfg(not(small_arenas))]
fn small_arenas(_: &mut Arena, _: &Call) -> Option<Reply> {
    None
}
