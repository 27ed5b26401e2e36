//! The safe wrapper: answers, refusals by name and in words, the walk, the checked view, edits and compressions.

#[cfg(any(feature = "level-one", feature = "level-two", feature = "level-three"))]
use chain_arena::Ptr;
use chain_arena::ffi::PlainResult;
use chain_arena::{Arena, Done, OwnedArena, Refusal, RefusalKind, Side, Slot};

/// The pointer to a slot at generation 5.
#[cfg(any(feature = "level-one", feature = "level-two", feature = "level-three"))]
pub fn p(slot: Slot) -> Ptr {
    Ptr { slot, generation: 5 }
}

/// A pointer that names no link of the sample.
#[cfg(any(feature = "level-one", feature = "level-two"))]
const STALE: Ptr = Ptr { slot: 1, generation: 4 };

/// 1 -> 5, the closed 2 -> 4 -> (2), and the free slot 3.
pub fn sample() -> OwnedArena {
    OwnedArena {
        prev: vec![0, 4, 0, 2, 1],
        next: vec![5, 4, 3, 2, 0],
        generation: vec![5, 5, 0, 5, 5],
        payload: vec![10, 20, 30, 40, 50],
        header: vec![5, 4, 3, 5],
    }
}

/// Arenas that the check refuses with each number below 11.
fn refused_below_11() -> Vec<(u32, OwnedArena)> {
    let changed = |change: fn(&mut OwnedArena)| {
        let mut columns = sample();
        change(&mut columns);
        columns
    };
    // slot 5 is free too, and slot 1 is lone
    fn two_free(a: &mut OwnedArena) {
        (a.generation[4], a.next[0], a.header[1]) = (0, 0, 3);
    }
    vec![
        (1, changed(|a| a.header.push(0))),
        (1, changed(|a| a.payload.truncate(4))),
        (1, OwnedArena::empty(Arena::CAPACITY_LIMIT + 1)),
        (2, changed(|a| a.header[3] = 1)),
        (3, changed(|a| a.header[0] = 6)),
        (4, changed(|a| a.header[1] = 5)),
        (5, changed(|a| a.header[2] = 0)),
        (6, changed(|a| a.next[2] = 0)),
        (7, changed(|a| a.header[2] = 6)),
        (8, changed(|a| a.header[2] = 1)),
        (
            9,
            changed(|a| {
                two_free(a);
                (a.next[2], a.next[4]) = (5, 3);
            }),
        ),
        (10, changed(two_free)),
    ]
}

/// Arenas that the check refuses with 11, with the lowest slot at which that rule fails and the side.
pub fn broken() -> Vec<(OwnedArena, Slot, Side)> {
    // The lone links 1 and 5, the closed 2 -> 4 -> (2) and the free slot 3, with some words of prev and of next changed. The
    // free slot and the one above the stack name slot 5 as far as they can.
    let changed = |prev: &[(usize, Slot)], next: &[(usize, Slot)]| {
        let mut columns = OwnedArena {
            prev: vec![0, 4, 5, 2, 0, 5],
            next: vec![0, 4, 3, 2, 0, 5],
            generation: vec![5, 5, 0, 5, 5, 5],
            payload: vec![10, 20, 30, 40, 50, 60],
            header: vec![5, 4, 3, 5],
        };
        prev.iter().for_each(|&(slot, word)| columns.prev[slot - 1] = word);
        next.iter().for_each(|&(slot, word)| columns.next[slot - 1] = word);
        columns
    };
    let mut broken = vec![
        // slot 5 names itself on one side alone
        (changed(&[(5, 5)], &[]), 5, Side::Prev),
        (changed(&[], &[(5, 5)]), 5, Side::Next),
        // slot 2 or slot 4 has lost a neighbour
        (changed(&[(2, 0)], &[]), 4, Side::Next),
        (changed(&[(4, 0)], &[]), 2, Side::Next),
        (changed(&[], &[(2, 0)]), 4, Side::Prev),
        (changed(&[], &[(4, 0)]), 2, Side::Prev),
        // two slots or more, at these sides
        (changed(&[(1, 6), (5, 6)], &[]), 1, Side::Prev),
        (changed(&[(1, 6)], &[(5, 6)]), 1, Side::Prev),
        (changed(&[(5, 6)], &[(1, 6)]), 1, Side::Next),
        (changed(&[], &[(1, 6), (5, 6)]), 1, Side::Next),
        (changed(&[(4, 6), (5, 6)], &[(5, 6)]), 2, Side::Next),
        (changed(&[(5, 6)], &[(4, 6), (5, 6)]), 2, Side::Prev),
    ];
    // above the stack, where a link seems to be and past the columns; free; a link that has no neighbour there, or another
    for wrong in [6, 7, Slot::MAX, 3, 1, 2] {
        broken.push((changed(&[(5, wrong)], &[]), 5, Side::Prev));
        broken.push((changed(&[], &[(5, wrong)]), 5, Side::Next));
        broken.push((changed(&[(5, wrong)], &[(5, wrong)]), 5, Side::Prev));
    }
    broken
}

/// The slots of a chain in the order of a walk from a slot, followed by hand.
#[cfg(any(feature = "level-one", feature = "level-two", feature = "level-three"))]
fn walked(arena: &OwnedArena, slot: Slot) -> Vec<Slot> {
    let follow = |column: &[Slot], from: Slot| {
        let onward = |&at: &Slot| Some(column[at as usize - 1]).filter(|&to| to != 0 && to != slot);
        std::iter::successors(Some(from), onward).collect::<Vec<Slot>>()
    };
    let mut slots = follow(&arena.next, slot);
    let closed = arena.next[slots[slots.len() - 1] as usize - 1] == slot;
    if !closed {
        slots.extend(&follow(&arena.prev, slot)[1..]);
    }
    slots
}

#[test]
fn an_owned_arena_begins_empty() {
    let empty = OwnedArena::empty(3);
    assert_eq!((empty.prev.as_slice(), empty.next.as_slice()), (&[0; 3][..], &[0; 3][..]));
    assert_eq!((empty.generation.as_slice(), empty.payload.as_slice()), (&[0; 3][..], &[0; 3][..]));
    assert_eq!(empty.header, [0, 0, 0, 2]);
    assert_eq!(OwnedArena::default(), OwnedArena::empty(0));
    for longest in 0..4 {
        let mut uneven = OwnedArena::empty(2);
        [&mut uneven.prev, &mut uneven.next].into_iter().enumerate().for_each(|(k, column)| {
            column.resize(if k == longest { 7 } else { 2 }, 0);
        });
        [&mut uneven.generation, &mut uneven.payload].into_iter().enumerate().for_each(|(k, column)| {
            column.resize(if k + 2 == longest { 7 } else { 2 }, 0);
        });
        assert_eq!(uneven.capacity(), 7);
    }
}

#[test]
fn an_owned_arena_has_the_words_of_a_lent_one() {
    let uneven = OwnedArena {
        prev: vec![1, 2],
        next: vec![3],
        generation: vec![],
        payload: vec![4, 5, 6],
        header: vec![7, 8, 9, 10, 11],
    };
    for arena in [OwnedArena::default(), sample(), uneven] {
        let mut owned = OwnedArena::from(arena.as_arena());
        assert_eq!(owned, arena);
        assert_eq!(OwnedArena::from(owned.as_arena_mut().as_arena()), arena);
        owned.header[0] += 1;
        assert_ne!(owned, arena, "words of its own");
    }
}

#[test]
fn every_number_has_its_name_and_words() {
    let mut seen = Vec::new();
    for (number, &kind) in (1..).zip(RefusalKind::ALL) {
        assert_eq!((RefusalKind::of(number), kind as u32), (kind, number));
        let refusal = PlainResult { number, broken: 7, side: 2 }.done().unwrap_err();
        assert_eq!((refusal.kind(), refusal.number()), (kind, number));
        let place = (kind == RefusalKind::BrokenLink).then_some((7, Side::Next));
        assert_eq!((refusal.slot(), refusal.side()), place.unzip());
        let words = refusal.to_string();
        let place = if place.is_some() { " at the next of slot 7" } else { "" };
        assert_eq!(words, format!("refused with {number}{place}: {kind}"));
        assert_eq!(format!("{refusal:?}"), words);
        assert!(!seen.contains(&words));
        seen.push(words);
    }
    assert_eq!(seen.len(), 19);
    assert_eq!(Done::answer(0), Ok(Done { overflowed: false }));
    assert_eq!(Done::answer(100), Ok(Done { overflowed: true }));
    for number in [20, 99, 101, u32::MAX] {
        let refusal = Done::answer(number).unwrap_err();
        assert_eq!((refusal.kind(), refusal.number()), (RefusalKind::Unknown, number));
        assert_eq!(
            refusal.to_string(),
            format!("refused with {number}: no refusal of this number is known here")
        );
    }
}

#[test]
fn a_side_has_its_word_and_its_name() {
    assert_eq!([Side::Prev as u32, Side::Next as u32], [1, 2]);
    assert_eq!([Side::Prev, Side::Next].map(|side| side.to_string()), ["prev", "next"]);
    for (word, side) in
        [(0, None), (1, Some(Side::Prev)), (2, Some(Side::Next)), (3, None), (257, None), (u32::MAX, None)]
    {
        assert_eq!(Side::of(word), side);
        let refusal = |broken| PlainResult { number: 11, broken, side: word }.done().unwrap_err();
        for slot in [1, 7, 65_535, 65_536, 65_536 + 7, u32::MAX] {
            assert_eq!((refusal(slot).slot(), refusal(slot).side()), (Some(slot), side));
            let place =
                side.map_or(format!("at slot {slot}"), |side| format!("at the {side} of slot {slot}"));
            let words = format!("refused with 11 {place}: {}", RefusalKind::BrokenLink);
            assert_eq!(refusal(slot).to_string(), words);
        }
        // 0 is no slot
        assert_eq!((refusal(0).slot(), refusal(0).side()), (None, side));
        assert_eq!(refusal(0).to_string(), format!("refused with 11: {}", RefusalKind::BrokenLink));
    }
    for number in [0, 100] {
        let done = PlainResult { number, broken: 7, side: 1 }.done();
        assert_eq!(done, Ok(Done { overflowed: number == 100 }));
    }
    // the answer word of a command comes without a slot
    let refusal = Done::answer(11).unwrap_err();
    assert_eq!((refusal.kind(), refusal.slot(), refusal.side()), (RefusalKind::BrokenLink, None, None));
}

/// Calls by their names, and what each was refused with.
pub type Refused = Vec<(&'static str, Refusal)>;

/// Makes the calls of a level on an arena that the check refuses.
type Calls = fn(&mut OwnedArena) -> Refused;

/// What every call that is linked is refused with on an arena that the check refuses. Nothing is written.
pub fn refusals(arena: &OwnedArena) -> Refused {
    let linked: &[(&str, Calls)] = &[
        #[cfg(feature = "level-one")]
        ("level_one", level_one::refusals),
        #[cfg(feature = "level-two")]
        ("level_two", level_two::refusals),
        #[cfg(feature = "level-three")]
        ("level_three", level_three::refusals),
    ];
    let mut all = Vec::new();
    for (name, calls) in linked {
        let mut columns = arena.clone();
        let refused = calls(&mut columns);
        assert_eq!(columns, *arena, "{name}");
        let level = crate::sold::ARCHIVES.iter().find(|archive| archive.name == *name).unwrap();
        let tried = |export: &str| refused.iter().any(|(call, _)| export == format!("chain_arena_{call}"));
        let mut on_arena = level.exports.iter().filter(|export| crate::sold::is_on_arena(export));
        assert!(on_arena.all(|export| tried(export)), "a call of {name} is not tried");
        all.extend(refused);
    }
    all
}

#[test]
fn every_call_names_the_lowest_slot_at_which_rule_11_fails_and_the_side() {
    for (arena, slot, side) in broken() {
        for (call, refusal) in refusals(&arena) {
            let named = (refusal.number(), refusal.slot(), refusal.side());
            assert_eq!(named, (11, Some(slot), Some(side)), "{call} of {arena:?}");
            let place = format!("refused with 11 at the {side} of slot {slot}: ");
            assert!(refusal.to_string().starts_with(&place), "{call}: {refusal}");
        }
    }
}

#[test]
fn every_call_names_the_rule_that_fails_and_below_11_no_slot() {
    for (number, arena) in refused_below_11() {
        for (call, refusal) in refusals(&arena) {
            let named = (refusal.number(), refusal.slot(), refusal.side());
            assert_eq!(named, (number, None, None), "{call} of {arena:?}");
        }
    }
}

#[test]
fn what_a_call_refuses_of_its_own_names_no_slot() {
    let refusals: &[Vec<Refusal>] = &[
        #[cfg(feature = "level-one")]
        level_one::own_refusals(),
        #[cfg(feature = "level-two")]
        level_two::own_refusals(),
        #[cfg(feature = "level-three")]
        level_three::own_refusals(),
    ];
    for refusal in refusals.iter().flatten() {
        assert!(refusal.number() > 11, "{refusal}");
        assert_eq!((refusal.slot(), refusal.side()), (None, None), "{refusal}");
        assert_eq!(refusal.to_string(), format!("refused with {}: {}", refusal.number(), refusal.kind()));
    }
}

#[cfg(feature = "level-one")]
mod level_one {
    use chain_arena::{Chain, Dot, Line, Link, LinkNoGen, Walk, Window};

    use super::*;

    /// What every call of the level, and every method that is made of them, is refused with on an arena that the check refuses.
    pub fn refusals(columns: &mut OwnedArena) -> Refused {
        let mut walk = Walk { start: 5, position: 5, direction: 0, left: 4 };
        let (kept, arena, mut report) = (walk, columns.as_arena(), [9; 5]);
        let refusals = vec![
            ("check", arena.check().unwrap_err()),
            ("get_link", arena.get_link(p(5)).unwrap_err()),
            ("get_link_no_gen", arena.get_link_no_gen(p(5)).unwrap_err()),
            ("are_neighbors", arena.are_neighbors(p(5), p(1)).unwrap_err()),
            ("walk_start", arena.walk_start(p(5)).unwrap_err()),
            ("walk_step", walk.step(&arena).unwrap_err()),
            ("walk", arena.walk(p(5)).unwrap_err()),
            ("walk_from", arena.walk_from(walk).unwrap_err()),
            ("due_count", arena.due_count(p(5), Window::FRAME).unwrap_err()),
            ("due_events", arena.due_events(p(5), Window::FRAME, &mut report).unwrap_err()),
            ("due_events, owned", columns.due_events(p(5), Window::FRAME).unwrap_err()),
            ("checked", arena.checked().unwrap_err()),
            ("checked, owned", columns.checked().unwrap_err()),
            ("checked, to edit", columns.as_arena_mut().checked().unwrap_err()),
        ];
        assert_eq!((walk, report), (kept, [9; 5]));
        refusals
    }

    /// What is refused of the calls' own on a whole arena.
    pub fn own_refusals() -> Vec<Refusal> {
        let columns = sample();
        let arena = columns.as_arena();
        let checked = arena.checked().unwrap();
        vec![
            arena.get_link(STALE).unwrap_err(),
            arena.get_link_no_gen(STALE).unwrap_err(),
            arena.walk_start(STALE).unwrap_err(),
            arena.walk(STALE).unwrap_err(),
            arena.due_count(STALE, Window::FRAME).unwrap_err(),
            arena.due_events(STALE, Window::FRAME, &mut []).unwrap_err(),
            arena.due_events(p(5), Window::FRAME, &mut [9]).unwrap_err(),
            columns.due_events(STALE, Window::FRAME).unwrap_err(),
            checked.link(STALE).unwrap_err(),
            checked.chain(STALE).unwrap_err(),
            checked.due(STALE, Window::FRAME).map(|_| ()).unwrap_err(),
            Dot::try_from(Dot::COUNT).unwrap_err(),
            Line::try_from(Line::COUNT).unwrap_err(),
        ]
    }

    #[test]
    fn a_whole_arena_passes() {
        let mut columns = sample();
        assert_eq!(columns.as_arena().check(), Ok(()));
        assert_eq!(columns.as_arena_mut().as_arena().check(), Ok(()));
        let empty = OwnedArena {
            prev: vec![],
            next: vec![],
            generation: vec![],
            payload: vec![],
            header: vec![0, 0, 0, 2],
        };
        assert_eq!(empty.as_arena().check(), Ok(()));
    }

    #[test]
    fn the_highest_slot_can_be_named() {
        let length = Arena::CAPACITY_LIMIT;
        let last = length as Slot;
        let mut columns = OwnedArena::empty(length);
        columns.generation.fill(5);
        columns.header = vec![last, last, 0, 5];
        columns.next[length - 1] = 1;
        let refusal = columns.as_arena().check().unwrap_err();
        assert_eq!((refusal.slot(), refusal.side()), (Some(last), Some(Side::Next)));
    }

    #[test]
    fn links_and_neighbours_are_read() {
        let columns = sample();
        let arena = columns.as_arena();
        assert_eq!(arena.get_link(p(1)), Ok(Link { prev: None, next: Some(p(5)), payload: 10 }));
        assert_eq!(arena.get_link(p(2)), Ok(Link { prev: Some(p(4)), next: Some(p(4)), payload: 20 }));
        assert_eq!(arena.get_link_no_gen(p(5)), Ok(LinkNoGen { prev: Some(1), next: None, payload: 50 }));
        for stale in [STALE, p(0), p(3), p(6)] {
            assert_eq!(arena.get_link(stale).unwrap_err().number(), 12);
            assert_eq!(arena.get_link_no_gen(stale).unwrap_err().number(), 12);
            assert_eq!(arena.walk_start(stale).unwrap_err().number(), 12);
            assert_eq!(arena.are_neighbors(stale, p(5)), Ok(false));
        }
        assert_eq!(arena.are_neighbors(p(1), p(5)), Ok(true));
        assert_eq!(arena.are_neighbors(p(5), p(1)), Ok(false));
    }

    #[test]
    fn a_walk_gives_the_whole_chain_and_then_none() {
        let columns = sample();
        let arena = columns.as_arena();
        for (from, slots) in [(1, [1, 5]), (5, [5, 1]), (2, [2, 4]), (4, [4, 2])] {
            let mut steps = arena.walk(p(from)).unwrap();
            assert!(steps.by_ref().eq(slots.map(p)));
            assert_eq!((steps.next(), steps.next()), (None, None));
            assert_eq!(walked(&columns, from), slots);
        }
    }

    #[test]
    fn the_state_of_a_walk_can_be_kept_while_the_arena_changes() {
        let mut columns = sample();
        let mut walk = columns.as_arena().walk_start(p(1)).unwrap();
        assert_eq!(walk, Walk { start: 1, position: 1, direction: 0, left: 4 });
        assert_eq!(walk.step(&columns.as_arena()), Ok(Some(p(1))));
        assert_eq!(walk, Walk { start: 1, position: 5, direction: 0, left: 3 });
        columns.next[0] = 0;
        assert_eq!(walk.step(&columns.as_arena()).unwrap_err().number(), 11);
        assert_eq!(walk, Walk { start: 1, position: 5, direction: 0, left: 3 });
        columns.prev[4] = 0;
        assert_eq!(walk.step(&columns.as_arena()), Ok(Some(p(5))));
        assert_eq!(walk, Walk { start: 1, position: 0, direction: 1, left: 2 });
        assert_eq!(walk.step(&columns.as_arena()), Ok(None));
    }

    #[test]
    fn a_checked_arena_is_read_without_further_checks() {
        let columns = sample();
        let arena = columns.as_arena();
        let checked = arena.checked().unwrap();
        assert_eq!((checked.len(), checked.is_empty()), (4, false));
        assert_eq!(checked.header().words(), *columns.header);
        assert!(std::ptr::eq(checked.arena().prev, arena.prev));
        for slot in 0..7 {
            let link = arena.get_link(p(slot));
            assert_eq!(checked.link(p(slot)), link);
            assert_eq!(checked.link_no_gen(p(slot)), arena.get_link_no_gen(p(slot)));
            assert_eq!(checked.payload(p(slot)), link.map(|link| link.payload));
            assert_eq!(checked.prev(p(slot)), link.map(|link| link.prev));
            assert_eq!(checked.next(p(slot)), link.map(|link| link.next));
            assert_eq!(checked.contains(p(slot)), link.is_ok());
            assert_eq!(checked.ptr(slot), link.ok().map(|_| p(slot)));
            assert!(checked.are_neighbors(p(1), p(slot)) == (slot == 5));
        }
        assert_eq!(checked.chain(STALE).unwrap_err().kind(), RefusalKind::StalePointer);
        assert_eq!(checked.chain_from_first(p(3)).unwrap_err().kind(), RefusalKind::StalePointer);
    }

    #[test]
    fn chains_and_links_come_with_what_they_hold() {
        let columns = sample();
        let checked = columns.as_arena().checked().unwrap();
        let slots = |chain: Chain<'_>| chain.map(|(p, _)| p.slot).collect::<Vec<_>>();
        for (from, walk, along_next) in
            [(1, [1, 5], [1, 5]), (5, [5, 1], [1, 5]), (2, [2, 4], [2, 4]), (4, [4, 2], [4, 2])]
        {
            let mut chain = checked.chain(p(from)).unwrap();
            assert_eq!(chain.is_closed(), from % 2 == 0);
            assert!(chain.by_ref().eq(walk.map(|slot| (p(slot), checked.link(p(slot)).unwrap()))));
            assert_eq!((chain.next(), chain.next()), (None, None));
            assert_eq!(chain.is_closed(), from % 2 == 0, "also when all links are taken");
            assert_eq!(slots(checked.chain_from_first(p(from)).unwrap()), along_next);
        }
        assert_eq!(checked.chains().map(slots).collect::<Vec<_>>(), [[1, 5], [2, 4]]);
        let mut links = checked.links();
        assert_eq!(links.len(), 4);
        assert!(links.by_ref().eq([1, 2, 4, 5].map(|slot| (p(slot), checked.link(p(slot)).unwrap()))));
        assert_eq!((links.next(), links.len()), (None, 0));
    }

    #[test]
    fn a_broken_arena_gives_no_iterator() {
        let mut columns = sample();
        let walk = columns.as_arena().walk_start(p(1)).unwrap();
        assert_eq!(columns.as_arena().walk_from(walk).unwrap().state(), walk);
        assert!(columns.as_arena().walk_from(walk).unwrap().eq([1, 5].map(p)));
        columns.next[0] = 0;
        let arena = columns.as_arena();
        assert_eq!(arena.checked().unwrap_err().kind(), RefusalKind::BrokenLink);
        assert_eq!(arena.walk(p(1)).unwrap_err().kind(), RefusalKind::BrokenLink);
        assert_eq!(arena.walk_from(walk).unwrap_err().kind(), RefusalKind::BrokenLink);
        assert_eq!(columns.as_arena_mut().checked().unwrap_err().slot(), Some(5));
    }

    /// Makes every call of the level.
    pub fn any_calls(columns: &mut OwnedArena, noise: Noise<'_>) -> bool {
        let (p, q) = (any_pointer(noise), any_pointer(noise));
        let mut walk =
            Walk { start: noise() % 7, position: noise() % 7, direction: noise() % 2, left: noise() % 7 };
        let arena = columns.as_arena();
        let _ = (arena.get_link(p), arena.get_link_no_gen(p), arena.are_neighbors(p, q));
        let _ = (
            arena.walk_from(walk).map(Iterator::count),
            walk.step(&arena),
            arena.walk(p).map(Iterator::count),
        );
        let window = Window::of(noise() % 60, noise() % 60).unwrap();
        let mut report = vec![0; noise() as usize % 7];
        let _ = (
            arena.due_count(p, window),
            arena.due_events(p, window, &mut report).map(|due| due.events().count()),
            columns.due_events(q, window),
        );
        let Ok(checked) = arena.checked() else { return false };
        assert_eq!(arena.due_count(p, window), checked.due(p, window).map(Iterator::count));
        let _ = (checked.link(p), checked.chain(p).map(Iterator::count), checked.chain_from_first(q));
        let (chains, links) = (checked.chains().flatten().count(), checked.links().count());
        assert_eq!((chains, links), (checked.len(), checked.len()));
        true
    }
}

#[cfg(feature = "level-two")]
mod level_two {
    use chain_arena::ffi::{InsertResult, chain_arena_insert};
    use chain_arena::{Answer, Command, DrainedLink, Full, LinkInsertKind, LinkNoGen, Removed, Run};

    use super::*;

    /// What every call of the level, and a run, is refused with on an arena that the check refuses.
    pub fn refusals(columns: &mut OwnedArena) -> Refused {
        let (mut words, mut answers, mut report) = ([[9; Command::WORDS]; 1], [9; 1], [9; 25]);
        let mut run = Run::new(&mut words, &mut answers);
        run.remove(p(5)).unwrap();
        let mut arena = columns.as_arena_mut();
        vec![
            ("connect", arena.connect(p(5), p(1)).unwrap_err()),
            ("break_prev", arena.break_prev(p(5)).unwrap_err()),
            ("break_next", arena.break_next(p(5)).unwrap_err()),
            ("exchange_next", arena.exchange_next(p(2), p(4)).unwrap_err()),
            ("insert", arena.insert(LinkInsertKind::Disconnected, 77).unwrap_err()),
            ("remove", arena.remove(p(5)).unwrap_err()),
            ("drain", arena.drain(p(5), &mut report).unwrap_err()),
            ("set_generation", arena.set_generation(7).unwrap_err()),
            ("inc_generation", arena.inc_generation().unwrap_err()),
            ("canonicalize_freelist", arena.canonicalize_freelist().unwrap_err()),
            ("run", arena.run_words(&Command::Remove(p(5)).words(), &mut [9]).unwrap_err()),
            ("run, of commands", arena.run(&mut run).unwrap_err()),
        ]
    }

    /// What is refused of the calls' own on a whole arena, and of commands.
    pub fn own_refusals() -> Vec<Refusal> {
        let (mut words, mut answers) = ([[9; Command::WORDS]; 4], [9; 4]);
        let mut run = Run::new(&mut words, &mut answers);
        run.remove(STALE).unwrap().break_prev(p(1)).unwrap();
        run.insert(LinkInsertKind::ChainEnd(p(1)), 77).unwrap().break_next(p(5)).unwrap();
        let mut columns = sample();
        let mut arena = columns.as_arena_mut();
        let mut refusals = vec![
            arena.connect(STALE, p(1)).unwrap_err(),
            arena.connect(p(1), p(5)).unwrap_err(),
            arena.break_prev(p(1)).unwrap_err(),
            arena.break_next(p(5)).unwrap_err(),
            arena.exchange_next(p(1), p(5)).unwrap_err(),
            arena.insert(LinkInsertKind::ChainEnd(p(1)), 77).unwrap_err(),
            arena.remove(STALE).unwrap_err(),
            arena.drain(STALE, &mut []).unwrap_err(),
            arena.drain(p(5), &mut []).unwrap_err(),
            arena.set_generation(1).unwrap_err(),
            arena.run_words(&[1], &mut []).unwrap_err(),
            arena.run_words(&[1; Command::WORDS], &mut []).unwrap_err(),
            OwnedArena::empty(0).as_arena_mut().insert(LinkInsertKind::Disconnected, 77).unwrap_err(),
        ];
        refusals.extend(arena.run(&mut run).unwrap().map(|answer| answer.result.unwrap_err()));
        refusals
    }

    #[test]
    fn edits() {
        let mut columns = sample();
        let mut arena = columns.as_arena_mut();
        assert_eq!(arena.connect(p(1), p(2)).unwrap_err().number(), 13);
        assert_eq!(arena.break_next(p(2)), Ok(()));
        assert_eq!(arena.connect(p(5), p(4)), Ok(()));
        assert_eq!((arena.prev[3], arena.next[3], arena.prev[1], arena.next[1]), (5, 2, 4, 0));
        assert_eq!(arena.exchange_next(p(1), p(4)), Ok(()));
        assert_eq!((&*arena.prev, &*arena.next), (&[0, 1, 0, 5, 4][..], &[2, 0, 3, 5, 4][..]));
        assert_eq!(arena.break_prev(p(2)), Ok(()));
        assert_eq!(arena.break_prev(p(2)).unwrap_err().number(), 13);
        assert_eq!(arena.exchange_next(STALE, p(4)).unwrap_err().number(), 12);
        let link = LinkNoGen { prev: Some(4), next: Some(4), payload: 50 };
        assert_eq!(arena.remove(p(5)), Ok(Removed { link, overflowed: false }));
        assert_eq!(*arena.header, [4, 3, 3, 6]);
        arena.header[3] = u32::MAX;
        let link = LinkNoGen { prev: None, next: None, payload: 20 };
        assert_eq!(arena.remove(p(2)), Ok(Removed { link, overflowed: true }));
        assert_eq!(arena.header[3], 2);
    }

    #[test]
    fn a_drain_reports_each_link() {
        let mut columns = sample();
        columns.header[3] = u32::MAX;
        let mut report = [9; 12];
        let mut arena = columns.as_arena_mut();
        assert_eq!(arena.drain(p(5), &mut report[..9]).unwrap_err().number(), 14);
        let drained = arena.drain(p(5), &mut report).unwrap();
        let link = |prev, next, payload| LinkNoGen { prev, next, payload };
        let expected = [
            DrainedLink { ptr: p(5), link: link(Some(1), None, 50) },
            DrainedLink { ptr: p(1), link: link(None, None, 10) },
        ];
        assert_eq!(drained.links().collect::<Vec<_>>(), expected);
        assert_eq!((drained.overflowed, drained.overflowed_at), (true, Some(0)));
        assert_eq!(report[10..], [9, 9]);
        assert_eq!(columns.header, [4, 2, 1, 3]);
    }

    #[test]
    fn generations_and_the_freelist() {
        let mut columns = sample();
        let mut arena = columns.as_arena_mut();
        assert_eq!(arena.set_generation(1).unwrap_err().number(), 15);
        assert_eq!(arena.set_generation(u32::MAX - 1), Ok(()));
        assert_eq!(arena.inc_generation(), Ok(Done { overflowed: false }));
        assert_eq!(arena.inc_generation(), Ok(Done { overflowed: true }));
        assert_eq!(arena.header[3], 2);
        arena.remove(p(4)).unwrap();
        arena.remove(p(5)).unwrap();
        assert_eq!(*arena.header, [4, 2, 4, 4]);
        assert_eq!(arena.canonicalize_freelist(), Ok(()));
        assert_eq!(*arena.header, [2, 2, 0, 4]);
    }

    #[test]
    fn a_run_answers_each_command() {
        let mut columns = sample();
        let commands = [
            Command::BreakNext(p(1)),
            Command::Connect(p(5), p(1)),
            Command::Connect(p(5), p(1)),
            Command::BreakPrev(STALE),
            Command::ExchangeNext(p(5), p(2)),
            Command::Remove(p(4)),
        ];
        let (mut words, mut answers) = ([[9; Command::WORDS]; 7], [9; 6]);
        let mut run = Run::new(&mut words, &mut answers);
        run.break_next(p(1)).unwrap().connect(p(5), p(1)).unwrap().connect(p(5), p(1)).unwrap();
        run.break_prev(STALE).unwrap().exchange_next(p(5), p(2)).unwrap().remove(p(4)).unwrap();
        assert_eq!((run.push(commands[0]).unwrap_err(), run.len()), (Full, 6));
        assert_eq!(format!("{Full:?}"), "there is no room for another command of the run");
        let found: Vec<Answer> = columns.as_arena_mut().run(&mut run).unwrap().collect();
        let numbers = [0, 0, 13, 12, 0, 0];
        let expected = commands
            .iter()
            .zip(numbers)
            .map(|(&command, number)| Answer { command, result: Done::answer(number) });
        assert!(found.into_iter().eq(expected));
        assert_eq!(walked(&columns, 5), [5, 2, 1]);
        assert_eq!(columns.header, [5, 3, 4, 6]);
    }

    #[test]
    fn a_run_is_cleared_for_the_next() {
        let mut columns = sample();
        let (mut words, mut answers) = ([[9; Command::WORDS]; 1], [9; 2]);
        let mut run = Run::new(&mut words, &mut answers);
        assert!(run.is_empty());
        assert_eq!(columns.as_arena_mut().run(&mut run).unwrap().len(), 0);
        run.remove(p(5)).unwrap();
        assert_eq!(run.remove(p(1)).unwrap_err(), Full);
        run.clear();
        run.remove(p(1)).unwrap();
        assert_eq!(columns.as_arena_mut().run(&mut run).unwrap().len(), 1);
        assert_eq!(columns.as_arena_mut().remove(p(1)).unwrap_err().number(), 12);
        assert_eq!(walked(&columns, 5), [5]);
    }

    #[test]
    fn a_run_of_words() {
        let mut columns = sample();
        let mut arena = columns.as_arena_mut();
        let mut answers = [9; 3];
        let commands = [Command::Remove(p(4)).words(), [77; Command::WORDS]];
        assert_eq!(arena.run_words(commands.as_flattened(), &mut answers), Ok(()));
        assert_eq!(answers, [0, 16, 9]);
        assert_eq!(Done::answer(answers[1]).unwrap_err().number(), 16);
        assert_eq!(arena.run_words(&[1; 5], &mut answers).unwrap_err().number(), 16);
        assert_eq!(arena.run_words(&[1; 6], &mut []).unwrap_err().number(), 14);
    }

    /// The kinds that name no link.
    const ALONE: [LinkInsertKind; 2] = [LinkInsertKind::Disconnected, LinkInsertKind::SingleLinkCyclic];

    /// The two kinds of a place, by pointers and by slots.
    fn chain_end(p: Ptr) -> [LinkInsertKind; 2] {
        [LinkInsertKind::ChainEnd(p), LinkInsertKind::ChainEndInx(p.slot)]
    }

    fn chain_start(p: Ptr) -> [LinkInsertKind; 2] {
        [LinkInsertKind::ChainStart(p), LinkInsertKind::ChainStartInx(p.slot)]
    }

    fn next_to(p: Ptr) -> [LinkInsertKind; 2] {
        [LinkInsertKind::NextTo(p), LinkInsertKind::NextToInx(p.slot)]
    }

    fn prev_to(p: Ptr) -> [LinkInsertKind; 2] {
        [LinkInsertKind::PrevTo(p), LinkInsertKind::PrevToInx(p.slot)]
    }

    fn at_interlink(p: Ptr, q: Ptr) -> [LinkInsertKind; 2] {
        [
            LinkInsertKind::AtInterlink { next_to: p, prev_to: q },
            LinkInsertKind::AtInterlinkInx { next_to: p.slot, prev_to: q.slot },
        ]
    }

    fn bridge(p: Ptr, q: Ptr) -> [LinkInsertKind; 2] {
        [
            LinkInsertKind::Bridge { end: p, start: q },
            LinkInsertKind::BridgeInx { end: p.slot, start: q.slot },
        ]
    }

    /// All kinds that name these links, or the first of them, in the order of the codes from 8 on.
    fn naming(p: Ptr, q: Ptr) -> [[LinkInsertKind; 2]; 6] {
        [chain_end(p), chain_start(p), next_to(p), prev_to(p), at_interlink(p, q), bridge(p, q)]
    }

    /// What an insertion answers, and what it leaves of an arena; a run of it alone must do the same.
    fn inserted(before: &OwnedArena, kind: LinkInsertKind) -> (Result<Ptr, u32>, OwnedArena) {
        let (mut called, mut ran) = (before.clone(), before.clone());
        let answer = called.as_arena_mut().insert(kind, 77).map_err(|refusal| refusal.number());
        let (mut words, mut answers) = ([[9; Command::WORDS]; 1], [9; 1]);
        let mut run = Run::new(&mut words, &mut answers);
        run.insert(kind, 77).unwrap();
        let found: Vec<Answer> = ran.as_arena_mut().run(&mut run).unwrap().collect();
        let result = Done::answer(answer.err().unwrap_or(0));
        assert_eq!(found, [Answer { command: Command::Insert(kind, 77), result }]);
        assert_eq!(ran, called, "{kind:?}");
        (answer, called)
    }

    #[test]
    fn a_link_is_inserted_at_each_place() {
        let [alone, closed] = ALONE;
        // what prev and next become, with the new link in slot 3
        let places = [
            ([alone; 2], [0, 4, 0, 2, 1], [5, 4, 0, 2, 0]),
            ([closed; 2], [0, 4, 3, 2, 1], [5, 4, 3, 2, 0]),
            (chain_end(p(5)), [0, 4, 5, 2, 1], [5, 4, 0, 2, 3]),
            (chain_start(p(1)), [3, 4, 0, 2, 1], [5, 4, 1, 2, 0]),
            (next_to(p(1)), [0, 4, 1, 2, 3], [3, 4, 5, 2, 0]),
            (next_to(p(5)), [0, 4, 5, 2, 1], [5, 4, 0, 2, 3]),
            (next_to(p(2)), [0, 4, 2, 3, 1], [5, 3, 4, 2, 0]),
            (prev_to(p(1)), [3, 4, 0, 2, 1], [5, 4, 1, 2, 0]),
            (prev_to(p(5)), [0, 4, 1, 2, 3], [3, 4, 5, 2, 0]),
            (prev_to(p(2)), [0, 3, 4, 2, 1], [5, 4, 2, 3, 0]),
            (at_interlink(p(1), p(5)), [0, 4, 1, 2, 3], [3, 4, 5, 2, 0]),
            (at_interlink(p(4), p(2)), [0, 3, 4, 2, 1], [5, 4, 2, 3, 0]),
            (bridge(p(5), p(1)), [3, 4, 5, 2, 1], [5, 4, 1, 2, 3]),
        ];
        for (kinds, prev, next) in places {
            let expected = OwnedArena {
                prev: prev.to_vec(),
                next: next.to_vec(),
                generation: vec![5; 5],
                payload: vec![10, 20, 77, 40, 50],
                header: vec![5, 5, 0, 5],
            };
            for kind in kinds {
                assert_eq!(inserted(&sample(), kind), (Ok(p(3)), expected.clone()), "{kind:?}");
            }
        }
    }

    #[test]
    fn two_chains_are_bridged() {
        // 2 -> 1 and 3 -> 4, and room for one more
        let before = OwnedArena {
            prev: vec![2, 0, 0, 3, 9],
            next: vec![0, 1, 4, 0, 9],
            generation: vec![5, 5, 5, 5, 9],
            payload: vec![10, 20, 30, 40, 9],
            header: vec![4, 4, 0, 5],
        };
        for kind in bridge(p(1), p(3)) {
            let (answer, after) = inserted(&before, kind);
            assert_eq!((answer, walked(&after, 2)), (Ok(p(5)), vec![2, 1, 5, 3, 4]));
            assert_eq!((after.prev, after.next), (vec![2, 0, 5, 3, 1], vec![5, 1, 4, 0, 3]));
        }
    }

    #[test]
    fn a_closed_pair_comes_of_a_lone_link_and_of_one_that_is_closed_alone() {
        let [.., at, bridged] = naming(p(1), p(1));
        for (own, kinds) in [(0, vec![bridged]), (1, vec![next_to(p(1)), prev_to(p(1)), at])] {
            let before = OwnedArena {
                prev: vec![own, 9],
                next: vec![own, 9],
                generation: vec![5, 9],
                payload: vec![10, 9],
                header: vec![1, 1, 0, 6],
            };
            let expected = OwnedArena {
                prev: vec![2, 1],
                next: vec![2, 1],
                generation: vec![5, 6],
                payload: vec![10, 77],
                header: vec![2, 2, 0, 6],
            };
            for kind in kinds.as_flattened() {
                let answer = Ok(Ptr { slot: 2, generation: 6 });
                assert_eq!(inserted(&before, *kind), (answer, expected.clone()), "{kind:?}");
            }
        }
    }

    #[test]
    fn a_link_takes_the_root_and_where_there_is_none_the_slot_after_the_stack() {
        // the link 2, the freelist 3, 1, and two slots above the stack
        let mut columns = OwnedArena {
            prev: vec![9, 0, 9, 9, 9],
            next: vec![1, 0, 1, 9, 9],
            generation: vec![0, 5, 0, 9, 9],
            payload: vec![9, 20, 9, 9, 9],
            header: vec![3, 1, 3, 7],
        };
        let mut arena = columns.as_arena_mut();
        for (slot, header) in [(3, [3, 2, 1, 7]), (1, [3, 3, 0, 7]), (4, [4, 4, 0, 7])] {
            let answer = arena.insert(LinkInsertKind::Disconnected, 10 * slot);
            assert_eq!(answer, Ok(Ptr { slot, generation: 7 }));
            assert_eq!(*arena.header, header);
        }
        let expected = OwnedArena {
            prev: vec![0, 0, 0, 0, 9],
            next: vec![0, 0, 0, 0, 9],
            generation: vec![7, 5, 7, 7, 9],
            payload: vec![10, 20, 30, 40, 9],
            header: vec![4, 4, 0, 7],
        };
        assert_eq!(columns, expected);
    }

    #[test]
    fn an_insertion_that_is_refused_leaves_every_word() {
        let refused =
            |kind: LinkInsertKind| assert_eq!(inserted(&sample(), kind), (Err(17), sample()), "{kind:?}");
        // slot 0, a free one, and two above the stack
        for none in [p(0), p(3), p(6), p(Slot::MAX)] {
            naming(none, none).as_flattened().iter().for_each(|&kind| refused(kind));
            let one =
                [at_interlink(p(1), none), at_interlink(none, p(5)), bridge(p(5), none), bridge(none, p(1))];
            one.as_flattened().iter().for_each(|&kind| refused(kind));
        }
        // links of another generation: kinds by slots are done all the same
        let stale = |slot| Ptr { slot, generation: 4 };
        for [by_pointers, by_slots] in [
            chain_end(stale(5)),
            chain_start(stale(1)),
            next_to(stale(2)),
            prev_to(stale(2)),
            at_interlink(stale(1), p(5)),
            at_interlink(p(1), stale(5)),
            bridge(stale(5), p(1)),
            bridge(p(5), stale(1)),
        ] {
            refused(by_pointers);
            assert_eq!(inserted(&sample(), by_slots).0, Ok(p(3)), "{by_slots:?}");
        }
        // a neighbour where none may be, or none where the other link must be
        for kinds in [
            chain_end(p(1)),
            chain_end(p(2)),
            chain_start(p(5)),
            chain_start(p(2)),
            at_interlink(p(5), p(1)),
            at_interlink(p(1), p(1)),
            at_interlink(p(5), p(5)),
            at_interlink(p(2), p(2)),
            bridge(p(1), p(1)),
            bridge(p(5), p(5)),
            bridge(p(1), p(5)),
            bridge(p(5), p(2)),
            bridge(p(2), p(1)),
        ] {
            kinds.into_iter().for_each(refused);
        }
        let mut broken = sample();
        broken.next[0] = 0;
        let before = broken.clone();
        for kind in [ALONE, chain_end(STALE)].as_flattened() {
            let refusal = broken.as_arena_mut().insert(*kind, 77).unwrap_err();
            assert_eq!((refusal.slot(), refusal.side()), (Some(5), Some(Side::Prev)));
        }
        assert_eq!(broken, before);
    }

    #[test]
    fn there_is_no_room_only_where_every_slot_of_the_columns_holds_a_link() {
        // 1 -> 2
        let full = OwnedArena {
            prev: vec![0, 1],
            next: vec![2, 0],
            generation: vec![5, 5],
            payload: vec![10, 20],
            header: vec![2, 2, 0, 5],
        };
        let (one, two) = (p(1), p(2));
        let fit = [
            ALONE,
            chain_end(two),
            chain_start(one),
            next_to(one),
            prev_to(one),
            at_interlink(one, two),
            bridge(two, one),
        ];
        for kind in fit.as_flattened() {
            assert_eq!(inserted(&full, *kind), (Err(18), full.clone()), "{kind:?}");
        }
        for kind in
            [chain_end(one), chain_start(two), at_interlink(two, one), bridge(one, two)].as_flattened()
        {
            assert_eq!(inserted(&full, *kind), (Err(17), full.clone()), "{kind:?}");
        }
        let mut free = full.clone();
        free.as_arena_mut().remove(one).unwrap();
        for kind in [ALONE, chain_end(two), chain_start(two), bridge(two, two)].as_flattened() {
            assert_eq!(inserted(&free, *kind).0, Ok(Ptr { slot: 1, generation: 6 }), "{kind:?}");
        }
        let none = OwnedArena::empty(0);
        assert_eq!(ALONE.map(|kind| inserted(&none, kind).0), [Err(18); 2]);
        assert_eq!(inserted(&none, LinkInsertKind::NextToInx(1)).0, Err(17));
    }

    /// The exported insertion, whose words are not held to be those of a kind.
    fn insert_words(columns: &mut OwnedArena, kind: u32, p: Ptr, q: Ptr) -> InsertResult {
        let OwnedArena { prev, next, generation, payload, header } = columns;
        // Safety: each pointer and count are those of one vector, which nobody else has borrowed.
        unsafe {
            chain_arena_insert(
                prev.as_mut_ptr(),
                prev.len(),
                next.as_mut_ptr(),
                next.len(),
                generation.as_mut_ptr(),
                generation.len(),
                payload.as_mut_ptr(),
                payload.len(),
                header.as_mut_ptr(),
                header.len(),
                kind,
                p.slot,
                p.generation,
                q.slot,
                q.generation,
                77,
            )
        }
    }

    #[test]
    fn an_unknown_kind_is_refused() {
        let full = OwnedArena::empty(0);
        for kind in [0, 1, 5, 20, 262, u32::MAX] {
            for before in [&sample(), &full] {
                let mut columns = before.clone();
                let refused = InsertResult { number: 16, broken: 0, side: 0, slot: 0, generation: 0 };
                assert_eq!(insert_words(&mut columns, kind, p(1), p(5)), refused, "{kind}");
                assert_eq!(columns, *before);
            }
        }
        let mut broken = sample();
        broken.header[3] = 1;
        assert_eq!(insert_words(&mut broken, 20, p(1), p(5)).number, 2);
    }

    #[test]
    fn what_a_kind_does_not_name_is_ignored() {
        let fit = [
            ALONE,
            chain_end(p(5)),
            chain_start(p(1)),
            next_to(p(2)),
            prev_to(p(2)),
            at_interlink(p(1), p(5)),
            bridge(p(5), p(1)),
        ];
        for kind in fit.as_flattened() {
            let (code, pointers) = (kind.code(), kind.pointers());
            for other in [p(0), p(1), Ptr { slot: Slot::MAX, generation: u32::MAX }] {
                let named = if code < 8 { 0 } else { 1 + usize::from(code > 15) };
                let [a, b] = [0, 1].map(|k| match (k < named, code % 2) {
                    (true, 0) => pointers[k],
                    (true, _) => Ptr { generation: other.generation, ..pointers[k] },
                    (false, _) => other,
                });
                let mut columns = sample();
                let answer = insert_words(&mut columns, code, a, b);
                let expected = InsertResult { number: 0, broken: 0, side: 0, slot: 3, generation: 5 };
                assert_eq!(answer, expected, "{kind:?}");
                assert_eq!(columns, inserted(&sample(), *kind).1, "{kind:?}");
            }
        }
    }

    #[test]
    fn a_run_names_links_that_it_has_inserted() {
        let mut columns = OwnedArena::empty(3);
        let at = |slot, generation| Ptr { slot, generation };
        let (mut words, mut answers) = ([[9; Command::WORDS]; 9], [9; 9]);
        let mut run = Run::new(&mut words, &mut answers);
        run.insert(LinkInsertKind::Disconnected, 10).unwrap();
        run.insert(LinkInsertKind::ChainEnd(at(1, 2)), 20).unwrap();
        run.insert(LinkInsertKind::AtInterlink { next_to: at(1, 2), prev_to: at(2, 2) }, 30).unwrap();
        run.insert(LinkInsertKind::PrevToInx(1), 40).unwrap();
        run.insert(LinkInsertKind::ChainStartInx(2), 40).unwrap();
        run.remove(at(1, 2)).unwrap();
        run.insert(LinkInsertKind::Bridge { end: at(2, 2), start: at(3, 2) }, 40).unwrap();
        run.remove(at(1, 2)).unwrap().break_prev(at(1, 3)).unwrap();
        let found = columns.as_arena_mut().run(&mut run).unwrap();
        let numbers = found.map(|answer| answer.result.map_or_else(|refusal| refusal.number(), |_| 0));
        assert_eq!(numbers.collect::<Vec<u32>>(), [0, 0, 0, 18, 17, 0, 0, 12, 0]);
        let expected = OwnedArena {
            prev: vec![0, 3, 1],
            next: vec![3, 0, 2],
            generation: vec![3, 2, 2],
            payload: vec![40, 20, 30],
            header: vec![3, 3, 0, 3],
        };
        assert_eq!(columns, expected);
    }

    #[test]
    fn a_slot_above_the_stack_in_a_command_is_no_link() {
        const OVER: u32 = 1 << 16;
        let mut columns = sample();
        let commands = [
            [9, OVER + 5, 0, 0, 0, 77],
            [10, OVER + 1, 5, 0, 0, 77],
            [13, OVER + 1, 0, 0, 0, 77],
            [14, OVER + 1, 5, 0, 0, 77],
            [16, OVER + 1, 5, 5, 5, 77],
            [17, 1, 0, OVER + 5, 0, 77],
            [18, OVER + 5, 5, 1, 5, 77],
            [19, 5, 0, OVER + 1, 0, 77],
            [5, OVER + 5, 5, 0, 0, 77],
        ];
        let mut answers = [9; 9];
        assert_eq!(columns.as_arena_mut().run_words(commands.as_flattened(), &mut answers), Ok(()));
        assert_eq!(answers, [17, 17, 17, 17, 17, 17, 17, 17, 12]);
        assert_eq!(columns, sample());
        let ignored = [[6, OVER + 1, 5, OVER, 9, 77], [12, 1, 5, OVER, 9, 78], [20, 1, 5, 1, 5, 77]];
        columns.prev.push(9);
        columns.next.push(9);
        columns.generation.push(9);
        columns.payload.push(9);
        let mut answers = [9; 3];
        assert_eq!(columns.as_arena_mut().run_words(ignored.as_flattened(), &mut answers), Ok(()));
        assert_eq!(answers, [0, 0, 16]);
        assert_eq!((walked(&columns, 1), columns.payload), (vec![1, 6, 5], vec![10, 20, 77, 40, 50, 78]));
    }

    #[test]
    fn a_command_is_told_as_it_was_given() {
        let p = Ptr { slot: 0xfedc_ba98, generation: u32::MAX };
        let q = Ptr { slot: 0x1_0001, generation: 0x8000_0002 };
        let kinds = [ALONE].into_iter().chain(naming(p, q)).flatten();
        let inserting: Vec<Command> = kinds.map(|kind| Command::Insert(kind, 0x7fff_fff3)).collect();
        assert!(inserting.iter().map(|command| command.words()[0]).eq(6..20));
        let words = [18, 0xfedc_ba98, u32::MAX, 0x1_0001, 0x8000_0002, 0x7fff_fff3];
        assert_eq!(inserting[12].words(), words);
        assert_eq!(inserting[13].words(), [19, 0xfedc_ba98, 0, 0x1_0001, 0, 0x7fff_fff3]);
        // what a kind does not have is 0
        for (command, code) in inserting.iter().zip(6..16) {
            let generation = if code % 2 == 0 { u32::MAX } else { 0 };
            let first = if code < 8 { [0, 0] } else { [0xfedc_ba98, generation] };
            assert_eq!(command.words(), [code, first[0], first[1], 0, 0, 0x7fff_fff3]);
        }
        let mut commands = vec![
            Command::Connect(p, q),
            Command::BreakPrev(p),
            Command::BreakNext(p),
            Command::ExchangeNext(p, q),
            Command::Remove(p),
        ];
        commands.extend(inserting);
        let (mut words, mut answers) = ([[9; Command::WORDS]; 19], [9; 19]);
        let mut run = Run::new(&mut words, &mut answers);
        for command in &commands {
            run.push(*command).unwrap();
        }
        let mut columns = sample();
        let told = columns.as_arena_mut().run(&mut run).unwrap().map(|answer| answer.command);
        assert_eq!(told.collect::<Vec<_>>(), commands);
    }

    #[test]
    fn an_arena_is_grown_from_empty_emptied_and_grown_again() {
        let mut columns = OwnedArena {
            prev: vec![9; 6],
            next: vec![9; 6],
            generation: vec![9; 6],
            payload: vec![9; 6],
            header: vec![0, 0, 0, 2],
        };
        let mut arena = columns.as_arena_mut();
        let a = arena.insert(LinkInsertKind::Disconnected, 10).unwrap();
        let b = arena.insert(LinkInsertKind::ChainEnd(a), 20).unwrap();
        let c = arena.insert(LinkInsertKind::ChainStart(a), 30).unwrap();
        let d = arena.insert(LinkInsertKind::SingleLinkCyclic, 40).unwrap();
        let e = arena.insert(LinkInsertKind::PrevTo(d), 50).unwrap();
        let f = arena.insert(LinkInsertKind::AtInterlink { next_to: c, prev_to: a }, 60).unwrap();
        assert_eq!([a, b, c, d, e, f], [1, 2, 3, 4, 5, 6].map(|slot| Ptr { slot, generation: 2 }));
        let full = arena.insert(LinkInsertKind::Bridge { end: b, start: c }, 70).unwrap_err();
        assert_eq!(full.kind(), RefusalKind::NotWithinCapacity);
        assert_eq!((walked(&columns, 3), walked(&columns, 4)), (vec![3, 6, 1, 2], vec![4, 5]));
        assert_eq!(columns.payload, [10, 20, 30, 40, 50, 60]);

        let mut arena = columns.as_arena_mut();
        let mut report = [0; 20];
        let drained = arena.drain(a, &mut report).unwrap();
        assert!(drained.links().map(|link| link.ptr).eq([a, b, f, c]));
        arena.remove(d).unwrap();
        arena.remove(e).unwrap();
        assert_eq!(*arena.header, [4, 0, 4, 8]);
        assert_eq!(
            arena.insert(LinkInsertKind::NextTo(a), 70).unwrap_err().kind(),
            RefusalKind::LinkRequirement
        );

        let mut last = arena.insert(LinkInsertKind::SingleLinkCyclic, 1).unwrap();
        let mut slots = vec![last.slot];
        for payload in 2..7 {
            last = arena.insert(LinkInsertKind::NextTo(last), payload).unwrap();
            assert_eq!(last.generation, 8);
            slots.push(last.slot);
        }
        assert_eq!(slots, [4, 3, 2, 1, 5, 6], "the freelist, then the slots after the stack");
        assert_eq!(walked(&columns, 4), slots, "each next to the last one in a closed chain");
        assert_eq!(columns.payload, [4, 3, 2, 1, 5, 6]);
        assert_eq!(columns.header, [6, 6, 0, 8]);
    }

    /// Makes every call of the level.
    pub fn any_calls(columns: &mut OwnedArena, noise: Noise<'_>) -> bool {
        let (p, q) = (any_pointer(noise), any_pointer(noise));
        let mut slice: Vec<u32> =
            (0..noise() % 40).map(|k| noise() % if k % 6 == 0 { 21 } else { 6 }).collect();
        let mut answers = vec![0; noise() as usize % 9];
        let mut arena = columns.as_arena_mut();
        let _ = (arena.connect(p, q), arena.exchange_next(p, q), arena.break_prev(p), arena.break_next(q));
        let _ = (arena.set_generation(noise() % 4), arena.inc_generation());
        let _ = (arena.run_words(&slice, &mut answers), arena.remove(p));
        let kind = noise() as usize % 14;
        let _ = arena.insert(*ALONE.iter().chain(naming(p, q).as_flattened()).nth(kind).unwrap(), noise());
        let _ = arena.drain(q, &mut slice).map(|drained| drained.links().count());
        arena.canonicalize_freelist().is_ok()
    }
}

#[cfg(feature = "level-three")]
mod level_three {
    use chain_arena::{CompressedCanonical, Moved, NewGeneration};

    use super::*;

    /// What every call of the level is refused with on an arena that the check refuses.
    pub fn refusals(columns: &mut OwnedArena) -> Refused {
        let (mut report, mut from) = ([9; 25], vec![9; columns.capacity()]);
        let mut arena = columns.as_arena_mut();
        vec![
            ("compress_with", arena.compress_with(NewGeneration::Next, &mut report).unwrap_err()),
            ("compress_canonical", arena.compress_canonical(NewGeneration::Next, &mut from).unwrap_err()),
        ]
    }

    /// What is refused of the calls' own on a whole arena.
    pub fn own_refusals() -> Vec<Refusal> {
        let mut columns = sample();
        let mut arena = columns.as_arena_mut();
        vec![
            arena.compress_with(NewGeneration::Next, &mut []).unwrap_err(),
            arena.compress_canonical(NewGeneration::Next, &mut []).unwrap_err(),
        ]
    }

    #[test]
    fn the_generation_is_raised_unless_it_is_to_be_reset() {
        assert_eq!(NewGeneration::default(), NewGeneration::Next);
    }

    #[test]
    fn links_move_down_in_order() {
        let mut columns = sample();
        let mut report = [9; 19];
        let mut arena = columns.as_arena_mut();
        assert_eq!(arena.compress_with(NewGeneration::Next, &mut report[..15]).unwrap_err().number(), 14);
        let compressed = arena.compress_with(NewGeneration::Next, &mut report).unwrap();
        let to = |slot| Ptr { slot, generation: 6 };
        let moved = [(1, 1), (2, 2), (4, 3), (5, 4)].map(|(a, b)| Moved { from: p(a), to: to(b) });
        assert!(compressed.links().eq(moved));
        assert_eq!((compressed.generation, compressed.overflowed), (6, false));
        assert_eq!(report[16..], [9, 9, 9]);
        assert_eq!((walked(&columns, 1), walked(&columns, 2)), (vec![1, 4], vec![2, 3]));
    }

    #[test]
    fn chains_are_laid_out() {
        let mut columns = sample();
        columns.header[3] = u32::MAX;
        let mut from = [9; 5];
        let mut arena = columns.as_arena_mut();
        assert_eq!(arena.compress_canonical(NewGeneration::Next, &mut from[..4]).unwrap_err().number(), 14);
        let first = CompressedCanonical { where_from: &[1, 5, 4, 2], generation: 2, overflowed: true };
        assert_eq!(arena.compress_canonical(NewGeneration::Next, &mut from), Ok(first));
        let moved = [(1, 1), (5, 2), (4, 3), (2, 4)];
        let moved = moved.map(|(from, slot)| Moved { from, to: Ptr { slot, generation: 2 } });
        assert!(first.links().eq(moved));
        let again = CompressedCanonical { where_from: &[1, 2, 3, 4], generation: 2, overflowed: false };
        assert_eq!(arena.compress_canonical(NewGeneration::Reset, &mut from), Ok(again));
        assert_eq!(from, [1, 2, 3, 4, 0]);
        assert_eq!((walked(&columns, 1), walked(&columns, 3)), (vec![1, 2], vec![3, 4]));
        assert_eq!(columns.header, [4, 4, 0, 2]);
    }

    /// Makes every call of the level.
    pub fn any_calls(columns: &mut OwnedArena, noise: Noise<'_>) -> bool {
        let mut report = vec![0; noise() as usize % 30];
        let mut from = vec![0; noise() as usize % 7];
        let to = if noise().is_multiple_of(2) { NewGeneration::Next } else { NewGeneration::Reset };
        let mut arena = columns.as_arena_mut();
        let _ = arena.compress_with(to, &mut report).map(|compressed| compressed.links().count());
        let kind = arena.compress_canonical(to, &mut from).map_err(|refusal| refusal.kind());
        kind.is_ok() || kind == Err(RefusalKind::SliceLength)
    }
}

/// Words of any kind, for the arguments of calls.
type Noise<'n> = &'n mut dyn FnMut() -> u32;

/// A pointer of any kind.
#[cfg(any(feature = "level-one", feature = "level-two"))]
fn any_pointer(noise: Noise<'_>) -> Ptr {
    Ptr { slot: noise() % 7, generation: 4 + noise() % 4 }
}

#[test]
fn nothing_panics_on_any_words() {
    let mut bits = 1u64;
    let mut noise = || {
        bits ^= bits << 13;
        bits ^= bits >> 7;
        bits ^= bits << 17;
        (bits >> 16) as u32
    };
    let mut passed = 0;
    for _ in 0..200_000 {
        let mut columns = sample();
        for _ in 0..noise() % 4 {
            let (place, word) = (noise() as usize % 5, noise() % 8);
            match noise() % 6 {
                0 => columns.prev[place] = word,
                1 => columns.next[place] = word,
                2 => columns.generation[place] = word,
                3 => columns.header[place % 4] = word,
                4 => columns.header.truncate(place),
                _ => columns.payload.truncate(place),
            }
            columns.header.resize(4, word);
        }
        passed += u32::from(any_calls(&mut columns, &mut noise));
    }
    assert!(passed > 50_000, "only {passed} arenas were not refused");
}

/// Makes every call that is linked, with any arguments, and answers whether the arena was not refused.
fn any_calls(columns: &mut OwnedArena, noise: Noise<'_>) -> bool {
    let calls: &[fn(&mut OwnedArena, Noise<'_>) -> bool] = &[
        #[cfg(feature = "level-one")]
        level_one::any_calls,
        #[cfg(feature = "level-two")]
        level_two::any_calls,
        #[cfg(feature = "level-three")]
        level_three::any_calls,
        #[cfg(feature = "small-arenas")]
        |columns, noise| columns.as_arena_mut().small_arena(noise() % 128).is_ok(),
    ];
    let refused = calls.iter().filter(|call| !call(columns, noise)).count();
    refused == 0
}
