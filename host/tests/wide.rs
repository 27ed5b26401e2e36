//! Slots whose numbers need more than 16 bits, and columns up to the limit. Each call is made on a small arena, and on the same arena raised: with lone links in
//! all slots below it, or with room above it. What is answered and what is left must be the same, but for the raised slots. So a slot that loses bits on its way
//! is found: in its place below there is another link, of the same generation.

#[cfg(any(feature = "level-one", feature = "level-two"))]
use chain_arena::Ptr;
use chain_arena::{Arena, OwnedArena, Side, Slot};

use crate::wrapper::{broken, refusals};

/// The longest that columns may be.
const LIMIT: usize = Arena::CAPACITY_LIMIT;

/// How far apart two slot numbers are that are alike in 16 bits.
const APART: Slot = 1 << 16;

/// The small arena: 1 -> 5 -> 3 -> 8, the closed 2 -> 4 -> (2), and the freelist 7, 6.
fn sample() -> OwnedArena {
    OwnedArena {
        prev: vec![0, 4, 5, 2, 1, 0, 0, 3],
        next: vec![5, 4, 8, 2, 3, 6, 6, 0],
        generation: vec![5, 5, 5, 5, 5, 0, 0, 5],
        payload: vec![10, 20, 30, 40, 50, 0, 0, 60],
        header: vec![8, 6, 7, 5],
    }
}

/// How many slots the small arena has, and in which there are links.
const SMALL: usize = 8;
#[cfg(feature = "level-one")]
const LINKS: [Slot; 6] = [1, 2, 3, 4, 5, 8];

/// How many slots lie below the small arena, and how many the columns have in all.
#[derive(Clone, Copy, Debug)]
struct Raising {
    by: Slot,
    capacity: usize,
}

/// With columns around the length that 16 bits can count and of the most slots; over slots that 16 bits can just number, and that they cannot; and up to the most
/// slots.
const RAISINGS: [Raising; 6] = [
    Raising { by: 0, capacity: 65_535 },
    Raising { by: 0, capacity: 65_536 },
    Raising { by: 0, capacity: LIMIT },
    Raising { by: 65_531, capacity: 65_531 + SMALL },
    Raising { by: APART, capacity: APART as usize + SMALL },
    Raising { by: (LIMIT - SMALL) as Slot, capacity: LIMIT },
];

impl Raising {
    /// No raising: the small arena itself.
    #[cfg(feature = "level-two")]
    const NONE: Self = Self { by: 0, capacity: SMALL };

    /// Where a slot of the small arena is. 0 is no slot.
    fn slot(self, slot: Slot) -> Slot {
        if slot == 0 { 0 } else { slot + self.by }
    }

    /// The slot of the small arena; of a slot below it a number that no slot has.
    fn lowered(self, slot: Slot) -> Slot {
        if slot == 0 { 0 } else { slot.checked_sub(self.by).filter(|&slot| slot != 0).unwrap_or(Slot::MAX) }
    }

    /// The pointer to the same link.
    #[cfg(any(feature = "level-one", feature = "level-two"))]
    fn ptr(self, p: Ptr) -> Ptr {
        Ptr { slot: self.slot(p.slot), ..p }
    }

    /// What stands in the slots of the small arena when it is raised, and in the header.
    fn words(self, small: &OwnedArena) -> OwnedArena {
        let raised = |column: &[Slot]| column.iter().map(|&slot| self.slot(slot)).collect();
        let &[stack_length, link_count, root, current] = &small.header[..] else { panic!("four words") };
        OwnedArena {
            prev: raised(&small.prev),
            next: raised(&small.next),
            header: vec![stack_length + self.by, link_count + self.by, self.slot(root), current],
            ..small.clone()
        }
    }

    /// The whole arena: lone links of a generation, no two of which have the same payload, then the small arena, and above it words that mean nothing.
    fn arena(self, small: &OwnedArena, generation: u32) -> OwnedArena {
        let (below, words) = (self.by as usize, self.words(small));
        let whole = |below: Vec<u32>, column: &[u32]| {
            let mut whole = [&below, column].concat();
            whole.resize(self.capacity, 9);
            whole
        };
        OwnedArena {
            prev: whole(vec![0; below], &words.prev),
            next: whole(vec![0; below], &words.next),
            generation: whole(vec![generation; below], &words.generation),
            payload: whole((1000..).take(below).collect(), &words.payload),
            header: words.header,
        }
    }
}

/// Pointers to all slots of the sample, to none, and to two slots above its stack, each of the generation that the links have and of another.
#[cfg(any(feature = "level-one", feature = "level-two"))]
fn pointers() -> impl Iterator<Item = Ptr> + Clone {
    (0..=SMALL as Slot + 2).flat_map(|slot| [4, 5].map(|generation| Ptr { slot, generation }))
}

/// Pairs of pointers: all of them where the arena is raised as far as numbers that are alike in 16 bits are apart, else those to three links, and to two where
/// the columns are as long as they may be.
#[cfg(any(feature = "level-one", feature = "level-two"))]
fn pairs(raising: Raising) -> impl Iterator<Item = (Ptr, Ptr)> {
    let links: &[Slot] = if raising.capacity == LIMIT { &[1, 5] } else { &[1, 2, 5] };
    let is_tried = move |p: &Ptr| raising.by == APART || links.contains(&p.slot) && p.generation == 5;
    let tried = pointers().filter(is_tried);
    tried.clone().flat_map(move |p| tried.clone().map(move |q| (p, q)))
}

#[test]
fn the_slot_and_the_side_that_every_call_names_are_raised() {
    let raising = Raising { by: APART, capacity: APART as usize + 6 };
    for (arena, slot, side) in broken() {
        // one of the wrong neighbours is the largest number, which cannot be raised
        if arena.prev.contains(&Slot::MAX) || arena.next.contains(&Slot::MAX) {
            continue;
        }
        for (call, refusal) in refusals(&raising.arena(&arena, 5)) {
            let named = (refusal.number(), refusal.slot(), refusal.side());
            assert_eq!(named, (11, Some(slot + APART), Some(side)), "{call} of {arena:?}");
        }
    }
}

#[test]
fn a_neighbour_or_a_free_slot_is_not_taken_for_one_that_is_alike_in_16_bits() {
    for far in [APART, 1 << 20, 1 << 31] {
        // the next of slot 1, the prev of slot 5, and where the freelist goes on
        for (place, side, number) in [(0, Side::Next, 11), (4, Side::Prev, 11), (6, Side::Next, 7)] {
            let mut arena = sample();
            let column = if side == Side::Next { &mut arena.next } else { &mut arena.prev };
            column[place] += far;
            for (call, refusal) in refusals(&arena) {
                assert_eq!(refusal.number(), number, "{call} of {arena:?}");
                let slot = (number == 11).then_some((place as Slot + 1, side));
                let named = refusal.slot().zip(refusal.side());
                // the lower slot is the one that lost its neighbour, where that is another
                assert!(named == slot || number == 11 && named == Some((1, Side::Next)), "{call}: {refusal}");
            }
        }
    }
}

#[cfg(feature = "level-one")]
mod level_one {
    use chain_arena::{Link, LinkNoGen, Walk, Window};

    use super::*;
    use crate::wrapper::p;

    impl Raising {
        /// The link as it is in the small arena.
        fn lowered_link(self, link: Link) -> Link {
            let lowered = |p: Ptr| Ptr { slot: self.lowered(p.slot), ..p };
            Link { prev: link.prev.map(lowered), next: link.next.map(lowered), ..link }
        }

        /// The link as it is in the small arena.
        fn lowered_link_no_gen(self, link: LinkNoGen) -> LinkNoGen {
            let lowered = |slot| self.lowered(slot);
            LinkNoGen { prev: link.prev.map(lowered), next: link.next.map(lowered), ..link }
        }

        /// The slots as they are in the small arena.
        fn lowered_slots(self, slots: impl Iterator<Item = Slot>) -> Vec<Slot> {
            slots.map(|slot| self.lowered(slot)).collect()
        }
    }

    #[test]
    fn raised_links_are_read_alike() {
        let small = sample();
        for raising in RAISINGS {
            let large = raising.arena(&small, 5);
            let (one, other) = (small.as_arena(), large.as_arena());
            let [checked, raised] = [one, other].map(|arena| arena.checked().unwrap());
            for p in pointers() {
                let q = raising.ptr(p);
                let told = format!("{p:?} of {raising:?}");
                assert_eq!(
                    other.get_link(q).map(|link| raising.lowered_link(link)),
                    one.get_link(p),
                    "{told}"
                );
                assert_eq!(raised.link(q).map(|link| raising.lowered_link(link)), one.get_link(p), "{told}");
                let link = other.get_link_no_gen(q).map(|link| raising.lowered_link_no_gen(link));
                assert_eq!(link, one.get_link_no_gen(p), "{told}");
                assert_eq!(
                    (raised.contains(q), raised.payload(q)),
                    (checked.contains(p), checked.payload(p))
                );
                let walk = other.walk_start(q).map(|walk| Walk {
                    start: raising.lowered(walk.start),
                    position: raising.lowered(walk.position),
                    left: walk.left - raising.by,
                    ..walk
                });
                assert_eq!(walk, one.walk_start(p), "{told}");
                let walked = one.walk(p).map(|steps| steps.map(|p| p.slot).collect::<Vec<_>>());
                let steps = other.walk(q).map(|steps| raising.lowered_slots(steps.map(|p| p.slot)));
                assert_eq!(steps, walked, "{told}");
                let chain = raised.chain(q).map(|chain| raising.lowered_slots(chain.map(|(p, _)| p.slot)));
                assert_eq!(chain, walked, "{told}");
                let first = |chain: chain_arena::Chain<'_>| chain.map(|(p, _)| p.slot).next().unwrap();
                let begun = raised.chain_from_first(q).map(first).map(|slot| raising.lowered(slot));
                assert_eq!(begun, checked.chain_from_first(p).map(first), "{told}");
                for window in [Window::FRAME, Window::of(20, 45).unwrap(), Window::of(45, 20).unwrap()] {
                    assert_eq!(other.due_count(q, window), one.due_count(p, window), "{told}");
                    let (mut report, mut expected) = ([9; 4], [9; 4]);
                    let due = other.due_events(q, window, &mut report);
                    let due = due.map(|due| raising.lowered_slots(due.slots().iter().copied()));
                    let slots = one.due_events(p, window, &mut expected).map(|due| due.slots().to_vec());
                    assert_eq!(due, slots, "{told}");
                    let due =
                        raised.due(q, window).map(|due| raising.lowered_slots(due.map(|(p, _)| p.slot)));
                    assert_eq!(due, slots, "{told}");
                }
            }
            for (p, q) in pairs(raising) {
                let (raised_p, raised_q) = (raising.ptr(p), raising.ptr(q));
                let expected = one.are_neighbors(p, q);
                assert_eq!(other.are_neighbors(raised_p, raised_q), expected, "{p:?} {q:?} of {raising:?}");
                assert_eq!(
                    Ok(raised.are_neighbors(raised_p, raised_q)),
                    expected,
                    "{p:?} {q:?} of {raising:?}"
                );
            }
        }
    }

    #[test]
    fn all_chains_and_all_links_are_listed_however_far_they_are_raised() {
        for raising in RAISINGS {
            let large = raising.arena(&sample(), 5);
            let checked = large.checked().unwrap();
            // the lone links, then the open chain and the closed one
            let chains = checked.chains().map(|chain| chain.map(|(p, _)| p.slot).collect::<Vec<_>>());
            let lone = (1..=raising.by).map(|slot| vec![slot]);
            let own = [&[1, 5, 3, 8][..], &[2, 4]];
            let own = own.map(|slots| slots.iter().map(|&slot| raising.slot(slot)).collect());
            assert!(chains.eq(lone.chain(own)), "{raising:?}");
            let own = LINKS.map(|slot| raising.slot(slot));
            assert!(checked.links().map(|(p, _)| p.slot).eq((1..=raising.by).chain(own)), "{raising:?}");
        }
    }

    #[test]
    fn a_pointer_is_not_taken_for_one_that_is_alike_in_16_bits() {
        let columns = sample();
        let (arena, checked) = (columns.as_arena(), columns.checked().unwrap());
        for (slot, far) in LINKS.into_iter().flat_map(|slot| [APART, 1 << 20, 1 << 31].map(|far| (slot, far)))
        {
            let (near, stale) = (p(slot), p(slot + far));
            let numbers = [
                arena.get_link(stale).unwrap_err(),
                arena.get_link_no_gen(stale).unwrap_err(),
                arena.walk_start(stale).unwrap_err(),
                arena.due_count(stale, Window::FRAME).unwrap_err(),
                arena.due_events(stale, Window::FRAME, &mut [9; 5]).unwrap_err(),
                checked.link(stale).unwrap_err(),
                checked.chain(stale).unwrap_err(),
            ];
            assert!(numbers.iter().all(|refusal| refusal.number() == 12), "{stale:?}: {numbers:?}");
            let next = checked.next(near).unwrap().unwrap_or(near);
            assert_eq!(arena.are_neighbors(stale, next), Ok(false));
            assert_eq!(arena.are_neighbors(near, p(next.slot + far)), Ok(false));
            assert!(!checked.contains(stale) && checked.ptr(stale.slot).is_none());
            // a walk that stands there is over, and one that began there ends with next
            let mut walk = Walk { start: slot, position: slot + far, direction: 0, left: 4 };
            assert_eq!((walk.step(&arena), walk.position), (Ok(None), 0));
            let mut walk = Walk { start: 8 + far, position: 8, direction: 0, left: 4 };
            assert_eq!((walk.step(&arena), walk.position), (Ok(Some(p(8))), 0));
        }
    }

    #[test]
    fn a_slot_above_the_stack_is_not_taken_for_one_that_is_alike_in_16_bits() {
        // in long columns there are words above the stack too, each of them 9
        let columns = Raising { by: 0, capacity: LIMIT }.arena(&sample(), 5);
        let (arena, checked) = (columns.as_arena(), columns.checked().unwrap());
        for slot in LINKS {
            let above = Ptr { slot: slot + APART, generation: 9 };
            assert_eq!(arena.get_link(above).unwrap_err().number(), 12);
            assert!(!checked.contains(above) && checked.ptr(above.slot).is_none());
        }
    }

    /// One closed chain of 2^20 links: by rising slots, by falling ones, and in the order that is as slow to list as any, with the lowest links as far from each
    /// other as they can be.
    #[test]
    fn a_closed_chain_of_all_slots_is_listed_once() {
        let last = LIMIT as Slot;
        let spread = (0..last).map(|place| (place << 12).reverse_bits() + 1).collect();
        for slots in [Vec::from_iter(1..=last), (2..=last).rev().chain([1]).collect(), spread] {
            let mut columns = OwnedArena::empty(LIMIT);
            for (place, &slot) in slots.iter().enumerate() {
                let next = slots[(place + 1) % LIMIT];
                (columns.next[slot as usize - 1], columns.prev[next as usize - 1]) = (next, slot);
            }
            columns.generation.fill(5);
            columns.header = vec![last, last, 0, 5];
            let checked = columns.checked().unwrap();
            let mut chains = checked.chains();
            let chain = chains.next().unwrap();
            let first = slots.iter().position(|&slot| slot == 1).unwrap();
            assert!(
                chain.is_closed()
                    && chain.map(|(p, _)| p.slot).eq([&slots[first..], &slots[..first]].concat())
            );
            assert!(chains.next().is_none() && chains.next().is_none());
        }
    }
}

#[cfg(feature = "level-two")]
mod level_two {
    use chain_arena::{ArenaMut, Command, LinkInsertKind, Refusal};

    use super::*;
    use crate::wrapper::p;

    /// What is answered of an edit: the number, or the words, with slots as they are in the small arena.
    type Told = Result<Vec<u32>, u32>;

    /// Makes an edit with its pointers raised.
    type Edit = fn(&mut ArenaMut<'_>, Raising, Ptr, Ptr) -> Told;

    /// The number of a refusal, or the words of what was done.
    fn told<T>(answer: Result<T, Refusal>, words: impl FnOnce(T) -> Vec<u32>) -> Told {
        answer.map(words).map_err(|refusal| refusal.number())
    }

    /// Every edit that names links.
    const EDITS: [(&str, Edit); 6] = [
        ("connect", |a, up, p, q| told(a.connect(up.ptr(p), up.ptr(q)), |()| vec![])),
        ("break_prev", |a, up, p, _| told(a.break_prev(up.ptr(p)), |()| vec![])),
        ("break_next", |a, up, p, _| told(a.break_next(up.ptr(p)), |()| vec![])),
        ("exchange_next", |a, up, p, q| told(a.exchange_next(up.ptr(p), up.ptr(q)), |()| vec![])),
        ("remove", |a, up, p, _| {
            told(a.remove(up.ptr(p)), |removed| {
                let [prev, next] = [removed.link.prev, removed.link.next];
                vec![up.lowered(prev.unwrap_or(0)), up.lowered(next.unwrap_or(0)), removed.link.payload]
            })
        }),
        ("drain", |a, up, p, _| {
            told(a.drain(up.ptr(p), &mut [9; 20]), |drained| {
                let words = drained.links().flat_map(|item| {
                    let slots = [Some(item.ptr.slot), item.link.prev, item.link.next];
                    let [slot, prev, next] = slots.map(|slot| up.lowered(slot.unwrap_or(0)));
                    [slot, item.ptr.generation, prev, next, item.link.payload]
                });
                words.collect()
            })
        }),
    ];

    /// The kind of insertion of a code that names these links, or the first of them, raised.
    fn kind(code: u32, up: Raising, p: Ptr, q: Ptr) -> LinkInsertKind {
        use LinkInsertKind as Kind;
        let (p, q) = (up.ptr(p), up.ptr(q));
        match code {
            6 => Kind::Disconnected,
            7 => Kind::SingleLinkCyclic,
            8 => Kind::ChainEnd(p),
            9 => Kind::ChainEndInx(p.slot),
            10 => Kind::ChainStart(p),
            11 => Kind::ChainStartInx(p.slot),
            12 => Kind::NextTo(p),
            13 => Kind::NextToInx(p.slot),
            14 => Kind::PrevTo(p),
            15 => Kind::PrevToInx(p.slot),
            16 => Kind::AtInterlink { next_to: p, prev_to: q },
            17 => Kind::AtInterlinkInx { next_to: p.slot, prev_to: q.slot },
            18 => Kind::Bridge { end: p, start: q },
            _ => Kind::BridgeInx { end: p.slot, start: q.slot },
        }
    }

    /// What an insertion answers.
    fn inserted(a: &mut ArenaMut<'_>, up: Raising, code: u32, [p, q]: [Ptr; 2]) -> Told {
        told(a.insert(kind(code, up, p, q), 77), |new| vec![up.lowered(new.slot), new.generation])
    }

    /// The sample raised, and a copy of it to edit.
    struct Raised {
        raising: Raising,
        kept: OwnedArena,
        edited: OwnedArena,
    }

    impl Raised {
        /// The sample raised.
        fn of(raising: Raising) -> Self {
            let kept = raising.arena(&sample(), 5);
            Self { raising, edited: kept.clone(), kept }
        }

        /// Holds that an edit answers and leaves the same as one of the sample, and takes it back; answers whether it was done. `edit` is told how far the arena
        /// is raised.
        fn holds(&mut self, name: &str, edit: impl Fn(&mut ArenaMut<'_>, Raising) -> Told) -> bool {
            let (raising, mut small) = (self.raising, sample());
            let expected = edit(&mut small.as_arena_mut(), Raising::NONE);
            let answer = edit(&mut self.edited.as_arena_mut(), raising);
            assert_eq!(answer, expected, "{name} of {raising:?}");
            let (Self { kept, edited, .. }, left) = (self, raising.words(&small));
            assert_eq!(edited.header, left.header, "{name} of {raising:?}");
            edited.header.copy_from_slice(&kept.header);
            let from = raising.by as usize;
            let columns = [
                (&mut edited.prev, &kept.prev, left.prev),
                (&mut edited.next, &kept.next, left.next),
                (&mut edited.generation, &kept.generation, left.generation),
                (&mut edited.payload, &kept.payload, left.payload),
            ];
            for (edited, kept, left) in columns {
                let own = from..from + left.len();
                assert_eq!(edited[own.clone()], left, "{name} of {raising:?}");
                edited[own.clone()].copy_from_slice(&kept[own]);
                assert!(edited == kept, "{name} of {raising:?}: a word below or above");
            }
            expected.is_ok()
        }
    }

    #[test]
    fn raised_links_are_edited_alike() {
        for raising in RAISINGS {
            let (mut raised, mut done) = (Raised::of(raising), 0);
            for (p, q) in pairs(raising) {
                let of_one = q == p;
                for (k, (name, edit)) in EDITS.into_iter().enumerate() {
                    if of_one || [0, 3].contains(&k) {
                        done += u32::from(raised.holds(name, |arena, up| edit(arena, up, p, q)));
                    }
                }
                for code in (8..20).filter(|&code| of_one || code > 15) {
                    let made = |arena: &mut ArenaMut<'_>, up| inserted(arena, up, code, [p, q]);
                    done += u32::from(raised.holds(&format!("kind {code}"), made));
                }
            }
            for code in [6, 7] {
                assert!(raised.holds("alone", |arena, up| inserted(arena, up, code, [p(1), p(1)])));
            }
            assert!(raised.holds("set_generation", |arena, _| told(arena.set_generation(9), |()| vec![])));
            assert!(raised.holds("inc_generation", |arena, _| told(arena.inc_generation(), |_| vec![])));
            assert!(raised.holds("canonicalize_freelist", |arena, _| {
                told(arena.canonicalize_freelist(), |()| vec![])
            }));
            assert!(done > 15, "{done} of {raising:?}");
        }
    }

    /// The words of a command with its slots raised.
    fn raised(words: [u32; Command::WORDS], up: Raising) -> [u32; Command::WORDS] {
        let [code, p, p_generation, q, q_generation, payload] = words;
        [code, up.slot(p), p_generation, up.slot(q), q_generation, payload]
    }

    #[test]
    fn a_run_on_raised_links_answers_alike() {
        let mut bits = 5u64;
        let mut below = |limit: u32| {
            bits ^= bits << 13;
            bits ^= bits >> 7;
            bits ^= bits << 17;
            (bits >> 16) as u32 % limit
        };
        let mut small = sample();
        let (mut commands, mut expected) = (vec![], vec![]);
        for payload in 0..20_000 {
            // mostly good pointers, and the second often to the next link
            let mut slot = |small: &OwnedArena, other: Option<Slot>| {
                let slot = other.filter(|_| below(2) == 0).unwrap_or_else(|| below(11));
                let generation = small.generation.get((slot as usize).wrapping_sub(1)).copied().unwrap_or(5);
                [slot, generation + u32::from(below(10) == 0)]
            };
            let [p, p_generation] = slot(&small, None);
            let next = small.next.get((p as usize).wrapping_sub(1)).copied();
            let [q, q_generation] = slot(&small, next);
            let command = [1 + below(20), p, p_generation, q, q_generation, payload];
            let mut answer = [9];
            small.as_arena_mut().run_words(&command, &mut answer).unwrap();
            commands.push(command);
            expected.push(answer[0]);
        }
        for number in [0, 12, 13, 16, 17, 18] {
            assert!(expected.iter().filter(|&&answer| answer == number).count() > 100, "{number}");
        }
        // where the arena fills the columns, as the small one does
        for raising in RAISINGS.into_iter().filter(|raising| raising.by as usize + SMALL == raising.capacity)
        {
            let (mut large, mut answers) = (raising.arena(&sample(), 5), vec![9; commands.len()]);
            let words: Vec<_> = commands.iter().map(|&command| raised(command, raising)).collect();
            large.as_arena_mut().run_words(words.as_flattened(), &mut answers).unwrap();
            assert!(answers == expected && large == raising.arena(&small, 5), "{raising:?}");
        }
    }

    #[test]
    fn a_pointer_of_an_edit_is_not_taken_for_one_that_is_alike_in_16_bits() {
        for far in [APART, 1 << 20, 1 << 31] {
            let mut refused = 0;
            for (p, q) in pairs(Raising::NONE) {
                let edits = EDITS
                    .into_iter()
                    .map(|(_, edit)| edit(&mut sample().as_arena_mut(), Raising::NONE, p, q));
                let kinds =
                    (8..20).map(|code| inserted(&mut sample().as_arena_mut(), Raising::NONE, code, [p, q]));
                // what is done where both are near is refused where either is far away
                for (edit, done) in edits.chain(kinds).enumerate().filter(|(_, told)| told.is_ok()) {
                    let away = |p: Ptr| Ptr { slot: p.slot + far, ..p };
                    let two = [0, 3].contains(&edit) || edit >= EDITS.len() + 8;
                    for (p, q) in [(away(p), q), (p, away(q))].into_iter().take(if two { 2 } else { 1 }) {
                        let mut arena = sample();
                        let told = match EDITS.get(edit) {
                            Some((_, edit)) => edit(&mut arena.as_arena_mut(), Raising::NONE, p, q),
                            None => {
                                let code = (edit - EDITS.len()) as u32 + 8;
                                inserted(&mut arena.as_arena_mut(), Raising::NONE, code, [p, q])
                            }
                        };
                        let number = if edit < EDITS.len() { 12 } else { 17 };
                        assert_eq!((told, &arena), (Err(number), &sample()), "{edit} {p:?} {q:?}: {done:?}");
                        refused += 1;
                    }
                }
            }
            assert!(refused > 50, "{refused}");
        }
    }

    #[test]
    fn an_arena_is_grown_to_the_limit_and_no_further() {
        let mut columns = OwnedArena::empty(LIMIT);
        // one chain, each link behind the last one; then one more, for which there is no room
        let last = LIMIT as Slot;
        let commands: Vec<_> = (0..=last)
            .map(|slot| match slot {
                0 => Command::Insert(LinkInsertKind::Disconnected, 1),
                _ => Command::Insert(LinkInsertKind::ChainEnd(Ptr { slot, generation: 2 }), slot + 1),
            })
            .map(Command::words)
            .collect();
        let mut answers = vec![9; commands.len()];
        columns.as_arena_mut().run_words(commands.as_flattened(), &mut answers).unwrap();
        assert_eq!(answers.pop(), Some(18));
        assert!(answers.iter().all(|&answer| answer == 0));
        assert!(
            columns.next.iter().copied().eq((2..=last).chain([0]))
                && columns.prev.iter().copied().eq(0..last)
        );
        assert!(columns.payload.iter().copied().eq(1..=last));
        assert_eq!(columns.header, [last, last, 0, 2]);
        // the last one goes, and another takes its slot
        let mut arena = columns.as_arena_mut();
        let removed = arena.remove(Ptr { slot: last, generation: 2 }).unwrap();
        assert_eq!((removed.link.prev, removed.link.payload), (Some(last - 1), last));
        let new = arena.insert(LinkInsertKind::BridgeInx { end: last - 1, start: 1 }, 7);
        assert_eq!(new, Ok(Ptr { slot: last, generation: 3 }));
        assert_eq!((arena.prev[0], arena.next[LIMIT - 1]), (last, 1));
        // and the whole chain from there
        let mut report = vec![9; 5 * LIMIT];
        let drained = arena.drain(Ptr { slot: last, generation: 3 }, &mut report).unwrap();
        assert!(drained.links().map(|item| item.ptr.slot).eq([last].into_iter().chain(1..last)));
        assert_eq!(columns.header[1], 0);
    }
}

#[cfg(feature = "level-three")]
mod level_three {
    use chain_arena::{Moved, NewGeneration, Ptr};

    use super::*;

    /// Every raising with every generation that the links may get.
    fn compressions() -> impl Iterator<Item = (Raising, NewGeneration)> {
        let both = [NewGeneration::Next, NewGeneration::Reset];
        RAISINGS.into_iter().flat_map(move |raising| both.map(|generation| (raising, generation)))
    }

    #[test]
    fn raised_chains_are_laid_out_alike() {
        for (raising, generation) in compressions() {
            let (mut small, mut large) = (sample(), raising.arena(&sample(), 5));
            let (mut from, mut expected) = (vec![9; raising.capacity], [9; SMALL]);
            let done = large.as_arena_mut().compress_canonical(generation, &mut from).unwrap();
            let also = small.as_arena_mut().compress_canonical(generation, &mut expected).unwrap();
            assert_eq!((done.generation, done.overflowed), (also.generation, also.overflowed));
            let moved = done.links().map(|moved| (moved.from, moved.to.slot));
            assert!(moved.eq(done.where_from.iter().copied().zip(1..)), "{raising:?}");
            // the lone links stay, and the small arena's two free slots are gone
            let links = expected[..6].iter().map(|&slot| raising.slot(slot));
            let rest = [0, 0].into_iter().chain(std::iter::repeat(9));
            let whole = (1..=raising.by).chain(links).chain(rest).take(raising.capacity);
            assert!(from.iter().copied().eq(whole), "{raising:?}");
            assert!(large == raising.arena(&small, small.header[3]), "{raising:?}");
        }
    }

    #[test]
    fn raised_links_move_down_alike() {
        for (raising, generation) in compressions() {
            let (mut small, mut large) = (sample(), raising.arena(&sample(), 5));
            let (mut report, mut expected) = (vec![9; 4 * (raising.by as usize + 6)], [9; 24]);
            let done = large.as_arena_mut().compress_with(generation, &mut report).unwrap();
            let also = small.as_arena_mut().compress_with(generation, &mut expected).unwrap();
            let words = |moved: Moved<Ptr>| {
                [moved.from.slot, moved.from.generation, moved.to.slot, moved.to.generation]
            };
            assert!(done.links().map(words).eq(done.report.iter().copied()), "{raising:?}");
            let (low, high) = done.report.split_at(raising.by as usize);
            assert!(low.iter().zip(1..).all(|(words, slot)| *words == [slot, 5, slot, done.generation]));
            let lowered = |&[old, old_generation, new, new_generation]: &[u32; 4]| {
                [raising.lowered(old), old_generation, raising.lowered(new), new_generation]
            };
            assert!(high.iter().map(lowered).eq(also.report.iter().copied()), "{raising:?}");
            assert!(large == raising.arena(&small, small.header[3]), "{raising:?}");
        }
    }

    #[test]
    fn chains_between_slots_that_are_alike_in_16_bits_are_laid_out() {
        // k -> k + 65,536 for each k, but for the free slots 7 and 65,543
        let length = 2 * APART as usize;
        let mut before = OwnedArena::empty(length);
        for k in (1..=APART).filter(|&k| k != 7) {
            (before.next[k as usize - 1], before.prev[(k + APART) as usize - 1]) = (k + APART, k);
        }
        before.generation.fill(5);
        before.payload = (1..=length as u32).collect();
        for (slot, next) in [(7, 7 + APART), (7 + APART, 7 + APART)] {
            (before.generation[slot as usize - 1], before.next[slot as usize - 1]) = (0, next);
        }
        before.header = vec![length as u32, length as u32 - 2, 7, 5];
        let mut after = before.clone();
        let mut column = vec![9; length];
        let links = length - 2;
        let done = after.as_arena_mut().compress_canonical(NewGeneration::Next, &mut column).unwrap();
        assert_eq!((done.where_from.len(), done.generation), (links, 6));
        // each pair on slots that follow each other, and each slot with the payload of where it came from
        for (place, pair) in done.where_from.chunks(2).enumerate() {
            let first = 2 * place as Slot + 1;
            assert_eq!(pair[1], pair[0] + APART);
            assert_eq!((after.next[first as usize - 1], after.prev[first as usize]), (first + 1, first));
            assert_eq!(after.payload[first as usize - 1..=first as usize], *pair);
        }
        let mut slots = done.where_from.to_vec();
        slots.sort_unstable();
        assert!(slots.into_iter().eq((1..=length as Slot).filter(|slot| slot % APART != 7)));
    }
}
