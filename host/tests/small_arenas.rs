//! The small arenas, through the wrapper and through the call itself: all of them in the order that is told, what the call leaves, what it refuses, and that the
//! stored output of the program that prints them is theirs. What is expected comes from trying all words in range, and from the meaning of the check's rules.

use std::fs;
use std::path::Path;
use std::sync::LazyLock;

use chain_arena::ffi::{SmallArenaResult, chain_arena_small_arena};
use chain_arena::{Arena, ArenaMut, OwnedArena, RefusalKind, Slot, SmallArena, small_arenas};

/// The longest stack that a small arena has, and the longest columns that may be lent.
const LONGEST: usize = 3;
const LIMIT: usize = Arena::CAPACITY_LIMIT;

/// Indices past the last small arena. The lower half, or the lower byte, of some is an index that has one.
const PAST: [u32; 9] = [90, 91, 128, 256, 256 + 5, 65_536, 65_536 + 5, 1 << 31, u32::MAX];

/// Every small arena, in order.
static TRIED: LazyLock<Vec<OwnedArena>> = LazyLock::new(|| {
    let mut found = vec![];
    for length in 0..=LONGEST {
        for root in 0..=length {
            let header = vec![length as u32, 0, root as u32, 2];
            try_words(&mut OwnedArena { header, ..OwnedArena::empty(length) }, 0, &mut found);
        }
    }
    found
});

/// Tries all words of the slots from a place on, in order: generation, prev, next. Payload and link count are as those make them.
fn try_words(arena: &mut OwnedArena, place: usize, found: &mut Vec<OwnedArena>) {
    let length = arena.prev.len();
    if place == length {
        arena.header[1] = arena.generation.iter().filter(|&&generation| generation != 0).count() as u32;
        found.extend(is_small(arena.as_arena()).then(|| arena.clone()));
        return;
    }
    for (generation, prev, next) in (0..=2).flat_map(|generation| {
        (0..=length).flat_map(move |prev| (0..=length).map(move |next| (generation, prev, next)))
    }) {
        (arena.generation[place], arena.prev[place], arena.next[place]) =
            (generation, prev as Slot, next as Slot);
        arena.payload[place] = if generation == 0 { 0 } else { place as u32 + 1 };
        try_words(arena, place + 1, found);
    }
}

/// Whether an arena is small, by what its words mean.
fn is_small(a: Arena<'_>) -> bool {
    let length = a.prev.len();
    let word = |column: &[Slot], slot: usize| column[slot - 1] as usize;
    let is_link = |slot: usize| (1..=length).contains(&slot) && a.generation[slot - 1] != 0;
    let (links, free): (Vec<usize>, Vec<usize>) = (1..=length).partition(|&slot| is_link(slot));
    let shape = length <= LONGEST
        && [a.next.len(), a.generation.len(), a.payload.len()] == [length; 3]
        && a.header.len() == 4
        && (a.header[0], a.header[1], a.header[3]) == (length as u32, links.len() as u32, 2);
    // the freelist comes to each free slot once, and the last one points at itself
    let (mut at, mut left) = (a.header[2] as usize, free.clone());
    while let Some(place) = left.iter().position(|&slot| slot == at) {
        left.swap_remove(place);
        at = word(a.next, at);
    }
    let ends = free.iter().any(|&slot| slot == at && word(a.next, slot) == at);
    let listed = left.is_empty() && if free.is_empty() { at == 0 } else { ends };
    let named = |slot: usize, other: usize, back: &[Slot]| {
        other == 0 || (is_link(other) && word(back, other) == slot)
    };
    shape
        && listed
        && free.iter().all(|&slot| word(a.prev, slot) == 0 && a.payload[slot - 1] == 0)
        && links.iter().all(|&slot| {
            (a.generation[slot - 1], a.payload[slot - 1]) == (2, slot as u32)
                && named(slot, word(a.prev, slot), a.next)
                && named(slot, word(a.next, slot), a.prev)
        })
}

/// What the order goes by: the stack length, the root, and of each slot the generation, prev and next.
fn key(a: Arena<'_>) -> Vec<u32> {
    let slots = (0..a.prev.len()).flat_map(|place| [a.generation[place], a.prev[place], a.next[place]]);
    [a.header[0], a.header[2]].into_iter().chain(slots).collect()
}

/// How many words before and behind what is lent must stay.
const GUARD: usize = 2;

/// Columns of one length and a header of another, with words around them, each of which is unlike all others.
fn noise(length: usize, header: usize) -> OwnedArena {
    let words = |first: u32, count: usize| {
        (first..).take(count + 2 * GUARD).map(|word| word.wrapping_mul(2_654_435_761)).collect::<Vec<u32>>()
    };
    let [prev, next, generation, payload] = [0, 1, 2, 3].map(|k| words(k << 22, length));
    OwnedArena { prev, next, generation, payload, header: words(4 << 22, header) }
}

/// Words that may stand there before the call, as many as of `noise`: those, each word 0, and each word the largest.
fn olds(length: usize, header: usize) -> [OwnedArena; 3] {
    let all = |word: u32| {
        let mut words = noise(length, header);
        words.prev.fill(word);
        words.next.fill(word);
        words.generation.fill(word);
        words.payload.fill(word);
        words.header.fill(word);
        words
    };
    [noise(length, header), all(0), all(u32::MAX)]
}

/// Words with an arena laid into them behind the guard.
fn laid(words: &OwnedArena, arena: &OwnedArena) -> OwnedArena {
    let (mut laid, length) = (words.clone(), arena.prev.len());
    laid.prev[GUARD..GUARD + length].copy_from_slice(&arena.prev);
    laid.next[GUARD..GUARD + length].copy_from_slice(&arena.next);
    laid.generation[GUARD..GUARD + length].copy_from_slice(&arena.generation);
    laid.payload[GUARD..GUARD + length].copy_from_slice(&arena.payload);
    laid.header[GUARD..GUARD + 4].copy_from_slice(&arena.header);
    laid
}

/// Lends so many words of each column, and of the header, behind the guard.
fn lent(words: &mut OwnedArena, lengths: [usize; 5]) -> ArenaMut<'_> {
    fn part<T>(words: &mut [T], length: usize) -> &mut [T] {
        &mut words[GUARD..GUARD + length]
    }
    let OwnedArena { prev, next, generation, payload, header } = words;
    let [of_prev, of_next, of_generation, of_payload, of_header] = lengths;
    ArenaMut {
        prev: part(prev, of_prev),
        next: part(next, of_next),
        generation: part(generation, of_generation),
        payload: part(payload, of_payload),
        header: part(header, of_header),
    }
}

/// The exported call.
fn called(arena: &mut ArenaMut<'_>, index: u32) -> SmallArenaResult {
    let ArenaMut { prev, next, generation, payload, header } = arena;
    // Safety: each pointer and count are those of one slice, which is borrowed alone until the call has answered.
    unsafe {
        chain_arena_small_arena(
            prev.as_mut_ptr(),
            prev.len(),
            next.as_mut_ptr(),
            next.len(),
            generation.as_mut_ptr(),
            generation.len(),
            payload.as_mut_ptr(),
            payload.len(),
            header.as_mut_ptr(),
            header.len(),
            index,
        )
    }
}

#[test]
fn all_words_in_range_make_90_small_arenas_in_order() {
    let of_length = |length| TRIED.iter().filter(|arena| arena.prev.len() == length).count();
    assert_eq!([0, 1, 2, 3].map(of_length), [1, 3, 13, 73]);
    assert_eq!(TRIED.len(), 90);
    assert!(TRIED.iter().all(|arena| is_small(arena.as_arena())));
    assert!(TRIED.windows(2).all(|pair| key(pair[0].as_arena()) < key(pair[1].as_arena())));
    assert_eq!(TRIED[0], OwnedArena::empty(0));
}

#[test]
fn an_arena_with_any_other_word_is_not_small() {
    // but for another small one, which some words make of it
    for arena in TRIED.iter() {
        for place in 0..arena.prev.len() {
            let wrongs = (0..5).flat_map(|word| {
                let mut wrongs = [0; 4].map(|_| arena.clone());
                wrongs[0].prev[place] = word;
                wrongs[1].next[place] = word;
                wrongs[2].generation[place] = word;
                wrongs[3].payload[place] = word;
                wrongs
            });
            for wrong in wrongs {
                assert_eq!(is_small(wrong.as_arena()), TRIED.contains(&wrong), "{wrong:?}");
            }
        }
        for place in 0..4 {
            for word in 0..5 {
                let mut wrong = arena.clone();
                wrong.header[place] = word;
                assert_eq!(is_small(wrong.as_arena()), TRIED.contains(&wrong), "{wrong:?}");
            }
        }
        let mut wrong = arena.clone();
        wrong.header.push(0);
        assert!(!is_small(wrong.as_arena()));
    }
}

#[test]
fn all_of_them_come_in_order_each_with_its_index() {
    let all: Vec<SmallArena> = small_arenas().collect();
    assert_eq!(all.len(), TRIED.len());
    for ((index, small), tried) in (0..).zip(&all).zip(TRIED.iter()) {
        assert_eq!(OwnedArena::from(small.as_arena()), *tried, "{index}");
        assert_eq!(small.index(), index);
        assert_eq!(SmallArena::new(index).as_ref(), Some(small));
        assert!(is_small(small.as_arena()));
        #[cfg(feature = "level-one")]
        assert_eq!(small.as_arena().check(), Ok(()), "{small:?}");
        let mut own = small.clone();
        assert_eq!(OwnedArena::from(own.as_arena_mut().as_arena()), *tried);
        let words = format!("SmallArena {{ index: {index}, arena: {:?} }}", tried.as_arena());
        assert_eq!(format!("{small:?}"), words);
    }
    for index in PAST {
        assert_eq!(SmallArena::new(index), None);
    }
}

#[test]
fn the_call_writes_the_arena_and_further_words_stay() {
    for (index, tried) in (0..).zip(TRIED.iter()) {
        let length = tried.prev.len();
        for room in [0, 1, 4] {
            let lengths = [length + room, length + room, length + room, length + room, 4];
            let mut olds = olds(length + room, 4).to_vec();
            // this very arena, and the one before it, whose stack is no longer
            let there = TRIED[..=index as usize].iter().rev().take(2);
            olds.extend(there.map(|arena| laid(&olds[0], arena)).collect::<Vec<_>>());
            for old in olds {
                let (mut words, expected) = (old.clone(), laid(&old, tried));
                let answer = called(&mut lent(&mut words, lengths), index);
                assert_eq!(answer, SmallArenaResult { number: 0, found: 1, length: length as u32 });
                assert_eq!(words, expected, "{index} with room for {room} over {old:?}");
                let mut words = old.clone();
                let mut columns = lent(&mut words, lengths);
                let small = columns.small_arena(index).unwrap().unwrap();
                assert_eq!(OwnedArena::from(small.as_arena()), *tried, "what is lent on");
                // with room above the stack it is an arena too
                #[cfg(feature = "level-one")]
                assert_eq!(columns.as_arena().check(), Ok(()));
                assert_eq!(words, expected, "{index} with room for {room} over {old:?}");
            }
        }
    }
    for length in [65_535, 65_536, LIMIT] {
        let old = noise(length, 4);
        let mut words = old.clone();
        let answer = called(&mut lent(&mut words, [length, length, length, length, 4]), 89);
        assert_eq!(answer, SmallArenaResult { number: 0, found: 1, length: 3 }, "{length}");
        assert!(words == laid(&old, &TRIED[89]), "{length}");
    }
}

#[test]
fn past_the_last_one_nothing_is_found_and_nothing_is_written() {
    for length in [0, 1, 3, 7] {
        for (index, old) in PAST.into_iter().flat_map(|index| olds(length, 4).map(|old| (index, old))) {
            let mut words = old.clone();
            let mut columns = lent(&mut words, [length, length, length, length, 4]);
            let answer = called(&mut columns, index);
            assert_eq!(answer, SmallArenaResult { number: 0, found: 0, length: 0 }, "{index}");
            assert!(columns.small_arena(index).unwrap().is_none());
            assert_eq!(words, old, "{index}");
        }
    }
}

#[test]
fn a_refusal_writes_nothing_and_1_comes_first() {
    let refused = |lengths: [usize; 5], index: u32, kind: RefusalKind| {
        let (longest, header) = (lengths[..4].iter().copied().max().unwrap(), lengths[4]);
        for old in olds(longest, header) {
            let mut words = old.clone();
            let mut columns = lent(&mut words, lengths);
            let answer = called(&mut columns, index);
            assert_eq!(answer, SmallArenaResult { number: kind as u32, found: 0, length: 0 }, "{lengths:?}");
            let refusal = columns.small_arena(index).unwrap_err();
            assert_eq!(answer.done(), Err(refusal));
            assert_eq!((refusal.kind(), refusal.slot(), refusal.side()), (kind, None, None));
            assert_eq!(refusal.to_string(), format!("refused with {}: {kind}", kind as u32));
            assert_eq!(words, old, "{lengths:?}");
        }
    };
    for index in (0..90).chain(PAST) {
        for length in [0, 1, 2, 3, 6] {
            for column in 0..4 {
                for other in [0, 1, 2, 3, 5, 7] {
                    let mut lengths = [length, length, length, length, 4];
                    lengths[column] = other;
                    if other != length {
                        refused(lengths, index, RefusalKind::Shape);
                    }
                }
            }
            for header in [0, 1, 3, 5, 6] {
                refused([length, length, length, length, header], index, RefusalKind::Shape);
            }
        }
    }
    for (index, tried) in (0..).zip(TRIED.iter()) {
        for short in 0..tried.prev.len() {
            refused([short, short, short, short, 4], index, RefusalKind::SliceLength);
        }
    }
}

#[test]
fn columns_that_are_too_long_are_refused() {
    let mut words = noise(LIMIT + 1, 4);
    let kept = words.clone();
    for index in [0, 89, 90, u32::MAX] {
        for (one, others) in
            [(LIMIT + 1, LIMIT + 1), (LIMIT, LIMIT + 1), (LIMIT + 1, LIMIT), (65_535, 65_536)]
        {
            let answer = called(&mut lent(&mut words, [others, others, others, one, 4]), index);
            let refused = SmallArenaResult { number: RefusalKind::Shape as u32, found: 0, length: 0 };
            assert_eq!(answer, refused, "{one} and {others}");
        }
    }
    assert!(words == kept, "a refused call has written nothing");
}

#[test]
fn the_iterator_knows_how_many_are_left_and_goes_to_any_of_them() {
    let all: Vec<SmallArena> = small_arenas().collect();
    assert_eq!((small_arenas().len(), small_arenas().size_hint()), (90, (90, Some(90))));
    assert_eq!((small_arenas().count(), small_arenas().last().as_ref()), (90, all.last()));
    for begun in 0..=90 {
        let from = || {
            let mut from = small_arenas();
            assert_eq!(from.by_ref().take(begun).count(), begun);
            from
        };
        assert_eq!((from().len(), from().clone().count()), (90 - begun, 90 - begun));
        assert!(from().eq(all[begun..].iter().cloned()), "a clone or what is left");
        for n in [0, 1, 5, 88, 89, 90, 91, 256, 1 << 16, 1 << 32, usize::MAX - 1, usize::MAX] {
            let (mut one, mut back) = (from(), from());
            let there = begun.checked_add(n).and_then(|place| all.get(place));
            assert_eq!(one.nth(n).as_ref(), there, "{n} after {begun}");
            assert_eq!(one.len(), 90usize.saturating_sub(begun).saturating_sub(n).saturating_sub(1));
            let there = 90usize.checked_sub(begun + 1).and_then(|left| left.checked_sub(n));
            assert_eq!(back.nth_back(n), there.map(|left| all[begun + left].clone()), "{n} from the end");
            assert_eq!(back.len(), one.len());
        }
    }
}

#[test]
fn the_iterator_goes_both_ways_and_ends_for_good() {
    let all: Vec<SmallArena> = small_arenas().collect();
    assert!(small_arenas().rev().eq(all.iter().rev().cloned()));
    let (mut both, mut indices) = (small_arenas(), vec![]);
    while let Some(small) = both.next() {
        indices.push(small.index());
        indices.extend(both.next_back().map(|small| small.index()));
    }
    assert_eq!(indices[..5], [0, 89, 1, 88, 2]);
    indices.sort_unstable();
    assert!(indices.into_iter().eq(0..90), "none twice where the two ends meet");
    for _ in 0..3 {
        assert_eq!((both.next(), both.next_back(), both.nth(1), both.nth_back(1)), (None, None, None, None));
        assert_eq!((both.len(), both.clone().last()), (0, None));
    }
    let mut far = small_arenas();
    assert_eq!(far.nth(1 << 40), None);
    assert_eq!((far.next(), far.next_back(), far.len()), (None, None, 0));
}

#[cfg(feature = "level-two")]
#[test]
fn a_small_arena_is_edited_without_the_others() {
    use chain_arena::{LinkInsertKind, Ptr};
    for small in small_arenas() {
        let (kept, mut edited) = (small.clone(), small.clone());
        let full = !small.as_arena().generation.contains(&0);
        let inserted = edited.as_arena_mut().insert(LinkInsertKind::Disconnected, 7);
        match inserted {
            Ok(Ptr { slot, generation: 2 }) => assert_eq!(slot, small.as_arena().header[2]),
            other => assert!(full && other.unwrap_err().kind() == RefusalKind::NotWithinCapacity),
        }
        assert_eq!(inserted.is_err(), edited == small, "{small:?}");
        assert_eq!(edited.as_arena().prev.len(), small.as_arena().prev.len(), "no room is added");
        edited.as_arena_mut().set_generation(3).unwrap();
        assert_eq!((edited.as_arena().header[3], edited.index()), (3, small.index()));
        assert_ne!(edited, small);
        assert_eq!((small.clone(), SmallArena::new(small.index())), (kept.clone(), Some(kept)));
    }
}

/// A small arena as the program prints it: the words of the header, then of each slot prev, next, generation and payload.
fn line(a: Arena<'_>) -> String {
    let decimal = |words: &[u32]| words.iter().map(u32::to_string).collect::<Vec<_>>().join(" ");
    let slots = (0..a.prev.len()).map(|k| decimal(&[a.prev[k], a.next[k], a.generation[k], a.payload[k]]));
    [decimal(a.header)].into_iter().chain(slots).collect::<Vec<_>>().join(" | ")
}

/// Whether what was printed is all small arenas, one on each line, or where it parts from them.
fn held(output: &str, arenas: impl Iterator<Item = String>) -> Result<(), String> {
    let lines = output.strip_suffix('\n').ok_or("the last line has no end")?;
    let (mut lines, mut arenas) = (lines.split('\n'), arenas);
    for number in 1.. {
        match (lines.next(), arenas.next()) {
            (None, None) => break,
            (line, arena) if line == arena.as_deref() => {}
            (line, arena) => return Err(format!("line {number} is {line:?} for {arena:?}")),
        }
    }
    Ok(())
}

/// A file of the repository.
fn read(name: &str) -> String {
    let path = Path::new(env!("CARGO_MANIFEST_DIR")).join("..").join(name);
    fs::read_to_string(path).unwrap_or_else(|error| panic!("{name}: {error}"))
}

#[test]
fn how_many_they_are_is_told() {
    let (count, last) = (small_arenas().len(), small_arenas().last().unwrap().index());
    let header = read("include/chain_arena.h").replace("\n *", "");
    for told in [
        format!("the small arena of an index, 0 to {last},"),
        format!("With an index over {last} found is 0"),
    ] {
        assert!(header.contains(&told), "{told}");
    }
    let readme = read("README.md");
    for told in
        [format!("They are {count},"), format!("small arenas pass the check\\n\", passed); /* {count} */")]
    {
        assert!(readme.contains(&told), "{told}");
    }
}

#[test]
fn the_stored_output_of_the_program_is_all_of_them() {
    let output = read("crates/small_printer/stdout");
    assert_eq!(held(&output, TRIED.iter().map(|arena| line(arena.as_arena()))), Ok(()));
    assert_eq!(
        held(&output, small_arenas().map(|small| line(small.as_arena()))),
        Ok(()),
        "as the call has them"
    );
}

#[test]
fn a_line_that_is_wrong_or_missing_or_one_too_many_is_found() {
    let right: Vec<String> = TRIED.iter().map(|arena| line(arena.as_arena())).collect();
    assert_eq!((&*right[0], &*right[3]), ("0 0 0 2", "1 0 1 2 | 0 1 0 0"));
    let held = |output: &str| held(output, right.iter().cloned());
    let text = |lines: &[String]| lines.iter().map(|line| format!("{line}\n")).collect::<String>();
    assert_eq!(held(&text(&right)), Ok(()));
    for number in 0..right.len() {
        let mut wrongs = vec![right.clone(); 3];
        wrongs[0].remove(number);
        wrongs[1].insert(number, right[number].clone());
        wrongs[2].swap(number, (number + 1) % right.len());
        let words: Vec<&str> = right[number].split(' ').collect();
        for place in 0..words.len() {
            for word in ["", "-", "7", "00", "|", "2 "] {
                let mut wrong = words.clone();
                wrong[place] = word;
                wrongs.push(right.clone());
                wrongs.last_mut().unwrap()[number] = wrong.join(" ");
            }
        }
        for wrong in wrongs {
            assert_eq!(held(&text(&wrong)).is_ok(), wrong == right, "line {number}: {:?}", wrong.get(number));
        }
    }
    let right = text(&right);
    for wrong in [right.trim_end(), &format!("{right}\n"), &format!(" {right}"), &right.repeat(2), ""] {
        assert!(held(wrong).is_err());
    }
}
