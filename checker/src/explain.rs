//! Why the check refuses an arena, with the slots and numbers at hand: one sentence, or for rule 11 one for each fault.
//!
//! Which rule fails is what the proved check says, and of rule 11 at which slot and side. This only looks for the words that
//! make it fail.

use chain_arena::{Arena, Header, OwnedArena, Refusal, Side};

use crate::by_slot::BySlot;
use crate::panel::Fault;
use crate::wording::{counted, grouped};

/// What stands behind the fault that the check names, if there are others.
const NAMED: &str = " (named by the check)";

/// Why a rule fails.
#[derive(Debug, PartialEq, Eq)]
pub struct Why {
    /// In one sentence; of rule 11, what is wrong on the side that the check names
    pub sentence: String,
    /// The slots at which it fails, rising, with a sentence for each fault; none if that lies with no single slot
    pub faults: Vec<Fault>,
}

impl Why {
    /// A reason that lies with no single slot.
    fn whole(sentence: String) -> Self {
        Self { sentence, faults: Vec::new() }
    }

    /// A reason that lies with a slot.
    fn at(slot: u32, sentence: String) -> Self {
        Self::some(Some(slot), sentence)
    }

    /// A reason that lies with a slot, if there is one.
    fn some(slot: Option<u32>, sentence: String) -> Self {
        let fault = |slot| Fault { slot, sentence: sentence.clone() };
        Self { faults: slot.map(fault).into_iter().collect(), sentence }
    }

    /// A line for each fault, and how many there are if there is more than one.
    pub fn text(&self) -> String {
        let lines: String = self.faults.iter().map(|fault| format!("  {}\n", fault.sentence)).collect();
        match self.faults.len() {
            0 => format!("  {}\n", self.sentence),
            1 => lines,
            _ => format!("{lines}  {}\n", self.count()),
        }
    }

    /// The one sentence, and how many faults there are if there is more than one.
    pub fn summary(&self) -> String {
        match self.faults.len() {
            0 | 1 => self.sentence.clone(),
            _ => format!("{} ({})", self.sentence, self.count()),
        }
    }

    /// How many faults there are.
    fn count(&self) -> String {
        let slots = self.faults.chunk_by(|one, other| one.slot == other.slot).count();
        format!("{} faults at {}", self.faults.len(), counted(slots, "slot"))
    }
}

/// Why the check refused the arena with 1 to 11.
pub fn explain(a: &OwnedArena, refusal: Refusal) -> Why {
    let header = a.header();
    match refusal.number() {
        1 => Why::whole(shape(a)),
        2 => {
            Why::whole(format!("the current generation is {}, but it must be at least 2", header.generation))
        }
        3 => Why::whole(over_capacity(a)),
        4 => Why::whole(format!(
            "the link count is {}, but the stack of {} has {}",
            header.link_count,
            counted(header.stack_length as usize, "slot"),
            counted(a.stack().filter(|&slot| a.is_link(slot)).count(), "link")
        )),
        5 => root(a),
        11 => interlinks(a, refusal),
        _ => freelist(a),
    }
}

/// Rule 1: lengths.
fn shape(a: &OwnedArena) -> String {
    let lengths = [a.prev.len(), a.next.len(), a.generation.len(), a.payload.len()];
    let [prev, next, generation, payload] = lengths;
    if lengths.iter().any(|&length| length != prev) {
        format!(
            "the columns differ in length: prev has {}, next {next}, generation {generation} and payload {payload}",
            counted(prev, "word")
        )
    } else if a.header.len() != Header::WORDS {
        format!("the header has {}, but it must have {}", counted(a.header.len(), "word"), Header::WORDS)
    } else {
        let most = grouped(Arena::CAPACITY_LIMIT);
        format!("the columns have {prev} words each, but the most is {most}")
    }
}

/// Rule 3: the header's counts against the capacity.
fn over_capacity(a: &OwnedArena) -> String {
    let (header, capacity) = (a.header(), a.capacity());
    let (name, count) = if header.link_count as usize > capacity {
        ("link count", header.link_count)
    } else {
        ("stack length", header.stack_length)
    };
    format!("the {name} is {count}, but the columns have only {}", counted(capacity, "slot"))
}

/// Rule 5: a root exactly if a slot is free.
fn root(a: &OwnedArena) -> Why {
    let root = a.header().root;
    match a.stack().find(|&slot| a.is_free(slot)) {
        Some(free) => Why::at(free, format!("there is no freelist root, but slot {free} is free")),
        None => Why::some(
            Some(root).filter(|&root| a.is_link(root)),
            format!("the freelist root is {root}, but no slot is free"),
        ),
    }
}

/// Rules 6 to 10: the freelist from its root on, up to where it fails.
fn freelist(a: &OwnedArena) -> Why {
    let header = a.header();
    let mut visited = vec![false; a.stack().count() + 1];
    let mut count = 0;
    let (mut from, mut slot) = (0, header.root);
    loop {
        let comes = match from {
            0 => format!("the freelist root is {slot}"),
            _ => format!("the freelist comes from slot {from} to {slot}"),
        };
        if slot == 0 {
            return Why::at(from, format!("{comes}, but its last slot must point at itself"));
        }
        if slot > header.stack_length {
            let above = format!("{comes}, which is above the stack length {}", header.stack_length);
            return Why::some(Some(from).filter(|&from| from != 0), above);
        }
        if a.is_link(slot) {
            return Why::at(slot, format!("{comes}, but slot {slot} is a link"));
        }
        if visited[slot as usize] {
            return Why::at(from, format!("{comes} again, and none of its slots points at itself"));
        }
        visited[slot as usize] = true;
        count += 1;
        if a.next(slot) == slot {
            return missed(a, slot, count, &visited);
        }
        (from, slot) = (slot, a.next(slot));
    }
}

/// Rule 10: the freelist ends in a slot after so many visits, but a free slot is not among those.
fn missed(a: &OwnedArena, last: u32, count: usize, visited: &[bool]) -> Why {
    let free = a.stack().filter(|&slot| a.is_free(slot));
    let all = free.clone().count();
    let missed = free.clone().find(|&slot| !visited[slot as usize]).unwrap_or(0);
    Why::at(
        missed,
        format!(
            "the freelist ends at slot {last} after {count} of {all} free slots: slot {missed} is not on it"
        ),
    )
}

/// Rule 11: what is wrong with each link's prev, and then with its next. The first of these is what the check names.
fn interlinks(a: &OwnedArena, refusal: Refusal) -> Why {
    let named = refusal.slot().zip(refusal.side());
    let sentence = named.and_then(|(slot, side)| wrong(a, slot, side));
    let links = a.stack().filter(|&slot| a.is_link(slot));
    let sides = links.flat_map(|slot| [Side::Prev, Side::Next].map(|side| (slot, side)));
    let all: Vec<_> = sides.filter_map(|(slot, side)| Some((slot, side, wrong(a, slot, side)?))).collect();
    let mark = |slot, side| if all.len() > 1 && named == Some((slot, side)) { NAMED } else { "" };
    let faults = all.iter().map(|(slot, side, wrong)| Fault {
        slot: *slot,
        sentence: format!("slot {slot}: {wrong}{}", mark(*slot, *side)),
    });
    Why { sentence: sentence.unwrap_or_else(|| refusal.kind().to_string()), faults: faults.collect() }
}

/// What is wrong with a link's neighbour on a side, which must name the link back on the other side.
fn wrong(a: &OwnedArena, slot: u32, side: Side) -> Option<String> {
    let (neighbour, stack) = (a.neighbour(slot, side), a.header().stack_length);
    let back = if side == Side::Prev { Side::Next } else { Side::Prev };
    let named = a.neighbour(neighbour, back);
    if neighbour == 0 {
        None
    } else if neighbour > stack {
        Some(format!("its {side} is {neighbour}, which is above the stack length {stack}"))
    } else if a.is_free(neighbour) {
        Some(format!("its {side} is {neighbour}, but slot {neighbour} is free"))
    } else if named == 0 {
        Some(format!("its {side} is {neighbour}, but slot {neighbour} has no {back}"))
    } else if named != slot {
        Some(format!("its {side} is {neighbour}, but the {back} of slot {neighbour} is {named}, not {slot}"))
    } else {
        None
    }
}

#[cfg(test)]
mod tests {
    use super::*;
    use crate::picture::Picture;
    use crate::random::{Random, add_room};

    /// The words that must stand in the sentence of each refusal from 2 on.
    const KEY: [&str; 10] = [
        "the current generation is",
        "but the columns have only",
        "the link count is",
        "root",
        "to 0, but its last slot must point at itself",
        "which is above the stack length",
        "is a link",
        "again, and none of its slots points at itself",
        "is not on it",
        "its ",
    ];

    /// Calls `look` with every arena of two slots whose words are small.
    fn every_small_arena(mut look: impl FnMut(&OwnedArena)) {
        let rows: Vec<[u32; 3]> = (0..32).map(|k| [k % 4, k / 4 % 4, k / 16 * 5]).collect();
        for (one, two) in rows.iter().flat_map(|one| rows.iter().map(move |two| (one, two))) {
            for k in 0..128 {
                look(&OwnedArena {
                    prev: vec![one[0], two[0]],
                    next: vec![one[1], two[1]],
                    generation: vec![one[2], two[2]],
                    payload: vec![10, 20],
                    header: vec![k % 4, k / 4 % 4, k / 16 % 4, 1 + k / 64],
                });
            }
        }
    }

    #[test]
    fn every_small_arena_is_explained_by_the_rule_that_fails() {
        let mut seen = [0; 12];
        every_small_arena(|a| {
            let Err(refusal) = a.as_arena().check() else { return seen[0] += 1 };
            let number = refusal.number() as usize;
            seen[number] += 1;
            let why = explain(a, refusal);
            assert!(why.sentence.contains(KEY[number - 2]), "{refusal} of {a:?}: {why:?}");
            assert!(
                why.faults.iter().all(|fault| a.stack().contains(&fault.slot)),
                "{refusal} of {a:?}: {why:?}"
            );
            assert!(why.faults.is_sorted_by_key(|fault| fault.slot), "{refusal} of {a:?}: {why:?}");
            let place = if number == 11 { format!("slot {}: ", why.faults[0].slot) } else { String::new() };
            let sentence = format!("{place}{}", why.sentence);
            assert!(
                why.faults.first().is_none_or(|fault| fault.sentence.trim_end_matches(NAMED) == sentence)
            );
        });
        assert!(seen.iter().enumerate().all(|(number, &count)| count > 0 || number == 1), "{seen:?}");
    }

    /// The sides of links at which rule 11 fails, as REFERENCE, Check tells it.
    fn broken_sides(a: &OwnedArena) -> Vec<(u32, Side)> {
        let links: Vec<u32> = a.stack().filter(|&slot| a.is_link(slot)).collect();
        let good = |neighbour, back: u32, slot| neighbour == 0 || links.contains(&neighbour) && back == slot;
        let mut broken = Vec::new();
        for &slot in &links {
            let (prev, next) = (a.prev(slot), a.next(slot));
            broken.extend((!good(prev, a.next(prev), slot)).then_some((slot, Side::Prev)));
            broken.extend((!good(next, a.prev(next), slot)).then_some((slot, Side::Next)));
        }
        broken
    }

    /// Holds that every fault of rule 11 is listed, by rising slots and the prev before the next, and that the check names the
    /// first of them. Answers the faults, none if it is not rule 11 that fails.
    fn listed(a: &OwnedArena) -> Vec<(u32, Side)> {
        let refusal = a.as_arena().check().err().filter(|refusal| refusal.number() == 11);
        let Some(refusal) = refusal else { return Vec::new() };
        let (why, broken) = (explain(a, refusal), broken_sides(a));
        let named = broken[0];
        assert_eq!((refusal.slot(), refusal.side()), (Some(named.0), Some(named.1)), "{a:?}");
        assert_eq!(why.faults.len(), broken.len(), "{a:?}: {why:?}");
        for (fault, &(slot, side)) in why.faults.iter().zip(&broken) {
            assert_eq!(fault.slot, slot, "{a:?}: {why:?}");
            assert!(fault.sentence.starts_with(&format!("slot {slot}: its {side} is ")), "{a:?}: {why:?}");
            let marked = broken.len() > 1 && (slot, side) == named;
            assert_eq!(fault.sentence.ends_with(NAMED), marked, "{a:?}: {why:?}");
        }
        assert!(why.sentence.starts_with(&format!("its {} is ", named.1)), "{a:?}: {why:?}");
        broken
    }

    #[test]
    fn every_fault_of_rule_11_is_listed_and_the_check_names_the_first() {
        every_small_arena(|a| drop(listed(a)));
        let mut random = Random::new(13);
        // How often the check named each side, alone at its slot or with the other one, and in how many slots rule 11 failed.
        let mut seen = [[0; 3]; 4];
        for round in 0..40_000 {
            let chains = random.chains(1 + round % 6, 4, 9);
            let mut a = random.arena(&chains, round % 3);
            let length = a.capacity();
            add_room(&mut a, round % 4);
            for _ in 0..1 + random.below(4) {
                let (place, word) = (random.below(length), random.below(length + 5) as u32);
                match random.below(2) {
                    0 => a.prev[place] = word,
                    _ if a.generation[place] != 0 => a.next[place] = word,
                    _ => {}
                }
            }
            let broken = listed(&a);
            let Some(&(slot, side)) = broken.first() else { continue };
            let both = broken.contains(&(slot, Side::Prev)) && broken.contains(&(slot, Side::Next));
            let slots = broken.chunk_by(|one, other| one.0 == other.0).count();
            seen[2 * usize::from(both) + usize::from(side == Side::Next)][slots.min(3) - 1] += 1;
        }
        // Where both sides fail, the prev is named.
        assert!(
            seen.iter().enumerate().all(|(k, seen)| seen.iter().all(|&count| (count > 100) == (k != 3))),
            "{seen:?}"
        );
    }

    #[test]
    fn every_slot_of_every_small_arena_is_in_one_row() {
        every_small_arena(|a| {
            let mut slots: Vec<u32> = Picture::of(a).rows.into_iter().flat_map(|row| row.slots).collect();
            slots.sort_unstable();
            assert!(slots.into_iter().eq(a.stack()), "{a:?}");
        });
    }
}
