//! Whether two arenas hold the same chains of payloads, closed ones up to rotation, and where they first differ (REFERENCE,
//! Chains).
//!
//! Both are compressed by the proved call. If the compressed slots have the same words, the theorem 'same words, same
//! chains' says that the arenas hold the same. The order of the chains depends on the old slots, so that arenas with other
//! words may hold the same too; then their chains are paired here.

use std::fmt::Display;

use chain_arena::OwnedArena;

use crate::Shown;
use crate::alike::{Alike, most_alike};
use crate::arguments::How;
use crate::by_slot::BySlot;
use crate::chains::{Chain, chains, without_partner};
use crate::compress::Compressed;
use crate::judged::{Judged, chain_counts};
use crate::panel::{Fault, Panel};

/// How many chains without a partner are shown, and how many links of each.
const CHAINS: usize = 5;
const LINKS: usize = 8;

/// One of the two arenas, compressed.
struct Side<'a> {
    /// A or B
    label: &'static str,
    judged: &'a Judged,
    compressed: Compressed,
}

impl<'a> Side<'a> {
    /// Compresses an arena. The generation does not matter, so that it is reset and cannot overflow.
    fn new(label: &'static str, judged: &'a Judged) -> Result<Self, String> {
        let how = How { reset: true, order_preserving: false };
        let compressed = Compressed::of(&judged.arena, how);
        let compressed = compressed.map_err(|refusal| format!("{}: {refusal}", judged.name))?;
        Ok(Self { label, judged, compressed })
    }

    /// Its name and what it holds, in numbers.
    fn line(&self) -> String {
        format!("{}: {}: {}\n", self.label, self.judged.name, chain_counts(&self.compressed.after))
    }

    /// The slot that a link of a chain had before the compression.
    fn old_slot(&self, chain: &Chain<'_>, place: usize) -> u32 {
        self.compressed.where_from.get(chain.first as usize - 1 + place).copied().unwrap_or(0)
    }

    /// A chain: its kind, its payloads and its old slots.
    fn chain(&self, chain: &Chain<'_>) -> String {
        let name = match (chain.closed, chain.len()) {
            (true, _) => "closed",
            (false, 1) => "lone",
            (false, _) => "open",
        };
        let payloads = arrows(chain.payloads.iter(), chain.len());
        let slots = arrows((0..chain.len()).map(|place| self.old_slot(chain, place)), chain.len());
        let noun = if chain.len() == 1 { "slot" } else { "slots" };
        format!("  only in {}  {name:<8}{payloads}  ({noun} {slots})\n", self.label)
    }

    /// The first few of the chains without a partner, and how many more there are.
    fn only(&self, chains: &[Chain<'_>]) -> String {
        let mut text: String = chains.iter().take(CHAINS).map(|chain| self.chain(chain)).collect();
        if chains.len() > CHAINS {
            text += &format!("  only in {}  and {} more\n", self.label, chains.len() - CHAINS);
        }
        text
    }

    /// The compressed arena to draw, with the chains that have no partner in the other one. `same` is how the two hold the
    /// same, if they do.
    fn panel(&self, chains: &[Chain<'_>], other: &str, same: Option<&str>) -> Panel {
        let faults = |chain: &Chain<'_>| {
            let (first, last) = (chain.first, chain.first + chain.len() as u32 - 1);
            let slots =
                if first == last { format!("slot {first}") } else { format!("slots {first} to {last}") };
            let sentence = format!("its chain, {slots}, has no partner in {other}");
            (first..=last).map(move |slot| Fault { slot, sentence: sentence.clone() })
        };
        let title = format!("{}: {}, canonically compressed with reset", self.label, self.judged.name);
        let mut panel = Panel {
            faults: chains.iter().flat_map(faults).collect(),
            where_from: self.compressed.where_from.clone(),
            ..Panel::new(title, self.compressed.after.clone())
        };
        let (label, only) = (self.label, chains_are(chains.len()));
        match same {
            Some(order) => panel.verdict += &format!(" and holds the same chains as {other}{order}"),
            None => {
                panel.told.push(format!("does not hold the same chains as {other}: {only} only in {label}"))
            }
        }
        panel
    }
}

/// Compares two arenas if both pass the check. The status is 0 if they hold the same.
pub fn compare(a: &Judged, b: &Judged) -> Result<Shown, String> {
    let refused: Vec<&Judged> = [a, b].into_iter().filter(|judged| judged.refused.is_some()).collect();
    if !refused.is_empty() {
        let text = refused.iter().map(|judged| judged.text()).collect::<String>() + "not compared\n";
        return Ok(Shown { text, panels: vec![not_compared("A", a), not_compared("B", b)], passes: false });
    }
    Ok(compared(&Side::new("A", a)?, &Side::new("B", b)?))
}

/// An arena to draw as it is, since it or the other one is refused.
fn not_compared(label: &str, judged: &Judged) -> Panel {
    let title = format!("{label}: {}", judged.name);
    Panel { title, told: vec!["not compared".to_string()], ..judged.panel() }
}

/// What two whole arenas have in common, and what not.
fn compared(a: &Side<'_>, b: &Side<'_>) -> Shown {
    let (chains_a, chains_b) = (chains(&a.compressed.after), chains(&b.compressed.after));
    let (only_a, only_b) = without_partner(&chains_a, &chains_b);
    let first = first_difference(&a.compressed.after, &b.compressed.after);
    let order = if first.is_some() { ", in another order" } else { "" };
    let same = Some(order).filter(|_| only_a.is_empty() && only_b.is_empty());
    let parting = |slot| parting((a, &chains_a, &only_a), (b, &chains_b, &only_b), slot);
    let indented = |sentence: String| format!("  {sentence}\n");
    let text = [
        a.line(),
        b.line(),
        verdict(only_a.len(), only_b.len(), same),
        a.only(&only_a),
        b.only(&only_b),
        parting("slot").map(indented).unwrap_or_default(),
        indented(words(first.as_deref())),
    ];
    let mut panels = vec![a.panel(&only_a, b.label, same), b.panel(&only_b, a.label, same)];
    if same.is_none() {
        // The boxes are those of the compressed arenas, so that the slots of the arenas themselves are old ones.
        panels[0].told.extend(parting("old slot"));
        panels[0].told.push(words(first.as_deref()));
    }
    Shown { text: text.concat(), panels, passes: same.is_some() }
}

/// Whether two arenas hold the same, and how; or how many of their chains have no partner.
fn verdict(only_a: usize, only_b: usize, same: Option<&str>) -> String {
    match same {
        Some(order) => format!("A and B hold the same chains{order}\n"),
        None => {
            let (only_a, only_b) = (chains_are(only_a), chains_are(only_b));
            format!("A and B do not hold the same chains: {only_a} only in A, {only_b} only in B\n")
        }
    }
}

/// What is said of the words of the compressed arenas, which may differ somewhere.
fn words(first: Option<&str>) -> String {
    let said = match first {
        Some(first) => format!("they first differ at slot {first}"),
        None => "both have the same words: prev, next and payload of each link".to_string(),
    };
    format!("canonically compressed, {said}")
}

/// A side, its chains, and those of them that have no partner.
type Sided<'s> = (&'s Side<'s>, &'s [Chain<'s>], &'s [Chain<'s>]);

/// Where the first chain without a partner parts from the chain of the other side that begins most like it. The slots of the
/// arenas themselves go by the word `slot`.
fn parting(a: Sided<'_>, b: Sided<'_>, slot: &str) -> Option<String> {
    let ((side, _, only), (other_side, all, others)) = if a.2.is_empty() { (b, a) } else { (a, b) };
    let chain = only.first()?;
    // A changed chain has no partner either; one that has is only looked at where there is no other.
    let others = if others.is_empty() { all } else { others };
    let alike = most_alike(chain, others.iter().copied().enumerate())?;
    let other = &others[alike.place];
    let Alike { from, other_from, shared, .. } = alike;
    if shared == chain.len() && shared == other.len() && chain.closed == other.closed {
        return Some(format!("{} holds the first of these more often than {}", side.label, other_side.label));
    }
    Some(format!(
        "the first only in {} and the chain of {} that begins most like it part at place {}: {} in {}, {} in {}",
        side.label,
        other_side.label,
        shared + 1,
        at(side, chain, (from, shared), slot),
        side.label,
        at(other_side, other, (other_from, shared), slot),
        other_side.label,
    ))
}

/// What a chain that is read from a place on has after so many links.
fn at(side: &Side<'_>, chain: &Chain<'_>, (from, links): (usize, usize), slot: &str) -> String {
    let number = |links: usize| side.old_slot(chain, (from + links) % chain.len());
    match (chain.from(from).nth(links), chain.closed) {
        (Some(payload), _) => format!("payload {payload} ({slot} {})", number(links)),
        (None, true) => format!("the way back to {slot} {}", number(0)),
        (None, false) => "the end".to_string(),
    }
}

/// The first slot at which the words of two compressed arenas differ, and how.
fn first_difference(a: &OwnedArena, b: &OwnedArena) -> Option<String> {
    const NAMES: [&str; 3] = ["prev", "next", "payload"];
    let words =
        |arena: &OwnedArena, slot| [arena.prev(slot), arena.next(slot), arena.payload(slot).unwrap_or(0)];
    let links = [a, b].map(|arena| *arena.stack().end());
    for slot in 1..=links[0].max(links[1]) {
        match links.map(|last| slot <= last) {
            [false, _] => return Some(format!("{slot}: no link in A, a link in B")),
            [_, false] => return Some(format!("{slot}: a link in A, no link in B")),
            [true, true] => {}
        }
        let (one, other) = (words(a, slot), words(b, slot));
        if let Some(k) = (0..NAMES.len()).find(|&k| one[k] != other[k]) {
            return Some(format!("{slot}: {} {} in A, {} in B", NAMES[k], one[k], other[k]));
        }
    }
    None
}

/// So many chains, with the verb.
fn chains_are(chains: usize) -> String {
    match chains {
        0 => "none is".to_string(),
        1 => "1 chain is".to_string(),
        _ => format!("{chains} chains are"),
    }
}

/// The first few words with arrows between them, and how many more there are.
fn arrows<T: Display>(words: impl Iterator<Item = T>, count: usize) -> String {
    let shown: Vec<String> = words.take(LINKS).map(|word| word.to_string()).collect();
    let more = if count > LINKS { format!(" -> .. {} more", count - LINKS) } else { String::new() };
    shown.join(" -> ") + &more
}

#[cfg(test)]
mod tests {
    use super::*;
    use crate::random::{Payloads, Random, in_order};

    /// Whether two chains of payloads are equal, closed ones up to rotation.
    fn equal((closed, word): &Payloads, (other_closed, other): &Payloads) -> bool {
        let rotated = |by: usize| word.iter().cycle().skip(by).take(word.len()).eq(other);
        let rotations = 0..if *closed { word.len() } else { 1 };
        closed == other_closed && word.len() == other.len() && rotations.into_iter().any(rotated)
    }

    /// How many links of each side are on chains that find no partner, tried chain by chain.
    fn left_over(a: &[Payloads], b: &[Payloads]) -> [usize; 2] {
        let (mut only_a, mut only_b) = (0, b.to_vec());
        for chain in a {
            match only_b.iter().position(|other| equal(chain, other)) {
                Some(place) => drop(only_b.remove(place)),
                None => only_a += chain.1.len(),
            }
        }
        [only_a, only_b.iter().map(|(_, payloads)| payloads.len()).sum()]
    }

    /// Compares two arenas that hold given chains, with what it is expected to say of them.
    fn try_both(a: (&[Payloads], OwnedArena), b: (&[Payloads], OwnedArena)) -> Shown {
        let [checked_a, checked_b] = [a.1, b.1].map(|arena| Judged::new("an arena".to_string(), arena));
        let shown = compare(&checked_a, &checked_b).unwrap();
        let left = left_over(a.0, b.0);
        assert_eq!(
            [shown.panels[0].faults.len(), shown.panels[1].faults.len()],
            left,
            "{a:?} {b:?}",
            a = a.0,
            b = b.0
        );
        assert_eq!(shown.passes, left == [0, 0]);
        shown
    }

    /// Every list of chains of so many links at most, in order, with payloads 1 and 2.
    fn lists(links: usize) -> Vec<Vec<Payloads>> {
        let mut lists = vec![Vec::new()];
        for first in 1..=links {
            for rest in self::lists(links - first) {
                for k in 0..2 << first {
                    let payloads = (1..=first).map(|place| 1 + (k >> place & 1)).collect();
                    let mut list = vec![(k & 1 == 0, payloads)];
                    list.extend(rest.iter().cloned());
                    lists.push(list);
                }
            }
        }
        lists
    }

    #[test]
    fn small_arenas_are_compared_as_by_hand() {
        let lists = lists(3);
        for (a, b) in lists.iter().flat_map(|a| lists.iter().map(move |b| (a, b))) {
            try_both((a, in_order(a)), (b, in_order(b)));
        }
    }

    #[test]
    fn random_arenas_are_compared_as_by_hand() {
        let mut random = Random::new(1);
        for round in 0..2000 {
            let (count, longest, payloads) = (1 + random.below(6), 1 + round % 5, 1 + random.below(3));
            let a = random.chains(count, longest, payloads);
            let b = random.chains(count, longest, payloads);
            let (arena_a, arena_b) = (random.arena(&a, round % 3), random.arena(&b, round % 4));
            try_both((&a, arena_a), (&b, arena_b));
        }
    }

    /// The chain with its links in the opposite order.
    fn reversed((closed, payloads): &Payloads) -> Payloads {
        (*closed, payloads.iter().rev().copied().collect())
    }

    #[test]
    fn renamed_arenas_hold_the_same_and_changed_ones_do_not() {
        let mut random = Random::new(2);
        let mut in_another_order = 0;
        for _ in 0..500 {
            let mut chains = random.chains(5, 6, 1000);
            chains.push(chains[0].clone());
            let arena = random.arena(&chains, 2);
            let mut again = chains.clone();
            random.shuffle(&mut again);
            for (closed, payloads) in &mut again {
                let by = random.below(payloads.len());
                payloads.rotate_left(if *closed { by } else { 0 });
            }
            let renamed = random.arena(&again, 3);
            let shown = try_both((&chains, arena.clone()), (&again, renamed));
            assert!(shown.passes);
            in_another_order += usize::from(shown.text.contains("in another order"));
            let place = random.below(again.len());
            let (closed, payloads) = &again[place];
            let mut other_payload = payloads.clone();
            other_payload[0] += 1000;
            let turned = reversed(&again[place]);
            for changed in [(*closed, other_payload), (!closed, payloads.clone()), turned] {
                let mut other = again.clone();
                let same = equal(&changed, &again[place]);
                other[place] = changed;
                let renamed = random.arena(&other, 1);
                let shown = try_both((&chains, arena.clone()), (&other, renamed));
                assert_eq!(shown.passes, same);
                assert_eq!(shown.text.contains("  the first only in "), !same, "{}", shown.text);
            }
            again.pop();
            let fewer = random.arena(&again, 1);
            assert!(!try_both((&chains, arena), (&again, fewer)).passes);
        }
        assert!(in_another_order > 0);
    }

    /// What is said of two arenas with given chains, from the third line on.
    fn said(a: &[Payloads], b: &[Payloads]) -> String {
        let shown = try_both((a, in_order(a)), (b, in_order(b)));
        shown.text.lines().skip(2).map(|line| format!("{line}\n")).collect()
    }

    #[test]
    fn the_place_where_chains_part_is_told() {
        let open = |payloads: &[u32]| (false, payloads.to_vec());
        let closed = |payloads: &[u32]| (true, payloads.to_vec());
        for (a, b, part) in [
            (open(&[1, 2, 3]), open(&[1, 2, 4]), "place 3: payload 3 (slot 3) in A, payload 4 (slot 3) in B"),
            (open(&[1, 2, 3]), open(&[1, 2]), "place 3: payload 3 (slot 3) in A, the end in B"),
            (open(&[1, 2]), open(&[1, 2, 3]), "place 3: the end in A, payload 3 (slot 3) in B"),
            (open(&[1, 2]), closed(&[2, 1]), "place 3: the end in A, the way back to slot 2 in B"),
            (
                closed(&[3, 1, 2]),
                closed(&[2, 4, 1]),
                "place 3: payload 3 (slot 1) in A, payload 4 (slot 2) in B",
            ),
            (
                closed(&[1, 2, 3]),
                closed(&[1, 2]),
                "place 3: payload 3 (slot 3) in A, the way back to slot 1 in B",
            ),
        ] {
            let text = said(&[a], &[b]);
            assert!(text.contains(&format!("part at {part}\n")), "{part}\n{text}");
        }
        let twice = said(&[open(&[1]), open(&[1])], &[open(&[1])]);
        assert!(twice.contains("\n  A holds the first of these more often than B\n"), "{twice}");
        let more = said(&[open(&[1])], &[open(&[1]), closed(&[2])]);
        assert!(more.contains("none is only in A, 1 chain is only in B"), "{more}");
        let nothing = said(&[], &[open(&[1])]);
        assert!(nothing.ends_with(" first differ at slot 1: no link in A, a link in B\n"), "{nothing}");
    }

    #[test]
    fn long_lists_are_cut() {
        let chains: Vec<Payloads> = (0..9).map(|k| (false, vec![k; 20])).collect();
        let text = said(&chains, &[]);
        assert_eq!(text.matches("  only in A  open ").count(), CHAINS);
        assert_eq!(text.matches(" -> .. 12 more").count(), 2 * CHAINS);
        assert!(text.contains("\n  only in A  and 4 more\n"), "{text}");
    }

    #[test]
    fn the_largest_arenas_are_compared() {
        let mut random = Random::new(4);
        let word = |count: u32, payload: fn(u32) -> u32| (0..count).map(payload).collect::<Vec<u32>>();
        let mut other = word(65_535, |_| 1);
        other[40_000] = 2;
        let shapes: [Vec<Payloads>; 6] = [
            vec![(true, word(65_535, |_| 1))],
            vec![(true, other)],
            vec![(false, word(65_535, |k| k % 2))],
            (0..65_535).map(|k| (k % 2 == 0, vec![k % 7])).collect(),
            (0..255).map(|k| (k % 2 == 0, word(257, |_| 3))).collect(),
            (0..255)
                .map(|k| (true, word(257, |k| k * k % 11).into_iter().chain([k]).collect()))
                .take(253)
                .collect(),
        ];
        let arenas: Vec<Judged> =
            shapes.iter().map(|chains| Judged::new(String::new(), random.arena(chains, 0))).collect();
        for (a, b) in arenas.iter().zip(arenas.iter().cycle().skip(1)) {
            assert!(compare(a, a).unwrap().passes);
            assert!(!compare(a, b).unwrap().passes);
        }
        let mut most = vec![(true, word(1_048_576, |_| 1))];
        let one = Judged::new(String::new(), in_order(&most));
        most[0].1[700_000] = 2;
        let other = Judged::new(String::new(), in_order(&most));
        assert!(compare(&one, &one).unwrap().passes);
        let text = compare(&one, &other).unwrap().text;
        assert!(
            text.contains(
                " part at place 1048576: payload 1 (slot 1048576) in A, payload 2 (slot 700001) in B"
            ),
            "{text}"
        );
    }
}
