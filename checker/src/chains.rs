//! Chains of payloads: read off a canonically compressed arena, and paired with those of another one (REFERENCE, Chains).

use std::cmp::Ordering;

use chain_arena::OwnedArena;

use crate::by_slot::BySlot;

/// A chain of a canonically compressed arena: the payloads of the slots from a first one on.
#[derive(Clone, Copy, Debug, PartialEq, Eq)]
pub struct Chain<'a> {
    pub closed: bool,
    pub first: u32,
    pub payloads: &'a [u32],
}

impl Chain<'_> {
    /// The number of its links.
    pub fn len(&self) -> usize {
        self.payloads.len()
    }

    /// Its payloads from a place on; those of a closed chain go round.
    pub fn from(&self, place: usize) -> impl Iterator<Item = u32> {
        let (before, after) = self.payloads.split_at(place);
        after.iter().chain(before).copied()
    }

    /// What it has in common with the chains that are equal to it, and with no other chain.
    fn key(&self) -> Key {
        let start = if self.closed { least_rotation(self.payloads) } else { 0 };
        (self.closed, self.from(start).collect())
    }
}

/// Whether a chain is closed, and its payloads, from the place on where a closed one reads lowest.
type Key = (bool, Vec<u32>);

/// The chains of a canonically compressed arena, in the order of their slots. Each has consecutive slots, and ends where the
/// next of a slot is not the following one (REFERENCE, What canonical compression keeps: Pieces).
pub fn chains(arena: &OwnedArena) -> Vec<Chain<'_>> {
    let mut chains = Vec::new();
    let mut first = 1;
    for slot in arena.stack() {
        if arena.next(slot) != slot + 1 {
            let payloads = &arena.payload[first as usize - 1..slot as usize];
            chains.push(Chain { closed: arena.next(slot) == first, first, payloads });
            first = slot + 1;
        }
    }
    chains
}

/// The chains of each side that have no partner on the other one, where as many as possible are paired with an equal one.
pub fn without_partner<'a>(a: &[Chain<'a>], b: &[Chain<'a>]) -> (Vec<Chain<'a>>, Vec<Chain<'a>>) {
    let mut a = sorted_by_key(a).into_iter().peekable();
    let mut b = sorted_by_key(b).into_iter().peekable();
    let (mut only_a, mut only_b) = (Vec::new(), Vec::new());
    loop {
        let order = match (a.peek(), b.peek()) {
            (None, None) => break,
            (Some((key, _)), Some((other, _))) => key.cmp(other),
            (Some(_), None) => Ordering::Less,
            (None, Some(_)) => Ordering::Greater,
        };
        let taken_a = a.next_if(|_| order.is_le());
        let taken_b = b.next_if(|_| order.is_ge());
        only_a.extend(taken_a.filter(|_| order.is_lt()).map(|(_, chain)| chain));
        only_b.extend(taken_b.filter(|_| order.is_gt()).map(|(_, chain)| chain));
    }
    only_a.sort_by_key(|chain| chain.first);
    only_b.sort_by_key(|chain| chain.first);
    (only_a, only_b)
}

/// The chains with their keys, in the order of these, equal ones in the order of their slots.
fn sorted_by_key<'a>(chains: &[Chain<'a>]) -> Vec<(Key, Chain<'a>)> {
    let mut keyed: Vec<_> = chains.iter().map(|chain| (chain.key(), *chain)).collect();
    keyed.sort_by(|(key, _), (other, _)| key.cmp(other));
    keyed
}

/// The place from which a word that goes round reads lowest. Two candidates are compared for as long as they agree; the
/// loser's letters up to there are no candidates any more, so that every letter is passed a fixed number of times.
fn least_rotation(word: &[u32]) -> usize {
    let length = word.len();
    let letter = |place: usize| word[place % length];
    let (mut one, mut other, mut agreed) = (0, 1, 0);
    while one < length && other < length && agreed < length {
        match letter(one + agreed).cmp(&letter(other + agreed)) {
            Ordering::Equal => {
                agreed += 1;
                continue;
            }
            Ordering::Less => other += agreed + 1,
            Ordering::Greater => one += agreed + 1,
        }
        agreed = 0;
        other += usize::from(one == other);
    }
    one.min(other)
}

#[cfg(test)]
mod tests {
    use super::*;

    /// Every word of so many letters, each below 3.
    fn words(length: u32) -> impl Iterator<Item = Vec<u32>> {
        (0..3u32.pow(length)).map(move |k| (0..length).map(|place| k / 3u32.pow(place) % 3).collect())
    }

    #[test]
    fn the_least_rotation_is_the_least() {
        for word in (1..=8).flat_map(words) {
            let chain = Chain { closed: true, first: 1, payloads: &word };
            let rotations = (0..word.len()).map(|place| chain.from(place).collect::<Vec<u32>>());
            assert_eq!(chain.key().1, rotations.min().unwrap(), "{word:?}");
        }
    }
}
