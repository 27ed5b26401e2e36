//! Demand 3 as a test of one canonical compression: the points of REFERENCE, What canonical compression keeps, looked at by
//! a program.

use std::collections::BTreeMap;

use crate::{Arena, Reading, model};

/// A chain as a list of words, open or closed.
#[derive(Clone, Debug, PartialEq, Eq, PartialOrd, Ord)]
pub struct Chain {
    /// Whether its last next names its first
    pub closed: bool,
    /// Its slots, or its payloads, in next order; a closed one in its least rotation
    pub words: Vec<u32>,
}

impl Chain {
    /// A chain, a closed one turned to its least rotation so that rotations are equal.
    fn new(closed: bool, mut words: Vec<u32>) -> Self {
        if closed {
            let turn = least_rotation(&words);
            words.rotate_left(turn);
        }
        Self { closed, words }
    }
}

/// Where the least rotation of a list begins.
fn least_rotation(words: &[u32]) -> usize {
    let n = words.len();
    let (mut i, mut j, mut k) = (0, 1, 0);
    while i < n && j < n && k < n {
        match words[(i + k) % n].cmp(&words[(j + k) % n]) {
            std::cmp::Ordering::Equal => {
                k += 1;
                continue;
            }
            std::cmp::Ordering::Greater => i += k + 1,
            std::cmp::Ordering::Less => j += k + 1,
        }
        if i == j {
            j += 1;
        }
        k = 0;
    }
    i.min(j)
}

/// The slots of every chain of an arena that passes the check, each chain once, in next order.
pub fn chains(a: &Arena) -> Vec<(bool, Vec<usize>)> {
    let mut seen = vec![false; a.stack() + 1];
    let mut chains = Vec::new();
    let starts = a.link_slots().filter(|&s| a.prev[s - 1] == 0);
    for s in starts.chain(a.link_slots()) {
        if !seen[s] {
            let closed = a.prev[s - 1] != 0;
            let slots = model::chain_of(a, s);
            for &t in &slots {
                seen[t] = true;
            }
            chains.push((closed, slots));
        }
    }
    chains
}

/// The chains of payloads, and how often each occurs.
pub fn payload_chains(a: &Arena) -> BTreeMap<Chain, usize> {
    let mut counted = BTreeMap::new();
    for (closed, slots) in chains(a) {
        let payloads = slots.iter().map(|&s| a.payload[s - 1]).collect();
        *counted.entry(Chain::new(closed, payloads)).or_insert(0) += 1;
    }
    counted
}

/// The pieces: the row of slots 1 to n, cut behind every slot whose next is not the slot to its right.
fn pieces(a: &Arena) -> Vec<Vec<usize>> {
    let mut pieces = vec![Vec::new()];
    for s in 1..=a.links() {
        pieces.last_mut().expect("never empty").push(s);
        if a.next[s - 1] as usize != s + 1 {
            pieces.push(Vec::new());
        }
    }
    pieces.retain(|piece| !piece.is_empty());
    pieces
}

/// The first point of demand 3 that one compression does not keep, if there is one.
pub fn broken(old: &Arena, new: &Arena, where_from: &[u32]) -> Option<&'static str> {
    let n = old.links();
    if new.header[..3] != [n as u32, n as u32, 0] {
        return Some("filled: the header's first words are n, n and 0");
    }
    if model::check(new) != 0 {
        return Some("filled: the compressed arena is well formed");
    }
    let mut came: Vec<usize> = where_from[..n].iter().map(|&s| s as usize).collect();
    came.sort_unstable();
    if came != old.link_slots().collect::<Vec<_>>() {
        return Some("renaming: where the slots came from are the old links, each once");
    }
    let from = |s: u32| if s == 0 { 0 } else { where_from[s as usize - 1] };
    for s in 1..=n {
        let was = where_from[s - 1] as usize;
        if new.payload[s - 1] != old.payload[was - 1] {
            return Some("renaming: each link has its payload");
        }
        if from(new.prev[s - 1]) != old.prev[was - 1] || from(new.next[s - 1]) != old.next[was - 1] {
            return Some("renaming: each link has its neighbours, under their new slots");
        }
    }
    let old_slots = |(closed, slots): (bool, Vec<usize>)| {
        Chain::new(closed, slots.into_iter().map(|s| s as u32).collect())
    };
    let mut old_chains: Vec<Chain> = chains(old).into_iter().map(old_slots).collect();
    let mut piece_chains = Vec::new();
    for piece in pieces(new) {
        let (first, last) = (piece[0], piece[piece.len() - 1]);
        let end = new.next[last - 1] as usize;
        if end != 0 && end != first {
            return Some("pieces: the last link of an open piece has no next");
        }
        let came = piece.iter().map(|&s| where_from[s - 1]).collect();
        piece_chains.push(Chain::new(end == first, came));
    }
    old_chains.sort_unstable();
    piece_chains.sort_unstable();
    if old_chains != piece_chains {
        return Some("pieces: each comes from an old chain, and each old chain from one");
    }
    if payload_chains(old) != payload_chains(new) {
        return Some("same chains: the arena holds what it held before");
    }
    None
}

/// The first point about further compressions that a later one does not keep, if there is one. Its where-from column is
/// given if it was not refused.
pub fn moved(first: &Arena, later: &Arena, where_from: Option<&[u32]>) -> Option<&'static str> {
    let n = first.links();
    if first.header[..3] != later.header[..3] {
        return Some("further compressions: the header's first three words stay");
    }
    if first.prev[..n] != later.prev[..n]
        || first.next[..n] != later.next[..n]
        || first.payload[..n] != later.payload[..n]
    {
        return Some("further compressions: the words of the links stay");
    }
    let reads = |from: &[u32]| from[..n].iter().enumerate().all(|(k, &s)| s as usize == k + 1);
    if where_from.is_some_and(|from| !reads(from)) {
        return Some("further compressions: every link came from its own slot");
    }
    None
}
