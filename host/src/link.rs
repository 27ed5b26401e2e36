//! Pointers and links as the calls answer them (REFERENCE, Pointers and generations, and Reading).

use crate::ffi::{LinkNoGenResult, LinkResult};

/// A slot number; the first slot is 1, and 0 is none.
pub type Slot = u32;

/// A pointer: a slot and the generation that the link there must have.
#[derive(Clone, Copy, Debug, PartialEq, Eq, PartialOrd, Ord, Hash)]
pub struct Ptr {
    /// The slot
    pub slot: Slot,
    /// The generation
    pub generation: u32,
}

impl Ptr {
    /// The pointer of two answered words, none if the slot is 0.
    pub(crate) fn answered(slot: u32, generation: u32) -> Option<Self> {
        answered_slot(slot).map(|slot| Self { slot, generation })
    }
}

/// The slot of an answered word, none if it is 0.
pub(crate) fn answered_slot(word: u32) -> Option<Slot> {
    (word != 0).then_some(word)
}

/// A link, its neighbours with their generations.
#[derive(Clone, Copy, Debug, PartialEq, Eq)]
pub struct Link {
    /// The neighbour before it
    pub prev: Option<Ptr>,
    /// The neighbour after it
    pub next: Option<Ptr>,
    /// Its payload
    pub payload: u32,
}

impl From<LinkResult> for Link {
    fn from(answer: LinkResult) -> Self {
        Self {
            prev: Ptr::answered(answer.prev, answer.prev_generation),
            next: Ptr::answered(answer.next, answer.next_generation),
            payload: answer.payload,
        }
    }
}

/// A link, its neighbours by their slots.
#[derive(Clone, Copy, Debug, PartialEq, Eq)]
pub struct LinkNoGen {
    /// The slot before it
    pub prev: Option<Slot>,
    /// The slot after it
    pub next: Option<Slot>,
    /// Its payload
    pub payload: u32,
}

impl From<LinkNoGenResult> for LinkNoGen {
    fn from(answer: LinkNoGenResult) -> Self {
        Self { prev: answered_slot(answer.prev), next: answered_slot(answer.next), payload: answer.payload }
    }
}
