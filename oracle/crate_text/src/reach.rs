//! A way to what the crate keeps to itself: the base arena inside a chain arena.

use crate::arena::Arena;
use crate::chain::{ChainArena, LinkNoGen};
use crate::fundamental::Ptr;
use crate::stack::ArenaBacking;

/// The base arena in which a chain arena keeps its links.
pub fn base<P: Ptr, T, B: ArenaBacking>(chain: &ChainArena<P, T, B>) -> &Arena<P, LinkNoGen<P, T>, B> {
    &chain.a
}

/// The base arena in which a chain arena keeps its links, to put slots, link count and root into.
pub fn base_mut<P: Ptr, T, B: ArenaBacking>(
    chain: &mut ChainArena<P, T, B>,
) -> &mut Arena<P, LinkNoGen<P, T>, B> {
    &mut chain.a
}
