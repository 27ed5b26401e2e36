//! Pointers as they are written, and why one is stale.

use chain_arena::{OwnedArena, Ptr};

use crate::by_slot::BySlot;
use crate::judged::off_stack;

/// A pointer as it is written.
pub fn written(p: Ptr) -> String {
    format!("{}:{}", p.slot, p.generation)
}

/// Why a pointer names no link, if it names none.
pub fn stale(a: &OwnedArena, p: Ptr) -> Option<String> {
    let why = unlinked(a, p.slot).or_else(|| {
        let generation = a.generation(p.slot);
        (generation != p.generation).then(|| format!("slot {} holds generation {generation}", p.slot))
    })?;
    Some(format!("{} is stale: {why}", written(p)))
}

/// Why a slot holds no link, if it holds none.
pub fn unlinked(a: &OwnedArena, slot: u32) -> Option<String> {
    match slot {
        0 => Some("there is no slot 0".to_string()),
        _ if !a.stack().contains(&slot) => Some(off_stack(a, slot)),
        _ => a.is_free(slot).then(|| format!("slot {slot} is free")),
    }
}
