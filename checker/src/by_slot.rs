//! Reading any arena by slot, whole or broken: a word that is not there reads as 0, but for a payload.

use chain_arena::{Header, OwnedArena, Side};

/// What stands in the slots of an arena.
pub trait BySlot {
    /// The header's words by name; missing ones are 0.
    fn header(&self) -> Header;
    /// The slots of the stack, as far as the columns go.
    fn stack(&self) -> std::ops::RangeInclusive<u32>;
    /// The prev of a slot.
    fn prev(&self, slot: u32) -> u32;
    /// The next of a slot.
    fn next(&self, slot: u32) -> u32;
    /// The generation of a slot.
    fn generation(&self, slot: u32) -> u32;
    /// The payload of a slot; none where its column has ended.
    fn payload(&self, slot: u32) -> Option<u32>;

    /// The neighbour of a slot on a side.
    fn neighbour(&self, slot: u32, side: Side) -> u32 {
        match side {
            Side::Prev => self.prev(slot),
            Side::Next => self.next(slot),
        }
    }

    /// Whether a slot of the stack is a link.
    fn is_link(&self, slot: u32) -> bool {
        self.stack().contains(&slot) && self.generation(slot) != 0
    }

    /// Whether a slot of the stack is free.
    fn is_free(&self, slot: u32) -> bool {
        self.stack().contains(&slot) && self.generation(slot) == 0
    }
}

impl BySlot for OwnedArena {
    fn header(&self) -> Header {
        let word = |place| self.header.get(place).copied().unwrap_or(0);
        Header { stack_length: word(0), link_count: word(1), root: word(2), generation: word(3) }
    }

    fn stack(&self) -> std::ops::RangeInclusive<u32> {
        1..=self.header().stack_length.min(self.capacity() as u32)
    }

    fn prev(&self, slot: u32) -> u32 {
        at(&self.prev, slot).unwrap_or(0)
    }

    fn next(&self, slot: u32) -> u32 {
        at(&self.next, slot).unwrap_or(0)
    }

    fn generation(&self, slot: u32) -> u32 {
        at(&self.generation, slot).unwrap_or(0)
    }

    fn payload(&self, slot: u32) -> Option<u32> {
        at(&self.payload, slot)
    }
}

/// The word of a column at a slot, none where it has ended.
fn at(column: &[u32], slot: u32) -> Option<u32> {
    (slot as usize).checked_sub(1).and_then(|place| column.get(place)).copied()
}
