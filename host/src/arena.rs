//! The lent arena: four columns and a header (REFERENCE, Arena).

use crate::Slot;

/// A lent arena to read. Slot s has index s - 1 in the four columns.
///
/// Its calls are those of Level One. They write nothing, so it does no harm if two of the slices are the same memory. To
/// read much of an arena, begin with `checked`, which checks it once for all.
#[derive(Clone, Copy, Debug)]
pub struct Arena<'a> {
    /// Each link's neighbour before it, 0 for none
    pub prev: &'a [Slot],
    /// Each link's neighbour after it, 0 for none; in a free slot the freelist pointer
    pub next: &'a [Slot],
    /// Each link's generation, 0 in a free slot
    pub generation: &'a [u32],
    /// Each link's payload, the user's own word
    pub payload: &'a [u32],
    /// The words of a [`Header`]
    pub header: &'a [u32],
}

/// A lent arena to edit and to compress. Slot s has index s - 1 in the four columns.
///
/// Its calls are those of Levels Two and Three, and `small_arena`, which writes a small arena; [`as_arena`](Self::as_arena) leads
/// to those of Level One.
#[derive(Debug)]
pub struct ArenaMut<'a> {
    /// Each link's neighbour before it, 0 for none
    pub prev: &'a mut [Slot],
    /// Each link's neighbour after it, 0 for none; in a free slot the freelist pointer
    pub next: &'a mut [Slot],
    /// Each link's generation, 0 in a free slot
    pub generation: &'a mut [u32],
    /// Each link's payload, the user's own word
    pub payload: &'a mut [u32],
    /// The words of a [`Header`]
    pub header: &'a mut [u32],
}

impl Arena<'_> {
    /// How many slots a column may have at most: the check refuses longer ones.
    pub const CAPACITY_LIMIT: usize = 1_048_576;
}

impl ArenaMut<'_> {
    /// The arena to read.
    #[must_use]
    pub fn as_arena(&self) -> Arena<'_> {
        Arena {
            prev: self.prev,
            next: self.next,
            generation: self.generation,
            payload: self.payload,
            header: self.header,
        }
    }
}

/// The header's words by name.
///
/// ```
/// use chain_arena::Header;
///
/// let empty = Header { stack_length: 0, link_count: 0, root: 0, generation: 2 };
/// assert_eq!(empty.words(), [0, 0, 0, 2]);
/// assert_eq!(Header::of(&[0, 0, 0, 2]), Some(empty));
/// assert_eq!(Header::of(&[0, 0, 0]), None);
/// ```
#[derive(Clone, Copy, Debug, PartialEq, Eq)]
pub struct Header {
    /// The stack is the slots from 1 up to this one; each of them is a link or free
    pub stack_length: u32,
    /// How many links the stack has
    pub link_count: u32,
    /// The first slot of the freelist, 0 for none
    pub root: u32,
    /// The current generation, which insertions and compressions give to links, and which removals raise
    pub generation: u32,
}

impl Header {
    /// How many words a header is.
    pub const WORDS: usize = 4;

    /// The words in the order in which they are lent.
    #[must_use]
    pub const fn words(self) -> [u32; Self::WORDS] {
        [self.stack_length, self.link_count, self.root, self.generation]
    }

    /// The header of lent words, none if their number is another.
    #[must_use]
    pub fn of(words: &[u32]) -> Option<Self> {
        let &[stack_length, link_count, root, generation] = words else { return None };
        Some(Self { stack_length, link_count, root, generation })
    }
}
