//! An arena that owns its columns, for programs that have a heap.

use alloc::vec;
use alloc::vec::Vec;

use crate::{Arena, ArenaMut, Header, Slot};

/// An arena of owned columns. Slot s has index s - 1 in the four columns. Nothing is asked of the words or of the lengths,
/// so it can hold a broken arena too.
///
/// ```
/// use chain_arena::OwnedArena;
///
/// let mut arena = OwnedArena::empty(3);
/// assert_eq!((arena.prev.len(), arena.capacity()), (3, 3));
/// # #[cfg(feature = "level-one")]
/// assert!(arena.checked()?.is_empty());
/// # #[cfg(feature = "level-two")] {
/// arena.as_arena_mut().insert(chain_arena::LinkInsertKind::Disconnected, 10)?;
/// assert_eq!(arena.payload, [10, 0, 0]);
/// # }
/// # Ok::<(), chain_arena::Refusal>(())
/// ```
#[derive(Clone, Debug, PartialEq, Eq, Hash)]
pub struct OwnedArena {
    /// Each link's neighbour before it, 0 for none
    pub prev: Vec<Slot>,
    /// Each link's neighbour after it, 0 for none; in a free slot the freelist pointer
    pub next: Vec<Slot>,
    /// Each link's generation, 0 in a free slot
    pub generation: Vec<u32>,
    /// Each link's payload, the user's own word
    pub payload: Vec<u32>,
    /// The words of a [`Header`]
    pub header: Vec<u32>,
}

/// An arena without slots.
impl Default for OwnedArena {
    fn default() -> Self {
        Self::empty(0)
    }
}

/// The words of a lent arena, copied. Like the arena it may be broken.
///
/// ```
/// use chain_arena::{Arena, OwnedArena};
///
/// let lent = Arena { prev: &[0], next: &[0], generation: &[5], payload: &[7], header: &[1, 1, 0, 5] };
/// let mut owned = OwnedArena::from(lent);
/// owned.payload[0] = 8;
/// assert_eq!((lent.payload, owned.as_arena().payload), (&[7][..], &[8][..]));
/// ```
impl From<Arena<'_>> for OwnedArena {
    fn from(arena: Arena<'_>) -> Self {
        Self {
            prev: arena.prev.to_vec(),
            next: arena.next.to_vec(),
            generation: arena.generation.to_vec(),
            payload: arena.payload.to_vec(),
            header: arena.header.to_vec(),
        }
    }
}

impl OwnedArena {
    /// An arena of no links that has room for `capacity` slots. Over [`Arena::CAPACITY_LIMIT`] the check refuses it.
    #[must_use]
    pub fn empty(capacity: usize) -> Self {
        let header = Header { stack_length: 0, link_count: 0, root: 0, generation: 2 };
        Self {
            prev: vec![0; capacity],
            next: vec![0; capacity],
            generation: vec![0; capacity],
            payload: vec![0; capacity],
            header: header.words().to_vec(),
        }
    }

    /// How many slots the longest column has room for.
    #[must_use]
    pub fn capacity(&self) -> usize {
        self.prev.len().max(self.next.len()).max(self.generation.len()).max(self.payload.len())
    }

    /// The arena to read.
    #[must_use]
    pub fn as_arena(&self) -> Arena<'_> {
        Arena {
            prev: &self.prev,
            next: &self.next,
            generation: &self.generation,
            payload: &self.payload,
            header: &self.header,
        }
    }

    /// The arena to edit and to compress.
    #[must_use]
    pub fn as_arena_mut(&mut self) -> ArenaMut<'_> {
        ArenaMut {
            prev: &mut self.prev,
            next: &mut self.next,
            generation: &mut self.generation,
            payload: &mut self.payload,
            header: &mut self.header,
        }
    }
}
