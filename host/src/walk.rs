//! The walk along a chain: a state that is stepped, and an iterator over its links (REFERENCE, Walk).

use core::iter::FusedIterator;

use crate::{Arena, Ptr, Refusal};

/// The state of a walk. Any words are a state, and it may be kept while the arena changes.
///
/// ```
/// use chain_arena::{Arena, Ptr};
///
/// // 2 is closed alone; 1 -> 3 is open.
/// let arena = Arena {
///     prev: &[0, 2, 1],
///     next: &[3, 2, 0],
///     generation: &[5, 5, 5],
///     payload: &[10, 20, 30],
///     header: &[3, 3, 0, 5],
/// };
/// let mut walk = arena.walk_start(Ptr { slot: 2, generation: 5 })?;
/// assert_eq!(walk.step(&arena)?, Some(Ptr { slot: 2, generation: 5 }));
/// assert_eq!(walk.step(&arena)?, None);
/// # Ok::<(), chain_arena::Refusal>(())
/// ```
#[derive(Clone, Copy, Debug, PartialEq, Eq, Hash)]
pub struct Walk {
    /// The slot it began at
    pub start: u32,
    /// The slot that the next step will answer, 0 once the walk is over
    pub position: u32,
    /// 0: along next, any other word: along prev
    pub direction: u32,
    /// How many more steps may advance; at the start as many as there are links
    pub left: u32,
}

impl Walk {
    /// The link at the position, or none, and the state goes on. A refused step leaves the state as it was.
    ///
    /// Each step checks the whole arena. For an arena that does not change meanwhile,
    /// [`Checked::chain`](crate::Checked::chain) gives the same links after one check.
    ///
    /// # Errors
    ///
    /// 1 to 11 as [`Arena::check`]. Any words are a state, so that nothing else is refused.
    pub fn step(&mut self, arena: &Arena<'_>) -> Result<Option<Ptr>, Refusal> {
        let answer =
            call!(chain_arena_walk_step(arena, as_ptr, self.start, self.position, self.direction, self.left));
        *self = Self {
            start: answer.start,
            position: answer.position,
            direction: answer.direction,
            left: answer.left,
        };
        answer.done().map(|_| Ptr::answered(answer.slot, answer.generation))
    }
}

/// The links of a chain, one proved step for each: [`Arena::walk`], [`Arena::walk_from`].
#[derive(Clone, Debug)]
#[must_use = "iterators are lazy and do nothing unless consumed"]
pub struct Steps<'a> {
    arena: Arena<'a>,
    walk: Walk,
}

impl<'a> Steps<'a> {
    /// Steps from a state on, on an arena that has passed the check.
    pub(crate) fn new(arena: Arena<'a>, walk: Walk) -> Self {
        Self { arena, walk }
    }

    /// The state that the next step begins with.
    #[must_use]
    pub fn state(&self) -> Walk {
        self.walk
    }
}

impl Iterator for Steps<'_> {
    type Item = Ptr;

    /// The next link. The arena has passed the check and is borrowed, so that no step is refused.
    fn next(&mut self) -> Option<Ptr> {
        self.walk.step(&self.arena).ok().flatten()
    }
}

// A walk that has answered none answers none ever after.
impl FusedIterator for Steps<'_> {}
