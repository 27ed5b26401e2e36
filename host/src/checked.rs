//! Reading an arena that was checked once: plain Rust on columns that cannot change meanwhile (REFERENCE, Reading, Walk and
//! Frame clock).

use core::iter::FusedIterator;

use crate::{Arena, ArenaMut, Dot, Header, Link, LinkNoGen, Ptr, Refusal, RefusalKind, Slot, Window};

/// An arena that has passed the check, borrowed so that it cannot change.
///
/// Every call of [`Arena`] checks the whole arena first. Here the one proved check of [`Arena::checked`] serves all reads:
/// each takes constant time, a chain takes time in proportion to its links, and the lists of all links and of all chains in
/// proportion to the stack, but for a logarithm where chains are closed. What follows the check is safe Rust, not proved but
/// tested to answer what the proved calls answer.
///
/// ```
/// use chain_arena::{Arena, Header, Ptr};
///
/// // 3 -> 1, and 2 closed alone.
/// let arena = Arena {
///     prev: &[3, 2, 0],
///     next: &[0, 2, 1],
///     generation: &[5, 5, 5],
///     payload: &[10, 20, 30],
///     header: &Header { stack_length: 3, link_count: 3, root: 0, generation: 5 }.words(),
/// };
/// let checked = arena.checked()?;
/// for (p, link) in checked.links() {
///     assert_eq!(checked.link(p)?, link);
/// }
/// let payloads = |chain: chain_arena::Chain<'_>| chain.map(|(_, link)| link.payload).collect::<Vec<_>>();
/// assert!(checked.chains().map(payloads).eq([vec![30, 10], vec![20]]));
/// # Ok::<(), chain_arena::Refusal>(())
/// ```
///
/// The columns cannot be written to as long as it is in use:
///
/// ```compile_fail,E0502
/// # use chain_arena::{ArenaMut, Ptr};
/// # let (prev, next) = (&mut [0; 3], &mut [0; 3]);
/// # let (generation, payload, header) = (&mut [5; 3], &mut [0; 3], &mut [3, 3, 0, 5]);
/// let mut arena = ArenaMut { prev, next, generation, payload, header };
/// let checked = arena.checked()?;
/// arena.prev[0] = 7;
/// assert_eq!(checked.len(), 3);
/// # Ok::<(), chain_arena::Refusal>(())
/// ```
#[derive(Clone, Copy, Debug)]
#[must_use]
pub struct Checked<'a> {
    arena: Arena<'a>,
    header: Header,
}

impl<'a> Arena<'a> {
    /// Checks the arena once, for any number of reads.
    ///
    /// # Errors
    ///
    /// 1 to 11 as [`check`](Self::check).
    pub fn checked(&self) -> Result<Checked<'a>, Refusal> {
        self.check()?;
        let header = Header::of(self.header).ok_or(Refusal::of(RefusalKind::Shape))?;
        Ok(Checked { arena: *self, header })
    }
}

impl ArenaMut<'_> {
    /// Checks the arena once, for any number of reads: [`Arena::checked`].
    ///
    /// # Errors
    ///
    /// 1 to 11 as [`Arena::check`].
    pub fn checked(&self) -> Result<Checked<'_>, Refusal> {
        self.as_arena().checked()
    }
}

#[cfg(feature = "alloc")]
impl crate::OwnedArena {
    /// Checks the arena once, for any number of reads: [`Arena::checked`].
    ///
    /// # Errors
    ///
    /// 1 to 11 as [`Arena::check`].
    pub fn checked(&self) -> Result<Checked<'_>, Refusal> {
        self.as_arena().checked()
    }
}

impl<'a> Checked<'a> {
    /// The arena that was checked.
    #[must_use]
    #[inline]
    pub fn arena(&self) -> Arena<'a> {
        self.arena
    }

    /// The header's words by name.
    #[must_use]
    #[inline]
    pub fn header(&self) -> Header {
        self.header
    }

    /// How many links there are.
    #[must_use]
    #[inline]
    pub fn len(&self) -> usize {
        self.header.link_count as usize
    }

    /// Whether there is no link.
    #[must_use]
    #[inline]
    pub fn is_empty(&self) -> bool {
        self.len() == 0
    }

    /// The pointer to the link in a slot, none if there is no link.
    #[must_use]
    #[inline]
    pub fn ptr(&self, slot: Slot) -> Option<Ptr> {
        let generation = word(self.arena.generation, slot);
        (slot <= self.header.stack_length && generation != 0).then_some(Ptr { slot, generation })
    }

    /// Whether `p` names a link, that is whether it is not stale.
    #[must_use]
    #[inline]
    pub fn contains(&self, p: Ptr) -> bool {
        self.ptr(p.slot) == Some(p)
    }

    /// The link at `p`, its neighbours with their generations, as [`Arena::get_link`] answers it.
    ///
    /// # Errors
    ///
    /// 12 if `p` is stale.
    #[inline]
    pub fn link(&self, p: Ptr) -> Result<Link, Refusal> {
        self.good(p).map(|slot| self.link_at(slot))
    }

    /// The link at `p`, its neighbours by their slots, as [`Arena::get_link_no_gen`] answers it.
    ///
    /// # Errors
    ///
    /// 12 if `p` is stale.
    #[inline]
    pub fn link_no_gen(&self, p: Ptr) -> Result<LinkNoGen, Refusal> {
        let Link { prev, next, payload } = self.link(p)?;
        Ok(LinkNoGen { prev: prev.map(|p| p.slot), next: next.map(|p| p.slot), payload })
    }

    /// The payload of the link at `p`.
    ///
    /// # Errors
    ///
    /// 12 if `p` is stale.
    #[inline]
    pub fn payload(&self, p: Ptr) -> Result<u32, Refusal> {
        self.good(p).map(|slot| word(self.arena.payload, slot))
    }

    /// The link before the one at `p`.
    ///
    /// # Errors
    ///
    /// 12 if `p` is stale.
    #[inline]
    pub fn prev(&self, p: Ptr) -> Result<Option<Ptr>, Refusal> {
        self.good(p).map(|slot| self.ptr(word(self.arena.prev, slot)))
    }

    /// The link after the one at `p`.
    ///
    /// # Errors
    ///
    /// 12 if `p` is stale.
    #[inline]
    pub fn next(&self, p: Ptr) -> Result<Option<Ptr>, Refusal> {
        self.good(p).map(|slot| self.ptr(word(self.arena.next, slot)))
    }

    /// Whether the next of `p_prev` is `p_next`; false if one of them is stale.
    #[must_use]
    #[inline]
    pub fn are_neighbors(&self, p_prev: Ptr, p_next: Ptr) -> bool {
        self.next(p_prev) == Ok(Some(p_next))
    }

    /// The links of `p`'s chain in the order of [`Arena::walk`]: from `p` to the end of the chain, then from the link before
    /// `p` back to the beginning; a closed chain is gone round once.
    ///
    /// # Errors
    ///
    /// 12 if `p` is stale.
    #[inline]
    pub fn chain(&self, p: Ptr) -> Result<Chain<'a>, Refusal> {
        self.good(p).map(|slot| Chain::new(*self, slot))
    }

    /// The links of `p`'s chain along next: an open chain from its first link on, a closed one from `p` on. The first link
    /// is looked for at once, back along prev.
    ///
    /// # Errors
    ///
    /// 12 if `p` is stale.
    pub fn chain_from_first(&self, p: Ptr) -> Result<Chain<'a>, Refusal> {
        self.good(p).map(|slot| {
            let mut first = slot;
            loop {
                match word(self.arena.prev, first) {
                    0 => break Chain::new(*self, first),
                    prev if prev == slot => break Chain::new(*self, slot),
                    prev => first = prev,
                }
            }
        })
    }

    /// The links of `p`'s chain that are due in a window, in the order of [`chain`](Self::chain), as [`Arena::due_events`]
    /// reports their slots.
    ///
    /// # Errors
    ///
    /// 12 if `p` is stale.
    pub fn due(
        &self,
        p: Ptr,
        window: Window,
    ) -> Result<impl FusedIterator<Item = (Ptr, Link)> + Clone + use<'a>, Refusal> {
        let is_due = move |payload| Dot::new(payload).is_some_and(|dot| window.contains(dot));
        self.chain(p).map(|chain| chain.filter(move |(_, link)| is_due(link.payload)))
    }

    /// All chains, each along next: the open ones by their first links, then the closed ones by their lowest links, each
    /// begun there, in the order of the slots. To visit all of them takes time in proportion to the stack; where some are
    /// closed, at worst in proportion to the stack times its logarithm.
    pub fn chains(&self) -> Chains<'a> {
        Chains { checked: *self, open: self.links(), closed: self.links(), left: self.header.link_count }
    }

    /// All links in the order of their slots. To visit all of them takes time in proportion to the stack.
    pub fn links(&self) -> Links<'a> {
        Links { checked: *self, below: 0, left: self.header.link_count }
    }

    /// The slot of `p`, which must not be stale.
    #[inline]
    fn good(&self, p: Ptr) -> Result<Slot, Refusal> {
        if self.contains(p) { Ok(p.slot) } else { Err(Refusal::of(RefusalKind::StalePointer)) }
    }

    /// The link in a slot that has one. Its neighbours are links too, since the arena has passed the check.
    #[inline]
    fn link_at(&self, slot: Slot) -> Link {
        let neighbour =
            |slot| (slot != 0).then(|| Ptr { slot, generation: word(self.arena.generation, slot) });
        Link {
            prev: neighbour(word(self.arena.prev, slot)),
            next: neighbour(word(self.arena.next, slot)),
            payload: word(self.arena.payload, slot),
        }
    }

    /// The link in a slot that has one, with its pointer.
    #[inline]
    fn item(&self, slot: Slot) -> (Ptr, Link) {
        (Ptr { slot, generation: word(self.arena.generation, slot) }, self.link_at(slot))
    }
}

/// The links of a chain, each with its pointer: [`Checked::chain`], [`Checked::chain_from_first`], [`Checked::chains`].
#[derive(Clone, Debug)]
#[must_use = "iterators are lazy and do nothing unless consumed"]
pub struct Chain<'a> {
    checked: Checked<'a>,
    start: Slot,
    position: Slot,
    along_next: bool,
}

impl<'a> Chain<'a> {
    /// The chain of a link.
    #[inline]
    fn new(checked: Checked<'a>, start: Slot) -> Self {
        Self { checked, start, position: start, along_next: true }
    }

    /// Whether the chain is closed, that is whether its links go round. It does not matter how many of them were taken
    /// already; the time is in proportion to the chain.
    #[must_use]
    pub fn is_closed(&self) -> bool {
        let mut slot = self.start;
        loop {
            match word(self.checked.arena.next, slot) {
                0 => return false,
                next if next == self.start => return true,
                next => slot = next,
            }
        }
    }

    /// The slot after the position: at the end of an open chain the start's prev, at that of a closed chain none.
    #[inline]
    fn onward(&mut self) -> Slot {
        let Arena { prev, next, .. } = self.checked.arena;
        if !self.along_next {
            return word(prev, self.position);
        }
        match word(next, self.position) {
            0 => {
                self.along_next = false;
                word(prev, self.start)
            }
            next if next == self.start => 0,
            next => next,
        }
    }
}

impl Iterator for Chain<'_> {
    type Item = (Ptr, Link);

    #[inline]
    fn next(&mut self) -> Option<(Ptr, Link)> {
        let slot = self.position;
        if slot == 0 {
            return None;
        }
        self.position = self.onward();
        Some(self.checked.item(slot))
    }
}

// The position stays 0.
impl FusedIterator for Chain<'_> {}

/// All links in the order of their slots, each with its pointer: [`Checked::links`].
#[derive(Clone, Debug)]
#[must_use = "iterators are lazy and do nothing unless consumed"]
pub struct Links<'a> {
    checked: Checked<'a>,
    below: Slot,
    left: u32,
}

impl Links<'_> {
    /// The slot of the next link.
    #[inline]
    fn next_slot(&mut self) -> Option<Slot> {
        self.left = self.left.checked_sub(1)?;
        loop {
            self.below = self.below.checked_add(1)?;
            if self.checked.ptr(self.below).is_some() {
                return Some(self.below);
            }
        }
    }
}

impl Iterator for Links<'_> {
    type Item = (Ptr, Link);

    #[inline]
    fn next(&mut self) -> Option<(Ptr, Link)> {
        self.next_slot().map(|slot| self.checked.item(slot))
    }

    fn size_hint(&self) -> (usize, Option<usize>) {
        (self.left as usize, Some(self.left as usize))
    }
}

impl ExactSizeIterator for Links<'_> {}

// Once no link is left, none is.
impl FusedIterator for Links<'_> {}

/// All chains: [`Checked::chains`].
#[derive(Clone, Debug)]
#[must_use = "iterators are lazy and do nothing unless consumed"]
pub struct Chains<'a> {
    checked: Checked<'a>,
    /// The links that may begin an open chain, and those that may begin a closed one
    open: Links<'a>,
    closed: Links<'a>,
    /// How many links are on chains that were not given yet
    left: u32,
}

impl Chains<'_> {
    /// The slot that the next chain begins with. Where the open chains have all links, no closed one is looked for.
    fn next_first(&mut self) -> Option<Slot> {
        while let Some(slot) = self.open.next_slot() {
            if word(self.checked.arena.prev, slot) == 0 {
                return Some(slot);
            }
        }
        while self.left > 0 {
            let slot = self.closed.next_slot()?;
            if self.begins_closed(slot) {
                return Some(slot);
            }
        }
        None
    }

    /// Whether a link is the lowest one of a closed chain. From the link the chain is followed both ways at once, up to a lower
    /// link or to an end. So each link but the lowest takes as many steps as the nearer of the two is away, which makes for all
    /// links of a chain together at most their number times its logarithm.
    fn begins_closed(&self, slot: Slot) -> bool {
        let Arena { prev, next, .. } = self.checked.arena;
        let (mut back, mut forth) = (slot, slot);
        loop {
            (back, forth) = (word(prev, back), word(next, forth));
            if forth == slot {
                return true;
            }
            // The end of an open chain is 0, which is lower than any slot.
            if back < slot || forth < slot {
                return false;
            }
        }
    }

    /// How many links a chain has from its first one on.
    fn length(&self, first: Slot) -> u32 {
        let (mut slot, mut length) = (first, 0);
        loop {
            slot = word(self.checked.arena.next, slot);
            length += 1;
            if slot == 0 || slot == first {
                return length;
            }
        }
    }
}

impl<'a> Iterator for Chains<'a> {
    type Item = Chain<'a>;

    fn next(&mut self) -> Option<Chain<'a>> {
        let first = self.next_first()?;
        self.left -= self.length(first);
        Some(Chain::new(self.checked, first))
    }
}

// Both iterators over links are fused.
impl FusedIterator for Chains<'_> {}

/// The word of a column at a slot, 0 where it has none.
pub(crate) fn word(column: &[u32], slot: Slot) -> u32 {
    // Slot 0 comes to the largest index there is, at which no column has a word.
    column.get((slot as usize).wrapping_sub(1)).copied().unwrap_or(0)
}
