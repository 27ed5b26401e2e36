//! Level Three: the compressions of a lent arena (REFERENCE, Compression).

use crate::{ArenaMut, Header, Ptr, Refusal, Slot};

/// The calls of Level Three. Each begins with the check and gives its refusal, 1 to 11; a refused call has written nothing.
///
/// ```
/// use chain_arena::{ArenaMut, NewGeneration};
///
/// // 1 -> 5 and the lone links 2, 3 and 4.
/// let (mut prev, mut next) = ([0, 0, 0, 0, 1], [5, 0, 0, 0, 0]);
/// let (mut generation, mut payload, mut header) = ([5; 5], [10, 20, 30, 40, 50], [5, 5, 0, 5]);
/// let mut arena = ArenaMut {
///     prev: &mut prev,
///     next: &mut next,
///     generation: &mut generation,
///     payload: &mut payload,
///     header: &mut header,
/// };
/// let mut where_from = [0; 5];
/// let compressed = arena.compress_canonical(NewGeneration::Next, &mut where_from)?;
/// assert_eq!(compressed.where_from, [1, 5, 3, 4, 2]);
/// assert_eq!(payload, [10, 50, 30, 40, 20]);
/// # Ok::<(), chain_arena::Refusal>(())
/// ```
impl ArenaMut<'_> {
    /// Moves the links into the first slots and keeps their order. The report needs four words for each link. It cannot be
    /// part of the arena:
    ///
    /// ```compile_fail,E0499
    /// # use chain_arena::{ArenaMut, NewGeneration};
    /// # let (mut prev, mut next, mut generation, mut header) = ([0; 3], [0; 3], [0; 3], [0, 0, 0, 2]);
    /// # let mut payload = [0; 3];
    /// let mut arena = ArenaMut {
    ///     prev: &mut prev,
    ///     next: &mut next,
    ///     generation: &mut generation,
    ///     payload: &mut payload,
    ///     header: &mut header,
    /// };
    /// let _ = arena.compress_with(NewGeneration::Next, &mut payload);
    /// ```
    ///
    /// # Errors
    ///
    /// 1 to 11 as `Arena::check`, then 14 if the report is too short.
    pub fn compress_with<'r>(
        &mut self,
        generation: NewGeneration,
        report: &'r mut [u32],
    ) -> Result<CompressedWith<'r>, Refusal> {
        let answer = call!(chain_arena_compress_with(
            self,
            as_mut_ptr,
            generation.reset(),
            report.as_mut_ptr(),
            report.len()
        ));
        let done = answer.done()?;
        let Header { link_count, generation, .. } = self.words();
        let report = first(report.as_chunks().0, link_count);
        Ok(CompressedWith { report, generation, overflowed: done.overflowed })
    }

    /// Lays the chains out from slot 1 on, one behind the other, each along next. The where-from column must have the
    /// columns' length and gets the slot that each link had before.
    ///
    /// # Errors
    ///
    /// 1 to 11 as `Arena::check`, then 14 if the where-from column has not the columns' length.
    pub fn compress_canonical<'w>(
        &mut self,
        generation: NewGeneration,
        where_from: &'w mut [Slot],
    ) -> Result<CompressedCanonical<'w>, Refusal> {
        let answer = call!(chain_arena_compress_canonical(
            self,
            as_mut_ptr,
            generation.reset(),
            where_from.as_mut_ptr(),
            where_from.len()
        ));
        let done = answer.done()?;
        let Header { link_count, generation, .. } = self.words();
        let where_from = first(where_from, link_count);
        Ok(CompressedCanonical { where_from, generation, overflowed: done.overflowed })
    }

    /// The header's words by name, after a call that was not refused.
    fn words(&self) -> Header {
        Header::of(self.header).unwrap_or(Header { stack_length: 0, link_count: 0, root: 0, generation: 0 })
    }
}

/// So many of the items, or all.
fn first<T>(items: &[T], count: u32) -> &[T] {
    items.get(..count as usize).unwrap_or(items)
}

/// The generation that a compression gives to every link and makes the current one.
#[derive(Clone, Copy, Debug, Default, PartialEq, Eq, Hash)]
pub enum NewGeneration {
    /// The one after the current one; it stays if there is no link.
    #[default]
    Next,
    /// 2, with or without links. Pointers kept from before may then name other links.
    Reset,
}

impl NewGeneration {
    /// The word for it.
    fn reset(self) -> u32 {
        match self {
            Self::Next => 0,
            Self::Reset => 1,
        }
    }
}

/// A link that a compression moved, or left where it was.
#[derive(Clone, Copy, Debug, PartialEq, Eq)]
pub struct Moved<From> {
    /// What named it before: a [`Ptr`], or a [`Slot`] where the old generation is not told
    pub from: From,
    /// The pointer that names it now
    pub to: Ptr,
}

impl Moved<Ptr> {
    /// How many words of a report a link takes.
    pub const WORDS: usize = 4;
}

/// What an order-preserving compression did.
#[derive(Clone, Copy, Debug, PartialEq, Eq)]
pub struct CompressedWith<'r> {
    /// The words of each link, in slot order: its slot and generation before, its slot and generation afterwards
    pub report: &'r [[u32; Moved::<Ptr>::WORDS]],
    /// The current generation, which every link has now
    pub generation: u32,
    /// Whether the current generation overflowed
    pub overflowed: bool,
}

impl<'r> CompressedWith<'r> {
    /// The links, in slot order.
    #[must_use = "iterators are lazy and do nothing unless consumed"]
    pub fn links(&self) -> impl ExactSizeIterator<Item = Moved<Ptr>> + use<'r> {
        self.report.iter().map(|&[old_slot, old_generation, new_slot, new_generation]| Moved {
            from: Ptr { slot: old_slot, generation: old_generation },
            to: Ptr { slot: new_slot, generation: new_generation },
        })
    }
}

/// What a canonical compression did.
#[derive(Clone, Copy, Debug, PartialEq, Eq)]
pub struct CompressedCanonical<'w> {
    /// The slot that each link had before, by its new one: that of the link now in slot s has index s - 1
    pub where_from: &'w [Slot],
    /// The current generation, which every link has now
    pub generation: u32,
    /// Whether the current generation overflowed
    pub overflowed: bool,
}

impl<'w> CompressedCanonical<'w> {
    /// The links, in slot order.
    #[must_use = "iterators are lazy and do nothing unless consumed"]
    pub fn links(&self) -> impl ExactSizeIterator<Item = Moved<Slot>> + use<'w> {
        let generation = self.generation;
        let to = move |place| Ptr { slot: (place + 1) as Slot, generation };
        self.where_from.iter().enumerate().map(move |(place, &from)| Moved { from, to: to(place) })
    }
}
