//! The small arenas, all of them and in order, to try programs on (REFERENCE, Small arenas).

use core::fmt;
use core::iter::FusedIterator;
use core::ops::Range;

use crate::{Arena, ArenaMut, Header, Refusal, Slot};

/// The longest stack that a small arena has.
const LONGEST: usize = 3;

/// More than there can be small arenas. Stack length, root, three prevs and three nexts are at most 3, two bits each, and three
/// generations are 0 or 2, one bit each: so 19 bits tell one from all others. A right archive ends the search long before.
const MOST: u32 = 1 << 19;

/// Every small arena, in order, as the proved call writes them: 1 with no slot, 3 with one, 13 with two and 73 with three.
///
/// A small arena passes the check; its stack has at most three slots and fills the columns; its links and its header have
/// generation 2; the payload of a link is its slot; and what nobody reads is 0. The shorter stack comes first, then the lower
/// root; after that the words of slot 1, 2 and 3 decide, of each slot generation before prev and prev before next. By proof the
/// list has every small arena, each at one place.
///
/// ```
/// use chain_arena::small_arenas;
///
/// assert_eq!(small_arenas().len(), 90);
/// for small in small_arenas() {
///     # #[cfg(feature = "level-one")]
///     assert_eq!(small.as_arena().check(), Ok(()), "{small:?}");
///     # #[cfg(feature = "level-two")] {
///     let mut edited = small.clone(); // words of its own
///     edited.as_arena_mut().set_generation(3)?;
///     assert_eq!((edited.index(), edited.as_arena().header[3]), (small.index(), 3));
///     # }
/// }
/// # Ok::<(), chain_arena::Refusal>(())
/// ```
pub fn small_arenas() -> SmallArenas {
    // The call tells where they end. Only an archive that is wrong tells no end, and then there are too many for any test.
    let end = (0..MOST).find(|&index| SmallArena::new(index).is_none()).unwrap_or(MOST);
    SmallArenas { indices: 0..end }
}

/// A small arena with words of its own, which can be read and edited: [`small_arenas`] gives all of them.
///
/// Its columns are as long as its stack was when it was made, and stay so. For room above the stack, lend longer columns to
/// [`ArenaMut::small_arena`].
///
/// ```
/// use chain_arena::{Header, SmallArena};
///
/// let mut small = SmallArena::new(6).unwrap(); // 1 -> 2
/// assert_eq!((small.as_arena().prev, small.as_arena().next), (&[0, 1][..], &[2, 0][..]));
/// assert_eq!((small.as_arena().generation, small.as_arena().payload), (&[2, 2][..], &[1, 2][..]));
/// # #[cfg(feature = "level-two")] {
/// use chain_arena::Ptr;
///
/// small.as_arena_mut().remove(Ptr { slot: 1, generation: 2 })?;
/// let header = Header { stack_length: 2, link_count: 1, root: 1, generation: 3 };
/// assert_eq!(Header::of(small.as_arena().header), Some(header));
/// # }
/// # let _ = Header::of(small.as_arena_mut().header);
/// # Ok::<(), chain_arena::Refusal>(())
/// ```
#[derive(Clone, PartialEq, Eq, Hash)]
pub struct SmallArena {
    index: u32,
    length: usize,
    prev: [Slot; LONGEST],
    next: [Slot; LONGEST],
    generation: [u32; LONGEST],
    payload: [u32; LONGEST],
    header: [u32; Header::WORDS],
}

impl SmallArena {
    /// The small arena of an index, counted from 0; none past the last one.
    #[must_use]
    pub fn new(index: u32) -> Option<Self> {
        let mut small = Self {
            index,
            length: LONGEST,
            prev: [0; LONGEST],
            next: [0; LONGEST],
            generation: [0; LONGEST],
            payload: [0; LONGEST],
            header: [0; Header::WORDS],
        };
        // The columns are long enough for every small arena, so that none is refused.
        let length = small.as_arena_mut().small_arena(index).ok()??.prev.len();
        Some(Self { length, ..small })
    }

    /// Its place among all small arenas, counted from 0. It stays while the arena is edited.
    #[must_use]
    pub const fn index(&self) -> u32 {
        self.index
    }

    /// The arena to read.
    #[must_use]
    pub fn as_arena(&self) -> Arena<'_> {
        Arena {
            prev: first(&self.prev, self.length),
            next: first(&self.next, self.length),
            generation: first(&self.generation, self.length),
            payload: first(&self.payload, self.length),
            header: &self.header,
        }
    }

    /// The arena to edit and to compress.
    #[must_use]
    pub fn as_arena_mut(&mut self) -> ArenaMut<'_> {
        ArenaMut {
            prev: first_mut(&mut self.prev, self.length),
            next: first_mut(&mut self.next, self.length),
            generation: first_mut(&mut self.generation, self.length),
            payload: first_mut(&mut self.payload, self.length),
            header: &mut self.header,
        }
    }
}

/// Its index and its words.
impl fmt::Debug for SmallArena {
    fn fmt(&self, f: &mut fmt::Formatter<'_>) -> fmt::Result {
        f.debug_struct("SmallArena").field("index", &self.index).field("arena", &self.as_arena()).finish()
    }
}

/// So many of the words, or all.
fn first<T>(words: &[T], count: usize) -> &[T] {
    &words[..count.min(words.len())]
}

/// So many of the words, or all, to be written.
fn first_mut<T>(words: &mut [T], count: usize) -> &mut [T] {
    let count = count.min(words.len());
    &mut words[..count]
}

/// The small arenas in order: [`small_arenas`].
///
/// It begins at either end, knows how many are left, and goes to any of them in one step.
///
/// ```
/// use chain_arena::small_arenas;
///
/// let mut of_two = small_arenas().skip(4).take(13); // of stack length 2
/// assert!(of_two.all(|small| small.as_arena().prev.len() == 2));
/// assert_eq!(small_arenas().nth(89), small_arenas().next_back());
/// assert_eq!(small_arenas().nth(90), None);
/// ```
#[derive(Clone, Debug)]
#[must_use = "iterators are lazy and do nothing unless consumed"]
pub struct SmallArenas {
    indices: Range<u32>,
}

impl Iterator for SmallArenas {
    type Item = SmallArena;

    fn next(&mut self) -> Option<SmallArena> {
        self.indices.next().and_then(SmallArena::new)
    }

    fn nth(&mut self, n: usize) -> Option<SmallArena> {
        self.indices.nth(n).and_then(SmallArena::new)
    }

    fn size_hint(&self) -> (usize, Option<usize>) {
        self.indices.size_hint()
    }

    fn count(self) -> usize {
        self.indices.len()
    }

    fn last(mut self) -> Option<SmallArena> {
        self.next_back()
    }
}

impl DoubleEndedIterator for SmallArenas {
    fn next_back(&mut self) -> Option<SmallArena> {
        self.indices.next_back().and_then(SmallArena::new)
    }

    fn nth_back(&mut self, n: usize) -> Option<SmallArena> {
        self.indices.nth_back(n).and_then(SmallArena::new)
    }
}

impl ExactSizeIterator for SmallArenas {}

// What is left of a range gets no more.
impl FusedIterator for SmallArenas {}

/// The call of the small arenas. It looks at no word and checks nothing: it writes an arena.
impl ArenaMut<'_> {
    /// Writes the small arena of an index, counted from 0, and lends it on: the first words of each column, as many as its stack
    /// is long, and the header. None past the last one, and then nothing is written.
    ///
    /// Further words of the columns stay, so that the columns as a whole are the same arena with room above the stack. Three
    /// words a column are enough for each; [`SmallArena`] has words of its own.
    ///
    /// ```
    /// use chain_arena::ArenaMut;
    ///
    /// let (prev, next) = (&mut [9; 5], &mut [9; 5]); // any words, and room for five
    /// let (generation, payload, header) = (&mut [9; 5], &mut [9; 5], &mut [9; 4]);
    /// let mut columns = ArenaMut { prev, next, generation, payload, header };
    /// let small = columns.small_arena(6)?.unwrap(); // 1 -> 2
    /// assert_eq!((&*small.prev, &*small.next), (&[0, 1][..], &[2, 0][..]));
    /// assert_eq!((&*columns.prev, &*columns.next), (&[0, 1, 9, 9, 9][..], &[2, 0, 9, 9, 9][..]));
    /// assert_eq!(columns.header, [2, 2, 0, 2]);
    /// # #[cfg(feature = "level-two")] {
    /// use chain_arena::LinkInsertKind;
    ///
    /// columns.insert(LinkInsertKind::ChainEndInx(2), 30)?; // 1 -> 2 -> 3
    /// assert_eq!(columns.next, [2, 3, 0, 9, 9]);
    /// # }
    /// assert!(columns.small_arena(90)?.is_none());
    /// # Ok::<(), chain_arena::Refusal>(())
    /// ```
    ///
    /// # Errors
    ///
    /// 1 if two columns differ in length or are too long, or if the header has not four words; then 14 if there is such an arena
    /// and the columns are shorter than its stack.
    pub fn small_arena(&mut self, index: u32) -> Result<Option<ArenaMut<'_>>, Refusal> {
        let answer = call!(chain_arena_small_arena(self, as_mut_ptr, index));
        let length = answer.length as usize;
        answer.done().map(|_| {
            (answer.found != 0).then_some(ArenaMut {
                prev: first_mut(self.prev, length),
                next: first_mut(self.next, length),
                generation: first_mut(self.generation, length),
                payload: first_mut(self.payload, length),
                header: self.header,
            })
        })
    }
}
