//! What a call answers first: that it was done, or why it was refused, by number, by name and in words (REFERENCE, Numbers).

use core::error::Error;
use core::fmt;

use crate::Slot;
use crate::link::answered_slot;

/// What is told of a call that was done.
#[derive(Clone, Copy, Debug, PartialEq, Eq)]
#[must_use = "the current generation may have overflowed"]
pub struct Done {
    /// Whether the current generation went from 4,294,967,295 to 2, so that pointers kept from before may name other links
    pub overflowed: bool,
}

impl Done {
    /// The number of a call that was done and made the current generation overflow.
    pub(crate) const OVERFLOWED: u32 = 100;

    /// What the first three words of the result of a call on an arena stand for.
    pub(crate) const fn of(number: u32, broken: u32, side: u32) -> Result<Self, Refusal> {
        match number {
            0 => Ok(Self { overflowed: false }),
            Self::OVERFLOWED => Ok(Self { overflowed: true }),
            _ => Err(Refusal { number, broken, side }),
        }
    }

    /// What the answer word of a run's command stands for.
    ///
    /// # Errors
    ///
    /// The refusal, where the word is neither 0 nor 100.
    pub const fn answer(word: u32) -> Result<Self, Refusal> {
        Self::of(word, 0, 0)
    }
}

/// Makes [`RefusalKind`] from a table of number, name and words.
macro_rules! kinds {
    ($($number:literal $name:ident $words:literal)*) => {
        /// Why a call refuses, by name. `kind as u32` is the number of a known kind.
        ///
        /// A later version may have more of them, so that a `match` needs an arm for the rest:
        ///
        /// ```compile_fail,E0004
        /// # use chain_arena::RefusalKind;
        /// fn is_known(kind: RefusalKind) -> bool {
        ///     match kind {
        $(#[doc = concat!("         RefusalKind::", stringify!($name), " => true,")])*
        ///         RefusalKind::Unknown => false,
        ///     }
        /// }
        /// ```
        #[derive(Clone, Copy, Debug, PartialEq, Eq, PartialOrd, Ord, Hash)]
        #[repr(u32)]
        #[non_exhaustive]
        pub enum RefusalKind {
            $(#[doc = concat!($words, ".")] $name = $number,)*
            /// No kind of this number is known to this version.
            Unknown = u32::MAX,
        }

        impl RefusalKind {
            /// Every kind that has a number, in the order of the numbers.
            pub const ALL: &[Self] = &[$(Self::$name),*];

            /// The kind of a number, [`Unknown`](Self::Unknown) if there is none.
            #[must_use]
            pub const fn of(number: u32) -> Self {
                match number {
                    $($number => Self::$name,)*
                    _ => Self::Unknown,
                }
            }

            /// What is wrong, in words.
            #[must_use]
            pub const fn words(self) -> &'static str {
                match self {
                    $(Self::$name => $words,)*
                    Self::Unknown => "no refusal of this number is known here",
                }
            }
        }
    };
}

kinds! {
    1 Shape "two columns differ in length or are longer than 1,048,576, or the header has not four words"
    2 CurrentGeneration "the current generation is 0 or 1"
    3 OverCapacity "the stack length or the link count exceeds the capacity"
    4 LinkCount "the link count differs from how many links the stack has"
    5 Root "there is a root but no free slot, or a free slot but no root"
    6 FreelistZero "the freelist names 0 where it must name a slot"
    7 FreelistAboveStack "the freelist names a slot above the stack"
    8 FreelistLink "the freelist names a link"
    9 FreelistEndless "the freelist has no end, that is no slot that points at itself"
    10 FreelistIncomplete "the freelist ends and has missed a free slot"
    11 BrokenLink "a link names a neighbour that is above the stack or free, or does not name it in turn"
    12 StalePointer "a pointer is stale: in its slot there is no link, or one of another generation"
    13 Neighbor "a neighbour is in the way, or one is missing"
    14 SliceLength "the slice to be filled is too short, or the where-from column has not the columns' length"
    15 GenerationTooLow "generation 0 or 1 was to be set"
    16 Command "the command words are no whole commands, or a code or a kind of insertion is unknown"
    17 LinkRequirement "what a kind of insertion asks does not hold, or one of its pointers is stale"
    18 NotWithinCapacity "there is no room for a link: every slot of the columns holds one"
    19 OutOfFrame "out of the frame: a dot is over 89,341, a window's end over 89,342, or a line over 261"
}

impl fmt::Display for RefusalKind {
    fn fmt(&self, f: &mut fmt::Formatter<'_>) -> fmt::Result {
        f.write_str(self.words())
    }
}

/// A side of a link. `side as u32` is the word that results have for it.
#[derive(Clone, Copy, Debug, PartialEq, Eq, PartialOrd, Ord, Hash)]
#[repr(u32)]
pub enum Side {
    /// The side of the prev.
    Prev = 1,
    /// The side of the next.
    Next = 2,
}

impl Side {
    /// The side of a word, none if it is neither 1 nor 2.
    #[must_use]
    pub const fn of(word: u32) -> Option<Self> {
        match word {
            1 => Some(Self::Prev),
            2 => Some(Self::Next),
            _ => None,
        }
    }
}

/// `prev` or `next`.
impl fmt::Display for Side {
    fn fmt(&self, f: &mut fmt::Formatter<'_>) -> fmt::Result {
        f.write_str(match self {
            Self::Prev => "prev",
            Self::Next => "next",
        })
    }
}

/// A refusal. No refused call has written anything.
///
/// ```
/// # #[cfg(feature = "level-one")] {
/// use chain_arena::{Arena, RefusalKind, Side};
///
/// // The next of slot 1 is 2, but slot 2 has no prev.
/// let broken = Arena {
///     prev: &[0, 0],
///     next: &[2, 0],
///     generation: &[5, 5],
///     payload: &[10, 20],
///     header: &[2, 2, 0, 5],
/// };
/// let refusal = broken.check().unwrap_err();
/// assert_eq!((refusal.kind(), refusal.number()), (RefusalKind::BrokenLink, 11));
/// assert_eq!((refusal.slot(), refusal.side()), (Some(1), Some(Side::Next)));
/// assert_eq!(
///     refusal.to_string(),
///     "refused with 11 at the next of slot 1: \
///      a link names a neighbour that is above the stack or free, or does not name it in turn",
/// );
/// # }
/// ```
///
/// [`Debug`](fmt::Debug) says the same, so that a `main` that returns a refusal ends with a sentence.
#[derive(Clone, Copy, PartialEq, Eq, Hash)]
pub struct Refusal {
    number: u32,
    broken: u32,
    side: u32,
}

impl Refusal {
    /// A refusal that names no slot.
    #[cfg(feature = "level-one")]
    pub(crate) const fn of(kind: RefusalKind) -> Self {
        Self { number: kind as u32, broken: 0, side: 0 }
    }

    /// Why, by name.
    #[must_use]
    pub const fn kind(self) -> RefusalKind {
        RefusalKind::of(self.number)
    }

    /// The number.
    #[must_use]
    pub const fn number(self) -> u32 {
        self.number
    }

    /// With [`RefusalKind::BrokenLink`], the lowest slot at which rule 11 fails.
    #[must_use]
    pub fn slot(self) -> Option<Slot> {
        answered_slot(self.broken).filter(|_| self.kind() == RefusalKind::BrokenLink)
    }

    /// With [`RefusalKind::BrokenLink`], the side of [`slot`](Self::slot) at which rule 11 fails. The prev is looked at
    /// first: where both sides fail it is [`Side::Prev`], and with [`Side::Next`] the prev is good.
    #[must_use]
    pub fn side(self) -> Option<Side> {
        Side::of(self.side).filter(|_| self.kind() == RefusalKind::BrokenLink)
    }
}

impl fmt::Display for Refusal {
    fn fmt(&self, f: &mut fmt::Formatter<'_>) -> fmt::Result {
        write!(f, "refused with {}", self.number)?;
        match (self.slot(), self.side()) {
            (Some(slot), Some(side)) => write!(f, " at the {side} of slot {slot}")?,
            (Some(slot), None) => write!(f, " at slot {slot}")?,
            (None, _) => {}
        }
        write!(f, ": {}", self.kind())
    }
}

impl fmt::Debug for Refusal {
    fn fmt(&self, f: &mut fmt::Formatter<'_>) -> fmt::Result {
        fmt::Display::fmt(self, f)
    }
}

impl Error for Refusal {}
