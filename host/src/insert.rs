//! Where a link is inserted (REFERENCE, Insert).

use crate::{Ptr, Slot};

/// Where [`ArenaMut::insert`](crate::ArenaMut::insert) puts a link. The names are the crate's.
///
/// | kind | what it asks | the new link stands |
/// |---|---|---|
/// | [`Disconnected`](Self::Disconnected) | | alone |
/// | [`SingleLinkCyclic`](Self::SingleLinkCyclic) | | alone, its own prev and next |
/// | [`ChainEnd`](Self::ChainEnd) | the link has no next | behind it |
/// | [`ChainStart`](Self::ChainStart) | the link has no prev | before it |
/// | [`NextTo`](Self::NextTo) | | between the link and its next, if it has one |
/// | [`PrevTo`](Self::PrevTo) | | between the link and its prev, if it has one |
/// | [`AtInterlink`](Self::AtInterlink) | the next of `next_to` is `prev_to` | between the two |
/// | [`Bridge`](Self::Bridge) | `end` has no next, and `start` has no prev | between the two |
///
/// Each kind that names links asks also that these are there: a pointer must not be stale, and where a kind ends in `Inx`,
/// which names slots and looks at no generation, the slot must hold a link.
///
/// Beside a link that is closed alone, the two become a closed chain; and so they do where a lone link is bridged to itself.
///
/// ```
/// use chain_arena::{ArenaMut, LinkInsertKind, RefusalKind};
///
/// // No link yet, and room for four. What stands in the columns does not matter.
/// let (mut prev, mut next) = ([0; 4], [0; 4]);
/// let (mut generation, mut payload, mut header) = ([0; 4], [0; 4], [0, 0, 0, 2]);
/// let mut arena = ArenaMut {
///     prev: &mut prev,
///     next: &mut next,
///     generation: &mut generation,
///     payload: &mut payload,
///     header: &mut header,
/// };
/// let a = arena.insert(LinkInsertKind::Disconnected, 10)?;
/// let c = arena.insert(LinkInsertKind::ChainEnd(a), 30)?;
/// let b = arena.insert(LinkInsertKind::AtInterlink { next_to: a, prev_to: c }, 20)?;
/// assert_eq!([a.slot, b.slot, c.slot], [1, 3, 2]); // a -> b -> c
///
/// // a has a next now.
/// let refusal = arena.insert(LinkInsertKind::ChainEnd(a), 40).unwrap_err();
/// assert_eq!((refusal.number(), refusal.kind()), (17, RefusalKind::LinkRequirement));
///
/// // The chain is closed by a fourth link, and then there is no more room.
/// arena.insert(LinkInsertKind::Bridge { end: c, start: a }, 40)?;
/// let refusal = arena.insert(LinkInsertKind::Disconnected, 50).unwrap_err();
/// assert_eq!((refusal.number(), refusal.kind()), (18, RefusalKind::NotWithinCapacity));
///
/// // A removed link leaves its slot to the next one that is inserted, which has a new generation.
/// arena.remove(b)?;
/// let d = arena.insert(LinkInsertKind::SingleLinkCyclic, 50)?;
/// assert_eq!((d.slot, d.generation), (3, 3));
/// assert_eq!((prev, next), ([4, 1, 3, 2], [2, 4, 3, 1])); // a -> c -> the fourth -> (a), and d
/// # Ok::<(), chain_arena::Refusal>(())
/// ```
#[derive(Clone, Copy, Debug, PartialEq, Eq, Hash)]
pub enum LinkInsertKind {
    /// Alone, with no neighbour.
    Disconnected,
    /// Alone, as its own prev and next.
    SingleLinkCyclic,
    /// Behind the last link of an open chain.
    ChainEnd(Ptr),
    /// As [`ChainEnd`](Self::ChainEnd), by slot.
    ChainEndInx(Slot),
    /// Before the first link of an open chain.
    ChainStart(Ptr),
    /// As [`ChainStart`](Self::ChainStart), by slot.
    ChainStartInx(Slot),
    /// Right behind a link, wherever it stands in its chain.
    NextTo(Ptr),
    /// As [`NextTo`](Self::NextTo), by slot.
    NextToInx(Slot),
    /// Right before a link, wherever it stands in its chain.
    PrevTo(Ptr),
    /// As [`PrevTo`](Self::PrevTo), by slot.
    PrevToInx(Slot),
    /// Between two neighbours; on a link that is closed alone, between it and itself.
    AtInterlink {
        /// The link that it is to follow
        next_to: Ptr,
        /// The link that is to follow it, now the next of `next_to`
        prev_to: Ptr,
    },
    /// As [`AtInterlink`](Self::AtInterlink), by slots.
    AtInterlinkInx {
        /// The slot of the link that it is to follow
        next_to: Slot,
        /// The slot of the link that is to follow it
        prev_to: Slot,
    },
    /// Between the last link of an open chain and the first link of one: two chains become one, or one becomes closed.
    Bridge {
        /// The last link of a chain
        end: Ptr,
        /// The first link of another chain, or of the same
        start: Ptr,
    },
    /// As [`Bridge`](Self::Bridge), by slots.
    BridgeInx {
        /// The slot of the last link of a chain
        end: Slot,
        /// The slot of the first link of another chain, or of the same
        start: Slot,
    },
}

impl LinkInsertKind {
    /// Its number as the kind of an insertion, which is also the code of a command that inserts so: 6 to 19.
    #[must_use]
    pub const fn code(self) -> u32 {
        self.parts().0
    }

    /// What it names, as the call takes it: two pointers. By slot the generation is 0, and so are slot and generation of a
    /// pointer that the kind does not have.
    #[must_use]
    pub const fn pointers(self) -> [Ptr; 2] {
        let (_, p, q) = self.parts();
        [p, q]
    }

    /// Code and pointers.
    const fn parts(self) -> (u32, Ptr, Ptr) {
        const fn at(slot: Slot) -> Ptr {
            Ptr { slot, generation: 0 }
        }
        const NONE: Ptr = at(0);
        match self {
            Self::Disconnected => (6, NONE, NONE),
            Self::SingleLinkCyclic => (7, NONE, NONE),
            Self::ChainEnd(p) => (8, p, NONE),
            Self::ChainEndInx(slot) => (9, at(slot), NONE),
            Self::ChainStart(p) => (10, p, NONE),
            Self::ChainStartInx(slot) => (11, at(slot), NONE),
            Self::NextTo(p) => (12, p, NONE),
            Self::NextToInx(slot) => (13, at(slot), NONE),
            Self::PrevTo(p) => (14, p, NONE),
            Self::PrevToInx(slot) => (15, at(slot), NONE),
            Self::AtInterlink { next_to, prev_to } => (16, next_to, prev_to),
            Self::AtInterlinkInx { next_to, prev_to } => (17, at(next_to), at(prev_to)),
            Self::Bridge { end, start } => (18, end, start),
            Self::BridgeInx { end, start } => (19, at(end), at(start)),
        }
    }

    /// The kind of a code, with what it names of two pointers; none if there is no such kind.
    pub(crate) const fn of(code: u32, p: Ptr, q: Ptr) -> Option<Self> {
        Some(match code {
            6 => Self::Disconnected,
            7 => Self::SingleLinkCyclic,
            8 => Self::ChainEnd(p),
            9 => Self::ChainEndInx(p.slot),
            10 => Self::ChainStart(p),
            11 => Self::ChainStartInx(p.slot),
            12 => Self::NextTo(p),
            13 => Self::NextToInx(p.slot),
            14 => Self::PrevTo(p),
            15 => Self::PrevToInx(p.slot),
            16 => Self::AtInterlink { next_to: p, prev_to: q },
            17 => Self::AtInterlinkInx { next_to: p.slot, prev_to: q.slot },
            18 => Self::Bridge { end: p, start: q },
            19 => Self::BridgeInx { end: p.slot, start: q.slot },
            _ => return None,
        })
    }
}
