//! The base arena's iterators, whose file is not at hand. Each goes over the allocated slots in rising order. Of all that
//! is compared only rule 11 of the check uses one of them, `Iter`.

use std::marker::PhantomData;
use std::num::NonZeroUsize;

use crate::arena::{Arena, ArenaSlot, ArenaTrait, from_checked_ptr, from_checked_raw};
use crate::fundamental::{Advancer, InvalidationOption, Ptr};
use crate::stack::{ArenaBacking, NonZeroInxGenericStack};

/// The index after `inx` in the direction of travel, none after the last.
#[inline]
fn following(inx: NonZeroUsize, rev: bool) -> Option<NonZeroUsize> {
    if rev { NonZeroUsize::new(inx.get() - 1) } else { inx.checked_add(1) }
}

/// Advances over the allocated slots.
pub struct PtrAdvancer<P: Ptr> {
    at: Option<NonZeroUsize>,
    rev: bool,
    pointers: PhantomData<P>,
}

impl<P: Ptr, T, B: ArenaBacking> Advancer<Arena<P, T, B>> for PtrAdvancer<P> {
    type Item = P;

    fn advance(&mut self, collection: &Arena<P, T, B>) -> Option<P> {
        while let Some(inx) = self.at {
            if !self.rev && inx.get() > collection.m.len() {
                self.at = None;
                return None;
            }
            self.at = following(inx, self.rev);
            if let Some(ArenaSlot::Allocated(generation, _)) = collection.m.get(inx) {
                return Some(P::_from_raw(from_checked_raw::<P>(inx), *generation));
            }
        }
        None
    }

    fn empty() -> Self {
        Self { at: None, rev: false, pointers: PhantomData }
    }
}

/// The allocated slots with their entries.
pub struct Iter<'a, P: Ptr, T, B: ArenaBacking> {
    arena: &'a Arena<P, T, B>,
    at: NonZeroUsize,
}

impl<'a, P: Ptr, T, B: ArenaBacking> Iterator for Iter<'a, P, T, B> {
    type Item = (P, &'a T);

    #[inline]
    fn next(&mut self) -> Option<(P, &'a T)> {
        while let Some(slot) = self.arena.m.get(self.at) {
            let inx = self.at;
            self.at = inx.saturating_add(1);
            if let ArenaSlot::Allocated(generation, t) = slot {
                return Some((P::_from_raw(from_checked_raw::<P>(inx), *generation), t));
            }
        }
        None
    }
}

/// The allocated slots with their entries to write to.
pub struct IterMut<'a, P: Ptr, T, B: ArenaBacking> {
    arena: &'a mut Arena<P, T, B>,
    at: NonZeroUsize,
}

impl<'a, P: Ptr, T, B: ArenaBacking> Iterator for IterMut<'a, P, T, B> {
    type Item = (P, &'a mut T);

    fn next(&mut self) -> Option<(P, &'a mut T)> {
        while let Some(slot) = self.arena.m.get_mut(self.at) {
            let inx = self.at;
            self.at = inx.saturating_add(1);
            if let ArenaSlot::Allocated(generation, t) = slot {
                let p = P::_from_raw(from_checked_raw::<P>(inx), *generation);
                // Safety: the index only rises, so no entry is handed out twice while the arena is borrowed.
                return Some((p, unsafe { &mut *std::ptr::from_mut(t) }));
            }
        }
        None
    }
}

/// Takes every entry out of a borrowed arena, and clears it when dropped.
pub struct Drain<'a, P: Ptr, T, B: ArenaBacking> {
    arena: &'a mut Arena<P, T, B>,
    adv: PtrAdvancer<P>,
}

impl<P: Ptr, T, B: ArenaBacking> Iterator for Drain<'_, P, T, B> {
    type Item = InvalidationOption<(P, T)>;

    fn next(&mut self) -> Option<InvalidationOption<(P, T)>> {
        let p = self.adv.advance(self.arena)?;
        Some(self.arena.remove(p).unwrap().map(|t| (p, t)))
    }
}

impl<P: Ptr, T, B: ArenaBacking> Drop for Drain<'_, P, T, B> {
    fn drop(&mut self) {
        self.arena.clear().allow();
    }
}

/// Takes every entry out of an owned arena.
pub struct CapacityDrain<P: Ptr, T, B: ArenaBacking> {
    arena: Arena<P, T, B>,
    adv: PtrAdvancer<P>,
}

impl<P: Ptr, T, B: ArenaBacking> Iterator for CapacityDrain<P, T, B> {
    type Item = (P, T);

    fn next(&mut self) -> Option<(P, T)> {
        let p = self.adv.advance(&self.arena)?;
        self.arena.remove(p).allow().map(|t| (p, t))
    }
}

impl<P: Ptr, T, B: ArenaBacking> Arena<P, T, B> {
    pub(crate) fn internal_advancer_inx(&self, inx: P::Inx, rev: bool) -> PtrAdvancer<P> {
        PtrAdvancer { at: Some(from_checked_ptr::<P>(inx)), rev, pointers: PhantomData }
    }

    pub(crate) fn internal_iter(&self) -> Iter<'_, P, T, B> {
        Iter { arena: self, at: NonZeroUsize::MIN }
    }

    pub(crate) fn internal_iter_mut(&mut self) -> IterMut<'_, P, T, B> {
        IterMut { arena: self, at: NonZeroUsize::MIN }
    }

    pub(crate) fn internal_drain(&mut self) -> Drain<'_, P, T, B> {
        let adv = self.advancer();
        Drain { arena: self, adv }
    }

    pub(crate) fn internal_capacity_drain(self) -> CapacityDrain<P, T, B> {
        let adv = self.advancer();
        CapacityDrain { arena: self, adv }
    }
}

impl<'a, P: Ptr, T, B: ArenaBacking> IntoIterator for &'a Arena<P, T, B> {
    type IntoIter = Iter<'a, P, T, B>;
    type Item = (P, &'a T);

    fn into_iter(self) -> Self::IntoIter {
        self.internal_iter()
    }
}
