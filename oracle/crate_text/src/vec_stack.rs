//! One stack for the crate's arenas to keep their slots in: a `Vec` and the capacity that it was made with.

use std::num::NonZeroUsize;

use crate::errors::{AllocError, NotWithinCapacityError, ReallocationError};
use crate::stack::{NonZeroInxGenericStack, NonZeroInxGenericStackPushEntryTrait};

/// A stack of exactly the capacity asked for, at most `LIMIT`.
pub struct VecStack<T, const LIMIT: usize> {
    slots: Vec<T>,
    capacity: usize,
}

/// The place after the last element of a stack that has room.
pub struct PushEntry<'a, T> {
    slots: &'a mut Vec<T>,
}

impl<'a, T> NonZeroInxGenericStackPushEntryTrait<'a, T> for PushEntry<'a, T> {
    fn inx(&self) -> NonZeroUsize {
        NonZeroUsize::MIN.saturating_add(self.slots.len())
    }

    fn push(self, t: T) {
        self.slots.push(t);
    }
}

// Safety: a `Vec` that is never longer than `capacity`.
unsafe impl<T, const LIMIT: usize> NonZeroInxGenericStack<T> for VecStack<T, LIMIT> {
    type PushEntry<'a>
        = PushEntry<'a, T>
    where
        Self: 'a;

    fn new() -> Self {
        Self { slots: Vec::new(), capacity: 0 }
    }

    fn with_min_capacity(min_capacity: usize) -> Result<Self, AllocError> {
        if min_capacity > LIMIT {
            return Err(AllocError);
        }
        Ok(Self { slots: Vec::with_capacity(min_capacity), capacity: min_capacity })
    }

    fn capacity(&self) -> usize {
        self.capacity
    }

    fn max_capacity(&self) -> Option<usize> {
        Some(LIMIT)
    }

    fn reallocate_min_capacity(&mut self, min_capacity: usize) -> Result<(), ReallocationError> {
        if min_capacity > LIMIT {
            return Err(ReallocationError::BeyondMaxCapacity);
        }
        self.capacity = min_capacity.max(self.slots.len());
        Ok(())
    }

    #[inline]
    fn len(&self) -> usize {
        self.slots.len()
    }

    fn entry_push_within_capacity(&mut self) -> Result<Self::PushEntry<'_>, NotWithinCapacityError> {
        if self.slots.len() < self.capacity {
            Ok(PushEntry { slots: &mut self.slots })
        } else {
            Err(NotWithinCapacityError)
        }
    }

    #[inline]
    unsafe fn get_unchecked(&self, inx: NonZeroUsize) -> &T {
        // Safety: the caller gives no index past the length, and the first is 1.
        unsafe { self.slots.get_unchecked(inx.get() - 1) }
    }

    #[inline]
    unsafe fn get_unchecked_mut(&mut self, inx: NonZeroUsize) -> &mut T {
        // Safety: the caller gives no index past the length, and the first is 1.
        unsafe { self.slots.get_unchecked_mut(inx.get() - 1) }
    }

    unsafe fn get_disjoint_unchecked_mut<const N: usize>(
        &mut self,
        indices: [NonZeroUsize; N],
    ) -> [&mut T; N] {
        // Safety: the caller gives no index past the length and none twice, and the first is 1.
        unsafe { self.slots.get_disjoint_unchecked_mut(indices.map(|inx| inx.get() - 1)) }
    }

    #[inline]
    fn pop(&mut self) -> Option<T> {
        self.slots.pop()
    }

    fn clear(&mut self) {
        self.slots.clear();
    }
}
