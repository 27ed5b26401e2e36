//! The two traits of the crate's `recasting` dependency, as far as its text writes them. Nothing here is called.

use std::num::{NonZeroU8, NonZeroU16, NonZeroU32, NonZeroU64, NonZeroU128, NonZeroUsize};

/// Something that maps items to other items.
pub trait Recaster {
    /// What is mapped
    type Item;

    /// Maps one item in place, or answers it if it cannot be mapped.
    fn recast_item(&self, item: &mut Self::Item) -> Result<(), Self::Item>;
}

/// Something whose items a recaster can map.
pub trait Recast<I> {
    /// Maps every item in `self`, or answers the first that cannot be mapped.
    fn recast<R: Recaster<Item = I>>(&mut self, recaster: &R) -> Result<(), <R as Recaster>::Item>;
}

macro_rules! recast_itself {
    ($($number:ty)*) => {
        $(
            impl Recast<Self> for $number {
                fn recast<R: Recaster<Item = Self>>(
                    &mut self,
                    recaster: &R,
                ) -> Result<(), <R as Recaster>::Item> {
                    recaster.recast_item(self)
                }
            }
        )*
    };
}

recast_itself!(() NonZeroU8 NonZeroU16 NonZeroU32 NonZeroU64 NonZeroU128 NonZeroUsize);
