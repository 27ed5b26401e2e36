// The crate's files as modules, under the names that they call each other by. build.rs puts this file beside them.

pub mod fundamental {
    mod advancer;
    pub mod errors;
    mod extra;
    mod ptr;

    pub use advancer::Advancer;
    pub use extra::{
        IntoNonZeroUsizeIterator, InvalidationOption, InvalidationResult, NonZeroUsizeIterator,
        nzusize_iter,
    };
    pub use ptr::{Ptr, PtrGen, PtrInx, PtrNoGen};
}

pub mod stack {
    mod arena_backing;
    mod nonzero_inx_generic_stack;

    pub use arena_backing::{ArenaBacking, StackBacking};
    pub use nonzero_inx_generic_stack::{
        NonZeroInxGenericStack, NonZeroInxGenericStackPushEntryTrait, SetMaxCapacity,
    };
}

pub mod arena {
    mod arena_traits;
    mod base_arena;
    mod impl_arena_trait;

    pub(crate) use arena_traits::handle_reallocation;
    pub use arena_traits::{
        ArenaCloneFromWith, ArenaDirectInsertEntryTrait, ArenaDirectInsertTrait,
        ArenaInsertEntryTrait, ArenaInsertTrait, ArenaTrait, CompactArenaTrait,
        DisjointableArenaTrait,
    };
    pub use base_arena::{Arena, ArenaSlot};
    pub(crate) use base_arena::{from_checked_ptr, from_checked_raw};
    pub(crate) use impl_arena_trait::Canonicalize;
}

pub mod chain {
    mod chain_arena;
    pub mod chain_iterators;
    mod chain_traits;
    mod impl_chain_arena_trait;
    mod links;

    pub use chain_arena::ChainArena;
    pub(crate) use chain_traits::LinkInsertInxKind;
    pub use chain_traits::{ChainArenaTrait, LinkInsertKind};
    pub use links::{Link, LinkNoGen};
}

pub use arena::Arena;
pub(crate) use chain::LinkInsertInxKind;
pub use chain::{ChainArena, Link, LinkInsertKind, LinkNoGen, chain_iterators};
pub use fundamental::{InvalidationOption, InvalidationResult, errors};
pub use stack::StackBacking;

pub mod traits {
    pub use crate::arena::{
        ArenaCloneFromWith, ArenaInsertEntryTrait, ArenaInsertTrait, ArenaTrait, CompactArenaTrait,
        DisjointableArenaTrait,
    };
    pub use crate::chain::ChainArenaTrait;
    pub use crate::fundamental::{Advancer, Ptr};
    pub use crate::recast::{Recast, Recaster};
    pub use crate::stack::SetMaxCapacity;
}

pub mod utils {
    pub use crate::arena::ArenaSlot;
    pub(crate) use crate::arena::{from_checked_ptr, from_checked_raw};
    pub use crate::vec_stack::VecStack as NonZeroInxArray;

    pub mod traits {
        pub use crate::fundamental::{PtrGen, PtrInx};
        pub use crate::stack::{
            ArenaBacking, NonZeroInxGenericStack, NonZeroInxGenericStackPushEntryTrait,
        };
    }
}
