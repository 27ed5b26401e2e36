// What is sold: the three levels, and beside them the small arenas, which are no level. build.rs and the tests read these lists.

/// A thing that is sold: its archive, which is made from the crate that has its name with `_c` behind it, and the names that it exports.
pub struct Archive {
    /// The archive
    pub name: &'static str,
    /// Every name that the archive exports, and no others
    pub exports: &'static [&'static str],
}

/// Everything that is sold. The cargo feature that links it has its name, with `-` for `_`.
pub const ARCHIVES: &[Archive] = &[
    Archive {
        name: "level_one",
        exports: &[
            "chain_arena_check",
            "chain_arena_get_link",
            "chain_arena_get_link_no_gen",
            "chain_arena_are_neighbors",
            "chain_arena_walk_start",
            "chain_arena_walk_step",
            "chain_arena_line_of_dot",
            "chain_arena_line_dots",
            "chain_arena_due_count",
            "chain_arena_due_events",
        ],
    },
    Archive {
        name: "level_two",
        exports: &[
            "chain_arena_connect",
            "chain_arena_break_prev",
            "chain_arena_break_next",
            "chain_arena_exchange_next",
            "chain_arena_insert",
            "chain_arena_remove",
            "chain_arena_drain",
            "chain_arena_set_generation",
            "chain_arena_inc_generation",
            "chain_arena_canonicalize_freelist",
            "chain_arena_run",
        ],
    },
    Archive {
        name: "level_three",
        exports: &["chain_arena_compress_with", "chain_arena_compress_canonical"],
    },
    Archive { name: "small_arenas", exports: &["chain_arena_small_arena"] },
];

/// The exports that take no arena: they check none, and their results begin with the number alone.
pub const WITHOUT_ARENA: &[&str] = &["chain_arena_line_of_dot", "chain_arena_line_dots"];

/// The exports that write an arena into what they are lent: they look at the lengths alone and check nothing, and their results
/// begin with the number alone.
pub const WRITES_ARENA: &[&str] = &["chain_arena_small_arena"];

/// Whether an export is a call on an arena, as every other one is: it checks the arena first, and its result begins with the
/// number, the broken slot and the side.
pub fn is_on_arena(export: &str) -> bool {
    !WITHOUT_ARENA.contains(&export) && !WRITES_ARENA.contains(&export)
}
