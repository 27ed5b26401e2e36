//! The tests that differ by what is linked: the archives, the wrapper, its clock, the small arenas, slots past 65,535, the C header, and how their numbers are
//! told.

/// What is sold.
#[path = "../levels.rs"]
mod sold;

#[cfg(feature = "level-one")]
mod clock;
mod exports;
#[cfg(any(feature = "level-one", feature = "level-two", feature = "level-three", feature = "small-arenas"))]
mod header;
mod numbers;
#[cfg(feature = "small-arenas")]
mod small_arenas;
#[cfg(any(feature = "level-one", feature = "level-two", feature = "level-three"))]
mod wide;
mod wrapper;
