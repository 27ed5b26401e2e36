//! Every call on an arena at sizes up to the largest, beside the crate: what an item takes at each size, and how it grows from one
//! size to the next.

use std::cell::RefCell;
use std::fs;
use std::hint::black_box;

use oracle::{Arena, Call, LIMIT, Reading, exports};

use crate::subjects::{self, Measured, Subject};
use crate::{LARGE, Side, again, crate_call, fresh, measure, median};

/// The sizes in slots.
const SIZES: [usize; 4] = [2_048, LARGE, 262_144, LIMIT];

/// How many rounds there are. In each of them all sizes take turns, so that the machine's pace is the same for all of them.
const ROUNDS: usize = 9;

/// How often a side makes its call in a round at most: as often as makes up for the largest size. The median counts.
const MOST_CALLS: usize = 64;

/// Measures each call at all sizes.
pub fn section() {
    println!(
        "wide: each call at {} slots, nanoseconds an item, and in brackets how many times that of the size before; the crate \
         with its check before it",
        SIZES.map(|slots| slots.to_string()).join(", ")
    );
    println!("  caches: {}; bytes a slot: ours 16, the crate's {}", caches(), crate_slot_bytes());
    for measured in subjects::ALL.iter().filter(|measured| measured.archive.is_linked()) {
        println!("wide: {}, nanoseconds a {}", measured.what, measured.item);
        rows(measured);
    }
}

/// Measures one call on arenas of all kinds, and prints a row for each.
fn rows(measured: &Measured) {
    let mut sizes = SIZES.map(|slots| (measured.subjects)(slots).into_iter());
    while let [Some(a), Some(b), Some(c), Some(d)] = sizes.each_mut().map(Iterator::next) {
        row(&[a, b, c, d]);
    }
}

/// Measures one call on arenas of one kind and of all sizes and prints the row: what an item takes on each side at each size, how
/// many times that of the size before, and the ratios.
fn row(sizes: &[Subject]) {
    let times = measure(ROUNDS, sizes.iter().flat_map(sides).collect()).times;
    let items = |side: usize| sizes[side / 2].items as f64;
    let ratio = |side: usize, other: usize| {
        let rounds = times[side].iter().zip(&times[other]);
        median(rounds.map(|(one, other)| one / other).collect())
    };
    let shown = |number: Option<f64>| number.map_or("-".to_string(), |n| format!("{n:.*}", digits(n)));
    let each = |side: usize| {
        let nanos = shown(median(times[side].clone()).map(|nanos| nanos / items(side)));
        match side.checked_sub(2).and_then(|before| Some(ratio(side, before)? * items(before) / items(side)))
        {
            Some(grown) => format!("{nanos} ({grown:.2})"),
            None => nanos,
        }
    };
    let of_sides = |first: usize| (first..times.len()).step_by(2).map(each).collect::<Vec<_>>().join(" ");
    let ratios = (0..times.len()).step_by(2).map(|side| shown(ratio(side, side + 1)));
    println!(
        "  {:<44} ours {}  crate {}  ratio {}",
        sizes[0].kind,
        of_sides(0),
        of_sides(1),
        ratios.collect::<Vec<_>>().join(" ")
    );
}

/// Our side of a call and the crate's.
fn sides(subject: &Subject) -> [Option<Side<'_>>; 2] {
    let (slots, arena) = (subject.arena.capacity(), &subject.arena);
    let (mut left, mut call) = (arena.clone(), subject.call.clone());
    let reply = exports::perform(&mut left, &mut call).expect("a level that is linked");
    assert!(matches!(reply.number, 0 | 11 | 12 | 100), "{} is refused before its end", subject.kind);
    let changes = left != *arena;
    let calls = (LIMIT / slots).clamp(1, MOST_CALLS);
    // Where links stand above free slots the crate looks for the next chain from the same slot again and again.
    let searches = matches!(call, Call::CompressCanonical(..)) && arena.links() < arena.stack();
    let theirs = if searches && slots > LARGE { None } else { crate_call(subject, changes, reply) };
    let ours = often(ours(arena, call, changes), calls);
    [Some(ours), theirs.map(|side| often(side, if searches { 1 } else { calls }))]
}

/// Our side of a call, on a copy each time if it changes the arena.
fn ours(arena: &Arena, mut call: Call, changes: bool) -> Side<'_> {
    let mut perform = move |arena: &mut Arena| _ = black_box(exports::perform(arena, black_box(&mut call)));
    if changes {
        Box::new(fresh(|| arena.clone(), perform))
    } else {
        let arena = RefCell::new(arena.clone());
        Box::new(again(move || perform(black_box(&mut arena.borrow_mut()))))
    }
}

/// A side that makes its call so often and answers the median.
fn often(mut side: Side, calls: usize) -> Side {
    Box::new(move || median((0..calls).map(|_| side()).collect()).unwrap_or(0.0))
}

/// How many digits a number is shown with.
fn digits(number: f64) -> usize {
    if number < 0.01 { 4 } else { 2 }
}

/// The caches of a core by their levels, as the system tells them.
fn caches() -> String {
    let told = |index: usize| {
        let file = |name: &str| {
            let told = fs::read_to_string(format!("/sys/devices/system/cpu/cpu0/cache/index{index}/{name}"));
            told.ok().map(|told| told.trim().to_string())
        };
        Some(format!("L{} {} {}", file("level")?, file("type")?.to_lowercase(), file("size")?))
    };
    (0..).map_while(told).collect::<Vec<_>>().join(", ")
}

/// The bytes of a slot of the crate with 32-bit slots, and with 16-bit ones.
#[cfg(crate_text)]
fn crate_slot_bytes() -> String {
    use crate_text::LinkNoGen;
    use crate_text::arena::ArenaSlot;
    use std::num::{NonZeroU16, NonZeroU32};

    crate_text::ptr_struct!(Wide[NonZeroU32](NonZeroU32); Narrow[NonZeroU16](NonZeroU32));
    let wide = size_of::<ArenaSlot<Wide, LinkNoGen<Wide, u32>>>();
    let narrow = size_of::<ArenaSlot<Narrow, LinkNoGen<Narrow, u32>>>();
    format!("{wide} (with 16-bit slots {narrow})")
}

#[cfg(not(crate_text))]
fn crate_slot_bytes() -> String {
    "is not at hand".to_string()
}
