//! How long the exported calls take, and how long the crate takes for the same on the same inputs, in one run.
//!
//! `cargo run --release -p oracle --bin bench`. Both sides are optimised and take turns, call by call; the median of the
//! rounds' ratios is what counts, since the machine's pace is the same for both within a round and a call that was
//! interrupted does not move the median; of long calls only what the processor worked for them is counted. Our calls always
//! check the arena first: where a call is measured against the crate with its own check before it, a second column has the
//! crate without it. Each section is one function, and `main` lists them; words on the command line choose the sections that
//! they begin. Section `before` has two landings in place of the product and the crate (before.rs), and `wide` larger arenas
//! (wide.rs); both take every call on an arena (subjects.rs).

mod before;
mod subjects;
mod wide;

use std::cell::RefCell;
use std::env;
use std::hint::black_box;
use std::time::{Duration, Instant};

use chain_arena::{Dot, Line};
use oracle::calls::{self, Tide};
use oracle::compare::{Outcome, crate_text_found, model_outcome};
use oracle::random::{self, Random, Style};
use oracle::{Archive, Arena, COMMAND_WORDS, Call, Ptr, Reading, Reply, exports, frame, model, side};

/// How many times each side makes its call at least, and how often where one call takes long.
const ROUNDS: usize = 31;
const FEW_ROUNDS: usize = 5;

/// Short calls are made again until a row has taken so long.
const ROW: Duration = Duration::from_millis(500);

/// The larger of the two sizes that most sections measure: as many slots as 16 bits can number.
const LARGE: usize = 65_535;

fn main() {
    if !crate_text_found() {
        println!("The crate's files are not at hand: the live comparison was skipped.");
    }
    let sections: [(&str, Archive, fn()); 12] = [
        ("check", Archive::LevelOne, check_section),
        ("before", Archive::LevelOne, before::section),
        ("read", Archive::LevelOne, read_section),
        ("due", Archive::LevelOne, due_section),
        ("run", Archive::LevelTwo, run_section),
        ("grow", Archive::LevelTwo, grow_section),
        ("drain", Archive::LevelTwo, drain_section),
        ("canonical", Archive::LevelThree, canonical_section),
        ("linear", Archive::LevelThree, linear_section),
        ("order", Archive::LevelThree, order_section),
        ("small", Archive::SmallArenas, small_section),
        ("wide", Archive::LevelOne, wide::section),
    ];
    let chosen: Vec<String> = env::args().skip(1).collect();
    for (name, archive, section) in sections {
        if !chosen.is_empty() && !chosen.iter().any(|word| name.starts_with(word.as_str())) {
            continue;
        }
        if archive.is_linked() {
            section();
        } else {
            println!("{name}: {} is not linked, so it was not measured", archive.name());
        }
    }
}

/// The check, at 2,048 and at 65,535 slots, on arenas of several kinds.
fn check_section() {
    println!("check: the exported call and the crate's _check_invariants, nanoseconds a slot");
    for slots in [2_048, LARGE] {
        for (kind, arena) in checked_kinds(slots, slots) {
            let ours: Side = Box::new(again(|| _ = black_box(exports::check(black_box(&arena)))));
            row(slots, kind, slots, &measure(ROUNDS, vec![Some(ours), crate_check(&arena)]));
        }
    }
}

/// Reading one chain, pointer and payload of each link, through the wrapper's view of a checked arena, the one check in its
/// time; and through the crate's own iterator, with its check before it and without.
fn read_section() {
    println!(
        "read: all links of one chain, nanoseconds a link; the crate with its check before it, and without"
    );
    for slots in [2_048, LARGE] {
        for (kind, scattered) in [("one chain, in order", false), ("one chain, scattered", true)] {
            let arena = one_chain(slots, scattered);
            let p = arena.ptr(1);
            let ours: Side = Box::new(again(|| _ = black_box(sum_chain(black_box(&arena), p))));
            let expected = sum_chain(&arena, p);
            let theirs = |check| crate_sum(&arena, p, check, expected);
            row(slots, kind, slots, &measure(ROUNDS, vec![Some(ours), theirs(true), theirs(false)]));
        }
    }
}

/// The sum of the slots and payloads along the chain of a pointer.
fn sum_chain(arena: &Arena, p: Ptr) -> u64 {
    let checked = arena.as_arena().checked().expect("an arena that passes");
    let links = checked.chain(p).expect("a link of the arena");
    links.map(|(p, link)| u64::from(p.slot) + u64::from(link.payload)).sum()
}

/// What is due of one scattered chain, counted and reported, its check in its time; and a plain loop over the crate's chain with
/// the same test of the payload, with the crate's check before it and without. Of the loop's forms the quickest counts, row by
/// row. Then how long the line of a dot and the dots of a line take.
fn due_section() {
    println!(
        "due: one scattered chain, nanoseconds a link; a plain loop over the crate's chain with its check before it, and without"
    );
    let half = frame::DOTS / 2;
    let windows = [
        ("one line", (131 * frame::LINE_DOTS, 132 * frame::LINE_DOTS)),
        ("half a frame", (0, half)),
        ("over its end", (frame::DOTS - half / 2, half - half / 2)),
    ];
    let mut quickest = [0; DUE_FORMS.len()];
    for slots in [2_048, LARGE] {
        for (shape, closed) in [("open", 0), ("closed", 16)] {
            let arena = clocked(slots, slots, true, closed);
            let p = arena.ptr(1);
            for (what, (from, to)) in windows {
                let calls = [Call::DueCount(p, from, to), Call::DueEvents(p, from, to, vec![0; slots])];
                for (name, call) in ["count", "events"].into_iter().zip(calls) {
                    quickest[due_row(&format!("{name}, {shape}, {what}"), slots, &arena, call)] += 1;
                }
            }
        }
        // The report has room for the chain, but not for all links: whether it has is found out by a walk before, on both sides.
        let arena = clocked(slots, slots / 2, true, 0);
        let p = subjects::half_of_the_links(&arena);
        let call = Call::DueEvents(p, 0, half, vec![0; slots / 2]);
        quickest[due_row("events, half of the links", slots / 2, &arena, call)] += 1;
    }
    let of_forms = quickest.iter().zip(DUE_FORMS).map(|(rows, form)| format!("{}: {rows}", form.name()));
    println!("  rows by the quickest loop: {}", of_forms.collect::<Vec<_>>().join("; "));
    let dots = nanos_each(&(0..frame::DOTS).filter_map(Dot::new).collect::<Vec<_>>(), Dot::line);
    let lines: Vec<Line> = (0..frame::DOTS).filter_map(|item| Line::new(item % frame::LINES)).collect();
    println!(
        "  nanoseconds a call: line_of_dot {dots:.2}, line_dots {:.2}",
        nanos_each(&lines, Line::window)
    );
}

/// The nanoseconds of one of many calls that are made one after the other.
fn nanos_each<T: Copy, R>(items: &[T], call: impl Fn(T) -> R) -> f64 {
    let side: Side = Box::new(again(|| items.iter().for_each(|item| _ = black_box(call(*item)))));
    measure(ROUNDS, vec![Some(side)]).nanos[0].unwrap_or(0.0) / items.len() as f64
}

/// Measures one call for what is due of a chain of so many links against the quickest form of the plain loop, and answers which
/// that is.
fn due_row(kind: &str, links: usize, arena: &Arena, call: Call) -> usize {
    let expected = model_outcome(arena, &call);
    let theirs = |form, check| crate_due(arena, &call, DUE_FORMS[form], check, &expected);
    let form = quickest_form(arena, &call, &expected, ROUNDS);
    let (mut mine, mut made) = (arena.clone(), call.clone());
    assert_eq!(exports::perform(&mut mine, &mut made), Some(expected.reply));
    let ours: Side =
        Box::new(again(move || _ = black_box(exports::perform(black_box(&mut mine), black_box(&mut made)))));
    let medians = measure(ROUNDS, vec![Some(ours), theirs(form, true), theirs(form, false)]);
    row(arena.capacity(), kind, links, &medians);
    form
}

/// The form of the plain loop that is the quickest.
fn quickest_form(arena: &Arena, call: &Call, expected: &Outcome, rounds: usize) -> usize {
    let forms = DUE_FORMS.iter().map(|form| crate_due(arena, call, *form, false, expected));
    let times = measure(rounds, forms.collect()).nanos;
    let quickest =
        (0..times.len()).min_by(|&one, &other| times[one].partial_cmp(&times[other]).expect("numbers"));
    quickest.unwrap_or(0)
}

/// The forms of the plain loop: by the crate's own iterator, or by slots; an event written behind a branch, or every time, what
/// stood there if the link is not due.
const DUE_FORMS: [DueForm; 4] = [
    DueForm { by_slots: false, branch: true },
    DueForm { by_slots: false, branch: false },
    DueForm { by_slots: true, branch: true },
    DueForm { by_slots: true, branch: false },
];

/// A form of the plain loop.
#[derive(Clone, Copy)]
struct DueForm {
    by_slots: bool,
    branch: bool,
}

impl DueForm {
    /// The form in words.
    fn name(self) -> &'static str {
        match (self.by_slots, self.branch) {
            (false, true) => "the crate's iterator",
            (false, false) => "the crate's iterator, no branch",
            (true, true) => "slots",
            (true, false) => "slots, no branch",
        }
    }
}

/// The commands of a run whose figures are quoted.
const COMMANDS: usize = 100_000;

/// 100,000 mixed commands: one run, its one check in its time, and for each command the crate's own call. The crate's
/// commands are taken apart beforehand, and both sides write an answer for each. First connects, breaks and exchanges on
/// 2,048 links, where the crate makes no check; then commands of every kind, insertions and removals among them, where it
/// makes one before them or none; then the same on more and more links, which must not take longer by the number of links.
fn run_section() {
    println!("run: 100,000 edits (connect, break, exchange) on 2,048 links, nanoseconds an edit");
    let arena = chains_of_eight(2_048, 2_048);
    for fitting in [true, false] {
        let commands = calls::mixed_edits(&mut Random::new(2), &arena, COMMANDS, fitting);
        let ours = ours(&arena, Call::Run(commands.clone(), vec![0; COMMANDS]));
        let theirs = crate_edits(&arena, &commands, Checked::Never);
        row(2_048, &done_of(&arena, &commands), COMMANDS, &measure(ROUNDS, vec![Some(ours), theirs]));
    }
    println!(
        "run: 100,000 commands of every kind, with insertions and removals, nanoseconds a command; the crate with one check \
         before them, and without"
    );
    let nanos = mixed_run(2_048, true);
    mixed_run(2_048, false);
    let [more, most] = [16_384, LARGE].map(|links| mixed_run(links, true) / nanos);
    println!("  8 and 32 times the links take ours {more:.2} and {most:.2} times as long a command");
}

/// Measures a run of commands of every kind on so many links, fitting ones or not, and answers the nanoseconds of ours.
fn mixed_run(links: usize, fitting: bool) -> f64 {
    let arena = chains_of_eight((2 * links).min(LARGE), links);
    let commands = calls::mixed_commands(&mut Random::new(2), &arena, COMMANDS, Tide::Level, fitting);
    assert_eq!(commands.len(), COMMAND_WORDS * COMMANDS);
    let theirs = |checked| crate_edits(&arena, &commands, checked);
    let ours = ours(&arena, Call::Run(commands.clone(), vec![0; COMMANDS]));
    let medians = measure(ROUNDS, vec![Some(ours), theirs(Checked::Once), theirs(Checked::Never)]);
    row(links, &done_of(&arena, &commands), COMMANDS, &medians);
    medians.nanos[0].unwrap_or(0.0)
}

/// For each command of a run 0 if it is done, 1 if it is refused.
fn refusals(arena: &Arena, commands: &[u32]) -> Vec<u32> {
    let mut arena = arena.clone();
    let answers = commands.chunks_exact(COMMAND_WORDS).map(|command| model::apply(&mut arena, command));
    answers.map(|answer| u32::from(!matches!(answer, 0 | 100))).collect()
}

/// How many of the commands of a run are done, in words.
fn done_of(arena: &Arena, commands: &[u32]) -> String {
    let refusals = refusals(arena, commands);
    match refusals.iter().sum() {
        0 => "all of them done".to_string(),
        refused => format!("any links, {:.0} % refused", 100.0 * f64::from(refused) / refusals.len() as f64),
    }
}

/// An arena grown from empty until it is full: in one run, with its one check, and by single calls, each with a check of its
/// own. The crate makes its check as often, or not at all.
fn grow_section() {
    println!("grow: from empty to so many links, nanoseconds a link; the crate with its checks, and without");
    for (links, single) in [(2_048, false), (LARGE, false), (2_048, true)] {
        let empty = empty_arena(links);
        for (kind, of_every_kind) in [("one chain", false), ("every kind", true)] {
            let commands = calls::growth(&mut Random::new(4), &empty, of_every_kind);
            let (ours, checked, how) = if single {
                (one_by_one(&empty, &commands), Checked::Each, "single calls")
            } else {
                (ours(&empty, Call::Run(commands.clone(), vec![0; links])), Checked::Once, "one run")
            };
            let theirs = |checked| crate_growth(&empty, &commands, checked);
            let medians = measure(ROUNDS, vec![Some(ours), theirs(checked), theirs(Checked::Never)]);
            row(links, &format!("{how}, {kind}"), links, &medians);
        }
    }
}

/// Our side of insertions that are made call by call.
fn one_by_one<'a>(arena: &'a Arena, commands: &[u32]) -> Side<'a> {
    let call = |&[kind, p, p_generation, q, q_generation, payload]: &[u32; COMMAND_WORDS]| {
        let ptr = |slot, generation| Ptr { slot, generation };
        Call::Insert(kind, ptr(p, p_generation), ptr(q, q_generation), payload)
    };
    let mut calls: Vec<Call> = commands.as_chunks().0.iter().map(call).collect();
    Box::new(fresh(
        || arena.clone(),
        move |arena| {
            for call in black_box(&mut calls) {
                let reply = exports::perform(arena, call).expect("a level that is linked");
                assert_eq!(reply.number, 0);
            }
        },
    ))
}

/// The drain of one chain; both sides write the same report.
fn drain_section() {
    println!("drain: one chain, nanoseconds a link; the crate with its check before it, and without");
    for slots in [2_048, LARGE] {
        for (kind, scattered) in [("one chain, in order", false), ("one chain, scattered", true)] {
            let arena = one_chain(slots, scattered);
            let p = arena.ptr(1);
            let call = Call::Drain(p, vec![0; 5 * slots]);
            let report = &RefCell::new(vec![0; 5 * slots]);
            compared(slots, kind, slots, ROUNDS, &arena, call, |held| {
                held.drain_chain(p, &mut report.borrow_mut());
            });
        }
    }
}

/// Canonical compression, at 2,048 and at 65,535 links. Ours also writes the where-from column, which the crate has not.
fn canonical_section() {
    println!("compress_canonical: nanoseconds a link; the crate with its check before it, and without");
    for slots in [2_048, LARGE] {
        for (kind, arena) in compressed_kinds(slots) {
            let call = Call::CompressCanonical(0, vec![0; slots]);
            compared(slots, kind, arena.links(), ROUNDS, &arena, call, |held| {
                held.compress(false);
            });
        }
    }
}

/// Canonical compression of lone links above as many free slots: the crate looks for the next link from the same slot again
/// and again, the port does not.
fn linear_section() {
    println!("compress_canonical of lone links above as many free slots, nanoseconds a link");
    let mut ours = Vec::new();
    for slots in [LARGE / 4, LARGE / 2, LARGE] {
        let arena = above_free(slots);
        let call = Call::CompressCanonical(0, vec![0; slots]);
        let compress = |held: &mut Crate| {
            held.compress(false);
        };
        let medians = compared(slots, "above free slots", arena.links(), FEW_ROUNDS, &arena, call, compress);
        ours.push(medians.nanos[0].unwrap_or(0.0));
    }
    let times: Vec<String> = ours.windows(2).map(|two| format!("{:.2}", two[1] / two[0])).collect();
    println!("  twice the slots take ours {} times as long", times.join(" and "));
}

/// Order-preserving compression, at 2,048 and at 65,535 links; both sides write the same report.
fn order_section() {
    println!("compress_with: nanoseconds a link; the crate with its check before it, and without");
    for slots in [2_048, LARGE] {
        for (kind, arena) in compressed_kinds(slots) {
            let call = Call::CompressWith(0, vec![0; 4 * slots]);
            let report = &RefCell::new(vec![0; 4 * slots]);
            compared(slots, kind, arena.links(), ROUNDS, &arena, call, |held| {
                held.compress_with(false, &mut report.borrow_mut());
            });
        }
    }
}

/// All small arenas: each written into the same columns by the exported call, and by the wrapper's iterator, which gives each
/// words of its own. Beside them is a plain loop that copies the same words out of a list of ready arenas.
#[cfg(small_arenas)]
fn small_section() {
    println!("small: all small arenas in order, nanoseconds an arena; a plain loop that copies ready ones");
    let ready = model::small_arenas();
    let columns = &RefCell::new(Arena::empty(model::SMALL));
    let copied = || -> Option<Side> {
        Some(Box::new(again(move || {
            let mut columns = columns.borrow_mut();
            for small in black_box(ready) {
                copy(small, black_box(&mut columns));
            }
        })))
    };
    let written: Side = Box::new(again(|| {
        let mut columns = columns.borrow_mut();
        for index in 0..ready.len() as u32 {
            let mut columns = black_box(&mut *columns).as_arena_mut();
            assert!(matches!(columns.small_arena(black_box(index)), Ok(Some(_))));
        }
    }));
    let given: Side = Box::new(again(|| chain_arena::small_arenas().for_each(|small| _ = black_box(small))));
    for (kind, ours) in [("the call", written), ("the wrapper's iterator", given)] {
        let medians = measure(ROUNDS, vec![Some(ours), copied()]);
        row_beside(&["copy"], model::SMALL, kind, ready.len(), &medians);
    }
}

/// Copies a ready arena into the first words of columns, and into a header.
#[cfg(small_arenas)]
fn copy(ready: &Arena, columns: &mut Arena) {
    let length = ready.prev.len();
    columns.prev[..length].copy_from_slice(&ready.prev);
    columns.next[..length].copy_from_slice(&ready.next);
    columns.generation[..length].copy_from_slice(&ready.generation);
    columns.payload[..length].copy_from_slice(&ready.payload);
    columns.header.copy_from_slice(&ready.header);
}

/// The small arenas are not linked.
#[cfg(not(small_arenas))]
fn small_section() {}

// The arenas.

/// Arenas of a capacity, with so many slots in the stack, by kind, to be checked.
fn checked_kinds(capacity: usize, stack: usize) -> Vec<(&'static str, Arena)> {
    let style = |free, longest, scattered| Style { free, longest, even: true, scattered, closed: 2 };
    let mut r = Random::new(stack as u64);
    let mut arena = |style| random::whole(&mut r, capacity, stack, style);
    let mut kinds = vec![
        ("lone links", arena(Style { closed: 0, ..style(0, 1, false) })),
        ("chains of eight, in order", arena(style(0, 8, false))),
        ("chains of eight, scattered", arena(style(0, 8, true))),
        ("one chain, scattered", arena(style(0, stack, true))),
        ("half of it free, scattered", arena(style(8, 8, true))),
    ];
    kinds.push(("mixed", random::mixed(&mut r, capacity)));
    kinds
}

/// Chains of eight in order, rule 11 failing at the next of one slot alone, the end of a chain.
fn broken_at(slots: usize, end: usize) -> Arena {
    let style = Style { free: 0, longest: 8, even: true, scattered: false, closed: 0 };
    let mut a = alike(random::whole(&mut Random::new(1), slots, slots, style));
    a.next[end - 1] = 1;
    assert_eq!(model::broken_places(&a).collect::<Vec<_>>(), [(end as u32, side::NEXT)]);
    a
}

/// Arenas of so many slots, all in the stack, by kind, to be compressed.
fn compressed_kinds(slots: usize) -> Vec<(&'static str, Arena)> {
    let style = |longest, scattered| Style { free: 0, longest, even: true, scattered, closed: 0 };
    let mut r = Random::new(slots as u64);
    let mut arena = |style| alike(random::whole(&mut r, slots, slots, style));
    let mut kinds = vec![
        ("lone links", arena(style(1, false))),
        ("one chain, in order", arena(style(slots, false))),
        ("chains of eight, scattered", arena(style(8, true))),
        ("one chain, scattered", arena(style(slots, true))),
    ];
    kinds.push(("mixed, an eighth free", random::mixed(&mut r, slots)));
    kinds
}

/// Lone links in the upper half of the slots, the lower half free.
fn above_free(slots: usize) -> Arena {
    let mut a = Arena::empty(slots);
    let free = slots / 2;
    for s in 1..=slots {
        if s <= free {
            a.next[s - 1] = if s == free { s } else { s + 1 } as u32;
        } else {
            (a.generation[s - 1], a.payload[s - 1]) = (5, s as u32);
        }
    }
    a.header = vec![slots as u32, (slots - free) as u32, 1, 5];
    a
}

/// Links on scattered chains of eight, an eighth of them closed, with room up to a capacity.
fn chains_of_eight(capacity: usize, links: usize) -> Arena {
    let style = Style { free: 0, longest: 8, even: true, scattered: true, closed: 2 };
    alike(random::whole(&mut Random::new(1), capacity, links, style))
}

/// An arena without a link that has room for so many.
fn empty_arena(capacity: usize) -> Arena {
    Arena { header: vec![0, 0, 0, 5], ..Arena::empty(capacity) }
}

/// So many links on one chain.
fn one_chain(links: usize, scattered: bool) -> Arena {
    let style = Style { free: 0, longest: links, even: true, scattered, closed: 0 };
    alike(random::whole(&mut Random::new(3), links, links, style))
}

/// Links on chains of so many, in order or scattered, open or closed, with dots for payloads; a tenth of them is past the frame.
fn clocked(links: usize, longest: usize, scattered: bool, closed: usize) -> Arena {
    let mut r = Random::new(3);
    let style = Style { free: 0, longest, even: true, scattered, closed };
    let mut arena = alike(random::whole(&mut r, links, links, style));
    arena.payload.fill_with(|| r.below(100_000) as u32);
    arena
}

/// The arena with generation 5 for all its links and the header.
fn alike(mut a: Arena) -> Arena {
    a.generation.fill(5);
    a.header[oracle::header::GENERATION] = 5;
    assert_eq!(model::check(&a), 0);
    a
}

// Measuring. A side is a closure that makes its call once and answers the nanoseconds of it; what it sets up before is its
// own affair and is not timed.

type Side<'a> = Box<dyn FnMut() -> f64 + 'a>;

/// What was measured: of each side the nanoseconds of one call in each round and their median, and for each side but the first,
/// which is ours, the median over the rounds of ours divided by its.
struct Medians {
    times: Vec<Vec<f64>>,
    nanos: Vec<Option<f64>>,
    ratios: Vec<Option<f64>>,
}

/// Measures the sides in turns, whichever are there.
fn measure(rounds: usize, mut sides: Vec<Option<Side>>) -> Medians {
    let mut times = vec![Vec::new(); sides.len()];
    let began = Instant::now();
    let mut round = 0;
    while round < rounds || (rounds == ROUNDS && began.elapsed() < ROW) {
        for turn in 0..sides.len() {
            let side = (round + turn) % sides.len();
            times[side].extend(sides[side].as_mut().map(|side| side()));
        }
        round += 1;
    }
    let ratio = |theirs: &Vec<f64>| median(times[0].iter().zip(theirs).map(|(a, b)| a / b).collect());
    Medians {
        nanos: times.iter().map(|of_side| median(of_side.clone())).collect(),
        ratios: times[1..].iter().map(ratio).collect(),
        times,
    }
}

/// Measures a call that changes the arena against the crate's, with its check before it and without, and prints the row.
fn compared(
    slots: usize,
    kind: &str,
    items: usize,
    rounds: usize,
    arena: &Arena,
    call: Call,
    theirs: impl Fn(&mut Crate) + Copy,
) -> Medians {
    let checked = move |held: &mut Crate| {
        held.check_invariants().expect("an arena that passes");
        theirs(held);
    };
    let sides = vec![Some(ours(arena, call)), crate_side(arena, checked), crate_side(arena, theirs)];
    let medians = measure(rounds, sides);
    row(slots, kind, items, &medians);
    medians
}

/// Our side of a call that changes the arena.
fn ours(arena: &Arena, mut call: Call) -> Side<'_> {
    Box::new(fresh(
        || arena.clone(),
        move |arena| {
            let reply = exports::perform(arena, black_box(&mut call)).expect("a level that is linked");
            assert_eq!(reply.number, 0);
        },
    ))
}

/// A side whose call changes nothing: it is made once before it is timed.
fn again(mut call: impl FnMut()) -> impl FnMut() -> f64 {
    move || {
        call();
        timed(&mut call)
    }
}

/// A side whose call changes what it is made on: each call gets a copy of its own.
fn fresh<T>(make: impl Fn() -> T, mut call: impl FnMut(&mut T)) -> impl FnMut() -> f64 {
    move || {
        let mut copy = make();
        timed(|| call(black_box(&mut copy)))
    }
}

/// The nanoseconds of a call; of one that takes longer than a millisecond those in which the processor worked for it, since
/// others may have had their turn meanwhile.
fn timed(call: impl FnOnce()) -> f64 {
    let (worked, start) = (worked(), Instant::now());
    call();
    let nanos = start.elapsed().as_nanos() as f64;
    if nanos > 1e6 { self::worked() - worked } else { nanos }
}

/// The nanoseconds that the processor has worked for this thread.
fn worked() -> f64 {
    #[repr(C)]
    struct Time {
        seconds: i64,
        nanos: i64,
    }
    unsafe extern "C" {
        fn clock_gettime(clock: i32, time: *mut Time) -> i32;
    }
    const OF_THIS_THREAD: i32 = 3;
    let mut time = Time { seconds: 0, nanos: 0 };
    // Safety: the time is written to, as x86-64 Linux lays it out.
    unsafe { clock_gettime(OF_THIS_THREAD, &raw mut time) };
    time.seconds as f64 * 1e9 + time.nanos as f64
}

/// The value in the middle.
fn median(mut values: Vec<f64>) -> Option<f64> {
    values.sort_by(f64::total_cmp);
    values.get(values.len() / 2).copied()
}

/// Prints one row beside the crate, with its check before it and without.
fn row(slots: usize, kind: &str, items: usize, medians: &Medians) {
    row_beside(&["crate", "without"], slots, kind, items, medians);
}

/// Prints one row: each side by the item, and the ratios to the named other sides.
fn row_beside(names: &[&str], slots: usize, kind: &str, items: usize, medians: &Medians) {
    let digits = |number: f64| if number < 0.01 { 4 } else { 2 };
    let shown = |number: Option<f64>| number.map_or("-".to_string(), |n| format!("{n:.*}", digits(n)));
    let each = |nanos: Option<f64>| shown(nanos.map(|nanos| nanos / items as f64));
    print!("  {slots:>6}  {kind:<28} ours {:>6}", each(medians.nanos[0]));
    for ((name, nanos), ratio) in names.iter().zip(&medians.nanos[1..]).zip(&medians.ratios) {
        print!("  {name} {:>6}  ratio {:>6}", each(*nanos), shown(*ratio));
    }
    println!();
}

// The crate's sides.

/// When the crate checks its arena while it makes the calls of a run.
#[derive(Clone, Copy)]
enum Checked {
    Never,
    /// Before the first call
    Once,
    /// Before each call
    Each,
}

#[cfg(crate_text)]
type Crate = oracle::crate_side::CrateArena;

/// The crate's check of an arena.
#[cfg(crate_text)]
fn crate_check(arena: &Arena) -> Option<Side<'_>> {
    let held = Crate::hold(arena)?;
    held.check_invariants().expect("an arena that passes");
    Some(Box::new(again(move || _ = black_box(black_box(&held).check_invariants()))))
}

/// The crate's side of reading a chain, whose sum is known.
#[cfg(crate_text)]
fn crate_sum(arena: &Arena, p: Ptr, check: bool, expected: u64) -> Option<Side<'_>> {
    let held = Crate::hold(arena)?;
    assert_eq!(held.sum_chain(p), Some(expected));
    Some(Box::new(again(move || {
        let held = black_box(&held);
        assert!(!check || held.check_invariants().is_ok());
        _ = black_box(held.sum_chain(p));
    })))
}

/// The crate's side of what is due, which must come to what the model leaves.
#[cfg(crate_text)]
fn crate_due<'a>(
    arena: &Arena,
    call: &Call,
    form: DueForm,
    check: bool,
    expected: &Outcome,
) -> Option<Side<'a>> {
    let held = Crate::hold(arena)?;
    let (p, from, to, mut report) = match call.clone() {
        Call::DueCount(p, from, to) => (p, from, to, None),
        Call::DueEvents(p, from, to, report) => (p, from, to, Some(report)),
        _ => return None,
    };
    let due = move |report: Option<&mut [u32]>| {
        let held = black_box(&held);
        assert!(!check || held.check_invariants().is_ok());
        // What kind of window it is is found out before the loop.
        if from <= to {
            let length = to - from;
            plain_due(held, p, form, report, |payload| payload.wrapping_sub(from) < length)
        } else {
            let test = |payload| payload < frame::DOTS && (payload >= from || payload < to);
            plain_due(held, p, form, report, test)
        }
    };
    assert_eq!(due(report.as_deref_mut()) as u32, expected.reply.words[0]);
    assert!(report.iter().flatten().copied().eq(expected.call.lent()));
    Some(Box::new(again(move || _ = black_box(due(black_box(report.as_deref_mut()))))))
}

/// The plain loop: how many links of a chain a test takes, and in a report their slots. As nothing may be written into a report
/// that is shorter than the chain, the chain is counted first unless the report has room for all links.
#[cfg(crate_text)]
#[inline(always)]
fn plain_due(
    held: &Crate,
    p: Ptr,
    form: DueForm,
    report: Option<&mut [u32]>,
    test: impl Fn(u32) -> bool,
) -> usize {
    if let Some(report) = report.as_ref().filter(|report| report.len() < held.links()) {
        let mut links = 0;
        held.visit_by_slots(p, |_, _| links += 1).expect("a link of the arena");
        assert!(links <= report.len());
    }
    let mut count = 0;
    match (report, form) {
        (None, DueForm { by_slots: false, .. }) => {
            held.visit_by_walk(p, |_, payload| count += usize::from(test(payload)))
        }
        (None, _) => held.visit_by_slots(p, |_, payload| count += usize::from(test(payload))),
        (Some(report), DueForm { by_slots, branch: true }) => {
            let visit = |slot, payload| {
                if test(payload) {
                    report[count] = slot;
                    count += 1;
                }
            };
            if by_slots { held.visit_by_slots(p, visit) } else { held.visit_by_walk(p, visit) }
        }
        (Some(report), DueForm { by_slots, branch: false }) => {
            let visit = |slot, payload| {
                let due = test(payload);
                report[count] = if due { slot } else { report[count] };
                count += usize::from(due);
            };
            if by_slots { held.visit_by_slots(p, visit) } else { held.visit_by_walk(p, visit) }
        }
    }
    .expect("a link of the arena");
    count
}

/// The crate's side of a call that changes the arena.
#[cfg(crate_text)]
fn crate_side<'a>(arena: &'a Arena, call: impl Fn(&mut Crate) + 'a) -> Option<Side<'a>> {
    Some(Box::new(fresh(|| Crate::hold(arena).expect("an arena that passes"), call)))
}

/// The crate's side of any call on an arena, with its check before it; the call may change the arena, and has this reply.
#[cfg(crate_text)]
fn crate_call<'a>(subject: &'a subjects::Subject, changes: bool, reply: Reply) -> Option<Side<'a>> {
    let (arena, made) = (&subject.arena, RefCell::new(subject.call.clone()));
    let call = move |held: &mut Crate| match &mut *made.borrow_mut() {
        Call::Drain(p, report) => _ = black_box(held.drain_chain(*p, report)),
        Call::CompressWith(reset, report) => _ = black_box(held.compress_with(*reset != 0, report)),
        Call::CompressCanonical(reset, _) => _ = black_box(held.compress(*reset != 0)),
        call => _ = black_box(held.perform(black_box(call))),
    };
    match &subject.call {
        Call::Check => {
            let held = Crate::hold(arena)?;
            Some(Box::new(again(move || _ = black_box(black_box(&held).check_invariants()))))
        }
        due @ (Call::DueCount(..) | Call::DueEvents(..)) => {
            let expected = model_outcome(arena, due);
            let form = DUE_FORMS[quickest_form(arena, due, &expected, FEW_ROUNDS)];
            crate_due(arena, due, form, true, &expected)
        }
        Call::Run(commands, _) if arena.stack() == 0 => crate_growth(arena, commands, Checked::Once),
        Call::Run(commands, _) => crate_edits(arena, commands, Checked::Once),
        _ if changes => crate_side(arena, move |held| {
            held.check_invariants().expect("an arena that passes");
            call(held);
        }),
        other => {
            let mut held = Crate::hold(arena)?;
            assert_eq!(held.perform(&mut other.clone()), Some(reply));
            Some(Box::new(again(move || {
                let held = black_box(&mut held);
                held.check_invariants().expect("an arena that passes");
                call(held);
            })))
        }
    }
}

/// The crate's side of a run.
#[cfg(crate_text)]
fn crate_edits<'a>(arena: &'a Arena, commands: &[u32], checked: Checked) -> Option<Side<'a>> {
    crate_side(arena, editing(arena, commands, checked)?)
}

/// The crate's side of a growth. Its slots have been in use before, as the words of our columns have.
#[cfg(crate_text)]
fn crate_growth<'a>(empty: &Arena, commands: &[u32], checked: Checked) -> Option<Side<'a>> {
    let full = chains_of_eight(empty.capacity(), empty.capacity());
    let make = move || {
        let mut held = Crate::hold(&full).expect("an arena that passes");
        held.clear(5);
        held
    };
    Some(Box::new(fresh(make, editing(empty, commands, checked)?)))
}

/// What makes the crate's calls for the commands of a run on an arena. The crate refuses those that the model refuses.
#[cfg(crate_text)]
fn editing(arena: &Arena, commands: &[u32], checked: Checked) -> Option<impl Fn(&mut Crate) + use<>> {
    let edits = oracle::crate_side::Edit::of(commands)?;
    let mut answers = vec![0; edits.len()];
    Crate::hold(arena)?.edit(&edits, &mut answers);
    assert_eq!(answers, refusals(arena, commands));
    let answers = RefCell::new(answers);
    Some(move |held: &mut Crate| {
        let (edits, answers) = (black_box(&edits), &mut answers.borrow_mut());
        match checked {
            Checked::Never => held.edit(edits, answers),
            Checked::Once => {
                held.check_invariants().expect("an arena that passes");
                held.edit(edits, answers);
            }
            Checked::Each => held.edit_checked(edits, answers),
        }
    })
}

// The crate's text is not at hand.

#[cfg(not(crate_text))]
struct Crate;

#[cfg(not(crate_text))]
impl Crate {
    fn check_invariants(&self) -> Result<(), &'static str> {
        Ok(())
    }

    fn drain_chain(&mut self, _: Ptr, _: &mut [u32]) {}

    fn compress_with(&mut self, _: bool, _: &mut [u32]) {}

    fn compress(&mut self, _: bool) {}
}

#[cfg(not(crate_text))]
fn crate_check(_: &Arena) -> Option<Side<'_>> {
    None
}

#[cfg(not(crate_text))]
fn crate_sum(_: &Arena, _: Ptr, _: bool, _: u64) -> Option<Side<'_>> {
    None
}

#[cfg(not(crate_text))]
fn crate_due<'a>(_: &Arena, _: &Call, _: DueForm, _: bool, _: &Outcome) -> Option<Side<'a>> {
    None
}

#[cfg(not(crate_text))]
fn crate_side<'a>(_: &'a Arena, _: impl Fn(&mut Crate) + 'a) -> Option<Side<'a>> {
    None
}

#[cfg(not(crate_text))]
fn crate_call<'a>(_: &'a subjects::Subject, _: bool, _: Reply) -> Option<Side<'a>> {
    None
}

#[cfg(not(crate_text))]
fn crate_edits<'a>(_: &'a Arena, _: &[u32], _: Checked) -> Option<Side<'a>> {
    None
}

#[cfg(not(crate_text))]
fn crate_growth<'a>(_: &Arena, _: &[u32], _: Checked) -> Option<Side<'a>> {
    None
}
