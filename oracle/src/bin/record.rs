//! Records answers for the proved programs crates/replay_*, which make the same calls through the exports: the cases of a
//! program's calls go to its file `stdin`, the answers to its file `stdout`.
//!
//! `cargo run --release -p oracle --bin record`, where the crate's files are at hand (GLUE.md). The answers are those of the
//! crate's own text; for a damaged arena its `_check_invariants` gives the number, with 11 the model the slot and the side,
//! and REFERENCE, Replies the rest: nothing is written, and the further fields are 0, but for a step's, which are its state as
//! it got it. Where the crate has no answer (1, 6, 14, 15, 16 and 19, the lines of a frame, and what else its types cannot hold)
//! the model's is taken. No exported call has a part in it.
//!
//! The first cases of each file are kept as they stand, with their answers made anew, which must be those that are stored: they
//! were recorded when a slot had 16 bits, and no word of them that names a slot is over 65,535, but in a state, in a command and
//! for the root. The others come from fixed seeds: all arenas of up to five slots that pass the check, random ones of a few slots,
//! generations around the largest, noise in words that are not read, damaged arenas, and such with one word raised by a multiple of
//! 65,536. Of each call and each number that it answers some are kept, and some more of each mark that a case can have, as the kind
//! of an insertion, the side on which a link is broken or the place of a slot over 65,535; what the first cases have counts.
//! Of the two calls that take no arena every line is there, and the ends of every line.

use std::cmp::Ordering;
use std::collections::{BTreeMap, BTreeSet, HashSet};
use std::fs;
use std::path::{Path, PathBuf};

use oracle::calls::call_of;
use oracle::compare::{Outcome, crate_number, crate_outcome, crate_text_found, model_outcome};
use oracle::header::GENERATION;
use oracle::random::{self, Random};
use oracle::words::{CALLS_IN_ALL, DUE_COUNT, DUE_EVENTS, LINE_DOTS, LINE_OF_DOT, SMALL_ARENA};
use oracle::{Arena, COMMAND_WORDS, CUT, Call, Ptr, Reading, Reply, cases, frame, kind, model, side};

/// The programs, each with the codes of its calls and the number of its first cases, which are kept as they stand.
const PROGRAMS: [(&str, &[usize], usize); 7] = [
    ("replay_read", &[1, 2, 3, 4, 5, 6], 838),
    ("replay_edits", &[7, 8, 9, 10, 13, 14, 15], 1_263),
    ("replay_removal", &[11, 12], 419),
    ("replay_run", &[16], 337),
    ("replay_compress", &[17, 18], 335),
    ("replay_insert", &[19], 507),
    ("replay_clock", &[LINE_OF_DOT, LINE_DOTS, DUE_COUNT, DUE_EVENTS], 1_517),
];

/// The most slots of a case, and the most words of its arguments or of the slice that it lends.
const SLOTS: usize = 12;
const WORDS: usize = 64;

/// How many cases of each call are tried. Each call has seeds of its own, so that a new call leaves the cases of the others as they are.
const SEEDS: u64 = 25_000;

/// How many cases of a call with a number are kept at least for each mark, how many if the check refuses the arena, how many for
/// each command of a run or kind of an insertion, and how many for each place of a slot over 65,535, if it is right when it is cut.
const KEPT: usize = 14;
const KEPT_BROKEN: usize = 3;
const KEPT_OF_KIND: usize = 3;
const KEPT_FAR: usize = 2;

fn main() {
    if !crate_text_found() {
        eprintln!("record: the crate's files are not at hand, so nothing was recorded");
        std::process::exit(1);
    }
    let mut kept = Kept::default();
    let first: Vec<Vec<[String; 2]>> = PROGRAMS.iter().map(|program| kept.first_of(program)).collect();
    kept.by_seeds();
    for ((program, codes, _), first) in PROGRAMS.iter().zip(&first) {
        let further = kept.chosen.iter().filter(|((code, _), _)| codes.contains(code));
        let lines: Vec<&[String; 2]> = first.iter().chain(further.flat_map(|(_, cases)| cases)).collect();
        for (file, name) in ["stdin", "stdout"].into_iter().enumerate() {
            write(program, name, &lines.iter().map(|lines| lines[file].as_str()).collect::<String>());
        }
        println!(
            "{program}: {} cases kept as they stand, {} further ones",
            first.len(),
            lines.len() - first.len()
        );
    }
    for code in replayed() {
        let of_code = kept.numbers.iter().filter(|((of, _), _)| *of == code);
        let numbers: Vec<String> = of_code.map(|((_, number), cases)| format!("{number}: {cases}")).collect();
        println!("call {code}, cases by number: {}", numbers.join(", "));
    }
    let (all, by_model) = (kept.numbers.values().sum::<usize>(), kept.by_model);
    println!(
        "{all} cases in all, {} with the crate's answer and {by_model} with the model's",
        all - by_model
    );
}

/// The cases that are kept, and what is counted of them.
#[derive(Default)]
struct Kept {
    /// The lines of all cases
    there: HashSet<String>,
    /// How many there are of each call, number and mark
    marked: BTreeMap<(usize, u32, Mark), usize>,
    /// How many there are of each call and number
    numbers: BTreeMap<(usize, u32), usize>,
    /// How many have the model's answer
    by_model: usize,
    /// Those that come from seeds, by call and number: the lines of the case and of its answer
    chosen: BTreeMap<(usize, u32), Vec<[String; 2]>>,
}

impl Kept {
    /// Keeps the first cases of a program as they stand, and answers their lines.
    fn first_of(&mut self, (program, _, count): &(&str, &[usize], usize)) -> Vec<[String; 2]> {
        let [cases, answers] =
            ["stdin", "stdout"].map(|name| fs::read_to_string(path(program, name)).expect("a stored file"));
        let lines = cases.lines().zip(answers.lines()).take(*count);
        let lines: Vec<[String; 2]> =
            lines.map(|(case, answer)| [case, answer].map(|line| format!("{line}\n"))).collect();
        assert_eq!(lines.len(), *count, "{program} has lost stored cases");
        for [case, answer] in &lines {
            let (before, call) = case_of(case.trim_end());
            let (after, by_crate) = answered(&before, &call);
            assert_eq!(
                answer_line(&after),
                *answer,
                "{program}: another answer than the stored one for {case}"
            );
            self.keep(case, &after, by_crate, &marks(&before, &after, by_crate));
        }
        lines
    }

    /// Keeps cases from seeds, each if it has a mark that is not there often enough yet.
    fn by_seeds(&mut self) {
        for call in lines() {
            self.offer(&no_arena(), &call);
        }
        let small: Vec<Vec<Arena>> = (0..=5).map(cases::enumerated).collect();
        let tried = replayed().flat_map(|code| (0..SEEDS).map(move |seed| (code, seed)));
        for (code, seed) in tried.filter(|(code, _)| !matches!(*code, LINE_OF_DOT | LINE_DOTS)) {
            let mut r = Random::new(((code as u64) << 32) + seed);
            let mut before = some_arena(&mut r, &small);
            if matches!(code, DUE_COUNT | DUE_EVENTS) {
                before = random::with_dots(&mut r, before);
            }
            let call = call_of(code, &mut r, &before, &[]);
            self.offer(&before, &call);
        }
    }

    /// Keeps a case if it is short enough, is not there yet, and has a mark that is not there often enough.
    fn offer(&mut self, before: &Arena, call: &Call) {
        let Some(case) = case_line(before, call).filter(|case| !self.there.contains(case)) else { return };
        let (after, by_crate) = answered(before, call);
        let (code, number) = (call.code(), after.reply.number);
        let marks = marks(before, &after, by_crate);
        let rare = |mark: &Mark| {
            self.marked.get(&(code, number, *mark)).is_none_or(|&cases| cases < mark.wanted(number))
        };
        if !call.takes_arena() || marks.iter().any(rare) {
            self.keep(&case, &after, by_crate, &marks);
            self.chosen.entry((code, number)).or_default().push([case, answer_line(&after)]);
        }
    }

    /// Counts a case that is kept.
    fn keep(&mut self, case: &str, after: &Outcome, by_crate: bool, marks: &[Mark]) {
        let (code, number) = (after.call.code(), after.reply.number);
        self.there.insert(case.to_string());
        marks.iter().for_each(|mark| *self.marked.entry((code, number, *mark)).or_default() += 1);
        *self.numbers.entry((code, number)).or_default() += 1;
        self.by_model += usize::from(!by_crate);
    }
}

/// What a call answers and leaves, and whether it is the crate that says so.
fn answered(before: &Arena, call: &Call) -> (Outcome, bool) {
    let by_crate = if call.takes_arena() { crate_answer(before, call) } else { None };
    let is_crates = by_crate.is_some();
    (by_crate.unwrap_or_else(|| model_outcome(before, call)), is_crates)
}

/// The codes of the calls that have stored cases: all but the one that writes a small arena, since the proved program
/// `small_printer` prints every arena that it gives.
fn replayed() -> impl Iterator<Item = usize> {
    (1..=CALLS_IN_ALL).filter(|code| *code != SMALL_ARENA)
}

/// What stands for an arena in the cases of calls that take none.
fn no_arena() -> Arena {
    Arena { header: vec![0; 4], ..Arena::empty(0) }
}

/// The calls that take no arena: every line, the first and the last dot of every line, and numbers past them.
fn lines() -> impl Iterator<Item = Call> {
    let past = [frame::DOTS, frame::DOTS + 1, CUT + frame::DOTS, 1 << 31, u32::MAX];
    let ends = (0..frame::DOTS).filter(|dot| matches!(dot % frame::LINE_DOTS, 0 | 340));
    let past_lines = [frame::LINES, frame::LINES + 1, CUT - 1, CUT, 1 << 31, u32::MAX];
    let dots = ends.chain(past).map(Call::LineOfDot);
    dots.chain((0..frame::LINES).chain(past_lines).map(Call::LineDots))
}

/// The place of one of a program's files.
fn path(program: &str, name: &str) -> PathBuf {
    Path::new(env!("CARGO_MANIFEST_DIR")).join("../crates").join(program).join(name)
}

/// Writes one of a program's files.
fn write(program: &str, name: &str, text: &str) {
    let path = path(program, name);
    fs::write(&path, text).unwrap_or_else(|error| panic!("{} could not be written: {error}", path.display()));
}

/// An arena: small or random, whole or damaged or with one word raised, and mostly with short words where they do not matter.
fn some_arena(r: &mut Random, small: &[Vec<Arena>]) -> Arena {
    let mut a = match r.below(5) {
        0 => random::any_whole(r, 8),
        1 => random::damaged(r, 8),
        way => {
            let arenas = &small[r.below(small.len())];
            let generations = [1, 2, 5, u32::MAX - 1, u32::MAX];
            let (a, room) = (&arenas[r.below(arenas.len())], r.below(3));
            let current = r.pick(&generations[1..]);
            let a = cases::dressed(a, r, room, &generations, current);
            let mut raised = if way == 2 { cases::with_raised_words(&a) } else { vec![a] };
            raised.swap_remove(r.below(raised.len()))
        }
    };
    if !r.once_in(16) {
        shorten(&mut a);
    }
    a
}

/// Makes words short that no call looks at: payloads, and what is not read of free slots and above the stack.
fn shorten(a: &mut Arena) {
    let stack = a.header.first().map_or(0, |&stack| stack as usize).min(a.generation.len());
    a.payload.iter_mut().for_each(|word| *word %= 100);
    a.generation[stack..].iter_mut().for_each(|word| *word %= 100);
    for (place, word) in a.prev.iter_mut().enumerate() {
        if place >= stack || a.generation[place] == 0 {
            *word %= 100;
        }
    }
}

/// What is special about a case.
#[derive(Clone, Copy, Debug, PartialEq, Eq, PartialOrd, Ord)]
enum Mark {
    /// The answer is the crate's
    ByCrate,
    /// The answer is the model's
    ByModel,
    /// 11 names this side
    Side(u32),
    /// Both sides of the slot that 11 names are broken
    BothSides,
    /// 11 names a slot above the first
    HigherSlot,
    /// One slot is broken, or more
    OneBroken,
    MoreBroken,
    /// The two pointers are one
    SamePointers,
    /// The pointer's slot is 0
    SlotZero,
    /// The pointer's link is alone in a closed chain
    ClosedAlone,
    /// The pointer's slot is the last of the stack
    LastSlot,
    /// The current generation is the largest
    LargestGeneration,
    /// The arena has no links
    NoLinks,
    /// The stack ends with a free slot
    FreeEnd,
    /// There is room above the stack
    Room,
    /// An insertion of this kind, and what there is for it
    Kind(u32, ToTake),
    /// The run has a command of this code with this answer, and what there is for it if it is an insertion
    Command(u32, u32, Option<ToTake>),
    /// The window's ends are in order, equal, or it crosses the frame's end, and of the chain's links none is due, some are or all
    Window(Ordering, Share),
    /// Of a chain that is open or closed, in whose middle the walk begins or not, some links are due
    Walked {
        closed: bool,
        middle: bool,
    },
    /// The window ends with the frame
    ToTheEnd,
    /// A payload is an end of the window
    AtStart,
    AtEnd,
    /// A payload is 89,342 or more
    PastTheFrame,
    /// The report is as long as the chain, longer, too short by one word, or empty
    Report(Room),
    /// A stale pointer or too short a report comes with a window that is none
    BadWindow,
    /// A slot over 65,535 stands there, and whether it is that of a link or the right one if it is cut to 16 bits
    Far(Place, bool),
}

/// Where a slot can stand, or a number of slots.
#[derive(Clone, Copy, Debug, PartialEq, Eq, PartialOrd, Ord)]
enum Place {
    /// In the call's first or second pointer
    Pointer(usize),
    /// In the first or second pointer of a command of this code, or of an insertion of this kind
    Command(u32, usize),
    /// In a walk's state
    Start,
    Position,
    /// In a link
    Prev,
    Next,
    /// In a free slot
    FreeNext,
    /// In the header
    Root,
    StackLength,
    LinkCount,
    /// Where nobody looks
    Unread,
    /// In a slice that the call fills, which does not reach there
    Left,
}

/// How many of the links of a chain are due.
#[derive(Clone, Copy, Debug, PartialEq, Eq, PartialOrd, Ord)]
enum Share {
    None,
    Some,
    All,
}

/// How long a report is, measured by the chain.
#[derive(Clone, Copy, Debug, PartialEq, Eq, PartialOrd, Ord)]
enum Room {
    Empty,
    OneShort,
    Exact,
    More,
    Less,
}

/// Which slot there is for an insertion.
#[derive(Clone, Copy, Debug, PartialEq, Eq, PartialOrd, Ord)]
enum ToTake {
    /// A root that leads on to another free slot
    Root,
    /// A root that points at itself
    LastFree,
    /// The slot behind the stack
    BehindStack,
    /// None
    Nothing,
}

impl ToTake {
    /// What there is in an arena that passes the check.
    fn of(a: &Arena) -> Self {
        match a.root() as usize {
            0 if a.stack() == a.capacity() => Self::Nothing,
            0 => Self::BehindStack,
            root if a.next[root - 1] as usize == root => Self::LastFree,
            _ => Self::Root,
        }
    }
}

impl Mark {
    /// How many cases of a number are kept at least for it.
    fn wanted(self, number: u32) -> usize {
        match self {
            Self::Far(_, right) => {
                if right {
                    KEPT_FAR
                } else {
                    1
                }
            }
            _ if (1..=11).contains(&number) => KEPT_BROKEN,
            Self::Kind(..) | Self::Command(..) => KEPT_OF_KIND,
            _ => KEPT,
        }
    }
}

/// The marks of a case, by what it leaves; of a call that the check refuses only whose answer it is, and with 11 where the
/// arena is broken.
fn marks(before: &Arena, after: &Outcome, by_crate: bool) -> Vec<Mark> {
    let mut marks = vec![if by_crate { Mark::ByCrate } else { Mark::ByModel }];
    if !(1..=11).contains(&after.reply.number) {
        let (stack, pointers) = (before.stack(), after.call.pointers());
        let p = pointers.first().copied();
        let slot = p.map(|p| p.slot as usize);
        let link = slot.filter(|&slot| before.is_link(slot));
        let mut mark = |holds: bool, mark| {
            if holds {
                marks.push(mark)
            }
        };
        mark(p.is_some() && pointers.get(1).copied() == p, Mark::SamePointers);
        mark(slot == Some(0), Mark::SlotZero);
        mark(link.is_some_and(|slot| before.next[slot - 1] as usize == slot), Mark::ClosedAlone);
        mark(slot == Some(stack), Mark::LastSlot);
        mark(before.header[GENERATION] == u32::MAX, Mark::LargestGeneration);
        mark(before.links() == 0, Mark::NoLinks);
        mark(stack > 0 && !before.is_link(stack), Mark::FreeEnd);
        mark(stack < before.capacity(), Mark::Room);
        marks.extend(marks_of_kind(before, after));
        marks.extend(marks_of_due(before, after));
    }
    if after.reply.number == 11 {
        marks.extend(marks_of_broken(before, &after.reply));
    }
    marks.extend(marks_of_far(before, after));
    marks
}

/// The marks of slots over 65,535: where the check refuses the arena only of those that it may be refused for.
fn marks_of_far(before: &Arena, after: &Outcome) -> Vec<Mark> {
    let mut marks = vec![];
    let mut see = |numbers: &[u32], word: u32, place: Place, right: &dyn Fn(u32) -> bool| {
        let passed = !(1..=11).contains(&after.reply.number) && numbers.is_empty();
        if word >= CUT && (passed || numbers.contains(&after.reply.number)) {
            marks.push(Mark::Far(place, right(word % CUT)));
        }
    };
    if !after.call.takes_arena() || after.reply.number == 1 {
        return marks;
    }
    let (stack, capacity) = (before.stack().min(before.capacity()), before.capacity());
    let of_stack = |slot: u32| (1..=stack).contains(&(slot as usize));
    let link = |slot: u32| of_stack(slot) && before.generation[slot as usize - 1] != 0;
    for (k, p) in after.call.pointers().into_iter().enumerate() {
        let place = match &after.call {
            Call::Insert(kind, ..) if kind::ALL.contains(kind) => Place::Command(*kind, k),
            _ => Place::Pointer(k),
        };
        see(&[], p.slot, place, &link);
    }
    match &after.call {
        Call::WalkStep(walk) => {
            see(&[], walk.start, Place::Start, &link);
            see(&[], walk.position, Place::Position, &link);
        }
        Call::Run(words, _) if after.reply.number == 0 => {
            for command in words.chunks_exact(COMMAND_WORDS) {
                let code = if command[0] <= kind::BRIDGE_INX { command[0] } else { 0 };
                see(&[], command[1], Place::Command(code, 0), &link);
                see(&[], command[3], Place::Command(code, 1), &link);
            }
        }
        Call::CompressCanonical(..) | Call::DueEvents(..) => {
            after.call.lent().last().iter().for_each(|&&word| see(&[], word, Place::Left, &|_| true));
        }
        _ => {}
    }
    for s in 1..=capacity {
        let (prev, next) = (before.prev[s - 1], before.next[s - 1]);
        let names = |column: &[u32], slot: u32| link(slot) && column[slot as usize - 1] as usize == s;
        if s > stack {
            see(&[], prev, Place::Unread, &|_| true);
        } else if before.generation[s - 1] == 0 {
            see(&[], prev, Place::Unread, &|_| true);
            see(&[7], next, Place::FreeNext, &|slot| of_stack(slot) && !link(slot));
        } else {
            see(&[11], prev, Place::Prev, &|slot| slot == 0 || names(&before.next, slot));
            see(&[11], next, Place::Next, &|slot| slot == 0 || names(&before.prev, slot));
        }
    }
    let [stack_length, links, root, _] = before.header[..] else { return marks };
    see(&[5, 7], root, Place::Root, &|slot| slot == 0 || of_stack(slot) && !link(slot));
    see(&[3], stack_length, Place::StackLength, &|slots| slots as usize <= capacity);
    see(&[3], links, Place::LinkCount, &|links| links as usize <= capacity);
    marks
}

/// The marks of a reply with 11.
fn marks_of_broken(before: &Arena, reply: &Reply) -> Vec<Mark> {
    let places: Vec<(u32, u32)> = model::broken_places(before).collect();
    let slots: BTreeSet<u32> = places.iter().map(|&(slot, _)| slot).collect();
    let both = [side::PREV, side::NEXT].iter().all(|&side| places.contains(&(reply.broken, side)));
    let mut marks = vec![Mark::Side(reply.side)];
    marks.extend(both.then_some(Mark::BothSides));
    marks.extend((reply.broken > 1).then_some(Mark::HigherSlot));
    marks.push(if slots.len() == 1 { Mark::OneBroken } else { Mark::MoreBroken });
    marks
}

/// The marks of an insertion and of a run's commands.
fn marks_of_kind(before: &Arena, after: &Outcome) -> Vec<Mark> {
    match &after.call {
        Call::Insert(kind, ..) if kind::ALL.contains(kind) => vec![Mark::Kind(*kind, ToTake::of(before))],
        Call::Run(words, answers) if after.reply.number == 0 => {
            let mut now = before.clone();
            let commands = words.chunks_exact(COMMAND_WORDS).zip(answers);
            commands
                .map(|(command, &answer)| {
                    let code = if command[0] <= kind::BRIDGE_INX { command[0] } else { 0 };
                    let to_take = kind::ALL.contains(&code).then(|| ToTake::of(&now));
                    model::apply(&mut now, command);
                    Mark::Command(code, answer, to_take)
                })
                .collect()
        }
        _ => vec![],
    }
}

/// The marks of what is due.
fn marks_of_due(before: &Arena, after: &Outcome) -> Vec<Mark> {
    let (p, from, to, report): (Ptr, u32, u32, Option<usize>) = match &after.call {
        Call::DueCount(p, from, to) => (*p, *from, *to, None),
        Call::DueEvents(p, from, to, report) => (*p, *from, *to, Some(report.len())),
        _ => return vec![],
    };
    let mut marks = vec![];
    let mut mark = |holds: bool, mark| {
        if holds {
            marks.push(mark)
        }
    };
    let in_the_frame = from < frame::DOTS && to <= frame::DOTS;
    if after.reply.number == 12 {
        mark(!in_the_frame, Mark::BadWindow);
        return marks;
    }
    let chain = model::chain_of(before, p.slot as usize);
    if let Some(words) = report {
        let room = match words {
            words if words > chain.len() => Room::More,
            words if words == chain.len() => Room::Exact,
            0 => Room::Empty,
            words if words + 1 == chain.len() => Room::OneShort,
            _ => Room::Less,
        };
        mark(true, Mark::Report(room));
        mark(!in_the_frame && words < chain.len(), Mark::BadWindow);
    }
    if after.reply.number == 0 {
        let due = after.reply.words[0] as usize;
        let share = match due {
            0 => Share::None,
            all if all == chain.len() => Share::All,
            _ => Share::Some,
        };
        let closed = chain.iter().all(|&s| before.next[s - 1] != 0);
        let middle = before.prev[chain[0] - 1] != 0 && before.next[chain[0] - 1] != 0;
        let payloads: Vec<u32> = chain.iter().map(|&s| before.payload[s - 1]).collect();
        mark(true, Mark::Window(from.cmp(&to), share));
        mark(due > 1, Mark::Walked { closed, middle });
        mark(to == frame::DOTS, Mark::ToTheEnd);
        mark(payloads.contains(&from), Mark::AtStart);
        mark(payloads.contains(&to), Mark::AtEnd);
        mark(payloads.iter().any(|&payload| payload >= frame::DOTS), Mark::PastTheFrame);
    }
    marks
}

/// What the crate answers and leaves, if its types can hold the case and it has the call.
fn crate_answer(before: &Arena, call: &Call) -> Option<Outcome> {
    match crate_number(before)? {
        0 => crate_outcome(before, call),
        number => {
            let reply = refusal(before, number, call);
            Some(Outcome { reply, call: call.clone(), arena: before.clone() })
        }
    }
}

/// The reply for an arena that does not pass the check (REFERENCE, Replies). The crate's check names no slot: with 11 slot
/// and side are the model's.
fn refusal(before: &Arena, number: u32, call: &Call) -> Reply {
    let reply = match call {
        Call::WalkStep(walk) => {
            Reply::new(number, &[0, 0, walk.start, walk.position, walk.direction, walk.left])
        }
        _ => Reply::number(number),
    };
    let place = if number == 11 { model::broken_place(before) } else { None };
    let (broken, side) = place.unwrap_or((0, 0));
    Reply { broken, side, ..reply }
}

/// The words of the columns and of the header.
fn columns(a: &Arena) -> Vec<u32> {
    [&a.prev[..], &a.next, &a.generation, &a.payload, &a.header].concat()
}

/// The number of slots and the shape of the columns: 0 if they are equal and the header has four words, 1 to 5 if that
/// column or the header is one word short. None for another shape.
fn shape(a: &Arena) -> Option<(usize, usize)> {
    let lengths = [a.prev.len(), a.next.len(), a.generation.len(), a.payload.len(), a.header.len()];
    let slots = lengths[..4].iter().copied().max()?;
    let whole = [slots, slots, slots, slots, 4];
    (0..=5).map(|shape| (slots, shape)).find(|&(_, shape)| {
        (0..5).all(|column| lengths[column] + usize::from(column + 1 == shape) == whole[column])
    })
}

/// A line of numbers.
fn line_of(words: Vec<u32>) -> String {
    let words: Vec<String> = words.iter().map(u32::to_string).collect();
    words.join(" ") + "\n"
}

/// The line of a case: code, number of slots, shape, columns and header, a word that is not lent being 0, then the
/// arguments and the lent slice, each after its length. None if it is too large for the program.
fn case_line(before: &Arena, call: &Call) -> Option<String> {
    let (arguments, lent) = (call.arguments(), call.lent());
    let (slots, shape) = shape(before)?;
    if slots > SLOTS || arguments.len() > WORDS || lent.len() > WORDS {
        return None;
    }
    let mut full = before.clone();
    full.prev.resize(slots, 0);
    full.next.resize(slots, 0);
    full.generation.resize(slots, 0);
    full.payload.resize(slots, 0);
    full.header.resize(4, 0);
    let mut words = vec![call.code() as u32, slots as u32, shape as u32];
    words.extend(columns(&full));
    words.push(arguments.len() as u32);
    words.extend(arguments);
    words.push(lent.len() as u32);
    words.extend(lent);
    Some(line_of(words))
}

/// Reads a case back from its line.
fn case_of(line: &str) -> (Arena, Call) {
    let words: Vec<u32> = line.split(' ').map(|word| word.parse().expect("a number")).collect();
    let mut rest = &words[..];
    let mut take = |count: usize| rest.split_off(..count).expect("words enough").to_vec();
    let (code, c, shape) = (take(1)[0] as usize, take(1)[0] as usize, take(1)[0]);
    let (mut prev, mut next, mut generation, mut payload) = (take(c), take(c), take(c), take(c));
    let mut header = take(4);
    match shape {
        1 => _ = prev.pop(),
        2 => _ = next.pop(),
        3 => _ = generation.pop(),
        4 => _ = payload.pop(),
        5 => _ = header.pop(),
        _ => {}
    }
    let count = take(1)[0] as usize;
    let arguments = take(count);
    let count = take(1)[0] as usize;
    let call = Call::of(code, &arguments, take(count)).expect("a call");
    (Arena { prev, next, generation, payload, header }, call)
}

/// The line of an answer: number, broken and side, the further fields, then the lent slice, the columns and the header as
/// they are afterwards; of a call that takes no arena the number and the further fields alone.
fn answer_line(after: &Outcome) -> String {
    let (reply, fields) = (&after.reply, &after.reply.words[..after.call.fields().len()]);
    if !after.call.takes_arena() {
        return line_of([&[reply.number], fields].concat());
    }
    let mut words = vec![reply.number, reply.broken, reply.side];
    words.extend(fields);
    words.extend(after.call.lent());
    words.extend(columns(&after.arena));
    line_of(words)
}

#[cfg(test)]
mod tests {
    use oracle::compare::crate_place;
    use oracle::words::calls_on_arenas;

    use super::*;

    /// The numbers that the call of a code can answer.
    fn numbers(code: usize) -> Vec<u32> {
        let own: &[u32] = match code {
            2 | 3 | 5 => &[12],
            7..=10 => &[12, 13],
            11 => &[12, 100],
            12 => &[12, 14],
            13 => &[15],
            14 => &[100],
            16 => &[14, 16],
            17 | 18 => &[14, 100],
            19 => &[16, 17, 18],
            LINE_OF_DOT | LINE_DOTS => return vec![0, 19],
            DUE_COUNT => &[12, 19],
            DUE_EVENTS => &[12, 14, 19],
            _ => &[],
        };
        (0..=11).chain(own.iter().copied()).collect()
    }

    /// The first number of a line.
    fn first(line: &str) -> u32 {
        line.split(' ').next().and_then(|word| word.parse().ok()).expect("a number")
    }

    /// The stored cases and their answers, each case in the program that makes its call.
    fn stored() -> Vec<(String, String)> {
        let mut stored = vec![];
        for (program, codes, _) in PROGRAMS {
            let [cases, answers] = ["stdin", "stdout"]
                .map(|name| fs::read_to_string(path(program, name)).expect("a stored file"));
            assert_eq!(cases.lines().count(), answers.lines().count(), "{program}");
            assert!(cases.lines().all(|case| codes.contains(&(first(case) as usize))), "{program}");
            stored.extend(
                cases.lines().zip(answers.lines()).map(|(case, answer)| (case.into(), answer.into())),
            );
        }
        stored
    }

    /// A digest of a text (FNV-1a).
    fn digest(text: &str) -> u64 {
        text.bytes()
            .fold(0xcbf2_9ce4_8422_2325, |sum, byte| (sum ^ u64::from(byte)).wrapping_mul(0x0100_0000_01b3))
    }

    /// The first cases of each program and their answers are those that were recorded when a slot had 16 bits, byte for byte.
    #[test]
    fn the_first_cases_stand_as_they_were_recorded() {
        const DIGESTS: [(&str, [u64; 2]); 7] = [
            ("replay_read", [0xc8c4_ca04_a2bc_3d23, 0xc3ee_a18e_3bc0_ad9f]),
            ("replay_edits", [0x34fa_b860_8bf8_7beb, 0x4316_4336_e386_92e6]),
            ("replay_removal", [0x8400_835c_8b79_5097, 0xbb73_1bd4_5547_a927]),
            ("replay_run", [0x11d6_2cdf_8585_c530, 0x3150_0373_ce06_91fe]),
            ("replay_compress", [0x4a20_e1e8_cb57_98b6, 0x06ab_6115_322a_821b]),
            ("replay_insert", [0x4bb4_5ceb_49f1_997e, 0x68fb_5f71_93a0_0ae8]),
            ("replay_clock", [0xbda6_28a6_c1d2_42be, 0xf3be_aad8_e069_d4de]),
        ];
        for ((program, _, count), stored) in PROGRAMS.into_iter().zip(DIGESTS) {
            let found = ["stdin", "stdout"].map(|name| {
                let text = fs::read_to_string(path(program, name)).expect("a stored file");
                digest(&text.split_inclusive('\n').take(count).collect::<String>())
            });
            assert_eq!((program, found), stored);
        }
    }

    /// Slots over 65,535 are there that would be right if they were cut to 16 bits: in each pointer of each call and command, in both
    /// slots of a state, in links, free slots and header of each call, which is refused for them, and where nobody looks and nothing is written.
    #[test]
    fn stored_far_slots_are_of_every_kind() {
        let mut found = BTreeSet::new();
        for (case, _) in stored() {
            let (before, call) = case_of(&case);
            let after = model_outcome(&before, &call);
            let marks = marks_of_far(&before, &after).into_iter();
            found.extend(marks.map(|mark| (call.code(), after.reply.number, mark)));
        }
        let right = |place| Mark::Far(place, true);
        let mut wanted = vec![];
        for code in calls_on_arenas() {
            wanted.extend([Place::StackLength, Place::LinkCount].map(|place| (code, 3, right(place))));
            wanted.extend([5, 7].map(|number| (code, number, right(Place::Root))));
            wanted.push((code, 7, right(Place::FreeNext)));
            wanted.extend([Place::Prev, Place::Next].map(|place| (code, 11, right(place))));
            wanted.push((code, 0, right(Place::Unread)));
        }
        let stale =
            [(2, 12), (3, 12), (4, 0), (5, 12), (7, 12), (8, 12), (9, 12), (10, 12), (11, 12), (12, 12)];
        for (code, number) in stale.into_iter().chain([DUE_COUNT, DUE_EVENTS].map(|code| (code, 12))) {
            wanted.push((code, number, right(Place::Pointer(0))));
            wanted.extend(matches!(code, 4 | 7 | 10).then(|| (code, number, right(Place::Pointer(1)))));
        }
        wanted.extend([Place::Start, Place::Position].map(|place| (6, 0, right(place))));
        wanted.extend([18, DUE_EVENTS].map(|code| (code, 0, right(Place::Left))));
        for code in 1..=kind::BRIDGE_INX {
            wanted.extend([0, 1].map(|pointer| (16, 0, right(Place::Command(code, pointer)))));
        }
        for (kind, pointer) in kind::ALL.flat_map(|kind| [0, 1].map(|pointer| (kind, pointer))) {
            let number = if kind::names(kind) > pointer { 17 } else { 0 };
            wanted.push((19, number, right(Place::Command(kind, pointer))));
        }
        for wanted in wanted {
            assert!(found.contains(&wanted), "{wanted:?}");
        }
    }

    /// Every call is there with every number that it can answer.
    #[test]
    fn stored_cases_are_of_every_kind() {
        let stored = stored();
        let kinds: BTreeSet<(u32, u32)> =
            stored.iter().map(|(case, answer)| (first(case), first(answer))).collect();
        let all =
            replayed().flat_map(|code| numbers(code).into_iter().map(move |number| (code as u32, number)));
        assert_eq!(kinds, all.collect());
        assert!(stored.len() >= 2_000);
    }

    /// Every kind of an insertion is there, by its call and in a run, done on each slot that there can be for it, refused with
    /// 18 and, if it names links, with 17; and the runs have every other command with every answer that it can have.
    #[test]
    fn stored_insertions_and_commands_are_of_every_kind() {
        let mut found = BTreeSet::new();
        for (case, _) in stored() {
            let (before, call) = case_of(&case);
            let after = model_outcome(&before, &call);
            let number = after.reply.number;
            if !(1..=11).contains(&number) {
                found.extend(marks_of_kind(&before, &after).into_iter().map(|mark| (number, mark)));
            }
        }
        for kind in kind::ALL {
            let mut wanted = vec![];
            let mut want = |number, to_take| {
                wanted.push((number, Mark::Kind(kind, to_take)));
                wanted.push((0, Mark::Command(kind, number, Some(to_take))));
            };
            want(18, ToTake::Nothing);
            for to_take in [ToTake::Root, ToTake::LastFree, ToTake::BehindStack] {
                want(0, to_take);
            }
            if kind::names(kind) > 0 {
                want(17, ToTake::Nothing);
                want(17, ToTake::BehindStack);
            }
            assert!(wanted.iter().all(|mark| found.contains(mark)), "kind {kind}");
        }
        for (code, answers) in [(0, [16].as_slice()), (5, &[0, 12, 100])] {
            assert!(answers.iter().all(|&answer| found.contains(&(0, Mark::Command(code, answer, None)))));
        }
        for code in 1..=4 {
            let mark = |answer| (0, Mark::Command(code, answer, None));
            assert!([0, 12, 13].iter().all(|&answer| found.contains(&mark(answer))));
        }
    }

    /// Every line is there, and both ends of every line.
    #[test]
    fn stored_lines_are_all_there() {
        let stored: BTreeSet<(usize, Vec<u32>)> = stored()
            .iter()
            .map(|(case, _)| case_of(case).1)
            .filter(|call| !call.takes_arena())
            .map(|call| (call.code(), call.arguments()))
            .collect();
        assert_eq!(stored, lines().map(|call| (call.code(), call.arguments())).collect());
        assert_eq!(stored.len(), 3 * 262 + 11);
    }

    /// What is due is there in windows of every kind, on open and closed chains from their middle and from an end, with payloads
    /// at both ends of the window and past the frame, and with reports of every length that matters.
    #[test]
    fn stored_windows_are_of_every_kind() {
        let mut found = BTreeSet::new();
        for (case, _) in stored() {
            let (before, call) = case_of(&case);
            let after = model_outcome(&before, &call);
            let number = after.reply.number;
            if !(1..=11).contains(&number) {
                let marks = marks_of_due(&before, &after).into_iter();
                found.extend(marks.map(|mark| (call.code(), number, mark)));
            }
        }
        let mut wanted = vec![];
        for code in [DUE_COUNT, DUE_EVENTS] {
            let shares = [Share::None, Share::Some, Share::All];
            let windows = [Ordering::Less, Ordering::Greater]
                .into_iter()
                .flat_map(|ends| shares.map(|share| Mark::Window(ends, share)));
            let walked = [(false, false), (false, true), (true, true)]
                .map(|(closed, middle)| Mark::Walked { closed, middle });
            let others = [
                Mark::Window(Ordering::Equal, Share::None),
                Mark::ToTheEnd,
                Mark::AtStart,
                Mark::AtEnd,
                Mark::PastTheFrame,
            ];
            wanted.extend(windows.chain(walked).chain(others).map(|mark| (code, 0, mark)));
            wanted.push((code, 12, Mark::BadWindow));
        }
        wanted.push((DUE_EVENTS, 19, Mark::BadWindow));
        wanted.extend([Room::Exact, Room::More].map(|room| (DUE_EVENTS, 0, Mark::Report(room))));
        wanted.extend([Room::Empty, Room::OneShort].map(|room| (DUE_EVENTS, 14, Mark::Report(room))));
        for (code, number, mark) in wanted {
            assert!(found.contains(&(code, number, mark)), "call {code} with {number}: {mark:?}");
        }
    }

    /// Every call is refused with 11 at either side, at a slot above the first, and where one slot or more are broken.
    #[test]
    fn stored_broken_links_are_of_every_kind() {
        let mut found = BTreeSet::new();
        for (case, _) in stored() {
            let (before, call) = case_of(&case);
            let reply = model_outcome(&before, &call).reply;
            if reply.number == 11 {
                found.extend(marks_of_broken(&before, &reply).into_iter().map(|mark| (call.code(), mark)));
            }
        }
        let sides = [Mark::Side(side::PREV), Mark::Side(side::NEXT), Mark::BothSides];
        let wanted = sides.into_iter().chain([Mark::HigherSlot, Mark::OneBroken, Mark::MoreBroken]);
        for (code, mark) in calls_on_arenas().flat_map(|code| wanted.clone().map(move |mark| (code, mark))) {
            assert!(found.contains(&(code, mark)), "call {code}");
        }
    }

    /// Each stored answer is the model's, and the crate's where its files are at hand and it has one. With 11 the crate
    /// confirms slot and side.
    #[test]
    fn stored_answers_stand() {
        for (case, answer) in stored() {
            let (before, call) = case_of(&case);
            assert_eq!(case_line(&before, &call).as_deref(), Some(format!("{case}\n").as_str()));
            assert_eq!(answer_line(&model_outcome(&before, &call)), format!("{answer}\n"), "{case}");
            let Some(after) = crate_answer(&before, &call) else { continue };
            assert_eq!(answer_line(&after), format!("{answer}\n"), "{case}");
            if after.reply.number == 11 {
                assert_eq!(crate_place(&before), Some((after.reply.broken, after.reply.side)), "{case}");
            }
        }
    }
}
