//! Random calls with random arguments, on any arena.

use crate::random::Random;
use crate::words::{
    CALLS_IN_ALL, DUE_COUNT, DUE_EVENTS, INSERT, LINE_DOTS, LINE_OF_DOT, SMALL_ARENA, calls_on_arenas,
};
use crate::{Arena, COMMAND_WORDS, CUT, Call, Ptr, Reading, Walk, frame, kind, model, random};

/// The header's word, 0 if the header has none.
fn word(a: &Arena, place: usize) -> usize {
    a.header.get(place).map_or(0, |&word| word as usize)
}

/// The stack length, as far as there are columns.
fn stack(a: &Arena) -> usize {
    word(a, crate::header::STACK).min(a.generation.len())
}

/// The link count, as far as there are columns.
fn links(a: &Arena) -> usize {
    word(a, crate::header::LINKS).min(a.generation.len())
}

/// A slot below `end`, which is not 0; in a large arena every other time one above 65,536.
fn slot_below(r: &mut Random, end: usize) -> u32 {
    let far = CUT as usize + 1;
    let slot = if end > far && r.once_in(2) { far + r.below(end - far) } else { r.below(end) };
    slot as u32
}

/// A pointer, most often to a link, else with another slot or generation; seldom with a slot that is raised by a multiple of
/// 65,536.
fn some_ptr(r: &mut Random, a: &Arena) -> Ptr {
    let past = r.below(3);
    let slot = slot_below(r, stack(a) + 1 + past);
    let there = word_at(&a.generation, slot);
    let generation = match r.below(12) {
        0 => r.pick(&[0, 1, 2, u32::MAX]),
        1 => word(a, crate::header::GENERATION) as u32,
        _ => there.unwrap_or(5),
    };
    Ptr { slot: if r.once_in(24) { random::raised(r, slot) } else { slot }, generation }
}

/// A state of a walk: one that is kept from before, or one of any words.
pub fn some_walk(r: &mut Random, a: &Arena, kept: &[Walk]) -> Walk {
    if !kept.is_empty() && !r.once_in(4) {
        return r.pick(kept);
    }
    let mut word = |most: usize| match r.below(12) {
        0 => r.word(),
        1 => {
            let slot = slot_below(r, most);
            random::raised(r, slot)
        }
        _ => slot_below(r, most),
    };
    let (start, position, left) = (word(stack(a) + 2), word(stack(a) + 2), word(links(a) + 2));
    Walk { start, position, direction: r.pick(&[0, 0, 1, 2, u32::MAX]), left }
}

/// A kind of an insertion, seldom an unknown one.
fn some_kind(r: &mut Random) -> u32 {
    if r.once_in(20) {
        r.pick(&[0, 1, 2, 3, 4, 5, 20, 21, CUT + kind::CHAIN_END, u32::MAX])
    } else {
        known_kind(r)
    }
}

/// A kind of an insertion.
fn known_kind(r: &mut Random) -> u32 {
    kind::DISCONNECTED + r.below(kind::ALL.count()) as u32
}

/// Pointers for a kind of an insertion: the given ones, or such as fit where a few tries find them.
fn some_place(r: &mut Random, a: &Arena, kind: u32, p: Ptr, q: Ptr) -> (Ptr, Ptr) {
    let (mut p, mut q) = (p, q);
    if !r.once_in(3) {
        match kind {
            kind::CHAIN_END | kind::CHAIN_END_INX => p = link_without(r, a, &a.next, p),
            kind::CHAIN_START | kind::CHAIN_START_INX => p = link_without(r, a, &a.prev, p),
            kind::AT_INTERLINK | kind::AT_INTERLINK_INX => {
                q = word_at(&a.next, p.slot).filter(|&next| next != 0).map_or(q, |next| to(a, next));
            }
            kind::BRIDGE | kind::BRIDGE_INX => {
                (p, q) = (link_without(r, a, &a.next, p), link_without(r, a, &a.prev, q));
            }
            _ => {}
        }
    }
    if kind::by_slot(kind) && r.once_in(2) {
        (p.generation, q.generation) = (r.word(), r.word());
    }
    (p, q)
}

/// The word of a column at a slot, if there is one.
fn word_at(column: &[u32], slot: u32) -> Option<u32> {
    column.get((slot as usize).checked_sub(1)?).copied()
}

/// The pointer to a slot with the generation that stands there, 5 where there is none.
fn to(a: &Arena, slot: u32) -> Ptr {
    Ptr { slot, generation: word_at(&a.generation, slot).filter(|&there| there != 0).unwrap_or(5) }
}

/// A pointer to a link that has 0 in a column, or the given pointer if a few tries find none.
fn link_without(r: &mut Random, a: &Arena, column: &[u32], otherwise: Ptr) -> Ptr {
    let tries = if stack(a) == 0 { 0 } else { 8 };
    let mut tried = (0..tries).map(|_| 1 + slot_below(r, stack(a)));
    let fits = |&s: &u32| word_at(&a.generation, s) != Some(0) && word_at(column, s) == Some(0);
    tried.find(fits).map_or(otherwise, |s| to(a, s))
}

/// The payload of a new link, now and then 0 or the largest.
fn some_payload(r: &mut Random) -> u32 {
    let word = r.word();
    r.pick(&[0, u32::MAX, word, word, word, word])
}

/// A slot as a command has it, seldom raised by a multiple of 65,536, or another one that large.
fn some_wide_slot(r: &mut Random, slot: u32) -> u32 {
    if r.once_in(40) {
        let raised = random::raised(r, slot);
        r.pick(&[raised, raised, raised, raised, CUT, u32::MAX])
    } else {
        slot
    }
}

/// The words of up to `most` commands, some of them unknown or with a slot over the capacity.
pub fn some_commands(r: &mut Random, a: &Arena, most: usize) -> Vec<u32> {
    let mut words = Vec::new();
    for _ in 0..r.below(most) {
        let (mut p, mut q) = (some_ptr(r, a), some_ptr(r, a));
        let mut code = r.pick(&[1, 1, 2, 3, 4, 4, 5, 5, 0, u32::MAX]);
        if r.once_in(2) {
            code = some_kind(r);
            (p, q) = some_place(r, a, code, p, q);
        }
        let (p_slot, q_slot) = (some_wide_slot(r, p.slot), some_wide_slot(r, q.slot));
        words.extend([code, p_slot, p.generation, q_slot, q.generation, some_payload(r)]);
    }
    words
}

/// A run of up to a hundred commands, seldom of a bad length or with too few answers.
fn some_run(r: &mut Random, a: &Arena) -> Call {
    let mut words = some_commands(r, a, 100);
    let commands = words.len() / COMMAND_WORDS;
    if r.once_in(10) {
        words.push(r.word());
    }
    let answers = if r.once_in(10) { commands / 2 } else { commands + r.below(3) };
    Call::Run(words, vec![r.word(); answers])
}

/// An end of a window: near the payload of a link, if that is a dot, else any dot.
fn some_end(r: &mut Random, a: &Arena) -> u32 {
    let dot = random::some_dot(r);
    let payloads = &a.payload[..stack(a).min(a.payload.len())];
    if payloads.is_empty() || r.once_in(3) {
        return dot;
    }
    let payload = r.pick(payloads);
    let near = r.pick(&[payload, payload, payload.saturating_add(1), payload.saturating_sub(1)]);
    if payload < frame::DOTS { near } else { dot }
}

/// The ends of a window, seldom the same one twice.
fn some_window(r: &mut Random, a: &Arena) -> (u32, u32) {
    let (from, to) = (some_end(r, a), some_end(r, a));
    if r.once_in(12) { (from, from) } else { (from, to) }
}

/// A line, seldom one that there is not.
fn some_line(r: &mut Random) -> u32 {
    let line = r.below(frame::LINES as usize) as u32;
    if r.once_in(8) { r.pick(&[frame::LINES, frame::LINES + 1, line + CUT, u32::MAX]) } else { line }
}

/// The index of a small arena, now and then one past the last, or one whose lower half or quarter is an index.
pub fn some_index(r: &mut Random) -> u32 {
    let index = r.below(model::small_arenas().len()) as u32;
    let past = index + 90;
    if r.once_in(6) {
        r.pick(&[past, 90, 256 + index, CUT + index, (1 << 31) + index, u32::MAX])
    } else {
        index
    }
}

/// How many links the chain of a pointer has, on any arena: at most as many as there are.
fn chain_length(a: &Arena, p: Ptr) -> usize {
    let along = |column: &[u32]| {
        let mut slots = 0;
        let mut s = word_at(column, p.slot).unwrap_or(0);
        while s != 0 && s != p.slot && slots < links(a) {
            slots += 1;
            s = word_at(column, s).unwrap_or(0);
        }
        (slots, s != 0)
    };
    let (after, closed) = along(&a.next);
    if closed { after + 1 } else { along(&a.prev).0 + 1 + after }
}

/// A report for the links of a chain that are due: too short, as long as the chain, or longer.
fn some_events(r: &mut Random, a: &Arena, p: Ptr) -> Vec<u32> {
    let (chain, noise) = (chain_length(a, p), r.word());
    vec![noise; r.pick(&[0, chain.saturating_sub(1), chain, chain, chain + 1, chain + 3])]
}

/// How often each call is made, by its code; insertions so often that arenas are filled again and again, and none that puts a
/// small arena in the place of the one that a sequence goes on with.
const OFTEN: [usize; CALLS_IN_ALL] =
    [1, 4, 3, 3, 3, 10, 12, 3, 3, 8, 6, 1, 1, 1, 1, 1, 1, 1, 12, 1, 1, 3, 4, 0];

/// A random call.
pub fn some_call(r: &mut Random, a: &Arena, kept: &[Walk]) -> Call {
    let mut place = r.below(OFTEN.iter().sum());
    let mut code = 1;
    while place >= OFTEN[code - 1] {
        place -= OFTEN[code - 1];
        code += 1;
    }
    call_of(code, r, a, kept)
}

/// Each of the calls on an arena once.
pub fn each_call(r: &mut Random, a: &Arena) -> impl Iterator<Item = Call> {
    calls_on_arenas().map(move |code| call_of(code, r, a, &[]))
}

/// The call of a code with random arguments.
pub fn call_of(code: usize, r: &mut Random, a: &Arena, kept: &[Walk]) -> Call {
    let (p, q) = (some_ptr(r, a), some_ptr(r, a));
    let noise = r.word();
    match code {
        1 => Call::Check,
        2 => Call::GetLink(p),
        3 => Call::GetLinkNoGen(p),
        4 => Call::AreNeighbors(p, q),
        5 => Call::WalkStart(p),
        6 => Call::WalkStep(some_walk(r, a, kept)),
        7 => Call::Connect(p, q),
        8 => Call::BreakPrev(p),
        9 => Call::BreakNext(p),
        10 => Call::ExchangeNext(p, q),
        11 => Call::Remove(p),
        12 => Call::Drain(p, vec![noise; r.pick(&[0, 40, 5 * links(a), 5 * links(a) + 7])]),
        13 => Call::SetGeneration(r.pick(&[0, 1, 2, 5, u32::MAX - 1, u32::MAX])),
        14 => Call::IncGeneration,
        15 => Call::CanonicalizeFreelist,
        16 => some_run(r, a),
        17 => {
            let words = (4 * links(a) + r.below(3)).saturating_sub(1);
            Call::CompressWith(r.below(2) as u32, vec![noise; words])
        }
        INSERT => {
            let kind = some_kind(r);
            let (p, q) = some_place(r, a, kind, p, q);
            Call::Insert(kind, p, q, some_payload(r))
        }
        LINE_OF_DOT => Call::LineOfDot(random::some_dot(r)),
        LINE_DOTS => Call::LineDots(some_line(r)),
        DUE_COUNT => {
            let (from, to) = some_window(r, a);
            Call::DueCount(p, from, to)
        }
        DUE_EVENTS => {
            let (from, to) = some_window(r, a);
            Call::DueEvents(p, from, to, some_events(r, a, p))
        }
        SMALL_ARENA => Call::SmallArena(some_index(r)),
        _ => {
            let places = if r.once_in(8) { a.capacity() + 1 } else { a.capacity() };
            Call::CompressCanonical(r.below(2) as u32, vec![noise; places])
        }
    }
}

/// The call with dots for most payloads of the links that it inserts, but for 0 and the largest.
pub fn with_dots(r: &mut Random, mut call: Call) -> Call {
    let mut change = |payload: &mut u32| {
        if !matches!(*payload, 0 | u32::MAX) && !r.once_in(4) {
            *payload = random::some_dot(r);
        }
    };
    match &mut call {
        Call::Insert(.., payload) => change(payload),
        Call::Run(words, _) => {
            words.chunks_exact_mut(COMMAND_WORDS).for_each(|command| change(&mut command[5]));
        }
        _ => {}
    }
    call
}

/// Keeps the state that a walk's start or step leaves, for a later step on an arena that may have changed.
pub fn keep(kept: &mut Vec<Walk>, call: &Call, words: &[u32; 6]) {
    let [start, position, direction, left] = match call {
        Call::WalkStart(_) => [words[0], words[1], words[2], words[3]],
        Call::WalkStep(_) => [words[2], words[3], words[4], words[5]],
        _ => return,
    };
    if kept.len() == 8 {
        kept.remove(0);
    }
    kept.push(Walk { start, position, direction, left });
}

/// The words of a run of connects, breaks and exchanges. Fitting ones are all done; the others name any links, so that many
/// are refused.
pub fn mixed_edits(r: &mut Random, a: &Arena, edits: usize, fitting: bool) -> Vec<u32> {
    let slots: Vec<usize> = a.link_slots().collect();
    let mut a = a.clone();
    let mut words = Vec::new();
    while words.len() < COMMAND_WORDS * edits {
        let (p, q) = (a.ptr(r.pick(&slots)), a.ptr(r.pick(&slots)));
        let code = if fitting { fitting_code(r, &a, p, q) } else { Some(1 + r.below(4) as u32) };
        let Some(code) = code else { continue };
        let command = command(code, p, q, 0);
        model::apply(&mut a, &command);
        words.extend(command);
    }
    words
}

/// The words of a command.
pub fn command(code: u32, p: Ptr, q: Ptr, payload: u32) -> [u32; COMMAND_WORDS] {
    [code, p.slot, p.generation, q.slot, q.generation, payload]
}

/// How the number of links goes in a run.
#[derive(Clone, Copy, PartialEq, Eq)]
pub enum Tide {
    /// Links are added
    Rising,
    /// About as many links are added as are taken out
    Level,
    /// Links are taken out
    Falling,
}

/// The words of a run of edits of every kind, insertions and removals among them. Fitting ones are all done, as long as
/// there is a way to go on; the others name any links, some that are no more too, so that many are refused.
pub fn mixed_commands(r: &mut Random, a: &Arena, commands: usize, tide: Tide, fitting: bool) -> Vec<u32> {
    let mut a = a.clone();
    let mut known: Vec<Ptr> = a.link_slots().map(|s| a.ptr(s)).collect();
    let level = known.len();
    let mut words = Vec::new();
    let mut tries = 20 * commands;
    while words.len() < COMMAND_WORDS * commands && tries > 0 {
        tries -= 1;
        let place = r.below(known.len().max(1));
        let none = Ptr { slot: 1, generation: 1 };
        let p = known.get(place).copied().unwrap_or(none);
        let q = if known.is_empty() { none } else { r.pick(&known) };
        let insert = match tide {
            Tide::Rising => !r.once_in(8),
            Tide::Level => r.below(2 * level + 1) >= a.links(),
            Tide::Falling => r.once_in(8),
        };
        let command = match (r.once_in(2), insert) {
            (true, _) => command(r.pick(&[1, 1, 2, 3, 4]), p, q, 0),
            (_, false) => command(5, p, q, 0),
            (_, true) => {
                let kind = known_kind(r);
                let (p, q) = some_place(r, &a, kind, p, q);
                command(kind, p, q, r.word())
            }
        };
        let slot = model::slot_to_take(&a);
        let answer = model::apply(&mut a, &command);
        if fitting && !matches!(answer, 0 | 100) {
            continue;
        }
        words.extend(command);
        match (command[0], answer) {
            (5, 0 | 100) if fitting => _ = known.swap_remove(place),
            (code, 0) if kind::ALL.contains(&code) && known.len() < a.capacity() => known.push(a.ptr(slot)),
            (code, 0) if kind::ALL.contains(&code) => known[place] = a.ptr(slot),
            _ => {}
        }
    }
    words
}

/// The words of a run that fills an empty arena: one chain, each link behind the last, or links of every kind, each of them
/// anywhere among those that are there.
pub fn growth(r: &mut Random, a: &Arena, of_every_kind: bool) -> Vec<u32> {
    let mut a = a.clone();
    let mut words = Vec::new();
    while a.links() < a.capacity() {
        let mut link =
            || if a.links() == 0 { Ptr { slot: 1, generation: 1 } } else { a.ptr(1 + r.below(a.links())) };
        let (p, q) = (link(), link());
        let command = if of_every_kind {
            let kind = known_kind(r);
            let (p, q) = some_place(r, &a, kind, p, q);
            command(kind, p, q, r.word())
        } else if a.links() == 0 {
            command(kind::DISCONNECTED, p, q, r.word())
        } else {
            command(kind::CHAIN_END, a.ptr(a.links()), q, r.word())
        };
        if model::apply(&mut a, &command) == 0 {
            words.extend(command);
        }
    }
    words
}

/// The code of an edit that can be done with two links: a connect if it fits, else one of the others.
fn fitting_code(r: &mut Random, a: &Arena, p: Ptr, q: Ptr) -> Option<u32> {
    let has = |column: &[u32], p: Ptr| column[p.slot as usize - 1] != 0;
    let fits = |code: u32| match code {
        1 => !has(&a.next, p) && !has(&a.prev, q),
        2 => has(&a.prev, p),
        3 => has(&a.next, p),
        _ => has(&a.next, p) && has(&a.next, q),
    };
    let code = r.pick(&[2, 3, 4, 4]);
    [1, code].into_iter().find(|&code| fits(code))
}
