//! What docs/REFERENCE.md tells, as plain Rust, section by section: slow where that is plainer, and the judge of what the
//! crate does not tell, as 12 from 13.

use std::collections::BTreeSet;
use std::sync::OnceLock;

use crate::header::{GENERATION, LINKS, ROOT, STACK};
use crate::{Arena, COMMAND_WORDS, Call, LIMIT, Ptr, Reading, Reply, Walk, frame, kind, side};

/// Makes one call, which begins with the check if it is made on an arena (REFERENCE, Replies).
pub fn perform(a: &mut Arena, call: &mut Call) -> Reply {
    let number = if call.takes_arena() { check(a) } else { 0 };
    if number != 0 {
        return refused(a, number, call);
    }
    match call {
        Call::Check => Reply::number(0),
        Call::GetLink(p) => get_link(a, *p),
        Call::GetLinkNoGen(p) => get_link_no_gen(a, *p),
        Call::AreNeighbors(p, q) => Reply::new(0, &[u32::from(are_neighbors(a, *p, *q))]),
        Call::WalkStart(p) => walk_start(a, *p),
        Call::WalkStep(walk) => walk_step(a, *walk),
        Call::Connect(p, q) => Reply::number(connect(a, *p, *q)),
        Call::BreakPrev(p) => Reply::number(break_prev(a, *p)),
        Call::BreakNext(p) => Reply::number(break_next(a, *p)),
        Call::ExchangeNext(p, q) => Reply::number(exchange_next(a, *p, *q)),
        Call::Remove(p) => remove(a, *p),
        Call::Drain(p, report) => drain(a, *p, report),
        Call::SetGeneration(generation) => Reply::number(set_generation(a, *generation)),
        Call::IncGeneration => Reply::number(overflow_number(raise_generation(a))),
        Call::CanonicalizeFreelist => Reply::number(canonicalize_freelist(a)),
        Call::Run(commands, answers) => Reply::number(run(a, commands, answers)),
        Call::CompressWith(reset, report) => Reply::number(compress_with(a, *reset != 0, report)),
        Call::CompressCanonical(reset, from) => Reply::number(compress_canonical(a, *reset != 0, from)),
        Call::Insert(kind, p, q, payload) => insert(a, *kind, *p, *q, *payload),
        Call::LineOfDot(dot) => line_of_dot(*dot),
        Call::LineDots(line) => line_dots(*line),
        Call::DueCount(p, from, to) => due_count(a, *p, *from, *to),
        Call::DueEvents(p, from, to, report) => due_events(a, *p, *from, *to, report),
        Call::SmallArena(index) => give(a, small_arenas(), *index),
    }
}

/// The reply of a call on an arena that the check refuses: with 11 it says where rule 11 fails, and a step answers its state
/// as it got it.
fn refused(a: &Arena, number: u32, call: &Call) -> Reply {
    let reply = match call {
        Call::WalkStep(walk) => step_reply(number, None, *walk),
        _ => Reply::number(number),
    };
    let (broken, side) = if number == 11 { broken_place(a).expect("rule 11 fails") } else { (0, 0) };
    Reply { broken, side, ..reply }
}

// REFERENCE, Check

/// Whether the lengths of the columns and of the header are those of an arena, rule 1.
fn is_shaped(a: &Arena) -> bool {
    let capacity = a.prev.len();
    let others = [a.next.len(), a.generation.len(), a.payload.len()];
    others == [capacity; 3] && capacity <= LIMIT && a.header.len() == 4
}

/// The number of the first rule that the arena breaks, 0 if it passes.
pub fn check(a: &Arena) -> u32 {
    if !is_shaped(a) {
        return 1;
    }
    let capacity = a.capacity();
    if a.current() < 2 {
        return 2;
    }
    if a.links() > capacity || a.stack() > capacity {
        return 3;
    }
    let allocated = a.link_slots().count();
    if a.links() != allocated {
        return 4;
    }
    let free = a.stack() - allocated;
    if (a.root() == 0) != (free == 0) {
        return 5;
    }
    let number = if a.root() == 0 { 0 } else { freelist(a, free) };
    if number != 0 {
        return number;
    }
    if broken_places(a).next().is_some() { 11 } else { 0 }
}

/// The visits to the freelist from the root on, rules 6 to 10, where `free` slots are free.
fn freelist(a: &Arena, free: usize) -> u32 {
    let mut pointer = a.root() as usize;
    for visit in 1..=a.stack() + 2 {
        if pointer == 0 {
            return 6;
        }
        if pointer > a.stack() {
            return 7;
        }
        if a.is_link(pointer) {
            return 8;
        }
        let following = a.next[pointer - 1] as usize;
        if following == pointer {
            return if visit < free { 10 } else { 0 };
        }
        pointer = following;
    }
    9
}

/// Every place at which rule 11 fails, a slot and a side: of all links those whose prev is neither 0 nor a link with them as
/// its next, then those whose next is neither 0 nor a link with them as its prev.
pub fn broken_places(a: &Arena) -> impl Iterator<Item = (u32, u32)> {
    let failing = |named: &[u32], back: &[u32], x: usize| {
        let neighbour = named[x - 1] as usize;
        neighbour != 0 && !(a.is_link(neighbour) && back[neighbour - 1] as usize == x)
    };
    let prevs = a.link_slots().filter(move |&x| failing(&a.prev, &a.next, x));
    let nexts = a.link_slots().filter(move |&x| failing(&a.next, &a.prev, x));
    prevs.map(|x| (x as u32, side::PREV)).chain(nexts.map(|x| (x as u32, side::NEXT)))
}

/// The place that 11 names, if rule 11 fails: of all these places the one of the lowest slot, and of its two the prev.
pub fn broken_place(a: &Arena) -> Option<(u32, u32)> {
    broken_places(a).min()
}

// REFERENCE, Reading

/// Whether a pointer is stale: in its slot there is no link, or one of another generation.
fn stale(a: &Arena, p: Ptr) -> bool {
    let s = p.slot as usize;
    !a.is_link(s) || a.generation[s - 1] != p.generation
}

/// The word of a column at slot `s`.
fn at(column: &[u32], s: u32) -> u32 {
    column[s as usize - 1]
}

/// Writes the word of a column at slot `s`; slot 0 has none.
fn put(column: &mut [u32], s: u32, word: u32) {
    if s != 0 {
        column[s as usize - 1] = word;
    }
}

/// The generation of the neighbour in slot `s`, 0 where there is no neighbour.
fn neighbour_generation(a: &Arena, s: u32) -> u32 {
    if s == 0 { 0 } else { a.generation[s as usize - 1] }
}

/// The link's neighbours with their generations, and its payload.
fn get_link(a: &Arena, p: Ptr) -> Reply {
    if stale(a, p) {
        return Reply::number(12);
    }
    let (prev, next) = (at(&a.prev, p.slot), at(&a.next, p.slot));
    let payload = a.payload[p.slot as usize - 1];
    Reply::new(0, &[prev, neighbour_generation(a, prev), next, neighbour_generation(a, next), payload])
}

/// The link's neighbours and its payload.
fn get_link_no_gen(a: &Arena, p: Ptr) -> Reply {
    if stale(a, p) {
        return Reply::number(12);
    }
    let payload = a.payload[p.slot as usize - 1];
    Reply::new(0, &[at(&a.prev, p.slot), at(&a.next, p.slot), payload])
}

/// Whether both pointers name links and the second's is the first's next.
fn are_neighbors(a: &Arena, p: Ptr, q: Ptr) -> bool {
    !stale(a, p) && !stale(a, q) && at(&a.next, p.slot) == q.slot
}

// REFERENCE, Walk

/// A walk that begins at the pointer's link, with as many advances as there are links.
fn walk_start(a: &Arena, p: Ptr) -> Reply {
    if stale(a, p) {
        return Reply::number(12);
    }
    Reply::new(0, &[p.slot, p.slot, 0, a.header[LINKS]])
}

/// One step on an arena that passes the check: the link at the position, or none, and the next state.
pub fn walk_step(a: &Arena, walk: Walk) -> Reply {
    if walk.left == 0 {
        return step_reply(0, None, walk);
    }
    let lowered = Walk { left: walk.left - 1, ..walk };
    let position = walk.position as usize;
    if !a.is_link(position) {
        return step_reply(0, None, Walk { position: 0, ..lowered });
    }
    step_reply(0, Some(a.ptr(position)), advanced(a, lowered))
}

/// The state after the link at its position has been answered.
fn advanced(a: &Arena, walk: Walk) -> Walk {
    let here = walk.position as usize - 1;
    if walk.direction != 0 {
        return Walk { position: a.prev[here], ..walk };
    }
    let next = a.next[here];
    if next == 0 {
        let start = walk.start as usize;
        let before = if a.is_link(start) { a.prev[start - 1] } else { 0 };
        return Walk { direction: 1, position: before, ..walk };
    }
    Walk { position: if next == walk.start { 0 } else { next }, ..walk }
}

/// The reply of a step: the pointer that it answers, 0 and 0 for none, and the state.
fn step_reply(number: u32, answer: Option<Ptr>, walk: Walk) -> Reply {
    let p = answer.unwrap_or(Ptr { slot: 0, generation: 0 });
    Reply::new(number, &[p.slot, p.generation, walk.start, walk.position, walk.direction, walk.left])
}

/// The slots of the chain of the link in slot `s`, in the walk's order.
pub fn chain_of(a: &Arena, s: usize) -> Vec<usize> {
    let mut slots = vec![s];
    let mut after = a.next[s - 1] as usize;
    while after != 0 && after != s {
        slots.push(after);
        after = a.next[after - 1] as usize;
    }
    if after == 0 {
        let mut before = a.prev[s - 1] as usize;
        while before != 0 {
            slots.push(before);
            before = a.prev[before - 1] as usize;
        }
    }
    slots
}

// REFERENCE, Frame clock

/// The first and the last dot of each line, counted up line by line.
fn lines() -> impl Iterator<Item = (u32, u32)> {
    let mut next = 0;
    (0..frame::LINES).map(move |_| {
        let first = next;
        next += frame::LINE_DOTS;
        (first, next - 1)
    })
}

/// The line that has the dot.
fn line_of_dot(dot: u32) -> Reply {
    let line = lines().position(|(first, last)| (first..=last).contains(&dot));
    line.map_or(Reply::number(19), |line| Reply::new(0, &[line as u32]))
}

/// The first and the last dot of the line.
fn line_dots(line: u32) -> Reply {
    lines().nth(line as usize).map_or(Reply::number(19), |(first, last)| Reply::new(0, &[first, last]))
}

/// Whether a payload is due in a window whose ends are in the frame: it is one of the dots from the start up to the end, or if
/// the end comes before the start, from the start up to the frame's end and from dot 0 up to the end.
pub fn is_due(payload: u32, from: u32, to: u32) -> bool {
    let dots = if from <= to { [from..to, 0..0] } else { [from..frame::DOTS, 0..to] };
    dots.iter().any(|dots| dots.contains(&payload))
}

/// The chain's slots in the walk's order, and those of them that are due; or the number of the refusal.
fn due(a: &Arena, p: Ptr, from: u32, to: u32) -> Result<(Vec<usize>, Vec<usize>), u32> {
    if stale(a, p) {
        return Err(12);
    }
    if from > frame::DOTS - 1 || to > frame::DOTS {
        return Err(19);
    }
    let chain = chain_of(a, p.slot as usize);
    let events = chain.iter().copied().filter(|&s| is_due(a.payload[s - 1], from, to)).collect();
    Ok((chain, events))
}

/// How many links of the chain are due.
fn due_count(a: &Arena, p: Ptr, from: u32, to: u32) -> Reply {
    match due(a, p, from, to) {
        Err(number) => Reply::number(number),
        Ok((_, events)) => Reply::new(0, &[events.len() as u32]),
    }
}

/// Reports the slots of the links that are due, if the report has room for the whole chain.
fn due_events(a: &Arena, p: Ptr, from: u32, to: u32, report: &mut [u32]) -> Reply {
    match due(a, p, from, to) {
        Err(number) => Reply::number(number),
        Ok((chain, _)) if report.len() < chain.len() => Reply::number(14),
        Ok((_, events)) => {
            for (word, &s) in report.iter_mut().zip(&events) {
                *word = s as u32;
            }
            Reply::new(0, &[events.len() as u32])
        }
    }
}

// REFERENCE, Connect, Break and Exchange

/// Makes q the next of p.
fn connect(a: &mut Arena, p: Ptr, q: Ptr) -> u32 {
    if stale(a, p) {
        return 12;
    }
    if at(&a.next, p.slot) != 0 {
        return 13;
    }
    if stale(a, q) {
        return 12;
    }
    if at(&a.prev, q.slot) != 0 {
        return 13;
    }
    put(&mut a.next, p.slot, q.slot);
    put(&mut a.prev, q.slot, p.slot);
    0
}

/// Parts the link from the one before it.
fn break_prev(a: &mut Arena, p: Ptr) -> u32 {
    if stale(a, p) {
        return 12;
    }
    let before = at(&a.prev, p.slot);
    if before == 0 {
        return 13;
    }
    put(&mut a.next, before, 0);
    put(&mut a.prev, p.slot, 0);
    0
}

/// Parts the link from the one after it.
fn break_next(a: &mut Arena, p: Ptr) -> u32 {
    if stale(a, p) {
        return 12;
    }
    let after = at(&a.next, p.slot);
    if after == 0 {
        return 13;
    }
    put(&mut a.prev, after, 0);
    put(&mut a.next, p.slot, 0);
    0
}

/// Gives each of the two links the other one's next.
fn exchange_next(a: &mut Arena, p: Ptr, q: Ptr) -> u32 {
    if stale(a, p) || stale(a, q) {
        return 12;
    }
    let (after_p, after_q) = (at(&a.next, p.slot), at(&a.next, q.slot));
    if after_p == 0 || after_q == 0 {
        return 13;
    }
    put(&mut a.next, p.slot, after_q);
    put(&mut a.prev, after_q, p.slot);
    put(&mut a.next, q.slot, after_p);
    put(&mut a.prev, after_p, q.slot);
    0
}

// REFERENCE, Insert

/// Adds a lone link, then joins it to what the kind names, and answers its pointer.
fn insert(a: &mut Arena, kind: u32, p: Ptr, q: Ptr, payload: u32) -> Reply {
    if !kind::ALL.contains(&kind) {
        return Reply::number(16);
    }
    if !may_insert(a, kind, p, q) {
        return Reply::number(17);
    }
    let Some(new) = add_lone(a, payload) else {
        return Reply::number(18);
    };
    let (p, q) = (p.slot, q.slot);
    match kind {
        kind::DISCONNECTED => {}
        kind::SINGLE_LINK_CYCLIC => join(a, new, new),
        kind::CHAIN_END | kind::CHAIN_END_INX => join(a, p, new),
        kind::CHAIN_START | kind::CHAIN_START_INX => join(a, new, p),
        kind::NEXT_TO | kind::NEXT_TO_INX => {
            let after = at(&a.next, p);
            join(a, p, new);
            join(a, new, after);
        }
        kind::PREV_TO | kind::PREV_TO_INX => {
            let before = at(&a.prev, p);
            join(a, before, new);
            join(a, new, p);
        }
        _ => {
            join(a, p, new);
            join(a, new, q);
        }
    }
    Reply::new(0, &[new, a.current()])
}

/// Whether what a kind asks of the links that it names is so. A kind by slot looks at no generation.
pub fn may_insert(a: &Arena, kind: u32, p: Ptr, q: Ptr) -> bool {
    let good = |p: Ptr| if kind::by_slot(kind) { a.is_link(p.slot as usize) } else { !stale(a, p) };
    let is_end = |p: Ptr| at(&a.next, p.slot) == 0;
    let is_start = |p: Ptr| at(&a.prev, p.slot) == 0;
    match kind {
        kind::DISCONNECTED | kind::SINGLE_LINK_CYCLIC => true,
        kind::CHAIN_END | kind::CHAIN_END_INX => good(p) && is_end(p),
        kind::CHAIN_START | kind::CHAIN_START_INX => good(p) && is_start(p),
        kind::NEXT_TO..=kind::PREV_TO_INX => good(p),
        kind::AT_INTERLINK | kind::AT_INTERLINK_INX => good(p) && good(q) && at(&a.next, p.slot) == q.slot,
        _ => good(p) && good(q) && is_end(p) && is_start(q),
    }
}

/// The slot that an insertion takes, if there is room: the root, or where nothing is free the slot behind the stack.
pub fn slot_to_take(a: &Arena) -> usize {
    if a.root() == 0 { a.stack() + 1 } else { a.root() as usize }
}

/// Adds a link of the current generation without neighbours and answers its slot; none if there is no room.
fn add_lone(a: &mut Arena, payload: u32) -> Option<u32> {
    let s = slot_to_take(a);
    if s > a.capacity() {
        return None;
    }
    if a.root() == 0 {
        a.header[STACK] += 1;
    } else {
        let following = a.next[s - 1] as usize;
        a.header[ROOT] = if following == s { 0 } else { following as u32 };
    }
    (a.prev[s - 1], a.next[s - 1]) = (0, 0);
    (a.generation[s - 1], a.payload[s - 1]) = (a.current(), payload);
    a.header[LINKS] += 1;
    Some(s as u32)
}

/// Makes two links neighbours; where one of them is slot 0, the other has no neighbour on that side.
fn join(a: &mut Arena, before: u32, after: u32) {
    put(&mut a.next, before, after);
    put(&mut a.prev, after, before);
}

// REFERENCE, Remove, Drain, Generation and Freelist

/// The generation after this one, and whether it overflowed.
fn generational_inc(generation: u32) -> (u32, bool) {
    match generation.checked_add(1) {
        Some(next) => (next, false),
        None => (2, true),
    }
}

/// Raises the current generation and tells whether it overflowed.
fn raise_generation(a: &mut Arena) -> bool {
    let (next, overflowed) = generational_inc(a.current());
    a.header[GENERATION] = next;
    overflowed
}

/// The number of a call that is done: 100 if the generation overflowed, else 0.
fn overflow_number(overflowed: bool) -> u32 {
    if overflowed { 100 } else { 0 }
}

/// Writes 0 in all four columns of slot `s`.
fn zero(a: &mut Arena, s: usize) {
    a.prev[s - 1] = 0;
    a.next[s - 1] = 0;
    a.generation[s - 1] = 0;
    a.payload[s - 1] = 0;
}

/// Gives slot `s` up: where the stack ends with it, it is popped, else it is freed and becomes the root.
fn free_slot(a: &mut Arena, s: usize) {
    zero(a, s);
    if s == a.stack() {
        a.header[STACK] -= 1;
    } else {
        let old_root = a.root();
        a.next[s - 1] = if old_root == 0 { s as u32 } else { old_root };
        a.header[ROOT] = s as u32;
    }
    a.header[LINKS] -= 1;
}

/// Removes the link in slot `s`, joins its neighbours and tells whether the generation overflowed.
fn remove_slot(a: &mut Arena, s: usize) -> bool {
    let (before, after) = (a.prev[s - 1], a.next[s - 1]);
    put(&mut a.next, before, after);
    put(&mut a.prev, after, before);
    free_slot(a, s);
    raise_generation(a)
}

/// Takes a link out and answers what it was: prev, next, payload.
fn remove(a: &mut Arena, p: Ptr) -> Reply {
    if stale(a, p) {
        return Reply::number(12);
    }
    let s = p.slot as usize;
    let words = [a.prev[s - 1], a.next[s - 1], a.payload[s - 1]];
    let overflowed = remove_slot(a, s);
    Reply::new(overflow_number(overflowed), &words)
}

/// Removes all links of the chain in the order of a walk, and reports each as it is when its turn comes.
fn drain(a: &mut Arena, p: Ptr, report: &mut [u32]) -> Reply {
    if stale(a, p) {
        return Reply::number(12);
    }
    let slots = chain_of(a, p.slot as usize);
    if report.len() < 5 * slots.len() {
        return Reply::number(14);
    }
    let mut overflowed = 0;
    for (item, &s) in slots.iter().enumerate() {
        let place = s - 1;
        report[5 * item] = s as u32;
        report[5 * item + 1] = a.generation[place];
        report[5 * item + 2] = a.prev[place];
        report[5 * item + 3] = a.next[place];
        report[5 * item + 4] = a.payload[place];
        if remove_slot(a, s) {
            overflowed = item as u32 + 1;
        }
    }
    Reply::new(0, &[slots.len() as u32, overflowed])
}

/// Sets the current generation.
fn set_generation(a: &mut Arena, generation: u32) -> u32 {
    if generation < 2 {
        return 15;
    }
    a.header[GENERATION] = generation;
    0
}

/// Pops the free slots above the highest link and links the others in rising order from the root on.
fn canonicalize_freelist(a: &mut Arena) -> u32 {
    while a.stack() > 0 && !a.is_link(a.stack()) {
        zero(a, a.stack());
        a.header[STACK] -= 1;
    }
    let free: Vec<usize> = (1..=a.stack()).filter(|&s| !a.is_link(s)).collect();
    for (k, &s) in free.iter().enumerate() {
        a.next[s - 1] = *free.get(k + 1).unwrap_or(&s) as u32;
    }
    a.header[ROOT] = free.first().map_or(0, |&s| s as u32);
    0
}

// REFERENCE, Run

/// Applies the commands in order and writes an answer for each.
fn run(a: &mut Arena, commands: &[u32], answers: &mut [u32]) -> u32 {
    if !commands.len().is_multiple_of(COMMAND_WORDS) {
        return 16;
    }
    if answers.len() < commands.len() / COMMAND_WORDS {
        return 14;
    }
    for (command, answer) in commands.chunks_exact(COMMAND_WORDS).zip(answers) {
        *answer = apply(a, command);
    }
    0
}

/// Applies one command of a run to an arena that passes the check, and answers its word.
pub fn apply(a: &mut Arena, command: &[u32]) -> u32 {
    let p = Ptr { slot: command[1], generation: command[2] };
    let q = Ptr { slot: command[3], generation: command[4] };
    match command[0] {
        1 => connect(a, p, q),
        2 => break_prev(a, p),
        3 => break_next(a, p),
        4 => exchange_next(a, p, q),
        5 => remove(a, p).number,
        kind => insert(a, kind, p, q, command[5]).number,
    }
}

// REFERENCE, Compression

/// Gives the arena the generation of a compression, and tells whether it overflowed: 2 with reset, else the one after the
/// old, which stays where there is no link.
fn compression_generation(a: &mut Arena, reset: bool) -> bool {
    if reset {
        a.header[GENERATION] = 2;
        false
    } else if a.links() == 0 {
        false
    } else {
        raise_generation(a)
    }
}

/// Ends a compression whose links are in slots 1 to n: every link gets the generation, the other slots of the old stack
/// are popped, and there is no root.
fn compressed(a: &mut Arena) {
    let n = a.links();
    let generation = a.current();
    a.generation[..n].fill(generation);
    for s in n + 1..=a.stack() {
        zero(a, s);
    }
    a.header[STACK] = n as u32;
    a.header[ROOT] = 0;
}

/// Order-preserving compression: the links move into the first slots in their order, and the report says from where to
/// where.
fn compress_with(a: &mut Arena, reset: bool, report: &mut [u32]) -> u32 {
    if report.len() < 4 * a.links() {
        return 14;
    }
    let old = a.clone();
    let overflowed = compression_generation(a, reset);
    let mut new_slot = vec![0; old.stack() + 1];
    for (k, s) in old.link_slots().enumerate() {
        new_slot[s] = k as u32 + 1;
        report[4 * k] = s as u32;
        report[4 * k + 1] = old.generation[s - 1];
        report[4 * k + 2] = k as u32 + 1;
        report[4 * k + 3] = a.current();
    }
    for (k, s) in old.link_slots().enumerate() {
        a.prev[k] = new_slot[old.prev[s - 1] as usize];
        a.next[k] = new_slot[old.next[s - 1] as usize];
        a.payload[k] = old.payload[s - 1];
    }
    compressed(a);
    overflow_number(overflowed)
}

/// Canonical compression: chain by chain, each link is exchanged with whatever is in slot i. The slots of the links that wait
/// for their turn are kept in order, so that the lowest is found without a search.
fn compress_canonical(a: &mut Arena, reset: bool, where_from: &mut [u32]) -> u32 {
    if where_from.len() != a.capacity() {
        return 14;
    }
    let overflowed = compression_generation(a, reset);
    let mut from: Vec<u32> = (0..=a.stack() as u32).collect();
    let mut waiting: BTreeSet<usize> = a.link_slots().collect();
    let mut i = 1;
    while let Some(&lowest) = waiting.first() {
        let first = i;
        let mut target = start_of(a, lowest);
        loop {
            // A link that was in slot i waits in the target's slot from now on.
            if !waiting.remove(&i) {
                waiting.remove(&target);
            }
            exchange_slots(a, &mut from, i, target);
            target = a.next[i - 1] as usize;
            i += 1;
            if target == 0 || target == first {
                break;
            }
        }
    }
    let n = a.links();
    for s in 1..=a.stack() {
        where_from[s - 1] = if s <= n { from[s] } else { 0 };
    }
    compressed(a);
    overflow_number(overflowed)
}

/// The start of the chain of the link in slot `s`; a closed chain has none, and `s` stays.
fn start_of(a: &Arena, s: usize) -> usize {
    let mut first = s;
    loop {
        match a.prev[first - 1] as usize {
            0 => return first,
            before if before == s => return s,
            before => first = before,
        }
    }
}

/// Exchanges slots `i` and `t` with all their words, and renames both in their neighbours.
fn exchange_slots(a: &mut Arena, from: &mut [u32], i: usize, t: usize) {
    if i == t {
        return;
    }
    let exchanged = |s: usize| {
        if s == i {
            t
        } else if s == t {
            i
        } else {
            s
        }
    };
    let mut touched = vec![i, t];
    for s in [i, t] {
        if a.is_link(s) {
            touched.extend([a.prev[s - 1] as usize, a.next[s - 1] as usize]);
        }
    }
    touched.retain(|&s| s != 0);
    touched.sort_unstable();
    touched.dedup();
    a.prev.swap(i - 1, t - 1);
    a.next.swap(i - 1, t - 1);
    a.generation.swap(i - 1, t - 1);
    a.payload.swap(i - 1, t - 1);
    from.swap(i, t);
    for s in touched.into_iter().map(exchanged) {
        if a.is_link(s) {
            a.prev[s - 1] = exchanged(a.prev[s - 1] as usize) as u32;
            a.next[s - 1] = exchanged(a.next[s - 1] as usize) as u32;
        }
    }
}

// REFERENCE, Small arenas

/// Writes the arena of an index into the first words of the columns and into the header, and answers that there is one and
/// its stack length; past the last arena it answers 0 and 0. What the words were does not matter.
pub fn give(a: &mut Arena, arenas: &[Arena], index: u32) -> Reply {
    if !is_shaped(a) {
        return Reply::number(1);
    }
    let Some(small) = arenas.get(index as usize) else {
        return Reply::new(0, &[0, 0]);
    };
    let length = small.stack();
    if a.capacity() < length {
        return Reply::number(14);
    }
    a.prev[..length].copy_from_slice(&small.prev);
    a.next[..length].copy_from_slice(&small.next);
    a.generation[..length].copy_from_slice(&small.generation);
    a.payload[..length].copy_from_slice(&small.payload);
    a.header.copy_from_slice(&small.header);
    Reply::new(0, &[1, length as u32])
}

/// All small arenas in their order. They are looked for once, among all tuples of the words that they can have.
pub fn small_arenas() -> &'static [Arena] {
    static ARENAS: OnceLock<Vec<Arena>> = OnceLock::new();
    ARENAS.get_or_init(|| {
        let mut arenas = Vec::new();
        for length in 0..=SMALL {
            for root in 0..=length as u32 {
                let header = vec![length as u32, 0, root, 2];
                each_tuple(&mut Arena { header, ..Arena::empty(length) }, 1, &mut arenas);
            }
        }
        arenas
    })
}

/// The longest stack of a small arena.
pub const SMALL: usize = 3;

/// Gives slot `s` and those behind it every generation, prev and next in order, and keeps what passes the check with some link
/// count, if 0 stands where nobody reads.
fn each_tuple(a: &mut Arena, s: usize, found: &mut Vec<Arena>) {
    let length = a.stack();
    if s > length {
        for links in 0..=length as u32 {
            a.header[LINKS] = links;
            if check(a) == 0 && (1..=length).all(|s| a.is_link(s) || a.prev[s - 1] == 0) {
                found.push(a.clone());
            }
        }
        return;
    }
    for generation in [0, 2] {
        (a.generation[s - 1], a.payload[s - 1]) = (generation, if generation == 0 { 0 } else { s as u32 });
        for prev in 0..=length as u32 {
            for next in 0..=length as u32 {
                (a.prev[s - 1], a.next[s - 1]) = (prev, next);
                each_tuple(a, s + 1, found);
            }
        }
    }
}
