//! The comparison must be able to fail: one wrong word is seen, and for each call programs that are wrong in a
//! likely way are found out by its sections, and shown on a small case.

use std::collections::BTreeSet;
use std::panic::{AssertUnwindSafe, catch_unwind};
use std::sync::Mutex;

use oracle::compare::{Answer, Counts, Mismatch, Outcome, Product, compare, model_outcome};
use oracle::header::{GENERATION, LINKS, ROOT, STACK};
use oracle::random::{self, Near, Random};
use oracle::runner::{Failure, Run};
use oracle::sections::{Form, SECTIONS};
use oracle::side::{NEXT, PREV};
use oracle::words::{CALLS_IN_ALL, SMALL_ARENA, calls_on_arenas};
use oracle::{
    Archive, Arena, COMMAND_WORDS, CUT, Call, LIMIT, Ptr, Reading, Reply, Walk, calls, cases, demand3, frame,
    kind, model, payloads, shrink,
};

/// Every outcome that differs from the given one in one word.
fn one_word_off(right: &Outcome) -> Vec<Outcome> {
    let mut wrong = Vec::new();
    let mut push = |change: &dyn Fn(&mut Outcome)| {
        let mut outcome = right.clone();
        change(&mut outcome);
        wrong.push(outcome);
    };
    push(&|o| o.reply.number ^= 1);
    push(&|o| o.reply.broken ^= 1);
    push(&|o| o.reply.side ^= 1);
    for k in 0..6 {
        push(&|o| o.reply.words[k] ^= 1);
    }
    for k in 0..right.arena.header.len() {
        push(&|o| o.arena.header[k] ^= 1);
    }
    for k in 0..right.arena.capacity() {
        push(&|o| o.arena.prev[k] ^= 1);
        push(&|o| o.arena.next[k] ^= 1);
        push(&|o| o.arena.generation[k] ^= 1);
        push(&|o| o.arena.payload[k] ^= 1);
    }
    for k in 0..right.call.lent().len() {
        push(&|o| match &mut o.call {
            Call::Drain(_, words)
            | Call::CompressWith(_, words)
            | Call::Run(_, words)
            | Call::CompressCanonical(_, words)
            | Call::DueEvents(.., words) => words[k] ^= 1,
            _ => unreachable!("a call that lends nothing"),
        });
    }
    wrong
}

#[test]
fn one_wrong_word_is_seen() {
    for seed in 0..3_000 {
        let mut r = Random::new(6_000_000 + seed);
        let stack = 1 + r.below(8);
        let a = match seed % 3 {
            0 => random::with_broken_links(&mut r, stack, Near::Anywhere),
            _ => random::any_whole(&mut r, 8),
        };
        let call = match seed % 10 {
            9 => calls::call_of(SMALL_ARENA, &mut r, &a, &[]),
            _ => calls::some_call(&mut r, &a, &[]),
        };
        let right = model_outcome(&a, &call);
        let passes = |outcome: &Outcome| {
            compare(&|_, _| Some(Ok(outcome.clone())), &a, &call, &mut Counts::default()).is_ok()
        };
        assert!(passes(&right));
        for wrong in one_word_off(&right) {
            assert!(!passes(&wrong), "{call:?} on {a:?} may leave {wrong:?}");
        }
    }
}

/// A program that does something else than the model: what it makes of the model's outcome of a call.
type Wrong = fn(&Arena, &Call, &mut Outcome);

/// The wrong programs, each with the call that it is wrong about.
#[rustfmt::skip]
#[allow(clippy::collapsible_if)] // the outer test is the call, the inner one the case
const WRONG: &[(&str, &str, Wrong)] = &[
    ("check", "accepts every arena", |_, call, o| if matches!(call, Call::Check) { o.reply = Reply::number(0) }),
    ("check", "refuses every arena", |_, call, o| if matches!(call, Call::Check) { o.reply = Reply::number(4) }),
    ("check", "the links not counted", |_, _, o| if o.reply.number == 4 { o.reply.number = 0 }),
    ("check", "10 for 9", |_, _, o| if o.reply.number == 9 { o.reply.number = 10 }),
    ("check", "only next looked at", |a, _, o| only_one_side(a, o, NEXT)),
    ("check", "only prev looked at", |a, _, o| only_one_side(a, o, PREV)),
    ("check", "another slot named", |a, _, o| named(a, o, |places| (places[0].0 % 2 + 1, places[0].1))),
    ("check", "no slot named", |a, _, o| named(a, o, |places| (0, places[0].1))),
    ("check", "the highest broken slot named", |a, _, o| named(a, o, |places| first_side(places, places[places.len() - 1].0))),
    ("check", "the second lowest broken slot named", |a, _, o| named(a, o, |places| {
        *places.iter().find(|place| place.0 > places[0].0).unwrap_or(&places[0])
    })),
    ("check", "the highest place, on its next if that fails", |a, _, o| named(a, o, |places| places[places.len() - 1])),
    ("check", "all prevs looked at before all nexts", |a, _, o| named(a, o, |places| {
        *places.iter().find(|place| place.1 == PREV).unwrap_or(&places[0])
    })),
    ("check", "all nexts looked at before all prevs", |a, _, o| named(a, o, |places| {
        *places.iter().find(|place| place.1 == NEXT).unwrap_or(&places[0])
    })),
    ("check", "the neighbour named", |a, _, o| named(a, o, |places| {
        let (slot, side) = places[0];
        let column = if side == PREV { &a.prev } else { &a.next };
        (column[slot as usize - 1], side)
    })),
    ("check", "slots counted from 0", |a, _, o| named(a, o, |places| (places[0].0 - 1, places[0].1))),
    ("check", "next looked at before prev", |a, _, o| named(a, o, |places| {
        let slot = places[0].0;
        (slot, if places.contains(&(slot, NEXT)) { NEXT } else { PREV })
    })),
    ("check", "the side of the highest broken slot", |a, _, o| named(a, o, |places| {
        (places[0].0, first_side(places, places[places.len() - 1].0).1)
    })),
    ("check", "side 0 with 11", |a, _, o| named(a, o, |places| (places[0].0, 0))),
    ("check", "side 3 with 11", |a, _, o| named(a, o, |places| (places[0].0, 3))),
    ("check", "side 3 if both fail", |a, _, o| named(a, o, |places| {
        let slot = places[0].0;
        (slot, places.iter().filter(|place| place.0 == slot).map(|place| place.1).sum())
    })),
    ("check", "side 1 always", |a, _, o| named(a, o, |places| (places[0].0, PREV))),
    ("check", "side 2 always", |a, _, o| named(a, o, |places| (places[0].0, NEXT))),
    ("check", "sides exchanged", |a, _, o| named(a, o, |places| (places[0].0, PREV + NEXT - places[0].1))),
    ("check", "sides counted from 0", |a, _, o| named(a, o, |places| (places[0].0, places[0].1 - 1))),
    ("check", "slot and side exchanged", |_, _, o| std::mem::swap(&mut o.reply.broken, &mut o.reply.side)),
    ("check", "a slot above the stack taken for a link", |a, _, o| by_other_links(a, o, |s| {
        a.generation.get(s - 1).is_some_and(|&generation| generation != 0)
    })),
    ("check", "a free slot taken for a link", |a, _, o| by_other_links(a, o, |s| s <= a.stack())),
    ("check", "a slot named where nothing is broken", |_, _, o| if o.reply.number == 0 { o.reply.broken = 1 }),
    ("check", "a slot named with 4", |_, _, o| if o.reply.number == 4 { o.reply.broken = 1 }),
    ("check", "a side given where nothing is broken", |_, _, o| if o.reply.number == 0 { o.reply.side = 1 }),
    ("check", "a side given with 10", |_, _, o| if o.reply.number == 10 { o.reply.side = 2 }),
    ("check", "a stack length cut to 16 bits", |a, call, o| read_as(a, call, o, |a| a.header[STACK] = cut(a.header[STACK]))),
    ("check", "a link count cut to 16 bits", |a, call, o| read_as(a, call, o, |a| a.header[LINKS] = cut(a.header[LINKS]))),
    ("check", "a root cut to 16 bits", |a, call, o| read_as(a, call, o, |a| a.header[ROOT] = cut(a.header[ROOT]))),
    ("check", "prev words cut to 16 bits", |a, call, o| read_as(a, call, o, |a| a.prev.iter_mut().for_each(|word| *word = cut(*word)))),
    ("check", "next words cut to 16 bits", |a, call, o| read_as(a, call, o, |a| a.next.iter_mut().for_each(|word| *word = cut(*word)))),
    ("get_link", "its slot named with 12", |_, call, o| if let (Call::GetLink(p), 12) = (call, o.reply.number) {
        o.reply.broken = p.slot;
    }),
    ("get_link", "a side given with 12", |_, call, o| if let (Call::GetLink(_), 12) = (call, o.reply.number) {
        o.reply.side = 1;
    }),
    ("connect", "the side in the way given with 13", |_, call, o| if let (Call::Connect(..), 13) = (call, o.reply.number) {
        o.reply.side = 2;
    }),
    ("insert", "a slot named with 17", |_, call, o| if let (Call::Insert(..), 17) = (call, o.reply.number) {
        o.reply.broken = 1;
    }),
    ("remove", "a side given with 100", |_, call, o| if let (Call::Remove(_), 100) = (call, o.reply.number) {
        o.reply.side = 1;
    }),
    ("get_link", "prev and next exchanged", |_, call, o| if matches!(call, Call::GetLink(_)) {
        o.reply.words.swap(0, 2);
        o.reply.words.swap(1, 3);
    }),
    ("get_link", "its own generation for its neighbours'", |_, call, o| if let Call::GetLink(p) = call {
        for k in [0, 2] {
            if o.reply.words[k] != 0 {
                o.reply.words[k + 1] = p.generation;
            }
        }
    }),
    ("get_link", "a slot cut to 16 bits", |a, call, o| if let Call::GetLink(p) = call { instead(a, o, Call::GetLink(cut_ptr(*p))) }),
    ("get_link_no_gen", "a slot cut to 16 bits", |a, call, o| if let Call::GetLinkNoGen(p) = call { instead(a, o, Call::GetLinkNoGen(cut_ptr(*p))) }),
    ("are_neighbors", "slots cut to 16 bits", |a, call, o| if let Call::AreNeighbors(p, q) = call { instead(a, o, Call::AreNeighbors(cut_ptr(*p), cut_ptr(*q))) }),
    ("walk_start", "a slot cut to 16 bits", |a, call, o| if let Call::WalkStart(p) = call { instead(a, o, Call::WalkStart(cut_ptr(*p))) }),
    ("connect", "the second slot cut to 16 bits", |a, call, o| if let Call::Connect(p, q) = call { instead(a, o, Call::Connect(*p, cut_ptr(*q))) }),
    ("connect", "the first slot cut to 16 bits", |a, call, o| if let Call::Connect(p, q) = call { instead(a, o, Call::Connect(cut_ptr(*p), *q)) }),
    ("break_prev", "a slot cut to 16 bits", |a, call, o| if let Call::BreakPrev(p) = call { instead(a, o, Call::BreakPrev(cut_ptr(*p))) }),
    ("break_next", "a slot cut to 16 bits", |a, call, o| if let Call::BreakNext(p) = call { instead(a, o, Call::BreakNext(cut_ptr(*p))) }),
    ("exchange_next", "the first slot cut to 16 bits", |a, call, o| if let Call::ExchangeNext(p, q) = call { instead(a, o, Call::ExchangeNext(cut_ptr(*p), *q)) }),
    ("exchange_next", "the second slot cut to 16 bits", |a, call, o| if let Call::ExchangeNext(p, q) = call { instead(a, o, Call::ExchangeNext(*p, cut_ptr(*q))) }),
    ("remove", "a slot cut to 16 bits", |a, call, o| if let Call::Remove(p) = call { instead(a, o, Call::Remove(cut_ptr(*p))) }),
    ("drain", "a slot cut to 16 bits", |a, call, o| if let Call::Drain(p, report) = call { instead(a, o, Call::Drain(cut_ptr(*p), report.clone())) }),
    ("insert", "the first slot cut to 16 bits", |a, call, o| if let Call::Insert(kind, p, q, payload) = call { instead(a, o, Call::Insert(*kind, cut_ptr(*p), *q, *payload)) }),
    ("insert", "the second slot cut to 16 bits", |a, call, o| if let Call::Insert(kind, p, q, payload) = call { instead(a, o, Call::Insert(*kind, *p, cut_ptr(*q), *payload)) }),
    ("due_count", "a slot cut to 16 bits", |a, call, o| if let Call::DueCount(p, from, to) = call { instead(a, o, Call::DueCount(cut_ptr(*p), *from, *to)) }),
    ("due_events", "a slot cut to 16 bits", |a, call, o| if let Call::DueEvents(p, from, to, report) = call { instead(a, o, Call::DueEvents(cut_ptr(*p), *from, *to, report.clone())) }),
    ("get_link_no_gen", "prev and next exchanged", |_, call, o| if matches!(call, Call::GetLinkNoGen(_)) {
        o.reply.words.swap(0, 1);
    }),
    ("are_neighbors", "the wrong direction", |a, call, o| if let Call::AreNeighbors(p, q) = call {
        *o = model_outcome(a, &Call::AreNeighbors(*q, *p));
        o.call = call.clone();
    }),
    ("are_neighbors", "the second generation not looked at", |a, call, o| if let Call::AreNeighbors(p, q) = call {
        if model::check(a) == 0 && a.is_link(q.slot as usize) {
            *o = model_outcome(a, &Call::AreNeighbors(*p, a.ptr(q.slot as usize)));
            o.call = call.clone();
        }
    }),
    ("are_neighbors", "12 for a stale pointer", |a, call, o| if let Call::AreNeighbors(p, _) = call {
        if o.reply.number == 0 {
            o.reply.number = model_outcome(a, &Call::GetLink(*p)).reply.number;
        }
    }),
    ("walk_start", "no advances left", |_, call, o| if matches!(call, Call::WalkStart(_)) { o.reply.words[3] = 0 }),
    ("walk_step", "advances lowered at 0", |_, call, o| if let Call::WalkStep(walk) = call {
        o.reply.words[5] = walk.left.wrapping_sub(1);
    }),
    ("walk_step", "advances lowered by a refused step", |_, call, o| if let Call::WalkStep(walk) = call {
        o.reply.words[5] = walk.left.saturating_sub(1);
    }),
    ("walk_step", "a closed chain's start twice", |a, _, o| at_end(a, o, |a, walk, o| {
        if a.next[walk.position as usize - 1] == walk.start {
            o.reply.words[3] = walk.start;
        }
    })),
    ("walk_step", "a direction that never turns", |a, _, o| at_end(a, o, |a, walk, o| {
        if a.next[walk.position as usize - 1] == 0 {
            o.reply.words[4] = 0;
        }
    })),
    ("walk_step", "prev of a start that is no link", |a, _, o| at_end(a, o, |a, walk, o| {
        let start = (walk.start as usize).wrapping_sub(1);
        if a.next[walk.position as usize - 1] == 0 && start < a.prev.len() {
            o.reply.words[3] = a.prev[start];
        }
    })),
    ("walk_step", "words cut to 16 bits", |a, call, o| if let Call::WalkStep(walk) = call {
        let walk = Walk { start: cut(walk.start), position: cut(walk.position), ..*walk };
        o.reply = model_outcome(a, &Call::WalkStep(walk)).reply;
    }),
    ("connect", "always 13", |a, call, o| if matches!(call, Call::Connect(..)) { refuse(a, call, o, 13) }),
    ("connect", "p_next asked first", |a, call, o| if let (Call::Connect(p, q), 12 | 13) = (call, o.reply.number) {
        let q = model_outcome(a, &Call::GetLinkNoGen(*q)).reply;
        let p = model_outcome(a, &Call::GetLinkNoGen(*p)).reply;
        o.reply.number = [(q.number == 12, 12), (q.words[0] != 0, 13), (p.number == 12, 12), (true, 13)]
            .into_iter().find(|(holds, _)| *holds).unwrap().1;
    }),
    ("break_prev", "the next broken", |a, call, o| if let Call::BreakPrev(p) = call { instead(a, o, Call::BreakNext(*p)) }),
    ("break_next", "the prev broken", |a, call, o| if let Call::BreakNext(p) = call { instead(a, o, Call::BreakPrev(*p)) }),
    ("exchange_next", "one prev forgotten", |a, call, o| if let (Call::ExchangeNext(_, q), 0) = (call, o.reply.number) {
        let after = a.next[q.slot as usize - 1] as usize;
        o.arena.prev[after - 1] = a.prev[after - 1];
    }),
    ("exchange_next", "an end exchanged with itself", |_, call, o| if let (Call::ExchangeNext(p, q), 13) = (call, o.reply.number) {
        if p == q {
            o.reply.number = 0;
        }
    }),
    ("remove", "the popped payload left", |_, call, o| removed(call, o, |p, o| {
        o.arena.payload[p.slot as usize - 1] = o.reply.words[2];
    })),
    ("remove", "the freelist touched by a pop", |a, call, o| removed(call, o, |p, o| {
        if p.slot as usize == a.stack() {
            o.arena.header[ROOT] = p.slot;
        }
    })),
    ("remove", "the free slots below popped too", |a, call, o| removed(call, o, |p, o| {
        while p.slot as usize == a.stack() && o.arena.stack() > 0 && !o.arena.is_link(o.arena.stack()) {
            o.arena.header[STACK] -= 1;
        }
    })),
    ("remove", "the old link count", |a, call, o| removed(call, o, |_, o| o.arena.header[LINKS] = a.header[LINKS])),
    ("remove", "an overflow that is not reported", |_, call, o| if matches!(call, Call::Remove(_)) { hide_overflow(o) }),
    ("drain", "the original interlinks", |a, _, o| {
        let items = o.reply.words[0] as usize;
        if let Call::Drain(_, report) = &mut o.call {
            for item in report.chunks_exact_mut(5).take(items) {
                let place = item[0] as usize - 1;
                (item[2], item[3]) = (a.prev[place], a.next[place]);
            }
        }
    }),
    ("drain", "the overflow not named", |_, call, o| if matches!(call, Call::Drain(..)) { o.reply.words[1] = 0 }),
    ("drain", "an exact report refused", |a, call, o| if let Call::Drain(_, report) = call {
        if o.reply.number == 0 && report.len() == 5 * o.reply.words[0] as usize {
            refuse(a, call, o, 14);
        }
    }),
    ("drain", "the old link count", |a, call, o| if matches!(call, Call::Drain(..)) { o.arena.header[LINKS] = a.header[LINKS] }),
    ("set_generation", "15 at 2", |a, call, o| if matches!(call, Call::SetGeneration(2)) && o.reply.number == 0 {
        refuse(a, call, o, 15);
    }),
    ("set_generation", "1 accepted", |_, call, o| if matches!(call, Call::SetGeneration(1)) && o.reply.number == 15 {
        (o.reply.number, o.arena.header[GENERATION]) = (0, 1);
    }),
    ("inc_generation", "an overflow that is not reported", |_, call, o| if matches!(call, Call::IncGeneration) { hide_overflow(o) }),
    ("inc_generation", "1 after the largest", |_, call, o| if matches!(call, Call::IncGeneration) && o.reply.number == 100 {
        o.arena.header[GENERATION] = 1;
    }),
    ("canonicalize_freelist", "free end slots left", |a, call, o| if matches!(call, Call::CanonicalizeFreelist) {
        if o.arena.header[STACK] < a.header[STACK] {
            o.arena = a.clone();
        }
    }),
    ("canonicalize_freelist", "falling order", |a, call, o| if matches!(call, Call::CanonicalizeFreelist) && o.reply.number == 0 {
        let free: Vec<usize> = (1..=o.arena.stack()).filter(|&s| a.generation[s - 1] == 0).collect();
        for (k, &s) in free.iter().enumerate() {
            o.arena.next[s - 1] = free[k.saturating_sub(1)] as u32;
        }
        o.arena.header[ROOT] = free.last().map_or(0, |&s| s as u32);
    }),
    ("run", "only the first command done, and 0 for the others", |a, call, o| run_as(a, call, o, |a, k, command| {
        if k == 0 { model::apply(a, command) } else { 0 }
    })),
    ("run", "slots cut to 16 bits", |a, call, o| run_as(a, call, o, |a, _, command| {
        model::apply(a, &cut_command(command))
    })),
    ("run", "12 before 16", |a, call, o| run_as(a, call, o, |a, _, command| {
        let stale = !a.is_link(command[1] as usize);
        if stale && !(1..=kind::BRIDGE_INX).contains(&command[0]) { 12 } else { model::apply(a, command) }
    })),
    ("run", "14 before 16", |_, call, o| if let (Call::Run(words, answers), 16) = (call, o.reply.number) {
        if answers.len() < words.len() / COMMAND_WORDS {
            o.reply.number = 14;
        }
    }),
    ("run", "five words a command", |a, call, o| if let Call::Run(words, answers) = call {
        if matches!(o.reply.number, 0 | 14 | 16) {
            five_words(a, words, answers, o);
        }
    }),
    ("run", "five words from one command to the next", |a, call, o| if let Call::Run(words, _) = call {
        run_as(a, call, o, |a, k, _| model::apply(a, &words[5 * k..]));
    }),
    ("run", "insertions unknown", |a, call, o| run_as(a, call, o, |a, _, command| {
        if kind::ALL.contains(&command[0]) { 16 } else { model::apply(a, command) }
    })),
    ("run", "12 for 17", |a, call, o| run_as(a, call, o, |a, _, command| match model::apply(a, command) {
        17 => 12,
        answer => answer,
    })),
    ("run", "a kind by slot that takes slots cut to 16 bits", |a, call, o| run_as(a, call, o, |a, _, command| {
        if kind::by_slot(command[0]) { model::apply(a, &cut_command(command)) } else { model::apply(a, command) }
    })),
    ("run", "an ignored slot over 65,535 refused", |a, call, o| run_as(a, call, o, |a, _, command| {
        let ignored = [1, 3].into_iter().skip(kind::names(command[0])).any(|word| command[word] >= CUT);
        if ignored && kind::ALL.contains(&command[0]) { 17 } else { model::apply(a, command) }
    })),
    ("run", "the first command's payload for all", |a, call, o| if let Call::Run(words, _) = call {
        run_as(a, call, o, |a, _, command| model::apply(a, &[&command[..5], &words[5..6]].concat()));
    }),
    ("run", "nothing done after an insertion that is refused", |a, call, o| if let Call::Run(..) = call {
        let mut refused = false;
        run_as(a, call, o, |a, _, command| {
            let answer = if refused { 17 } else { model::apply(a, command) };
            refused |= matches!(answer, 17 | 18);
            answer
        });
    }),
    ("compress_with", "old and new exchanged in the report", |_, _, o| if let Call::CompressWith(_, report) = &mut o.call {
        for words in report.chunks_exact_mut(4) {
            words.rotate_left(2);
        }
    }),
    ("compress_with", "the root left", |a, call, o| if matches!(call, Call::CompressWith(..)) {
        o.arena.header[ROOT] = a.header[ROOT];
    }),
    ("compress_with", "popped slots left", |a, call, o| if matches!(call, Call::CompressWith(..)) && a.header.len() == 4 {
        let (from, to) = (o.arena.stack().min(a.stack()), a.stack().min(a.payload.len()));
        if from < to {
            o.arena.payload[from..to].copy_from_slice(&a.payload[from..to]);
        }
    }),
    ("compress_canonical", "nothing moved", |a, _, o| if compressed(o) {
        o.arena = Arena { header: o.arena.header.clone(), ..a.clone() };
    }),
    ("compress_canonical", "slot order", |a, _, o| laid_out(a, o, |a| a.link_slots().collect())),
    ("compress_canonical", "chains sorted by their lowest slot", |a, _, o| laid_out(a, o, by_lowest)),
    ("compress_canonical", "a where-from tail that is not zeroed", |a, call, o| where_from(a, call, o, |places, old, n, stack| {
        places[n..stack].copy_from_slice(&old[n..stack]);
    })),
    ("compress_canonical", "a where-from word above the stack zeroed", |a, call, o| where_from(a, call, o, |places, _, _, stack| {
        places[stack..].fill(0);
    })),
    ("compress_canonical", "a reset that reports overflow", |a, call, o| if let Call::CompressCanonical(1.., _) = call {
        if o.reply.number == 0 && a.header[GENERATION] == u32::MAX {
            o.reply.number = 100;
        }
    }),
    ("compress_canonical", "a generation raised without links", |a, call, o| if let Call::CompressCanonical(0, _) = call {
        if o.reply.number == 0 && a.links() == 0 {
            o.arena.header[GENERATION] = a.header[GENERATION].wrapping_add(1);
        }
    }),
    ("compress_canonical", "a where-from column that may be longer", |a, call, o| if let Call::CompressCanonical(reset, places) = call {
        if o.reply.number == 14 && places.len() > a.capacity() {
            let exact = model_outcome(a, &Call::CompressCanonical(*reset, vec![0; a.capacity()]));
            (o.reply, o.arena) = (exact.reply, exact.arena);
        }
    }),
    ("insert", "a kind by slot that asks for the generation", |a, call, o| if let Call::Insert(kind, p, q, payload) = call {
        if kind::by_slot(*kind) {
            instead(a, o, Call::Insert(kind - 1, *p, *q, *payload));
        }
    }),
    ("insert", "a kind by pointer that does not look at the generation", |a, call, o| if let Call::Insert(kind, p, q, payload) = call {
        if kind::names(*kind) > 0 && !kind::by_slot(*kind) {
            instead(a, o, Call::Insert(kind + 1, *p, *q, *payload));
        }
    }),
    ("insert", "the second generation not looked at", |a, call, o| if let Call::Insert(kind, p, q, payload) = call {
        if kind::names(*kind) == 2 && model::check(a) == 0 && a.is_link(q.slot as usize) {
            instead(a, o, Call::Insert(*kind, *p, a.ptr(q.slot as usize), *payload));
        }
    }),
    ("insert", "ChainEnd behind a link that has a next", |a, call, o| another_kind(a, call, o, |kind| match kind {
        kind::CHAIN_END | kind::CHAIN_END_INX => kind - kind::CHAIN_END + kind::NEXT_TO,
        _ => kind,
    })),
    ("insert", "ChainStart before a link that has a prev", |a, call, o| another_kind(a, call, o, |kind| match kind {
        kind::CHAIN_START | kind::CHAIN_START_INX => kind - kind::CHAIN_START + kind::PREV_TO,
        _ => kind,
    })),
    ("insert", "NextTo and PrevTo exchanged", |a, call, o| another_kind(a, call, o, |kind| match kind {
        kind::NEXT_TO | kind::NEXT_TO_INX => kind - kind::NEXT_TO + kind::PREV_TO,
        kind::PREV_TO | kind::PREV_TO_INX => kind - kind::PREV_TO + kind::NEXT_TO,
        _ => kind,
    })),
    ("insert", "a link closed alone left open", |a, call, o| another_kind(a, call, o, |kind| match kind {
        kind::SINGLE_LINK_CYCLIC => kind::DISCONNECTED,
        _ => kind,
    })),
    ("insert", "AtInterlink with its pointers exchanged", |a, call, o| if let Call::Insert(kind, p, q, payload) = call {
        if matches!(*kind, kind::AT_INTERLINK | kind::AT_INTERLINK_INX) {
            instead(a, o, Call::Insert(*kind, *q, *p, *payload));
        }
    }),
    ("insert", "a bridge with its pointers exchanged", |a, call, o| if let Call::Insert(kind, p, q, payload) = call {
        if matches!(*kind, kind::BRIDGE | kind::BRIDGE_INX) {
            instead(a, o, Call::Insert(*kind, *q, *p, *payload));
        }
    }),
    ("insert", "a bridge that forgets the start", |a, call, o| inserted(call, o, |kind, _, q, o| {
        if matches!(kind, kind::BRIDGE | kind::BRIDGE_INX) {
            o.arena.prev[q.slot as usize - 1] = a.prev[q.slot as usize - 1];
        }
    })),
    ("insert", "a bridge to a link that has a prev", |a, call, o| if let (Call::Insert(kind, p, q, payload), 17) = (call, o.reply.number) {
        if matches!(*kind, kind::BRIDGE | kind::BRIDGE_INX) && model::may_insert(a, kind - kind::BRIDGE + kind::CHAIN_END, *p, *q) {
            instead(a, o, Call::Insert(kind - kind::BRIDGE + kind::PREV_TO, *q, *p, *payload));
        }
    }),
    ("insert", "the prev of the link behind forgotten", |a, call, o| inserted(call, o, |kind, p, _, o| {
        if matches!(kind, kind::NEXT_TO | kind::NEXT_TO_INX) && a.next[p.slot as usize - 1] != 0 {
            let after = a.next[p.slot as usize - 1] as usize;
            o.arena.prev[after - 1] = a.prev[after - 1];
        }
    })),
    ("insert", "the old next read after the new one is written", |_, call, o| inserted(call, o, |kind, _, _, o| {
        if matches!(kind, kind::NEXT_TO | kind::NEXT_TO_INX) {
            let new = o.reply.words[0];
            o.arena.next[new as usize - 1] = new;
        }
    })),
    ("insert", "a root that pointed at itself kept", |a, call, o| inserted(call, o, |_, _, _, o| {
        if a.root() != 0 && o.arena.root() == 0 {
            o.arena.header[ROOT] = a.root();
        }
    })),
    ("insert", "the whole freelist given up", |_, call, o| inserted(call, o, |_, _, _, o| o.arena.header[ROOT] = 0)),
    ("insert", "the slot behind the stack although one is free", |a, call, o| inserted(call, o, |_, _, _, o| {
        if a.root() != 0 && a.stack() < a.capacity() {
            behind_the_stack(a, o);
        }
    })),
    ("insert", "the generation raised", |_, call, o| inserted(call, o, |_, _, _, o| {
        o.arena.header[GENERATION] = o.arena.header[GENERATION].wrapping_add(1).max(2);
    })),
    ("insert", "the next generation for the link", |_, call, o| inserted(call, o, |_, _, _, o| {
        let slot = o.reply.words[0] as usize;
        o.reply.words[1] = o.reply.words[1].wrapping_add(1).max(2);
        o.arena.generation[slot - 1] = o.reply.words[1];
    })),
    ("insert", "18 before 17", |a, call, o| if let (Call::Insert(..), 17) = (call, o.reply.number) {
        if a.root() == 0 && a.stack() == a.capacity() {
            o.reply.number = 18;
        }
    }),
    ("insert", "18 while a slot is free", |a, call, o| if let (Call::Insert(..), 0) = (call, o.reply.number) {
        if a.stack() == a.capacity() {
            refuse(a, call, o, 18);
        }
    }),
    ("insert", "18 with room for one link", |a, call, o| if let (Call::Insert(..), 0) = (call, o.reply.number) {
        if a.root() == 0 && a.stack() + 1 == a.capacity() {
            refuse(a, call, o, 18);
        }
    }),
    ("insert", "16 after 17", |a, call, o| if let (Call::Insert(_, p, ..), 16) = (call, o.reply.number) {
        o.reply.number = if model_outcome(a, &Call::GetLink(*p)).reply.number == 12 { 17 } else { 16 };
    }),
    ("insert", "16 before the check", |_, call, o| if let Call::Insert(kind, ..) = call {
        if !kind::ALL.contains(kind) {
            o.reply = Reply::number(16);
        }
    }),
    ("insert", "kinds cut to 16 bits", |a, call, o| if let Call::Insert(kind, p, q, payload) = call {
        instead(a, o, Call::Insert(kind & 0xffff, *p, *q, *payload));
    }),
    ("insert", "a run's edit made where the kind is its code", |_, call, o| if let (Call::Insert(kind @ 1..=4, p, q, payload), 16) = (call, o.reply.number) {
        o.reply.number = model::apply(&mut o.arena, &calls::command(*kind, *p, *q, *payload));
    }),
    ("insert", "17 for the code of an edit", |_, call, o| if let (Call::Insert(1..=4, ..), 16) = (call, o.reply.number) {
        o.reply.number = 17;
    }),
    ("insert", "a pointer tried that the kind does not name", |a, call, o| if let Call::Insert(kind, _, q, _) = call {
        if kind::names(*kind) < 2 && o.reply.number == 0 && model_outcome(a, &Call::GetLink(*q)).reply.number != 0 {
            refuse(a, call, o, 17);
        }
    }),
    ("insert", "the payload written before 17", |a, call, o| if let (Call::Insert(_, _, _, payload), 17) = (call, o.reply.number) {
        if let Some(word) = o.arena.payload.get_mut(model::slot_to_take(a) - 1) {
            *word = *payload;
        }
    }),
    ("insert", "a slot answered with 17", |a, call, o| if let (Call::Insert(..), 17) = (call, o.reply.number) {
        o.reply.words[0] = model::slot_to_take(a) as u32;
    }),
    ("insert", "the old link count", |a, call, o| inserted(call, o, |_, _, _, o| o.arena.header[LINKS] = a.header[LINKS])),
    ("insert", "the old stack length", |a, call, o| inserted(call, o, |_, _, _, o| o.arena.header[STACK] = a.header[STACK])),
    ("insert", "the payload not written", |a, call, o| inserted(call, o, |_, _, _, o| {
        let place = o.reply.words[0] as usize - 1;
        o.arena.payload[place] = a.payload[place];
    })),
    ("insert", "old words left where there is no neighbour", |a, call, o| inserted(call, o, |_, _, _, o| {
        let place = o.reply.words[0] as usize - 1;
        if o.arena.prev[place] == 0 {
            o.arena.prev[place] = a.prev[place];
        }
        if o.arena.next[place] == 0 {
            o.arena.next[place] = a.next[place];
        }
    })),
    ("line_of_dot", "340 dots a line", |_, _, o| line_as(o, |dot| dot / 340)),
    ("line_of_dot", "one line that begins a dot too late", |_, _, o| line_as(o, |dot| if dot == 131 * 341 { 130 } else { dot / 341 })),
    ("line_of_dot", "the line behind at a line's last dot", |_, _, o| line_as(o, |dot| (dot + 1) / 341)),
    ("line_of_dot", "the line before at a line's first dot", |_, _, o| line_as(o, |dot| dot.saturating_sub(1) / 341)),
    ("line_of_dot", "lines counted from 1", |_, _, o| line_as(o, |dot| dot / 341 + 1)),
    ("line_of_dot", "dots cut to 16 bits", |_, _, o| line_as(o, |dot| (dot & 0xffff) / 341)),
    ("line_of_dot", "lines of 8 bits", |_, _, o| line_as(o, |dot| (dot / 341) & 0xff)),
    ("line_of_dot", "the frame's last dot refused", |_, call, o| if let Call::LineOfDot(89_341) = call { o.reply = Reply::number(19) }),
    ("line_of_dot", "dot 89,342 accepted", |_, call, o| if let Call::LineOfDot(89_342) = call { o.reply = Reply::new(0, &[262]) }),
    ("line_of_dot", "12 for 19", |_, call, o| if let (Call::LineOfDot(_), 19) = (call, o.reply.number) { o.reply.number = 12 }),
    ("line_of_dot", "a line answered with 19", |_, call, o| if let (Call::LineOfDot(dot), 19) = (call, o.reply.number) { o.reply.words[0] = dot / 341 }),
    ("line_dots", "340 dots a line", |_, _, o| ends_as(o, |line| [340 * line, 340 * line + 339])),
    ("line_dots", "one line that begins a dot too late", |_, _, o| ends_as(o, |line| [341 * line + u32::from(line == 131), 341 * line + 340])),
    ("line_dots", "one line that ends a dot too early", |_, _, o| ends_as(o, |line| [341 * line, 341 * line + 340 - u32::from(line == 130)])),
    ("line_dots", "the next line's first dot for the last", |_, _, o| ends_as(o, |line| [341 * line, 341 * line + 341])),
    ("line_dots", "first and last exchanged", |_, _, o| ends_as(o, |line| [341 * line + 340, 341 * line])),
    ("line_dots", "lines counted from 1", |_, _, o| ends_as(o, |line| [341 * line.saturating_sub(1), 341 * line.saturating_sub(1) + 340])),
    ("line_dots", "lines cut to 8 bits", |_, _, o| ends_as(o, |line| [341 * (line & 0xff), 341 * (line & 0xff) + 340])),
    ("line_dots", "dots cut to 16 bits", |_, _, o| ends_as(o, |line| [(341 * line) & 0xffff, (341 * line + 340) & 0xffff])),
    ("line_dots", "the last line refused", |_, call, o| if let Call::LineDots(261) = call { o.reply = Reply::number(19) }),
    ("line_dots", "line 262 accepted", |_, call, o| if let Call::LineDots(262) = call { o.reply = Reply::new(0, &[89_342, 89_682]) }),
    ("line_dots", "dots answered with 19", |_, call, o| if let (Call::LineDots(_), 19) = (call, o.reply.number) { o.reply.words[1] = 340 }),
    ("due_count", "the whole chain counted", |a, call, o| counted(a, call, o, |chain, _| chain.len())),
    ("due_count", "all chains counted", |a, call, o| counted(a, call, o, |_, due| a.link_slots().filter(|&s| due(s)).count())),
    ("due_count", "the links before the start left out", |a, call, o| counted(a, call, o, |chain, due| {
        chain[..along_next(a, chain)].iter().filter(|&&s| due(s)).count()
    })),
    ("due_count", "the start left out", |a, call, o| counted(a, call, o, |chain, due| chain[1..].iter().filter(|&&s| due(s)).count())),
    ("due_count", "the start of a closed chain counted twice", |a, call, o| counted(a, call, o, |chain, due| {
        let twice = a.prev[chain[0] - 1] != 0 && along_next(a, chain) == chain.len();
        chain.iter().filter(|&&s| due(s)).count() + usize::from(twice && due(chain[0]))
    })),
    ("due_count", "two at most counted", |a, call, o| counted(a, call, o, |chain, due| chain.iter().filter(|&&s| due(s)).count().min(2))),
    ("due_count", "19 before 12", |a, call, o| if let (Call::DueCount(_, from, to), 12) = (call, o.reply.number) {
        if !in_the_frame(*from, *to) {
            refuse(a, call, o, 19);
        }
    }),
    ("due_count", "19 before the check", |_, call, o| if let (Call::DueCount(_, from, to), 1..=11) = (call, o.reply.number) {
        if !in_the_frame(*from, *to) {
            o.reply = Reply::number(19);
        }
    }),
    ("due_count", "12 before the check", |_, call, o| if let (Call::DueCount(p, ..), 1..=11) = (call, o.reply.number) {
        if p.slot == 0 {
            o.reply = Reply::number(12);
        }
    }),
    ("due_count", "a stale pointer's slot walked from", |a, call, o| if let (Call::DueCount(p, from, to), 12) = (call, o.reply.number) {
        if a.is_link(p.slot as usize) {
            instead(a, o, Call::DueCount(a.ptr(p.slot as usize), *from, *to));
        }
    }),
    ("due_count", "a window up to the frame's end refused", |a, call, o| if let Call::DueCount(_, _, 89_342) = call {
        if o.reply.number == 0 {
            refuse(a, call, o, 19);
        }
    }),
    ("due_count", "a window up to 89,343 accepted", |a, call, o| if let (Call::DueCount(p, from, 89_343), 19) = (call, o.reply.number) {
        instead(a, o, Call::DueCount(*p, *from, 89_342));
    }),
    ("due_count", "a window from 89,342 on accepted", |a, call, o| if let (Call::DueCount(p, 89_342, to), 19) = (call, o.reply.number) {
        instead(a, o, Call::DueCount(*p, 0, *to));
    }),
    ("due_count", "a window from 89,341 on refused", |a, call, o| if let (Call::DueCount(_, 89_341, _), 0) = (call, o.reply.number) {
        refuse(a, call, o, 19);
    }),
    ("due_count", "a count with 19", |_, call, o| if let (Call::DueCount(..), 19) = (call, o.reply.number) { o.reply.words[0] = 1 }),
    ("due_count", "a slot named with 19", |_, call, o| if let (Call::DueCount(p, ..), 19) = (call, o.reply.number) {
        o.reply.broken = p.slot;
    }),
    ("due_events", "slot order", |a, call, o| reported(a, call, o, |_, events| events.sort_unstable())),
    ("due_events", "the order of their dots", |a, call, o| reported(a, call, o, |_, events| events.sort_by_key(|&s| a.payload[s - 1]))),
    ("due_events", "the walk the other way round", |a, call, o| reported(a, call, o, |_, events| events.reverse())),
    ("due_events", "the links before the start first", |a, call, o| reported(a, call, o, |chain, events| {
        let before = &chain[along_next(a, chain)..];
        let (mut first, rest): (Vec<usize>, Vec<usize>) = events.iter().partition(|s| before.contains(s));
        first.extend(rest);
        *events = first;
    })),
    ("due_events", "the chain from its first link on", |a, call, o| reported(a, call, o, |chain, events| {
        let before = &chain[along_next(a, chain)..];
        let (mut first, rest): (Vec<usize>, Vec<usize>) = events.iter().partition(|s| before.contains(s));
        first.reverse();
        first.extend(rest);
        *events = first;
    })),
    ("due_events", "the links before the start from the first on", |a, call, o| reported(a, call, o, |chain, events| {
        let before = &chain[along_next(a, chain)..];
        let (rest, mut last): (Vec<usize>, Vec<usize>) = events.iter().partition(|s| !before.contains(s));
        last.reverse();
        *events = [rest, last].concat();
    })),
    ("due_events", "the whole chain reported", |a, call, o| reported(a, call, o, |chain, events| *events = chain.to_vec())),
    ("due_events", "the last event forgotten", |a, call, o| reported(a, call, o, |_, events| _ = events.pop())),
    ("due_events", "slots counted from 0", |_, call, o| rewritten(call, o, |report, count| {
        report[..count].iter_mut().for_each(|slot| *slot -= 1);
    })),
    ("due_events", "payloads for slots", |a, call, o| rewritten(call, o, |report, count| {
        report[..count].iter_mut().for_each(|slot| *slot = a.payload[*slot as usize - 1]);
    })),
    ("due_events", "the first event not written", |_, call, o| if let Call::DueEvents(.., old) = call {
        rewritten(call, o, |report, count| if count > 0 { report[0] = old[0] });
    }),
    ("due_events", "the word behind the events written", |_, call, o| rewritten(call, o, |report, count| {
        if let Some(word) = report.get_mut(count) {
            *word = 0;
        }
    })),
    ("due_events", "the rest of the report zeroed", |_, call, o| rewritten(call, o, |report, count| report[count..].fill(0))),
    ("due_events", "every link of the chain written, then the events", |a, call, o| if let Call::DueEvents(p, ..) = call {
        rewritten(call, o, |report, count| {
            let chain = model::chain_of(a, p.slot as usize);
            for (word, &s) in report.iter_mut().zip(&chain).skip(count) {
                *word = s as u32;
            }
        });
    }),
    ("due_events", "the chain's length for the count", |a, call, o| if let (Call::DueEvents(p, ..), 0) = (call, o.reply.number) {
        o.reply.words[0] = model::chain_of(a, p.slot as usize).len() as u32;
    }),
    ("due_events", "an exact report refused", |a, call, o| if let (Call::DueEvents(p, .., report), 0) = (call, o.reply.number) {
        if report.len() == model::chain_of(a, p.slot as usize).len() {
            refuse(a, call, o, 14);
        }
    }),
    ("due_events", "room for the events is enough", |a, call, o| if let (Call::DueEvents(p, from, to, report), 14) = (call, o.reply.number) {
        let longer = model_outcome(a, &Call::DueEvents(*p, *from, *to, vec![0; a.links()]));
        let count = longer.reply.words[0] as usize;
        if let (true, Call::DueEvents(.., events), Call::DueEvents(.., written)) = (count <= report.len(), &longer.call, &mut o.call) {
            o.reply = longer.reply;
            written[..count].copy_from_slice(&events[..count]);
        }
    }),
    ("due_events", "room for all links of the arena asked for", |a, call, o| if let (Call::DueEvents(.., report), 0) = (call, o.reply.number) {
        if report.len() < a.links() {
            refuse(a, call, o, 14);
        }
    }),
    ("due_events", "14 before 19", |a, call, o| if let (Call::DueEvents(p, .., report), 19) = (call, o.reply.number) {
        if report.len() < model::chain_of(a, p.slot as usize).len() {
            o.reply.number = 14;
        }
    }),
    ("due_events", "14 before 12", |_, call, o| if let (Call::DueEvents(.., report), 12) = (call, o.reply.number) {
        if report.is_empty() {
            o.reply.number = 14;
        }
    }),
    ("due_events", "14 before the check", |_, call, o| if let (Call::DueEvents(.., report), 1..=11) = (call, o.reply.number) {
        if report.is_empty() {
            o.reply = Reply::number(14);
        }
    }),
    ("due_events", "19 before 12", |a, call, o| if let (Call::DueEvents(_, from, to, _), 12) = (call, o.reply.number) {
        if !in_the_frame(*from, *to) {
            refuse(a, call, o, 19);
        }
    }),
    ("due_events", "19 before the check", |_, call, o| if let (Call::DueEvents(_, from, to, _), 1..=11) = (call, o.reply.number) {
        if !in_the_frame(*from, *to) {
            o.reply = Reply::number(19);
        }
    }),
    ("due_events", "a window up to the frame's end refused", |a, call, o| if let (Call::DueEvents(_, _, 89_342, _), 0) = (call, o.reply.number) {
        refuse(a, call, o, 19);
    }),
    ("due_events", "a window from 89,342 on accepted", |_, call, o| if let (Call::DueEvents(_, 89_342, 0..=89_342, _), 19) = (call, o.reply.number) {
        o.reply.number = 0;
    }),
    ("due_events", "events written although the report is too short", |a, call, o| if let (Call::DueEvents(p, from, to, _), 14) = (call, o.reply.number) {
        let longer = model_outcome(a, &Call::DueEvents(*p, *from, *to, vec![0; a.links()]));
        if let (Call::DueEvents(.., events), Call::DueEvents(.., written)) = (&longer.call, &mut o.call) {
            let count = written.len().min(longer.reply.words[0] as usize);
            written[..count].copy_from_slice(&events[..count]);
        }
    }),
    ("due_events", "a count with 14", |_, call, o| if let (Call::DueEvents(.., report), 14) = (call, o.reply.number) {
        o.reply.words[0] = report.len() as u32 + 1;
    }),
    ("small_arena", "the check made first", |a, call, o| if let Call::SmallArena(_) = call {
        let number = model::check(a);
        if number != 0 {
            *o = Outcome { reply: Reply::number(number), call: call.clone(), arena: a.clone() };
        }
    }),
    ("small_arena", "an index of 8 bits", |a, call, o| another_index(a, call, o, |index| index & 0xff)),
    ("small_arena", "an index of 16 bits", |a, call, o| another_index(a, call, o, |index| index & 0xffff)),
    ("small_arena", "an index of 31 bits", |a, call, o| another_index(a, call, o, |index| index & 0x7fff_ffff)),
    ("small_arena", "indexes that begin again", |a, call, o| another_index(a, call, o, |index| index % 90)),
    ("small_arena", "indexes counted from 1", |a, call, o| another_index(a, call, o, |index| index.wrapping_sub(1))),
    ("small_arena", "the last one past the last", |a, call, o| another_index(a, call, o, |index| index.min(89))),
    ("small_arena", "found 1 past the last", |_, call, o| not_found(call, o, |o| o.reply.words[0] = 1)),
    ("small_arena", "a length past the last", |_, call, o| not_found(call, o, |o| o.reply.words[1] = 3)),
    ("small_arena", "the header cleared past the last", |_, call, o| not_found(call, o, |o| o.arena.header.fill(0))),
    ("small_arena", "14 past the last", |a, call, o| not_found(call, o, |o| if a.capacity() < 3 { refuse(a, call, o, 14) })),
    ("small_arena", "found 0 for an arena", |_, call, o| given(call, o, |_, o| o.reply.words[0] = 0)),
    ("small_arena", "found and length exchanged", |_, call, o| given(call, o, |_, o| o.reply.words.swap(0, 1))),
    ("small_arena", "a length one too large", |_, call, o| given(call, o, |_, o| o.reply.words[1] += 1)),
    ("small_arena", "the link count for the length", |_, call, o| given(call, o, |_, o| o.reply.words[1] = o.arena.header[LINKS])),
    ("small_arena", "the capacity for the length", |a, call, o| given(call, o, |_, o| o.reply.words[1] = a.capacity() as u32)),
    ("small_arena", "the capacity for the stack length", |a, call, o| given(call, o, |_, o| o.arena.header[STACK] = a.capacity() as u32)),
    ("small_arena", "the header not written", |a, call, o| given(call, o, |_, o| o.arena.header = a.header.clone())),
    ("small_arena", "the payloads not written", |a, call, o| given(call, o, |_, o| o.arena.payload = a.payload.clone())),
    ("small_arena", "words that nobody reads not written", |a, call, o| given(call, o, |length, o| {
        for place in (0..length).filter(|&place| o.arena.generation[place] == 0) {
            (o.arena.prev[place], o.arena.payload[place]) = (a.prev[place], a.payload[place]);
        }
    })),
    ("small_arena", "a word past the length written", |_, call, o| given(call, o, |length, o| {
        if let Some(word) = o.arena.payload.get_mut(length) {
            *word = 0;
        }
    })),
    ("small_arena", "three slots written always", |_, call, o| given(call, o, |length, o| {
        let end = o.arena.capacity().min(3);
        o.arena.prev[length..end].fill(0);
        o.arena.next[length..end].fill(0);
    })),
    ("small_arena", "the rest of the columns zeroed", |_, call, o| given(call, o, |length, o| o.arena.generation[length..].fill(0))),
    ("small_arena", "a slot named", |_, call, o| given(call, o, |length, o| o.reply.broken = length as u32)),
    ("small_arena", "a side given", |_, call, o| given(call, o, |_, o| o.reply.side = 1)),
    ("small_arena", "14 for columns of its own length", |a, call, o| given(call, o, |length, o| {
        if a.capacity() == length {
            refuse(a, call, o, 14);
        }
    })),
    ("small_arena", "room for three slots asked for", |a, call, o| given(call, o, |_, o| if a.capacity() < 3 { refuse(a, call, o, 14) })),
    ("small_arena", "1 for columns that are too short", |_, call, o| too_short(call, o, |o, _| o.reply.number = 1)),
    ("small_arena", "columns that are too short taken for the end", |_, call, o| too_short(call, o, |o, _| o.reply.number = 0)),
    ("small_arena", "found 1 with 14", |_, call, o| too_short(call, o, |o, _| o.reply.words[0] = 1)),
    ("small_arena", "a length with 14", |_, call, o| too_short(call, o, |o, small| o.reply.words[1] = small.header[STACK])),
    ("small_arena", "the header written with 14", |_, call, o| too_short(call, o, |o, small| o.arena.header = small.header.clone())),
    ("small_arena", "what fits written with 14", |_, call, o| too_short(call, o, |o, small| {
        let fits = o.arena.capacity();
        o.arena.next.copy_from_slice(&small.next[..fits]);
    })),
    ("small_arena", "14 before 1", |_, call, o| misshapen(call, o, |o, small| if shortest(&o.arena) < small.stack() { o.reply.number = 14 })),
    ("small_arena", "found 1 with 1", |_, call, o| misshapen(call, o, |o, _| o.reply.words[0] = 1)),
    ("small_arena", "the header written with 1", |_, call, o| misshapen(call, o, |o, small| {
        let words = o.arena.header.len().min(4);
        o.arena.header[..words].copy_from_slice(&small.header[..words]);
    })),
    ("small_arena", "prev written with 1", |_, call, o| misshapen(call, o, |o, small| {
        let words = o.arena.prev.len().min(small.stack());
        o.arena.prev[..words].copy_from_slice(&small.prev[..words]);
    })),
    ("small_arena", "the end before 1", |_, call, o| if let (Call::SmallArena(90..), 1) = (call, o.reply.number) { o.reply.number = 0 }),
    ("small_arena", "a header of three words taken", |a, call, o| by_lengths(a, call, o, |lengths| if lengths[4] == 3 { lengths[4] = 4 })),
    ("small_arena", "a header of five words taken", |a, call, o| by_lengths(a, call, o, |lengths| if lengths[4] == 5 { lengths[4] = 4 })),
    ("small_arena", "any header from four words on taken", |a, call, o| by_lengths(a, call, o, |lengths| lengths[4] = lengths[4].min(4))),
    ("small_arena", "the length of next not looked at", |a, call, o| by_lengths(a, call, o, |lengths| lengths[1] = lengths[0])),
    ("small_arena", "the length of the generations not looked at", |a, call, o| by_lengths(a, call, o, |lengths| lengths[2] = lengths[0])),
    ("small_arena", "the length of the payloads not looked at", |a, call, o| by_lengths(a, call, o, |lengths| lengths[3] = lengths[0])),
    ("small_arena", "longer columns cut to the shortest", |a, call, o| by_lengths(a, call, o, |lengths| {
        let shortest = lengths[..4].iter().copied().min().unwrap_or(0);
        lengths[..4].fill(shortest);
    })),
];

/// The lower 16 bits of a word.
fn cut(word: u32) -> u32 {
    word % CUT
}

/// The pointer with its slot cut to 16 bits.
fn cut_ptr(p: Ptr) -> Ptr {
    Ptr { slot: cut(p.slot), ..p }
}

/// The command with its slots cut to 16 bits.
fn cut_command(command: &[u32]) -> Vec<u32> {
    let mut command = command.to_vec();
    (command[1], command[3]) = (cut(command[1]), cut(command[3]));
    command
}

/// Answers as if other words stood in an arena that is refused.
fn read_as(a: &Arena, call: &Call, o: &mut Outcome, change: impl Fn(&mut Arena)) {
    if (3..=11).contains(&o.reply.number) {
        let mut other = a.clone();
        change(&mut other);
        o.reply = model_outcome(&other, call).reply;
    }
}

/// The arena of another index.
fn another_index(a: &Arena, call: &Call, o: &mut Outcome, other: impl Fn(u32) -> u32) {
    if let Call::SmallArena(index) = call {
        instead(a, o, Call::SmallArena(other(*index)));
    }
}

/// Changes the outcome of a small arena that is written: its stack length, the outcome.
fn given(call: &Call, o: &mut Outcome, change: impl Fn(usize, &mut Outcome)) {
    if let (Call::SmallArena(_), 0, [1, length, ..]) = (call, o.reply.number, o.reply.words) {
        change(length as usize, o);
    }
}

/// Changes the outcome of an index past the last small arena.
fn not_found(call: &Call, o: &mut Outcome, change: impl Fn(&mut Outcome)) {
    if let (Call::SmallArena(_), 0, [0, ..]) = (call, o.reply.number, o.reply.words) {
        change(o);
    }
}

/// Changes the outcome where the columns are too short for the small arena.
fn too_short(call: &Call, o: &mut Outcome, change: impl Fn(&mut Outcome, &Arena)) {
    if let (Call::SmallArena(index), 14) = (call, o.reply.number) {
        change(o, &model::small_arenas()[*index as usize]);
    }
}

/// Changes the outcome where the lengths are not those of an arena, but there is a small one of the index.
fn misshapen(call: &Call, o: &mut Outcome, change: impl Fn(&mut Outcome, &Arena)) {
    if let (Call::SmallArena(index @ 0..90), 1) = (call, o.reply.number) {
        change(o, &model::small_arenas()[*index as usize]);
    }
}

/// The length of the shortest column.
fn shortest(a: &Arena) -> usize {
    a.prev.len().min(a.next.len()).min(a.generation.len()).min(a.payload.len())
}

/// Answers as if columns and header had other lengths.
fn by_lengths(a: &Arena, call: &Call, o: &mut Outcome, change: impl Fn(&mut [usize; 5])) {
    if let (Call::SmallArena(_), 1) = (call, o.reply.number) {
        let mut lengths = [a.prev.len(), a.next.len(), a.generation.len(), a.payload.len(), a.header.len()];
        change(&mut lengths);
        o.reply = model_outcome(&random::noisy(&mut Random::new(1), lengths), call).reply;
    }
}

/// Answers another line for a dot of the frame.
fn line_as(o: &mut Outcome, line: impl Fn(u32) -> u32) {
    if let (Call::LineOfDot(dot), 0) = (&o.call, o.reply.number) {
        o.reply.words[0] = line(*dot);
    }
}

/// Answers other dots for a line of the frame.
fn ends_as(o: &mut Outcome, ends: impl Fn(u32) -> [u32; 2]) {
    if let (Call::LineDots(line), 0) = (&o.call, o.reply.number) {
        o.reply.words[..2].copy_from_slice(&ends(*line));
    }
}

/// Whether two ends make a window of the frame.
fn in_the_frame(from: u32, to: u32) -> bool {
    from < frame::DOTS && to <= frame::DOTS
}

/// How many links of a walked chain come before the walk turns.
fn along_next(a: &Arena, chain: &[usize]) -> usize {
    chain.iter().position(|&s| a.next[s - 1] == 0).map_or(chain.len(), |end| end + 1)
}

/// Counts something else: of the chain in the walk's order, and of what tells whether a slot's payload is due.
fn counted(
    a: &Arena,
    call: &Call,
    o: &mut Outcome,
    count: impl Fn(&[usize], &dyn Fn(usize) -> bool) -> usize,
) {
    if let (Call::DueCount(p, from, to), 0) = (call, o.reply.number) {
        let due = |s: usize| model::is_due(a.payload[s - 1], *from, *to);
        o.reply.words[0] = count(&model::chain_of(a, p.slot as usize), &due) as u32;
    }
}

/// Reports other events, or in another order: the chain in the walk's order, the events.
fn reported(a: &Arena, call: &Call, o: &mut Outcome, change: impl Fn(&[usize], &mut Vec<usize>)) {
    if let (Call::DueEvents(p, .., old), Call::DueEvents(.., report), 0) = (call, &mut o.call, o.reply.number)
    {
        let mut events = report[..o.reply.words[0] as usize].iter().map(|&slot| slot as usize).collect();
        change(&model::chain_of(a, p.slot as usize), &mut events);
        report.copy_from_slice(old);
        for (word, &s) in report.iter_mut().zip(&events) {
            *word = s as u32;
        }
        o.reply.words[0] = events.len() as u32;
    }
}

/// Changes the report of events: the report, the number of events.
fn rewritten(call: &Call, o: &mut Outcome, change: impl Fn(&mut [u32], usize)) {
    if let (Call::DueEvents(..), Call::DueEvents(.., report), 0) = (call, &mut o.call, o.reply.number) {
        change(report, o.reply.words[0] as usize);
    }
}

/// Runs commands of five words, without a payload.
fn five_words(a: &Arena, words: &[u32], answers: &[u32], o: &mut Outcome) {
    *o = Outcome {
        reply: Reply::number(0),
        call: Call::Run(words.to_vec(), answers.to_vec()),
        arena: a.clone(),
    };
    if !words.len().is_multiple_of(5) {
        o.reply.number = 16;
    } else if answers.len() < words.len() / 5 {
        o.reply.number = 14;
    } else if let Call::Run(_, answers) = &mut o.call {
        for (command, answer) in words.chunks_exact(5).zip(answers) {
            *answer = model::apply(&mut o.arena, &[command, &[0]].concat());
        }
    }
}

/// Inserts in the way of another kind.
fn another_kind(a: &Arena, call: &Call, o: &mut Outcome, other: impl Fn(u32) -> u32) {
    if let Call::Insert(kind, p, q, payload) = call {
        instead(a, o, Call::Insert(other(*kind), *p, *q, *payload));
    }
}

/// Changes the outcome of an insertion that is done: kind, pointers, outcome.
fn inserted(call: &Call, o: &mut Outcome, change: impl Fn(u32, Ptr, Ptr, &mut Outcome)) {
    if let (Call::Insert(kind, p, q, _), 0) = (call, o.reply.number) {
        change(*kind, *p, *q, o);
    }
}

/// Puts the new link into the slot behind the stack and leaves the freelist as it was.
fn behind_the_stack(a: &Arena, o: &mut Outcome) {
    let (taken, new) = (o.reply.words[0] as usize, a.stack() + 1);
    let b = &mut o.arena;
    for word in b.prev.iter_mut().chain(&mut b.next).filter(|word| **word as usize == taken) {
        *word = new as u32;
    }
    b.prev[new - 1] = b.prev[taken - 1];
    b.next[new - 1] = b.next[taken - 1];
    (b.generation[new - 1], b.payload[new - 1]) = (b.generation[taken - 1], b.payload[taken - 1]);
    (b.prev[taken - 1], b.next[taken - 1]) = (a.prev[taken - 1], a.next[taken - 1]);
    (b.generation[taken - 1], b.payload[taken - 1]) = (a.generation[taken - 1], a.payload[taken - 1]);
    (b.header[STACK], b.header[ROOT]) = (new as u32, a.root());
    o.reply.words[0] = new as u32;
}

/// Names another place with 11: `choose` has all places at which rule 11 fails, rising by slot and then by side.
fn named(a: &Arena, o: &mut Outcome, choose: impl Fn(&[(u32, u32)]) -> (u32, u32)) {
    if o.reply.number == 11 {
        let mut places: Vec<(u32, u32)> = model::broken_places(a).collect();
        places.sort_unstable();
        (o.reply.broken, o.reply.side) = choose(&places);
    }
}

/// The place of a slot with the side that is looked at first.
fn first_side(places: &[(u32, u32)], slot: u32) -> (u32, u32) {
    *places.iter().find(|place| place.0 == slot).expect("a broken slot")
}

/// Names the place that was found, or lets the arena pass.
fn found(o: &mut Outcome, place: Option<(u32, u32)>) {
    (o.reply.broken, o.reply.side) = place.unwrap_or((0, 0));
    if place.is_none() {
        o.reply.number = 0;
    }
}

/// Looks for a broken link on one side alone.
fn only_one_side(a: &Arena, o: &mut Outcome, side: u32) {
    if o.reply.number == 11 {
        found(o, model::broken_places(a).filter(|place| place.1 == side).min());
    }
}

/// Takes other slots for links that can be named.
fn by_other_links(a: &Arena, o: &mut Outcome, is_link: impl Fn(usize) -> bool) {
    if o.reply.number == 11 {
        let fails = |&(slot, side): &(u32, u32)| {
            let x = slot as usize;
            let (named, back) = if side == PREV { (&a.prev, &a.next) } else { (&a.next, &a.prev) };
            let neighbour = named[x - 1] as usize;
            neighbour != 0 && !(is_link(neighbour) && back[neighbour - 1] as usize == x)
        };
        found(o, a.link_slots().flat_map(|s| [(s as u32, PREV), (s as u32, NEXT)]).find(fails));
    }
}

/// Changes the outcome of a step along next that answers a link.
fn at_end(a: &Arena, o: &mut Outcome, change: impl Fn(&Arena, Walk, &mut Outcome)) {
    if let Call::WalkStep(walk) = o.call
        && o.reply.words[0] != 0
        && walk.direction == 0
    {
        change(a, walk, o);
    }
}

/// Makes of an outcome a refusal.
fn refuse(a: &Arena, call: &Call, o: &mut Outcome, number: u32) {
    if !(1..=11).contains(&o.reply.number) {
        *o = Outcome { reply: Reply::number(number), call: call.clone(), arena: a.clone() };
    }
}

/// Does what another call does.
fn instead(a: &Arena, o: &mut Outcome, call: Call) {
    let other = model_outcome(a, &call);
    (o.reply, o.arena) = (other.reply, other.arena);
}

/// Changes the outcome of a removal that is done.
fn removed(call: &Call, o: &mut Outcome, change: impl Fn(&Ptr, &mut Outcome)) {
    if let (Call::Remove(p), 0 | 100) = (call, o.reply.number) {
        change(p, o);
    }
}

/// Says 0 for 100.
fn hide_overflow(o: &mut Outcome) {
    if o.reply.number == 100 {
        o.reply.number = 0;
    }
}

/// Applies the commands of a run in another way: arena, number of the command from 0, command.
fn run_as(a: &Arena, call: &Call, o: &mut Outcome, mut apply: impl FnMut(&mut Arena, usize, &[u32]) -> u32) {
    if let (Call::Run(commands, _), Call::Run(_, answers), 0) = (call, &mut o.call, o.reply.number) {
        o.arena = a.clone();
        for (k, command) in commands.chunks_exact(COMMAND_WORDS).enumerate() {
            answers[k] = apply(&mut o.arena, k, command);
        }
    }
}

/// Whether the outcome is one of a canonical compression that is done.
fn compressed(o: &Outcome) -> bool {
    matches!(o.call, Call::CompressCanonical(..)) && matches!(o.reply.number, 0 | 100)
}

/// Changes the where-from column of a compression: the column, the old column, the link count, the old stack length.
fn where_from(a: &Arena, call: &Call, o: &mut Outcome, change: impl Fn(&mut [u32], &[u32], usize, usize)) {
    if compressed(o)
        && let (Call::CompressCanonical(_, places), Call::CompressCanonical(_, old)) = (&mut o.call, call)
    {
        change(places, old, a.links(), a.stack());
    }
}

/// Lays the links out in another order of the old slots.
fn laid_out(a: &Arena, o: &mut Outcome, order: impl Fn(&Arena) -> Vec<usize>) {
    if !compressed(o) {
        return;
    }
    let order = order(a);
    let renamed =
        |old: u32| order.iter().position(|&s| s == old as usize).map_or(0, |place| place as u32 + 1);
    for (place, &s) in order.iter().enumerate() {
        o.arena.prev[place] = renamed(a.prev[s - 1]);
        o.arena.next[place] = renamed(a.next[s - 1]);
        o.arena.payload[place] = a.payload[s - 1];
        if let Call::CompressCanonical(_, places) = &mut o.call {
            places[place] = s as u32;
        }
    }
}

/// The old slots chain by chain, the chains by their lowest slot, a closed one from that slot on.
fn by_lowest(a: &Arena) -> Vec<usize> {
    let mut order: Vec<usize> = Vec::new();
    for s in a.link_slots() {
        if !order.contains(&s) {
            let mut first = s;
            while a.prev[first - 1] != 0 && a.prev[first - 1] as usize != s {
                first = a.prev[first - 1] as usize;
            }
            let start = if a.prev[first - 1] == 0 { first } else { s };
            order.extend(model::chain_of(a, start));
        }
    }
    order
}

/// The failure of the first of so many jobs of the sections of these names that finds a program out.
fn failure(sections: &[&str], most: usize, threads: usize, product: Product) -> Option<Failure> {
    let run = Run { product, seed: 1, threads, most };
    sections.iter().find_map(|name| {
        let section = SECTIONS.iter().find(|section| section.name == *name).expect("a section");
        run.run(&(section.jobs)(Form::Short), |_| {}).1
    })
}

/// A wrong program as a side of the comparison.
fn side(program: Wrong) -> impl Fn(&Arena, &Call) -> Option<Answer> {
    move |a, call| {
        let mut outcome = model_outcome(a, call);
        program(a, call, &mut outcome);
        Some(Ok(outcome))
    }
}

/// The case on which so many jobs of the sections of these names find a program out, made small.
fn found_out(sections: &[&str], most: usize, program: Wrong) -> Option<Box<Mismatch>> {
    let product = side(program);
    Some(shrink::smallest(failure(sections, most, 1, &product)?, &product))
}

/// The sections that go through every small case of a call; a step, or a kind of an insertion, that is wrong about the check
/// is found on damaged arenas alone.
fn sections_of(call: &str) -> &'static [&'static str] {
    match call {
        "check" => &["tuples", "small_broken", "raised_words"],
        "get_link" | "get_link_no_gen" | "are_neighbors" | "walk_start" => &["reading"],
        "walk_step" => &["steps", "damage"],
        "run" => &["insertion_pairs", "edits"],
        "insert" => &["damage", "insertions"],
        "compress_with" | "compress_canonical" => &["compressions"],
        "line_of_dot" | "line_dots" => &["lines"],
        "due_count" | "due_events" => &["due", "windows", "small_broken"],
        "small_arena" => &["small_calls"],
        _ => &["edits"],
    }
}

#[test]
fn a_wrong_program_is_found_out() {
    for (call, what, program) in WRONG {
        assert!(found_out(sections_of(call), 2_500, *program).is_some(), "{call}: {what}: passes for right");
    }
    let calls: BTreeSet<&str> = WRONG.iter().map(|(call, _, _)| *call).collect();
    assert_eq!(calls.len(), CALLS_IN_ALL, "there is a wrong program for each call");
    for call in calls {
        let right = found_out(sections_of(call), 100, |_, _, _| {});
        assert!(right.is_none(), "a right program is taken for wrong: {right:?}");
    }
}

/// Every call on an arena is asked of the arenas that the exported call gives: one that answers another number is found, whichever
/// it is.
#[test]
fn a_call_that_is_wrong_about_given_arenas_is_found_out() {
    for code in calls_on_arenas() {
        let product = |a: &Arena, call: &Call| {
            let mut outcome = model_outcome(a, call);
            outcome.reply.number ^= u32::from(call.code() == code && a.stack() == 1);
            Some(Ok(outcome))
        };
        let found = failure(&["small_arenas"], usize::MAX, 2, &product);
        assert_eq!(found.expect("a wrong program").mismatch.call.code(), code);
    }
}

/// Wrong programs that only small cases are sure to find: words that random ones hardly ever have.
#[rustfmt::skip]
#[allow(clippy::collapsible_if)] // as above
const WRONG_OF_FEW_WORDS: &[(&str, &str, Wrong)] = &[
    ("insert", "a payload of 0 not written", |a, call, o| inserted(call, o, |_, _, _, o| {
        let place = o.reply.words[0] as usize - 1;
        if o.arena.payload[place] == 0 {
            o.arena.payload[place] = a.payload[place];
        }
    })),
    ("insert", "generations compared by their lower halves", |a, call, o| if let (Call::Insert(kind, p, q, payload), 17) = (call, o.reply.number) {
        let near = |p: Ptr| match a.is_link(p.slot as usize).then(|| a.ptr(p.slot as usize)) {
            Some(there) if (there.generation ^ p.generation) & 0xffff == 0 => there,
            _ => p,
        };
        instead(a, o, Call::Insert(*kind, near(*p), near(*q), *payload));
    }),
    ("insert", "the largest slot taken for the first", |a, call, o| if let (Call::Insert(kind, p, q, payload), 17) = (call, o.reply.number) {
        if p.slot == u32::MAX && a.is_link(1) {
            instead(a, o, Call::Insert(*kind, a.ptr(1), *q, *payload));
        }
    }),
    ("insert", "a slot of a command cut to 17 bits", |a, call, o| run_as(a, call, o, |a, _, command| cut_to(a, command, 17))),
    ("insert", "a slot of a command cut to 20 bits", |a, call, o| run_as(a, call, o, |a, _, command| cut_to(a, command, 20))),
    ("insert", "a slot of a command cut to 21 bits", |a, call, o| run_as(a, call, o, |a, _, command| cut_to(a, command, 21))),
    ("insert", "slots cut to 20 bits", |a, call, o| if let Call::Insert(kind, p, q, payload) = call {
        let [p, q] = [p, q].map(|p| Ptr { slot: p.slot % (1 << 20), ..*p });
        instead(a, o, Call::Insert(*kind, p, q, *payload));
    }),
    ("insert", "a payload of 0 not written in a run", |a, call, o| run_as(a, call, o, |a, _, command| {
        let place = model::slot_to_take(a) - 1;
        let old = a.payload.get(place).copied().unwrap_or(0);
        let answer = model::apply(a, command);
        if kind::ALL.contains(&command[0]) && answer == 0 && command[5] == 0 {
            a.payload[place] = old;
        }
        answer
    })),
];

/// Applies a command with its slots cut to so many bits.
fn cut_to(a: &mut Arena, command: &[u32], bits: u32) -> u32 {
    let mut command = command.to_vec();
    (command[1], command[3]) = (command[1] % (1 << bits), command[3] % (1 << bits));
    model::apply(a, &command)
}

#[test]
fn a_program_wrong_about_few_words_is_found_out() {
    for (call, what, program) in WRONG_OF_FEW_WORDS {
        assert!(found_out(sections_of(call), 2_500, *program).is_some(), "{call}: {what}: passes for right");
    }
}

/// The sections of random cases that find a program out that is wrong about a call.
fn random_sections_of(call: &str) -> &'static [&'static str] {
    match call {
        "check" => &["damage", "random_broken"],
        "due_count" | "due_events" => &["random_due", "damage"],
        "small_arena" => &["damage", "small_calls"],
        _ => &["sequences", "damage"],
    }
}

#[test]
fn what_random_cases_find_is_shown_on_a_small_one() {
    for (call, what, program) in WRONG {
        let shown = found_out(random_sections_of(call), 2_000, *program);
        let shown = shown.unwrap_or_else(|| panic!("{call}: {what}: passes for right"));
        let small = shown.before.capacity() <= 4 && shown.call.arguments().len() <= 2 * COMMAND_WORDS;
        assert!(small, "{call}: {what}: {shown}");
    }
}

/// Ways to hand on what the check says of a broken arena.
#[rustfmt::skip]
const HANDED_ON: &[(&str, Wrong)] = &[
    ("no slot and no side", |a, _, o| named(a, o, |_| (0, 0))),
    ("no slot", |a, _, o| named(a, o, |places| (0, places[0].1))),
    ("no side", |a, _, o| named(a, o, |places| (places[0].0, 0))),
    ("the highest slot", |a, _, o| named(a, o, |places| first_side(places, places[places.len() - 1].0))),
    ("another side", |a, _, o| named(a, o, |places| (places[0].0, PREV + NEXT - places[0].1))),
    ("side 1 always", |a, _, o| named(a, o, |places| (places[0].0, PREV))),
    ("side 2 always", |a, _, o| named(a, o, |places| (places[0].0, NEXT))),
    ("slot and side exchanged", |_, _, o| std::mem::swap(&mut o.reply.broken, &mut o.reply.side)),
    ("the slot twice", |_, _, o| o.reply.side = o.reply.broken),
    ("number and slot exchanged", |_, _, o| if o.reply.number == 11 {
        std::mem::swap(&mut o.reply.number, &mut o.reply.broken);
    }),
];

#[test]
fn one_call_that_hands_on_another_place_is_found_out() {
    for code in calls_on_arenas() {
        for (what, program) in HANDED_ON {
            // The call alone is wrong, or all others are.
            for alone in [true, false] {
                let product = |a: &Arena, call: &Call| {
                    let mut outcome = model_outcome(a, call);
                    if (call.code() == code) == alone {
                        program(a, call, &mut outcome);
                    }
                    Some(Ok(outcome))
                };
                for section in ["small_broken", "random_broken"] {
                    let found = failure(&[section], 400, 1, &product);
                    let found = found.unwrap_or_else(|| panic!("call {code} alone {alone}: {what}: passes"));
                    assert_eq!((found.mismatch.call.code() == code), alone, "call {code}: {what}");
                }
            }
        }
    }
}

/// A test of a payload: payload, start and end of the window.
type Test = fn(u32, u32, u32) -> bool;

/// Wrong tests of a payload.
#[rustfmt::skip]
const WRONG_WINDOWS: &[(&str, Test)] = &[
    ("the end in the window", |v, from, to| model::is_due(v, from, to) || v == to && v < frame::DOTS),
    ("the end in a window in order", |v, from, to| model::is_due(v, from, to) || from < to && v == to),
    ("the end in a window over the frame's end", |v, from, to| model::is_due(v, from, to) || to < from && v == to),
    ("the start not in the window", |v, from, to| model::is_due(v, from, to) && v != from),
    ("the whole frame between equal ends", |v, from, to| if from == to { v < frame::DOTS } else { model::is_due(v, from, to) }),
    ("one dot between equal ends", |v, from, to| if from == to { v == from } else { model::is_due(v, from, to) }),
    ("payloads past the frame in a window over its end", |v, from, to| {
        if to < from { v >= from || v < to } else { model::is_due(v, from, to) }
    }),
    ("89,342 in a window over the frame's end", |v, from, to| model::is_due(v, from, to) || to < from && v == frame::DOTS),
    ("89,342 in a window up to the frame's end", |v, from, to| {
        model::is_due(v, from, to) || to == frame::DOTS && v == frame::DOTS
    }),
    ("the largest payload always", |v, from, to| model::is_due(v, from, to) || v == u32::MAX),
    ("dot 0 never", |v, from, to| model::is_due(v, from, to) && v != 0),
    ("the last dot never", |v, from, to| model::is_due(v, from, to) && v != frame::DOTS - 1),
    ("nothing in a window over the frame's end", |v, from, to| from <= v && v < to),
    ("only what comes before the frame's end", |v, from, to| {
        if to < from { v >= from && v < frame::DOTS } else { model::is_due(v, from, to) }
    }),
    ("only what comes behind the frame's end", |v, from, to| if to < from { v < to } else { model::is_due(v, from, to) }),
    ("ends put in order", |v, from, to| model::is_due(v, from.min(to), from.max(to))),
    ("the dots outside the window", |v, from, to| v < frame::DOTS && !model::is_due(v, from, to)),
    ("payloads round the frame", |v, from, to| model::is_due(v % frame::DOTS, from, to)),
    ("payloads cut to 16 bits", |v, from, to| model::is_due(v & 0xffff, from, to)),
    ("payloads cut to 17 bits", |v, from, to| model::is_due(v & 0x1_ffff, from, to)),
    ("ends cut to 16 bits", |v, from, to| model::is_due(v, from & 0xffff, to & 0xffff)),
    ("lines for dots", |v, from, to| {
        let line = |dot: u32| dot / frame::LINE_DOTS;
        v < frame::DOTS && model::is_due(line(v), line(from), line(to))
    }),
    ("a frame of 340 dots a line", |v, from, to| model::is_due(v, from, to) && (from <= to || v < 340 * frame::LINES)),
];

#[test]
fn a_wrong_window_is_found_out_in_either_call() {
    for (what, is_due) in WRONG_WINDOWS {
        for in_count in [true, false] {
            let product = |a: &Arena, call: &Call| {
                let mut outcome = model_outcome(a, call);
                if in_count {
                    if let Call::DueCount(_, from, to) = *call {
                        let due = |s: usize| is_due(a.payload[s - 1], from, to);
                        counted(a, call, &mut outcome, |chain, _| chain.iter().filter(|&&s| due(s)).count());
                    }
                } else if let Call::DueEvents(_, from, to, _) = *call {
                    let due = |s: usize| is_due(a.payload[s - 1], from, to);
                    let events = |chain: &[usize]| chain.iter().copied().filter(|&s| due(s)).collect();
                    reported(a, call, &mut outcome, |chain, found| *found = events(chain));
                }
                Some(Ok(outcome))
            };
            for section in ["windows", "random_due"] {
                let found = failure(&[section], 4_000, 1, &product);
                let found = found.unwrap_or_else(|| panic!("{what}: passes for right in {section}"));
                let shown = shrink::smallest(found, &product);
                assert_eq!(matches!(shown.call, Call::DueCount(..)), in_count, "{what}");
                assert!(shown.before.capacity() <= 2, "{what}: {shown}");
            }
        }
    }
}

/// A change of one word that a call leaves.
type Change = fn(&mut Outcome);

#[test]
fn a_compression_that_looks_at_payloads_is_found_out() {
    let before = {
        let mut a = Arena::empty(4);
        a.generation[1..].fill(5);
        a.payload.copy_from_slice(&[9, 100, 89_341, 89_342]);
        (a.prev, a.next) = (vec![0, 0, 4, 0], vec![1, 0, 0, 3]);
        a.header = vec![4, 3, 1, 5];
        a
    };
    let other = payloads::with_other_payloads(&before);
    assert!(before.payload.iter().zip(&other.payload).all(|(one, other)| one != other));
    assert_eq!(Arena { payload: before.payload.clone(), ..other.clone() }, before);
    let calls = [
        Call::CompressWith(0, vec![0; 13]),
        Call::CompressCanonical(0, vec![0; 4]),
        Call::CompressWith(0, vec![]),
    ];
    for call in calls {
        let [first, second] = [&before, &other].map(|a| model_outcome(a, &call));
        let held = |second: &Outcome| payloads::broken((&before, &first), (&other, second));
        assert_eq!(held(&second), None);
        let changes: [(&str, Change); 5] = [
            ("both answer the same", |o| o.reply.number ^= 100),
            ("both leave the same words but for payloads", |o| o.arena.next[0] ^= 1),
            ("both leave the same words but for payloads", |o| o.arena.header[GENERATION] += 1),
            ("each payload goes with its link", |o| o.arena.payload.swap(0, 1)),
            ("each payload goes with its link", |o| o.arena.payload[3] ^= 1),
        ];
        for (point, change) in changes {
            let mut wrong = second.clone();
            change(&mut wrong);
            assert_eq!(held(&wrong), Some(point), "{call:?}");
        }
        let mut wrong = second.clone();
        match &mut wrong.call {
            Call::CompressWith(_, report) if !report.is_empty() => report[2] ^= 1,
            Call::CompressCanonical(_, from) => from.swap(0, 1),
            _ => continue,
        }
        assert_eq!(held(&wrong), Some("both report the same"), "{call:?}");
    }
    // Links with a dot of the frame first: such a program is wrong about one of the two arenas at least.
    let by_dots: Wrong = |a, _, o| {
        laid_out(a, o, |a| {
            let mut slots: Vec<usize> = a.link_slots().collect();
            slots.sort_by_key(|&s| a.payload[s - 1] >= frame::DOTS);
            slots
        });
    };
    assert!(found_out(&["payloads"], 2_500, by_dots).is_some());
}

/// A change of the list of the small arenas.
type Listed = fn(&mut Vec<Arena>);

/// Wrong lists of the small arenas.
#[rustfmt::skip]
const WRONG_LISTS: &[(&str, Listed)] = &[
    ("two exchanged", |list| list.swap(40, 41)),
    ("the first two exchanged", |list| list.swap(0, 1)),
    ("the last two exchanged", |list| list.swap(88, 89)),
    ("one left out, and the later ones moved up", |list| _ = list.remove(17)),
    ("the first left out", |list| _ = list.remove(0)),
    ("the last left out", |list| _ = list.pop()),
    ("one twice, and the later ones moved down", |list| list.insert(60, list[60].clone())),
    ("one twice, in the place of the next", |list| list[61] = list[60].clone()),
    ("one twice, in the place of the last", |list| list[89] = list[20].clone()),
    ("a 91st that repeats the last", |list| list.push(list[89].clone())),
    ("a 91st that repeats the first", |list| list.push(list[0].clone())),
    ("a 91st of four slots", |list| list.push(cases::enumerated(4).swap_remove(0))),
    ("a 91st with another payload", |list| {
        list.push(list[89].clone());
        list[90].payload[2] = 4;
    }),
    ("another payload in one", |list| list[89].payload[2] = 2),
    ("payloads counted from 0", |list| each_link(list, |a, place| a.payload[place] -= 1)),
    ("no payloads", |list| each_link(list, |a, place| a.payload[place] = 0)),
    ("a free slot with a payload in one", |list| list[3].payload[0] = 1),
    ("free slots with payloads", |list| each_free(list, |a, place| a.payload[place] = place as u32 + 1)),
    ("free slots with a prev", |list| each_free(list, |a, place| a.prev[place] = place as u32 + 1)),
    ("free slots with the current generation", |list| each_free(list, |a, place| a.generation[place] = 2)),
    ("a freelist that ends with 0", |list| each_free(list, |a, place| if a.next[place] as usize == place + 1 { a.next[place] = 0 })),
    ("links of generation 3", |list| each_link(list, |a, place| a.generation[place] = 3)),
    ("a current generation of 3", |list| list.iter_mut().for_each(|a| a.header[GENERATION] = 3)),
    ("generation 3 throughout", |list| {
        each_link(list, |a, place| a.generation[place] = 3);
        list.iter_mut().for_each(|a| a.header[GENERATION] = 3);
    }),
    ("generation 5 and payloads of 100 more", |list| *list = (0..=3).flat_map(cases::small_arenas).collect()),
    ("the stack length for the link count", |list| list.iter_mut().for_each(|a| a.header[LINKS] = a.header[STACK])),
    ("a link count one too small in one", |list| list[89].header[LINKS] -= 1),
    ("no root in one", |list| list[89].header[ROOT] = 0),
    ("prev and next exchanged", |list| each_link(list, |a, place| std::mem::swap(&mut a.prev[place], &mut a.next[place]))),
    ("one chain closed that is open", |list| {
        let open = list.iter().position(|a| a.prev == [0, 1, 2]).expect("1 -> 2 -> 3");
        (list[open].prev[0], list[open].next[2]) = (3, 1);
    }),
    ("the slots before the root", |list| list.sort_by_key(|a| {
        let (length, root, slots) = cases::place(a);
        (length, slots, root)
    })),
    ("the link count before the root", |list| list.sort_by_key(|a| (a.stack(), a.links(), cases::place(a)))),
    ("the root before the stack length", |list| list.sort_by_key(|a| (a.root(), cases::place(a)))),
    ("the last slot first", |list| list.sort_by_key(|a| {
        let (length, root, mut slots) = cases::place(a);
        slots.reverse();
        (length, root, slots)
    })),
    ("next before the generation", |list| by_slots(list, |[generation, prev, next]| [next, generation, prev])),
    ("next before prev", |list| by_slots(list, |[generation, prev, next]| [generation, next, prev])),
    ("links before free slots", |list| by_slots(list, |[generation, prev, next]| [2 - generation, prev, next])),
    ("column by column", |list| list.sort_by_key(|a| {
        (a.stack(), a.root(), a.generation.clone(), a.prev.clone(), a.next.clone())
    })),
    ("falling roots", |list| list.sort_by_key(|a| (a.stack(), 3 - a.root(), cases::place(a)))),
    ("falling stack lengths", |list| list.sort_by_key(|a| (3 - a.stack(), cases::place(a)))),
    ("the order of the enumeration", |list| {
        *list = (0..=3).flat_map(cases::enumerated).collect();
        each_link(list, |a, place| (a.generation[place], a.payload[place]) = (2, place as u32 + 1));
        list.iter_mut().for_each(|a| a.header[GENERATION] = 2);
    }),
];

/// Changes every link of a list of arenas: the arena, the place in its columns.
fn each_link(list: &mut [Arena], change: impl Fn(&mut Arena, usize)) {
    for a in list {
        a.link_slots().collect::<Vec<usize>>().into_iter().for_each(|s| change(a, s - 1));
    }
}

/// Changes every free slot of a list of arenas: the arena, the place in its columns.
fn each_free(list: &mut [Arena], change: impl Fn(&mut Arena, usize)) {
    for a in list {
        (0..a.stack())
            .filter(|&place| !a.is_link(place + 1))
            .collect::<Vec<usize>>()
            .into_iter()
            .for_each(|place| change(a, place));
    }
}

/// Puts arenas in order by stack length and root, then slot by slot by other keys.
fn by_slots(list: &mut [Arena], key: impl Fn([u32; 3]) -> [u32; 3]) {
    list.sort_by_key(|a| {
        let (length, root, slots) = cases::place(a);
        (length, root, slots.into_iter().map(&key).collect::<Vec<[u32; 3]>>())
    });
}

/// A product that gives the small arenas of a list, and is right otherwise.
fn giving(list: Vec<Arena>) -> impl Fn(&Arena, &Call) -> Option<Answer> {
    move |a, call| {
        let mut outcome = model_outcome(a, call);
        if let Call::SmallArena(index) = call {
            outcome.arena = a.clone();
            outcome.reply = model::give(&mut outcome.arena, &list, *index);
        }
        Some(Ok(outcome))
    }
}

/// A wrong list is found where sections take their arenas, so that none goes on with fewer or other ones, and by the section of the
/// call, which shows one arena of it.
#[test]
fn a_wrong_list_of_small_arenas_is_found_out() {
    let right = model::small_arenas().to_vec();
    assert_eq!(cases::given_by(&giving(right.clone())).expect("the right list"), right);
    assert!(cases::are_enumerated(&right));
    assert!(failure(&["small_calls"], 1_300, 2, &giving(right.clone())).is_none());
    for (what, change) in WRONG_LISTS {
        let mut list = right.clone();
        change(&mut list);
        assert!(list != right, "{what}: it is the right list");
        assert!(!cases::are_enumerated(&list), "{what}: it is the enumeration");
        let product = giving(list);
        assert!(cases::given_by(&product).is_err(), "{what}: sections take it for right");
        let taken = catch_unwind(AssertUnwindSafe(|| cases::given_if_linked(&product)));
        assert_eq!(taken.is_err(), Archive::SmallArenas.is_linked(), "{what}: sections go on with it");
        let found = failure(&["small_calls"], usize::MAX, 1, &product);
        let found = found.unwrap_or_else(|| panic!("{what}: passes for right"));
        let shown = shrink::smallest(found, &product);
        assert!(
            matches!(shown.call, Call::SmallArena(0..=90)) && shown.before.capacity() <= 3,
            "{what}: {shown}"
        );
    }
}

/// Wrong programs that look at the words that were there before a small arena is written.
#[rustfmt::skip]
const WRONG_ABOUT_OLD_WORDS: &[(&str, Wrong)] = &[
    ("nothing written over a header of three slots and generation 2", |a, call, o| given(call, o, |_, o| {
        if a.header[STACK] == 3 && a.header[GENERATION] == 2 && a.generation.first() == Some(&2) {
            o.arena = a.clone();
        }
    })),
    ("nothing written over an arena that passes the check", |a, call, o| given(call, o, |_, o| if model::check(a) == 0 { o.arena = a.clone() })),
    ("a link too many where the arena is there already", |a, call, o| given(call, o, |_, o| if o.arena == *a { o.arena.header[LINKS] += 1 })),
    ("14 where the arena is there already, with room", |a, call, o| given(call, o, |length, o| {
        if o.arena == *a && a.capacity() > length {
            refuse(a, call, o, 14);
        }
    })),
    ("the arena behind the one that is there", |a, call, o| if let Call::SmallArena(index @ 1..89) = call {
        let there = model::small_arenas().iter().position(|small| cases::lent_on(a, small.stack()) == *small);
        if there == Some(*index as usize - 1) {
            instead(a, o, Call::SmallArena(index + 1));
        }
    }),
    ("an old current generation of 3 to 9 kept", |a, call, o| given(call, o, |_, o| {
        if (3..=9).contains(&a.header[GENERATION]) {
            o.arena.header[GENERATION] = a.header[GENERATION];
        }
    })),
    ("the payload kept of a slot that was free and becomes free", |a, call, o| free_again(a, call, o, |_| true)),
    ("the same on an arena that passes the check", |a, call, o| free_again(a, call, o, |_| model::check(a) == 0)),
    ("the same for the largest payload alone", |a, call, o| free_again(a, call, o, |payload| payload == u32::MAX)),
    ("prev 0 where it was 0 and the capacity is over 3", |a, call, o| given(call, o, |length, o| {
        for place in (0..length).filter(|&place| a.capacity() > 3 && a.prev[place] == 0) {
            o.arena.prev[place] = 0;
        }
    })),
    ("the largest payload kept in a slot that becomes free", |a, call, o| given(call, o, |length, o| {
        for place in (0..length).filter(|&place| a.payload[place] == u32::MAX) {
            if o.arena.generation[place] == 0 {
                o.arena.payload[place] = u32::MAX;
            }
        }
    })),
    ("another root for index 33 over generation 0", |a, call, o| given(call, o, |_, o| {
        if *call == Call::SmallArena(33) && a.header[GENERATION] == 0 {
            o.arena.header[ROOT] ^= 1;
        }
    })),
    ("the header kept where all its words are the largest", |a, call, o| given(call, o, |_, o| if a.header == [u32::MAX; 4] { o.arena.header = a.header.clone() })),
    ("found 1 past the last over an arena that passes the check", |a, call, o| not_found(call, o, |o| o.reply.words[0] = u32::from(model::check(a) == 0))),
    ("the check made first over a header of words below ten", |a, call, o| given(call, o, |_, o| {
        if model::check(a) != 0 && a.header.iter().all(|&word| word < 10) {
            refuse(a, call, o, model::check(a));
        }
    })),
];

/// Keeps payloads of slots that were free and become free.
fn free_again(a: &Arena, call: &Call, o: &mut Outcome, kept: impl Fn(u32) -> bool) {
    given(call, o, |length, o| {
        for place in (0..length.min(a.stack())).filter(|&place| kept(a.payload[place])) {
            if (a.generation[place], o.arena.generation[place]) == (0, 0) {
                o.arena.payload[place] = a.payload[place];
            }
        }
    });
}

#[test]
fn a_small_arena_that_goes_by_old_words_is_found_out() {
    for (what, program) in WRONG_ABOUT_OLD_WORDS {
        let shown = found_out(&["small_calls"], usize::MAX, *program);
        let shown = shown.unwrap_or_else(|| panic!("{what}: passes for right"));
        assert!(shown.before.capacity() <= 4, "{what}: {shown}");
    }
}

/// Wrong programs that need columns of some hundred words, of about 65,536 or of about 1,048,576.
#[rustfmt::skip]
const WRONG_ABOUT_LARGE_COLUMNS: &[(&str, Wrong)] = &[
    ("256 to 59,999 words refused", |a, call, o| if (256..60_000).contains(&a.capacity()) { refuse(a, call, o, 1) }),
    ("more than 4,095 words and fewer than 60,000 taken for the end", |a, call, o| if (4_096..60_000).contains(&a.capacity()) {
        of_capacity(a, call, o, a.capacity(), 0);
    }),
    ("more than 65,535 words refused", |a, call, o| if a.capacity() >= CUT as usize { refuse(a, call, o, 1) }),
    ("65,536 words taken for none", |a, call, o| of_capacity(a, call, o, CUT as usize, 14)),
    ("1,048,577 words taken", |a, call, o| of_capacity(a, call, o, LIMIT + 1, 0)),
    ("1,048,576 words refused", |a, call, o| of_capacity(a, call, o, LIMIT, 1)),
    ("1,048,575 words refused", |a, call, o| of_capacity(a, call, o, LIMIT - 1, 1)),
    ("14 before 1 for 1,048,577 words", |a, call, o| of_capacity(a, call, o, LIMIT + 1, 14)),
    ("lengths of 16 bits", |a, call, o| by_lengths(a, call, o, |lengths| lengths.iter_mut().for_each(|length| *length %= CUT as usize))),
    ("lengths of 20 bits", |a, call, o| by_lengths(a, call, o, |lengths| lengths.iter_mut().for_each(|length| *length %= LIMIT))),
];

/// Answers another number where columns of a length are lent, and 0 and 0 beside it.
fn of_capacity(a: &Arena, call: &Call, o: &mut Outcome, capacity: usize, number: u32) {
    if let Call::SmallArena(_) = call
        && shortest(a) == capacity
        && a.capacity() == capacity
        && a.header.len() == 4
    {
        *o = Outcome { reply: Reply::number(number), call: call.clone(), arena: a.clone() };
    }
}

#[test]
fn a_program_wrong_about_large_columns_is_found_out() {
    found_in("small_calls", usize::MAX, planted(WRONG_ABOUT_LARGE_COLUMNS));
}

/// A wrong program that is put together, with what is wrong about it.
type Planted = (String, Box<dyn Fn(&Arena, &Call, &mut Outcome) + Send>);

/// The programs of a list.
fn planted(programs: &[(&str, Wrong)]) -> Vec<Planted> {
    programs.iter().map(|&(what, program)| (what.to_string(), Box::new(program) as _)).collect()
}

/// Holds to it that so many jobs of a section find each of the programs out: the section has a case of which the program leaves
/// something else than the model. All programs are tried in one run, which ends when the last is found.
fn found_in(section: &str, most: usize, programs: Vec<Planted>) {
    let unfound = Mutex::new(programs);
    let product = |a: &Arena, call: &Call| {
        let (right, mut unfound) = (model_outcome(a, call), unfound.lock().unwrap());
        unfound.retain(|(_, program)| {
            let mut outcome = right.clone();
            program(a, call, &mut outcome);
            outcome == right
        });
        Some(if unfound.is_empty() { Err("all are found".to_string()) } else { Ok(right) })
    };
    let ended = failure(&[section], most, 2, &product);
    let unfound: Vec<String> = unfound.into_inner().unwrap().into_iter().map(|(what, _)| what).collect();
    assert!(unfound.is_empty(), "{section}: these pass for right: {unfound:?}");
    assert_eq!(ended.expect("an end").mismatch.other.err().as_deref(), Some("all are found"));
}

/// Something that is so of an arena.
type Condition = fn(&Arena) -> bool;

/// Wrong limits: numbers with which a call on an arena is refused that passes the check, if this is so.
#[rustfmt::skip]
const WRONG_LIMITS: &[(&str, u32, Condition)] = &[
    ("65,535 slots at most", 1, |a| a.capacity() >= CUT as usize),
    ("65,536 slots at most", 1, |a| a.capacity() > CUT as usize),
    ("1,048,575 slots at most", 1, |a| a.capacity() == LIMIT),
    ("a capacity of 16 bits", 3, |a| a.capacity() % (CUT as usize) < a.stack()),
    ("a capacity of 20 bits", 3, |a| a.capacity() % LIMIT < a.stack()),
    ("a stack length compared with 65,535", 3, |a| a.stack() >= CUT as usize),
    ("a link count compared with 65,535", 3, |a| a.links() >= CUT as usize),
];

/// Limits that are too large.
const NO_LIMITS: &[(&str, Wrong)] = &[
    ("1,048,577 slots at most", |a, _, o| {
        if o.reply.number == 1 && a.capacity() == LIMIT + 1 {
            o.reply.number = 3;
        }
    }),
    ("no limit", |a, _, o| {
        if o.reply.number == 1 && a.capacity() > LIMIT + 1 {
            o.reply.number = 0;
        }
    }),
];

#[test]
fn a_wrong_limit_is_found_out() {
    let refused = WRONG_LIMITS.iter().map(|&(what, number, holds)| -> Planted {
        let program = move |a: &Arena, call: &Call, o: &mut Outcome| {
            if call.takes_arena() && !(1..=11).contains(&o.reply.number) && holds(a) {
                refuse(a, call, o, number);
            }
        };
        (what.to_string(), Box::new(program))
    });
    found_in("shapes", usize::MAX, refused.chain(planted(NO_LIMITS)).collect());
}

#[test]
fn a_small_arena_is_shown_with_the_columns_that_were_lent() {
    let shown =
        found_out(&["small_calls"], 100, |_, call, o| given(call, o, |_, o| o.arena.header[GENERATION] = 3));
    let expected = "\
the export parts from the model
  small_arena(index 0)
     slot       prev       next  generation     payload
  header: stack length 0, link count 0, root 0, generation 0
  the model answers 0, found 1, length 0
  the export answers 0, found 1, length 0
  generation: model 2, export 3
";
    assert_eq!(shown.expect("a wrong program").to_string(), expected);
}

/// Wrong programs that need a broken slot over 255, over 32,767 or over 65,535.
const WRONG_ABOUT_FAR_SLOTS: &[(&str, Wrong)] = &[
    ("a slot of 8 bits", |_, _, o| o.reply.broken &= 0xff),
    ("a slot of 15 bits", |_, _, o| o.reply.broken &= 0x7fff),
    ("a slot of 16 bits", |_, _, o| o.reply.broken = cut(o.reply.broken)),
    ("another side from slot 32,768 on", |a, _, o| {
        named(a, o, |places| match places[0] {
            (slot @ 32_768.., side) => (slot, PREV + NEXT - side),
            place => place,
        });
    }),
    ("slots over 65,535 not looked at", |a, _, o| {
        if o.reply.number == 11 {
            found(o, model::broken_places(a).filter(|place| place.0 < CUT).min());
        }
    }),
];

/// Wrong programs that need links in slots over 65,535, or slots that are the same if they are cut to 16 bits.
#[rustfmt::skip]
#[allow(clippy::collapsible_if)] // as above
const WRONG_ABOUT_FAR_LINKS: &[(&str, Wrong)] = &[
    ("check: a freelist of more than 65,535 slots taken for endless", |a, call, o| if o.reply.number == 0 {
        if a.stack() - a.links() >= CUT as usize {
            refuse(a, call, o, 9);
        }
    }),
    ("check: a freelist that ends where it points at itself if it is cut", |a, call, o| if o.reply.number == 0 && a.root() != 0 {
        let (mut visits, mut slot) = (1, a.root());
        while cut(a.next[slot as usize - 1]) != cut(slot) {
            (visits, slot) = (visits + 1, a.next[slot as usize - 1]);
        }
        if visits < a.stack() - a.links() {
            refuse(a, call, o, 10);
        }
    }),
    ("check: links that name each other if they are cut", |a, _, o| if o.reply.number == 11 {
        let fails = |named: &[u32], back: &[u32], s: usize| {
            let neighbour = named[s - 1] as usize;
            neighbour != 0 && !(a.is_link(neighbour) && cut(back[neighbour - 1]) == cut(s as u32))
        };
        let broken = a.link_slots().any(|s| fails(&a.prev, &a.next, s) || fails(&a.next, &a.prev, s));
        o.reply.number = if broken { 11 } else { 0 };
    }),
    ("get_link: prev cut", |_, call, o| answer_cut(call, o, "get_link", 0)),
    ("get_link: next cut", |_, call, o| answer_cut(call, o, "get_link", 2)),
    ("get_link_no_gen: prev cut", |_, call, o| answer_cut(call, o, "get_link_no_gen", 0)),
    ("get_link_no_gen: next cut", |_, call, o| answer_cut(call, o, "get_link_no_gen", 1)),
    ("are_neighbors: a next that is the same if it is cut", |a, call, o| if let (Call::AreNeighbors(p, q), 0) = (call, o.reply.number) {
        if [p, q].iter().all(|p| a.is_link(p.slot as usize) && a.ptr(p.slot as usize) == **p) {
            o.reply.words[0] = u32::from(cut(a.next[p.slot as usize - 1]) == cut(q.slot));
        }
    }),
    ("walk_start: the start cut", |_, call, o| answer_cut(call, o, "walk_start", 0)),
    ("walk_start: the position cut", |_, call, o| answer_cut(call, o, "walk_start", 1)),
    ("walk_start: the advances cut", |_, call, o| answer_cut(call, o, "walk_start", 3)),
    ("walk_step: the link's slot cut", |_, call, o| answer_cut(call, o, "walk_step", 0)),
    ("walk_step: the start cut", |_, call, o| answer_cut(call, o, "walk_step", 2)),
    ("walk_step: the position cut", |_, call, o| answer_cut(call, o, "walk_step", 3)),
    ("walk_step: the advances cut", |_, call, o| answer_cut(call, o, "walk_step", 5)),
    ("walk_step: at the start if that is so when it is cut", |a, _, o| at_end(a, o, |a, walk, o| {
        let next = a.next[walk.position as usize - 1];
        if next != 0 && cut(next) == cut(walk.start) {
            o.reply.words[3] = 0;
        }
    })),
    ("walk_step: a state cut", |a, call, o| if let Call::WalkStep(walk) = call {
        instead(a, o, Call::WalkStep(Walk { start: cut(walk.start), position: cut(walk.position), ..*walk }));
    }),
    ("remove: prev cut", |_, call, o| answer_cut(call, o, "remove", 0)),
    ("remove: next cut", |_, call, o| answer_cut(call, o, "remove", 1)),
    ("remove: popped if it is the last slot when it is cut", |a, call, o| removed(call, o, |p, o| {
        if p.slot != a.header[STACK] && cut(p.slot) == cut(a.header[STACK]) {
            o.arena.header[STACK] -= 1;
        }
    })),
    ("drain: the slot of an item cut", |_, _, o| item_cut(o, 0)),
    ("drain: the prev of an item cut", |_, _, o| item_cut(o, 2)),
    ("drain: the next of an item cut", |_, _, o| item_cut(o, 3)),
    ("run: the slots of commands cut", |a, call, o| run_as(a, call, o, |a, _, command| model::apply(a, &cut_command(command)))),
    ("insert: the new slot cut", |_, call, o| answer_cut(call, o, "insert", 0)),
    ("insert: 18 from 65,535 slots on", |a, call, o| if let (Call::Insert(..), 0) = (call, o.reply.number) {
        if a.root() == 0 && a.header[STACK] >= CUT - 1 {
            refuse(a, call, o, 18);
        }
    }),
    ("insert: no free slot left if the next one is the same when it is cut", |a, call, o| inserted(call, o, |_, _, _, o| {
        if a.root() != 0 && cut(o.arena.root()) == cut(a.root()) {
            o.arena.header[ROOT] = 0;
        }
    })),
    ("insert: between links that are neighbours if they are cut", |a, call, o| if let (Call::Insert(kind, p, q, _), 17) = (call, o.reply.number) {
        if matches!(*kind, kind::AT_INTERLINK | kind::AT_INTERLINK_INX) && a.is_link(p.slot as usize) {
            o.reply.number = if cut(a.next[p.slot as usize - 1]) == cut(q.slot) { 0 } else { 17 };
        }
    }),
    ("compress_with: old slots cut", |_, _, o| moved_cut(o, 0)),
    ("compress_with: new slots cut", |_, _, o| moved_cut(o, 2)),
    ("compress_canonical: where-from words cut", |a, call, o| where_from(a, call, o, |places, _, n, _| {
        places[..n].iter_mut().for_each(|word| *word = cut(*word));
    })),
    ("compress_with: a link left where it is if its new slot is the same when it is cut", |_, call, o| if let Call::CompressWith(..) = call {
        changed_moves(o, |words| if cut(words[0]) == cut(words[2]) { words[0] = words[2] });
    }),
    ("compress_canonical: a link left where it is if its new slot is the same when it is cut", |a, call, o| where_from(a, call, o, |places, _, n, _| {
        for (word, slot) in places[..n].iter_mut().zip(1..).filter(|(word, slot)| cut(**word) == cut(*slot)) {
            *word = slot;
        }
    })),
    ("due_events: the report cut", |_, call, o| rewritten(call, o, |report, count| {
        report[..count].iter_mut().for_each(|slot| *slot = cut(*slot));
    })),
    ("due_count: links over slot 65,535 not counted", |a, call, o| counted(a, call, o, |chain, due| {
        chain.iter().filter(|&&s| s < CUT as usize && due(s)).count()
    })),
];

/// Cuts a word of the answer of a call that is done.
fn answer_cut(call: &Call, o: &mut Outcome, name: &str, place: usize) {
    if call.name() == name && matches!(o.reply.number, 0 | 100) {
        o.reply.words[place] = cut(o.reply.words[place]);
    }
}

/// Cuts a word of each item of a drain.
fn item_cut(o: &mut Outcome, place: usize) {
    let items = o.reply.words[0] as usize;
    if let (Call::Drain(_, report), 0) = (&mut o.call, o.reply.number) {
        report.chunks_exact_mut(5).take(items).for_each(|item| item[place] = cut(item[place]));
    }
}

/// Cuts a word of each link in the report of an order-preserving compression.
fn moved_cut(o: &mut Outcome, place: usize) {
    changed_moves(o, |words| words[place] = cut(words[place]));
}

/// Changes the words of each link in the report of an order-preserving compression.
fn changed_moves(o: &mut Outcome, change: impl Fn(&mut [u32])) {
    let links = o.arena.header.get(LINKS).map_or(0, |&links| links as usize);
    if let (Call::CompressWith(_, report), 0 | 100) = (&mut o.call, o.reply.number) {
        report.chunks_exact_mut(4).take(links).for_each(change);
    }
}

/// Some words of an arena.
type Words = fn(&mut Arena) -> &mut [u32];

/// The words in which a call can write a slot over 65,535, or as many slots.
#[rustfmt::skip]
const WRITTEN: &[(&str, Words)] = &[
    ("prev", |a| &mut a.prev),
    ("next", |a| &mut a.next),
    ("root", |a| &mut a.header[ROOT..=ROOT]),
    ("stack length", |a| &mut a.header[STACK..=STACK]),
    ("link count", |a| &mut a.header[LINKS..=LINKS]),
];

/// The calls that do so, each with the words.
const WRITING: [(&str, &[&str]); 9] = [
    ("connect", &["prev", "next"]),
    ("exchange_next", &["prev", "next"]),
    ("insert", &["prev", "next", "root", "stack length", "link count"]),
    ("remove", &["prev", "next", "root", "stack length", "link count"]),
    ("drain", &["next", "root"]),
    ("canonicalize_freelist", &["next", "root"]),
    ("run", &["prev", "next", "root", "stack length", "link count"]),
    ("compress_with", &["prev", "next", "stack length"]),
    ("compress_canonical", &["prev", "next", "stack length"]),
];

/// Each of these words cut by each of these calls alone.
fn cut_when_written() -> Vec<Planted> {
    let mut programs: Vec<Planted> = Vec::new();
    for (name, (what, words)) in WRITING.iter().flat_map(|(name, kinds)| {
        kinds
            .iter()
            .map(move |kind| (*name, WRITTEN.iter().find(|(what, _)| what == kind).expect("a kind of word")))
    }) {
        let program = move |a: &Arena, call: &Call, o: &mut Outcome| {
            if call.name() == name && matches!(o.reply.number, 0 | 100) {
                let mut before = a.clone();
                for (word, old) in words(&mut o.arena).iter_mut().zip(words(&mut before)) {
                    *word = if word == old { *old } else { cut(*word) };
                }
            }
        };
        programs.push((format!("{name}: {what} cut when written"), Box::new(program)));
    }
    programs
}

#[test]
fn a_program_wrong_about_far_links_is_found_out() {
    let programs = planted(WRONG_ABOUT_FAR_LINKS).into_iter().chain(cut_when_written());
    found_in("far_slots", usize::MAX, programs.collect());
}

/// Wrong programs that need a chain of more than 255, 32,767 or 65,535 links, or the largest slot.
#[rustfmt::skip]
const WRONG_ABOUT_FAR_EVENTS: &[(&str, Wrong)] = &[
    ("an event's slot of 8 bits", |_, call, o| rewritten(call, o, |report, count| report[..count].iter_mut().for_each(|slot| *slot &= 0xff))),
    ("an event's slot of 15 bits", |_, call, o| rewritten(call, o, |report, count| report[..count].iter_mut().for_each(|slot| *slot &= 0x7fff))),
    ("an event's slot of 16 bits", |_, call, o| rewritten(call, o, |report, count| report[..count].iter_mut().for_each(|slot| *slot = cut(*slot)))),
    ("a count of 8 bits", |_, call, o| if matches!(call, Call::DueCount(..)) { o.reply.words[0] &= 0xff }),
    ("a count of 15 bits", |_, call, o| if matches!(call, Call::DueCount(..)) { o.reply.words[0] &= 0x7fff }),
    ("slots over 65,535 not counted", |a, call, o| counted(a, call, o, |chain, due| chain.iter().filter(|&&s| s < CUT as usize && due(s)).count())),
    ("slots over 65,535 not reported", |a, call, o| reported(a, call, o, |_, events| events.retain(|&s| s < CUT as usize))),
    ("65,535 links counted at most", |a, call, o| counted(a, call, o, |chain, due| chain.iter().take(65_535).filter(|&&s| due(s)).count())),
];

/// Wrong programs that need a chain of 1,048,576 links.
#[rustfmt::skip]
const WRONG_ABOUT_THE_LARGEST: &[(&str, Wrong)] = &[
    ("an event's slot of 20 bits", |_, call, o| rewritten(call, o, |report, count| report[..count].iter_mut().for_each(|slot| *slot %= LIMIT as u32))),
    ("a pointer of 20 bits", |a, call, o| if let Call::DueEvents(p, from, to, report) = call {
        instead(a, o, Call::DueEvents(Ptr { slot: p.slot % LIMIT as u32, ..*p }, *from, *to, report.clone()));
    }),
    ("a count of 16 bits", |_, call, o| if matches!(call, Call::DueEvents(..)) { o.reply.words[0] = cut(o.reply.words[0]) }),
    ("the largest slot not reported", |a, call, o| reported(a, call, o, |_, events| events.retain(|&s| s < LIMIT))),
    ("1,048,575 links reported at most", |a, call, o| reported(a, call, o, |chain, events| if chain.len() == LIMIT {
        events.retain(|s| *s != chain[LIMIT - 1]);
    })),
    ("room for 1,048,575 links is enough", |a, call, o| match (call, o.reply.number) {
        (Call::DueEvents(p, from, to, report), 14) if report.len() == LIMIT - 1 => {
            o.reply = model_outcome(a, &Call::DueCount(*p, *from, *to)).reply;
        }
        _ => {}
    }),
];

#[test]
fn a_program_wrong_about_far_slots_is_found_out() {
    found_in("random_broken", 20_000, planted(WRONG_ABOUT_FAR_SLOTS));
    found_in("random_due", 20_000, planted(WRONG_ABOUT_FAR_EVENTS));
    found_in("largest", 1, planted(WRONG_ABOUT_THE_LARGEST));
}

#[test]
fn a_broken_link_is_shown_with_its_side() {
    let shown = found_out(&["random_broken"], 400, |a, _, o| {
        named(a, o, |places| first_side(places, places[places.len() - 1].0));
    });
    let expected = "\
the export parts from the model
  check()
     slot       prev       next  generation     payload
        1          0          1           2           0
        2          1          0           2           0
  header: stack length 2, link count 2, root 0, generation 2
  the model answers 11 at the next of slot 1
  the export answers 11 at the prev of slot 2
  broken: model 1, export 2
  side: model 2, export 1
";
    assert_eq!(shown.expect("a wrong program").to_string(), expected);
}

#[test]
fn a_case_is_shown_with_the_words_that_differ() {
    let one_sided: Wrong = |a, call, o| {
        if let (Call::Connect(p, q), 0) = (call, o.reply.number)
            && p != q
        {
            o.arena.prev[q.slot as usize - 1] = a.prev[q.slot as usize - 1];
        }
    };
    let shown = found_out(&["edits"], 2_500, one_sided).expect("a wrong program").to_string();
    let expected = "\
the export parts from the model
  connect(slot 1, generation 2, slot 2, generation 2)
     slot       prev       next  generation     payload
        1          0          0           2           0
        2          0          0           2           0
  header: stack length 2, link count 2, root 0, generation 2
  the model answers 0
  the export answers 0
  prev of slot 2: model 1, export 0
";
    assert_eq!(shown, expected);
}

#[test]
fn the_first_failure_is_the_same_on_several_threads() {
    for (call, what, program) in WRONG.iter().filter(|(call, ..)| sections_of(call) == ["edits"]) {
        let found = |threads| {
            let failure = failure(&["edits"], 2_500, threads, &side(*program));
            failure.unwrap_or_else(|| panic!("{call}: {what}: passes for right")).mismatch.to_string()
        };
        assert_eq!(found(1), found(3), "{call}: {what}");
    }
}

#[test]
fn a_side_that_panics_is_shown() {
    let panics: Wrong = |_, call, _| assert_ne!(*call, Call::IncGeneration, "it does not go on");
    let shown = found_out(&["edits"], 400, panics).expect("a wrong program").to_string();
    assert!(shown.contains("  inc_generation()\n"), "{shown}");
    assert!(shown.contains("the side that panics: assertion"), "{shown}");
    assert!(shown.contains("it does not go on"), "{shown}");
}

/// The point of demand 3 that a canonical compression of some small arena does not keep once a change is made to it.
fn demand_3_broken(change: Wrong) -> Option<&'static str> {
    (0..=4).flat_map(cases::small_arenas).find_map(|a| {
        let call = Call::CompressCanonical(0, vec![0; a.capacity()]);
        let mut outcome = model_outcome(&a, &call);
        change(&a, &call, &mut outcome);
        let Call::CompressCanonical(_, from) = &outcome.call else { unreachable!() };
        demand3::broken(&a, &outcome.arena, from)
    })
}

#[test]
fn a_compression_that_does_not_keep_demand_3_is_found_out() {
    assert_eq!(demand_3_broken(|_, _, _| {}), None);
    // The two further points, on pieces and on payloads, follow from these, so that nothing can break them alone.
    let wrong: [(&str, Wrong); 6] = [
        ("filled: the header's first words are n, n and 0", |_, _, o| o.arena.header[ROOT] = 1),
        ("filled: the compressed arena is well formed", |_, _, o| o.arena.next.fill(1)),
        ("renaming: where the slots came from are the old links, each once", |_, _, o| {
            if let Call::CompressCanonical(_, places) = &mut o.call {
                places.fill(1);
            }
        }),
        ("renaming: each link has its payload", |_, _, o| o.arena.payload.reverse()),
        ("renaming: each link has its neighbours, under their new slots", |_, _, o| {
            std::mem::swap(&mut o.arena.prev, &mut o.arena.next);
        }),
        ("pieces: the last link of an open piece has no next", |a, _, o| {
            laid_out(a, o, |a| a.link_slots().collect());
        }),
    ];
    for (point, change) in wrong {
        assert_eq!(demand_3_broken(change), Some(point));
    }
}

#[test]
fn a_further_compression_that_moves_a_link_is_found_out() {
    let mut first = Arena::empty(3);
    first.generation.fill(5);
    first.payload.copy_from_slice(&[7, 8, 9]);
    first.header = vec![3, 3, 0, 5];
    let with = |change: fn(&mut Arena)| {
        let mut later = first.clone();
        change(&mut later);
        later
    };
    let newer = with(|a| (a.header[GENERATION], a.generation) = (6, vec![6; 3]));
    assert_eq!(demand3::moved(&first, &newer, Some(&[1, 2, 3])), None);
    assert_eq!(demand3::moved(&first, &newer, None), None);
    for change in [
        (|a| a.header[ROOT] = 1) as fn(&mut Arena),
        |a| a.header[LINKS] = 2,
        |a| a.payload.swap(0, 1),
        |a| a.next[0] = 2,
        |a| a.prev[2] = 2,
    ] {
        assert!(demand3::moved(&first, &with(change), None).is_some());
    }
    assert!(demand3::moved(&first, &first, Some(&[1, 3, 2])).is_some());
}
