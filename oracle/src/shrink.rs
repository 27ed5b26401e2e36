//! Makes a failing case smaller, step by step, as long as it still fails: fewer slots, fewer commands, shorter slices,
//! smaller words.

use std::time::{Duration, Instant};

use crate::compare::{Counts, Mismatch, Product};
use crate::header::{GENERATION, LINKS, ROOT, STACK};
use crate::runner::{Failure, Judgement, judged};
use crate::words::{COMPRESS_CANONICAL, COMPRESS_WITH, DRAIN, DUE_EVENTS, RUN, argument_name};
use crate::{Arena, COMMAND_WORDS, CUT, Call};

/// How long a case is made smaller at most; one of a few hundred slots takes a small part of it.
const PATIENCE: Duration = Duration::from_secs(20);

/// With so many slots at most, each word of prev and next is made smaller by itself.
const FEW: usize = 8;

/// The smallest case that the steps come to.
pub fn smallest(failure: Failure, product: Product) -> Box<Mismatch> {
    let mut shrinker = Shrinker::new(failure, product);
    while shrinker.round() {}
    shrinker.mismatch
}

/// A case in words.
#[derive(Clone, PartialEq)]
struct Case {
    arena: Arena,
    code: usize,
    arguments: Vec<u32>,
    lent: Vec<u32>,
}

/// The smallest case so far, and how it is judged.
struct Shrinker<'a> {
    product: Product<'a>,
    judgement: Judgement,
    case: Case,
    mismatch: Box<Mismatch>,
    until: Instant,
}

impl<'a> Shrinker<'a> {
    /// Begins with the case that failed.
    fn new(failure: Failure, product: Product<'a>) -> Self {
        let Failure { judgement, mismatch } = failure;
        let Mismatch { before, call, .. } = &*mismatch;
        let (arena, code) = (before.clone(), call.code());
        let case = Case { arena, code, arguments: call.arguments(), lent: call.lent() };
        Self { product, judgement, case, mismatch, until: Instant::now() + PATIENCE }
    }

    /// Tries every kind of step, and tells whether one of them made the case smaller.
    fn round(&mut self) -> bool {
        let before = self.case.clone();
        self.by_blocks(slots, without_slots);
        self.by_blocks(reported, without_reported);
        self.by_blocks(commands, without_commands);
        self.by_blocks(|case| case.lent.len(), |case, from, count| cut(&mut case.lent, from, count));
        self.zeros(|case| &mut case.arena.prev);
        self.zeros(|case| &mut case.arena.next);
        self.zeros(|case| &mut case.arena.generation);
        self.zeros(|case| &mut case.arena.payload);
        self.zeros(|case| &mut case.lent);
        if slots(&mut self.case) <= FEW {
            self.smaller(|case| &mut case.arena.prev);
            self.smaller(|case| &mut case.arena.next);
        }
        self.smaller(|case| &mut case.arena.header);
        self.smaller(|case| &mut case.arguments);
        self.alike_generations();
        self.case != before
    }

    /// Makes a change if the case still fails on the same side.
    fn attempt(&mut self, change: impl FnOnce(&mut Case)) {
        let mut case = self.case.clone();
        change(&mut case);
        if case == self.case || Instant::now() > self.until {
            return;
        }
        let Some(call) = Call::of(case.code, &case.arguments, case.lent.clone()) else {
            return;
        };
        if let Err(mismatch) =
            judged(self.judgement, self.product, &case.arena, &call, &mut Counts::default())
            && mismatch.side == self.mismatch.side
        {
            (self.case, self.mismatch) = (case, mismatch);
        }
    }

    /// Tries a change to many things at once, and then to fewer and fewer, from the last to the first.
    fn by_blocks(&mut self, things: impl Fn(&mut Case) -> usize, change: impl Fn(&mut Case, usize, usize)) {
        let mut count = things(&mut self.case);
        while count > 0 {
            let mut end = things(&mut self.case);
            while end > 0 {
                let from = end.saturating_sub(count);
                self.attempt(|case| change(case, from, end - from));
                end = from;
            }
            count /= 2;
        }
    }

    /// Tries 0 in place of some words.
    fn zeros<T: Clone + Default>(&mut self, words: impl Fn(&mut Case) -> &mut Vec<T>) {
        self.by_blocks(
            |case| words(case).len(),
            |case, from, count| words(case)[from..from + count].fill(T::default()),
        );
    }

    /// Tries smaller numbers for each of some words.
    fn smaller(&mut self, words: impl Fn(&mut Case) -> &mut Vec<u32>) {
        for place in 0..words(&mut self.case).len() {
            let word = words(&mut self.case)[place];
            for less in [0, 1, 2, word / 2, word.saturating_sub(1)] {
                if less < words(&mut self.case)[place] {
                    self.attempt(|case| words(case)[place] = less);
                }
            }
        }
    }

    /// Tries generation 2 in place of each other one, wherever it stands.
    fn alike_generations(&mut self) {
        let mut generations = self.case.arena.generation.clone();
        generations.extend(self.case.arena.header.get(GENERATION));
        generations.extend(arguments_named(&mut self.case, "generation").map(|word| *word));
        generations.sort_unstable();
        generations.dedup();
        for generation in generations.into_iter().filter(|&generation| generation > 2) {
            self.attempt(|case| {
                let columns = case.arena.generation.iter_mut().chain(case.arena.header.get_mut(GENERATION));
                columns.filter(|word| **word == generation).for_each(|word| *word = 2);
                arguments_named(case, "generation")
                    .filter(|word| **word == generation)
                    .for_each(|word| *word = 2);
            });
        }
    }
}

/// The arguments of a name.
fn arguments_named<'a>(case: &'a mut Case, name: &'a str) -> impl Iterator<Item = &'a mut u32> {
    let code = case.code;
    let named = move |place: usize| argument_name(code, place) == Some(name);
    case.arguments.iter_mut().enumerate().filter(move |(place, _)| named(*place)).map(|(_, word)| word)
}

/// The number of slots of the longest column.
fn slots(case: &mut Case) -> usize {
    let a = &case.arena;
    a.prev.len().max(a.next.len()).max(a.generation.len()).max(a.payload.len())
}

/// How many words a call reports of a link.
fn reported_words(code: usize) -> usize {
    match code {
        DRAIN => 5,
        COMPRESS_WITH => 4,
        DUE_EVENTS => 1,
        _ => 0,
    }
}

/// The number of slots, if the call reports links.
fn reported(case: &mut Case) -> usize {
    if reported_words(case.code) > 0 { slots(case) } else { 0 }
}

/// Takes slots out of the arena, and the room for them out of the report.
fn without_reported(case: &mut Case, from: usize, count: usize) {
    without_slots(case, from, count);
    case.lent.truncate(case.lent.len().saturating_sub(reported_words(case.code) * count));
}

/// The number of commands of a run.
fn commands(case: &mut Case) -> usize {
    if case.code == RUN { case.arguments.len() / COMMAND_WORDS } else { 0 }
}

/// Takes commands out of a run, and as many answers.
fn without_commands(case: &mut Case, from: usize, count: usize) {
    case.arguments.drain(COMMAND_WORDS * from..COMMAND_WORDS * (from + count));
    case.lent.truncate(case.lent.len().saturating_sub(count));
}

/// Takes a part out of a vector, as far as it is there.
fn cut<T>(words: &mut Vec<T>, from: usize, count: usize) {
    let length = words.len();
    words.drain(from.min(length)..(from + count).min(length));
}

/// Takes slots out of the arena: neighbours close up, later slots are renamed, and the header counts what is left.
fn without_slots(case: &mut Case, from: usize, count: usize) {
    let (old, slots) = (case.arena.clone(), slots(case));
    let gone = |slot: usize| (from + 1..=from + count).contains(&slot);
    // A number past the columns is renamed with the slot that it is if it is cut to 16 bits.
    let renamed = |slot: usize| {
        let cut = if slot > slots { slot % CUT as usize } else { slot };
        if cut > from + count { slot - count } else { slot }
    };
    // What slot `own` points at once the others are gone: a list that ended in a slot that is gone ends in `own`.
    let points_at = |column: &[u32], own: usize, mut slot: usize| {
        for _ in 0..=count {
            if !gone(slot) {
                return renamed(slot);
            }
            let after = column.get(slot - 1).map_or(0, |&word| word as usize);
            slot = if after == slot { own } else { after };
        }
        0
    };
    let a = &mut case.arena;
    for (column, old) in [(&mut a.prev, &old.prev), (&mut a.next, &old.next)] {
        for (place, word) in column.iter_mut().enumerate().filter(|(place, _)| !gone(place + 1)) {
            *word = points_at(old, place + 1, *word as usize) as u32;
        }
        cut(column, from, count);
    }
    cut(&mut a.generation, from, count);
    cut(&mut a.payload, from, count);
    if case.code == COMPRESS_CANONICAL {
        cut(&mut case.lent, from, count);
    }
    if let Some(&[stack, links, root, _]) = old.header.first_chunk() {
        let length = if stack as usize > slots { stack % CUT } else { stack } as usize;
        let in_stack = length.min(from + count).saturating_sub(from);
        let links_gone = old.generation.iter().skip(from).take(in_stack).filter(|&&word| word != 0).count();
        a.header[STACK] = stack - in_stack as u32;
        a.header[LINKS] = links.saturating_sub(links_gone as u32);
        a.header[ROOT] = points_at(&old.next, 0, root as usize) as u32;
    }
    for name in ["slot", "start", "position"] {
        for word in arguments_named(case, name) {
            *word = renamed(*word as usize) as u32;
        }
    }
}
