//! The sections of the comparison, each a list of jobs. Those that go through every small arena do so from the smallest
//! on, so that their first failure is the smallest one.

use std::collections::HashSet;

use crate::calls::{
    Tide, call_of, each_call, growth, keep, mixed_commands, mixed_edits, some_call, some_commands, some_walk,
    with_dots,
};
use crate::cases;
use crate::compare::{Counts, Live, Mismatch, Outcome, Product, compare, model_outcome};
use crate::random::{self, Near, Random, Style};
use crate::runner::{Jobs, Judge};
use crate::words::{DUE_COUNT, DUE_EVENTS, INSERT, SMALL_ARENA, calls_on_arenas};
use crate::{
    Arena, COMMAND_WORDS, CUT, Call, LIMIT, Ptr, Reading, Walk, demand3, frame, kind, model, payloads,
};

/// The short form is for every run of the gate, the long one for once.
#[derive(Clone, Copy, PartialEq, Eq)]
pub enum Form {
    Short,
    Long,
}

impl Form {
    /// The value for this form.
    fn of<T>(self, short: T, long: T) -> T {
        if self == Self::Short { short } else { long }
    }
}

/// A section of the comparison.
pub struct Section {
    pub name: &'static str,
    /// What its cases are
    pub what: &'static str,
    /// The numbers that must each come up a hundred times
    pub numbers: &'static [usize],
    /// Its jobs in a form
    pub jobs: fn(Form) -> Jobs,
}

/// The sections of calls that take no arena. The crate has nothing like them.
pub const WITHOUT_CRATE: [&str; 1] = ["lines"];

/// All sections, of all that is sold.
pub const SECTIONS: [Section; 30] = [
    Section {
        name: "tuples",
        what: "the check on every tuple of words of stack length 0 to 3, at two capacities",
        numbers: &[0, 4, 5, 6, 7, 8, 9, 10, 11],
        jobs: |_| tuples(3),
    },
    Section {
        name: "shapes",
        what: "the check on unequal columns, other headers, capacities around 65,536 and 1,048,576",
        numbers: &[1],
        jobs: |_| shapes(),
    },
    Section {
        name: "small_calls",
        what: "the call that writes a small arena: every index and numbers past them, on columns and headers of every length that matters",
        numbers: &[0, 1, 14],
        jobs: small_calls,
    },
    Section {
        name: "small_arenas",
        what: "each of the 90 arenas that this call gives, as it gives them and with room for one link: every call with every pair of pointers",
        numbers: &[0, 12, 13, 14, 15, 16, 17, 18, 19],
        jobs: |form| given_arenas(form.of(2, 3)),
    },
    Section {
        name: "reading",
        what: "every reading call with every pointer, every step of every state, on every small arena",
        numbers: &[0, 12],
        jobs: |form| every(form.of(4, 5), |a, found| cases::each_reading(a, found)),
    },
    Section {
        name: "steps",
        what: "steps of any state words, over the capacity too",
        numbers: &[0],
        jobs: |form| every(form.of(3, 4), |a, found| cases::each_wide_step(a, found)),
    },
    Section {
        name: "kept_states",
        what: "steps of walk states kept while the arena changes under them",
        numbers: &[0],
        jobs: |form| kept_states(form.of(4, 5)),
    },
    Section {
        name: "lines",
        what: "the line of every dot and the dots of every line, and numbers past them",
        numbers: &[0, 19],
        jobs: |_| lines(),
    },
    Section {
        name: "windows",
        what: "what is due between every two numbers near the ends of lines and of the frame, on chains with payloads there",
        numbers: &[0, 19],
        jobs: windows,
    },
    Section {
        name: "due",
        what: "what is due of every chain of every small arena, from every start, with reports of every length that matters",
        numbers: &[0, 12, 14, 19],
        jobs: |form| due(form.of(3, 4)),
    },
    Section {
        name: "edits",
        what: "on every small arena all edits but insertion, at all pairs of pointers",
        numbers: &[0, 12, 13, 14, 15, 16, 100],
        jobs: |form| every(form.of(4, 5), |a, found| cases::each_edit(a, found)),
    },
    Section {
        name: "insertions",
        what: "each small arena with room for none, one or two more links: all kinds of insertion at all pairs of pointers",
        numbers: &[0, 16, 17, 18],
        jobs: |form| insertions(form.of(4, 5)),
    },
    Section {
        name: "pairs",
        what: "runs of every two commands that are no insertions on every small arena",
        numbers: &[0],
        jobs: |form| every(form.of(3, 4), |a, found| cases::each_pair_of_edits(a, found)),
    },
    Section {
        name: "insertion_pairs",
        what: "runs of every two commands of all codes on every small arena",
        numbers: &[0],
        jobs: |form| every(form.of(2, 3), |a, found| cases::each_pair_of_commands(a, found)),
    },
    Section {
        name: "compressions",
        what: "both compressions of every small arena, with and without reset",
        numbers: &[0, 14, 100],
        jobs: |form| every(form.of(5, 6), |a, found| cases::each_compression(a, found)),
    },
    Section {
        name: "demand_3",
        what: "demand 3 by program on canonical compressions of every small arena, each with three further ones",
        numbers: &[0, 14, 100],
        jobs: |form| small_demand_3(form.of(5, 6)),
    },
    Section {
        name: "payloads",
        what: "both compressions of arenas that differ in payloads alone: every small one, and random ones of up to 1,048,576 slots",
        numbers: &[0, 14, 100],
        jobs: |form| other_payloads(form.of(4, 5), form.of(2_000, 40_000)),
    },
    Section {
        name: "sequences",
        what: "sequences of 500 calls on arenas of up to 200 slots, generations around 4,294,967,295",
        numbers: &[0, 12, 13, 14, 15, 16, 17, 18, 19, 100],
        jobs: |form| sequences(form.of(2_000, 40_000)),
    },
    Section {
        name: "large_sequences",
        what: "sequences of 80 calls on arenas of 2,048 to 70,000 slots",
        numbers: &[0, 12, 17],
        jobs: |form| large_sequences(form.of(40, 800)),
    },
    Section {
        name: "grown",
        what: "sequences that fill and empty arenas of 0 to 70,000 slots, from empty on, with demand 3 by program",
        numbers: &[0, 12, 13, 17, 18],
        jobs: |form| grown(form.of(1_000, 20_000)),
    },
    Section {
        name: "long_runs",
        what: "runs of up to 200,000 commands on arenas of up to 1,048,576 slots",
        numbers: &[],
        jobs: |form| long_runs(form.of(60, 1_200)),
    },
    Section {
        name: "single_calls",
        what: "runs of up to 200 commands against the single calls that they stand for",
        numbers: &[0, 12, 13],
        jobs: |form| single_calls(form.of(2_000, 40_000)),
    },
    Section {
        name: "random_compressions",
        what: "both compressions of random arenas of up to 1,048,576 slots, with demand 3 by program",
        numbers: &[0, 100],
        jobs: |form| random_compressions(form.of(3_000, 60_000)),
    },
    Section {
        name: "random_due",
        what: "what is due of the chains of random arenas of up to 1,048,576 slots",
        numbers: &[0, 12, 14, 19],
        jobs: |form| random_due(form.of(20_000, 400_000)),
    },
    Section {
        name: "damage",
        what: "each damaged arena through every call, and a step of any state words before the damage",
        numbers: &[0, 1, 2, 3, 4, 5, 6, 7, 8, 9, 10, 11],
        jobs: |form| damage(form.of(200_000, 10_000_000)),
    },
    Section {
        name: "small_broken",
        what: "every small arena that rule 11 alone refuses, through every call",
        numbers: &[11],
        jobs: small_broken,
    },
    Section {
        name: "random_broken",
        what: "random arenas of up to 1,048,576 slots with one, two or many broken links, through every call",
        numbers: &[11],
        jobs: |form| random_broken(form.of(20_000, 400_000)),
    },
    Section {
        name: "raised_words",
        what: "every small arena with one word that names or counts slots raised by a multiple of 65,536, through every call",
        numbers: &[3, 5, 7, 11],
        jobs: |form| raised_words(form.of(3, 4)),
    },
    Section {
        name: "far_slots",
        what: "every call on arenas of more than 65,536 slots, with pointers and states around slot 65,536 and above it",
        numbers: &[0, 12],
        jobs: |form| far_slots(form.of(8, 160)),
    },
    Section {
        name: "largest",
        what: "every call on arenas of 1,048,576 slots, grown from empty too, both compressions with demand 3 by program",
        numbers: &[],
        jobs: |form| largest(form.of(1, 20)),
    },
];

/// How many slots the large arena of a turn has: 65,535, 65,536, or a little more than that or than 131,072; and once in so many turns
/// any number up to the limit, or the limit.
fn many(r: &mut Random, turn: usize, seldom: usize) -> usize {
    let (near, more, any) = (CUT as usize, r.below(5_000), 1 + r.below(LIMIT));
    if turn % seldom == seldom - 1 {
        return r.pick(&[LIMIT, any]);
    }
    [near + more, near + 1, near + more % 100, 2 * near + more, near - 1, near][turn % 6]
}

// Small arenas

/// Every index on equal columns of up to 5,000 words, in the long form on unequal ones too, and some indexes on all others, two on
/// the longest: columns and headers of every length that matters, with noise in every word, equal columns with old words of other
/// kinds too.
fn small_calls(form: Form) -> Jobs {
    let lengths = cases::lengths_to_write();
    Jobs::new(lengths.len(), move |judge, r, number| {
        let noise = random::noisy(r, lengths[number]);
        let equal = lengths[number][..4] == [noise.capacity(); 4];
        for index in cases::indexes(r, noise.capacity(), equal || form == Form::Long) {
            let call = Call::SmallArena(index);
            judge.hold_to(gives_an_arena, &noise, &call);
            if equal && (index < 90 || noise.capacity() < LIMIT - 1) {
                for a in cases::old_words(r, &noise, index) {
                    judge.hold_to(gives_an_arena, &a, &call);
                }
            }
        }
    })
}

/// Compares the call that writes a small arena, and the check of what it gives, as a host lends it on: it must pass, also by the
/// crate's own check.
fn gives_an_arena(
    product: Product,
    before: &Arena,
    call: &Call,
    counts: &mut Counts,
) -> Result<Outcome, Box<Mismatch>> {
    let given = compare(product, before, call, counts)?;
    if let (Call::SmallArena(_), [1, length, ..]) = (call, given.reply.words) {
        let lent_on = cases::lent_on(&given.arena, length as usize);
        let number = compare(product, &lent_on, &Call::Check, counts)?.reply.number;
        if number != 0 {
            let said = Err(format!("the check refuses what it gives with {number}"));
            return Err(Mismatch::new("export", before, call, Some(given), said));
        }
    }
    Ok(given)
}

/// Every call on every small arena as the exported call gives it, and with room for one link; runs of every two commands on those
/// of up to so many slots.
fn given_arenas(slots_of_pairs: usize) -> Jobs {
    let arenas = cases::given_arenas();
    Jobs::new(arenas.len(), move |judge, _, number| {
        let a = &arenas[number];
        cases::every_call(a, slots_of_pairs, |call| _ = judge.hold(a, &call));
    })
}

/// Every call that `each` finds on every arena up to a stack length, each in four dresses.
fn every(longest: usize, each: fn(&Arena, &mut dyn FnMut(Call))) -> Jobs {
    on_small_arenas(longest, move |judge, a| each(a, &mut |call| _ = judge.hold(a, &call)))
}

/// A job for every arena up to a stack length, each in four dresses.
fn on_small_arenas(longest: usize, job: impl Fn(&mut Judge, &Arena) + Sync + 'static) -> Jobs {
    let arenas: Vec<Arena> = (0..=longest).flat_map(cases::dressed_arenas).collect();
    Jobs::new(arenas.len(), move |judge, _, number| job(judge, &arenas[number]))
}

/// The check on every tuple of words up to a stack length, with no room above the stack and with some.
fn tuples(longest: usize) -> Jobs {
    let kinds: Vec<(usize, usize)> = (0..=longest).flat_map(|length| [(length, 0), (length, 1)]).collect();
    let count = kinds.iter().map(|&(length, _)| cases::slot_tuples(length)).sum();
    Jobs::new(count, move |judge, _, number| {
        let mut slots = number;
        for &(length, room) in &kinds {
            if slots < cases::slot_tuples(length) {
                return cases::each_tuple(length, room, slots, |a| _ = judge.hold(a, &Call::Check));
            }
            slots -= cases::slot_tuples(length);
        }
    })
}

/// Every insertion on every arena up to a stack length, with room for none, one and two.
fn insertions(longest: usize) -> Jobs {
    let arenas: Vec<Arena> = (0..=longest).flat_map(cases::roomy_arenas).collect();
    Jobs::new(arenas.len(), move |judge, _, number| {
        let a = &arenas[number];
        cases::each_insertion(a, |call| _ = judge.hold(a, &call));
    })
}

/// The steps of every state that a walk comes through, on everything that one edit or compression makes of the arena.
fn kept_states(longest: usize) -> Jobs {
    on_small_arenas(longest, |judge, a| {
        let mut later = HashSet::new();
        let mut changed = |call: Call| _ = later.insert(model_outcome(a, &call).arena);
        cases::each_edit(a, &mut changed);
        cases::each_place(a, &mut changed);
        cases::each_compression(a, &mut changed);
        cases::each_walked_state(a, |walk| {
            for later in &later {
                judge.hold(later, &Call::WalkStep(walk));
            }
        });
    })
}

/// The dots of every line and the line of every dot, and of numbers past them; a job takes some of them.
fn lines() -> Jobs {
    let calls = cases::lines().map(Call::LineDots).chain(cases::dots().map(Call::LineOfDot));
    let (calls, none) = (calls.collect::<Vec<Call>>(), Arena::empty(0));
    Jobs::new(calls.len().div_ceil(500), move |judge, _, number| {
        for call in calls.iter().skip(500 * number).take(500) {
            judge.hold(&none, call);
        }
    })
}

/// What is due between every two edges of the frame on chains that have a payload at each, open and closed: from a few starts, in
/// the long form from every one. A job takes one start of the window.
fn windows(form: Form) -> Jobs {
    let (edges, arenas) = (cases::frame_edges(), [false, true].map(cases::edge_chains));
    let steps = form.of(17, 1);
    Jobs::new(edges.len(), move |judge, _, number| {
        for a in &arenas {
            for s in a.link_slots().step_by(steps) {
                let (p, from) = (a.ptr(s), edges[number]);
                for &to in &edges {
                    judge.hold(a, &Call::DueCount(p, from, to));
                    judge.hold(a, &Call::DueEvents(p, from, to, vec![9; edges.len() + 1]));
                }
            }
        }
    })
}

/// What is due of every chain of every arena up to a stack length.
fn due(longest: usize) -> Jobs {
    let arenas: Vec<Arena> = (0..=longest).flat_map(cases::clocked_arenas).collect();
    Jobs::new(arenas.len(), move |judge, _, number| {
        let a = &arenas[number];
        cases::each_due(a, |call| _ = judge.hold(a, &call));
    })
}

/// Compressions of every arena up to a stack length, and of so many random ones, some of them damaged, each also with other
/// payloads.
fn other_payloads(longest: usize, count: usize) -> Jobs {
    let arenas: Vec<Arena> = (0..=longest).flat_map(cases::dressed_arenas).collect();
    Jobs::new(arenas.len() + count, move |judge, r, number| match arenas.get(number) {
        Some(a) => cases::each_compression(a, |call| _ = judge.hold_to(ignores_payloads, a, &call)),
        None => {
            let large = many(r, number / 400, 8);
            let most = if number % 400 == 0 { large } else { r.pick(&[6, 20, 100, 1_000]) };
            let a = if r.once_in(8) { random::damaged(r, most) } else { random::any_whole(r, most) };
            let links = if a.header.len() == 4 { a.links().min(a.capacity()) } else { 0 };
            for reset in [0, 1] {
                let calls = [
                    Call::CompressWith(reset, vec![9; 4 * links + 1]),
                    Call::CompressCanonical(reset, vec![9; a.capacity()]),
                ];
                calls.iter().for_each(|call| _ = judge.hold_to(ignores_payloads, &a, call));
            }
        }
    })
}

/// Compares a compression and the same of the arena with other payloads, and holds the two to each other.
fn ignores_payloads(
    product: Product,
    before: &Arena,
    call: &Call,
    counts: &mut Counts,
) -> Result<Outcome, Box<Mismatch>> {
    let other = payloads::with_other_payloads(before);
    let first = compare(product, before, call, counts)?;
    let second = compare(product, &other, call, counts)?;
    match payloads::broken((before, &first), (&other, &second)) {
        None => Ok(first),
        Some(point) => {
            Err(Mismatch::new("export", before, call, Some(first), Err(format!("not so: {point}"))))
        }
    }
}

/// Demand 3 on every arena up to a stack length, with and without reset.
fn small_demand_3(longest: usize) -> Jobs {
    on_small_arenas(longest, |judge, a| {
        for reset in [0, 1] {
            judge.hold_to(demand_3, a, &Call::CompressCanonical(reset, vec![9; a.capacity()]));
        }
    })
}

/// Compares a canonical compression and looks at the points of demand 3, also after three more compressions, one of them
/// refused.
fn demand_3(
    product: Product,
    before: &Arena,
    call: &Call,
    counts: &mut Counts,
) -> Result<Outcome, Box<Mismatch>> {
    let first = compare(product, before, call, counts)?;
    let (Call::CompressCanonical(reset, from), 0 | 100) = (&first.call, first.reply.number) else {
        return Ok(first);
    };
    let not_kept = |point: &str| {
        Err(Mismatch::new("export", before, call, Some(first.clone()), Err(format!("not so: {point}"))))
    };
    if let Some(point) = demand3::broken(before, &first.arena, from) {
        return not_kept(point);
    }
    let (mut later, capacity) = (first.arena.clone(), before.capacity());
    for (reset, places) in [(0, capacity), (*reset, capacity + 1), (1, capacity)] {
        let further = compare(product, &later, &Call::CompressCanonical(reset, vec![9; places]), counts)?;
        let Call::CompressCanonical(_, from) = &further.call else { unreachable!() };
        let accepted = (places == capacity).then_some(&from[..]);
        if let Some(point) = demand3::moved(&first.arena, &further.arena, accepted) {
            return not_kept(point);
        }
        later = further.arena;
    }
    Ok(first)
}

// Shapes and damage

/// Around each of some capacities: columns of other lengths, headers of other lengths, other generations; for those of a million
/// and more all of this on an empty arena, and few of it if the stack fills the columns.
fn shapes() -> Jobs {
    let near = CUT as usize;
    let capacities = [0, 1, near - 1, near, near + 1, 100_000, LIMIT - 1, LIMIT, LIMIT + 1, LIMIT + near];
    Jobs::new(4 * capacities.len(), move |judge, r, number| {
        let capacity = capacities[number / 4];
        let stack = [0, 1, capacity, capacity + 1][number % 4];
        let style = Style { free: 4, longest: 8, even: false, scattered: true, closed: 4 };
        let mut whole = random::whole(r, capacity, stack.min(capacity).min(LIMIT), style);
        if stack > capacity {
            whole.header[crate::header::STACK] = stack as u32;
        }
        let mut hold = |change: &dyn Fn(&mut Arena)| {
            let mut a = whole.clone();
            change(&mut a);
            judge.hold(&a, &Call::Check);
        };
        hold(&|_| {});
        if capacity > 100_000 && (stack > 0 || capacity != LIMIT) {
            return;
        }
        for length in [capacity + 1, capacity.saturating_sub(1)] {
            hold(&|a| a.prev.resize(length, 0));
            hold(&|a| a.next.resize(length, 0));
            hold(&|a| a.generation.resize(length, 0));
            hold(&|a| a.payload.resize(length, 0));
        }
        for words in [0, 1, 2, 3, 5, 6, 100] {
            hold(&|a| a.header.resize(words, 2));
        }
        for generation in [0, 1, 2, 3, u32::MAX - 1, u32::MAX] {
            hold(&|a| a.header[crate::header::GENERATION] = generation);
        }
    })
}

/// Damaged arenas, most of them small, a few of 65,535 slots and more, through every call.
fn damage(arenas: usize) -> Jobs {
    Jobs::new(arenas, |judge, r, number| {
        let whole = if number % 20_000 == 10_000 {
            let turn = number / 20_000;
            let capacity = if turn % 20 == 9 { LIMIT + 1 } else { many(r, turn, 20) };
            let style = Style::random(r, capacity);
            random::whole(r, capacity, capacity.min(LIMIT), style)
        } else {
            let most = if r.once_in(50) { 300 } else { r.pick(&[2, 5, 12, 40]) };
            random::any_whole(r, most)
        };
        judge.hold(&whole, &Call::WalkStep(some_walk(r, &whole, &[])));
        let a = random::broken(r, &whole);
        for call in each_call(r, &a) {
            judge.hold(&a, &call);
        }
        let call = call_of(SMALL_ARENA, r, &a, &[]);
        judge.hold(&a, &call);
    })
}

/// Every call on every arena of up to three slots that rule 11 alone refuses, with no room above the stack; and if a link
/// names the slot above it, with a slot there that looks like its neighbour, in the long form like a neighbour of each slot.
/// The long form has those of four slots too, once each.
fn small_broken(form: Form) -> Jobs {
    let arenas = cases::Interlinked::up_to(form.of(3, 4));
    Jobs::new(arenas.count, move |judge, r, number| {
        let a = arenas.nth(number);
        if model::check(&a) == 0 {
            return;
        }
        let above = a.stack() as u32 + 1;
        let naming = a.link_slots().find(|&s| a.prev[s - 1] == above || a.next[s - 1] == above);
        let false_neighbours: Vec<usize> = match form {
            Form::Long if a.stack() < 4 => (1..=a.stack()).collect(),
            _ => naming.into_iter().collect(),
        };
        let alone = (a.stack() < 4 || naming.is_none()).then(|| a.clone());
        let with_room = false_neighbours.into_iter().map(|s| cases::with_false_neighbour(a.clone(), s));
        for a in alone.into_iter().chain(with_room) {
            for call in each_call(r, &a) {
                judge.hold(&a, &call);
            }
        }
    })
}

/// Every call on random arenas that rule 11 alone refuses, most of them small, a few of 65,535 slots and more.
fn random_broken(arenas: usize) -> Jobs {
    Jobs::new(arenas, |judge, r, number| {
        let (stack, turn) = if number % 1_000 == 500 {
            let turn = number / 1_000;
            (many(r, turn, 20), turn)
        } else {
            let most = if r.once_in(50) { 300 } else { r.pick(&[2, 5, 12, 40]) };
            (1 + r.below(most), number)
        };
        let near = [Near::Anywhere, Near::First, Near::Last, Near::LastAlone][turn % 4];
        let a = random::with_broken_links(r, stack, near);
        for call in each_call(r, &a) {
            judge.hold(&a, &call);
        }
    })
}

// Random arenas

/// An arena of `stack` slots of any style, with a little room past them if the limit leaves it.
fn some_arena(r: &mut Random, stack: usize) -> Arena {
    let style = Style::random(r, stack);
    random::whole(r, stack + (LIMIT - stack).min(3), stack, style)
}

/// Plays a sequence of so many calls, each made for the arena as it is by then, beside a crate arena that lives through all
/// of it. It answers the arena that is left, or none if a call failed.
fn play(
    judge: &mut Judge,
    r: &mut Random,
    mut a: Arena,
    calls: usize,
    mut make: impl FnMut(&mut Random, &Arena, &[Walk]) -> Call,
) -> Option<Arena> {
    let mut live = Live::new(&a);
    let mut kept = Vec::new();
    for _ in 0..calls {
        let call = make(r, &a, &kept);
        let call = with_dots(r, call);
        let expected = judge.hold(&a, &call)?;
        if let Some(mismatch) = live.follow(&a, &call, &expected) {
            judge.fail(mismatch);
            return None;
        }
        keep(&mut kept, &call, &expected.reply.words);
        a = expected.arena;
    }
    Some(a)
}

fn sequences(count: usize) -> Jobs {
    Jobs::new(count, |judge, r, _| {
        let most = r.pick(&[3, 8, 20, 60, 200]);
        let a = random::any_whole(r, most);
        let a = random::with_dots(r, a);
        play(judge, r, a, 500, some_call);
    })
}

fn large_sequences(count: usize) -> Jobs {
    Jobs::new(count, |judge, r, _| {
        let (near, more) = (CUT as usize, r.below(4_400));
        let stack = r.pick(&[near + more, near + 1, near - 1, 40_000, 2_048]);
        let a = some_arena(r, stack);
        let a = random::with_dots(r, a);
        play(judge, r, a, 80, some_call);
    })
}

/// Sequences that begin with an empty arena, in which the number of links rises to the capacity, stays and falls. Those of
/// many slots are of runs, those of few of single calls too.
fn grown(count: usize) -> Jobs {
    Jobs::new(count, |judge, r, number| {
        let (capacity, calls, most) = match number % 100 {
            0 => (70_000, 24, 40_000),
            20 | 40 | 60 | 80 => (2_048, 60, 1_000),
            _ => (r.pick(&[0, 1, 2, 3, 5, 8, 20, 100]), 300, 12),
        };
        let mut tide = Tide::Rising;
        let a = random::empty(r, capacity);
        let left = play(judge, r, a, calls, |r, a, kept| {
            tide = match a.links() {
                0 => Tide::Rising,
                links if links == capacity && r.once_in(4) => r.pick(&[Tide::Level, Tide::Falling]),
                _ if r.once_in(40) => r.pick(&[Tide::Rising, Tide::Rising, Tide::Level, Tide::Falling]),
                _ => tide,
            };
            some_tidal_call(r, a, kept, most, tide)
        });
        if let Some(a) = left {
            let call = Call::CompressCanonical(r.below(2) as u32, vec![9; capacity]);
            judge.hold_to(demand_3, &a, &call);
        }
    })
}

/// Any call, or one that goes with the tide: a run of up to `most` commands, on small arenas also a single call.
fn some_tidal_call(r: &mut Random, a: &Arena, kept: &[Walk], most: usize, tide: Tide) -> Call {
    if r.once_in(8) {
        return some_call(r, a, kept);
    }
    let commands = if a.capacity() < 1_000 && !r.once_in(4) { 1 } else { 1 + r.below(most) };
    let fitting = !r.once_in(4);
    let words = mixed_commands(r, a, commands, tide, fitting);
    let alone = if commands == 1 { single(&words) } else { None };
    alone.unwrap_or_else(|| Call::Run(words, vec![r.word(); commands]))
}

fn long_runs(count: usize) -> Jobs {
    Jobs::new(count, |judge, r, number| {
        let stack = match number % 5 {
            0 => many(r, number / 5, 12),
            _ => r.pick(&[40, 500, 2_048, 20_000]),
        };
        let a = some_arena(r, stack);
        let most = r.pick(&[1_000, 20_000, 100_000]);
        let mut commands = some_commands(r, &a, most);
        if a.links() > 0 && r.once_in(2) {
            commands.extend(mixed_edits(r, &a, most, false));
        }
        if r.once_in(2) {
            commands = mixed_commands(r, &a, most, Tide::Level, false);
        }
        let answers = vec![r.word(); commands.len() / COMMAND_WORDS + r.below(3)];
        judge.hold(&a, &Call::Run(commands, answers));
    })
}

fn single_calls(count: usize) -> Jobs {
    Jobs::new(count, |judge, r, _| {
        let a = random::any_whole(r, 60);
        let commands = some_commands(r, &a, 200);
        let answers = vec![99; commands.len() / COMMAND_WORDS];
        judge.hold_to(run_is_its_single_calls, &a, &Call::Run(commands, answers));
    })
}

/// Compares a run and each single call that it stands for, and holds its answers and its arena to theirs.
fn run_is_its_single_calls(
    product: Product,
    before: &Arena,
    call: &Call,
    counts: &mut Counts,
) -> Result<Outcome, Box<Mismatch>> {
    let run = compare(product, before, call, counts)?;
    let (Call::Run(commands, answers), 0) = (&run.call, run.reply.number) else {
        return Ok(run);
    };
    let differs = |what: String| Err(Mismatch::new("export", before, call, Some(run.clone()), Err(what)));
    let mut alone = before.clone();
    for (k, (command, &answer)) in commands.chunks_exact(COMMAND_WORDS).zip(answers).enumerate() {
        let Some(single) = single(command) else { continue };
        let outcome = compare(product, &alone, &single, counts)?;
        if outcome.reply.number != answer {
            return differs(format!("command {k} answers {answer}, its call {}", outcome.reply.number));
        }
        alone = outcome.arena;
    }
    if run.arena != alone { differs("the single calls leave another arena".to_string()) } else { Ok(run) }
}

/// The single call that the words of a command stand for; none for another code.
fn single(words: &[u32]) -> Option<Call> {
    let &[code, p_slot, p_generation, q_slot, q_generation, payload]: &[u32; COMMAND_WORDS] =
        words.try_into().ok()?;
    let p = Ptr { slot: p_slot, generation: p_generation };
    let q = Ptr { slot: q_slot, generation: q_generation };
    Some(match code {
        1 => Call::Connect(p, q),
        2 => Call::BreakPrev(p),
        3 => Call::BreakNext(p),
        4 => Call::ExchangeNext(p, q),
        5 => Call::Remove(p),
        kind if kind::ALL.contains(&kind) => Call::Insert(kind, p, q, payload),
        _ => return None,
    })
}

/// What is due of some chains of random arenas; every second arena is one chain. A few have 65,535 slots and more.
fn random_due(count: usize) -> Jobs {
    Jobs::new(count, |judge, r, number| {
        let (large, most) = (many(r, number / 500, 40), r.pick(&[3, 6, 20, 100]));
        let a = if number % 2 == 0 {
            let one = (1 + r.below(most), r.pick(&[0, 2]));
            let (stack, free) = if number % 500 == 250 { (large, 0) } else { one };
            let closed = r.pick(&[0, 16]);
            let style = Style { free, longest: stack, even: true, scattered: true, closed };
            random::whole(r, stack, stack, style)
        } else {
            random::any_whole(r, if number % 500 == 375 { large } else { most })
        };
        let a = random::with_dots(r, a);
        for code in [DUE_COUNT, DUE_EVENTS, DUE_COUNT, DUE_EVENTS] {
            let call = call_of(code, r, &a, &[]);
            judge.hold(&a, &call);
        }
    })
}

fn random_compressions(count: usize) -> Jobs {
    Jobs::new(count, |judge, r, number| {
        let large = many(r, number / 100, 30);
        let most = if number % 100 == 0 { large } else { r.pick(&[6, 20, 100, 1_000]) };
        let a = random::any_whole(r, most);
        let noise = r.word();
        for reset in [0, 1] {
            judge.hold(&a, &Call::CompressWith(reset, vec![noise; 4 * a.links() + 1]));
            judge.hold_to(demand_3, &a, &Call::CompressCanonical(reset, vec![noise; a.capacity()]));
        }
    })
}

// Slots above 65,536

/// Every call on every arena up to a stack length that has one word raised.
fn raised_words(longest: usize) -> Jobs {
    let mut r = Random::new(longest as u64);
    let small = (0..=longest).flat_map(cases::small_arenas);
    let arenas: Vec<Arena> = small.map(|a| cases::dressed(&a, &mut r, 1, &[5], 5)).collect();
    Jobs::new(arenas.len(), move |judge, r, number| {
        for a in cases::with_raised_words(&arenas[number]) {
            for call in each_call(r, &a) {
                judge.hold(&a, &call);
            }
        }
    })
}

/// The arena with the current generation for all of its links, so that a pointer with another slot is good if a link is there; and
/// with dots for its payloads.
fn alike(r: &mut Random, a: Arena) -> Arena {
    let mut a = random::with_dots(r, a);
    let (stack, current) = (a.stack(), a.current());
    a.generation[..stack].iter_mut().filter(|word| **word != 0).for_each(|word| *word = current);
    a
}

/// Every call on arenas of a little more than 65,536 slots, of 85,536, and of a little more than 131,072. In half of them the chains
/// and the freelist go through slots one after the other that are the same if they are cut to 16 bits; some have no free slot, or
/// two above 65,536; and in some the slots up to 65,536 are all free.
fn far_slots(count: usize) -> Jobs {
    Jobs::new(count, |judge, r, number| {
        let (near, more, turn) = (CUT as usize, 3 + r.below(2_000), number + number / 4);
        let stack = [near + 6, near + more, near + 20_000, 2 * near + more][number % 4];
        let style = Style {
            free: [0, 2, 1, 12][number % 4],
            longest: [3, stack, 8, 40][turn % 4],
            even: false,
            scattered: turn % 2 == 1,
            closed: 4,
        };
        let room = 1 + r.below(3);
        let a = match number % 8 {
            4 => {
                let a = random::whole_in_order(r, stack + room, random::twins(stack), style);
                let removed = |a: Arena, slot| model_outcome(&a, &Call::Remove(a.ptr(slot))).arena;
                removed(removed(a, near + 1), near + 3)
            }
            6 => {
                let small = random::whole(r, 43, 40, Style { free: 1, ..style });
                random::behind_free_slots(r, &small)
            }
            _ => random::whole_in_order(r, stack + room, random::twins(stack), style),
        };
        let a = alike(r, a);
        for refused in cases::mirrored() {
            judge.hold(&refused, &Call::Check);
        }
        cases::each_far_call(r, &a, 3, |call| _ = judge.hold(&a, &call));
        for reset in [0, 1] {
            judge.hold(&a, &Call::CompressWith(reset, vec![9; 4 * a.links()]));
            judge.hold_to(demand_3, &a, &Call::CompressCanonical(reset, vec![9; a.capacity()]));
        }
    })
}

/// So many times each of ten jobs on arenas of 1,048,576 slots.
fn largest(times: usize) -> Jobs {
    const CHAINS: Style = Style { free: 0, longest: 8, even: false, scattered: true, closed: 4 };
    const ONE: Style = Style { longest: LIMIT, even: true, ..CHAINS };
    let full = |r: &mut Random, style: Style| {
        let a = random::whole(r, LIMIT, LIMIT, style);
        alike(r, a)
    };
    Jobs::new(10 * times, move |judge, r, number| match number % 10 {
        // One chain of all slots, open or closed.
        0 => {
            let closed = r.pick(&[0, 16]);
            let a = full(r, Style { closed, ..ONE });
            judge.hold(&a, &Call::DueEvents(a.ptr(LIMIT), 0, frame::DOTS, vec![9; LIMIT]));
            judge.hold(&a, &Call::DueEvents(a.ptr(1), 0, frame::DOTS, vec![9; LIMIT - 1]));
        }
        // Grown from empty in one run, until there is no room: links of every kind, then one chain, which is drained.
        kind @ (1 | 2) => {
            let a = random::empty(r, LIMIT);
            let mut commands = growth(r, &a, kind == 1);
            commands.extend(mixed_commands(r, &a, 100, Tide::Rising, false));
            let answers = vec![9; commands.len() / COMMAND_WORDS];
            let Some(grown) = judge.hold(&a, &Call::Run(commands, answers)) else { return };
            let a = alike(r, grown.arena);
            if kind == 1 {
                let call = call_of(INSERT, r, &a, &[]);
                judge.hold(&a, &call);
            } else {
                judge.hold(&a, &Call::Drain(a.ptr(LIMIT / 2), vec![9; 5 * LIMIT]));
            }
        }
        // Short chains without a free slot between them, and a long one with many.
        3 => {
            let a = full(r, CHAINS);
            judge.hold(&a, &Call::CompressCanonical(0, vec![9; LIMIT]));
        }
        4 => {
            let a = full(r, Style { free: 8, ..ONE });
            judge.hold_to(demand_3, &a, &Call::CompressCanonical(1, vec![9; LIMIT]));
        }
        // Short chains with many free slots between them, for whose canonical compression the crate would take too long.
        5 => {
            let a = full(r, Style { free: 8, ..CHAINS });
            judge.hold(&a, &Call::CompressWith(0, vec![9; 4 * LIMIT]));
            judge.hold(&a, &Call::CompressCanonical(1, vec![9; LIMIT]));
            judge.hold(&a, &Call::CanonicalizeFreelist);
        }
        6 => {
            let near = r.pick(&[Near::Last, Near::LastAlone, Near::Anywhere]);
            let a = random::with_broken_links(r, LIMIT, near);
            for call in [Call::Check, Call::IncGeneration] {
                judge.hold(&a, &call);
            }
        }
        // Every call, a third of them in each job.
        part => {
            let a = full(r, Style { free: 1, ..CHAINS });
            for code in calls_on_arenas().skip(part - 7).step_by(3) {
                let call = call_of(code, r, &a, &[]);
                judge.hold(&a, &call);
            }
        }
    })
}
