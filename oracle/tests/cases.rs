//! The small arenas are all there are, as the exported call gives them too (REFERENCE, Small arenas), two that compress alike hold
//! the same (REFERENCE, Chains), and the model's lines and windows are those that are counted dot by dot (REFERENCE, Frame clock).

use std::collections::{HashMap, HashSet};
use std::panic::catch_unwind;
use std::sync::Mutex;

use oracle::cases::{self, COUNTS};
use oracle::compare::{
    Counts, compare, crate_number, crate_outcome, crate_place, crate_text_found, model_outcome,
};
use oracle::random::{self, Near, Random};
use oracle::runner::Run;
use oracle::sections::{Form, SECTIONS};
use oracle::{
    Archive, Arena, COMMAND_WORDS, CUT, Call, LIMIT, Ptr, Reading, Reply, demand3, exports, frame, guards,
    model, side,
};

#[test]
fn there_are_so_many() {
    for (length, count) in COUNTS.into_iter().enumerate() {
        let arenas = cases::small_arenas(length);
        assert_eq!(arenas.len(), count);
        assert!(arenas.iter().all(|a| model::check(a) == 0));
        let different: HashSet<&Arena> = arenas.iter().collect();
        assert_eq!(different.len(), count);
    }
}

/// What the exported call gives is what REFERENCE, Small arenas tells, the model's list and the enumeration put in order, and each
/// arena passes the crate's own check.
#[test]
fn the_call_gives_every_small_arena_once_and_in_order() {
    let given = cases::given();
    assert_eq!(given, model::small_arenas());
    let of_length = |length: usize| given.iter().filter(|a| a.stack() == length).count();
    assert_eq!([0, 1, 2, 3].map(of_length), [1, 3, 13, 73]);
    assert_eq!(given.len(), 90);
    assert!(given.is_sorted_by(|one, other| cases::place(one) < cases::place(other)));
    for a in given {
        assert_eq!((model::check(a), exports::check(a)), (0, Reply::number(0)), "{a:?}");
        assert!(crate_number(a) == Some(0) || !crate_text_found(), "{a:?}");
        assert_eq!((a.capacity(), a.current()), (a.stack(), 2), "{a:?}");
        for s in 1..=a.stack() {
            let unread = (a.generation[s - 1], a.prev[s - 1], a.payload[s - 1]);
            let link = (a.generation[s - 1], a.payload[s - 1]) == (2, s as u32);
            assert!(if a.is_link(s) { link } else { unread == (0, 0, 0) }, "{a:?}");
        }
    }
    for length in 0..=3 {
        let mut enumerated = cases::enumerated(length);
        enumerated.sort_by_key(cases::place);
        assert_eq!(cases::small_arenas(length), enumerated);
    }
}

/// The arenas are asked of the product, each index once and in order until there is none; one that has not the call is not gone on
/// with. Those that sections take are not the model's list.
#[test]
fn the_small_arenas_are_asked_of_the_product() {
    let asked = Mutex::new(Vec::new());
    let product = |a: &Arena, call: &Call| {
        asked.lock().unwrap().push(call.clone());
        Some(Ok(model_outcome(a, call)))
    };
    let every_index: Vec<Call> = (0..=90).map(Call::SmallArena).collect();
    assert_eq!(cases::given_by(&product).expect("the right list"), model::small_arenas());
    assert_eq!(std::mem::take(&mut *asked.lock().unwrap()), every_index);
    assert_eq!(cases::given_if_linked(&product), model::small_arenas());
    let linked = Archive::SmallArenas.is_linked();
    assert_eq!(asked.into_inner().unwrap(), if linked { every_index } else { vec![] });
    assert!(catch_unwind(|| cases::given_by(&|_, _| None)).is_err());
    let last_missing =
        |a: &Arena, call: &Call| (*call != Call::SmallArena(90)).then(|| Ok(model_outcome(a, call)));
    assert!(catch_unwind(|| cases::given_by(&last_missing)).is_err());
    assert_ne!(cases::given().as_ptr(), model::small_arenas().as_ptr());
}

/// The section of the call has every arena on columns of its own length and on longer ones, up to 1,048,576 words, 14 for each that
/// has slots, and 1 for each column and for the header.
#[test]
fn the_cases_of_the_call_are_of_every_kind() {
    let asked = Mutex::new(HashSet::new());
    let product = |a: &Arena, call: &Call| {
        let after = model_outcome(a, call);
        if let Call::SmallArena(index) = call {
            let lengths = [a.prev.len(), a.next.len(), a.generation.len(), a.payload.len(), a.header.len()];
            let [found, length, ..] = after.reply.words;
            let exact = found == 1 && a.capacity() == length as usize;
            asked.lock().unwrap().insert((*index, lengths, after.reply.number, found, exact));
        }
        Some(Ok(after))
    };
    let section = SECTIONS.iter().find(|section| section.name == "small_calls").expect("a section");
    let run = Run { product: &product, seed: 1, threads: 2, most: usize::MAX };
    assert!(run.run(&(section.jobs)(Form::Short), |_| {}).1.is_none());
    let asked = asked.into_inner().unwrap();
    let some = |test: &dyn Fn(u32, [usize; 5], u32, u32, bool) -> bool| {
        asked.iter().any(|&(index, lengths, number, found, exact)| test(index, lengths, number, found, exact))
    };
    for (index, small) in model::small_arenas().iter().enumerate() {
        assert!(some(&|at, _, _, found, exact| at as usize == index && found == 1 && exact), "{index}");
        assert!(some(&|at, _, _, found, exact| at as usize == index && found == 1 && !exact), "{index}");
        let too_short = some(&|at, _, number, _, _| at as usize == index && number == 14);
        assert_eq!(too_short, small.stack() > 0, "{index}");
    }
    for capacity in [CUT as usize - 1, CUT as usize, CUT as usize + 1, LIMIT - 1, LIMIT] {
        assert!(some(
            &|_, lengths, _, found, _| lengths == [capacity, capacity, capacity, capacity, 4] && found == 1
        ));
    }
    for capacity in [0, 3, 4, LIMIT] {
        for column in 0..4 {
            let mut lengths = [capacity, capacity, capacity, capacity, 4];
            lengths[column] += 1;
            assert!(some(&|_, of, number, _, _| of == lengths && number == 1), "{lengths:?}");
        }
    }
    for header in [0, 1, 2, 3, 5, 6] {
        assert!(some(&|_, lengths, number, _, _| lengths == [3, 3, 3, 3, header] && number == 1));
    }
    for index in (90..=100).chain([255, 256, CUT - 1, CUT, CUT + 1, 1 << 31, u32::MAX]) {
        assert!(some(&|at, lengths, number, found, _| at == index
            && lengths[0] < 3
            && (number, found) == (0, 0)));
    }
}

/// What is asked of an arena.
#[derive(Default)]
struct Asked {
    /// Calls with two pointers by their name or kind of insertion, with these
    pairs: HashSet<(&'static str, u32, Ptr, Ptr)>,
    /// Calls with one pointer
    pointers: HashSet<(&'static str, Ptr)>,
    /// Compressions: whether canonical, and whether the reset word is 0
    compressions: HashSet<(bool, bool)>,
    /// The codes of runs of two commands
    runs: HashSet<(u32, u32)>,
    /// Windows of both calls
    windows: HashSet<(&'static str, u32, u32)>,
}

impl Asked {
    /// Keeps what a call asks.
    fn keep(&mut self, call: &Call) {
        match *call {
            Call::Connect(p, q) => _ = self.pairs.insert(("connect", 0, p, q)),
            Call::ExchangeNext(p, q) => _ = self.pairs.insert(("exchange_next", 0, p, q)),
            Call::AreNeighbors(p, q) => _ = self.pairs.insert(("are_neighbors", 0, p, q)),
            Call::Insert(kind, p, q, _) => _ = self.pairs.insert(("insert", kind, p, q)),
            Call::GetLink(p) => _ = self.pointers.insert(("get_link", p)),
            Call::GetLinkNoGen(p) => _ = self.pointers.insert(("get_link_no_gen", p)),
            Call::WalkStart(p) => _ = self.pointers.insert(("walk_start", p)),
            Call::BreakPrev(p) => _ = self.pointers.insert(("break_prev", p)),
            Call::BreakNext(p) => _ = self.pointers.insert(("break_next", p)),
            Call::Remove(p) => _ = self.pointers.insert(("remove", p)),
            Call::Drain(p, _) => _ = self.pointers.insert(("drain", p)),
            Call::CompressWith(reset, _) => _ = self.compressions.insert((false, reset == 0)),
            Call::CompressCanonical(reset, _) => _ = self.compressions.insert((true, reset == 0)),
            Call::Run(ref words, _) if words.len() == 2 * COMMAND_WORDS => {
                self.runs.insert((words[0], words[COMMAND_WORDS]));
            }
            Call::DueCount(p, from, to) => {
                self.pointers.insert(("due_count", p));
                self.windows.insert(("due_count", from, to));
            }
            Call::DueEvents(p, from, to, _) => {
                self.pointers.insert(("due_events", p));
                self.windows.insert(("due_events", from, to));
            }
            _ => {}
        }
    }
}

/// The section of the arenas that the call gives has each of them twice, once with room for one link, and asks of each every call
/// with every pointer and every two.
#[test]
fn the_calls_on_given_arenas_are_of_every_kind() {
    let asked: Mutex<HashMap<Arena, Asked>> = Mutex::default();
    let product = |a: &Arena, call: &Call| {
        let mut asked = asked.lock().unwrap();
        if !asked.contains_key(a) {
            asked.insert(a.clone(), Asked::default());
        }
        asked.get_mut(a).expect("an arena").keep(call);
        None
    };
    let section = SECTIONS.iter().find(|section| section.name == "small_arenas").expect("a section");
    let run = Run { product: &product, seed: 1, threads: 2, most: usize::MAX };
    assert!(run.run(&(section.jobs)(Form::Short), |_| {}).1.is_none());
    let asked = asked.into_inner().unwrap();
    assert_eq!(asked.len(), 180);
    for room in [0, 1] {
        let of_room = asked.keys().filter(|a| a.capacity() == a.stack() + room);
        let lent_on: HashSet<Arena> = of_room.map(|a| cases::lent_on(a, a.stack())).collect();
        assert_eq!(lent_on, model::small_arenas().iter().cloned().collect());
    }
    for (a, asked) in &asked {
        let pointers = cases::pointers(a);
        let mut named =
            vec!["get_link", "get_link_no_gen", "walk_start", "break_prev", "break_next", "remove"];
        named.extend(["drain", "due_count", "due_events"]);
        for (&p, call) in pointers.iter().flat_map(|p| named.iter().map(move |call| (p, *call))) {
            assert!(asked.pointers.contains(&(call, p)), "{call} with {p:?} on {a:?}");
        }
        for (&p, &q) in pointers.iter().flat_map(|p| pointers.iter().map(move |q| (p, q))) {
            let calls = ["connect", "exchange_next", "are_neighbors"].map(|call| (call, 0));
            for (call, kind) in calls.into_iter().chain((5..=20).map(|kind| ("insert", kind))) {
                let there = asked.pairs.contains(&(call, kind, p, q));
                assert!(there, "{call} {kind} with {p:?} and {q:?} on {a:?}");
            }
        }
        assert_eq!(asked.compressions.len(), 4, "{a:?}");
        for call in ["due_count", "due_events"] {
            assert!(asked.windows.iter().filter(|window| window.0 == call).count() > 30, "{call} on {a:?}");
        }
        for (first, second) in (0..=20).flat_map(|first| (0..=20).map(move |second| (first, second))) {
            let insertion = [first, second].iter().any(|code| (6..=19).contains(code));
            let there = asked.runs.contains(&(first, second));
            assert_eq!(there, !insertion || a.stack() <= 2, "commands {first} and {second} on {a:?}");
        }
    }
}

/// The first sequence of the section of grown arenas takes one in runs from empty to more than 65,536 links, and takes links out of
/// slots above 65,536 again.
#[test]
fn an_arena_is_grown_past_65_536_slots() {
    let seen = Mutex::new([false; 3]);
    let product = |a: &Arena, call: &Call| {
        let after = model_outcome(a, call);
        if let Call::Run(commands, answers) = &after.call {
            let past = |a: &Arena| a.links() > CUT as usize;
            let taken_out =
                |(command, answer): (&[u32], &u32)| command[0] == 5 && command[1] > CUT && *answer == 0;
            let commands = commands.chunks_exact(COMMAND_WORDS).zip(answers);
            let now = [a.links() == 0, !past(a) && past(&after.arena), commands.into_iter().any(taken_out)];
            seen.lock().unwrap().iter_mut().zip(now).for_each(|(seen, now)| *seen |= now);
        }
        Some(Ok(after))
    };
    let section = SECTIONS.iter().find(|section| section.name == "grown").expect("a section");
    let run = Run { product: &product, seed: 1, threads: 1, most: 1 };
    assert!(run.run(&(section.jobs)(Form::Short), |_| {}).1.is_none());
    assert_eq!(seen.into_inner().unwrap(), [true; 3]);
}

#[test]
fn the_tuples_that_pass_are_those_arenas() {
    let mut tuples = Vec::new();
    for length in 0..=3usize {
        let (mut all, mut passed, mut unread_0) = (0, 0, Vec::new());
        for slots in 0..cases::slot_tuples(length) {
            cases::each_tuple(length, 1, slots, |a| {
                all += 1;
                if model::check(a) == 0 {
                    passed += 1;
                    unread_0.extend(
                        (1..=length).all(|s| a.is_link(s) || a.prev[s - 1] == 0).then(|| cases::place(a)),
                    );
                }
            });
        }
        unread_0.sort_unstable();
        assert_eq!(unread_0, cases::small_arenas(length).iter().map(cases::place).collect::<Vec<_>>());
        // A free slot's prev is not read, so each value of it counts.
        let times = |a: &Arena| (length + 2).pow((length - a.links()) as u32);
        assert_eq!(passed, cases::small_arenas(length).iter().map(times).sum::<usize>());
        tuples.push(all);
    }
    assert_eq!(tuples, [4, 162, 16_384, 3_125_000]);
}

#[test]
fn rule_11_alone_refuses_so_many() {
    let all = cases::Interlinked::up_to(3);
    let (mut counts, mut passed, mut sides) = ([0; 4], [0; 4], [0; 2]);
    for a in (0..all.count).map(|number| all.nth(number)) {
        match model::perform(&mut a.clone(), &mut Call::Check) {
            Reply { number: 11, side, .. } => sides[side as usize - 1] += 1,
            reply => {
                assert_eq!(reply, Reply::number(0));
                passed[a.stack()] += 1;
            }
        }
        counts[a.stack()] += 1;
        if crate_text_found() {
            assert_eq!(crate_place(&a), Some(model::broken_place(&a).unwrap_or((0, 0))), "{a:?}");
        }
    }
    // Slots that are links have two words, free ones one, and the free ones can be listed in any order.
    assert_eq!(counts, [0, 3 * 3, 4 * 4 * (16 + 2 * 4), 25 * 25 * (25 + 3 * 5 + 6)]);
    for (length, passed) in passed.into_iter().enumerate().skip(1) {
        let times = |a: &Arena| (length + 2).pow((length - a.links()) as u32);
        let linked = cases::small_arenas(length).into_iter().filter(|a| a.links() > 0);
        assert_eq!(passed, linked.map(|a| times(&a)).sum::<usize>());
    }
    assert_eq!(sides, [22_508, 6_171]);
    assert_eq!(all.count, 29_143);
    assert_eq!(cases::Interlinked::up_to(4).count, 29_143 + 3_545_856);
}

/// How the neighbour is wrong that a link has at a broken place.
fn way(a: &Arena, (slot, side): (u32, u32)) -> &'static str {
    let (named, back) = if side == side::PREV { (&a.prev, &a.next) } else { (&a.next, &a.prev) };
    match named[slot as usize - 1] as usize {
        above if above > a.stack() => "above the stack",
        free if !a.is_link(free) => "free",
        link if back[link - 1] == 0 => "a link that names none",
        _ => "a link that names another",
    }
}

#[test]
fn random_broken_arenas_are_of_every_kind() {
    const WAYS: [&str; 4] =
        ["above the stack", "free", "a link that names none", "a link that names another"];
    let mut found = HashMap::new();
    for seed in 0..20_000 {
        let mut r = Random::new(5_000_000 + seed);
        let near = r.pick(&[Near::First, Near::Last, Near::LastAlone, Near::Anywhere]);
        let stack = 2 + r.below(12);
        let a = random::with_broken_links(&mut r, stack, near);
        assert_eq!(model::check(&a), 11);
        let slots: HashSet<u32> = model::broken_places(&a).map(|(slot, _)| slot).collect();
        let (slot, side) = model::broken_place(&a).expect("a broken arena");
        let at = match slot as usize {
            1 => "the first slot",
            last if last == stack => "the last slot",
            _ => "another slot",
        };
        *found.entry((way(&a, (slot, side)), side, at, slots.len().min(3))).or_insert(0) += 1;
    }
    let wanted = [("the first slot", 1..=3), ("another slot", 1..=3), ("the last slot", 1..=1)];
    for (way, side) in WAYS.into_iter().flat_map(|way| [(way, side::PREV), (way, side::NEXT)]) {
        for (at, slots) in wanted.clone().into_iter().flat_map(|(at, counts)| counts.map(move |n| (at, n))) {
            let cases = found.get(&(way, side, at, slots)).copied().unwrap_or(0);
            assert!(cases >= 20, "{way}, side {side}, {at}, {slots} broken slots: {cases} cases");
        }
    }
}

#[test]
fn arenas_that_compress_alike_hold_the_same() {
    let (mut held, mut counts) = (HashMap::new(), Counts::default());
    let payloads: [fn(usize) -> u32; 3] = [|_| 7, |s| s as u32 % 2, |s| s as u32 / 2];
    for mut a in (0..=5).flat_map(cases::small_arenas) {
        for payload in payloads {
            for s in 1..=a.stack() {
                a.payload[s - 1] = payload(s);
            }
            let call = Call::CompressCanonical(0, vec![0; a.capacity()]);
            let left = compare(&guards::outcome, &a, &call, &mut counts).unwrap().arena;
            let n = a.links();
            let slots = (left.prev[..n].to_vec(), left.next[..n].to_vec(), left.payload[..n].to_vec());
            let chains = demand3::payload_chains(&a);
            let before = held.entry(slots).or_insert_with(|| chains.clone());
            assert_eq!(*before, chains, "{a:?}");
        }
    }
    assert_eq!(counts.cases as usize, 3 * COUNTS[..=5].iter().sum::<usize>());
    assert!(held.len() < counts.cases as usize);
}

/// Whether each dot is in a window, by counting on from its start, dot by dot, until its end: behind the frame's last dot comes
/// the frame's end, and if the window does not end there, dot 0.
fn counted(from: u32, to: u32) -> Vec<bool> {
    let mut due = vec![false; frame::DOTS as usize];
    let mut dot = from;
    while dot != to {
        if dot == frame::DOTS {
            dot = 0;
            continue;
        }
        due[dot as usize] = true;
        dot += 1;
    }
    due
}

#[test]
fn a_window_has_the_dots_that_are_counted() {
    let ends: Vec<u32> = cases::frame_edges().into_iter().filter(|&end| end <= frame::DOTS).collect();
    let mut windows = 0;
    for (k, &from) in ends.iter().enumerate().filter(|(_, from)| **from < frame::DOTS) {
        for &to in ends.iter().skip(k % 3).step_by(3).chain([&from, &0, &frame::DOTS]) {
            let due = counted(from, to);
            assert!(
                (0..frame::DOTS).all(|dot| model::is_due(dot, from, to) == due[dot as usize]),
                "{from} to {to}"
            );
            // The window from its end to its start has the other dots.
            let parted = |dot| model::is_due(dot, from, to) != model::is_due(dot, to, from);
            assert!(from == to || to == frame::DOTS || (0..frame::DOTS).all(parted), "{from} to {to}");
            let past = cases::frame_edges().into_iter().filter(|&payload| payload >= frame::DOTS);
            assert!(past.into_iter().all(|payload| !model::is_due(payload, from, to)), "{from} to {to}");
            windows += 1;
        }
    }
    assert!(windows > 250, "{windows}");
}

#[test]
fn a_line_has_the_dots_that_are_counted() {
    let mut none = Arena::empty(0);
    let (mut line, mut place) = (0, 0);
    for dot in 0..frame::DOTS {
        assert_eq!(model::perform(&mut none, &mut Call::LineOfDot(dot)), Reply::new(0, &[line]));
        let [first, last, ..] = model::perform(&mut none, &mut Call::LineDots(line)).words;
        assert_eq!((dot == first, dot == last), (place == 0, place == 340), "{dot}");
        (line, place) = if place == 340 { (line + 1, 0) } else { (line, place + 1) };
    }
    assert_eq!((line, place), (262, 0));
}

#[test]
fn the_chains_of_edges_have_every_edge() {
    let mut edges = cases::frame_edges();
    edges.sort_unstable();
    for (closed, a) in [false, true].map(|closed| (closed, cases::edge_chains(closed))) {
        assert_eq!(model::check(&a), 0);
        for s in a.link_slots() {
            let chain = model::chain_of(&a, s);
            let mut payloads: Vec<u32> = chain.iter().map(|&s| a.payload[s - 1]).collect();
            payloads.sort_unstable();
            assert_eq!(payloads, edges);
            assert_eq!(chain.iter().all(|&s| a.next[s - 1] != 0), closed);
        }
        assert_eq!(a.links(), 2 * edges.len());
    }
}

/// The cases of section `due` tell windows apart: there are chains with some links due and others not, in straight windows and
/// in crossing ones, and the slots that are due are not always in rising order. The crate answers a part of them.
#[test]
fn what_is_due_in_small_arenas_is_of_every_kind() {
    let (mut straight, mut crossing, mut not_rising, mut by_crate) = (0, 0, 0, 0);
    for a in (0..=3).flat_map(cases::clocked_arenas) {
        cases::each_due(&a, |call| {
            let after = model_outcome(&a, &call);
            let (Call::DueEvents(p, from, to, report), 0) = (&after.call, after.reply.number) else { return };
            let (all, due) = (model::chain_of(&a, p.slot as usize).len(), after.reply.words[0] as usize);
            let some_of_it = usize::from(0 < due && due < all);
            *if from <= to { &mut straight } else { &mut crossing } += some_of_it;
            not_rising += usize::from(!report[..due].is_sorted());
            by_crate += usize::from(crate_outcome(&a, &call).is_some());
        });
    }
    assert!(straight > 1_000 && crossing > 1_000 && not_rising > 500, "{straight} {crossing} {not_rising}");
    assert!(by_crate > 10_000 || !crate_text_found(), "{by_crate}");
}
