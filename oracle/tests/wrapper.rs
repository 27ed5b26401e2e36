//! The safe wrapper answers what the exported calls answer: any call on whole and damaged arenas, every insertion and every
//! window on every small arena, every line, every small arena that the call gives; and the view of a checked arena, which reads
//! the columns itself, reads what the proved calls read.

use chain_arena::{Checked, Dot, Link, Ptr, Refusal, Window};
use oracle::calls::{each_call, some_call};
use oracle::compare::{Counts, model_outcome, wrapper_outcome};
use oracle::random::{self, Random};
use oracle::{Arena, Call, LIMIT, Reading, cases, frame, kind, model};

#[test]
fn any_call() {
    let mut counts = Counts::default();
    for seed in 0..400_000 {
        let mut r = Random::new(8_000_000 + seed);
        let a = if r.once_in(4) { random::damaged(&mut r, 12) } else { random::any_whole(&mut r, 12) };
        let a = random::with_dots(&mut r, a);
        hold_call(&a, &some_call(&mut r, &a, &[]), &mut counts);
    }
    counts.say("calls through the wrapper");
    assert!(counts.cases > 390_000, "every call is there");
    for number in (0..=19).chain([100]) {
        assert!(counts.numbers[number] > 100, "{number} was hardly tried");
    }
}

#[test]
fn any_line_and_any_window() {
    let (mut counts, none) = (Counts::default(), Arena::empty(0));
    for call in cases::lines().map(Call::LineDots).chain(cases::dots().map(Call::LineOfDot)) {
        hold_call(&none, &call, &mut counts);
    }
    for a in (0..=3).flat_map(cases::clocked_arenas) {
        cases::each_due(&a, |call| hold_call(&a, &call, &mut counts));
    }
    counts.say("lines and windows through the wrapper");
    for number in [0, 12, 14, 19] {
        assert!(counts.numbers[number] > 1_000, "{number} was hardly tried");
    }
}

#[test]
fn any_small_arena() {
    let mut counts = Counts::default();
    for (number, lengths) in cases::lengths_to_write().into_iter().enumerate() {
        let mut r = Random::new(8_600_000 + number as u64);
        let a = random::noisy(&mut r, lengths);
        let equal = lengths[..4] == [a.capacity(); 4];
        for index in cases::indexes(&mut r, a.capacity(), equal) {
            hold_call(&a, &Call::SmallArena(index), &mut counts);
        }
    }
    counts.say("small arenas through the wrapper");
    for number in [0, 1, 14] {
        assert!(counts.numbers[number] > 200, "{number} was hardly tried");
    }
}

/// The iterator gives the small arenas with words of their own, from either end and from anywhere.
#[cfg(all(small_arenas, level_two))]
#[test]
fn the_iterator_over_the_small_arenas() {
    let words = |small: &chain_arena::SmallArena| {
        let a = small.as_arena();
        let (prev, next) = (a.prev.to_vec(), a.next.to_vec());
        let (generation, payload, header) = (a.generation.to_vec(), a.payload.to_vec(), a.header.to_vec());
        Arena { prev, next, generation, payload, header }
    };
    let all = || chain_arena::small_arenas();
    assert_eq!(all().map(|small| words(&small)).collect::<Vec<Arena>>(), model::small_arenas());
    assert!(all().rev().map(|small| words(&small)).eq(model::small_arenas().iter().rev().cloned()));
    assert_eq!((all().len(), all().count()), (90, 90));
    assert!(
        all()
            .zip(0..)
            .all(|(small, index)| small.index() == index && all().nth(index as usize) == Some(small))
    );
    for mut small in all() {
        let before = words(&small);
        let mut arena = small.as_arena_mut();
        assert_eq!(arena.set_generation(7), Ok(()));
        assert_eq!(words(&small), Arena { header: [&before.header[..3], &[7]].concat(), ..before });
    }
}

#[test]
fn any_insertion() {
    let mut counts = Counts::default();
    for a in (0..=3).flat_map(cases::roomy_arenas) {
        cases::each_insertion(&a, |call| hold_call(&a, &call, &mut counts));
    }
    counts.say("insertions through the wrapper");
    for number in [0, 17, 18] {
        assert!(counts.numbers[number] > 10_000, "{number} was hardly tried");
    }
}

#[test]
fn any_call_on_a_broken_arena() {
    let mut counts = Counts::default();
    let arenas = cases::Interlinked::up_to(3);
    for number in 0..arenas.count {
        let (a, mut r) = (arenas.nth(number), Random::new(8_500_000 + number as u64));
        if model::check(&a) != 0 {
            each_call(&mut r, &a).for_each(|call| hold_call(&a, &call, &mut counts));
        }
    }
    counts.say("calls through the wrapper on broken arenas");
    assert!(counts.sides.iter().all(|&cases| cases > 100_000), "{counts}");
    assert_eq!(counts.numbers[11], counts.cases);
}

/// Holds a call through the wrapper to the model. The wrapper has no name for an unknown kind of insertion, nor for a window
/// that the frame has not.
fn hold_call(a: &Arena, call: &Call, counts: &mut Counts) {
    let has_name = match *call {
        Call::Insert(kind, ..) => kind::ALL.contains(&kind),
        Call::DueCount(_, from, to) | Call::DueEvents(_, from, to, _) => {
            from < frame::DOTS && to <= frame::DOTS
        }
        _ => true,
    };
    if !has_name {
        return assert!(wrapper_outcome(a, call).is_none());
    }
    let expected = model_outcome(a, call);
    counts.count(&expected.reply);
    if let Some(found) = wrapper_outcome(a, call) {
        counts.with_exports += 1;
        assert_eq!(found, expected, "{call:?} on {a:?}");
    }
}

/// Where a view of a checked arena parts from the proved calls on an arena: in what it answers for some pointer or two, or
/// in the chains or links that it lists.
fn parting(view: Checked<'_>, a: &Arena) -> Option<String> {
    let arena = a.as_arena();
    let pointers = pointers(a);
    let one = pointers.iter().find_map(|&p| reading_parts(view, arena, p));
    let two = || {
        let pairs = pointers.iter().flat_map(|&p| pointers.iter().map(move |&q| (p, q)));
        let mut pairs = pairs.filter(|&(p, q)| Ok(view.are_neighbors(p, q)) != arena.are_neighbors(p, q));
        pairs.next().map(|(p, q)| format!("are_neighbors({p:?}, {q:?})"))
    };
    one.or_else(two).or_else(|| listing_parts(view, a))
}

/// Pointers to every slot of the stack, to 0 and to the slot above, each with the slot's generation and with others.
fn pointers(a: &Arena) -> Vec<Ptr> {
    let generations = |s: usize| {
        let own = s.checked_sub(1).and_then(|place| a.generation.get(place)).copied().unwrap_or(0);
        [own, own.wrapping_add(1), 0, a.current()]
    };
    let slots = 0..=a.stack() + 1;
    slots.flat_map(|s| generations(s).map(|generation| Ptr { slot: s as u32, generation })).collect()
}

/// The links of a chain as the proved calls give them, step by step.
fn walked(arena: chain_arena::Arena<'_>, p: Ptr) -> Result<Vec<(Ptr, Link)>, Refusal> {
    arena.walk(p)?.map(|p| arena.get_link(p).map(|link| (p, link))).collect()
}

/// What a view reads at a pointer otherwise than the proved calls.
fn reading_parts(view: Checked<'_>, arena: chain_arena::Arena<'_>, p: Ptr) -> Option<String> {
    let link = arena.get_link(p);
    let along_next = || {
        let mut chain = walked(arena, p)?;
        let behind =
            chain.iter().position(|(_, link)| link.next.is_none()).map_or(chain.len(), |end| end + 1);
        chain[behind..].reverse();
        chain.rotate_left(behind);
        Ok(chain)
    };
    let found = [
        ("link", view.link(p) == link),
        ("link_no_gen", view.link_no_gen(p) == arena.get_link_no_gen(p)),
        ("payload", view.payload(p) == link.map(|link| link.payload)),
        ("prev", view.prev(p) == link.map(|link| link.prev)),
        ("next", view.next(p) == link.map(|link| link.next)),
        ("contains", view.contains(p) == link.is_ok()),
        ("ptr", view.ptr(p.slot) == Some(p) || link.is_err()),
        ("chain", view.chain(p).map(Iterator::collect) == walked(arena, p)),
        ("due", WINDOWS.iter().all(|&window| due_is_alike(view, arena, p, window))),
        ("chain_from_first", view.chain_from_first(p).map(Iterator::collect) == along_next()),
        (
            "is_closed",
            view.chain(p).map(|chain| chain.is_closed()) == walked(arena, p).map(|chain| closed(&chain)),
        ),
    ];
    found.iter().find(|(_, alike)| !alike).map(|(name, _)| format!("{name}({p:?})"))
}

/// Windows that tell payloads of small arenas apart, in order and over the end of the frame.
const WINDOWS: [Option<Window>; 5] = [
    Window::of(0, 89_342),
    Window::of(101, 103),
    Window::of(103, 101),
    Window::of(102, 102),
    Window::of(102, 103),
];

/// Whether a view has the same links due in a window as the proved call.
fn due_is_alike(view: Checked<'_>, arena: chain_arena::Arena<'_>, p: Ptr, window: Option<Window>) -> bool {
    let (window, mut report) = (window.expect("a window of the frame"), vec![0; arena.payload.len()]);
    let due = view.due(p, window).map(|due| due.collect::<Vec<(Ptr, Link)>>());
    let links = |ptr: Ptr| arena.get_link(ptr).map(|link| (ptr, link));
    due == arena
        .due_events(p, window, &mut report)
        .and_then(|due| due.events().map(|event| links(event.ptr)).collect())
}

/// Whether a chain goes round.
fn closed(chain: &[(Ptr, Link)]) -> bool {
    chain.iter().all(|(_, link)| link.next.is_some())
}

/// What is wrong with the chains or links that a view lists: not every link once, or another order than is told.
fn listing_parts(view: Checked<'_>, a: &Arena) -> Option<String> {
    let arena = a.as_arena();
    let read = |s| (a.ptr(s), arena.get_link(a.ptr(s)).expect("a link of the arena"));
    let links: Vec<(Ptr, Link)> = a.link_slots().map(read).collect();
    let chains: Vec<Vec<(Ptr, Link)>> = view.chains().map(Iterator::collect).collect();
    let mut on_chains = chains.concat();
    on_chains.sort_by_key(|(p, _)| p.slot);
    let along_next = |chain: &Vec<(Ptr, Link)>| {
        let lowest = chain.iter().map(|(p, _)| p.slot).min();
        let begins = chain[0].1.prev.is_none() || lowest == Some(chain[0].0.slot);
        begins && walked(arena, chain[0].0).as_ref() == Ok(chain)
    };
    let order: Vec<_> = chains.iter().map(|chain| (closed(chain), chain[0].0.slot)).collect();
    let found = [
        ("links", view.links().eq(links.iter().copied())),
        ("len", (view.len(), view.links().len(), view.is_empty()) == (a.links(), a.links(), a.links() == 0)),
        ("chains, each link once", on_chains == links),
        ("chains, along next", chains.iter().all(along_next)),
        ("chains, in order", order.is_sorted()),
        (
            "chains, closed or not",
            view.chains().map(|chain| chain.is_closed()).eq(chains.iter().map(|c| closed(c))),
        ),
        ("header", view.header().words() == *a.header),
    ];
    found.iter().find(|(_, alike)| !alike).map(|(name, _)| name.to_string())
}

/// Holds the view of an arena to the proved calls.
fn hold_view(a: &Arena) {
    let view = a.as_arena().checked().expect("an arena that passes the check");
    assert_eq!(parting(view, a), None, "{a:?}");
}

#[test]
fn the_view_of_a_checked_arena_is_what_the_calls_read() {
    for length in 0..=4 {
        cases::dressed_arenas(length).iter().for_each(hold_view);
    }
    for seed in 0..300 {
        hold_view(&random::any_whole(&mut Random::new(9_000_000 + seed), 30));
    }
}

#[test]
fn what_is_due_in_a_view_is_what_the_call_reports() {
    let mut held = 0;
    for a in (0..=3).flat_map(cases::clocked_arenas) {
        let view = a.as_arena().checked().expect("an arena that passes the check");
        cases::each_due(&a, |call| {
            if let Call::DueCount(p, from, to) = call
                && Window::of(from, to).is_some()
            {
                assert!(due_is_alike(view, a.as_arena(), p, Window::of(from, to)), "{call:?} on {a:?}");
                held += 1;
            }
        });
    }
    for a in [false, true].map(cases::edge_chains) {
        let (view, edges) = (a.as_arena().checked().expect("an arena that passes"), cases::frame_edges());
        for (from, to) in edges.iter().flat_map(|&from| edges.iter().map(move |&to| (from, to))) {
            let Some(window) = Window::of(from, to) else { continue };
            assert!(due_is_alike(view, a.as_arena(), a.ptr(1), Some(window)), "{from} to {to}");
            let contains = |payload| Dot::new(payload).is_some_and(|dot| window.contains(dot));
            assert!(edges.iter().all(|&payload| contains(payload) == model::is_due(payload, from, to)));
            held += 1;
        }
    }
    assert!(held > 20_000, "{held}");
}

#[test]
fn a_broken_arena_has_no_view() {
    for seed in 0..20_000 {
        let mut r = Random::new(9_500_000 + seed);
        let whole = random::any_whole(&mut r, 12);
        let broken = random::broken(&mut r, &whole);
        let refusal = broken.as_arena().check().expect_err("a broken arena");
        assert_eq!(broken.checked().map(|_| ()), Err(refusal));
    }
}

/// What can be read of an arena: its header, and of each slot of the stack the generation, and of a link all words.
fn readable(a: &Arena) -> (Vec<u32>, Vec<[u32; 4]>) {
    let words = |s: usize| [a.prev[s - 1], a.next[s - 1], a.generation[s - 1], a.payload[s - 1]];
    (a.header.clone(), (1..=a.stack()).map(|s| if a.is_link(s) { words(s) } else { [0; 4] }).collect())
}

#[test]
fn the_view_of_another_arena_is_found_out() {
    let arenas: Vec<Arena> = (0..=3).flat_map(cases::dressed_arenas).collect();
    let mut told_apart = 0;
    for (a, b) in arenas.iter().flat_map(|a| arenas.iter().map(move |b| (a, b))) {
        if readable(a) != readable(b) {
            assert!(parting(a.as_arena().checked().unwrap(), b).is_some(), "{a:?} for {b:?}");
            told_apart += 1;
        }
    }
    assert!(told_apart > 100_000, "only {told_apart} pairs");
}

#[test]
fn the_largest_arenas_are_read_in_linear_time() {
    let style = random::Style { free: 0, longest: LIMIT, even: true, scattered: true, closed: 0 };
    let shapes = [
        style,
        random::Style { closed: 16, ..style },
        random::Style { longest: 1, ..style },
        random::Style { longest: 2, closed: 16, ..style },
        random::Style { free: 8, longest: 3, closed: 8, ..style },
    ];
    for (seed, style) in shapes.into_iter().enumerate() {
        let a = random::whole(&mut Random::new(seed as u64), LIMIT, LIMIT, style);
        let began = std::time::Instant::now();
        let view = a.as_arena().checked().unwrap();
        assert_eq!(view.links().count(), a.links());
        assert_eq!(view.chains().flatten().count(), a.links());
        let p = a.ptr(a.link_slots().next().unwrap());
        let chain: Vec<Ptr> = view.chain(p).unwrap().map(|(p, _)| p).collect();
        assert_eq!(view.chain_from_first(p).unwrap().count(), chain.len());
        // It takes a fraction of a second; with a check for each link it would take hours.
        assert!(began.elapsed() < std::time::Duration::from_secs(10), "{style:?}: {:?}", began.elapsed());
        assert!(a.as_arena().walk(p).unwrap().take(10).eq(chain.into_iter().take(10)));
    }
}
