//! The frame clock in the safe wrapper: dots, lines and windows, and what of a chain is due in one. What is expected comes from dividing by 341, and from
//! counting how far a dot is behind the start of a window.

use chain_arena::ffi::{
    DueResult, LineDotsResult, LineResult, chain_arena_due_count, chain_arena_due_events,
    chain_arena_line_dots, chain_arena_line_of_dot,
};
use chain_arena::{Dot, DueEvent, Line, OwnedArena, Ptr, RefusalKind, Slot, Window};

/// How many dots a frame has.
const DOTS: u32 = 262 * 341;

/// Numbers at which something changes, and some between them.
const CORNERS: [u32; 13] =
    [0, 1, 340, 341, 342, 681, 682, 44_671, DOTS - 341, DOTS - 340, DOTS - 2, DOTS - 1, DOTS];

/// A dot of the frame.
fn dot(number: u32) -> Dot {
    Dot::new(number).unwrap()
}

/// Whether a payload is due from a dot up to, but not including, an end: whether it is a dot that is not further behind the start than the window is long.
fn is_due(payload: u32, from: u32, to: u32) -> bool {
    let long = if to < from { to + DOTS - from } else { to - from };
    payload < DOTS && (payload + DOTS - from) % DOTS < long
}

/// Every window of the corners.
fn windows() -> impl Iterator<Item = Window> {
    let pairs = CORNERS.into_iter().flat_map(|from| CORNERS.map(|to| (from, to)));
    pairs.filter_map(|(from, to)| Window::of(from, to))
}

/// The open chain 9 -> 4 -> 7 -> 1 -> 12 -> 2, the closed 3 -> 11 -> 6 -> (3), the lone 10 and the free slots 5 and 8. Slot 13 is above the stack.
fn sample() -> OwnedArena {
    let payload = vec![340, 0, 341, DOTS, 77, DOTS - 1, 1, 77, 44_671, u32::MAX, 681, DOTS - 341, 340];
    OwnedArena {
        prev: vec![7, 12, 6, 9, 99, 11, 4, 99, 0, 0, 3, 1, 4],
        next: vec![12, 0, 11, 7, 8, 3, 1, 8, 4, 0, 6, 2, 4],
        generation: vec![5, 6, 7, 8, 0, 9, 10, 0, 11, 12, 13, 14, 5],
        payload,
        header: vec![12, 10, 5, 20],
    }
}

/// The chains of the sample along next, and whether each is closed.
const CHAINS: [(&[Slot], bool); 3] = [(&[9, 4, 7, 1, 12, 2], false), (&[3, 11, 6], true), (&[10], false)];

/// The pointer to a link of the sample.
fn ptr(arena: &OwnedArena, slot: Slot) -> Ptr {
    Ptr { slot, generation: arena.generation[slot as usize - 1] }
}

/// Each link of the sample, with the slots of a walk from it.
fn walks() -> impl Iterator<Item = (Slot, Vec<Slot>)> {
    CHAINS.into_iter().flat_map(|(chain, closed)| {
        chain.iter().enumerate().map(move |(place, &slot)| {
            let (before, after) = chain.split_at(place);
            let rest: Vec<Slot> =
                if closed { before.to_vec() } else { before.iter().rev().copied().collect() };
            (slot, [after, &rest].concat())
        })
    })
}

#[test]
fn every_dot_has_its_line_and_its_place_there() {
    assert_eq!((Line::COUNT, Line::DOTS, Dot::COUNT), (262, 341, DOTS));
    for number in 0..DOTS {
        let dot = dot(number);
        assert_eq!((dot.get(), u32::from(dot), dot.to_string()), (number, number, number.to_string()));
        assert_eq!((dot.line().get(), dot.place()), (number / 341, number % 341));
        assert_eq!(dot.line().dot(dot.place()), Some(dot));
        assert_eq!(Dot::try_from(number), Ok(dot));
        // Safety: nothing is asked of a number.
        let answer = unsafe { chain_arena_line_of_dot(number) };
        assert_eq!(answer, LineResult { number: 0, line: number / 341 });
    }
    assert_eq!((Dot::FIRST, Dot::LAST), (dot(0), dot(89_341)));
    for number in [DOTS, DOTS + 1, 1 << 17, (1 << 17) + 5, 1 << 31, u32::MAX] {
        assert_eq!(Dot::new(number), None);
        let refusal = Dot::try_from(number).unwrap_err();
        assert_eq!((refusal.number(), refusal.kind()), (19, RefusalKind::OutOfFrame));
        // Safety: nothing is asked of a number.
        assert_eq!(unsafe { chain_arena_line_of_dot(number) }, LineResult { number: 19, line: 0 });
    }
}

#[test]
fn every_line_has_its_dots() {
    for number in 0..262 {
        let line = Line::new(number).unwrap();
        let (first, last) = (341 * number, 341 * number + 340);
        assert_eq!((line.get(), u32::from(line), line.to_string()), (number, number, number.to_string()));
        assert_eq!((line.first(), line.last()), (dot(first), dot(last)));
        assert_eq!((line.window().start(), line.window().end()), (dot(first), last + 1));
        assert_eq!((line.dot(0), line.dot(340)), (Some(line.first()), Some(line.last())));
        assert_eq!((line.dot(341), line.dot(u32::MAX)), (None, None));
        assert_eq!(Line::try_from(number), Ok(line));
        // Safety: nothing is asked of a number.
        assert_eq!(unsafe { chain_arena_line_dots(number) }, LineDotsResult { number: 0, first, last });
    }
    assert!(Line::all().map(Line::get).eq(0..262));
    assert_eq!((Line::all().len(), Line::all().next_back()), (262, Some(Line::LAST)));
    assert_eq!((Line::FIRST.get(), Line::LAST.get()), (0, 261));
    for number in [262, 263, 341, 1 << 16, (1 << 16) + 5, 1 << 31, u32::MAX] {
        assert_eq!(Line::new(number), None);
        let refusal = Line::try_from(number).unwrap_err();
        assert_eq!((refusal.number(), refusal.kind()), (19, RefusalKind::OutOfFrame));
        // Safety: nothing is asked of a number.
        let answer = unsafe { chain_arena_line_dots(number) };
        assert_eq!(answer, LineDotsResult { number: 19, first: 0, last: 0 });
    }
    let refusal = Line::try_from(262).unwrap_err();
    assert_eq!((refusal.slot(), refusal.side()), (None, None));
    assert_eq!(
        refusal.to_string(),
        "refused with 19: out of the frame: a dot is over 89,341, a window's end over 89,342, or a line over 261"
    );
}

#[test]
fn a_window_has_the_dots_from_its_start_to_its_end() {
    let mut seen = 0;
    for (from, to) in CORNERS.into_iter().flat_map(|from| CORNERS.map(|to| (from, to))) {
        let Some(window) = Window::of(from, to) else {
            assert_eq!(from, DOTS, "{to}");
            continue;
        };
        assert_eq!(Window::try_from((from, to)), Ok(window));
        seen += 1;
        assert_eq!((window.start(), window.end(), window.is_empty()), (dot(from), to, from == to));
        let ends = Dot::new(to).map_or(Window::to_end(dot(from)), |to| Window::new(dot(from), to));
        assert_eq!(window, ends);
        for payload in CORNERS.into_iter().flat_map(|corner| [corner, corner + 1, corner.saturating_sub(1)]) {
            let has = Dot::new(payload).is_some_and(|dot| window.contains(dot));
            assert_eq!(has, is_due(payload, from, to), "{payload} from {from} to {to}");
        }
    }
    assert_eq!(seen, 12 * 13);
    assert_eq!(Window::FRAME, Window::of(0, DOTS).unwrap());
    for (from, to) in [(DOTS, 0), (DOTS, DOTS), (u32::MAX, 5), (0, DOTS + 1), (5, u32::MAX)] {
        assert_eq!(Window::of(from, to), None, "{from} to {to}");
        let refusal = Window::try_from((from, to)).unwrap_err();
        assert_eq!((refusal.number(), refusal.kind()), (19, RefusalKind::OutOfFrame));
    }
}

#[test]
fn what_is_due_comes_in_the_order_of_the_walk() {
    let columns = sample();
    let (arena, checked) = (columns.as_arena(), columns.checked().unwrap());
    let (mut most, mut crossing) = (0, 0);
    for (slot, walk) in walks() {
        assert!(arena.walk(ptr(&columns, slot)).unwrap().map(|p| p.slot).eq(walk.iter().copied()));
        for window in windows() {
            let (p, from, to) = (ptr(&columns, slot), window.start().get(), window.end());
            let payload = |slot: Slot| columns.payload[slot as usize - 1];
            let due: Vec<Slot> =
                walk.iter().copied().filter(|&slot| is_due(payload(slot), from, to)).collect();
            let told = format!("slot {slot}, from {from} to {to}");
            assert_eq!(arena.due_count(p, window), Ok(due.len()), "{told}");
            let mut report = vec![999; walk.len() + 2];
            let answer = arena.due_events(p, window, &mut report).unwrap();
            assert_eq!(answer.slots(), due, "{told}");
            let events: Vec<DueEvent> = due
                .iter()
                .map(|&slot| DueEvent { ptr: ptr(&columns, slot), dot: dot(payload(slot)) })
                .collect();
            assert_eq!(answer.events().len(), due.len());
            assert!(answer.events().eq(events.iter().copied()), "{told}");
            assert!(report[due.len()..].iter().all(|&word| word == 999), "{told}: words past the count stay");
            assert_eq!(columns.due_events(p, window), Ok(events), "{told}");
            let links = due.iter().map(|&slot| ptr(&columns, slot)).map(|p| (p, checked.link(p).unwrap()));
            assert!(checked.due(p, window).unwrap().eq(links), "{told}");
            most = most.max(due.len());
            crossing += usize::from(to < from && due.len() > 1);
        }
    }
    assert!(most == 5 && crossing > 100, "{most} due at most, {crossing} windows with some cross the end");
}

#[test]
fn the_report_must_have_a_word_for_each_link_of_the_chain() {
    let columns = sample();
    let arena = columns.as_arena();
    for (slot, walk) in walks() {
        let p = ptr(&columns, slot);
        // whether all are due or none, the chain decides
        for window in [Window::FRAME, Window::new(dot(7), dot(7))] {
            for length in 0..walk.len() {
                let mut report = vec![999; length];
                let refusal = arena.due_events(p, window, &mut report).unwrap_err();
                assert_eq!((refusal.number(), refusal.kind()), (14, RefusalKind::SliceLength));
                assert!(report.iter().all(|&word| word == 999));
            }
            assert!(arena.due_events(p, window, &mut vec![999; walk.len()]).is_ok());
            assert!(columns.due_events(p, window).is_ok());
        }
    }
}

/// The words of the two calls on an arena, with any words for the ends of the window, and what is left of the report.
fn raw(columns: &OwnedArena, p: Ptr, ends: [u32; 2], report: &mut [Slot]) -> [DueResult; 2] {
    let OwnedArena { prev, next, generation, payload, header } = columns;
    // Safety: each pointer and count are those of one slice, and the report overlaps none of the columns.
    unsafe {
        [
            chain_arena_due_count(
                prev.as_ptr(),
                prev.len(),
                next.as_ptr(),
                next.len(),
                generation.as_ptr(),
                generation.len(),
                payload.as_ptr(),
                payload.len(),
                header.as_ptr(),
                header.len(),
                p.slot,
                p.generation,
                ends[0],
                ends[1],
            ),
            chain_arena_due_events(
                prev.as_ptr(),
                prev.len(),
                next.as_ptr(),
                next.len(),
                generation.as_ptr(),
                generation.len(),
                payload.as_ptr(),
                payload.len(),
                header.as_ptr(),
                header.len(),
                p.slot,
                p.generation,
                ends[0],
                ends[1],
                report.as_mut_ptr(),
                report.len(),
            ),
        ]
    }
}

#[test]
fn the_refusals_come_in_their_order() {
    let whole = sample();
    let mut broken = sample();
    broken.next[0] = 0;
    let good = ptr(&whole, 3);
    let stale = [(0, 0), (5, 0), (13, 5), (14, 5), (3, 6)].map(|(slot, generation)| Ptr { slot, generation });
    let result = |number, broken, side| DueResult { number, broken, side, count: 0 };
    for short in [true, false] {
        let mut report = vec![999; if short { 2 } else { 3 }];
        for ends in [[0, DOTS], [DOTS - 1, 5], [DOTS, 5], [0, DOTS + 1], [u32::MAX, u32::MAX]] {
            let is_window = Window::of(ends[0], ends[1]).is_some();
            for p in stale {
                assert_eq!(raw(&broken, p, ends, &mut report), [result(11, 12, 1); 2]);
                assert_eq!(raw(&whole, p, ends, &mut report), [result(12, 0, 0); 2]);
            }
            let [count, events] = raw(&whole, good, ends, &mut report);
            match is_window {
                false => assert_eq!([count, events], [result(19, 0, 0); 2]),
                true => {
                    assert_eq!(count.number, 0);
                    assert_eq!(events, if short { result(14, 0, 0) } else { count });
                }
            }
            if short || !is_window {
                assert!(report.iter().all(|&word| word == 999), "a refused call has written nothing");
            }
            report.fill(999);
        }
    }
}

#[test]
fn a_window_may_end_with_the_frame() {
    let columns = sample();
    let p = ptr(&columns, 6);
    let last = Window::to_end(Dot::LAST);
    assert_eq!((last.start().get(), last.end()), (DOTS - 1, DOTS));
    assert_eq!(columns.as_arena().due_count(p, last), Ok(1));
    assert_eq!(columns.due_events(p, last), Ok(vec![DueEvent { ptr: p, dot: Dot::LAST }]));
    // a window that ends at dot 0 ends there too, but for one that begins at dot 0
    assert_eq!(columns.as_arena().due_count(p, Window::new(Dot::LAST, Dot::FIRST)), Ok(1));
    assert_eq!(columns.as_arena().due_count(p, Window::new(Dot::FIRST, Dot::FIRST)), Ok(0));
}

#[test]
fn the_slots_can_be_kept_while_the_arena_changes() {
    let mut columns = sample();
    let mut report = [0; 6];
    let slots = columns
        .as_arena_mut()
        .as_arena()
        .due_events(Ptr { slot: 7, generation: 10 }, Window::FRAME, &mut report)
        .unwrap()
        .slots();
    columns.payload.fill(0);
    assert_eq!(slots, [7, 1, 12, 2, 9]);
}

/// One chain in all slots of an arena: the owned arena's own report has room for it.
#[test]
fn an_owned_arena_reports_a_chain_of_all_its_slots() {
    let arena = OwnedArena {
        prev: vec![0, 1, 2, 3],
        next: vec![2, 3, 4, 0],
        generation: vec![5; 4],
        payload: vec![3, 2, 1, 0],
        header: vec![4, 4, 0, 5],
    };
    let events = arena.due_events(ptr(&arena, 2), Window::FRAME).unwrap();
    assert!(events.iter().map(|event| (event.ptr.slot, event.dot.get())).eq([
        (2, 2),
        (3, 1),
        (4, 0),
        (1, 3)
    ]));
}
