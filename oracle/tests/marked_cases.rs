//! K1 to K12, some insertions and windows, by the model, the crate's text and the exports.

use oracle::compare::{Counts, compare};
use oracle::{Arena, Call, Ptr, Reply, Walk, guards, kind};

/// An arena whose links all have generation 5, the current one: each slot's (prev, next), or (0, pointer) if it is free.
fn arena(slots: &[(u32, u32)], free: &[usize], root: u32) -> Arena {
    let n = slots.len();
    let mut a = Arena::empty(n);
    for (place, &(prev, next)) in slots.iter().enumerate() {
        let is_free = free.contains(&(place + 1));
        a.prev[place] = prev;
        a.next[place] = next;
        a.generation[place] = if is_free { 0 } else { 5 };
        a.payload[place] = if is_free { 0 } else { 70 + place as u32 };
    }
    a.header = vec![n as u32, (n - free.len()) as u32, root, 5];
    a
}

/// The pointer to a slot at generation 5.
fn p(slot: u32) -> Ptr {
    Ptr { slot, generation: 5 }
}

/// Makes the calls one after the other, each all three ways, and answers the replies, the last call's lent slices and the
/// arena left.
fn play(mut a: Arena, calls: Vec<Call>) -> (Vec<Reply>, Call, Arena) {
    let mut counts = Counts::default();
    let mut replies = Vec::new();
    let mut last = Call::Check;
    for call in calls {
        let outcome = compare(&guards::outcome, &a, &call, &mut counts).unwrap();
        replies.push(outcome.reply);
        last = outcome.call;
        a = outcome.arena;
    }
    (replies, last, a)
}

/// The numbers of the replies.
fn numbers(replies: &[Reply]) -> Vec<u32> {
    replies.iter().map(|reply| reply.number).collect()
}

/// The chain 1 -> 2 -> 3.
fn three() -> Arena {
    arena(&[(0, 2), (1, 3), (2, 0)], &[], 0)
}

#[test]
fn k1_capacity_0_is_accepted_and_keeps_its_generation() {
    let empty = arena(&[], &[], 0);
    let (replies, _, left) = play(empty, vec![Call::Check, Call::CompressCanonical(0, vec![])]);
    assert_eq!(numbers(&replies), [0, 0]);
    assert_eq!(left.header, [0, 0, 0, 5]);
}

#[test]
fn k2_a_lone_link_connected_to_itself_is_closed() {
    let (replies, _, left) = play(arena(&[(0, 0)], &[], 0), vec![Call::Connect(p(1), p(1))]);
    assert_eq!(numbers(&replies), [0]);
    assert_eq!((left.prev[0], left.next[0]), (1, 1));
}

#[test]
fn k3_the_end_of_a_chain_of_two_has_a_prev() {
    let before = arena(&[(0, 2), (1, 0)], &[], 0);
    let (replies, _, left) = play(before.clone(), vec![Call::Connect(p(2), p(2))]);
    assert_eq!(numbers(&replies), [13]);
    assert_eq!(left, before);
}

#[test]
fn k4_exchange_cuts_a_link_out_and_closes_it() {
    let (replies, _, left) = play(three(), vec![Call::ExchangeNext(p(1), p(2))]);
    assert_eq!(numbers(&replies), [0]);
    assert_eq!((left.prev, left.next), (vec![0, 2, 1], vec![3, 2, 0]));
}

#[test]
fn k5_exchange_with_itself_changes_nothing() {
    let (replies, _, left) = play(three(), vec![Call::ExchangeNext(p(1), p(1))]);
    assert_eq!(numbers(&replies), [0]);
    assert_eq!(left, three());
}

#[test]
fn k6_removing_the_last_slot_pops_it() {
    let (replies, _, left) = play(three(), vec![Call::Remove(p(3))]);
    assert_eq!(replies, [Reply::new(0, &[2, 0, 72])]);
    assert_eq!(left.header, [2, 2, 0, 6]);
    assert_eq!((left.prev[2], left.next[2], left.generation[2], left.payload[2]), (0, 0, 0, 0));
}

#[test]
fn k7_other_removals_make_a_freelist() {
    let (replies, _, left) = play(three(), vec![Call::Remove(p(1)), Call::Remove(p(2))]);
    assert_eq!(numbers(&replies), [0, 0]);
    assert_eq!(left.header, [3, 1, 2, 7]);
    assert_eq!(left.next, [1, 1, 0]);
}

#[test]
fn k8_a_closed_pair_less_one_is_closed_alone() {
    let (replies, _, left) = play(arena(&[(2, 2), (1, 1)], &[], 0), vec![Call::Remove(p(1))]);
    assert_eq!(numbers(&replies), [0]);
    assert_eq!((left.prev[1], left.next[1]), (2, 2));
}

#[test]
fn k9_a_drain_from_the_middle() {
    let (replies, lent, left) = play(three(), vec![Call::Drain(p(2), vec![9; 16])]);
    assert_eq!(replies, [Reply::new(0, &[3, 0])]);
    let report = vec![2, 5, 1, 3, 71, 3, 5, 1, 0, 72, 1, 5, 0, 0, 70, 9];
    assert_eq!(lent, Call::Drain(p(2), report));
    assert_eq!(left.header, [2, 0, 1, 8]);
    assert_eq!(left.next, [2, 2, 0]);
}

#[test]
fn k10_a_walk_goes_round_a_closed_chain_once() {
    let closed = arena(&[(2, 2), (1, 1)], &[], 0);
    let state = |position, left| Walk { start: 2, position, direction: 0, left };
    let calls = vec![
        Call::WalkStart(p(2)),
        Call::WalkStep(state(2, 2)),
        Call::WalkStep(state(1, 1)),
        Call::WalkStep(state(0, 0)),
    ];
    let (replies, _, _) = play(closed, calls);
    let words = [[2, 2, 0, 2, 0, 0], [2, 5, 2, 1, 0, 1], [1, 5, 2, 0, 0, 0], [0, 0, 2, 0, 0, 0]];
    assert_eq!(replies, words.map(|words| Reply::new(0, &words)));
}

#[test]
fn k11_the_canonical_order() {
    let before = arena(&[(0, 5), (0, 0), (0, 0), (0, 0), (1, 0)], &[], 0);
    let (replies, lent, left) = play(before, vec![Call::CompressCanonical(0, vec![0; 5])]);
    assert_eq!(numbers(&replies), [0]);
    assert_eq!(lent, Call::CompressCanonical(0, vec![1, 5, 3, 4, 2]));
    assert_eq!((left.prev, left.next), (vec![0, 1, 0, 0, 0], vec![2, 0, 0, 0, 0]));
    assert_eq!(left.payload, [70, 74, 72, 73, 71]);
}

#[test]
fn k12_two_free_slots_that_point_at_each_other() {
    let (replies, _, _) = play(arena(&[(0, 2), (0, 1)], &[1, 2], 1), vec![Call::Check]);
    assert_eq!(numbers(&replies), [9]);
}

#[test]
fn a_closed_chain_need_not_begin_at_its_lowest_old_slot() {
    let before = arena(&[(0, 4), (3, 3), (2, 2), (1, 0)], &[], 0);
    let (_, lent, _) = play(before, vec![Call::CompressCanonical(1, vec![0; 4])]);
    assert_eq!(lent, Call::CompressCanonical(1, vec![1, 4, 3, 2]));
}

#[test]
fn a_compression_that_overflows_says_so_and_a_reset_never_does() {
    let mut before = three();
    before.header[3] = u32::MAX;
    let calls = [0, 1].map(|reset| Call::CompressCanonical(reset, vec![0; 3]));
    for (call, number) in calls.into_iter().zip([100, 0]) {
        let (replies, _, left) = play(before.clone(), vec![call]);
        assert_eq!(numbers(&replies), [number]);
        assert_eq!(left.header, [3, 3, 0, 2]);
        assert_eq!(left.generation, [2, 2, 2]);
    }
}

/// The arena with room for so many more links, and words above the stack that mean nothing.
fn with_room(mut a: Arena, room: usize) -> Arena {
    let capacity = a.capacity() + room;
    a.prev.resize(capacity, 9);
    a.next.resize(capacity, 9);
    a.generation.resize(capacity, 9);
    a.payload.resize(capacity, 9);
    a
}

/// The pointer that says nothing.
const NONE: Ptr = Ptr { slot: 0, generation: 0 };

#[test]
fn a_lone_link_bridged_to_itself_is_a_closed_pair() {
    for kind in [kind::BRIDGE, kind::BRIDGE_INX] {
        let lone = with_room(arena(&[(0, 0)], &[], 0), 1);
        let (replies, _, left) = play(lone, vec![Call::Insert(kind, p(1), p(1), 80)]);
        assert_eq!(replies, [Reply::new(0, &[2, 5])]);
        assert_eq!((left.prev, left.next), (vec![2, 1], vec![2, 1]));
        assert_eq!(
            (left.generation, left.payload, left.header),
            (vec![5, 5], vec![70, 80], vec![2, 2, 0, 5])
        );
    }
}

#[test]
fn a_link_beside_one_that_is_closed_alone_is_a_closed_pair() {
    for kind in kind::NEXT_TO..=kind::AT_INTERLINK_INX {
        let closed = with_room(arena(&[(1, 1)], &[], 0), 1);
        let (replies, _, left) = play(closed, vec![Call::Insert(kind, p(1), p(1), 80)]);
        assert_eq!(replies, [Reply::new(0, &[2, 5])]);
        assert_eq!((left.prev, left.next), (vec![2, 1], vec![2, 1]));
    }
}

#[test]
fn an_insertion_takes_the_free_slots_and_then_the_one_behind_the_stack() {
    // Slot 2 is a link, the root 3 leads to 1, and there is room for one more.
    let before = with_room(arena(&[(0, 1), (0, 0), (0, 1)], &[1, 3], 3), 1);
    let calls = (0..4).map(|payload| Call::Insert(kind::DISCONNECTED, NONE, NONE, payload)).collect();
    let (replies, _, left) = play(before, calls);
    let slots = [[3, 5], [1, 5], [4, 5]].map(|pointer| Reply::new(0, &pointer));
    assert_eq!(replies[..3], slots);
    assert_eq!(replies[3], Reply::number(18));
    assert_eq!((left.prev, left.next), (vec![0; 4], vec![0; 4]));
    assert_eq!((left.payload, left.header), (vec![1, 71, 0, 2], vec![4, 4, 0, 5]));
}

#[test]
fn the_link_requirement_comes_before_the_capacity_and_an_unknown_kind_before_both() {
    let calls = [(kind::CHAIN_END, 1), (kind::CHAIN_END, 3), (kind::NEXT_TO, 4), (20, 4)];
    let calls = calls.map(|(kind, slot)| Call::Insert(kind, p(slot), NONE, 80)).to_vec();
    let (replies, _, left) = play(three(), calls);
    assert_eq!(numbers(&replies), [17, 18, 17, 16]);
    assert_eq!(left, three());
}

#[test]
fn the_generation_that_removals_have_raised_is_the_new_links() {
    let again = Call::Insert(kind::AT_INTERLINK, p(1), p(3), 80);
    let (replies, _, left) = play(three(), vec![Call::Remove(p(2)), again]);
    assert_eq!(replies[1], Reply::new(0, &[2, 6]));
    assert_eq!((left.prev, left.next), (vec![0, 1, 2], vec![2, 3, 0]));
    assert_eq!((left.generation, left.header), (vec![5, 6, 5], vec![3, 3, 0, 6]));
}

#[test]
fn a_run_names_the_links_that_it_inserted() {
    let commands = [
        [kind::DISCONNECTED, 0, 0, 0, 0, 70],
        [kind::CHAIN_END, 1, 5, 0, 0, 71],
        [kind::BRIDGE, 2, 5, 1, 5, 72],
        [kind::DISCONNECTED, 0, 0, 0, 0, 73],
        [5, 3, 5, 0, 0, 0],
        [kind::PREV_TO_INX, 1, 0, 0, 0, 74],
    ]
    .concat();
    let empty = with_room(arena(&[], &[], 0), 3);
    let (replies, lent, left) = play(empty, vec![Call::Run(commands.clone(), vec![9; 6])]);
    assert_eq!(numbers(&replies), [0]);
    assert_eq!(lent, Call::Run(commands, vec![0, 0, 0, 18, 0, 0]));
    assert_eq!((left.prev, left.next), (vec![3, 1, 2], vec![2, 3, 1]));
    assert_eq!((left.generation, left.payload), (vec![5, 5, 6], vec![70, 71, 74]));
    assert_eq!(left.header, [3, 3, 0, 6]);
}

#[test]
fn lines_and_their_dots() {
    let dots = [0, 340, 341, 681, 682, 89_000, 89_001, 89_341, 89_342, u32::MAX];
    let (replies, _, _) = play(arena(&[], &[], 0), dots.map(Call::LineOfDot).to_vec());
    let lines = [0, 0, 1, 1, 2, 260, 261, 261].map(|line| Reply::new(0, &[line]));
    assert_eq!(replies, [&lines[..], &[Reply::number(19); 2]].concat());
    let (replies, _, _) =
        play(arena(&[], &[], 0), [0, 1, 260, 261, 262, u32::MAX].map(Call::LineDots).to_vec());
    let ends = [[0, 340], [341, 681], [88_660, 89_000], [89_001, 89_341]].map(|ends| Reply::new(0, &ends));
    assert_eq!(replies, [&ends[..], &[Reply::number(19); 2]].concat());
}

/// The open chain 4 -> 2 -> 5 -> 1, and 3 closed alone, with these payloads.
fn clock(payload: [u32; 5]) -> Arena {
    let mut a = arena(&[(5, 0), (4, 5), (3, 3), (0, 2), (2, 1)], &[], 0);
    a.payload = payload.to_vec();
    a
}

/// What a window reports of the chain of a slot, in a report of nines.
fn events(a: &Arena, slot: u32, from: u32, to: u32) -> Vec<u32> {
    let (replies, lent, left) = play(
        a.clone(),
        vec![Call::DueCount(p(slot), from, to), Call::DueEvents(p(slot), from, to, vec![9; 6])],
    );
    let Call::DueEvents(.., report) = lent else { unreachable!() };
    assert_eq!(left, *a);
    assert_eq!(replies[0], replies[1]);
    let count = replies[1].words[0] as usize;
    assert_eq!(replies[1], Reply::new(0, &[count as u32]));
    assert!(report[count..].iter().all(|&word| word == 9));
    report[..count].to_vec()
}

#[test]
fn what_is_due_comes_in_the_order_of_a_walk() {
    let a = clock([10, 20, 30, 40, 50]);
    assert_eq!(events(&a, 4, 0, 89_342), [4, 2, 5, 1]);
    assert_eq!(events(&a, 5, 0, 89_342), [5, 1, 2, 4]);
    assert_eq!(events(&a, 1, 0, 89_342), [1, 5, 2, 4]);
    assert_eq!(events(&a, 3, 0, 89_342), [3]);
    assert_eq!(events(&a, 5, 20, 50), [2, 4]);
    assert_eq!(events(&a, 5, 40, 20), [5, 1, 4]);
    assert_eq!(events(&a, 5, 20, 20), []);
    assert_eq!(events(&a, 5, 21, 20), [5, 1, 4]);
}

#[test]
fn payloads_past_the_frame_are_never_due() {
    let a = clock([0, 89_341, 7, 89_342, u32::MAX]);
    assert_eq!(events(&a, 4, 0, 89_342), [2, 1]);
    assert_eq!(events(&a, 4, 89_341, 89_342), [2]);
    assert_eq!(events(&a, 4, 89_341, 0), [2]);
    assert_eq!(events(&a, 4, 89_341, 1), [2, 1]);
    assert_eq!(events(&a, 4, 1, 0), [2]);
    assert_eq!(events(&a, 4, 0, 89_341), [1]);
}

#[test]
fn a_stale_pointer_comes_before_the_window_and_that_before_the_report() {
    let a = clock([10, 20, 30, 40, 50]);
    let call = |slot, from, to, words| Call::DueEvents(p(slot), from, to, vec![9; words]);
    let cases = [
        (call(6, 89_342, 0, 0), 12),
        (call(4, 89_342, 0, 0), 19),
        (call(4, 0, 89_343, 3), 19),
        (call(4, 0, 89_342, 3), 14),
        (call(4, 5, 5, 3), 14),
        (call(4, 5, 5, 4), 0),
        (call(3, 5, 5, 0), 14),
        (call(3, 5, 5, 1), 0),
        (call(4, 89_341, 89_342, 4), 0),
    ];
    for (call, number) in cases {
        let (replies, lent, left) = play(a.clone(), vec![call.clone()]);
        assert_eq!(replies, [Reply::number(number)], "{call:?}");
        assert_eq!((lent, left), (call, a.clone()));
    }
}
