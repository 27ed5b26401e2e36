//! Cases taken whole: every small arena, every tuple of words, every call with every pointer.

use std::sync::OnceLock;

use crate::calls::{call_of, command, some_index};
use crate::compare::{Counts, Mismatch, Product, compare};
use crate::model::SMALL;
use crate::random::{self, RAISES, Random};
use crate::words::calls_on_arenas;
use crate::{
    Archive, Arena, COMMAND_WORDS, CUT, Call, LIMIT, Ptr, Reading, Walk, frame, guards, kind, model,
};

/// How many arenas of stack length 0, 1, and so on up to 6 pass the check.
pub const COUNTS: [usize; 7] = [1, 3, 13, 73, 501, 4_051, 37_633];

/// Every arena of a stack length that passes the check, with no room above the stack. All generations are 5, a payload is
/// 100 and the slot, and words that nobody looks at are 0. Those of up to three slots are taken from the exported call.
pub fn small_arenas(length: usize) -> Vec<Arena> {
    if length > SMALL {
        return enumerated(length);
    }
    given().iter().filter(|a| a.stack() == length).map(|a| marked(a, 5, 100)).collect()
}

/// The arena with a generation for its links and the header, and for each payload the slot and so much more.
fn marked(a: &Arena, generation: u32, more: u32) -> Arena {
    let mut a = a.clone();
    for s in a.link_slots().collect::<Vec<usize>>() {
        (a.generation[s - 1], a.payload[s - 1]) = (generation, s as u32 + more);
    }
    a.header[crate::header::GENERATION] = generation;
    a
}

/// All small arenas as the exported call gives them, taken once.
///
/// # Panics
///
/// If the call gives others than it must. So no section goes on with an arena too few, too many or another one.
pub fn given() -> &'static [Arena] {
    static GIVEN: OnceLock<Vec<Arena>> = OnceLock::new();
    GIVEN.get_or_init(|| given_if_linked(&guards::outcome))
}

/// All small arenas as a product gives them; if the archive of the call is not linked, those of the model.
///
/// # Panics
///
/// If the product gives others than it must.
pub fn given_if_linked(product: Product) -> Vec<Arena> {
    if !Archive::SmallArenas.is_linked() {
        return model::small_arenas().to_vec();
    }
    given_by(product).unwrap_or_else(|mismatch| panic!("{mismatch}"))
}

/// All small arenas as a product gives them, index by index until it has no more: the words that it left. Each must be the one that
/// the model finds among all tuples of words; and put in order the enumerated ones must be the same, word for word.
///
/// # Panics
///
/// If the product has no such call, or if the enumeration has others.
pub fn given_by(product: Product) -> Result<Vec<Arena>, Box<Mismatch>> {
    let (mut r, mut counts, mut arenas) = (Random::new(4), Counts::default(), Vec::new());
    loop {
        let before = random::noisy(&mut r, [SMALL, SMALL, SMALL, SMALL, 4]);
        let call = Call::SmallArena(arenas.len() as u32);
        let answer = product(&before, &call).expect("a product that has the call");
        compare(&|_, _| Some(answer.clone()), &before, &call, &mut counts)?;
        let given = answer.expect("an outcome, which was held to the model's");
        let [found, length, ..] = given.reply.words;
        if found == 0 {
            break;
        }
        arenas.push(lent_on(&given.arena, length as usize));
    }
    assert!(are_enumerated(&arenas), "the enumeration has other small arenas than the call and the model");
    Ok(arenas)
}

/// Whether these are the enumerated arenas of up to three slots, in order and word for word.
pub fn are_enumerated(arenas: &[Arena]) -> bool {
    let mut listed: Vec<Arena> = (0..=SMALL).flat_map(enumerated).map(|a| marked(&a, 2, 0)).collect();
    listed.sort_by_key(place);
    arenas == listed
}

/// What the order of the small arenas goes by: the words for stack length and root, and those of each slot but its payload.
pub fn place(a: &Arena) -> (usize, u32, Vec<[u32; 3]>) {
    let slot = |place: usize| [a.generation[place], a.prev[place], a.next[place]];
    (a.stack(), a.root(), (0..a.stack()).map(slot).collect())
}

/// The first so many words of the columns, together with the header.
pub fn lent_on(a: &Arena, length: usize) -> Arena {
    let front = |words: &[u32]| words.iter().take(length).copied().collect();
    Arena {
        prev: front(&a.prev),
        next: front(&a.next),
        generation: front(&a.generation),
        payload: front(&a.payload),
        header: a.header.clone(),
    }
}

/// The same arenas as `small_arenas` in another order, put together link by link: of any length, and without the exported call.
pub fn enumerated(length: usize) -> Vec<Arena> {
    let mut arenas = Vec::new();
    for mut a in lone_arenas(length) {
        let links: Vec<usize> = a.link_slots().collect();
        each_chaining(&mut a, &links, &links, &mut arenas);
    }
    arenas
}

/// Those of them whose links are all lone: links and free slots anywhere, and the freelist in every order.
fn lone_arenas(length: usize) -> Vec<Arena> {
    let mut arenas = Vec::new();
    for links in 0..1 << length {
        let (links, free): (Vec<usize>, Vec<usize>) = (1..=length).partition(|s| links >> (s - 1) & 1 == 1);
        let mut a = Arena::empty(length);
        a.header = vec![length as u32, links.len() as u32, 0, 5];
        for &s in &links {
            a.generation[s - 1] = 5;
            a.payload[s - 1] = 100 + s as u32;
        }
        each_freelist(&mut a, &free, 0, &mut |a| arenas.push(a.clone()));
    }
    arenas
}

/// Lists the free slots in every order; `before` is the slot that points at the next one to choose, 0 for the root.
fn each_freelist(a: &mut Arena, free: &[usize], before: usize, found: &mut dyn FnMut(&mut Arena)) {
    if free.is_empty() {
        if before != 0 {
            a.next[before - 1] = before as u32;
        }
        found(a);
    }
    for &s in free {
        if before == 0 {
            a.header[crate::header::ROOT] = s as u32;
        } else {
            a.next[before - 1] = s as u32;
        }
        let rest: Vec<usize> = free.iter().copied().filter(|&t| t != s).collect();
        each_freelist(a, &rest, s, found);
    }
}

/// Gives each of the links `open` every next that no other link has, or none.
fn each_chaining(a: &mut Arena, open: &[usize], links: &[usize], found: &mut Vec<Arena>) {
    let Some((&s, rest)) = open.split_first() else {
        found.push(a.clone());
        return;
    };
    a.next[s - 1] = 0;
    each_chaining(a, rest, links, found);
    for &t in links {
        if a.prev[t - 1] == 0 {
            (a.next[s - 1], a.prev[t - 1]) = (t as u32, s as u32);
            each_chaining(a, rest, links, found);
            (a.next[s - 1], a.prev[t - 1]) = (0, 0);
        }
    }
}

/// The same arena with `room` more places, noise in every word that is not read, and the given generations for links
/// and header.
pub fn dressed(a: &Arena, r: &mut Random, room: usize, links: &[u32], current: u32) -> Arena {
    let mut a = a.clone();
    for place in 0..a.stack() {
        if a.generation[place] == 0 {
            a.prev[place] = r.word();
            a.payload[place] = r.word();
        } else {
            a.generation[place] = r.pick(links);
        }
    }
    a.header[crate::header::GENERATION] = current;
    with_room(a, r, room)
}

/// The arena with `room` more places, noise in them.
pub fn with_room(mut a: Arena, r: &mut Random, room: usize) -> Arena {
    for _ in 0..room {
        a.prev.push(r.word());
        a.next.push(r.word());
        a.generation.push(r.word());
        a.payload.push(r.word());
    }
    a
}

/// Every arena of a stack length that passes the check, in four dresses: as the marked cases have them, with mixed
/// generations, one removal away from an overflow, and at it.
pub fn dressed_arenas(length: usize) -> Vec<Arena> {
    let mut r = Random::new(length as u64);
    let mut arenas = Vec::new();
    for a in small_arenas(length) {
        arenas.push(dressed(&a, &mut r, 0, &[5], 5));
        arenas.push(dressed(&a, &mut r, 2, &[1, 2, 5, 6, u32::MAX], 6));
        arenas.push(dressed(&a, &mut r, 1, &[u32::MAX - 1], u32::MAX - 1));
        arenas.push(dressed(&a, &mut r, 1, &[2, u32::MAX], u32::MAX));
    }
    arenas
}

/// Every arena of a stack length that passes the check, with no room above the stack, with one slot and with two, and with
/// other generations each time.
pub fn roomy_arenas(length: usize) -> Vec<Arena> {
    let mut r = Random::new(length as u64);
    let mut arenas = Vec::new();
    for a in small_arenas(length) {
        arenas.push(dressed(&a, &mut r, 0, &[2, 5, 6], 5));
        arenas.push(dressed(&a, &mut r, 1, &[1, 2, 5, 6, u32::MAX], 6));
        arenas.push(dressed(&a, &mut r, 2, &[2, u32::MAX], u32::MAX));
    }
    arenas
}

/// Tuples of words of a stack length: each slot's generation 0 or 5, its prev and next, the root and the link count each 0
/// to the length and 1. Those of one numbered tuple of slots, with every root and link count; the capacity is the length
/// and `room`, with noise above the stack.
pub fn each_tuple(length: usize, room: usize, slots: usize, mut found: impl FnMut(&Arena)) {
    let mut r = Random::new(length as u64);
    let a = Arena { header: vec![length as u32, 0, 0, 5], ..Arena::empty(length) };
    let mut a = dressed(&a, &mut r, room, &[5], 5);
    let words = length + 2;
    let mut rest = slots;
    let mut digit = |base: usize| {
        let digit = rest % base;
        rest /= base;
        digit
    };
    for place in 0..length {
        a.generation[place] = 5 * digit(2) as u32;
        a.prev[place] = digit(words) as u32;
        a.next[place] = digit(words) as u32;
    }
    for root in 0..words {
        for links in 0..words {
            a.header[crate::header::ROOT] = root as u32;
            a.header[crate::header::LINKS] = links as u32;
            found(&a);
        }
    }
}

/// The number of tuples of the slots of a stack length.
pub fn slot_tuples(length: usize) -> usize {
    let words = length + 2;
    (2 * words * words).pow(length as u32)
}

/// Arenas of some stack lengths whose freelist and counts are right: each link's prev and next, and the prev of each free
/// slot, which nobody reads, are any words from 0 to the stack length and 1. So rule 11 alone can fail.
pub struct Interlinked {
    /// The arenas of lone links that they are made from, each with the number of arenas that are made from those before it
    lone: Vec<(usize, Arena)>,
    /// How many there are
    pub count: usize,
}

impl Interlinked {
    /// Those of the stack lengths 1 to the longest, from the shortest on.
    pub fn up_to(longest: usize) -> Self {
        let mut all = Self { lone: Vec::new(), count: 0 };
        for a in (1..=longest).flat_map(lone_arenas).filter(|a| a.links() > 0) {
            let words = a.stack() + a.links();
            let arenas = (a.stack() + 2).pow(words as u32);
            all.lone.push((all.count, a));
            all.count += arenas;
        }
        all
    }

    /// The one of a number below the count.
    pub fn nth(&self, number: usize) -> Arena {
        let (before, a) = &self.lone[self.lone.partition_point(|(before, _)| *before <= number) - 1];
        let (mut a, mut rest) = (a.clone(), number - before);
        for place in 0..a.stack() {
            let columns = [Some(&mut a.prev), Some(&mut a.next).filter(|_| a.generation[place] != 0)];
            for column in columns.into_iter().flatten() {
                column[place] = (rest % (column.len() + 2)) as u32;
                rest /= column.len() + 2;
            }
        }
        a
    }
}

/// The arena with one slot above its stack that looks like a neighbour of slot `s` on both sides.
pub fn with_false_neighbour(mut a: Arena, s: usize) -> Arena {
    a.prev.push(s as u32);
    a.next.push(s as u32);
    a.generation.push(5);
    a.payload.push(0);
    a
}

/// Pointers to slots 0 to the stack length and 1: with the generation there, or the current one if there is no link, with
/// another, and with 0.
pub fn pointers(a: &Arena) -> Vec<Ptr> {
    let mut pointers = Vec::new();
    for s in 0..=a.stack() + 1 {
        let there = if a.is_link(s) { a.generation[s - 1] } else { a.current() };
        let another = there.wrapping_add(1).max(1);
        for generation in [there, another, 0] {
            pointers.push(Ptr { slot: s as u32, generation });
        }
    }
    pointers
}

/// Pointers to the links with slots raised by multiples of 65,536, and one to the largest slot. All of them are stale; with their
/// slots cut to 16 bits those to links would not be.
pub fn raised_pointers(a: &Arena) -> Vec<Ptr> {
    let raised = |s: usize| Ptr { slot: s as u32 + RAISES[(s - 1) % RAISES.len()], ..a.ptr(s) };
    a.link_slots().map(raised).chain([Ptr { slot: u32::MAX, generation: a.current() }]).collect()
}

/// The pointers of both lists.
fn each_pointer(a: &Arena) -> Vec<Ptr> {
    [pointers(a), raised_pointers(a)].concat()
}

/// Every two pointers of the first list; and each pointer of the second with every link, before it and behind it.
fn each_two_pointers(a: &Arena) -> Vec<(Ptr, Ptr)> {
    let (pointers, raised) = (pointers(a), raised_pointers(a));
    let two = pointers.iter().flat_map(|&p| pointers.iter().map(move |&q| (p, q)));
    let with_links =
        raised.iter().flat_map(|&p| a.link_slots().flat_map(move |s| [(p, a.ptr(s)), (a.ptr(s), p)]));
    two.chain(with_links).collect()
}

/// Every reading call with every pointer and every two, and every step with start and position 0 to the stack length
/// and 1, both directions, and 0 to the stack length and 1 advances left.
pub fn each_reading(a: &Arena, mut found: impl FnMut(Call)) {
    found(Call::Check);
    for p in each_pointer(a) {
        found(Call::GetLink(p));
        found(Call::GetLinkNoGen(p));
        found(Call::WalkStart(p));
    }
    for (p, q) in each_two_pointers(a) {
        found(Call::AreNeighbors(p, q));
    }
    let words: Vec<u32> = (0..=a.stack() as u32 + 1).collect();
    each_state(&words, &[0, 1], &words, found);
}

/// Every step with start and position 0 to the stack length and 1, the same raised by multiples of 65,536, and the largest; any
/// direction words, and few or many advances left.
pub fn each_wide_step(a: &Arena, found: impl FnMut(Call)) {
    let raises = RAISES.into_iter().cycle();
    let mut words: Vec<u32> =
        (0..).zip(raises).take(a.stack() + 2).flat_map(|(s, more)| [s, s + more]).collect();
    words.push(u32::MAX);
    each_state(&words, &[0, 1, 2, CUT, u32::MAX], &[0, 1, 2, CUT, u32::MAX], found);
}

/// The step of every state of the given words: start and position, direction, advances left.
fn each_state(words: &[u32], directions: &[u32], lefts: &[u32], mut found: impl FnMut(Call)) {
    for &start in words {
        for &position in words {
            for &direction in directions {
                for &left in lefts {
                    found(Call::WalkStep(Walk { start, position, direction, left }));
                }
            }
        }
    }
}

/// Every state that a walk from any link comes through, the last one after its first none.
pub fn each_walked_state(a: &Arena, mut found: impl FnMut(Walk)) {
    for s in a.link_slots() {
        let slot = s as u32;
        let mut walk = Walk { start: slot, position: slot, direction: 0, left: a.links() as u32 };
        loop {
            found(walk);
            let [answer, _, start, position, direction, left] = model::walk_step(a, walk).words;
            walk = Walk { start, position, direction, left };
            if answer == 0 {
                found(walk);
                break;
            }
        }
    }
}

/// What stands in lent words before the call.
const NOISE: u32 = 0xdead_beef;

/// The codes of a run's commands that are no insertions, and unknown ones.
const EDITS: [u32; 9] = [1, 2, 3, 4, 5, 0, 20, CUT + 1, u32::MAX];

/// Every call of Level Two but insertions with every pointer and every two; reports empty, one word short of the chain, exact,
/// and longer; a run of each single command, and runs of every length up to thirteen words with up to three answers.
pub fn each_edit(a: &Arena, mut found: impl FnMut(Call)) {
    for p in each_pointer(a) {
        found(Call::BreakPrev(p));
        found(Call::BreakNext(p));
        found(Call::Remove(p));
        let stale = !a.is_link(p.slot as usize);
        let chain = if stale { 1 } else { model::chain_of(a, p.slot as usize).len() };
        for words in [0, 5 * chain - 1, 5 * chain, 5 * a.links() + 3] {
            found(Call::Drain(p, vec![NOISE; words]));
        }
    }
    for (p, q) in each_two_pointers(a) {
        found(Call::Connect(p, q));
        found(Call::ExchangeNext(p, q));
    }
    for generation in [0, 1, 2, 3, u32::MAX - 1, u32::MAX] {
        found(Call::SetGeneration(generation));
    }
    found(Call::IncGeneration);
    found(Call::CanonicalizeFreelist);
    let links: Vec<Ptr> = a.link_slots().map(|s| a.ptr(s)).collect();
    for command in [commands(&EDITS, &pointers(a)), raised_commands(&EDITS, &links)].concat() {
        found(Call::Run(command.to_vec(), vec![NOISE; 2]));
    }
    for words in 0..=2 * COMMAND_WORDS + 1 {
        for answers in 0..=3 {
            found(Call::Run(vec![1; words], vec![NOISE; answers]));
        }
    }
}

/// The commands of the codes with every pair of the pointers; where the second is not looked at, with every first.
fn commands(codes: &[u32], pointers: &[Ptr]) -> Vec<[u32; COMMAND_WORDS]> {
    let mut commands = Vec::new();
    for (k, &p) in pointers.iter().enumerate() {
        for &code in codes {
            let both = matches!(code, 1 | 4) || kind::names(code) == 2;
            let seconds = if both { pointers } else { &[pointers[(k + 1) % pointers.len()]] };
            commands.extend(seconds.iter().map(|&q| command(code, p, q, 900 + code % 100)));
        }
    }
    commands
}

/// The commands of the codes with every pair of the pointers, each with its first or its second slot raised by a multiple of 65,536.
fn raised_commands(codes: &[u32], pointers: &[Ptr]) -> Vec<[u32; COMMAND_WORDS]> {
    let both = |(k, command): (usize, [u32; COMMAND_WORDS])| {
        [1, 3].map(|word| {
            let mut command = command;
            command[word] += RAISES[k % RAISES.len()];
            command
        })
    };
    commands(codes, pointers).into_iter().enumerate().flat_map(both).collect()
}

/// Every link, and a stale pointer.
fn links_and_stale(a: &Arena) -> Vec<Ptr> {
    let mut pointers: Vec<Ptr> = a.link_slots().map(|s| a.ptr(s)).collect();
    let stale = pointers
        .first()
        .map_or(Ptr { slot: 1, generation: 5 }, |p| Ptr { generation: p.generation.wrapping_add(1), ..*p });
    pointers.push(stale);
    pointers
}

/// Every run of two commands that are no insertions, with pointers to every link and a stale one, and some with a slot raised by
/// a multiple of 65,536.
pub fn each_pair_of_edits(a: &Arena, found: impl FnMut(Call)) {
    let mut commands = commands(&EDITS, &links_and_stale(a));
    for (k, more) in (0..commands.len()).zip(RAISES).take(3) {
        let mut raised = commands[k];
        raised[1] += more;
        commands.push(raised);
    }
    each_pair(&commands, found);
}

/// Every run of two commands of the codes 0 to 20, with pointers to every link, to a link that the first command may insert
/// and a stale one; and some insertions with a slot raised by a multiple of 65,536.
pub fn each_pair_of_commands(a: &Arena, found: impl FnMut(Call)) {
    let mut pointers = links_and_stale(a);
    pointers.push(Ptr { slot: model::slot_to_take(a) as u32, generation: a.current() });
    let codes: Vec<u32> = (0..=20).collect();
    let mut commands = commands(&codes, &pointers);
    for (code, more) in kind::ALL.zip(RAISES.into_iter().cycle()) {
        let [_, slot, generation, ..] = commands[0];
        commands.push([code, slot + more, generation, slot, generation, 7]);
        commands.push([code, slot, generation, slot + more, generation, 8]);
    }
    each_pair(&commands, found);
}

/// Every run of two of the commands.
fn each_pair(commands: &[[u32; COMMAND_WORDS]], mut found: impl FnMut(Call)) {
    for first in commands {
        for second in commands {
            found(Call::Run([*first, *second].concat(), vec![9; 2]));
        }
    }
}

/// Pointers to slots 0 to the stack length and 1, each with the word that stands in the generation column, also of a free
/// slot and above the stack, or the current generation if there is none, and with another one, for every second slot one
/// that differs in its upper half alone; and a pointer to the largest slot.
fn slots_and_words(a: &Arena) -> Vec<Ptr> {
    let mut pointers = Vec::new();
    for s in 0..=a.stack() + 1 {
        let there =
            s.checked_sub(1).and_then(|place| a.generation.get(place)).copied().unwrap_or(a.current());
        let another = match there {
            0 => a.current(),
            _ if s % 2 == 0 => there ^ 0x1_0000,
            _ => there.wrapping_add(1).max(1),
        };
        for generation in [there, another] {
            pointers.push(Ptr { slot: s as u32, generation });
        }
    }
    pointers.push(Ptr { slot: u32::MAX, generation: a.current() });
    pointers
}

/// Kinds that there are not.
const NO_KINDS: [u32; 13] =
    [0, 1, 2, 3, 4, 5, 20, 21, 31, 256, 256 + kind::CHAIN_END, CUT + kind::CHAIN_END, u32::MAX];

/// Payloads of insertions, 0 and the largest among them.
const PAYLOADS: [u32; 4] = [0, 900, 70_000, u32::MAX];

/// Every kind of insertion with every pair of pointers, unknown ones with every first; and a run of each such command, those
/// whose second pointer is not looked at with every first; and both with one of the slots raised by a multiple of 65,536.
pub fn each_insertion(a: &Arena, mut found: impl FnMut(Call)) {
    let pointers = slots_and_words(a);
    let second = |k: usize| pointers[(k + 1) % pointers.len()];
    let payload = |k: usize| PAYLOADS[k % PAYLOADS.len()];
    for kind in kind::ALL {
        for (k, &p) in pointers.iter().enumerate() {
            for (l, &q) in pointers.iter().enumerate() {
                found(Call::Insert(kind, p, q, payload(k + l)));
            }
            let raised = |ptr: Ptr, more: u32| Ptr { slot: ptr.slot.wrapping_add(more), ..ptr };
            for (turn, &more) in RAISES.iter().enumerate().skip(k % 2).step_by(2) {
                for (p, q) in [(raised(p, more), second(k)), (p, raised(second(k), more))] {
                    found(Call::Run(command(kind, p, q, payload(k)).to_vec(), vec![NOISE; 2]));
                    if turn == k % RAISES.len() {
                        found(Call::Insert(kind, p, q, payload(k)));
                    }
                }
            }
        }
    }
    for kind in NO_KINDS {
        for (k, &p) in pointers.iter().enumerate() {
            found(Call::Insert(kind, p, second(k), payload(k)));
            found(Call::Run(command(kind, p, second(k), payload(k)).to_vec(), vec![NOISE; 2]));
        }
    }
    for (k, mut command) in commands(&kind::ALL.collect::<Vec<u32>>(), &pointers).into_iter().enumerate() {
        command[5] = payload(k);
        found(Call::Run(command.to_vec(), vec![NOISE; 2]));
    }
}

/// An insertion for each place that a link can be put at.
pub fn each_place(a: &Arena, mut found: impl FnMut(Call)) {
    let links: Vec<Ptr> = a.link_slots().map(|s| a.ptr(s)).collect();
    let none = Ptr { slot: 0, generation: 0 };
    for kind in kind::ALL.filter(|&kind| !kind::by_slot(kind)) {
        let some =
            |names: usize| if kind::names(kind) < names { std::slice::from_ref(&none) } else { &links[..] };
        for &p in some(1) {
            for &q in some(2) {
                found(Call::Insert(kind, p, q, 1));
            }
        }
    }
}

/// Both compressions with and without reset; reports and where-from columns exact, longer and too short.
pub fn each_compression(a: &Arena, mut found: impl FnMut(Call)) {
    let exact = 4 * a.links();
    for reset in [0, 1, 7] {
        for words in [exact.saturating_sub(1), exact, exact + 3] {
            found(Call::CompressWith(reset, vec![NOISE; words]));
        }
        for places in [a.capacity().saturating_sub(1), a.capacity(), a.capacity() + 1] {
            found(Call::CompressCanonical(reset, vec![NOISE; places]));
        }
    }
}

/// The arena with one word raised by a multiple of 65,536: each word that names a slot, of a link its prev and its next, of a free
/// slot its next, and each word of the header that names or counts slots. None of them passes the check.
pub fn with_raised_words(a: &Arena) -> Vec<Arena> {
    let mut arenas = Vec::new();
    let mut push = |change: &dyn Fn(&mut Arena)| {
        let mut raised = a.clone();
        change(&mut raised);
        arenas.push(raised);
    };
    for more in RAISES {
        for place in 0..a.stack() {
            push(&|raised| raised.next[place] += more);
            if a.generation[place] != 0 {
                push(&|raised| raised.prev[place] += more);
            }
        }
        for word in [crate::header::STACK, crate::header::LINKS, crate::header::ROOT] {
            push(&|raised| raised.header[word] += more);
        }
    }
    arenas
}

/// Calls on an arena of more than 65,536 slots whose links all have the current generation: with pointers to slots around 65,536, at
/// the ends of the stack and past them, those that are the same if they are cut to 16 bits among them; steps between such slots;
/// edits at the first and last slots that they can be done at; with a link and one that is its next if it is cut; and each call so
/// many times with random arguments, half of the slots being above 65,536.
pub fn each_far_call(r: &mut Random, a: &Arena, times: usize, mut found: impl FnMut(Call)) {
    let (last, capacity) = (a.stack() as u32, a.capacity() as u32);
    let ends = [1, last - CUT, last - 1, last, last + 1, capacity + 1, last + CUT, u32::MAX];
    let slots = [&[CUT - 1, CUT, CUT + 1], &ends[..]].concat();
    for &slot in &slots {
        let p = Ptr { slot, generation: a.current() };
        let chain = if a.is_link(slot as usize) { model::chain_of(a, slot as usize).len() } else { 1 };
        found(Call::GetLink(p));
        found(Call::GetLinkNoGen(p));
        found(Call::WalkStart(p));
        found(Call::BreakPrev(p));
        found(Call::BreakNext(p));
        found(Call::Remove(p));
        found(Call::Drain(p, vec![NOISE; 5 * chain]));
        found(Call::DueCount(p, 0, frame::DOTS));
        found(Call::DueEvents(p, 0, frame::DOTS, vec![NOISE; chain]));
    }
    for (k, &start) in slots.iter().enumerate() {
        for position in [start, slots[(k + 3) % slots.len()]] {
            found(Call::WalkStep(Walk { start, position, direction: k as u32 % 2, left: last }));
        }
    }
    let without = |column: &[u32]| first_and_last(a.link_slots().filter(|&s| column[s - 1] == 0));
    for (end, start) in pairs(without(&a.next), without(&a.prev)) {
        found(Call::Connect(a.ptr(end), a.ptr(start)));
        found(Call::Insert(kind::BRIDGE, a.ptr(end), a.ptr(start), 7));
    }
    let with_next = first_and_last(a.link_slots().filter(|&s| a.next[s - 1] != 0));
    for (one, other) in pairs(with_next, with_next) {
        found(Call::ExchangeNext(a.ptr(one), a.ptr(other)));
    }
    for s in a.link_slots().filter(|&s| r.once_in(16) && twin(a, a.next[s - 1]).is_some()).take(3) {
        let (p, q) = (a.ptr(s), a.ptr(twin(a, a.next[s - 1]).expect("a link") as usize));
        found(Call::AreNeighbors(p, q));
        found(Call::Insert(kind::AT_INTERLINK, p, q, 7));
        found(Call::Insert(kind::AT_INTERLINK_INX, p, q, 7));
        found(Call::WalkStep(Walk { start: q.slot, position: p.slot, direction: 0, left: last }));
    }
    for code in (0..times).flat_map(|_| calls_on_arenas()) {
        found(call_of(code, r, a, &[]));
    }
}

/// Arenas of more than 65,536 slots that rule 11 refuses, but would not if slots were cut to 16 bits: the chains that follow slot
/// 65,536 are those from slot 1 on once more, and the nexts of the first links of both are exchanged, or the prevs of the second ones.
pub fn mirrored() -> [Arena; 2] {
    let style = random::Style { free: 0, longest: 8, even: true, scattered: false, closed: 0 };
    let cut = CUT as usize;
    let a = random::whole(&mut Random::new(8), cut + 20, cut + 16, style);
    let (mut by_next, mut by_prev) = (a.clone(), a);
    by_next.next.swap(0, cut);
    by_prev.prev.swap(1, cut + 1);
    [by_next, by_prev]
}

/// The first and the last slot of some that rise; none if there are none.
fn first_and_last(mut slots: impl Iterator<Item = usize>) -> Option<[usize; 2]> {
    let first = slots.next()?;
    Some([first, slots.last().unwrap_or(first)])
}

/// Every slot of the first two with every slot of the second two.
fn pairs(first: Option<[usize; 2]>, second: Option<[usize; 2]>) -> impl Iterator<Item = (usize, usize)> {
    let second = second.into_iter().flatten().collect::<Vec<usize>>();
    first.into_iter().flatten().flat_map(move |s| second.clone().into_iter().map(move |t| (s, t)))
}

/// A link in another slot that is the same if both are cut to 16 bits.
fn twin(a: &Arena, slot: u32) -> Option<u32> {
    let others = [slot.checked_add(CUT), slot.checked_sub(CUT)];
    others.into_iter().flatten().find(|&other| slot != 0 && a.is_link(other as usize))
}

/// Numbers where an answer about the frame can change: around dot 0, the ends of the first two lines, of one in the middle and
/// of the last, around the frame's end, and some far past it.
pub fn frame_edges() -> Vec<u32> {
    let lines = [0, 1, 2, 131, frame::LINES - 1, frame::LINES].map(|line| line * frame::LINE_DOTS);
    let near = lines.into_iter().flat_map(|dot| dot.saturating_sub(2)..=dot + 2);
    let far = [CUT - 1, CUT, CUT + frame::DOTS, 2 * frame::DOTS, 1 << 31, u32::MAX];
    near.chain(far).collect()
}

/// Numbers far past the last line and the last dot, or the lower half of which is a line or a dot.
const FAR: [u32; 11] = [
    CUT - 1,
    CUT,
    CUT + frame::LINES - 1,
    1 << 17,
    2 * frame::DOTS,
    (1 << 17) + frame::DOTS - 1,
    1 << 24,
    1 << 31,
    u32::MAX - frame::LINE_DOTS,
    u32::MAX - 1,
    u32::MAX,
];

/// Every line, and numbers past the last one.
pub fn lines() -> impl Iterator<Item = u32> {
    (0..2 * frame::LINES).chain(FAR)
}

/// Every dot, and numbers past the last one.
pub fn dots() -> impl Iterator<Item = u32> {
    (0..frame::DOTS + 5_000).chain(FAR)
}

/// An arena of two chains, open or closed, each of them with a link for every edge of the frame. The slots of a chain lie
/// anywhere, and so do the payloads along it.
pub fn edge_chains(closed: bool) -> Arena {
    let edges = frame_edges();
    let mut r = Random::new(edges.len() as u64);
    let style = random::Style {
        free: 0,
        longest: edges.len(),
        even: true,
        scattered: true,
        closed: if closed { 16 } else { 0 },
    };
    let mut a = random::whole(&mut r, 2 * edges.len() + 5, 2 * edges.len(), style);
    let mut rest: Vec<usize> = a.link_slots().collect();
    while let Some(&s) = rest.first() {
        let chain = model::chain_of(&a, s);
        let mut payloads = edges.clone();
        r.shuffle(&mut payloads);
        for (&s, payload) in chain.iter().zip(payloads) {
            a.payload[s - 1] = payload;
        }
        rest.retain(|s| !chain.contains(s));
    }
    a
}

/// Every arena of a stack length that passes the check, with four kinds of payloads: rising dots, the ends of lines and of the
/// frame, dots and numbers past them, and the same dot throughout.
pub fn clocked_arenas(length: usize) -> Vec<Arena> {
    const LAST: u32 = frame::DOTS - 1;
    const PAYLOADS: [[u32; 5]; 4] =
        [[100, 200, 300, 400, 500], [340, 341, 0, LAST, 682], [LAST + 1, 5, u32::MAX, LAST, CUT + 5], [7; 5]];
    let mut arenas = dressed_arenas(length);
    for (a, payloads) in arenas.iter_mut().zip(PAYLOADS.iter().cycle()) {
        for s in a.link_slots().collect::<Vec<usize>>() {
            a.payload[s - 1] = payloads[(s - 1) % payloads.len()];
        }
    }
    arenas
}

/// Windows for the payloads of an arena's links: the whole frame, those that begin or end with a payload or right behind it, and
/// some with an end that is none.
fn windows(a: &Arena) -> Vec<(u32, u32)> {
    let mut dots: Vec<u32> = a.link_slots().map(|s| a.payload[s - 1]).filter(|&v| v < frame::DOTS).collect();
    dots.sort_unstable();
    dots.dedup();
    let mut windows = vec![
        (0, frame::DOTS),
        (frame::DOTS, 0),
        (0, frame::DOTS + 1),
        (frame::DOTS, frame::DOTS + 1),
        (9, u32::MAX),
    ];
    for &dot in &dots {
        windows.extend([(dot, dot + 1), (dot + 1, dot)]);
        windows.extend(dots.iter().map(|&other| (dot, other)));
    }
    windows
}

/// What is due of every chain from every start, and of stale pointers, in every window for the arena's payloads: the count, and
/// the events in reports that are empty, as long as the events, one word shorter than the chain, as long as it, and one longer.
pub fn each_due(a: &Arena, found: impl FnMut(Call)) {
    each_due_in(a, &windows(a), found);
}

/// The same in these windows.
fn each_due_in(a: &Arena, windows: &[(u32, u32)], mut found: impl FnMut(Call)) {
    for p in each_pointer(a) {
        let stale = !a.is_link(p.slot as usize);
        let chain = if stale { vec![] } else { model::chain_of(a, p.slot as usize) };
        for &(from, to) in windows {
            found(Call::DueCount(p, from, to));
            let due = chain.iter().filter(|&&s| model::is_due(a.payload[s - 1], from, to)).count();
            let mut rooms = vec![0, due, chain.len().saturating_sub(1), chain.len(), chain.len() + 1];
            rooms.sort_unstable();
            rooms.dedup();
            for words in rooms {
                found(Call::DueEvents(p, from, to, vec![NOISE; words]));
            }
        }
    }
}

// The small arenas as the exported call gives them

/// Every small arena as the call gives it, and each with one place more, in which there is noise.
pub fn given_arenas() -> Vec<Arena> {
    let mut r = Random::new(90);
    given().iter().flat_map(|a| [a.clone(), with_room(a.clone(), &mut r, 1)]).collect()
}

/// Every call on an arena of up to three slots, with every pointer and every two: all readings, edits, insertions and
/// compressions; what is due between any two dots near its payloads; and runs of every two commands, insertions among them if
/// there are at most so many slots.
pub fn every_call(a: &Arena, slots_of_pairs: usize, mut found: impl FnMut(Call)) {
    each_reading(a, &mut found);
    each_due_in(a, &windows_of_slots(), &mut found);
    each_edit(a, &mut found);
    each_insertion(a, &mut found);
    for (p, q) in each_two_pointers(a) {
        for kind in kind::DISCONNECTED - 1..=kind::BRIDGE_INX + 1 {
            found(Call::Insert(kind, p, q, kind));
        }
    }
    each_compression(a, &mut found);
    each_pair_of_edits(a, &mut found);
    if a.stack() <= slots_of_pairs {
        each_pair_of_commands(a, &mut found);
    }
}

/// Windows for payloads that are slots: between any two dots from 0 to one past the last slot, up to the frame's end and from its
/// last dot on, and some with an end that is none.
fn windows_of_slots() -> Vec<(u32, u32)> {
    const LAST: u32 = frame::DOTS - 1;
    let dots: Vec<u32> = (0..=SMALL as u32 + 1).collect();
    let mut windows =
        vec![(LAST, frame::DOTS), (frame::DOTS, 2), (2, frame::DOTS + 1), (2, u32::MAX), (u32::MAX, 2)];
    for &dot in &dots {
        windows.extend([(dot, frame::DOTS), (LAST, dot)]);
        windows.extend(dots.iter().map(|&other| (dot, other)));
    }
    windows
}

/// Lengths of columns and header for the call that writes a small arena: equal columns of up to five words with a header of four
/// and of other lengths, unequal ones of every combination of such lengths, equal ones of 300 and of 5,000 words, about 65,536 and
/// 1,048,576 words, one column a word longer or shorter or none, and equal ones of a word less and more than the last.
pub fn lengths_to_write() -> Vec<[usize; 5]> {
    let equal = |capacity: usize, header: usize| [capacity, capacity, capacity, capacity, header];
    let few = 0..=5;
    let mut lengths: Vec<[usize; 5]> = Vec::new();
    for header in [4, 0, 1, 2, 3, 5, 6] {
        lengths.extend(few.clone().map(|capacity| equal(capacity, header)));
    }
    for (prev, next) in few.clone().flat_map(|prev| few.clone().map(move |next| (prev, next))) {
        let rest = few.clone().flat_map(|generation| few.clone().map(move |payload| (generation, payload)));
        let unequal = rest.filter(|&(generation, payload)| [next, generation, payload] != [prev; 3]);
        lengths.extend(unequal.map(|(generation, payload)| [prev, next, generation, payload, 4]));
    }
    lengths.extend([300, 5_000, LIMIT - 1, LIMIT + 1].map(|capacity| equal(capacity, 4)));
    let near = CUT as usize;
    for capacity in [near - 1, near, near + 1, LIMIT] {
        lengths.push(equal(capacity, 4));
        for column in 0..4 {
            for other in [capacity - 1, capacity + 1] {
                let mut unequal = equal(capacity, 4);
                unequal[column] = other;
                lengths.push(unequal);
            }
        }
    }
    lengths
}

/// Indexes of small arenas for columns of a length, all or a few: the first of each stack length among them, the last one and the
/// one past it, numbers whose lower half or quarter is an index, and random ones. For the longest columns there are two.
pub fn indexes(r: &mut Random, length: usize, all: bool) -> Vec<u32> {
    const FAR: [u32; 12] = [
        255,
        256,
        256 + 17,
        CUT - 1,
        CUT,
        CUT + 1,
        CUT + 89,
        1 << 24,
        1 << 31,
        (1 << 31) + 89,
        u32::MAX - 1,
        u32::MAX,
    ];
    if length > 2 * CUT as usize {
        vec![r.below(90) as u32, 90]
    } else if all && length < CUT as usize - 1 {
        (0..=100).chain(FAR).chain((0..8).map(|_| r.word())).collect()
    } else {
        vec![0, 1, 4, 17, 89, 90, 256, some_index(r)]
    }
}

/// What columns and header can hold in the place of noise before the arena of an index is written into them: all words 0, all the
/// largest, words below ten; and before the noise that very arena, the one before it, and any one with other generations and with
/// words that nobody reads all 0, all the largest or noise.
pub fn old_words(r: &mut Random, noise: &Arena, index: u32) -> [Arena; 6] {
    let arenas = model::small_arenas();
    let there = index as usize % arenas.len();
    let before = (there + arenas.len() - 1) % arenas.len();
    let generation = 3 + r.word() % 7;
    let mut used = dressed(&arenas[r.below(arenas.len())], r, 0, &[generation], generation);
    let unread = r.pick(&[Some(0), Some(u32::MAX), None]);
    for (place, word) in (0..used.stack()).filter_map(|place| Some((place, unread?))) {
        if used.generation[place] == 0 {
            (used.prev[place], used.payload[place]) = (word, word);
        }
    }
    [
        each_word(noise, |_| 0),
        each_word(noise, |_| u32::MAX),
        each_word(noise, |word| word % 10),
        laid_over(noise, &arenas[there]),
        laid_over(noise, &arenas[before]),
        laid_over(noise, &used),
    ]
}

/// The columns and the header with another word for each.
fn each_word(a: &Arena, other: impl Fn(u32) -> u32) -> Arena {
    let words = |words: &[u32]| words.iter().map(|&word| other(word)).collect();
    Arena {
        prev: words(&a.prev),
        next: words(&a.next),
        generation: words(&a.generation),
        payload: words(&a.payload),
        header: words(&a.header),
    }
}

/// The columns and the header with the words of a small arena at their front, as many as they have room for.
fn laid_over(a: &Arena, small: &Arena) -> Arena {
    let over = |words: &[u32], front: &[u32]| {
        front.iter().chain(words.iter().skip(front.len())).take(words.len()).copied().collect()
    };
    Arena {
        prev: over(&a.prev, &small.prev),
        next: over(&a.next, &small.next),
        generation: over(&a.generation, &small.generation),
        payload: over(&a.payload, &small.payload),
        header: over(&a.header, &small.header),
    }
}
