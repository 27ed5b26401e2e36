//! Random arenas from a seed: whole ones of every kind, and damage to them.

use crate::header::{GENERATION, LINKS, ROOT, STACK};
use crate::{Arena, CUT, LIMIT, Reading, frame, model};

/// A xorshift generator; the same seed gives the same numbers everywhere.
pub struct Random(u64);

impl Random {
    /// A generator that starts from a seed.
    pub fn new(seed: u64) -> Self {
        let mut random = Self(seed.wrapping_mul(0x9e37_79b9_7f4a_7c15) | 1);
        for _ in 0..8 {
            random.bits();
        }
        random
    }

    /// The generator of a job of a run with a seed.
    pub fn of(seed: u64, job: u64) -> Self {
        Self::new(Self::new(seed).bits().wrapping_add(job))
    }

    /// The next 64 bits.
    pub fn bits(&mut self) -> u64 {
        self.0 ^= self.0 >> 12;
        self.0 ^= self.0 << 25;
        self.0 ^= self.0 >> 27;
        self.0.wrapping_mul(0x2545_f491_4f6c_dd1d)
    }

    /// The next 32 bits.
    pub fn word(&mut self) -> u32 {
        (self.bits() >> 32) as u32
    }

    /// A number below `n`, which is not 0.
    pub fn below(&mut self, n: usize) -> usize {
        ((self.bits() >> 32) as usize * n) >> 32
    }

    /// True once in `n` times.
    pub fn once_in(&mut self, n: usize) -> bool {
        self.below(n) == 0
    }

    /// One of the given values.
    pub fn pick<T: Copy>(&mut self, of: &[T]) -> T {
        of[self.below(of.len())]
    }

    /// Puts the values in a random order.
    pub fn shuffle<T>(&mut self, values: &mut [T]) {
        for k in (1..values.len()).rev() {
            values.swap(k, self.below(k + 1));
        }
    }
}

/// Multiples of 65,536: a slot that is raised by one of them is another one, and the same again if it is cut to 16 bits, by
/// some of them also if it is cut to 17, 20 or 21 bits.
pub const RAISES: [u32; 6] = [CUT, 2 * CUT, 16 * CUT, 32 * CUT, 1 << 31, u32::MAX - CUT + 1];

/// The slot raised by a multiple of 65,536.
pub fn raised(r: &mut Random, slot: u32) -> u32 {
    slot.wrapping_add(r.pick(&RAISES))
}

/// How the links of an arena are chained.
#[derive(Clone, Copy, Debug, PartialEq, Eq)]
pub struct Style {
    /// Of 16 slots, how many are free
    pub free: usize,
    /// The longest chain, 1 for lone links
    pub longest: usize,
    /// Whether every chain is as long as the longest
    pub even: bool,
    /// Whether a chain's slots lie anywhere, or in order
    pub scattered: bool,
    /// Of 16 chains, how many are closed
    pub closed: usize,
}

impl Style {
    /// A random style for an arena of so many slots.
    pub fn random(r: &mut Random, stack: usize) -> Self {
        Self {
            free: r.pick(&[0, 0, 1, 3, 6, 8, 15, 16]),
            longest: r.pick(&[1, 2, 3, 8, 40, stack.max(1)]),
            even: r.once_in(3),
            scattered: !r.once_in(3),
            closed: r.pick(&[0, 2, 8, 16]),
        }
    }
}

/// An arena that passes the check, with noise in every word that is not read.
pub fn whole(r: &mut Random, capacity: usize, stack: usize, style: Style) -> Arena {
    whole_in_order(r, capacity, (1..=stack).collect(), style)
}

/// The slots of a large stack, each followed by those that are the same if they are cut to 16 bits.
pub fn twins(stack: usize) -> Vec<usize> {
    let cut = CUT as usize;
    (1..=cut).flat_map(|s| (s..=stack).step_by(cut)).collect()
}

/// An arena whose chains and freelist go through the slots of its stack in this order, if they are not scattered.
pub fn whole_in_order(r: &mut Random, capacity: usize, slots: Vec<usize>, style: Style) -> Arena {
    let (mut a, stack) = (noise(r, capacity), slots.len());
    let (mut links, mut free): (Vec<usize>, Vec<usize>) =
        slots.into_iter().partition(|_| r.below(16) >= style.free);
    if style.scattered {
        r.shuffle(&mut links);
        r.shuffle(&mut free);
    }
    generations(r, &mut a, &links);
    for &s in &free {
        a.generation[s - 1] = 0;
    }
    list_free(&mut a, &free);
    let mut rest = &links[..];
    while !rest.is_empty() {
        let length = if style.even { style.longest } else { 1 + r.below(style.longest) };
        let (slots, after) = rest.split_at(length.min(rest.len()));
        chain(&mut a, slots, r.below(16) < style.closed);
        rest = after;
    }
    a.header[STACK] = stack as u32;
    a.header[LINKS] = links.len() as u32;
    a
}

/// The arena with 65,536 free slots before its own, listed in any order before its own free ones.
pub fn behind_free_slots(r: &mut Random, a: &Arena) -> Arena {
    let (cut, mut all) = (CUT as usize, noise(r, CUT as usize));
    let raised = |&word: &u32| if word == 0 { 0 } else { word + CUT };
    for place in 0..a.stack() {
        // A free slot's prev is not read, and may be too large to be raised.
        let prev = if a.is_link(place + 1) { raised(&a.prev[place]) } else { a.prev[place] };
        all.prev.push(prev);
        all.next.push(raised(&a.next[place]));
    }
    all.prev.extend(&a.prev[a.stack()..]);
    all.next.extend(&a.next[a.stack()..]);
    all.generation.extend(&a.generation);
    all.payload.extend(&a.payload);
    all.generation[..cut].fill(0);
    let mut free: Vec<usize> = (1..=cut).collect();
    r.shuffle(&mut free);
    list_free(&mut all, &free);
    if a.root() != 0 {
        all.next[free[cut - 1] - 1] = a.root() + CUT;
    }
    all.header = vec![a.header[STACK] + CUT, a.header[LINKS], all.root(), a.current()];
    all
}

/// An arena without a slot on its stack, with noise in every column.
pub fn empty(r: &mut Random, capacity: usize) -> Arena {
    let style = Style { free: 0, longest: 1, even: true, scattered: false, closed: 0 };
    whole(r, capacity, 0, style)
}

/// An arena of any style with up to `most` slots, and some room past them.
pub fn any_whole(r: &mut Random, most: usize) -> Arena {
    let stack = r.below(most + 1);
    let capacity = (stack + r.pick(&[0, 0, 1, 2, 5])).min(LIMIT);
    let style = Style::random(r, stack);
    whole(r, capacity, stack, style)
}

/// An arena of every kind at once, for measuring: an eighth of its slots free, a third of its links lone, a third on
/// chains of eight that lie in order, a third on scattered chains of up to 64, and of the chains an eighth closed.
pub fn mixed(r: &mut Random, slots: usize) -> Arena {
    let mut a = noise(r, slots);
    let (links, mut free): (Vec<usize>, Vec<usize>) = (1..=slots).partition(|_| !r.once_in(8));
    r.shuffle(&mut free);
    for &s in &links {
        a.generation[s - 1] = 5;
    }
    for &s in &free {
        a.generation[s - 1] = 0;
    }
    list_free(&mut a, &free);
    let (lone, rest) = links.split_at(links.len() / 3);
    let (in_order, scattered) = rest.split_at(rest.len() / 2);
    let mut scattered = scattered.to_vec();
    r.shuffle(&mut scattered);
    for s in lone.chunks(1) {
        chain(&mut a, s, r.once_in(8));
    }
    for slots in in_order.chunks(8) {
        chain(&mut a, slots, r.once_in(8));
    }
    for slots in scattered.chunks(64) {
        chain(&mut a, slots, r.once_in(8));
    }
    a.header = vec![slots as u32, links.len() as u32, a.header[ROOT], 5];
    a
}

/// Columns of noise, generations among them, and a header of zeros.
fn noise(r: &mut Random, capacity: usize) -> Arena {
    Arena { header: vec![0; 4], ..noisy(r, [capacity, capacity, capacity, capacity, 0]) }
}

/// Columns and a header of these lengths with noise in every word.
pub fn noisy(r: &mut Random, [prev, next, generation, payload, header]: [usize; 5]) -> Arena {
    let mut words = |count| (0..count).map(|_| r.word()).collect();
    Arena {
        prev: words(prev),
        next: words(next),
        generation: words(generation),
        payload: words(payload),
        header: words(header),
    }
}

/// Gives the links and the header generations: all alike, or mixed and around the largest.
fn generations(r: &mut Random, a: &mut Arena, links: &[usize]) {
    const EDGES: [u32; 8] = [1, 2, 3, 4, 5, u32::MAX - 2, u32::MAX - 1, u32::MAX];
    let alike = r.once_in(2);
    let current = match r.below(4) {
        0 => 2 + r.word() % 1000,
        _ => r.pick(&EDGES[1..]),
    };
    for &s in links {
        a.generation[s - 1] = if alike { current } else { r.pick(&EDGES) };
    }
    a.header[GENERATION] = current;
}

/// Lists the free slots in the given order, the last pointing at itself.
fn list_free(a: &mut Arena, free: &[usize]) {
    for (k, &s) in free.iter().enumerate() {
        a.next[s - 1] = *free.get(k + 1).unwrap_or(&s) as u32;
    }
    a.header[ROOT] = free.first().map_or(0, |&s| s as u32);
}

/// Chains the slots in the given order, open or closed.
fn chain(a: &mut Arena, slots: &[usize], closed: bool) {
    let ends = if closed { (slots[slots.len() - 1], slots[0]) } else { (0, 0) };
    for (k, &s) in slots.iter().enumerate() {
        a.prev[s - 1] = if k == 0 { ends.0 } else { slots[k - 1] } as u32;
        a.next[s - 1] = slots.get(k + 1).copied().unwrap_or(ends.1) as u32;
    }
}

/// A dot: any one of the frame, the first or the last of a line, and seldom one near the frame's end or past it.
pub fn some_dot(r: &mut Random) -> u32 {
    let line = frame::LINE_DOTS * r.below(frame::LINES as usize) as u32;
    let anywhere = r.word();
    match r.below(12) {
        0 => r.pick(&[0, frame::DOTS - 2, frame::DOTS - 1, frame::DOTS]),
        1 => r.pick(&[frame::DOTS, frame::DOTS + 1, CUT + line, u32::MAX, anywhere]),
        2 | 3 => line,
        4 | 5 => line + frame::LINE_DOTS - 1,
        _ => r.below(frame::DOTS as usize) as u32,
    }
}

/// The arena with dots for its payloads.
pub fn with_dots(r: &mut Random, mut a: Arena) -> Arena {
    a.payload.fill_with(|| some_dot(r));
    a
}

/// A slot of the stack, or 0 if there is none.
fn some_slot(r: &mut Random, a: &Arena) -> usize {
    if a.stack() == 0 || a.stack() > a.capacity() { 0 } else { 1 + r.below(a.stack()) }
}

/// A slot of the stack that is free or not, as asked, or 0 if there is none to be found.
fn some_slot_of(r: &mut Random, a: &Arena, free: bool) -> usize {
    let first = some_slot(r, a);
    let slots = (first..=a.stack()).chain(1..first);
    slots.filter(|&s| s != 0).find(|&s| a.is_link(s) != free).unwrap_or(0)
}

/// A slot number to point at: in the stack, just past it, 0 or anything, or 0 or a slot raised by a
/// multiple of 65,536.
fn some_target(r: &mut Random, a: &Arena) -> u32 {
    let slot = some_slot(r, a) as u32;
    match r.below(10) {
        0 => 0,
        1 => a.header[STACK].wrapping_add(1),
        2 => r.word(),
        3 => u32::MAX,
        4 => raised(r, 0),
        5 => raised(r, slot),
        _ => slot,
    }
}

/// Damages one thing. What comes of it may still pass, as where a word is written over by itself.
pub fn damage(r: &mut Random, a: &mut Arena) {
    match r.below(16) {
        0..=3 => damage_link(r, a),
        4..=6 => damage_freelist(r, a),
        7..=9 => damage_header(r, a),
        10..=12 => damage_neighbours(r, a),
        13 | 14 => damage_generation(r, a),
        _ => damage_shape(r, a),
    }
}

/// Writes over prev or next of a link.
fn damage_link(r: &mut Random, a: &mut Arena) {
    let s = some_slot_of(r, a, false);
    let target = some_target(r, a);
    if s != 0 {
        let word = if r.once_in(2) { &mut a.prev[s - 1] } else { &mut a.next[s - 1] };
        *word = if r.once_in(4) { raised(r, *word) } else { target };
    }
}

/// Sends the freelist round, cuts it, or points a free slot somewhere.
fn damage_freelist(r: &mut Random, a: &mut Arena) {
    let s = some_slot_of(r, a, true);
    if s == 0 {
        return;
    }
    a.next[s - 1] = match r.below(7) {
        0 | 1 => a.root(),
        2 => s as u32,
        3 => some_slot_of(r, a, true) as u32,
        4 => some_slot_of(r, a, false) as u32,
        5 => raised(r, a.next[s - 1]),
        _ => some_target(r, a),
    };
}

/// Writes over a word of the header.
fn damage_header(r: &mut Random, a: &mut Arena) {
    let (stack, capacity) = (a.header[STACK], a.capacity() as u32);
    match r.below(11) {
        0 | 1 => a.header[LINKS] = a.header[LINKS].wrapping_add(r.pick(&[1, u32::MAX])),
        2 => a.header[LINKS] = r.pick(&[0, capacity, capacity + 1, u32::MAX]),
        3 => a.header[ROOT] = 0,
        4 => a.header[ROOT] = some_target(r, a),
        5 => a.header[ROOT] = r.pick(&[CUT, CUT + stack, u32::MAX]),
        6 => a.header[STACK] = stack.wrapping_sub(1).min(capacity + 1),
        7 => a.header[STACK] = r.pick(&[stack + 1, capacity, capacity + 1, u32::MAX]),
        8 => {
            let word = r.pick(&[STACK, LINKS, ROOT]);
            a.header[word] = raised(r, a.header[word]);
        }
        _ => a.header[GENERATION] = r.pick(&[0, 1, 2, u32::MAX]),
    }
}

/// Makes two links disagree: exchanges their next, one by one or with prev, or copies one to the other.
fn damage_neighbours(r: &mut Random, a: &mut Arena) {
    let (s, t) = (some_slot_of(r, a, false), some_slot_of(r, a, false));
    if s == 0 {
        return;
    }
    match r.below(4) {
        0 => a.next.swap(s - 1, t - 1),
        1 => a.prev.swap(s - 1, t - 1),
        2 => a.next[s - 1] = a.next[t - 1],
        _ => std::mem::swap(&mut a.prev[s - 1], &mut a.next[s - 1]),
    }
}

/// Frees a link without a word to the freelist, or allocates a free slot, with the count kept right or not.
fn damage_generation(r: &mut Random, a: &mut Arena) {
    let s = some_slot(r, a);
    if s == 0 {
        return;
    }
    let was_link = a.is_link(s);
    a.generation[s - 1] = if was_link { 0 } else { r.pick(&[1, 2, u32::MAX]) };
    if r.once_in(2) {
        let links = a.header[LINKS];
        a.header[LINKS] = if was_link { links.saturating_sub(1) } else { links.saturating_add(1) };
    }
}

/// Makes a column longer or shorter, or the header of another length.
fn damage_shape(r: &mut Random, a: &mut Arena) {
    let other = |r: &mut Random, length: usize| match r.below(4) {
        0 => length + 1,
        1 => length.saturating_sub(1),
        2 => r.below(length + 1),
        _ => r.below(2 * length + 3),
    };
    match r.below(5) {
        0 => a.prev.resize(other(r, a.prev.len()), 0),
        1 => a.next.resize(other(r, a.next.len()), 0),
        2 => a.generation.resize(other(r, a.generation.len()), 0),
        3 => a.payload.resize(other(r, a.payload.len()), 0),
        _ => a.header.resize(r.below(7), 2),
    }
}

/// Where the links of a stack are that are broken.
#[derive(Clone, Copy, PartialEq, Eq)]
pub enum Near {
    /// Among the first
    First,
    /// Among the last, and no other link with them
    Last,
    /// The last alone
    LastAlone,
    /// Anywhere, at both ends too
    Anywhere,
}

/// An arena of so many slots, at least one, that rule 11 alone refuses: of its links one, two or many are broken.
pub fn with_broken_links(r: &mut Random, stack: usize, near: Near) -> Arena {
    loop {
        let style = Style { free: r.pick(&[0, 0, 1, 4, 8]), ..Style::random(r, stack) };
        let room = r.pick(&[0, 0, 1, 2, 5]).min(LIMIT - stack);
        let mut a = whole(r, stack + room, stack, style);
        let links: Vec<usize> = a.link_slots().collect();
        let count = match near {
            Near::LastAlone => 1,
            _ => r.pick(&[1, 1, 1, 2, 2, 3, 1 + links.len() / 2]),
        };
        for _ in 0..count.min(links.len()) {
            let (last, anywhere) = (links.len() - 1, r.below(links.len()));
            let few = r.below(3).min(last);
            let place = match near {
                Near::First => few,
                Near::Last => last - few,
                Near::LastAlone => last,
                Near::Anywhere => r.pick(&[0, last, anywhere]),
            };
            let parted = matches!(near, Near::Last | Near::LastAlone) || r.once_in(2);
            break_link(r, &mut a, links[place], parted);
        }
        if model::check(&a) == 11 {
            return a;
        }
    }
}

/// Makes a link name on one side a slot that is above the stack or free, or a link that names another one or none in turn,
/// if there is such a slot; or what it named raised by a multiple of 65,536. If the link had a neighbour on
/// that side, that one is broken too, or the two are parted before. Where nobody looks, above the stack and at the prev of a free slot, stands what would be right if the slot were a link.
fn break_link(r: &mut Random, a: &mut Arena, s: usize, parted: bool) {
    let by_prev = r.once_in(2);
    if parted {
        part(a, s, by_prev);
    }
    let (stack, way) = (a.stack(), r.below(5));
    let target = match way {
        0 => r.pick(&[stack + 1, stack + 1, stack + 2, LIMIT, u32::MAX as usize]).max(stack + 1),
        1 => some_slot_of(r, a, true),
        4 => raised(r, if by_prev { a.prev[s - 1] } else { a.next[s - 1] }) as usize,
        _ => {
            let back = if by_prev { &a.next } else { &a.prev };
            let wanted = |t: &usize| match back[t - 1] as usize {
                0 => way == 2,
                named => way == 3 && named != s,
            };
            let first = some_slot(r, a);
            (first..=stack).chain(1..first).filter(|&t| a.is_link(t)).find(wanted).unwrap_or(0)
        }
    };
    if target == 0 {
        return;
    }
    let (named, back) = if by_prev { (&mut a.prev, &mut a.next) } else { (&mut a.next, &mut a.prev) };
    named[s - 1] = target as u32;
    if target > stack && target <= back.len() {
        back[target - 1] = s as u32;
        a.generation[target - 1] = r.pick(&[0, 5, 5]);
    } else if way == 1 && !by_prev {
        back[target - 1] = s as u32;
    }
}

/// Parts a link from its neighbour on a side, if that one names it in turn.
fn part(a: &mut Arena, s: usize, by_prev: bool) {
    let neighbour = if by_prev { a.prev[s - 1] } else { a.next[s - 1] } as usize;
    let is_link = a.is_link(neighbour);
    let (named, back) = if by_prev { (&mut a.prev, &mut a.next) } else { (&mut a.next, &mut a.prev) };
    if is_link && back[neighbour - 1] as usize == s {
        back[neighbour - 1] = 0;
        named[s - 1] = 0;
    }
}

/// A whole arena with one to three things damaged.
pub fn damaged(r: &mut Random, most: usize) -> Arena {
    let a = any_whole(r, most);
    damaged_more(r, a)
}

/// The arena with one to three things damaged.
fn damaged_more(r: &mut Random, mut a: Arena) -> Arena {
    for _ in 0..1 + r.below(3) {
        if a.header.len() == 4 && a.prev.len().min(a.next.len()).min(a.generation.len()) >= a.stack() {
            damage(r, &mut a);
        }
    }
    a
}

/// The arena damaged so that it no longer passes the check.
pub fn broken(r: &mut Random, whole: &Arena) -> Arena {
    loop {
        let a = damaged_more(r, whole.clone());
        if model::check(&a) != 0 {
            return a;
        }
    }
}
