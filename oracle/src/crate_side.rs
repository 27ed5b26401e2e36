//! The calls, made on the crate's own text. The crate has no numbers for most of its refusals, so it is asked for its links
//! in the order in which a call refuses (docs/REFERENCE.md), and its own answer must agree with what it was found to hold.
//! An insertion's two errors are its own.

use std::num::{NonZeroU32, NonZeroUsize};
use std::sync::OnceLock;

use crate_text::arena::ArenaSlot::{Allocated, Free};
use crate_text::chain_iterators::ChainPtrAdvancer;
use crate_text::errors::ChainInsertionError;
use crate_text::traits::{Advancer, ArenaTrait, ChainArenaTrait, Ptr as _};
use crate_text::utils::traits::NonZeroInxGenericStack;
use crate_text::{
    ChainArena, InvalidationOption, InvalidationResult, LinkInsertKind, LinkNoGen, StackBacking, reach,
};

use crate::header::{GENERATION, LINKS, ROOT, STACK};
use crate::{Arena, COMMAND_WORDS, Call, LIMIT, Ptr, Reading, Reply, Walk, frame, kind};

crate_text::ptr_struct!(P0[NonZeroU32](NonZeroU32));

type Chain = ChainArena<P0, u32, StackBacking<LIMIT>>;

/// A chain arena of the crate.
pub struct CrateArena {
    chain: Chain,
    /// The slots that the last call's insertions took
    taken: Vec<u32>,
}

/// What the crate's check says when it refuses, and the number for it. What 1 and 6 are about its types cannot hold.
const MESSAGES: [(&str, u32); 9] = [
    ("bad generation", 2),
    ("len > capacity", 3),
    ("len != n_allocated", 4),
    ("bad freelist_root", 5),
    ("getting entry failed", 7),
    ("bad freelist node", 8),
    ("endless loop", 9),
    ("freelist discontinuous", 10),
    ("interlink transitivity does not hold", 11),
];

/// The slot number of an optional index, 0 for none.
fn slot(inx: Option<NonZeroU32>) -> u32 {
    inx.map_or(0, NonZeroU32::get)
}

/// The indexes of a stack of `stack` slots.
fn indexes(stack: usize) -> impl Iterator<Item = NonZeroUsize> {
    (1..=stack).filter_map(NonZeroUsize::new)
}

/// The crate's pointer, if its types can hold this one; if they cannot, the pointer is stale.
fn held(p: Ptr) -> Option<P0> {
    Some(P0::_from_raw(NonZeroU32::new(p.slot)?, NonZeroU32::new(p.generation)?))
}

/// The crate's name for a kind of insertion with its pointers, if there is such a kind and its types can hold them.
fn insert_kind(kind: u32, p: Ptr, q: Ptr) -> Option<LinkInsertKind<P0>> {
    let inx = |p: Ptr| NonZeroU32::new(p.slot);
    Some(match kind {
        kind::DISCONNECTED => LinkInsertKind::Disconnected,
        kind::SINGLE_LINK_CYCLIC => LinkInsertKind::SingleLinkCyclic,
        kind::CHAIN_END => LinkInsertKind::ChainEnd(held(p)?),
        kind::CHAIN_END_INX => LinkInsertKind::ChainEndInx(inx(p)?),
        kind::CHAIN_START => LinkInsertKind::ChainStart(held(p)?),
        kind::CHAIN_START_INX => LinkInsertKind::ChainStartInx(inx(p)?),
        kind::NEXT_TO => LinkInsertKind::NextTo(held(p)?),
        kind::NEXT_TO_INX => LinkInsertKind::NextToInx(inx(p)?),
        kind::PREV_TO => LinkInsertKind::PrevTo(held(p)?),
        kind::PREV_TO_INX => LinkInsertKind::PrevToInx(inx(p)?),
        kind::AT_INTERLINK => LinkInsertKind::AtInterlink { next_to: held(p)?, prev_to: held(q)? },
        kind::AT_INTERLINK_INX => LinkInsertKind::AtInterlinkInx { next_to: inx(p)?, prev_to: inx(q)? },
        kind::BRIDGE => LinkInsertKind::Bridge { end: held(p)?, start: held(q)? },
        kind::BRIDGE_INX => LinkInsertKind::BridgeInx { end: inx(p)?, start: inx(q)? },
        _ => return None,
    })
}

/// The number of a call that the crate says is done.
fn done(answer: InvalidationOption<()>) -> u32 {
    if answer.is_overflow() { 100 } else { 0 }
}

impl CrateArena {
    /// The arena of these columns, or none where the crate's types cannot hold it: columns or header of another length,
    /// over 1,048,576 slots, a stack over the capacity, a free slot that points at 0, generation 0.
    pub fn hold(a: &Arena) -> Option<Self> {
        let capacity = a.prev.len();
        let others = [a.next.len(), a.generation.len(), a.payload.len()];
        if others != [capacity; 3] || a.header.len() != 4 || a.stack() > capacity {
            return None;
        }
        let mut chain = Chain::with_min_capacity(capacity).ok()?;
        chain.set_generation(NonZeroU32::new(a.header[GENERATION])?);
        let base = reach::base_mut(&mut chain);
        // Safety: the crate has no undefined behaviour on a broken freelist or count; its check is there to find them.
        unsafe {
            let slots = base.backing_mut();
            for place in 0..a.header[STACK] as usize {
                let entry = match NonZeroU32::new(a.generation[place]) {
                    None => Free(NonZeroU32::new(a.next[place])?),
                    Some(generation) => {
                        let around = (NonZeroU32::new(a.prev[place]), NonZeroU32::new(a.next[place]));
                        Allocated(generation, LinkNoGen::new(around, a.payload[place]))
                    }
                };
                slots.push_within_capacity(entry).ok()?;
            }
            base.set_len(a.header[LINKS] as usize);
            base.set_freelist_root(NonZeroU32::new(a.header[ROOT]));
        }
        Some(Self { chain, taken: vec![] })
    }

    /// The crate's own check, as it answers.
    pub fn check_invariants(&self) -> Result<(), &'static str> {
        Chain::_check_invariants(&self.chain)
    }

    /// The number for what the crate's check answers.
    pub fn check(&self) -> u32 {
        let Err(message) = self.check_invariants() else {
            return 0;
        };
        let named = MESSAGES.iter().find(|(text, _)| *text == message);
        named.unwrap_or_else(|| panic!("the crate's check says {message:?}")).1
    }

    /// The columns that stand for this arena, where `before` stood for it before the call: a slot that was freed has 0
    /// in its other words, a popped slot in all, and what the crate does not keep is as it was. A run may also free or pop
    /// a slot that it took itself.
    pub fn columns(&self, before: &Arena) -> Arena {
        let mut a = before.clone();
        let base = reach::base(&self.chain);
        let stack = base.backing().len();
        for place in self.taken.iter().map(|&slot| slot as usize - 1) {
            a.prev[place] = 0;
            a.next[place] = 0;
            a.generation[place] = 0;
            a.payload[place] = 0;
        }
        for (place, inx) in indexes(stack).enumerate() {
            match base.backing().get(inx) {
                Some(Free(pointer)) => {
                    if a.generation[place] != 0 {
                        a.prev[place] = 0;
                        a.payload[place] = 0;
                    }
                    a.generation[place] = 0;
                    a.next[place] = pointer.get();
                }
                Some(Allocated(generation, link)) => {
                    a.generation[place] = generation.get();
                    a.prev[place] = slot(link.prev());
                    a.next[place] = slot(link.next());
                    a.payload[place] = link.t;
                }
                None => {}
            }
        }
        for place in stack..before.stack() {
            a.prev[place] = 0;
            a.next[place] = 0;
            a.generation[place] = 0;
            a.payload[place] = 0;
        }
        a.header[STACK] = stack as u32;
        a.header[LINKS] = self.chain.len() as u32;
        a.header[ROOT] = slot(base.freelist_root());
        a.header[GENERATION] = self.chain.generation().get();
        a
    }

    /// Makes one call on an arena that passes the check, or none where the crate has no such call: 14, 15, 16 and 19, lines of
    /// a frame, small arenas, and states of a walk and pointers of an insertion that its types cannot hold.
    pub fn perform(&mut self, call: &mut Call) -> Option<Reply> {
        self.taken.clear();
        Some(match call {
            Call::Check => {
                assert_eq!(self.check(), 0);
                Reply::number(0)
            }
            Call::GetLink(p) => self.get_link(*p),
            Call::GetLinkNoGen(p) => self.get_link_no_gen(*p),
            Call::AreNeighbors(p, q) => Reply::new(0, &[u32::from(self.are_neighbors(*p, *q))]),
            Call::WalkStart(p) => self.walk_start(*p),
            Call::WalkStep(walk) => self.walk_step(*walk)?,
            Call::Connect(p, q) => Reply::number(self.connect(*p, *q)),
            Call::BreakPrev(p) => Reply::number(self.break_prev(*p)),
            Call::BreakNext(p) => Reply::number(self.break_next(*p)),
            Call::ExchangeNext(p, q) => Reply::number(self.exchange_next(*p, *q)),
            Call::Remove(p) => self.remove(*p),
            Call::Drain(p, report) => self.drain(*p, report)?,
            Call::SetGeneration(generation) => {
                // The crate accepts 1, the port does not.
                let generation = NonZeroU32::new(*generation).filter(|g| g.get() >= 2)?;
                self.chain.set_generation(generation);
                Reply::number(0)
            }
            Call::IncGeneration => Reply::number(done(self.chain.inc_generation())),
            Call::CanonicalizeFreelist => {
                reach::base_mut(&mut self.chain).canonicalize_freelist();
                Reply::number(0)
            }
            Call::Run(commands, answers) => self.run(commands, answers)?,
            Call::CompressWith(reset, report) => self.compress_with(*reset != 0, report)?,
            Call::CompressCanonical(reset, from) => self.compress_canonical(*reset != 0, from)?,
            Call::Insert(kind, p, q, payload) => self.insert(*kind, *p, *q, *payload)?,
            Call::LineOfDot(_) | Call::LineDots(_) | Call::SmallArena(_) => return None,
            Call::DueCount(p, from, to) => self.due(*p, *from, *to, None)?,
            Call::DueEvents(p, from, to, report) => self.due(*p, *from, *to, Some(report))?,
        })
    }

    /// Whether the crate has a link for the pointer.
    fn contains(&self, p: Ptr) -> bool {
        held(p).is_some_and(|p| self.chain.contains(p))
    }

    /// The neighbours that the crate has for the pointer's link, or none if it is stale.
    fn around(&self, p: Ptr) -> Option<(Option<NonZeroU32>, Option<NonZeroU32>)> {
        self.chain.get_link_no_gen(held(p)?).map(LinkNoGen::prev_next)
    }

    /// The link with its neighbours' generations, none being 0.
    fn get_link(&self, p: Ptr) -> Reply {
        let Some(link) = held(p).and_then(|p| self.chain.get_link(p)) else {
            return Reply::number(12);
        };
        let words = |p: Option<P0>| p.map_or((0, 0), |p| (p.inx().get(), p.generation().get()));
        let (prev, next) = (words(link.prev()), words(link.next()));
        Reply::new(0, &[prev.0, prev.1, next.0, next.1, *link.t])
    }

    /// The link without its neighbours' generations.
    fn get_link_no_gen(&self, p: Ptr) -> Reply {
        let Some(link) = held(p).and_then(|p| self.chain.get_link_no_gen(p)) else {
            return Reply::number(12);
        };
        Reply::new(0, &[slot(link.prev()), slot(link.next()), link.t])
    }

    /// Whether the crate calls them neighbours; a pointer that it cannot hold has none.
    fn are_neighbors(&self, p: Ptr, q: Ptr) -> bool {
        match (held(p), held(q)) {
            (Some(p), Some(q)) => self.chain.are_neighbors(p, q),
            _ => false,
        }
    }

    /// The state of an advancer that begins at the pointer.
    fn walk_start(&self, p: Ptr) -> Reply {
        let Some(advancer) = held(p).and_then(|p| self.chain.advancer_chain(p)) else {
            return Reply::number(12);
        };
        let walk = state_of(advancer);
        Reply::new(0, &[walk.start, walk.position, walk.direction, walk.left])
    }

    /// The sum of the slots and payloads along the chain of the pointer, by the crate's own iterator.
    pub fn sum_chain(&self, p: Ptr) -> Option<u64> {
        let links = self.chain.iter_chain(held(p)?)?;
        Some(links.map(|(p, link)| u64::from(p.inx().get()) + u64::from(link.t)).sum())
    }

    /// The links that are due along the crate's own walk, counted and, if there is a report, reported; none if the window is
    /// not one of the frame or the report is shorter than the chain. A payload is due if it is a dot and comes, counted round
    /// the frame from the window's start, before the window's end.
    fn due(&self, p: Ptr, from: u32, to: u32, mut report: Option<&mut Vec<u32>>) -> Option<Reply> {
        let Some(links) = held(p).and_then(|p| self.chain.iter_chain(p)) else {
            return Some(Reply::number(12));
        };
        let links: Vec<(P0, u32)> = links.map(|(p, link)| (p, link.t)).collect();
        if from >= frame::DOTS || to > frame::DOTS || report.as_ref().is_some_and(|r| r.len() < links.len()) {
            return None;
        }
        let round = |dot: u32| (dot + frame::DOTS - from) % frame::DOTS;
        let length = if from == 0 { to } else { round(to) };
        let mut count = 0;
        for (p, _) in links.iter().filter(|(_, payload)| *payload < frame::DOTS && round(*payload) < length) {
            if let Some(report) = &mut report {
                report[count] = p.inx().get();
            }
            count += 1;
        }
        Some(Reply::new(0, &[count as u32]))
    }

    /// One step of an advancer that is put into the state, or none where it cannot be.
    fn walk_step(&self, walk: Walk) -> Option<Reply> {
        let mut advancer = advancer_of(walk)?;
        let answer = advancer.advance(&self.chain);
        let (slot, generation) = answer.map_or((0, 0), |p| (p.inx().get(), p.generation().get()));
        let after = state_of(advancer);
        // The crate keeps the direction as a bool: a word that means prev stays as it is.
        let direction = if walk.direction != 0 { walk.direction * after.direction } else { after.direction };
        Some(Reply::new(0, &[slot, generation, after.start, after.position, direction, after.left]))
    }

    /// Connects, with the number that the links say, p's before q's.
    fn connect(&mut self, p: Ptr, q: Ptr) -> u32 {
        let number = match (self.around(p), self.around(q)) {
            (None, _) => 12,
            (Some((_, Some(_))), _) => 13,
            (_, None) => 12,
            (_, Some((Some(_), _))) => 13,
            _ => 0,
        };
        agreed(number, both(p, q).and_then(|(p, q)| self.chain.connect(p, q)))
    }

    /// Breaks the link from its prev, with the number that the links say.
    fn break_prev(&mut self, p: Ptr) -> u32 {
        let number = match self.around(p) {
            None => 12,
            Some((None, _)) => 13,
            _ => 0,
        };
        agreed(number, held(p).and_then(|p| self.chain.break_prev(p)))
    }

    /// Breaks the link from its next, with the number that the links say.
    fn break_next(&mut self, p: Ptr) -> u32 {
        let number = match self.around(p) {
            None => 12,
            Some((_, None)) => 13,
            _ => 0,
        };
        agreed(number, held(p).and_then(|p| self.chain.break_next(p)))
    }

    /// Exchanges, with the number that the links say, 12 of either before 13.
    fn exchange_next(&mut self, p: Ptr, q: Ptr) -> u32 {
        let number = match (self.around(p), self.around(q)) {
            (None, _) | (_, None) => 12,
            (Some((_, None)), _) | (_, Some((_, None))) => 13,
            _ => 0,
        };
        agreed(number, both(p, q).and_then(|(p, q)| self.chain.exchange_next(p, q)))
    }

    /// Inserts a link as the crate does where it may not grow, and answers its pointer; none where the crate has no such
    /// kind or its types cannot hold a pointer.
    fn insert(&mut self, kind: u32, p: Ptr, q: Ptr, payload: u32) -> Option<Reply> {
        let kind = insert_kind(kind, p, q)?;
        Some(match self.chain.insert_within_capacity(kind, payload) {
            Ok(p) => {
                self.taken.push(p.inx().get());
                Reply::new(0, &[p.inx().get(), p.generation().get()])
            }
            Err(ChainInsertionError::FailedLinkRequirement) => Reply::number(17),
            Err(ChainInsertionError::NotWithinCapacity) => Reply::number(18),
            Err(error) => panic!("the crate's insertion says {error:?}"),
        })
    }

    /// Removes a link and answers it as it was.
    fn remove(&mut self, p: Ptr) -> Reply {
        let Some(p) = held(p) else {
            return Reply::number(12);
        };
        let (number, link) = match self.chain.remove_link_no_gen(p) {
            InvalidationResult::Success(link) => (0, link),
            InvalidationResult::GenerationOverflow(link) => (100, link),
            InvalidationResult::InvalidPtr => return Reply::number(12),
        };
        Reply::new(number, &[slot(link.prev()), slot(link.next()), link.t])
    }

    /// Takes the whole chain out and reports each item as the crate hands it over, or none if the report is too short.
    fn drain(&mut self, p: Ptr, report: &mut [u32]) -> Option<Reply> {
        if !self.contains(p) {
            return Some(Reply::number(12));
        }
        if report.len() < 5 * self.chain.iter_chain(held(p)?)?.count() {
            return None;
        }
        let (items, overflowed) = self.drain_chain(p, report)?;
        Some(Reply::new(0, &[items, overflowed]))
    }

    /// Takes the whole chain out into a report that is long enough, and answers how many items there were and which of them
    /// overflowed, 0 for none.
    pub fn drain_chain(&mut self, p: Ptr, report: &mut [u32]) -> Option<(u32, u32)> {
        let (mut items, mut overflowed) = (0, 0);
        for (item, words) in self.chain.drain_chain(held(p)?)?.zip(report.as_chunks_mut().0) {
            let ((p, link), overflow) = item.overflowing();
            *words = [p.inx().get(), p.generation().get(), slot(link.prev()), slot(link.next()), link.t];
            items += 1;
            if overflow {
                assert_eq!(overflowed, 0, "two items of one drain overflowed");
                overflowed = items;
            }
        }
        Some((items, overflowed))
    }

    /// Makes the calls that the commands stand for, or none if 16 or 14 is due for the whole run.
    fn run(&mut self, commands: &[u32], answers: &mut [u32]) -> Option<Reply> {
        if !commands.len().is_multiple_of(COMMAND_WORDS) || answers.len() < commands.len() / COMMAND_WORDS {
            return None;
        }
        for (command, answer) in commands.chunks_exact(COMMAND_WORDS).zip(answers) {
            let p = Ptr { slot: command[1], generation: command[2] };
            let q = Ptr { slot: command[3], generation: command[4] };
            *answer = match command[0] {
                1 => self.connect(p, q),
                2 => self.break_prev(p),
                3 => self.break_next(p),
                4 => self.exchange_next(p, q),
                5 => self.remove(p).number,
                // A pointer that cannot be held is stale.
                code if kind::ALL.contains(&code) => {
                    self.insert(code, p, q, command[5]).map_or(17, |reply| reply.number)
                }
                _ => 16,
            };
        }
        Some(Reply::number(0))
    }

    /// Compresses in slot order; the report is what the crate's closure is called with. None if it is too short.
    pub fn compress_with(&mut self, reset: bool, report: &mut [u32]) -> Option<Reply> {
        if report.len() < 4 * self.chain.len() {
            return None;
        }
        let mut words = report.as_chunks_mut().0.iter_mut();
        let answer = self.chain.compress_with(reset, |old, _, new| {
            let words = words.next().expect("as many calls as links");
            *words = [old.inx().get(), old.generation().get(), new.inx().get(), new.generation().get()];
        });
        Some(Reply::number(done(answer)))
    }

    /// Compresses canonically, a twin too, whose payloads then say where each link came from. None if 14 is due.
    fn compress_canonical(&mut self, reset: bool, where_from: &mut [u32]) -> Option<Reply> {
        if where_from.len() != self.chain.capacity() {
            return None;
        }
        let stack = self.chain.backing().len();
        let mut twin = self.slot_payloads();
        let answer = self.chain.compress_canonical(reset);
        assert_eq!(twin.compress_canonical(reset), answer);
        where_from[..stack].fill(0);
        for (place, inx) in indexes(twin.backing().len()).enumerate() {
            if let Some(Allocated(_, link)) = twin.backing().get(inx) {
                where_from[place] = link.t;
            }
        }
        Some(Reply::number(done(answer)))
    }

    /// The same arena with each link's slot for its payload: after a compression they say where each link came from.
    fn slot_payloads(&self) -> Chain {
        let base = reach::base(&self.chain);
        let mut chain = Chain::with_min_capacity(self.chain.capacity()).expect("the capacity of an arena");
        chain.set_generation(self.chain.generation());
        let twin = reach::base_mut(&mut chain);
        // Safety: the same slots, link count and root as in an arena that passes the check.
        unsafe {
            for inx in indexes(base.backing().len()) {
                let entry = match base.backing().get_unchecked(inx) {
                    Free(pointer) => Free(*pointer),
                    Allocated(generation, link) => {
                        Allocated(*generation, LinkNoGen::new(link.prev_next(), inx.get() as u32))
                    }
                };
                twin.backing_mut().push_within_capacity(entry).expect("the same capacity");
            }
            twin.set_len(base.len());
            twin.set_freelist_root(base.freelist_root());
        }
        chain
    }

    // For measuring: the crate's calls and nothing else; drain_chain and compress_with are such calls too.

    /// How many links the arena has.
    pub fn links(&self) -> usize {
        self.chain.len()
    }

    /// Visits the links of the pointer's chain by the crate's own iterator: slot and payload.
    pub fn visit_by_walk(&self, p: Ptr, mut visit: impl FnMut(u32, u32)) -> Option<()> {
        self.chain.iter_chain(held(p)?)?.for_each(|(p, link)| visit(p.inx().get(), link.t));
        Some(())
    }

    /// Visits the same links in the same order by their slots alone, which looks each of them up once and not twice.
    pub fn visit_by_slots(&self, p: Ptr, mut visit: impl FnMut(u32, u32)) -> Option<()> {
        let (p, start) = held(p).and_then(|p| Some((p.inx(), self.chain.get_link_no_gen(p)?)))?;
        let (mut inx, mut link) = (p, start);
        loop {
            visit(inx.get(), link.t);
            match link.next() {
                None => break,
                Some(next) if next == p => return Some(()),
                Some(next) => (inx, (_, link)) = (next, self.chain.get_inx_link_no_gen(next)?),
            }
        }
        let mut before = start.prev();
        while let Some(inx) = before {
            (_, link) = self.chain.get_inx_link_no_gen(inx)?;
            visit(inx.get(), link.t);
            before = link.prev();
        }
        Some(())
    }

    /// Makes edits one after the other, and writes 0 for each that is done, else 1.
    pub fn edit(&mut self, edits: &[Edit], answers: &mut [u32]) {
        for (edit, answer) in edits.iter().zip(answers) {
            let done = match *edit {
                Edit::Connect(p, q) => self.chain.connect(p, q).is_some(),
                Edit::BreakPrev(p) => self.chain.break_prev(p).is_some(),
                Edit::BreakNext(p) => self.chain.break_next(p).is_some(),
                Edit::ExchangeNext(p, q) => self.chain.exchange_next(p, q).is_some(),
                Edit::Remove(p) => {
                    !matches!(self.chain.remove_link_no_gen(p), InvalidationResult::InvalidPtr)
                }
                Edit::Insert(kind, payload) => self.chain.insert_within_capacity(kind, payload).is_ok(),
            };
            *answer = u32::from(!done);
        }
    }

    /// Makes edits one after the other, each after the crate's own check.
    pub fn edit_checked(&mut self, edits: &[Edit], answers: &mut [u32]) {
        for (edit, answer) in edits.iter().zip(answers.as_chunks_mut::<1>().0) {
            self.check_invariants().expect("an arena that passes");
            self.edit(std::slice::from_ref(edit), answer);
        }
    }

    /// Takes every link out, and leaves the memory of the slots to be used again.
    pub fn clear(&mut self, generation: u32) {
        self.chain.clear().allow();
        self.chain.set_generation(NonZeroU32::new(generation).expect("not 0"));
    }

    /// Compresses canonically, without a where-from column.
    pub fn compress(&mut self, reset: bool) -> u32 {
        done(self.chain.compress_canonical(reset))
    }
}

/// An edit as the crate takes it.
#[derive(Clone, Copy)]
pub enum Edit {
    Connect(P0, P0),
    BreakPrev(P0),
    BreakNext(P0),
    ExchangeNext(P0, P0),
    Remove(P0),
    Insert(LinkInsertKind<P0>, u32),
}

impl Edit {
    /// The edits that the words of a run stand for, or none if a code is unknown or the crate's types cannot hold a pointer.
    pub fn of(commands: &[u32]) -> Option<Vec<Self>> {
        let edit = |words: &[u32; COMMAND_WORDS]| {
            let [code, slot, generation, other_slot, other_generation, payload] = *words;
            let p = Ptr { slot, generation };
            let q = Ptr { slot: other_slot, generation: other_generation };
            Some(match code {
                1 => Self::Connect(held(p)?, held(q)?),
                2 => Self::BreakPrev(held(p)?),
                3 => Self::BreakNext(held(p)?),
                4 => Self::ExchangeNext(held(p)?, held(q)?),
                5 => Self::Remove(held(p)?),
                _ => Self::Insert(insert_kind(code, p, q)?, payload),
            })
        };
        commands.as_chunks().0.iter().map(edit).collect()
    }
}

/// Both pointers, if the crate's types can hold them.
fn both(p: Ptr, q: Ptr) -> Option<(P0, P0)> {
    Some((held(p)?, held(q)?))
}

/// The number, once the crate's own answer is the one that the number says: done exactly if it is 0.
fn agreed(number: u32, answer: Option<()>) -> u32 {
    assert_eq!(answer.is_some(), number == 0, "the crate's answer is not what its links say");
    number
}

// The walk's state. The crate keeps the fields of its advancer to itself, so a mirror of the same fields stands for it.

/// The fields of the crate's `ChainPtrAdvancer`, of the same types and in the same order.
struct Mirror {
    init: NonZeroU32,
    ptr: Option<NonZeroU32>,
    switch: bool,
    max_advances: usize,
}

/// The state that an advancer is in.
fn state_of(advancer: ChainPtrAdvancer<P0>) -> Walk {
    assert!(mirror_is_true(), "the mirror of the crate's advancer does not show its fields");
    mirrored(advancer)
}

/// The advancer in a state, or none if its types cannot hold the state: its start is 0.
fn advancer_of(walk: Walk) -> Option<ChainPtrAdvancer<P0>> {
    assert!(mirror_is_true(), "the mirror of the crate's advancer does not show its fields");
    let mirror = Mirror {
        init: NonZeroU32::new(walk.start)?,
        ptr: NonZeroU32::new(walk.position),
        switch: walk.direction != 0,
        max_advances: walk.left as usize,
    };
    // Safety: the mirror has been probed.
    Some(unsafe { std::mem::transmute::<Mirror, ChainPtrAdvancer<P0>>(mirror) })
}

/// The state that the mirror shows of an advancer.
fn mirrored(advancer: ChainPtrAdvancer<P0>) -> Walk {
    // Safety: both have the same size, and every field's type is the same; that the places are the same is probed.
    let mirror = unsafe { std::mem::transmute::<ChainPtrAdvancer<P0>, Mirror>(advancer) };
    Walk {
        start: mirror.init.get(),
        position: slot(mirror.ptr),
        direction: mirror.switch.into(),
        left: mirror.max_advances as u32,
    }
}

/// Whether the mirror shows the fields: a walk from the middle of a chain of three, in an arena of five links, must show
/// the states that the crate's text gives it, no two fields ever having to be equal.
fn mirror_is_true() -> bool {
    static PROBED: OnceLock<bool> = OnceLock::new();
    *PROBED.get_or_init(|| {
        let mut a = Arena::empty(5);
        a.generation.fill(7);
        a.prev.copy_from_slice(&[0, 0, 2, 3, 0]);
        a.next.copy_from_slice(&[0, 3, 4, 0, 0]);
        a.header.copy_from_slice(&[5, 5, 0, 7]);
        let arena = CrateArena::hold(&a).expect("five links");
        let from_3 = |steps| {
            let p = held(Ptr { slot: 3, generation: 7 }).expect("not 0");
            let mut advancer = arena.chain.advancer_chain(p).expect("a link");
            for _ in 0..steps {
                advancer.advance(&arena.chain);
            }
            mirrored(advancer)
        };
        let state = |position, direction, left| Walk { start: 3, position, direction, left };
        let expected = [state(3, 0, 5), state(4, 0, 4), state(2, 1, 3), state(0, 1, 2), state(0, 1, 1)];
        size_of::<Mirror>() == size_of::<ChainPtrAdvancer<P0>>()
            && expected.into_iter().enumerate().all(|(steps, walk)| from_3(steps) == walk)
    })
}
