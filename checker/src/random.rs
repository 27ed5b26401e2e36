//! Arenas for tests: made of chains, and random ones.

#[cfg(feature = "level-two")]
use chain_arena::{Command, LinkInsertKind, Ptr};
use chain_arena::{OwnedArena, Slot};
#[cfg(feature = "level-two")]
use {crate::by_slot::BySlot, crate::pointer::written};

/// Numbers that look random and are the same in every run.
pub struct Random(u64);

impl Random {
    /// A sequence of its own for each seed.
    pub fn new(seed: u64) -> Self {
        Self(seed.wrapping_mul(0x9e37_79b9_7f4a_7c15) | 1)
    }

    /// A number below a limit, which is not 0.
    pub fn below(&mut self, limit: usize) -> usize {
        self.0 ^= self.0 << 13;
        self.0 ^= self.0 >> 7;
        self.0 ^= self.0 << 17;
        (self.0 >> 16) as usize % limit
    }

    /// A rearrangement of items.
    pub fn shuffle<T>(&mut self, items: &mut [T]) {
        for k in (1..items.len()).rev() {
            items.swap(k, self.below(k + 1));
        }
    }

    /// Chains of random lengths with payloads below a limit.
    pub fn chains(&mut self, count: usize, longest: usize, payloads: usize) -> Vec<Payloads> {
        let chain = |_| {
            let length = 1 + self.below(longest);
            (self.below(2) == 0, (0..length).map(|_| self.below(payloads) as u32).collect())
        };
        (0..count).map(chain).collect()
    }

    /// A whole arena that holds chains, in random slots of which so many are free.
    pub fn arena(&mut self, chains: &[Payloads], free: usize) -> OwnedArena {
        let mut slots: Vec<Slot> = (1..=(links(chains) + free) as Slot).collect();
        self.shuffle(&mut slots);
        arena(chains, &slots)
    }
}

/// Whether a chain is closed, and its payloads.
pub type Payloads = (bool, Vec<u32>);

/// How many links chains have.
fn links(chains: &[Payloads]) -> usize {
    chains.iter().map(|(_, payloads)| payloads.len()).sum()
}

/// A whole arena that holds chains from slot 1 on.
#[cfg(feature = "level-three")]
pub fn in_order(chains: &[Payloads]) -> OwnedArena {
    arena(chains, &Vec::from_iter(1..=links(chains) as Slot))
}

/// A whole arena that holds chains in given slots, one behind the other; the slots that are left over are free.
fn arena(chains: &[Payloads], slots: &[Slot]) -> OwnedArena {
    let mut arena = OwnedArena::empty(slots.len());
    let mut rest = slots;
    for (closed, payloads) in chains {
        let (chain, after) = rest.split_at(payloads.len());
        rest = after;
        let neighbour = |place: Option<usize>, other: usize| match place.and_then(|place| chain.get(place)) {
            Some(&slot) => slot,
            None if *closed => chain[other],
            None => 0,
        };
        for (place, (&slot, &payload)) in chain.iter().zip(payloads).enumerate() {
            let k = slot as usize - 1;
            arena.prev[k] = neighbour(place.checked_sub(1), chain.len() - 1);
            arena.next[k] = neighbour(Some(place + 1), 0);
            (arena.generation[k], arena.payload[k]) = (5, payload);
        }
    }
    for (place, &slot) in rest.iter().enumerate() {
        arena.next[slot as usize - 1] = *rest.get(place + 1).unwrap_or(&slot);
    }
    let root = rest.first().copied().unwrap_or(0);
    arena.header = vec![slots.len() as u32, (slots.len() - rest.len()) as u32, root, 7];
    assert_eq!(arena.as_arena().check(), Ok(()), "{arena:?}");
    arena
}

/// How many commands there are, each with other pointers.
#[cfg(feature = "level-two")]
pub const COMMANDS: usize = 19;

/// The command of a number below 19 that names two links, as far as it names any.
#[cfg(feature = "level-two")]
pub fn command(number: usize, [p, q]: [Ptr; 2], payload: u32) -> Command {
    use LinkInsertKind as Kind;
    let kind = match number {
        0 => return Command::Connect(p, q),
        1 => return Command::BreakPrev(p),
        2 => return Command::BreakNext(p),
        3 => return Command::ExchangeNext(p, q),
        4 => return Command::Remove(p),
        5 => Kind::Disconnected,
        6 => Kind::SingleLinkCyclic,
        7 => Kind::ChainEnd(p),
        8 => Kind::ChainEndInx(p.slot),
        9 => Kind::ChainStart(p),
        10 => Kind::ChainStartInx(p.slot),
        11 => Kind::NextTo(p),
        12 => Kind::NextToInx(p.slot),
        13 => Kind::PrevTo(p),
        14 => Kind::PrevToInx(p.slot),
        15 => Kind::AtInterlink { next_to: p, prev_to: q },
        16 => Kind::AtInterlinkInx { next_to: p.slot, prev_to: q.slot },
        17 => Kind::Bridge { end: p, start: q },
        18 => Kind::BridgeInx { end: p.slot, start: q.slot },
        _ => panic!("there is no command {number}"),
    };
    Command::Insert(kind, payload)
}

/// The text of a command, as docs/FORMAT.md tells it.
#[cfg(feature = "level-two")]
pub fn text_of(command: Command) -> String {
    use LinkInsertKind as Kind;
    let one = |name: &str, p| format!("{name} {}", written(p));
    let two = |name: &str, p, q| format!("{name} {} {}", written(p), written(q));
    match command {
        Command::Connect(p, q) => two("connect", p, q),
        Command::BreakPrev(p) => one("break_prev", p),
        Command::BreakNext(p) => one("break_next", p),
        Command::ExchangeNext(p, q) => two("exchange_next", p, q),
        Command::Remove(p) => one("remove", p),
        Command::Insert(kind, payload) => {
            let kind = match kind {
                Kind::Disconnected => "disconnected".to_string(),
                Kind::SingleLinkCyclic => "single_link_cyclic".to_string(),
                Kind::ChainEnd(p) => one("chain_end", p),
                Kind::ChainEndInx(slot) => format!("chain_end_inx {slot}"),
                Kind::ChainStart(p) => one("chain_start", p),
                Kind::ChainStartInx(slot) => format!("chain_start_inx {slot}"),
                Kind::NextTo(p) => one("next_to", p),
                Kind::NextToInx(slot) => format!("next_to_inx {slot}"),
                Kind::PrevTo(p) => one("prev_to", p),
                Kind::PrevToInx(slot) => format!("prev_to_inx {slot}"),
                Kind::AtInterlink { next_to, prev_to } => two("at_interlink", next_to, prev_to),
                Kind::AtInterlinkInx { next_to, prev_to } => format!("at_interlink_inx {next_to} {prev_to}"),
                Kind::Bridge { end, start } => two("bridge", end, start),
                Kind::BridgeInx { end, start } => format!("bridge_inx {end} {start}"),
            };
            format!("insert {kind} {payload}")
        }
    }
}

#[cfg(feature = "level-two")]
impl Random {
    /// A pointer to somewhere in an arena or right behind it, mostly a good one.
    pub fn ptr(&mut self, arena: &OwnedArena) -> Ptr {
        let links: Vec<u32> = arena.stack().filter(|&slot| arena.is_link(slot)).collect();
        let slot = match links.len() {
            count if count > 0 && self.below(10) > 0 => links[self.below(count)],
            _ => self.below(arena.stack().count() + 3) as u32,
        };
        let generation = arena.generation(slot).wrapping_add((self.below(20) == 0).into());
        Ptr { slot, generation }
    }

    /// A command on an arena. Its pointers are mostly good ones, and the second is often the next of the first.
    pub fn command(&mut self, arena: &OwnedArena) -> Command {
        let p = self.ptr(arena);
        let next = arena.next(p.slot);
        let q = match self.below(3) {
            0 => Ptr { slot: next, generation: arena.generation(next) },
            _ => self.ptr(arena),
        };
        command(self.below(COMMANDS), [p, q], self.below(1000) as u32)
    }
}

/// Adds room above the stack, in which there are words that mean nothing.
pub fn add_room(arena: &mut OwnedArena, room: usize) {
    for k in 0..room as u32 {
        arena.prev.push(900 + k);
        arena.next.push(1 + k);
        arena.generation.push(7 * (k % 2));
        arena.payload.push(u32::MAX - k);
    }
}
