//! Why a command is refused, with the slots and generations at hand.
//!
//! That it is refused, and with which number, is what the proved call says. This only looks for what is in its way.

use std::fmt;

use chain_arena::{Command, LinkInsertKind, OwnedArena, Ptr, Refusal, RefusalKind, Side, Slot};

use crate::by_slot::BySlot;
use crate::pointer::{stale, unlinked, written};

/// Why a whole arena refused a command.
pub fn why(a: &OwnedArena, command: Command, refusal: Refusal) -> String {
    let found = in_the_way(a, command).find(|(kind, _)| *kind == refusal.kind());
    found.map_or_else(|| refusal.kind().to_string(), |(_, sentence)| sentence)
}

/// What is in the way of a command, in the order in which its call looks for it.
fn in_the_way(a: &OwnedArena, command: Command) -> impl Iterator<Item = (RefusalKind, String)> {
    let stale = |p| (RefusalKind::StalePointer, Named::At(p).missing(a));
    let has = |p, side| (RefusalKind::Neighbor, Named::At(p).has(a, side));
    let has_no = |p, side| (RefusalKind::Neighbor, Named::At(p).has_no(a, side));
    let tried = match command {
        Command::Connect(p, q) => vec![stale(p), has(p, Side::Next), stale(q), has(q, Side::Prev)],
        Command::BreakPrev(p) => vec![stale(p), has_no(p, Side::Prev)],
        Command::BreakNext(p) => vec![stale(p), has_no(p, Side::Next)],
        Command::ExchangeNext(p, q) => {
            vec![stale(p), stale(q), has_no(p, Side::Next), has_no(q, Side::Next)]
        }
        Command::Remove(p) => vec![stale(p)],
        Command::Insert(kind, _) => {
            let asked = asked(a, kind).into_iter().map(|lack| (RefusalKind::LinkRequirement, lack));
            asked.chain([(RefusalKind::NotWithinCapacity, full(a))]).collect()
        }
    };
    tried.into_iter().filter_map(|(kind, sentence)| Some((kind, sentence?)))
}

/// What a kind of insertion asks, each as what is in its way, if anything is.
fn asked(a: &OwnedArena, kind: LinkInsertKind) -> Vec<Option<String>> {
    use LinkInsertKind as Kind;
    use Named::{At, In};
    let link = |p: Named| vec![p.missing(a)];
    let end = |p: Named| vec![p.missing(a), p.has(a, Side::Next)];
    let start = |p: Named| vec![p.missing(a), p.has(a, Side::Prev)];
    let interlink = |p: Named, q: Named| vec![p.missing(a), q.missing(a), p.next_is_not(a, q)];
    let bridge =
        |p: Named, q: Named| vec![p.missing(a), q.missing(a), p.has(a, Side::Next), q.has(a, Side::Prev)];
    match kind {
        Kind::Disconnected | Kind::SingleLinkCyclic => Vec::new(),
        Kind::ChainEnd(p) => end(At(p)),
        Kind::ChainEndInx(slot) => end(In(slot)),
        Kind::ChainStart(p) => start(At(p)),
        Kind::ChainStartInx(slot) => start(In(slot)),
        Kind::NextTo(p) | Kind::PrevTo(p) => link(At(p)),
        Kind::NextToInx(slot) | Kind::PrevToInx(slot) => link(In(slot)),
        Kind::AtInterlink { next_to, prev_to } => interlink(At(next_to), At(prev_to)),
        Kind::AtInterlinkInx { next_to, prev_to } => interlink(In(next_to), In(prev_to)),
        Kind::Bridge { end, start } => bridge(At(end), At(start)),
        Kind::BridgeInx { end, start } => bridge(In(end), In(start)),
    }
}

/// That there is no room for another link.
fn full(a: &OwnedArena) -> Option<String> {
    let (header, capacity) = (a.header(), a.capacity());
    let full = header.root == 0 && header.stack_length as usize == capacity;
    full.then(|| format!("there is no room: the capacity is {capacity}, and no slot is free"))
}

/// A link as a command names it.
#[derive(Clone, Copy)]
enum Named {
    /// By a pointer
    At(Ptr),
    /// By its slot
    In(Slot),
}

impl fmt::Display for Named {
    fn fmt(&self, f: &mut fmt::Formatter<'_>) -> fmt::Result {
        match self {
            Self::At(p) => write!(f, "the link at {}", written(*p)),
            Self::In(slot) => write!(f, "the link in slot {slot}"),
        }
    }
}

impl Named {
    /// The slot that is named.
    fn slot(self) -> Slot {
        match self {
            Self::At(Ptr { slot, .. }) | Self::In(slot) => slot,
        }
    }

    /// That there is no such link.
    fn missing(self, a: &OwnedArena) -> Option<String> {
        match self {
            Self::At(p) => stale(a, p),
            Self::In(slot) => unlinked(a, slot),
        }
    }

    /// That the link has a neighbour on a side.
    fn has(self, a: &OwnedArena, side: Side) -> Option<String> {
        let neighbour = a.neighbour(self.slot(), side);
        (neighbour != 0).then(|| format!("{self} has a {side}, slot {neighbour}"))
    }

    /// That the link has no neighbour on a side.
    fn has_no(self, a: &OwnedArena, side: Side) -> Option<String> {
        (a.neighbour(self.slot(), side) == 0).then(|| format!("{self} has no {side}"))
    }

    /// That another link is not the next one.
    fn next_is_not(self, a: &OwnedArena, other: Self) -> Option<String> {
        let (next, other) = (a.next(self.slot()), other.slot());
        let elsewhere = || format!("the next of {self} is slot {next}, not slot {other}");
        self.has_no(a, Side::Next).or_else(|| (next != other).then(elsewhere))
    }
}

#[cfg(test)]
mod tests {
    use super::*;
    use crate::commands::Commands;
    use crate::format;
    use crate::random::{COMMANDS, Random, add_room, command};
    use chain_arena::Done;

    /// What the proved run makes of one command.
    fn answer(a: &OwnedArena, command: Command) -> Result<Done, Refusal> {
        let mut answer = [u32::MAX];
        a.clone().as_arena_mut().run_words(&command.words(), &mut answer).unwrap();
        Done::answer(answer[0])
    }

    /// Every pointer to a slot of the stack, to 0 and to two slots above it: of the generation that stands there, and of
    /// another one.
    fn pointers(a: &OwnedArena) -> Vec<Ptr> {
        let slots = 0..=a.header().stack_length + 2;
        let both = |slot| [a.generation(slot), a.generation(slot) + 1].map(|generation| (slot, generation));
        slots.flat_map(both).map(|(slot, generation)| Ptr { slot, generation }).collect()
    }

    #[test]
    fn what_is_found_in_the_way_is_what_the_call_refuses() {
        let mut random = Random::new(9);
        // Numbers of refusals, by commands.
        let mut seen = [[0; 19]; COMMANDS];
        for round in 0..150 {
            let chains = random.chains(1 + round % 4, 3, 9);
            let mut a = random.arena(&chains, round % 3);
            add_room(&mut a, round / 3 % 3);
            let pointers = pointers(&a);
            for (&p, &q) in pointers.iter().flat_map(|p| pointers.iter().map(move |q| (p, q))) {
                for (number, seen) in seen.iter_mut().enumerate() {
                    let command = command(number, [p, q], 7);
                    let refused = answer(&a, command).err();
                    let found = in_the_way(&a, command).next();
                    assert_eq!(
                        found.as_ref().map(|(kind, _)| *kind),
                        refused.map(Refusal::kind),
                        "{command:?} on {a:?}: {found:?}"
                    );
                    seen[refused.map_or(0, Refusal::number) as usize] += 1;
                    if let (Some(refusal), Some((_, sentence))) = (refused, found) {
                        assert_eq!(why(&a, command, refusal), sentence);
                    }
                }
            }
        }
        for (number, seen) in seen.iter().enumerate() {
            let numbers: &[usize] = match number {
                0..=3 => &[0, 12, 13],
                4 => &[0, 12],
                5 | 6 => &[0, 18],
                _ => &[0, 17, 18],
            };
            for (number, &count) in seen.iter().enumerate() {
                assert_eq!(count > 0, numbers.contains(&number), "{number} in {seen:?}");
            }
        }
    }

    /// Holds the sentences of commands that an arena refuses.
    fn says(arena: &str, cases: &[(&str, u32, &str)]) {
        let a = format::parse(arena.as_bytes()).unwrap();
        for (text, number, sentence) in cases {
            let commands = Commands::parse(String::new(), text.as_bytes()).unwrap();
            let command = commands.list[0].command;
            let refusal = answer(&a, command).unwrap_err();
            assert_eq!(
                (refusal.number(), why(&a, command, refusal).as_str()),
                (*number, *sentence),
                "{text}"
            );
        }
    }

    #[test]
    fn every_reason_is_told() {
        // 1 -> 5 -> 3, the lone 9, 2 -> 4 -> (2), 7 -> (7) and the free 8 -> 6.
        says(
            include_str!("../tests/arenas/whole.txt"),
            &[
                ("connect 0:5 9:4", 12, "0:5 is stale: there is no slot 0"),
                ("connect 1:4 0:0", 12, "1:4 is stale: slot 1 holds generation 5"),
                ("connect 1:5 0:0", 13, "the link at 1:5 has a next, slot 5"),
                ("connect 1:5 2:5", 13, "the link at 1:5 has a next, slot 5"),
                ("connect 9:4 6:0", 12, "6:0 is stale: slot 6 is free"),
                ("connect 9:4 10:999", 12, "10:999 is stale: slot 10 is not on the stack, whose length is 9"),
                ("connect 3:3 5:2", 13, "the link at 5:2 has a prev, slot 1"),
                ("break_prev 8:5", 12, "8:5 is stale: slot 8 is free"),
                ("break_prev 1:5", 13, "the link at 1:5 has no prev"),
                ("break_next 1:6", 12, "1:6 is stale: slot 1 holds generation 5"),
                ("break_next 3:3", 13, "the link at 3:3 has no next"),
                ("exchange_next 1:4 9:5", 12, "1:4 is stale: slot 1 holds generation 5"),
                ("exchange_next 9:4 1:4", 12, "1:4 is stale: slot 1 holds generation 5"),
                ("exchange_next 9:4 3:3", 13, "the link at 9:4 has no next"),
                ("exchange_next 1:5 3:3", 13, "the link at 3:3 has no next"),
                ("remove 65537:5", 12, "65537:5 is stale: slot 65537 is not on the stack, whose length is 9"),
                (
                    "remove 4294967295:4294967295",
                    12,
                    "4294967295:4294967295 is stale: slot 4294967295 is not on the stack, whose length is 9",
                ),
                ("insert chain_end 1:1 7", 17, "1:1 is stale: slot 1 holds generation 5"),
                ("insert chain_end 1:5 7", 17, "the link at 1:5 has a next, slot 5"),
                ("insert chain_end_inx 6 7", 17, "slot 6 is free"),
                ("insert chain_end_inx 1 7", 17, "the link in slot 1 has a next, slot 5"),
                ("insert chain_start 6:0 7", 17, "6:0 is stale: slot 6 is free"),
                ("insert chain_start 3:3 7", 17, "the link at 3:3 has a prev, slot 5"),
                ("insert chain_start_inx 0 7", 17, "there is no slot 0"),
                ("insert chain_start_inx 3 7", 17, "the link in slot 3 has a prev, slot 5"),
                ("insert next_to 3:5 7", 17, "3:5 is stale: slot 3 holds generation 3"),
                ("insert next_to_inx 10 7", 17, "slot 10 is not on the stack, whose length is 9"),
                ("insert prev_to 0:0 7", 17, "0:0 is stale: there is no slot 0"),
                ("insert prev_to_inx 8 7", 17, "slot 8 is free"),
                ("insert at_interlink 1:4 5:3 7", 17, "1:4 is stale: slot 1 holds generation 5"),
                ("insert at_interlink 1:5 5:3 7", 17, "5:3 is stale: slot 5 holds generation 2"),
                ("insert at_interlink 1:5 3:3 7", 17, "the next of the link at 1:5 is slot 5, not slot 3"),
                ("insert at_interlink 3:3 9:4 7", 17, "the link at 3:3 has no next"),
                ("insert at_interlink_inx 8 6 7", 17, "slot 8 is free"),
                ("insert at_interlink_inx 5 6 7", 17, "slot 6 is free"),
                ("insert at_interlink_inx 5 1 7", 17, "the next of the link in slot 5 is slot 3, not slot 1"),
                ("insert bridge 3:4 9:5 7", 17, "3:4 is stale: slot 3 holds generation 3"),
                ("insert bridge 1:5 9:5 7", 17, "9:5 is stale: slot 9 holds generation 4"),
                ("insert bridge 1:5 3:3 7", 17, "the link at 1:5 has a next, slot 5"),
                ("insert bridge 9:4 3:3 7", 17, "the link at 3:3 has a prev, slot 5"),
                ("insert bridge_inx 10 6 7", 17, "slot 10 is not on the stack, whose length is 9"),
                ("insert bridge_inx 1 6 7", 17, "slot 6 is free"),
                ("insert bridge_inx 1 3 7", 17, "the link in slot 1 has a next, slot 5"),
                ("insert bridge_inx 9 3 7", 17, "the link in slot 3 has a prev, slot 5"),
            ],
        );
        says(
            include_str!("../arenas/k11.txt"),
            &[
                ("insert disconnected 7", 18, "there is no room: the capacity is 5, and no slot is free"),
                ("insert bridge_inx 5 1 7", 18, "there is no room: the capacity is 5, and no slot is free"),
                ("insert chain_end 1:5 7", 17, "the link at 1:5 has a next, slot 5"),
            ],
        );
    }
}
