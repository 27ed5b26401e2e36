//! What an arena holds, as rows of slots: its chains, its lone links, its freelist, and free slots that are not on it. As
//! text, `1 -> 5` is open and `2 -> 4 -> (2)` is closed.

use std::collections::HashSet;
use std::iter;

use chain_arena::OwnedArena;

use crate::by_slot::BySlot;

/// How wide a line of text may be, and how much of it is the row's name.
const WIDTH: usize = 100;
const INDENT: usize = 10;

/// What stands between a slot and the one that its pointer leads to.
const ARROW: &str = " -> ";

/// How many slots without pointers between them stand on a line.
pub const PACKED: usize = 10;

/// What a row's slots are to each other.
#[derive(Clone, Copy, Debug, PartialEq, Eq)]
pub enum Kind {
    /// An open chain of two or more links, or of one with a wrong pointer, from its start to its end
    Open,
    /// A closed chain from its lowest slot on
    Closed,
    /// All links without neighbours
    Lone,
    /// The free slots from the root on
    Freelist,
    /// Free slots that the freelist does not come to
    Unlisted,
}

impl Kind {
    /// Whether a pointer leads from each slot to the following one.
    pub fn is_linked(self) -> bool {
        !matches!(self, Self::Lone | Self::Unlisted)
    }

    /// The row's name.
    pub fn name(self) -> &'static str {
        match self {
            Self::Open => "open",
            Self::Closed => "closed",
            Self::Lone => "lone",
            Self::Freelist => "free",
            Self::Unlisted => "not listed",
        }
    }
}

/// A row of slots. A pointer leads from each to the following one if the [kind](Kind::is_linked) says so.
#[derive(Clone, Debug, PartialEq, Eq)]
pub struct Row {
    pub kind: Kind,
    pub slots: Vec<u32>,
    /// The prev of the first slot, if that is no link that names it back
    pub wrong_prev: Option<u32>,
    /// The pointer of the last slot, or the root if there is no slot, if it leads to where it may not
    pub wrong_next: Option<u32>,
}

/// Every slot of the stack in one row. Also of a broken arena, where a chain ends at the pointer that breaks it.
#[derive(Clone, Debug, PartialEq, Eq)]
pub struct Picture {
    pub rows: Vec<Row>,
}

impl Picture {
    /// The picture of any arena.
    pub fn of(a: &OwnedArena) -> Self {
        let mut drawn = vec![false; a.stack().count() + 1];
        let links: Vec<u32> = a.stack().filter(|&slot| a.is_link(slot)).collect();
        let mut rows = Vec::new();
        let (lone, chained): (Vec<u32>, Vec<u32>) =
            links.into_iter().partition(|&slot| a.prev(slot) == 0 && a.next(slot) == 0);
        lone.iter().for_each(|&slot| drawn[slot as usize] = true);
        for &start in chained.iter().filter(|&&slot| before(a, slot).is_none()) {
            let slots = follow(start, &mut drawn, |slot| after(a, slot));
            let end = a.next(slots[slots.len() - 1]);
            rows.push(Row {
                kind: Kind::Open,
                slots,
                wrong_prev: Some(a.prev(start)).filter(|&prev| prev != 0),
                wrong_next: Some(end).filter(|&next| next != 0),
            });
        }
        for &slot in &chained {
            if !drawn[slot as usize] {
                let slots = follow(slot, &mut drawn, |slot| after(a, slot));
                rows.push(Row::whole(Kind::Closed, slots));
            }
        }
        rows.extend(Some(Row::whole(Kind::Lone, lone)).filter(|row| !row.slots.is_empty()));
        rows.extend(freelist(a, &mut drawn));
        let slots: Vec<u32> = a.stack().filter(|&slot| !drawn[slot as usize]).collect();
        rows.extend(Some(Row::whole(Kind::Unlisted, slots)).filter(|row| !row.slots.is_empty()));
        Self { rows }
    }

    /// How many open chains there are, lone links among them.
    pub fn open_chains(&self) -> usize {
        let chains = |row: &Row| match row.kind {
            Kind::Open => 1,
            Kind::Lone => row.slots.len(),
            _ => 0,
        };
        self.rows.iter().map(chains).sum()
    }

    /// How many lone links there are.
    pub fn lone_links(&self) -> usize {
        self.rows.iter().filter(|row| row.kind == Kind::Lone).map(|row| row.slots.len()).sum()
    }

    /// How many closed chains there are.
    pub fn closed_chains(&self) -> usize {
        self.rows.iter().filter(|row| row.kind == Kind::Closed).count()
    }

    /// The rows with the chain of a slot: its own, those that the wrong pointers of that row lead to, and those with a wrong
    /// pointer to a slot of that row.
    pub fn around(&self, slot: u32) -> Self {
        let own = self.row_of(slot);
        let wrong = own.as_ref().map(Row::wrong).unwrap_or_default();
        let of_own: HashSet<u32> = own.iter().flat_map(|row| row.slots.iter().copied()).collect();
        let mut rows: Vec<Row> = own.into_iter().collect();
        for row in wrong.into_iter().flatten().filter_map(|slot| self.row_of(slot)) {
            rows.extend(Some(row).filter(|row| !rows.contains(row)));
        }
        let leads_here = |row: &Row| row.wrong().into_iter().flatten().any(|slot| of_own.contains(&slot));
        let from = self.rows.iter().filter(|row| leads_here(row) && !rows.contains(row));
        let from: Vec<Row> = from.cloned().collect();
        rows.extend(from);
        Self { rows }
    }

    /// The row with a slot. A lone link is the whole of its chain.
    fn row_of(&self, slot: u32) -> Option<Row> {
        let row = self.rows.iter().find(|row| row.slots.contains(&slot))?;
        Some(if row.kind == Kind::Lone { Row::whole(Kind::Lone, vec![slot]) } else { row.clone() })
    }

    /// The rows as text, one of the slots marked.
    pub fn text(&self, marked: Option<u32>) -> String {
        self.rows.iter().map(|row| row.text(marked)).collect()
    }
}

impl Row {
    /// A row of which no pointer is wrong.
    fn whole(kind: Kind, slots: Vec<u32>) -> Self {
        Self { kind, slots, wrong_prev: None, wrong_next: None }
    }

    /// Where its wrong pointers lead.
    pub fn wrong(&self) -> [Option<u32>; 2] {
        [self.wrong_prev, self.wrong_next]
    }

    /// The row's name and its slots with arrows between them where there are pointers, on as many lines as it needs. The
    /// marked slot stands in brackets.
    pub fn text(&self, marked: Option<u32>) -> String {
        let word = |&slot: &u32| if marked == Some(slot) { format!("[{slot}]") } else { slot.to_string() };
        let words: Vec<String> = self.slots.iter().map(word).collect();
        let lines = match self.kind.is_linked() {
            true => self.arrows(words),
            false => words.chunks(PACKED).map(|words| words.join(" ")).collect(),
        };
        let names = iter::once(self.kind.name()).chain(iter::repeat(""));
        let line =
            |(name, words)| format!("  {:<8}{words}", format!("{name} ")).trim_end().to_string() + "\n";
        names.zip(lines).map(line).collect()
    }

    /// Words with arrows between them, broken into lines. Where the row comes from and leads to stands before and after them.
    fn arrows(&self, words: Vec<String>) -> Vec<String> {
        let before = self.wrong_prev.map(|prev| format!("(prev {prev} is wrong)"));
        let after = match (self.wrong_next, self.kind) {
            (Some(next), _) => Some(format!("({next} is wrong)")),
            (None, Kind::Closed) => self.slots.first().map(|first| format!("({first})")),
            (None, _) => None,
        };
        let mut lines = vec![before.map_or_else(String::new, |before| before + " ")];
        for (k, word) in words.into_iter().chain(after).enumerate() {
            let last = lines.len() - 1;
            if INDENT + lines[last].len() + ARROW.len() + word.len() > WIDTH {
                lines.push(String::new());
            }
            let last = lines.len() - 1;
            lines[last] += if k == 0 { "" } else { ARROW };
            lines[last] += &word;
        }
        lines
    }
}

/// The freelist from the root on, up to where it ends or fails; none if there is no root.
fn freelist(a: &OwnedArena, drawn: &mut [bool]) -> Option<Row> {
    let root = a.header().root;
    if root == 0 {
        return None;
    }
    let slots = if a.is_free(root) {
        follow(root, drawn, |slot| Some(a.next(slot)).filter(|&next| a.is_free(next)))
    } else {
        Vec::new()
    };
    let wrong_next = match slots.last() {
        Some(&last) => Some(a.next(last)).filter(|&next| next != last),
        None => Some(root),
    };
    Some(Row { kind: Kind::Freelist, slots, wrong_prev: None, wrong_next })
}

/// The next of a link, if that is a link that names it back.
fn after(a: &OwnedArena, slot: u32) -> Option<u32> {
    Some(a.next(slot)).filter(|&next| a.is_link(next) && a.prev(next) == slot)
}

/// The prev of a link, if that is a link that names it back.
fn before(a: &OwnedArena, slot: u32) -> Option<u32> {
    Some(a.prev(slot)).filter(|&prev| a.is_link(prev) && a.next(prev) == slot)
}

/// The slots from `first` on, up to the last one or to one that is drawn already.
fn follow(first: u32, drawn: &mut [bool], onward: impl Fn(u32) -> Option<u32>) -> Vec<u32> {
    let mut slots = Vec::new();
    let mut at = Some(first);
    while let Some(slot) = at.filter(|&slot| !drawn[slot as usize]) {
        drawn[slot as usize] = true;
        slots.push(slot);
        at = onward(slot);
    }
    slots
}
