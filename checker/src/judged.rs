//! An arena with what the check says of it.

#[cfg(any(feature = "level-two", feature = "level-three"))]
use chain_arena::Header;
use chain_arena::{OwnedArena, Refusal};

use crate::Shown;
use crate::by_slot::BySlot;
use crate::explain::{Why, explain};
use crate::files::Source;
use crate::format;
use crate::panel::Panel;
use crate::picture::Picture;
use crate::wording::counted;

/// What is told where the generation overflowed.
#[cfg(any(feature = "level-two", feature = "level-three"))]
pub const OVERFLOWED: &str =
    "the generation overflowed, from 4294967295 to 2: pointers kept from before may name other links";

/// An arena with what the check says of it, and the slot whose chain alone is shown, if not all is.
pub struct Judged {
    pub name: String,
    pub arena: OwnedArena,
    pub refused: Option<(Refusal, Why)>,
    pub around: Option<u32>,
}

impl Judged {
    /// Checks an arena.
    pub fn new(name: String, arena: OwnedArena) -> Self {
        let refused = arena.as_arena().check().err().map(|refusal| (refusal, explain(&arena, refusal)));
        Self { name, arena, refused, around: None }
    }

    /// Checks the arena of a text; what is wrong with the text is told with its place.
    pub fn parse(name: String, text: &[u8]) -> Result<Self, String> {
        let arena = format::parse(text).map_err(|error| format!("{name}:{error}"))?;
        Ok(Self::new(name, arena))
    }

    /// Checks the arena of a file.
    pub fn read(source: &Source) -> Result<Self, String> {
        Self::parse(source.name(), &source.read()?)
    }

    /// Shows only the chain of a slot, if one is given, which must be on the stack.
    pub fn around(self, around: Option<u32>) -> Result<Self, String> {
        match around.filter(|slot| !self.arena.stack().contains(slot)) {
            Some(slot) => Err(format!("{}: {}", self.name, off_stack(&self.arena, slot))),
            None => Ok(Self { around, ..self }),
        }
    }

    /// The rule that fails and why, or the chains. Where the chain of a slot is asked for, it is shown in either case.
    pub fn text(&self) -> String {
        match &self.refused {
            Some((refusal, why)) => {
                let rows = self.around.map(|_| self.rows()).unwrap_or_default();
                format!("{}: {refusal}\n{}{rows}", self.name, why.text())
            }
            None => format!("{}: passes the check: {}\n{}", self.name, counts(&self.arena), self.rows()),
        }
    }

    /// The rows that are shown.
    pub fn rows(&self) -> String {
        rows(&self.arena, self.around)
    }

    /// The arena to draw.
    pub fn panel(&self) -> Panel {
        let panel = Panel { around: self.around, ..Panel::new(self.name.clone(), self.arena.clone()) };
        match &self.refused {
            Some((refusal, why)) => Panel {
                passes: false,
                verdict: format!("{}: {}", refused(*refusal), why.summary()),
                faults: why.faults.clone(),
                ..panel
            },
            None => panel,
        }
    }

    /// Says what the check says.
    pub fn show(&self) -> Shown {
        Shown { text: self.text(), panels: vec![self.panel()], passes: self.refused.is_none() }
    }
}

/// A refusal without the words of its rule: its number, and with 11 the slot and the side that the check names.
fn refused(refusal: Refusal) -> String {
    let (said, words) = (refusal.to_string(), format!(": {}", refusal.kind()));
    said.strip_suffix(&words).unwrap_or(&said).to_string()
}

/// The rows of an arena as text: all, or those with the chain of a slot, which is marked.
pub fn rows(arena: &OwnedArena, around: Option<u32>) -> String {
    let picture = Picture::of(arena);
    match around {
        Some(slot) => picture.around(slot).text(around),
        None => picture.text(None),
    }
}

/// Why a slot is not on the stack.
pub fn off_stack(arena: &OwnedArena, slot: u32) -> String {
    let stack = arena.header().stack_length;
    if slot <= stack {
        let capacity = counted(arena.capacity(), "slot");
        format!("there is no slot {slot}, since the columns have only {capacity}")
    } else {
        format!("slot {slot} is not on the stack, whose length is {stack}")
    }
}

/// The header's words by name.
#[cfg(any(feature = "level-two", feature = "level-three"))]
pub fn header(arena: &OwnedArena) -> String {
    let Header { stack_length, link_count, root, generation } = arena.header();
    format!("stack length {stack_length}, link count {link_count}, root {root}, generation {generation}")
}

/// What a whole arena holds, in numbers.
fn counts(arena: &OwnedArena) -> String {
    let free = arena.stack().filter(|&slot| arena.is_free(slot)).count();
    let (free, room) = (counted(free, "free slot"), counted(arena.capacity(), "slot"));
    format!("{}, {free}, room for {room}", chain_counts(arena))
}

/// How many links and chains a whole arena holds.
pub fn chain_counts(arena: &OwnedArena) -> String {
    let picture = Picture::of(arena);
    let links = counted(arena.header().link_count as usize, "link");
    format!(
        "{links} on {} open and {}",
        picture.open_chains(),
        counted(picture.closed_chains(), "closed chain")
    )
}
