//! An arena with what is said of it, to be shown as a picture or on a page.

use chain_arena::{DueEvent, Header, OwnedArena, Slot};

use crate::picture::Picture;

/// The names of the header's words.
const NAMES: [&str; Header::WORDS] = ["Stack length", "Link count", "Root", "Current generation"];

/// An arena to show.
#[derive(Clone, Debug)]
pub struct Panel {
    pub title: String,
    /// Whether the check passes
    pub passes: bool,
    /// What the check says, and where two arenas hold the same that they do
    pub verdict: String,
    /// What else must be told of it, such as where it differs from another arena
    pub told: Vec<String>,
    pub arena: OwnedArena,
    /// What is wrong, by rising slots; of a rule that fails at no slot nothing. Where the check passes, the slots on chains
    /// without a partner
    pub faults: Vec<Fault>,
    /// The old slot of each link by its new one, after a compression
    pub where_from: Vec<Slot>,
    /// Whether the arena of the panel before this one is what it was compressed from
    pub follows: bool,
    /// The slot whose chain alone is shown, if not all is
    pub around: Option<u32>,
    /// The links that are due, in the order of the walk, where that was asked
    pub due: Vec<Due>,
}

/// A link that is due, and where in the frame: its line, and its place in the line.
#[derive(Clone, Copy, Debug, PartialEq, Eq)]
pub struct Due {
    pub slot: u32,
    pub line: u32,
    pub place: u32,
}

impl Due {
    /// Where an event is in the frame.
    pub fn of(DueEvent { ptr, dot }: DueEvent) -> Self {
        Self { slot: ptr.slot, line: dot.line().get(), place: dot.place() }
    }
}

/// What is wrong at a slot.
#[derive(Clone, Debug, PartialEq, Eq)]
pub struct Fault {
    pub slot: u32,
    pub sentence: String,
}

impl Panel {
    /// An arena that passes the check, of which there is nothing to tell.
    pub fn new(title: String, arena: OwnedArena) -> Self {
        Self {
            title,
            passes: true,
            verdict: "passes the check".to_string(),
            told: Vec::new(),
            arena,
            faults: Vec::new(),
            where_from: Vec::new(),
            follows: false,
            around: None,
            due: Vec::new(),
        }
    }

    /// Which one a slot is of those that are due, counted from 1, if it is due.
    pub fn due_number(&self, slot: u32) -> Option<usize> {
        self.due.iter().position(|due| due.slot == slot).map(|place| place + 1)
    }

    /// Whether something is wrong at a slot.
    pub fn is_broken(&self, slot: u32) -> bool {
        self.faults.binary_search_by_key(&slot, |fault| fault.slot).is_ok()
    }

    /// All that is wrong at a slot.
    pub fn faults_at(&self, slot: u32) -> &[Fault] {
        let from = self.faults.partition_point(|fault| fault.slot < slot);
        let to = self.faults.partition_point(|fault| fault.slot <= slot);
        &self.faults[from..to]
    }

    /// The header's words by name; one that is not there is missing.
    pub fn header_words(&self) -> impl Iterator<Item = (&'static str, String)> {
        let word = |place| self.arena.header.get(place).map_or("missing".to_string(), u32::to_string);
        NAMES.into_iter().enumerate().map(move |(place, name)| (name, word(place)))
    }

    /// The words of the header behind those that have a name.
    pub fn further_words(&self) -> &[u32] {
        self.arena.header.get(NAMES.len()..).unwrap_or_default()
    }

    /// The rows that are shown.
    pub fn picture(&self) -> Picture {
        let picture = Picture::of(&self.arena);
        match self.around {
            Some(slot) => picture.around(slot),
            None => picture,
        }
    }
}
