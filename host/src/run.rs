//! A run of edits: its commands, and what became of each (REFERENCE, Run).

use core::error::Error;
use core::fmt;
use core::iter::{FusedIterator, Zip};
use core::slice;

use crate::{Done, LinkInsertKind, Ptr, Refusal};

/// One edit of a run.
#[derive(Clone, Copy, Debug, PartialEq, Eq, Hash)]
pub enum Command {
    /// Makes the second link the next of the first.
    Connect(Ptr, Ptr),
    /// Parts the link from the one before it.
    BreakPrev(Ptr),
    /// Parts the link from the one after it.
    BreakNext(Ptr),
    /// Gives each of the two links the other one's next.
    ExchangeNext(Ptr, Ptr),
    /// Takes the link out.
    Remove(Ptr),
    /// Inserts a link with this payload. The answer does not say where it is, but that is known: its slot is the freelist's
    /// root when its turn comes, or the slot after the stack where there is no root, and its generation is the current one,
    /// which removals raise. So later commands of the same run can name it, as in the example of [`Run`].
    Insert(LinkInsertKind, u32),
}

impl Command {
    /// How many words a command is.
    pub const WORDS: usize = 6;

    /// The words of the command: its code, slot and generation of two pointers, a payload. What it does not have is 0.
    #[must_use]
    pub const fn words(self) -> [u32; Self::WORDS] {
        const NONE: Ptr = Ptr { slot: 0, generation: 0 };
        let (code, [p, q], payload) = match self {
            Self::Connect(p, q) => (1, [p, q], 0),
            Self::BreakPrev(p) => (2, [p, NONE], 0),
            Self::BreakNext(p) => (3, [p, NONE], 0),
            Self::ExchangeNext(p, q) => (4, [p, q], 0),
            Self::Remove(p) => (5, [p, NONE], 0),
            Self::Insert(kind, payload) => (kind.code(), kind.pointers(), payload),
        };
        [code, p.slot, p.generation, q.slot, q.generation, payload]
    }

    /// The command whose words these are.
    fn of([code, p, p_generation, q, q_generation, payload]: [u32; Self::WORDS]) -> Self {
        let p = Ptr { slot: p, generation: p_generation };
        let q = Ptr { slot: q, generation: q_generation };
        if let Some(kind) = LinkInsertKind::of(code, p, q) {
            return Self::Insert(kind, payload);
        }
        match code {
            1 => Self::Connect(p, q),
            2 => Self::BreakPrev(p),
            3 => Self::BreakNext(p),
            4 => Self::ExchangeNext(p, q),
            _ => Self::Remove(p),
        }
    }
}

/// Builds the commands of a run in lent words, with a lent answer word for each. It can be neither of a wrong length nor
/// hold an unknown code, so [`ArenaMut::run`](crate::ArenaMut::run) refuses it only if the arena is broken.
///
/// ```
/// use chain_arena::{ArenaMut, Command, LinkInsertKind, Ptr, Run};
///
/// // The lone links 1 and 2.
/// let (mut prev, mut next) = ([0; 2], [0; 2]);
/// let (mut generation, mut payload, mut header) = ([5; 2], [10, 20], [2, 2, 0, 5]);
/// let mut arena = ArenaMut {
///     prev: &mut prev,
///     next: &mut next,
///     generation: &mut generation,
///     payload: &mut payload,
///     header: &mut header,
/// };
/// let (p, q) = (Ptr { slot: 1, generation: 5 }, Ptr { slot: 2, generation: 5 });
///
/// // Room for three commands and their answers.
/// let (mut words, mut answers) = ([[0; Command::WORDS]; 3], [0; 3]);
/// let mut run = Run::new(&mut words, &mut answers);
/// run.connect(p, q)?.connect(p, q)?.remove(p)?;
/// assert!(run.remove(q).is_err(), "the room is used up");
///
/// let numbers = arena.run(&mut run)?.map(|answer| answer.result.map_or_else(|refusal| refusal.number(), |_| 0));
/// assert!(numbers.eq([0, 13, 0]));
///
/// // Slot 1 is free now, and the generation is 6: that will be the new link's pointer.
/// let new = Ptr { slot: 1, generation: 6 };
/// assert_eq!((arena.header[2], arena.header[3]), (1, 6));
/// run.clear();
/// run.insert(LinkInsertKind::ChainEnd(q), 30)?.connect(new, q)?;
/// assert!(arena.run(&mut run)?.all(|answer| answer.result.is_ok()));
/// assert_eq!(arena.next, [2, 1]); // 1 and 2 are a closed chain
/// # Ok::<(), Box<dyn core::error::Error>>(())
/// ```
#[derive(Debug)]
pub struct Run<'a> {
    commands: &'a mut [[u32; Command::WORDS]],
    answers: &'a mut [u32],
    len: usize,
}

impl<'a> Run<'a> {
    /// A run of no commands, with room for as many as both slices have places.
    #[must_use]
    pub fn new(commands: &'a mut [[u32; Command::WORDS]], answers: &'a mut [u32]) -> Self {
        Self { commands, answers, len: 0 }
    }

    /// How many commands it has.
    #[must_use]
    pub fn len(&self) -> usize {
        self.len
    }

    /// Whether it has no command.
    #[must_use]
    pub fn is_empty(&self) -> bool {
        self.len == 0
    }

    /// Takes all commands out, for the next run in the same room.
    pub fn clear(&mut self) {
        self.len = 0;
    }

    /// Adds a command.
    ///
    /// # Errors
    ///
    /// [`Full`] if there is no room for it.
    pub fn push(&mut self, command: Command) -> Result<&mut Self, Full> {
        let room = self.answers.len().min(self.commands.len());
        let words = self.commands[..room].get_mut(self.len).ok_or(Full)?;
        *words = command.words();
        self.len += 1;
        Ok(self)
    }

    /// Adds [`Command::Connect`].
    ///
    /// # Errors
    ///
    /// [`Full`] if there is no room for it.
    pub fn connect(&mut self, p_prev: Ptr, p_next: Ptr) -> Result<&mut Self, Full> {
        self.push(Command::Connect(p_prev, p_next))
    }

    /// Adds [`Command::BreakPrev`].
    ///
    /// # Errors
    ///
    /// [`Full`] if there is no room for it.
    pub fn break_prev(&mut self, p: Ptr) -> Result<&mut Self, Full> {
        self.push(Command::BreakPrev(p))
    }

    /// Adds [`Command::BreakNext`].
    ///
    /// # Errors
    ///
    /// [`Full`] if there is no room for it.
    pub fn break_next(&mut self, p: Ptr) -> Result<&mut Self, Full> {
        self.push(Command::BreakNext(p))
    }

    /// Adds [`Command::ExchangeNext`].
    ///
    /// # Errors
    ///
    /// [`Full`] if there is no room for it.
    pub fn exchange_next(&mut self, p0: Ptr, p1: Ptr) -> Result<&mut Self, Full> {
        self.push(Command::ExchangeNext(p0, p1))
    }

    /// Adds [`Command::Remove`].
    ///
    /// # Errors
    ///
    /// [`Full`] if there is no room for it.
    pub fn remove(&mut self, p: Ptr) -> Result<&mut Self, Full> {
        self.push(Command::Remove(p))
    }

    /// Adds [`Command::Insert`].
    ///
    /// # Errors
    ///
    /// [`Full`] if there is no room for it.
    pub fn insert(&mut self, kind: LinkInsertKind, payload: u32) -> Result<&mut Self, Full> {
        self.push(Command::Insert(kind, payload))
    }

    /// The commands that it has, and the answer words for them.
    pub(crate) fn lent(&mut self) -> (&[[u32; Command::WORDS]], &mut [u32]) {
        (&self.commands[..self.len], &mut self.answers[..self.len])
    }
}

/// What became of a command.
#[derive(Clone, Copy, Debug, PartialEq, Eq)]
pub struct Answer {
    /// The command
    pub command: Command,
    /// Done, or refused with 12, 13, 17 or 18
    pub result: Result<Done, Refusal>,
}

/// What became of each command of a run that was applied, in their order:
/// [`ArenaMut::run`](crate::ArenaMut::run).
#[derive(Clone, Debug)]
#[must_use = "the commands were applied, but some may have been refused"]
pub struct Answers<'r> {
    pairs: Zip<slice::Iter<'r, [u32; Command::WORDS]>, slice::Iter<'r, u32>>,
}

impl<'r> Answers<'r> {
    /// The answers of commands and their answer words.
    pub(crate) fn new(commands: &'r [[u32; Command::WORDS]], answers: &'r [u32]) -> Self {
        Self { pairs: commands.iter().zip(answers) }
    }
}

impl Iterator for Answers<'_> {
    type Item = Answer;

    fn next(&mut self) -> Option<Answer> {
        let (words, answer) = self.pairs.next()?;
        Some(Answer { command: Command::of(*words), result: Done::answer(*answer) })
    }

    fn size_hint(&self) -> (usize, Option<usize>) {
        self.pairs.size_hint()
    }
}

impl ExactSizeIterator for Answers<'_> {}

// Iterators over slices are fused.
impl FusedIterator for Answers<'_> {}

/// There is no room for another command.
#[derive(Clone, Copy, PartialEq, Eq)]
pub struct Full;

impl fmt::Display for Full {
    fn fmt(&self, f: &mut fmt::Formatter<'_>) -> fmt::Result {
        f.write_str("there is no room for another command of the run")
    }
}

/// As in words, so that a `main` that returns it ends with a sentence.
impl fmt::Debug for Full {
    fn fmt(&self, f: &mut fmt::Formatter<'_>) -> fmt::Result {
        fmt::Display::fmt(self, f)
    }
}

impl Error for Full {}
