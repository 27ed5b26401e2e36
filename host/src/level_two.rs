//! Level Two: edits of a lent arena (REFERENCE, the sections from Connect to Run).

use crate::ffi::PlainResult;
use crate::link::answered_slot;
use crate::{Answers, ArenaMut, Done, LinkInsertKind, LinkNoGen, Ptr, Refusal, Run};

/// The calls of Level Two. Each begins with the check and gives its refusal, 1 to 11; a refused call has written nothing.
///
/// ```
/// use chain_arena::{ArenaMut, Ptr};
///
/// // The lone links 1, 2 and 3.
/// let (mut prev, mut next) = ([0; 3], [0; 3]);
/// let (mut generation, mut payload, mut header) = ([5; 3], [10, 20, 30], [3, 3, 0, 5]);
/// let mut arena = ArenaMut {
///     prev: &mut prev,
///     next: &mut next,
///     generation: &mut generation,
///     payload: &mut payload,
///     header: &mut header,
/// };
/// let p = |slot| Ptr { slot, generation: 5 };
/// arena.connect(p(3), p(1))?;
/// arena.connect(p(1), p(2))?;
/// assert_eq!(arena.connect(p(1), p(2)).unwrap_err().number(), 13);
/// assert_eq!(arena.remove(p(1))?.link.payload, 10);
///
/// let mut report = [0; 10];
/// let drained = arena.drain(p(2), &mut report)?;
/// assert!(drained.links().map(|link| link.ptr.slot).eq([2, 3]));
/// # Ok::<(), chain_arena::Refusal>(())
/// ```
impl ArenaMut<'_> {
    /// Makes `p_next` the next of `p_prev`; a lone link that is connected to itself becomes a closed chain of one.
    ///
    /// # Errors
    ///
    /// 1 to 11 as `Arena::check`, then in this order: 12 if `p_prev` is stale, 13 if it has a next, 12 if
    /// `p_next` is stale, 13 if it has a prev.
    pub fn connect(&mut self, p_prev: Ptr, p_next: Ptr) -> Result<(), Refusal> {
        plain(call!(chain_arena_connect(
            self,
            as_mut_ptr,
            p_prev.slot,
            p_prev.generation,
            p_next.slot,
            p_next.generation
        )))
    }

    /// Parts the link at `p` from the one before it.
    ///
    /// # Errors
    ///
    /// 1 to 11 as `Arena::check`, then 12 if `p` is stale, then 13 if it has no prev.
    pub fn break_prev(&mut self, p: Ptr) -> Result<(), Refusal> {
        plain(call!(chain_arena_break_prev(self, as_mut_ptr, p.slot, p.generation)))
    }

    /// Parts the link at `p` from the one after it.
    ///
    /// # Errors
    ///
    /// 1 to 11 as `Arena::check`, then 12 if `p` is stale, then 13 if it has no next.
    pub fn break_next(&mut self, p: Ptr) -> Result<(), Refusal> {
        plain(call!(chain_arena_break_next(self, as_mut_ptr, p.slot, p.generation)))
    }

    /// Gives each of the links at `p0` and `p1` the other one's next.
    ///
    /// # Errors
    ///
    /// 1 to 11 as `Arena::check`, then 12 if one of the pointers is stale, then 13 if one of the links has
    /// no next.
    pub fn exchange_next(&mut self, p0: Ptr, p1: Ptr) -> Result<(), Refusal> {
        plain(call!(chain_arena_exchange_next(
            self,
            as_mut_ptr,
            p0.slot,
            p0.generation,
            p1.slot,
            p1.generation
        )))
    }

    /// Inserts a link with a payload, and answers its pointer. Its slot is the freelist's root, or where no slot is free the
    /// one after the stack; its generation is the current one, which stays.
    ///
    /// # Errors
    ///
    /// 1 to 11 as `Arena::check`, then 17 if a pointer of the kind is stale or what it asks besides does not hold, then 18 if
    /// every slot of the columns holds a link.
    pub fn insert(&mut self, kind: LinkInsertKind, payload: u32) -> Result<Ptr, Refusal> {
        let [p, q] = kind.pointers();
        let answer = call!(chain_arena_insert(
            self,
            as_mut_ptr,
            kind.code(),
            p.slot,
            p.generation,
            q.slot,
            q.generation,
            payload
        ));
        answer.done().map(|_| Ptr { slot: answer.slot, generation: answer.generation })
    }

    /// Takes the link at `p` out and joins its neighbours.
    ///
    /// # Errors
    ///
    /// 1 to 11 as `Arena::check`, then 12 if `p` is stale.
    pub fn remove(&mut self, p: Ptr) -> Result<Removed, Refusal> {
        let answer = call!(chain_arena_remove(self, as_mut_ptr, p.slot, p.generation));
        answer.done().map(|done| Removed { link: answer.into(), overflowed: done.overflowed })
    }

    /// Removes all links of `p`'s chain in the order of a walk from `p`. The report needs five words for each of them.
    ///
    /// # Errors
    ///
    /// 1 to 11 as `Arena::check`, then 12 if `p` is stale, then 14 if the report is too short.
    pub fn drain<'r>(&mut self, p: Ptr, report: &'r mut [u32]) -> Result<Drained<'r>, Refusal> {
        let answer = call!(chain_arena_drain(
            self,
            as_mut_ptr,
            p.slot,
            p.generation,
            report.as_mut_ptr(),
            report.len()
        ));
        answer.done().map(|_| {
            let items: &[[u32; DrainedLink::WORDS]] = report.as_chunks().0;
            let report = items.get(..answer.items as usize).unwrap_or(items);
            let overflowed_at = (answer.overflowed as usize).checked_sub(1);
            Drained { report, overflowed: overflowed_at.is_some(), overflowed_at }
        })
    }

    /// Sets the current generation, from 2 on.
    ///
    /// # Errors
    ///
    /// 1 to 11 as `Arena::check`, then 15 if the generation is 0 or 1.
    pub fn set_generation(&mut self, generation: u32) -> Result<(), Refusal> {
        plain(call!(chain_arena_set_generation(self, as_mut_ptr, generation)))
    }

    /// Raises the current generation.
    ///
    /// # Errors
    ///
    /// 1 to 11 as `Arena::check`.
    pub fn inc_generation(&mut self) -> Result<Done, Refusal> {
        call!(chain_arena_inc_generation(self, as_mut_ptr)).done()
    }

    /// Pops the free slots above the highest link and links the others in rising order from the root on.
    ///
    /// # Errors
    ///
    /// 1 to 11 as `Arena::check`.
    pub fn canonicalize_freelist(&mut self) -> Result<(), Refusal> {
        plain(call!(chain_arena_canonicalize_freelist(self, as_mut_ptr)))
    }

    /// Applies the commands of a run under one check, and answers each command with what became of it. After a command that
    /// is refused the next one is applied all the same. The run keeps its commands.
    ///
    /// # Errors
    ///
    /// 1 to 11 as `Arena::check`. What is refused of a command is in its answer: 12, 13, 17 or 18.
    pub fn run<'r>(&mut self, run: &'r mut Run<'_>) -> Result<Answers<'r>, Refusal> {
        let (commands, answers) = run.lent();
        self.run_words(commands.as_flattened(), answers)?;
        Ok(Answers::new(commands, answers))
    }

    /// Applies commands that are words already: six for each, as [`Command::words`](crate::Command::words) makes them. Each
    /// gets one answer word, which [`Done::answer`] reads.
    ///
    /// # Errors
    ///
    /// 1 to 11 as `Arena::check`, then 16 if the number of words is not divisible by six, then 14 if there
    /// are fewer answer words than commands. What is refused of a command is in its answer word: 12, 13, 17, 18, or 16 for an
    /// unknown code.
    pub fn run_words(&mut self, commands: &[u32], answers: &mut [u32]) -> Result<(), Refusal> {
        plain(call!(chain_arena_run(
            self,
            as_mut_ptr,
            commands.as_ptr(),
            commands.len(),
            answers.as_mut_ptr(),
            answers.len()
        )))
    }
}

/// What a call answers that can only be done or refused.
fn plain(answer: PlainResult) -> Result<(), Refusal> {
    answer.done().map(|_| ())
}

/// A link that was removed.
#[derive(Clone, Copy, Debug, PartialEq, Eq)]
pub struct Removed {
    /// The link as it was
    pub link: LinkNoGen,
    /// Whether the current generation overflowed
    pub overflowed: bool,
}

/// A chain that was drained.
#[derive(Clone, Copy, Debug, PartialEq, Eq)]
pub struct Drained<'r> {
    /// The words of each link, in the walk's order: slot, generation, prev, next, payload
    pub report: &'r [[u32; DrainedLink::WORDS]],
    /// Whether the current generation overflowed
    pub overflowed: bool,
    /// At which of the links it did, by its place in the report
    pub overflowed_at: Option<usize>,
}

/// A link of a chain that was drained.
#[derive(Clone, Copy, Debug, PartialEq, Eq)]
pub struct DrainedLink {
    /// The pointer that named it
    pub ptr: Ptr,
    /// The link when its turn came, so that links removed before it are named no more
    pub link: LinkNoGen,
}

impl DrainedLink {
    /// How many words of a report a link takes.
    pub const WORDS: usize = 5;
}

impl<'r> Drained<'r> {
    /// The links, in the walk's order.
    #[must_use = "iterators are lazy and do nothing unless consumed"]
    pub fn links(&self) -> impl ExactSizeIterator<Item = DrainedLink> + use<'r> {
        self.report.iter().map(|&[slot, generation, prev, next, payload]| DrainedLink {
            ptr: Ptr { slot, generation },
            link: LinkNoGen { prev: answered_slot(prev), next: answered_slot(next), payload },
        })
    }
}
