//! Level One: checking an arena, reading links and neighbours, starting a walk, what of a chain is due (REFERENCE, Check,
//! Reading, Walk and Frame clock).

use crate::{Arena, Due, Link, LinkNoGen, Ptr, Refusal, Slot, Steps, Walk, Window};

/// The calls of Level One. Each checks the whole arena first; [`checked`](Self::checked) does so once for many reads.
impl<'a> Arena<'a> {
    /// Passes exactly if the arena is well formed, else says which rule it breaks first.
    ///
    /// # Errors
    ///
    /// 1 to 11: the first rule that fails. With 11 the refusal has the slot and the side.
    pub fn check(&self) -> Result<(), Refusal> {
        call!(chain_arena_check(self, as_ptr)).done().map(|_| ())
    }

    /// The link at `p`, its neighbours with their generations.
    ///
    /// # Errors
    ///
    /// 1 to 11 as [`check`](Self::check), then 12 if `p` is stale.
    pub fn get_link(&self, p: Ptr) -> Result<Link, Refusal> {
        let answer = call!(chain_arena_get_link(self, as_ptr, p.slot, p.generation));
        answer.done().map(|_| answer.into())
    }

    /// The link at `p`, its neighbours by their slots.
    ///
    /// # Errors
    ///
    /// 1 to 11 as [`check`](Self::check), then 12 if `p` is stale.
    pub fn get_link_no_gen(&self, p: Ptr) -> Result<LinkNoGen, Refusal> {
        let answer = call!(chain_arena_get_link_no_gen(self, as_ptr, p.slot, p.generation));
        answer.done().map(|_| answer.into())
    }

    /// Whether the next of `p_prev` is `p_next`; false if one of them is stale.
    ///
    /// # Errors
    ///
    /// 1 to 11 as [`check`](Self::check).
    pub fn are_neighbors(&self, p_prev: Ptr, p_next: Ptr) -> Result<bool, Refusal> {
        let answer = call!(chain_arena_are_neighbors(
            self,
            as_ptr,
            p_prev.slot,
            p_prev.generation,
            p_next.slot,
            p_next.generation
        ));
        answer.done().map(|_| answer.yes != 0)
    }

    /// The state of a walk that begins at `p`, to be stepped also while the arena changes.
    ///
    /// # Errors
    ///
    /// 1 to 11 as [`check`](Self::check), then 12 if `p` is stale.
    pub fn walk_start(&self, p: Ptr) -> Result<Walk, Refusal> {
        let answer = call!(chain_arena_walk_start(self, as_ptr, p.slot, p.generation));
        answer.done().map(|_| Walk {
            start: answer.start,
            position: answer.position,
            direction: answer.direction,
            left: answer.left,
        })
    }

    /// The links of `p`'s chain: from `p` to the end of the chain, then from the link before `p` back to the beginning.
    ///
    /// Each link is one proved step, and each step checks the whole arena: a walk of n links in an arena of m slots takes
    /// time in proportion to n times m. [`Checked::chain`](crate::Checked::chain) gives the same links, and what they hold,
    /// with one check for all of them.
    ///
    /// # Errors
    ///
    /// 1 to 11 as [`check`](Self::check), then 12 if `p` is stale.
    pub fn walk(&self, p: Ptr) -> Result<Steps<'a>, Refusal> {
        self.walk_start(p).map(|walk| Steps::new(*self, walk))
    }

    /// The links that a walk still gives which was begun earlier, maybe before the arena changed. It costs what
    /// [`walk`](Self::walk) does.
    ///
    /// # Errors
    ///
    /// 1 to 11 as [`check`](Self::check).
    pub fn walk_from(&self, walk: Walk) -> Result<Steps<'a>, Refusal> {
        self.check().map(|()| Steps::new(*self, walk))
    }

    /// How many links of `p`'s chain are due in a window: those whose payload is a dot of it. A payload that is no
    /// dot of the frame is never due.
    ///
    /// # Errors
    ///
    /// 1 to 11 as [`check`](Self::check), then 12 if `p` is stale.
    pub fn due_count(&self, p: Ptr, window: Window) -> Result<usize, Refusal> {
        let answer = call!(chain_arena_due_count(
            self,
            as_ptr,
            p.slot,
            p.generation,
            window.start().get(),
            window.end()
        ));
        answer.done().map(|_| answer.count as usize)
    }

    /// The links of `p`'s chain that are due in a window, in the order of [`walk`](Self::walk). The report needs a word for
    /// each link of the chain, due or not; words past those that are due stay as they were.
    ///
    /// One call checks the arena once, however many links are due. To ask for many chains or windows of an arena that does
    /// not change, [`Checked::due`](crate::Checked::due) gives the same links after one check for all.
    ///
    /// ```
    /// use chain_arena::{Arena, Line, Ptr};
    ///
    /// // 1 -> 3 -> 2: two events on line 1, and one on line 2.
    /// let arena = Arena {
    ///     prev: &[0, 3, 1],
    ///     next: &[3, 0, 2],
    ///     generation: &[5, 5, 5],
    ///     payload: &[681, 341, 682],
    ///     header: &[3, 3, 0, 5],
    /// };
    /// let (p, line) = (Ptr { slot: 3, generation: 5 }, Line::new(1).unwrap());
    /// assert_eq!(arena.due_count(p, line.window())?, 2);
    /// let mut report = [0; 3];
    /// let due = arena.due_events(p, line.window(), &mut report)?;
    /// assert_eq!(due.slots(), [2, 1]);
    /// assert!(due.events().map(|event| event.dot.place()).eq([0, 340]));
    /// # Ok::<(), chain_arena::Refusal>(())
    /// ```
    ///
    /// # Errors
    ///
    /// 1 to 11 as [`check`](Self::check), then 12 if `p` is stale, then 14 if the report has fewer words than the chain has
    /// links.
    pub fn due_events<'r>(
        &self,
        p: Ptr,
        window: Window,
        report: &'r mut [Slot],
    ) -> Result<Due<'a, 'r>, Refusal> {
        let answer = call!(chain_arena_due_events(
            self,
            as_ptr,
            p.slot,
            p.generation,
            window.start().get(),
            window.end(),
            report.as_mut_ptr(),
            report.len()
        ));
        answer.done().map(|_| {
            let report: &'r [Slot] = report;
            Due { slots: report.get(..answer.count as usize).unwrap_or(report), arena: *self }
        })
    }
}
