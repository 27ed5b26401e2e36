//! The frame clock: a payload as a dot of the frame, the frame's lines, and windows of dots (REFERENCE, Frame clock).

use core::fmt;

use crate::checked::word;
use crate::ffi::{LineDotsResult, LineResult, chain_arena_line_dots, chain_arena_line_of_dot};
use crate::{Arena, Ptr, Refusal, RefusalKind, Slot};

/// A dot of the frame, counted from 0 through all its lines: 0 to 89,341.
///
/// A frame is 262 [lines](Line) of 341 dots. A dot, a line and a plain number are of three types, so that none is taken for
/// another:
///
/// ```
/// use chain_arena::{Dot, Line};
///
/// let dot = Dot::new(1_000).unwrap();
/// assert_eq!((dot.line().get(), dot.place()), (2, 318));
/// assert_eq!(Line::new(2).unwrap().dot(318), Some(dot));
/// assert_eq!(Dot::new(89_342), None); // the frame ends before it
/// assert_eq!(Dot::try_from(89_342).unwrap_err().number(), 19);
/// ```
///
/// ```compile_fail,E0308
/// # use chain_arena::{Dot, Line};
/// assert!(Dot::FIRST == Line::FIRST);
/// ```
#[derive(Clone, Copy, Debug, PartialEq, Eq, PartialOrd, Ord, Hash)]
pub struct Dot(u32);

/// A line of the frame, counted from 0: 0 to 261. Line k has the dots from 341 times k on, 341 of them.
///
/// ```
/// use chain_arena::{Dot, Line, Window};
///
/// let line = Line::new(1).unwrap();
/// assert_eq!((line.first().get(), line.last().get()), (341, 681));
/// assert_eq!(line.window(), Window::new(line.first(), Dot::new(682).unwrap()));
/// assert_eq!(Line::LAST.last(), Dot::LAST);
/// assert_eq!(Line::all().count(), 262);
/// assert_eq!(Line::new(262), None);
/// assert_eq!(Line::try_from(262).unwrap_err().number(), 19);
/// ```
#[derive(Clone, Copy, Debug, PartialEq, Eq, PartialOrd, Ord, Hash)]
pub struct Line(u32);

/// The dots from one up to, but not including, another one or the end of the frame.
///
/// It is not a range of Rust: where its end is before its start, it crosses the end of the frame and goes on at dot 0. Equal
/// ends make an empty window, so that the whole frame is [`FRAME`](Self::FRAME).
///
/// ```
/// use chain_arena::{Dot, Window};
///
/// let [early, late] = [100, 89_000].map(|dot| Dot::new(dot).unwrap());
/// assert!(!Window::new(early, late).contains(late));
/// let over_the_end = Window::new(late, early);
/// assert!(over_the_end.contains(late) && over_the_end.contains(Dot::LAST) && over_the_end.contains(Dot::FIRST));
/// assert!(!over_the_end.contains(early));
/// assert!(Window::to_end(late).contains(Dot::LAST) && !Window::to_end(late).contains(Dot::FIRST));
/// assert!(Window::new(late, late).is_empty());
/// assert!(Window::FRAME.contains(Dot::FIRST) && Window::FRAME.contains(Dot::LAST));
/// ```
///
/// A line has no place among its ends:
///
/// ```compile_fail,E0308
/// # use chain_arena::{Dot, Line, Window};
/// let _ = Window::new(Dot::FIRST, Line::LAST);
/// ```
#[derive(Clone, Copy, Debug, PartialEq, Eq, Hash)]
pub struct Window {
    start: Dot,
    end: u32,
}

/// The exported call. It takes no pointer.
fn line_of_dot(dot: u32) -> LineResult {
    // Safety: nothing is asked of a number.
    unsafe { chain_arena_line_of_dot(dot) }
}

/// The exported call. It takes no pointer.
fn line_dots(line: u32) -> LineDotsResult {
    // Safety: nothing is asked of a number.
    unsafe { chain_arena_line_dots(line) }
}

impl Dot {
    /// How many dots a frame has.
    pub const COUNT: u32 = Line::COUNT * Line::DOTS;
    /// The first dot of the frame.
    pub const FIRST: Self = Self(0);
    /// The last dot of the frame.
    pub const LAST: Self = Self(Self::COUNT - 1);

    /// The dot of a number, none if it is over 89,341.
    #[must_use]
    pub const fn new(dot: u32) -> Option<Self> {
        if dot < Self::COUNT { Some(Self(dot)) } else { None }
    }

    /// Its number.
    #[must_use]
    pub const fn get(self) -> u32 {
        self.0
    }

    /// The line that it is on, as the proved call answers it.
    #[must_use]
    pub fn line(self) -> Line {
        Line(line_of_dot(self.0).line)
    }

    /// Its place in its line, 0 to 340.
    #[must_use]
    pub fn place(self) -> u32 {
        self.0 - self.line().first().0
    }
}

impl Line {
    /// How many lines a frame has.
    pub const COUNT: u32 = 262;
    /// How many dots a line has.
    pub const DOTS: u32 = 341;
    /// The first line of the frame.
    pub const FIRST: Self = Self(0);
    /// The last line of the frame.
    pub const LAST: Self = Self(Self::COUNT - 1);

    /// The line of a number, none if it is over 261.
    #[must_use]
    pub const fn new(line: u32) -> Option<Self> {
        if line < Self::COUNT { Some(Self(line)) } else { None }
    }

    /// Its number.
    #[must_use]
    pub const fn get(self) -> u32 {
        self.0
    }

    /// Its first dot, as the proved call answers it.
    #[must_use]
    pub fn first(self) -> Dot {
        Dot(line_dots(self.0).first)
    }

    /// Its last dot, as the proved call answers it.
    #[must_use]
    pub fn last(self) -> Dot {
        Dot(line_dots(self.0).last)
    }

    /// The dot at a place of it, none if that is over 340.
    #[must_use]
    pub fn dot(self, place: u32) -> Option<Dot> {
        (place < Self::DOTS).then(|| Dot(self.first().0 + place))
    }

    /// All of its dots.
    #[must_use]
    pub fn window(self) -> Window {
        let LineDotsResult { first, last, .. } = line_dots(self.0);
        Window { start: Dot(first), end: last + 1 }
    }

    /// All lines of the frame, in their order.
    #[must_use = "iterators are lazy and do nothing unless consumed"]
    pub fn all() -> impl DoubleEndedIterator<Item = Self> + ExactSizeIterator {
        (0..Self::COUNT).map(Self)
    }
}

impl Window {
    /// The whole frame: from dot 0 to its end.
    pub const FRAME: Self = Self::to_end(Dot::FIRST);

    /// From a dot up to, but not including, another one.
    #[must_use]
    pub const fn new(from: Dot, to: Dot) -> Self {
        Self { start: from, end: to.0 }
    }

    /// From a dot to the end of the frame, whose last dot is in it.
    #[must_use]
    pub const fn to_end(from: Dot) -> Self {
        Self { start: from, end: Dot::COUNT }
    }

    /// The window of two words as the calls take them, none if the first is over 89,341 or the second over 89,342.
    #[must_use]
    pub const fn of(from: u32, to: u32) -> Option<Self> {
        match Dot::new(from) {
            Some(start) if to <= Dot::COUNT => Some(Self { start, end: to }),
            _ => None,
        }
    }

    /// The dot that it begins with.
    #[must_use]
    pub const fn start(self) -> Dot {
        self.start
    }

    /// The number of the dot before which it ends; 89,342 if it ends with the frame.
    #[must_use]
    pub const fn end(self) -> u32 {
        self.end
    }

    /// Whether it has no dot, that is whether its ends are equal.
    #[must_use]
    pub const fn is_empty(self) -> bool {
        self.start.0 == self.end
    }

    /// Whether the dot is in it. Plain Rust, tested to say of a payload what the proved calls say.
    #[must_use]
    pub const fn contains(self, dot: Dot) -> bool {
        let (from, before) = (self.start.0 <= dot.0, dot.0 < self.end);
        if self.end < self.start.0 { from || before } else { from && before }
    }
}

/// The dot of a number.
impl TryFrom<u32> for Dot {
    type Error = Refusal;

    /// # Errors
    ///
    /// 19 if the frame has no such dot, as the proved call refuses to tell its line.
    fn try_from(dot: u32) -> Result<Self, Refusal> {
        line_of_dot(dot).done().map(|_| Self(dot))
    }
}

/// The line of a number.
impl TryFrom<u32> for Line {
    type Error = Refusal;

    /// # Errors
    ///
    /// 19 if the frame has no such line, as the proved call refuses to tell its dots.
    fn try_from(line: u32) -> Result<Self, Refusal> {
        line_dots(line).done().map(|_| Self(line))
    }
}

/// The window of two words as the calls take them.
impl TryFrom<(u32, u32)> for Window {
    type Error = Refusal;

    /// # Errors
    ///
    /// 19 if [`of`](Self::of) has none: the words that a call refuses so.
    fn try_from((from, to): (u32, u32)) -> Result<Self, Refusal> {
        Self::of(from, to).ok_or(Refusal::of(RefusalKind::OutOfFrame))
    }
}

/// Its number.
impl From<Dot> for u32 {
    fn from(dot: Dot) -> Self {
        dot.0
    }
}

/// Its number.
impl From<Line> for u32 {
    fn from(line: Line) -> Self {
        line.0
    }
}

/// Its number.
impl fmt::Display for Dot {
    fn fmt(&self, f: &mut fmt::Formatter<'_>) -> fmt::Result {
        self.0.fmt(f)
    }
}

/// Its number.
impl fmt::Display for Line {
    fn fmt(&self, f: &mut fmt::Formatter<'_>) -> fmt::Result {
        self.0.fmt(f)
    }
}

/// The links of a chain that are due: [`Arena::due_events`].
#[derive(Clone, Copy, Debug)]
#[must_use]
pub struct Due<'a, 'r> {
    pub(crate) slots: &'r [Slot],
    pub(crate) arena: Arena<'a>,
}

/// A link that is due.
#[derive(Clone, Copy, Debug, PartialEq, Eq)]
pub struct DueEvent {
    /// The pointer that names it
    pub ptr: Ptr,
    /// When it is due: its payload
    pub dot: Dot,
}

impl<'a, 'r> Due<'a, 'r> {
    /// Their slots in the walk's order. They borrow the report alone, so that they can be kept while the arena changes.
    #[must_use]
    pub fn slots(&self) -> &'r [Slot] {
        self.slots
    }

    /// The links with their dots, in the walk's order.
    #[must_use = "iterators are lazy and do nothing unless consumed"]
    pub fn events(&self) -> impl ExactSizeIterator<Item = DueEvent> + use<'a, 'r> {
        let Arena { generation, payload, .. } = self.arena;
        self.slots.iter().map(move |&slot| DueEvent {
            ptr: Ptr { slot, generation: word(generation, slot) },
            // No payload is due that is not a dot of the frame.
            dot: Dot(word(payload, slot)),
        })
    }
}

#[cfg(feature = "alloc")]
impl crate::OwnedArena {
    /// The links of `p`'s chain that are due in a window, in the order of a walk from `p`: [`Arena::due_events`] with a report
    /// of its own, which is always long enough.
    ///
    /// # Errors
    ///
    /// 1 to 11 as [`Arena::check`], then 12 if `p` is stale.
    pub fn due_events(&self, p: Ptr, window: Window) -> Result<alloc::vec::Vec<DueEvent>, Refusal> {
        let mut report = alloc::vec![0; self.capacity()];
        Ok(self.as_arena().due_events(p, window, &mut report)?.events().collect())
    }
}
