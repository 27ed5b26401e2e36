//! One call made all three ways, and where the answers part.

use std::fmt;
use std::io::{Write, stderr};

use crate::{Archive, Arena, Call, Reading, Reply, demand3, exports, model, show, side, wrapper};

/// What a call leaves: its reply, the slices that it was lent, and the arena.
#[derive(Clone, Debug, PartialEq, Eq)]
pub struct Outcome {
    /// What the call answered
    pub reply: Reply,
    /// The call with its lent slices as they are afterwards
    pub call: Call,
    /// The arena as it is afterwards
    pub arena: Arena,
}

/// What a side gives for a case: what it leaves, or in words what else it did.
pub type Answer = Result<Outcome, String>;

/// The side that stands for the product, or none for a call that it does not have.
pub type Product<'a> = &'a (dyn Fn(&Arena, &Call) -> Option<Answer> + Sync);

/// Two sides that part on a case; `show` prints it.
pub struct Mismatch {
    /// Which side parts from the model
    pub side: &'static str,
    /// The arena before the call
    pub before: Arena,
    /// The call
    pub call: Call,
    /// What the model leaves, if it ended
    pub model: Option<Outcome>,
    /// What the other side gives
    pub other: Answer,
}

impl Mismatch {
    /// Two sides that part on a case.
    pub fn new(
        side: &'static str,
        before: &Arena,
        call: &Call,
        model: Option<Outcome>,
        other: Answer,
    ) -> Box<Self> {
        Box::new(Self { side, before: before.clone(), call: call.clone(), model, other })
    }
}

/// How many cases were compared, with whom, and what they answered.
#[derive(Clone, Debug)]
pub struct Counts {
    /// Cases in all
    pub cases: u64,
    /// Cases that the crate's text could be asked too
    pub with_crate: u64,
    /// Cases that were asked of an exported call
    pub with_exports: u64,
    /// Cases by the model's number, 0 to 19 and 100
    pub numbers: [u64; 101],
    /// Cases with 11 whose slot is broken at its prev, and at its next alone
    pub sides: [u64; 2],
    /// Cases with 11 whose slot and side the crate's text was asked for
    pub places_with_crate: u64,
}

impl Default for Counts {
    fn default() -> Self {
        Self {
            cases: 0,
            with_crate: 0,
            with_exports: 0,
            numbers: [0; 101],
            sides: [0; 2],
            places_with_crate: 0,
        }
    }
}

impl fmt::Display for Counts {
    fn fmt(&self, f: &mut fmt::Formatter<'_>) -> fmt::Result {
        write!(
            f,
            "{} cases, {} with the crate, {} with the exports; by number",
            self.cases, self.with_crate, self.with_exports
        )?;
        for (number, count) in self.numbers.iter().enumerate().filter(|(_, count)| **count != 0) {
            write!(f, " {number}: {count}")?;
        }
        Ok(())
    }
}

impl Counts {
    /// Counts a case and what it must answer.
    pub fn count(&mut self, reply: &Reply) {
        self.cases += 1;
        self.numbers[reply.number as usize] += 1;
        self.sides[0] += u64::from(reply.side == side::PREV);
        self.sides[1] += u64::from(reply.side == side::NEXT);
    }

    /// Adds what was counted elsewhere.
    pub fn add(&mut self, other: &Self) {
        self.cases += other.cases;
        self.with_crate += other.with_crate;
        self.with_exports += other.with_exports;
        self.places_with_crate += other.places_with_crate;
        let counts = self.numbers.iter_mut().chain(&mut self.sides);
        for (count, more) in counts.zip(other.numbers.iter().chain(&other.sides)) {
            *count += more;
        }
    }

    /// Says how many cases there were, past the test harness, which keeps the lines of tests that pass; and holds to it
    /// that each was asked of an exported call, if all archives are linked.
    pub fn say(&self, what: &str) {
        let _ = writeln!(stderr(), "{what}: {self}");
        let missing: Vec<Archive> = Archive::ALL.into_iter().filter(|archive| !archive.is_linked()).collect();
        if missing.is_empty() {
            assert_eq!(self.with_exports, self.cases, "{what}: an exported call was not asked");
        } else if self.with_exports < self.cases {
            let _ = writeln!(stderr(), "{what}: not linked, and so not asked: the calls of {missing:?}");
        }
    }
}

/// Whether the crate's text was found when this was built.
pub const fn crate_text_found() -> bool {
    cfg!(crate_text)
}

/// What the model leaves.
pub fn model_outcome(before: &Arena, call: &Call) -> Outcome {
    let (mut arena, mut call) = (before.clone(), call.clone());
    let reply = model::perform(&mut arena, &mut call);
    Outcome { reply, call, arena }
}

/// What the crate's text leaves on an arena that passes the check, if its types can hold it and it has the call.
#[cfg(crate_text)]
pub fn crate_outcome(before: &Arena, call: &Call) -> Option<Outcome> {
    let mut call = call.clone();
    let mut held = crate::crate_side::CrateArena::hold(before)?;
    let reply = held.perform(&mut call)?;
    Some(Outcome { reply, call, arena: held.columns(before) })
}

/// The crate's text is not at hand.
#[cfg(not(crate_text))]
pub fn crate_outcome(_: &Arena, _: &Call) -> Option<Outcome> {
    None
}

/// The number of what the crate's own check says of the arena, if its types can hold it.
#[cfg(crate_text)]
pub fn crate_number(a: &Arena) -> Option<u32> {
    Some(crate::crate_side::CrateArena::hold(a)?.check())
}

/// The crate's text is not at hand.
#[cfg(not(crate_text))]
pub fn crate_number(_: &Arena) -> Option<u32> {
    None
}

/// The slot and the side at which the crate's check finds rule 11 to fail, if its types can hold the arena and it has few
/// enough slots to ask for. The check names neither, so it is asked about one side of one slot at a time: slot by slot, prev
/// before next, of an arena that has no other interlink. The first that it refuses is the place.
#[cfg(crate_text)]
pub fn crate_place(a: &Arena) -> Option<(u32, u32)> {
    if a.stack() > SLOTS_ASKED_FOR {
        return None;
    }
    let places = a.link_slots().flat_map(|s| [(s, side::PREV), (s, side::NEXT)]);
    for (s, side) in places {
        if crate_number(&with_one_interlink(a, s, side))? == 11 {
            return Some((s as u32, side));
        }
    }
    Some((0, 0))
}

/// The crate's text is not at hand.
#[cfg(not(crate_text))]
pub fn crate_place(_: &Arena) -> Option<(u32, u32)> {
    None
}

/// The most slots of an arena that the crate is asked for its broken place: it makes two checks a slot.
#[cfg(crate_text)]
const SLOTS_ASKED_FOR: usize = 12;

/// The arena with 0 for the prev and next of every link, but for what slot `s` names on a side and what its neighbour there
/// names on the other: the crate's check passes on it exactly if rule 11 holds at that side of `s`.
#[cfg(crate_text)]
fn with_one_interlink(a: &Arena, s: usize, side: u32) -> Arena {
    let mut alone = a.clone();
    for s in a.link_slots() {
        (alone.prev[s - 1], alone.next[s - 1]) = (0, 0);
    }
    let (named, back, old_named, old_back) = if side == side::PREV {
        (&mut alone.prev, &mut alone.next, &a.prev, &a.next)
    } else {
        (&mut alone.next, &mut alone.prev, &a.next, &a.prev)
    };
    let neighbour = old_named[s - 1] as usize;
    named[s - 1] = old_named[s - 1];
    if a.is_link(neighbour) {
        back[neighbour - 1] = old_back[neighbour - 1];
    }
    alone
}

/// What the exported call leaves on copies that are exactly as long as what is lent, if it is exported.
pub fn export_outcome(before: &Arena, call: &Call) -> Option<Answer> {
    let (mut arena, mut call) = (before.clone(), call.clone());
    let reply = exports::perform(&mut arena, &mut call)?;
    Some(Ok(Outcome { reply, call, arena }))
}

/// What the call leaves if it is made through the safe wrapper, if its archive is linked and the wrapper can name its kind or its
/// window.
pub fn wrapper_outcome(before: &Arena, call: &Call) -> Option<Outcome> {
    let (mut arena, mut call) = (before.clone(), call.clone());
    let reply = wrapper::perform(&mut arena, &mut call)?;
    Some(Outcome { reply, call, arena })
}

/// Makes one call all three ways and answers what the model leaves. A refused call must leave every word as it was, and a
/// call that writes an arena that passes the exported check.
pub fn compare(
    product: Product,
    before: &Arena,
    call: &Call,
    counts: &mut Counts,
) -> Result<Outcome, Box<Mismatch>> {
    let expected = model_outcome(before, call);
    counts.count(&expected.reply);
    let parted = asked_product(product, before, call, &expected, counts)
        .or_else(|| asked_crate(before, call, &expected, counts));
    match parted {
        None => Ok(expected),
        Some((side, other)) => Err(Mismatch::new(side, before, call, Some(expected), other)),
    }
}

/// A side that parts from the model, and what it gives.
type Parted = Option<(&'static str, Answer)>;

/// Holds the product to what the model leaves.
fn asked_product(
    product: Product,
    before: &Arena,
    call: &Call,
    expected: &Outcome,
    counts: &mut Counts,
) -> Parted {
    let answer = product(before, call)?;
    counts.with_exports += 1;
    let said = |what: &str| Some(("export", Err(what.to_string())));
    let Ok(found) = &answer else {
        return Some(("export", answer));
    };
    if found != expected {
        return Some(("export", answer));
    }
    let refused = !matches!(found.reply.number, 0 | 100);
    if refused && (found.arena != *before || found.call != *call) {
        return said("it wrote a word although it refused");
    }
    if found.arena != *before && exports::check(&found.arena).number != 0 {
        return said("the arena that it leaves does not pass the exported check");
    }
    None
}

/// Holds the crate's text to what the model leaves. It has no call but on an arena, and on one that does not pass its check and
/// no other. That check names no slot: with 11 the number is compared with the crate's, and slot and side are the model's, to which
/// the product is held word by word. If the arena is small, `crate_place` confirms them.
fn asked_crate(before: &Arena, call: &Call, expected: &Outcome, counts: &mut Counts) -> Parted {
    if !call.takes_arena() {
        return None;
    }
    if !(1..=11).contains(&expected.reply.number) {
        if takes_too_long(before, call) {
            return None;
        }
        let found = crate_outcome(before, call)?;
        counts.with_crate += 1;
        return (*expected != found).then_some(("crate", Ok(found)));
    }
    if *call != Call::Check {
        return None;
    }
    let number = crate_number(before)?;
    counts.with_crate += 1;
    if number != expected.reply.number {
        return Some(("crate", Err(format!("its check says {number}"))));
    }
    if number != 11 {
        return None;
    }
    let place = crate_place(before)?;
    counts.places_with_crate += 1;
    let said = || match show::place(place.0, place.1) {
        none if none.is_empty() => "its check of one side at a time passes on all".to_string(),
        place => format!("its check of one side at a time fails first{place}"),
    };
    (place != (expected.reply.broken, expected.reply.side)).then(|| ("crate", Err(said())))
}

/// Whether the crate takes too long for a canonical compression, of an arena that passes the check: it looks for each chain from the
/// last slot on that it has filled, and so goes over free slots again and again. It is asked about every arena of up to 65,535 slots.
fn takes_too_long(before: &Arena, call: &Call) -> bool {
    const STEPS: usize = 1 << 30;
    if !matches!(call, Call::CompressCanonical(..)) {
        return false;
    }
    let free = before.stack() - before.links();
    free * before.links() > STEPS && free * demand3::chains(before).len() > STEPS
}

/// A crate arena that lives through a sequence of calls.
#[cfg(crate_text)]
pub struct Live(crate::crate_side::CrateArena);

#[cfg(crate_text)]
impl Live {
    /// The crate's arena of these columns, which pass the check.
    pub fn new(a: &Arena) -> Self {
        Self(crate::crate_side::CrateArena::hold(a).expect("a whole arena"))
    }

    /// Makes the call if the crate has it, and holds what it leaves to the model and to the crate's own check.
    pub fn follow(&mut self, before: &Arena, call: &Call, expected: &Outcome) -> Option<Box<Mismatch>> {
        let mut lent = call.clone();
        let reply = self.0.perform(&mut lent)?;
        let found = Outcome { reply, call: lent, arena: self.0.columns(before) };
        let parted = match self.0.check() {
            _ if found != *expected => Ok(found),
            0 => return None,
            number => Err(format!("its own check says {number} afterwards")),
        };
        let side = "crate arena of the whole sequence";
        Some(Mismatch::new(side, before, call, Some(expected.clone()), parted))
    }
}

/// The crate's text is not at hand.
#[cfg(not(crate_text))]
pub struct Live;

#[cfg(not(crate_text))]
impl Live {
    /// Nothing to follow.
    pub fn new(_: &Arena) -> Self {
        Self
    }

    /// Nothing is compared.
    pub fn follow(&mut self, _: &Arena, _: &Call, _: &Outcome) -> Option<Box<Mismatch>> {
        None
    }
}
