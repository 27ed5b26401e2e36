//! A compression side by side: the slots before it, after it, and where each link came from.

use std::fmt::{Display, Write};

use chain_arena::{NewGeneration, OwnedArena, Refusal, Slot};

use crate::Shown;
use crate::arguments::How;
use crate::by_slot::BySlot;
use crate::judged::{Judged, OVERFLOWED, header, rows};
use crate::panel::Panel;
use crate::wording::digits;

/// An arena after its compression, with the old slot of each link by its new one.
pub struct Compressed {
    pub after: OwnedArena,
    pub where_from: Vec<Slot>,
    pub overflowed: bool,
}

impl Compressed {
    /// Compresses a copy of the arena.
    pub fn of(before: &OwnedArena, how: How) -> Result<Self, Refusal> {
        let mut after = before.clone();
        let generation = if how.reset { NewGeneration::Reset } else { NewGeneration::Next };
        let (where_from, overflowed) = match how.order_preserving {
            true => in_order(&mut after, generation)?,
            false => canonically(&mut after, generation)?,
        };
        Ok(Self { after, where_from, overflowed })
    }

    /// The slot that the link of an old slot is in now, none if that was free.
    fn went_to(&self, old: u32) -> Option<u32> {
        self.where_from.iter().position(|&from| from == old).map(|place| place as u32 + 1)
    }

    /// A line for each slot that the stack had, with as much room for a slot as the last one needs.
    fn table(&self, before: &OwnedArena) -> String {
        let (slots, width) = room(*before.stack().end());
        let names = cells(["prev", "next", "generation", "payload"], width);
        let (old, new) = ("  before", "  after");
        let half = names.len();
        let mut text = format!("{:slots$} |{old:half$} |{new:half$} |\n", "");
        let _ = writeln!(text, "{:>slots$} |{names} |{names} | where-from", "slot");
        for slot in before.stack() {
            let from = self.where_from.get(slot as usize - 1).copied().unwrap_or(0);
            let (old, new) = (words(before, slot, width), words(&self.after, slot, width));
            let _ = writeln!(text, "{slot:>slots$} |{old} |{new} | {from:>10}");
        }
        text
    }

    /// Where the link of a slot went.
    fn move_of(&self, slot: u32) -> String {
        match self.went_to(slot) {
            Some(now) => format!("slot {slot} went to slot {now}\n"),
            None => format!("slot {slot} was free, and free slots are gone\n"),
        }
    }
}

/// Compresses an arena canonically; answers where each link came from, and whether the generation overflowed.
fn canonically(arena: &mut OwnedArena, generation: NewGeneration) -> Result<(Vec<Slot>, bool), Refusal> {
    let mut column = vec![0; arena.capacity()];
    let done = arena.as_arena_mut().compress_canonical(generation, &mut column)?;
    Ok((done.where_from.to_vec(), done.overflowed))
}

/// Compresses an arena in the order of its slots; answers where each link came from, and whether the generation overflowed.
fn in_order(arena: &mut OwnedArena, generation: NewGeneration) -> Result<(Vec<Slot>, bool), Refusal> {
    let mut report = vec![0; 4 * arena.capacity()];
    let done = arena.as_arena_mut().compress_with(generation, &mut report)?;
    Ok((done.links().map(|moved| moved.from.slot).collect(), done.overflowed))
}

/// Compresses an arena if it passes the check, and shows it before and after.
pub fn compress(judged: &Judged, how: How) -> Result<Shown, String> {
    if judged.refused.is_some() {
        return Ok(judged.show());
    }
    let compressed =
        Compressed::of(&judged.arena, how).map_err(|refusal| format!("{}: {refusal}", judged.name))?;
    let title = format!("{}, {}", judged.name, done(how));
    let around = judged.around.map(|slot| compressed.went_to(slot));
    let mut text = format!("{title}:\n");
    text += &match judged.around {
        Some(slot) => compressed.move_of(slot),
        None => compressed.table(&judged.arena),
    };
    let overflowed = Some(OVERFLOWED.to_string()).filter(|_| compressed.overflowed);
    text.extend(overflowed.iter().map(|sentence| format!("{sentence}\n")));
    text += &format!("before: {}\n{}", header(&judged.arena), judged.rows());
    // The chain of a slot that was free is nowhere afterwards, so that no text shows it.
    if around != Some(None) {
        let rows = rows(&compressed.after, around.flatten());
        text += &format!("after: {}\n{rows}", header(&compressed.after));
    }
    let Compressed { after: arena, where_from, .. } = compressed;
    let after = Panel {
        told: overflowed.into_iter().collect(),
        where_from,
        follows: true,
        around: around.flatten(),
        ..Panel::new(title, arena)
    };
    Ok(Shown { text, panels: vec![judged.panel(), after], passes: true })
}

/// What was done to an arena, in words.
fn done(how: How) -> String {
    let how_ordered =
        if how.order_preserving { "compressed in the order of its slots" } else { "canonically compressed" };
    format!("{how_ordered}{}", if how.reset { " with reset" } else { "" })
}

/// How much room slots and neighbours have in a table up to a slot.
fn room(last: u32) -> (usize, usize) {
    (digits(last).max(4), digits(last).max(5) + 2)
}

/// The words of a slot that are read: of a free slot only its next, above the stack none.
fn words(a: &OwnedArena, slot: u32, width: usize) -> String {
    if a.is_link(slot) {
        cells([a.prev(slot), a.next(slot), a.generation(slot), a.payload(slot).unwrap_or(0)], width)
    } else if a.is_free(slot) {
        cells(["-", &a.next(slot).to_string(), "free", "-"], width)
    } else {
        cells(["-"; 4], width)
    }
}

/// Four words below each other's names, the neighbours with so much room.
fn cells<T: Display>([prev, next, generation, payload]: [T; 4], width: usize) -> String {
    format!("{prev:>width$}{next:>width$}{generation:>13}{payload:>12}")
}

#[cfg(test)]
mod tests {
    use super::*;

    #[test]
    fn neighbours_do_not_touch_however_many_slots_there_are() {
        for (last, widths) in
            [(0, (4, 7)), (9999, (4, 7)), (65_535, (5, 7)), (100_000, (6, 8)), (1_048_576, (7, 9))]
        {
            assert_eq!(room(last), widths, "{last}");
            let line = cells([last, last, u32::MAX, u32::MAX], widths.1);
            assert_eq!(line.split_whitespace().count(), 4, "{line}");
        }
    }
}
