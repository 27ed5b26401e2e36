//! The small arenas: all of them in a list, and each as a text that can be read again (REFERENCE, Small arenas).

use std::collections::BTreeMap;
use std::ffi::OsStr;

use chain_arena::{OwnedArena, SmallArena, small_arenas};

use crate::Shown;
use crate::by_slot::BySlot;
use crate::format;
use crate::judged::Judged;
use crate::lines::number;
use crate::misused;
use crate::picture::Picture;
use crate::quote::quoted;
use crate::wording::counted;

/// Lists all small arenas, or shows the one of an index as its text. Which indexes there are is asked of the proved call.
pub fn small(index: Option<&OsStr>) -> Result<Shown, String> {
    let Some(index) = index else { return Ok(Shown::text(&list())) };
    let found = index.to_str().and_then(number).and_then(SmallArena::new);
    found.map(|small| shown(&small)).ok_or_else(|| {
        let last = small_arenas().last().map_or(0, |small| small.index());
        let found = quoted(&index.to_string_lossy());
        misused(format!("`small` takes INDEX, a number from 0 to {last}, found {found}"))
    })
}

/// A line for each small arena, and how many there are, by stack length and in all.
fn list() -> String {
    let mut text = String::new();
    let mut counts = BTreeMap::new();
    for small in small_arenas() {
        let arena = OwnedArena::from(small.as_arena());
        text += &format!("{:>4}  {}\n", small.index(), held(&arena));
        *counts.entry(arena.header().stack_length).or_insert(0) += 1;
    }
    let all = counted(counts.values().sum(), "small arena");
    let of_length = |(length, count)| format!("{count} of stack length {length}");
    let by_length: Vec<String> = counts.iter().map(of_length).collect();
    format!("{text}{all}: {}\n", by_length.join(", "))
}

/// A small arena as a text, and to draw.
fn shown(small: &SmallArena) -> Shown {
    let name = format!("small arena {}", small.index());
    let judged = Judged::new(name, OwnedArena::from(small.as_arena()));
    let text = format!("# {}: {}\n{}", judged.name, held(&judged.arena), format::text(&judged.arena));
    Shown { text, ..judged.show() }
}

/// The rows of an arena on one line.
fn held(arena: &OwnedArena) -> String {
    let rows = Picture::of(arena).rows;
    let rows = rows.iter().map(|row| row.text(None).split_whitespace().collect::<Vec<_>>().join(" "));
    let rows: Vec<String> = rows.collect();
    if rows.is_empty() { "nothing".to_string() } else { rows.join(", ") }
}

#[cfg(test)]
mod tests {
    use super::*;

    #[test]
    fn every_text_is_read_again_and_passes_the_check() {
        for given in small_arenas() {
            let shown = small(Some(OsStr::new(&given.index().to_string()))).unwrap();
            let read = Judged::parse(String::new(), shown.text.as_bytes()).unwrap();
            let (arena, words) = (given.as_arena(), read.arena.as_arena());
            assert_eq!((words.prev, words.next), (arena.prev, arena.next), "{}", shown.text);
            assert_eq!(
                (words.generation, words.payload),
                (arena.generation, arena.payload),
                "{}",
                shown.text
            );
            assert_eq!(words.header, arena.header, "{}", shown.text);
            assert!(read.refused.is_none() && shown.passes, "{}", shown.text);
            assert_eq!(shown.panels[0].arena, read.arena);
        }
    }
}
