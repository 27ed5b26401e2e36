//! Reads an arena from plain text, and writes one. docs/FORMAT.md describes the text.

#[cfg(any(test, feature = "level-two", feature = "small-arenas"))]
use std::fmt::Write;

use chain_arena::OwnedArena;

use crate::lines::{self, Line, ParseError, number};
#[cfg(any(test, feature = "level-two", feature = "small-arenas"))]
use crate::wording::digits;

/// The arena of a file's bytes.
pub fn parse(bytes: &[u8]) -> Result<OwnedArena, ParseError> {
    let text = lines::text(bytes)?;
    let mut lines = lines::lines(text);
    let header = header(lines.next().ok_or_else(|| ParseError::at_end(text, "`header`"))?)?;
    let mut arena = OwnedArena { header, ..OwnedArena::default() };
    for (k, line) in lines.enumerate() {
        row(line, k + 1, &mut arena)?;
    }
    Ok(arena)
}

/// The text of any arena. Slots and neighbours have as much room as the widest of them needs, and a blank before them.
#[cfg(any(test, feature = "level-two", feature = "small-arenas"))]
pub fn text(arena: &OwnedArena) -> String {
    let words: String = arena.header.iter().map(|word| format!(" {word}")).collect();
    let neighbours = arena.prev.iter().chain(&arena.next).copied();
    let width = 1 + digits(neighbours.max().unwrap_or(0).max(arena.capacity() as u32)).max(5);
    let mut text = format!("header{words}\n#{:>1$}", "slot", width - 1);
    text += &format!("{:>width$}{:>width$}  generation     payload\n", "prev", "next");
    for k in 0..arena.capacity() {
        let [prev, next, generation, payload] =
            [&arena.prev, &arena.next, &arena.generation, &arena.payload].map(|column| entry(column.get(k)));
        let slot = k + 1;
        let _ = writeln!(text, "{slot:>width$}{prev:>width$}{next:>width$}{generation:>12}{payload:>12}");
    }
    text
}

/// A word of a column; a `-` where the column has ended.
#[cfg(any(test, feature = "level-two", feature = "small-arenas"))]
fn entry(word: Option<&u32>) -> String {
    word.map_or("-".to_string(), u32::to_string)
}

/// The words of the line `header STACK LINKS ROOT GENERATION`, of which there may be more or fewer.
fn header(mut line: Line<'_>) -> Result<Vec<u32>, ParseError> {
    line.word(|| "`header`".to_string(), |word| (word == "header").then_some(()))?;
    let mut words = Vec::new();
    while !line.is_empty() {
        words.push(line.number("a word of the header")?);
    }
    Ok(words)
}

/// Adds the words of a line `SLOT PREV NEXT GENERATION PAYLOAD`.
fn row(mut line: Line<'_>, slot: usize, arena: &mut OwnedArena) -> Result<(), ParseError> {
    line.word(|| format!("slot {slot}"), |word| number(word).filter(|&number| number as usize == slot))?;
    column(&mut line, "prev", slot, &mut arena.prev)?;
    column(&mut line, "next", slot, &mut arena.next)?;
    column(&mut line, "generation", slot, &mut arena.generation)?;
    column(&mut line, "payload", slot, &mut arena.payload)?;
    line.end()
}

/// Adds the next word of a line to a column. A `-` adds nothing, and then every further one must be a `-` too.
fn column(line: &mut Line<'_>, name: &str, slot: usize, column: &mut Vec<u32>) -> Result<(), ParseError> {
    if column.len() + 1 < slot {
        let ended = || format!("`-`, since the {name} column ended before slot {}", column.len() + 1);
        return line.word(ended, |word| (word == "-").then_some(()));
    }
    let expected = || format!("the {name} of slot {slot}, a number from 0 to {} or `-`", u32::MAX);
    let word = line.word(expected, |word| match word {
        "-" => Some(None),
        _ => number(word).map(Some),
    })?;
    column.extend(word);
    Ok(())
}

#[cfg(test)]
mod tests {
    use super::*;

    #[test]
    fn words_of_any_width_are_written_and_read_again() {
        // slots of as many digits are in the tests of the program
        for widest in [0, 9, 99_999, 100_000, 1_048_576, 4_294_967_295] {
            let arena = OwnedArena {
                prev: vec![widest, 0, 1],
                next: vec![2, widest, widest],
                generation: vec![u32::MAX, 5, widest],
                payload: vec![widest, u32::MAX, 0],
                header: vec![3, widest, 0, u32::MAX],
            };
            let text = text(&arena);
            assert_eq!(parse(text.as_bytes()), Ok(arena), "{text}");
            let columns = |line: &str| line.split_whitespace().count();
            assert!(text.lines().skip(2).all(|line| columns(line) == 5), "{text}");
            // each word stands below its name
            let lines: Vec<&str> = text.lines().skip(1).collect();
            assert!(lines.iter().all(|line| line.len() == lines[0].len()), "{text}");
        }
    }

    #[test]
    fn neighbours_may_be_any_words() {
        let text = "header 2 2 0 5\n1 65536 4294967295 5 0\n2 65535 1048577 5 0\n";
        let arena = parse(text.as_bytes()).unwrap();
        assert_eq!((arena.prev, arena.next), (vec![65_536, 65_535], vec![u32::MAX, 1_048_577]));
    }
}
