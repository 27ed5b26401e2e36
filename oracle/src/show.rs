//! A case on which two sides part, as a person reads it: the call, the arena as a table, what each side answers, and the
//! words that differ.

use std::fmt;

use crate::compare::{Mismatch, Outcome};
use crate::words::argument_name;
use crate::{Arena, COMMAND_WORDS, Call, Reply, side};

/// How many slots and how many differences are printed at most.
const LINES: usize = 40;

/// The names of the header's words.
const HEADER: [&str; 4] = ["stack length", "link count", "root", "generation"];

impl fmt::Display for Mismatch {
    fn fmt(&self, f: &mut fmt::Formatter<'_>) -> fmt::Result {
        writeln!(f, "the {} parts from the model", self.side)?;
        writeln!(f, "  {}", call_line(&self.call))?;
        if self.call.takes_columns() {
            write_arena(f, &self.before)?;
        }
        if let Some(model) = &self.model {
            writeln!(f, "  the model answers {}", reply_line(&self.call, &model.reply))?;
        }
        match &self.other {
            Err(said) => writeln!(f, "  the {}: {said}", self.side),
            Ok(other) => {
                writeln!(f, "  the {} answers {}", self.side, reply_line(&self.call, &other.reply))?;
                let differences =
                    self.model.as_ref().map_or(vec![], |model| differences(model, self.side, other));
                for difference in differences.iter().take(LINES) {
                    writeln!(f, "  {difference}")?;
                }
                more(f, differences.len(), "differences")
            }
        }
    }
}

impl fmt::Debug for Mismatch {
    fn fmt(&self, f: &mut fmt::Formatter<'_>) -> fmt::Result {
        fmt::Display::fmt(self, f)
    }
}

/// Says how many lines were left out, if any.
fn more(f: &mut fmt::Formatter<'_>, lines: usize, what: &str) -> fmt::Result {
    if lines > LINES { writeln!(f, "  and {} {what} more", lines - LINES) } else { Ok(()) }
}

/// The call with its arguments, each behind its name, and the words that it lends.
fn call_line(call: &Call) -> String {
    let words = call.arguments();
    let named = |(place, word): (usize, &u32)| match argument_name(call.code(), place) {
        Some(name) => format!("{name} {word}"),
        None => word.to_string(),
    };
    let arguments: Vec<String> = words.iter().enumerate().map(named).take(COMMAND_WORDS * LINES).collect();
    let left_out = if words.len() > arguments.len() { ", .." } else { "" };
    let lent = match call.lent().len() {
        0 => String::new(),
        words => format!(", lending {words} words"),
    };
    format!("{}({}{left_out}){lent}", call.name(), arguments.join(", "))
}

/// The answer's number, and behind it the words that it has.
fn reply_line(call: &Call, reply: &Reply) -> String {
    let mut line = reply.number.to_string() + &place(reply.broken, reply.side);
    for (name, word) in call.fields().iter().zip(reply.words) {
        line += &format!(", {name} {word}");
    }
    line
}

/// Where rule 11 fails, in words; none if no slot and no side is named.
pub fn place(broken: u32, side: u32) -> String {
    match (broken, side) {
        (0, 0) => String::new(),
        (slot, side::PREV) => format!(" at the prev of slot {slot}"),
        (slot, side::NEXT) => format!(" at the next of slot {slot}"),
        (slot, 0) => format!(" at no side of slot {slot}"),
        (slot, other) => format!(" at side {other} of slot {slot}"),
    }
}

/// The slots as a table, a dash where a column is too short, and the header.
fn write_arena(f: &mut fmt::Formatter<'_>, a: &Arena) -> fmt::Result {
    let slots =
        [a.prev.len(), a.next.len(), a.generation.len(), a.payload.len()].into_iter().max().unwrap_or(0);
    writeln!(f, "  {:>7} {:>10} {:>10} {:>11} {:>11}", "slot", "prev", "next", "generation", "payload")?;
    for place in 0..slots.min(LINES) {
        let word = |column: &[u32]| column.get(place).map_or("-".to_string(), u32::to_string);
        let (prev, next) = (word(&a.prev), word(&a.next));
        let (generation, payload) = (word(&a.generation), word(&a.payload));
        writeln!(f, "  {:>7} {prev:>10} {next:>10} {generation:>11} {payload:>11}", place + 1)?;
    }
    more(f, slots, "slots")?;
    let header: Vec<String> =
        a.header.iter().enumerate().map(|(place, word)| format!("{} {word}", header_name(place))).collect();
    writeln!(f, "  header: {}", header.join(", "))
}

/// The name of a word of the header.
fn header_name(place: usize) -> &'static str {
    HEADER.get(place).copied().unwrap_or("a word too many")
}

/// The words in which two outcomes of one call differ.
fn differences(model: &Outcome, side: &str, other: &Outcome) -> Vec<String> {
    let mut lines = Vec::new();
    let mut compare = |what: &dyn Fn(usize) -> String, mine: Vec<u32>, theirs: Vec<u32>| {
        for (place, (mine, theirs)) in mine.into_iter().zip(theirs).enumerate() {
            if mine != theirs {
                lines.push(format!("{}: model {mine}, {side} {theirs}", what(place)));
            }
        }
    };
    let slot = |column: &'static str| move |place: usize| format!("{column} of slot {}", place + 1);
    let (a, b) = (&model.arena, &other.arena);
    let answer = |o: &Outcome| vec![o.reply.number, o.reply.broken, o.reply.side];
    compare(&|place| ["number", "broken", "side"][place].to_string(), answer(model), answer(other));
    let fields = model.call.fields();
    let field = |place: usize| (*fields.get(place).unwrap_or(&"a further field")).to_string();
    compare(&field, model.reply.words.to_vec(), other.reply.words.to_vec());
    compare(&slot("prev"), a.prev.clone(), b.prev.clone());
    compare(&slot("next"), a.next.clone(), b.next.clone());
    compare(&slot("generation"), a.generation.clone(), b.generation.clone());
    compare(&slot("payload"), a.payload.clone(), b.payload.clone());
    compare(&|place| header_name(place).to_string(), a.header.clone(), b.header.clone());
    compare(&|place| format!("place {place} of the lent slice"), model.call.lent(), other.call.lent());
    lines
}
