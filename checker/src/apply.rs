//! Applies a list of commands to an arena: what became of each, and the arena that is left, as a text that can be read again.
//!
//! The arena is what the proved run leaves. A run does not answer where a new link is, and why it refuses a command can only
//! be told of the arena as it was at that moment. So the commands are made a second time, one by one, by their own proved
//! calls: these answer the one and show the other. Both ways must come to the same.

use std::fmt;

use chain_arena::{Command, Done, OwnedArena, Ptr, Refusal};

use crate::Shown;
use crate::by_slot::BySlot;
use crate::commands::{Commands, Given};
use crate::files::Source;
use crate::format;
use crate::judged::{Judged, OVERFLOWED, header, off_stack};
use crate::panel::Panel;
use crate::pointer::written;
use crate::refused::why;
use crate::wording::counted;

/// How many refused commands a picture tells of.
const REFUSED: usize = 5;

/// How much room a command has on its line before what became of it.
const WIDTH: usize = 40;

/// What became of a command.
#[derive(Debug, PartialEq, Eq)]
enum Outcome {
    Done,
    Overflowed,
    Inserted(Ptr),
    /// With the reason in words
    Refused(Refusal, String),
}

impl Outcome {
    /// What a run must answer.
    fn answer(&self) -> Result<Done, Refusal> {
        match self {
            Self::Done | Self::Inserted(_) => Ok(Done { overflowed: false }),
            Self::Overflowed => Ok(Done { overflowed: true }),
            Self::Refused(refusal, _) => Err(*refusal),
        }
    }
}

impl fmt::Display for Outcome {
    fn fmt(&self, f: &mut fmt::Formatter<'_>) -> fmt::Result {
        match self {
            Self::Done => f.write_str("done"),
            Self::Overflowed => write!(f, "done, and {OVERFLOWED}"),
            Self::Inserted(p) => write!(f, "done: the new link is {}", written(*p)),
            Self::Refused(refusal, why) => write!(f, "refused with {}: {why}", refusal.number()),
        }
    }
}

/// Applies the commands of a file to an arena if that passes the check, and shows it before and after. The status is 0 if
/// every command was done.
pub fn apply(before: Judged, commands: &Source, around: Option<u32>) -> Result<Shown, String> {
    applied(before, &Commands::read(commands)?, around)
}

/// Applies commands to an arena if that passes the check.
pub fn applied(before: Judged, commands: &Commands, around: Option<u32>) -> Result<Shown, String> {
    if before.refused.is_some() {
        return Ok(before.around(around)?.show());
    }
    let mut arena = before.arena.clone();
    let outcomes =
        outcomes(&mut arena, &commands.list, run).map_err(|why| format!("{}: {why}", before.name))?;
    let after = Judged::new(format!("{}, after {}", before.name, commands.name), arena);
    // A slot may be new, or gone; but it must be somewhere.
    let after = if is_off_stack(&before, around) { after.around(around)? } else { after };
    let report = Report { given: &commands.list, outcomes };
    let said = format!("{}: {}\n{}", after.name, report.summary(), report.lines());
    let text = format::text(&after.arena);
    let (before, before_rows) = side("before", before, around);
    let (after, after_rows) = side("after", after, around);
    Ok(Shown {
        text: commented(&[said, before_rows, after_rows].concat()) + &text,
        panels: vec![before, Panel { told: report.told(), ..after }],
        passes: report.refused().next().is_none(),
    })
}

/// Applies commands to a whole arena by a run and by single calls, which must say and leave the same. Answers what became of
/// each command.
fn outcomes(arena: &mut OwnedArena, commands: &[Given], run: Run) -> Result<Vec<Outcome>, String> {
    let mut other = arena.clone();
    let answers = run(arena, commands).map_err(|refusal| refusal.to_string())?;
    let outcomes: Vec<Outcome> = commands.iter().map(|given| single(&mut other, given.command)).collect();
    let same = outcomes.iter().map(Outcome::answer).eq(answers) && *arena == other;
    if same { Ok(outcomes) } else { Err("the run and the single calls do not come to the same".to_string()) }
}

/// How commands are applied as one run.
type Run = fn(&mut OwnedArena, &[Given]) -> Result<Vec<Result<Done, Refusal>>, Refusal>;

/// Applies commands as one run, and answers what is said of each.
fn run(arena: &mut OwnedArena, commands: &[Given]) -> Result<Vec<Result<Done, Refusal>>, Refusal> {
    let words: Vec<u32> = commands.iter().flat_map(|given| given.command.words()).collect();
    let mut answers = vec![u32::MAX; commands.len()];
    arena.as_arena_mut().run_words(&words, &mut answers)?;
    Ok(answers.into_iter().map(Done::answer).collect())
}

/// Makes the call of a command.
fn single(arena: &mut OwnedArena, command: Command) -> Outcome {
    let mut lent = arena.as_arena_mut();
    let done = |()| Outcome::Done;
    match command {
        Command::Connect(p, q) => lent.connect(p, q).map(done),
        Command::BreakPrev(p) => lent.break_prev(p).map(done),
        Command::BreakNext(p) => lent.break_next(p).map(done),
        Command::ExchangeNext(p, q) => lent.exchange_next(p, q).map(done),
        Command::Remove(p) => lent.remove(p).map(|removed| match removed.overflowed {
            true => Outcome::Overflowed,
            false => Outcome::Done,
        }),
        Command::Insert(kind, payload) => lent.insert(kind, payload).map(Outcome::Inserted),
    }
    .unwrap_or_else(|refusal| Outcome::Refused(refusal, why(arena, command, refusal)))
}

/// Whether a slot is asked for that is not on the stack.
fn is_off_stack(judged: &Judged, around: Option<u32>) -> bool {
    around.is_some_and(|slot| !judged.arena.stack().contains(&slot))
}

/// An arena to draw, and as text: the words of its header and its rows, or that the slot that is asked for is not there.
fn side(name: &str, judged: Judged, around: Option<u32>) -> (Panel, String) {
    let header = header(&judged.arena);
    let (judged, rows) = match around.filter(|_| is_off_stack(&judged, around)) {
        Some(slot) => {
            let sentence = format!("  {}\n", off_stack(&judged.arena, slot));
            (judged, sentence)
        }
        None => {
            let judged = Judged { around, ..judged };
            let rows = judged.rows();
            (judged, rows)
        }
    };
    (judged.panel(), format!("{name}: {header}\n{rows}"))
}

/// Commands and what became of each.
struct Report<'c> {
    given: &'c [Given],
    outcomes: Vec<Outcome>,
}

impl Report<'_> {
    /// Each command with what became of it.
    fn pairs(&self) -> impl Iterator<Item = (&Given, &Outcome)> {
        self.given.iter().zip(&self.outcomes)
    }

    /// The commands that were refused.
    fn refused(&self) -> impl Iterator<Item = (&Given, &Outcome)> {
        self.pairs().filter(|(_, outcome)| matches!(outcome, Outcome::Refused(..)))
    }

    /// How many commands there are, and how many of them were refused.
    fn summary(&self) -> String {
        let refused = match self.refused().count() {
            0 => "none".to_string(),
            count => count.to_string(),
        };
        format!("{}, {refused} refused", counted(self.given.len(), "command"))
    }

    /// A line for each command.
    fn lines(&self) -> String {
        let digits = self.given.last().map_or(0, |given| given.line.to_string().len());
        let width = self.given.iter().map(|given| given.text.len()).max().unwrap_or(0).min(WIDTH);
        let line = |(Given { line, text, .. }, outcome): (&Given, &Outcome)| {
            format!("  line {line:<digits$}  {text:<width$}  {outcome}\n")
        };
        self.pairs().map(line).collect()
    }

    /// What is told in a picture: how many were refused, the first of them, and that the generation overflowed.
    fn told(&self) -> Vec<String> {
        let sentence =
            |(given, outcome): (&Given, &Outcome)| format!("line {}, {}: {outcome}", given.line, given.text);
        let more = self.refused().count().saturating_sub(REFUSED);
        let more = Some(format!("and {more} more refused")).filter(|_| more > 0);
        let overflowed = self.outcomes.contains(&Outcome::Overflowed).then(|| OVERFLOWED.to_string());
        let refused = self.refused().take(REFUSED).map(sentence);
        [self.summary()].into_iter().chain(refused).chain(more).chain(overflowed).collect()
    }
}

/// A text as comments of the text of an arena.
fn commented(text: &str) -> String {
    text.lines().map(|line| format!("# {line}\n")).collect()
}

#[cfg(test)]
mod tests {
    use super::*;
    use crate::random::{COMMANDS, Random, add_room, text_of};

    /// What the calls of the wrapper say of a command: how the program must word it, up to the reason of a refusal, and how
    /// they leave the arena.
    fn by_hand(arena: &mut OwnedArena, command: Command) -> String {
        let mut lent = arena.as_arena_mut();
        let done = |()| "done".to_string();
        let said = match command {
            Command::Connect(p, q) => lent.connect(p, q).map(done),
            Command::BreakPrev(p) => lent.break_prev(p).map(done),
            Command::BreakNext(p) => lent.break_next(p).map(done),
            Command::ExchangeNext(p, q) => lent.exchange_next(p, q).map(done),
            Command::Remove(p) => lent.remove(p).map(|removed| match removed.overflowed {
                true => format!("done, and {OVERFLOWED}"),
                false => "done".to_string(),
            }),
            Command::Insert(kind, payload) => lent.insert(kind, payload).map(|p| {
                let Ptr { slot, generation } = p;
                assert_eq!(arena.as_arena().get_link(p).unwrap().payload, payload);
                format!("done: the new link is {slot}:{generation}")
            }),
        };
        said.unwrap_or_else(|refusal| format!("refused with {}: ", refusal.number()))
    }

    /// A whole arena of chains in random slots, with room above the stack. Of every second one the generation overflows with
    /// the first removal.
    fn arena(random: &mut Random, round: usize) -> OwnedArena {
        let chains = random.chains(round % 6, 4, 9);
        let mut arena = random.arena(&chains, round % 4);
        add_room(&mut arena, round / 2 % 5);
        arena.header[3] = if round.is_multiple_of(2) { u32::MAX } else { 7 };
        arena
    }

    #[test]
    fn commands_are_applied_as_their_calls_apply_them() {
        let mut random = Random::new(10);
        let (mut seen, mut passed) = ([0; 4], 0);
        for round in 0..1500 {
            let before = arena(&mut random, round);
            let (mut after, mut text, mut expected) = (before.clone(), String::new(), Vec::new());
            for line in 0..random.below(if round % 4 == 0 { 3 } else { 2 * COMMANDS }) {
                let command = random.command(&after);
                text += &format!("{}{}\n", "\n".repeat(line % 2), text_of(command));
                expected.push((text.lines().count(), text_of(command), by_hand(&mut after, command)));
            }
            let commands = Commands::parse("commands".to_string(), text.as_bytes()).unwrap();
            let shown = applied(Judged::new("arena".to_string(), before.clone()), &commands, None).unwrap();
            assert_eq!(format::parse(shown.text.as_bytes()).as_ref(), Ok(&after), "{text}");
            assert_eq!((&shown.panels[0].arena, &shown.panels[1].arena), (&before, &after));
            let said: Vec<&str> = shown.text.lines().filter(|line| line.starts_with("#   line ")).collect();
            assert_eq!(said.len(), expected.len(), "{}", shown.text);
            for (said, (line, command, outcome)) in said.iter().zip(&expected) {
                let said = said.strip_prefix(&format!("#   line {line} ")).unwrap().trim_start();
                let said = said.strip_prefix(command.as_str()).unwrap().trim_start();
                let refused = outcome.ends_with(": ");
                assert!(
                    if refused { said.starts_with(outcome) } else { said == outcome },
                    "{said}: {outcome}"
                );
                let kinds = ["done", "done: ", "done, ", "refused with "];
                seen[kinds.iter().rposition(|kind| said.starts_with(kind)).unwrap()] += 1;
            }
            let refused = expected.iter().filter(|(.., outcome)| outcome.ends_with(": ")).count();
            let refused_words = if refused == 0 { "none".to_string() } else { refused.to_string() };
            let count = counted(expected.len(), "command");
            let title = format!("# arena, after commands: {count}, {refused_words} refused");
            assert_eq!(shown.text.lines().next(), Some(title.as_str()));
            assert_eq!(shown.passes, refused == 0);
            passed += usize::from(shown.passes && !expected.is_empty());
        }
        assert!(seen.iter().all(|&count| count > 100) && passed > 10, "{seen:?}, {passed}");
    }

    /// The commands of a text.
    fn given(text: &str) -> Vec<Given> {
        Commands::parse(String::new(), text.as_bytes()).unwrap().list
    }

    #[test]
    fn a_run_that_parts_from_the_single_calls_is_found_out() {
        let commands = given("insert disconnected 7\nremove 2:2\nremove 1:2");
        let made = |run: Run| outcomes(&mut OwnedArena::empty(2), &commands, run).map(|made| made.len());
        let parts = Err("the run and the single calls do not come to the same".to_string());
        assert_eq!(made(run), Ok(3));
        // An answer too few, one too many, a wrong one, and a wrong word in the arena.
        let wrong: [Run; 4] = [
            |arena, commands| run(arena, commands).map(|answers| answers[1..].to_vec()),
            |arena, commands| run(arena, commands).map(|answers| [&answers[..], &answers[..1]].concat()),
            |arena, commands| {
                let mut answers = run(arena, commands)?;
                answers[2] = Ok(Done { overflowed: true });
                Ok(answers)
            },
            |arena, commands| {
                let answers = run(arena, commands)?;
                arena.payload[1] = 1;
                Ok(answers)
            },
        ];
        for run in wrong {
            assert_eq!(made(run), parts);
        }
        let broken =
            outcomes(&mut OwnedArena::default(), &commands, |_, _| Err(Done::answer(2).unwrap_err()));
        assert_eq!(broken, Err("refused with 2: the current generation is 0 or 1".to_string()));
    }

    #[test]
    fn a_picture_tells_of_the_first_refused_commands() {
        let told = |text: &str| {
            let mut arena = OwnedArena::empty(2);
            arena.header[3] = u32::MAX;
            let given = given(text);
            let outcomes = outcomes(&mut arena, &given, run).unwrap();
            Report { given: &given, outcomes }.told()
        };
        let line = |k: usize| {
            format!(
                "line {k}, remove 1:1: refused with 12: 1:1 is stale: slot 1 is not on the stack, whose length is 0"
            )
        };
        for refused in [0, 1, 5, 6, 8] {
            let text = "remove 1:1\n".repeat(refused);
            let mut expected = vec![match refused {
                0 => "0 commands, none refused".to_string(),
                1 => "1 command, 1 refused".to_string(),
                _ => format!("{refused} commands, {refused} refused"),
            }];
            expected.extend((1..=refused.min(5)).map(line));
            expected.extend((refused > 5).then(|| format!("and {} more refused", refused - 5)));
            assert_eq!(told(&text), expected);
        }
        let overflows = told("insert disconnected 1\nremove 1:4294967295");
        assert_eq!(overflows, ["2 commands, none refused".to_string(), OVERFLOWED.to_string()]);
        let both = told("insert disconnected 1\nremove 1:4294967295\nremove 1:1");
        assert_eq!(both, ["3 commands, 1 refused".to_string(), line(3), OVERFLOWED.to_string()]);
    }
}
