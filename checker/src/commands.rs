//! Reads a list of commands from plain text. docs/FORMAT.md describes the text.

use chain_arena::{Command, LinkInsertKind, Ptr, Slot};

use crate::files::Source;
use crate::lines::{self, Line, ParseError, number};
use crate::nearest::nearest;
use crate::quote::listed;

/// A list of commands with the name of its file.
pub struct Commands {
    pub name: String,
    pub list: Vec<Given>,
}

/// A command, on which line it stands and how it is written there.
#[derive(Debug, PartialEq, Eq)]
pub struct Given {
    pub line: usize,
    pub text: String,
    pub command: Command,
}

impl Commands {
    /// The commands of a text; what is wrong with it is told with its place.
    pub fn parse(name: String, text: &[u8]) -> Result<Self, String> {
        let list = parse(text).map_err(|error| format!("{name}:{error}"))?;
        Ok(Self { name, list })
    }

    /// The commands of a file.
    pub fn read(source: &Source) -> Result<Self, String> {
        Self::parse(source.name(), &source.read()?)
    }
}

/// The commands of a file's bytes.
fn parse(bytes: &[u8]) -> Result<Vec<Given>, ParseError> {
    lines::lines(lines::text(bytes)?).map(given).collect()
}

/// The command of a line.
fn given(mut line: Line<'_>) -> Result<Given, ParseError> {
    let text = line.words();
    let command = Words { line: &mut line, names: Vec::new() }.one_of("", COMMANDS)?;
    line.end()?;
    Ok(Given { line: line.number, text, command })
}

/// Names, and what is read behind each of them.
type Names<T> = [(&'static str, fn(&mut Words<'_, '_>) -> Result<T, ParseError>)];

/// The commands. What they name goes by the names that it has in REFERENCE.
const COMMANDS: &Names<Command> = &[
    ("connect", |words| Ok(Command::Connect(words.ptr("P_PREV")?, words.ptr("P_NEXT")?))),
    ("break_prev", |words| Ok(Command::BreakPrev(words.ptr("P")?))),
    ("break_next", |words| Ok(Command::BreakNext(words.ptr("P")?))),
    ("exchange_next", |words| Ok(Command::ExchangeNext(words.ptr("P0")?, words.ptr("P1")?))),
    ("remove", |words| Ok(Command::Remove(words.ptr("P")?))),
    ("insert", |words| {
        let kind = words.one_of("a kind of insertion: ", KINDS)?;
        Ok(Command::Insert(kind, words.payload()?))
    }),
];

/// The kinds of insertion.
const KINDS: &Names<LinkInsertKind> = &[
    ("disconnected", |_| Ok(LinkInsertKind::Disconnected)),
    ("single_link_cyclic", |_| Ok(LinkInsertKind::SingleLinkCyclic)),
    ("chain_end", |words| Ok(LinkInsertKind::ChainEnd(words.ptr("P")?))),
    ("chain_end_inx", |words| Ok(LinkInsertKind::ChainEndInx(words.slot("SLOT")?))),
    ("chain_start", |words| Ok(LinkInsertKind::ChainStart(words.ptr("P")?))),
    ("chain_start_inx", |words| Ok(LinkInsertKind::ChainStartInx(words.slot("SLOT")?))),
    ("next_to", |words| Ok(LinkInsertKind::NextTo(words.ptr("P")?))),
    ("next_to_inx", |words| Ok(LinkInsertKind::NextToInx(words.slot("SLOT")?))),
    ("prev_to", |words| Ok(LinkInsertKind::PrevTo(words.ptr("P")?))),
    ("prev_to_inx", |words| Ok(LinkInsertKind::PrevToInx(words.slot("SLOT")?))),
    ("at_interlink", |words| {
        Ok(LinkInsertKind::AtInterlink { next_to: words.ptr("NEXT_TO")?, prev_to: words.ptr("PREV_TO")? })
    }),
    ("at_interlink_inx", |words| {
        Ok(LinkInsertKind::AtInterlinkInx {
            next_to: words.slot("NEXT_TO")?,
            prev_to: words.slot("PREV_TO")?,
        })
    }),
    ("bridge", |words| Ok(LinkInsertKind::Bridge { end: words.ptr("END")?, start: words.ptr("START")? })),
    ("bridge_inx", |words| {
        Ok(LinkInsertKind::BridgeInx { end: words.slot("END")?, start: words.slot("START")? })
    }),
];

/// The words of a line, and those of them that are read and name the command.
struct Words<'l, 't> {
    line: &'l mut Line<'t>,
    names: Vec<&'static str>,
}

impl Words<'_, '_> {
    /// The next word as one of the names, and what is read behind it.
    fn one_of<T>(&mut self, what: &str, names: &Names<T>) -> Result<T, ParseError> {
        let word = self.line.peek();
        let known = || names.iter().map(|(name, _)| *name);
        let Some((name, read)) = names.iter().find(|(name, _)| *name == word) else {
            // Where no command stands yet, a kind is known too, as what it is.
            let kinds = KINDS.iter().map(|(name, _)| *name).filter(|_| self.names.is_empty());
            let near = nearest(word, known().chain(kinds)).map(|name| {
                let insert = if known().any(|known| known == name) { "" } else { "insert " };
                format!("; the nearest is `{insert}{name}`")
            });
            let expected = format!("{what}{}{}", listed(known(), "or"), near.unwrap_or_default());
            return Err(self.line.error(&expected));
        };
        self.line.take();
        self.names.push(name);
        read(self)
    }

    /// The next word as a pointer.
    fn ptr(&mut self, name: &str) -> Result<Ptr, ParseError> {
        let named = self.argument(name);
        let expected = || {
            format!(
                "{named}, a pointer `SLOT:GENERATION` with a slot from 0 to {} and a generation from 0 to {}",
                Slot::MAX,
                u32::MAX
            )
        };
        self.line.word(expected, |word| {
            let (slot, generation) = word.split_once(':')?;
            Some(Ptr { slot: number(slot)?, generation: number(generation)? })
        })
    }

    /// The next word as a slot.
    fn slot(&mut self, name: &str) -> Result<Slot, ParseError> {
        self.line.number(&format!("{}, a slot without a generation", self.argument(name)))
    }

    /// The next word as a payload.
    fn payload(&mut self) -> Result<u32, ParseError> {
        self.line.number(&self.argument("PAYLOAD"))
    }

    /// What a word is to the command.
    fn argument(&self, name: &str) -> String {
        format!("{name} of `{}`", self.names.join(" "))
    }
}

#[cfg(test)]
mod tests {
    use super::*;
    use crate::random::{COMMANDS, Random, command, text_of};

    /// The commands of a text without faults.
    fn read(text: &str) -> Vec<Given> {
        parse(text.as_bytes()).unwrap()
    }

    #[test]
    fn every_command_has_its_words() {
        for (text, words) in [
            ("connect 1:2 3:4", [1, 1, 2, 3, 4, 0]),
            ("break_prev 1:2", [2, 1, 2, 0, 0, 0]),
            ("break_next 1:2", [3, 1, 2, 0, 0, 0]),
            ("exchange_next 1:2 3:4", [4, 1, 2, 3, 4, 0]),
            ("remove 1:2", [5, 1, 2, 0, 0, 0]),
            ("insert disconnected 9", [6, 0, 0, 0, 0, 9]),
            ("insert single_link_cyclic 9", [7, 0, 0, 0, 0, 9]),
            ("insert chain_end 1:2 9", [8, 1, 2, 0, 0, 9]),
            ("insert chain_end_inx 1 9", [9, 1, 0, 0, 0, 9]),
            ("insert chain_start 1:2 9", [10, 1, 2, 0, 0, 9]),
            ("insert chain_start_inx 1 9", [11, 1, 0, 0, 0, 9]),
            ("insert next_to 1:2 9", [12, 1, 2, 0, 0, 9]),
            ("insert next_to_inx 1 9", [13, 1, 0, 0, 0, 9]),
            ("insert prev_to 1:2 9", [14, 1, 2, 0, 0, 9]),
            ("insert prev_to_inx 1 9", [15, 1, 0, 0, 0, 9]),
            ("insert at_interlink 1:2 3:4 9", [16, 1, 2, 3, 4, 9]),
            ("insert at_interlink_inx 1 3 9", [17, 1, 0, 3, 0, 9]),
            ("insert bridge 1:2 3:4 9", [18, 1, 2, 3, 4, 9]),
            ("insert bridge_inx 1 3 9", [19, 1, 0, 3, 0, 9]),
            // The largest and the smallest numbers, and zeros in front.
            ("connect 4294967295:4294967295 0:0", [1, u32::MAX, u32::MAX, 0, 0, 0]),
            ("insert at_interlink_inx 4294967295 0 4294967295", [17, u32::MAX, 0, 0, 0, u32::MAX]),
            ("insert bridge_inx 0 4294967295 0", [19, 0, 0, u32::MAX, 0, 0]),
            ("exchange_next 65535:1 65536:2", [4, 65_535, 1, 65_536, 2, 0]),
            ("insert next_to_inx 65537 0", [13, 65_537, 0, 0, 0, 0]),
            ("remove 0000000003:00000000000000000000000005", [5, 3, 5, 0, 0, 0]),
        ] {
            let [given] = &read(text)[..] else { panic!("{text}") };
            assert_eq!((given.command.words(), given.line, given.text.as_str()), (words, 1, text));
        }
    }

    #[test]
    fn a_command_that_is_written_is_read_again() {
        let mut random = Random::new(8);
        for round in 0..100 * COMMANDS {
            let mut word = || match random.below(4) {
                0 => u32::MAX,
                1 => random.below(3) as u32,
                _ => random.below(1 << 32) as u32,
            };
            let pointers = [0; 2].map(|_| Ptr { slot: word(), generation: word() });
            let command = command(round % COMMANDS, pointers, word());
            assert_eq!(read(&text_of(command))[0].command, command);
        }
    }

    #[test]
    fn comments_and_blanks_do_not_matter() {
        let text = "\u{feff}# nothing\r\n\r\n \tremove\t 1:2 # gone\r\nbreak_next\u{a0}3:4#\n#\n\n   insert  disconnected 5";
        let read: Vec<(usize, String)> =
            read(text).into_iter().map(|given| (given.line, given.text)).collect();
        let expected = [(3, "remove 1:2"), (4, "break_next 3:4"), (7, "insert disconnected 5")];
        assert_eq!(read, expected.map(|(line, text)| (line, text.to_string())));
        for end in ["\n", "\r\n", "\r"] {
            let text = ["# a list", "remove 1:2", "", "remove 3:4 # gone", ""].join(end);
            let lines: Vec<usize> = parse(text.as_bytes()).unwrap().iter().map(|given| given.line).collect();
            assert_eq!(lines, [2, 4], "{end:?}");
        }
        for text in ["", "\n", "# remove 1:2", "\u{feff}", " \t\r\n"] {
            assert_eq!(parse(text.as_bytes()), Ok(Vec::new()), "{text:?}");
        }
    }
}
