//! A plain text, line by line and word by word, and what is wrong with it, by line and column. docs/FORMAT.md describes what
//! the texts of arenas and of commands have in common.

use std::fmt;

use crate::quote::quoted;

/// What some programs write in front of a UTF-8 text.
const BYTE_ORDER_MARK: &[u8] = "\u{feff}".as_bytes();

/// What a text in UTF-16 begins with.
const UTF_16_MARKS: [&[u8]; 2] = [b"\xff\xfe", b"\xfe\xff"];

/// Where the text is not what it should be: what stands there and what should. Lines and columns count from 1.
#[derive(Debug, PartialEq, Eq)]
pub struct ParseError {
    line: usize,
    column: usize,
    found: String,
    expected: String,
}

impl fmt::Display for ParseError {
    fn fmt(&self, f: &mut fmt::Formatter<'_>) -> fmt::Result {
        let Self { line, column, found, expected } = self;
        write!(f, "{line}:{column}: found {found}, expected {expected}")
    }
}

impl ParseError {
    /// The error that a text ends too early.
    pub fn at_end(text: &str, expected: &str) -> Self {
        let (line, column) = end_of(text);
        Self { line, column, found: "the end of the text".to_string(), expected: expected.to_string() }
    }
}

/// The text of a file's bytes.
pub fn text(bytes: &[u8]) -> Result<&str, ParseError> {
    let bytes = bytes.strip_prefix(BYTE_ORDER_MARK).unwrap_or(bytes);
    str::from_utf8(bytes).map_err(|error| not_text(bytes, error.valid_up_to()))
}

/// The lines of a text on which words stand. A line ends with LF, CR LF or CR.
pub fn lines(text: &str) -> impl Iterator<Item = Line<'_>> {
    let ends = text.split('\n').flat_map(|text| text.strip_suffix('\r').unwrap_or(text).split('\r'));
    ends.enumerate().map(|(k, text)| Line::new(k + 1, text)).filter(|line| !line.is_empty())
}

/// A line of which the first words are read already.
pub struct Line<'t> {
    pub number: usize,
    /// The whole line up to its comment, and how much of it is read
    text: &'t str,
    read: usize,
}

impl<'t> Line<'t> {
    /// A line without its comment.
    fn new(number: usize, text: &'t str) -> Self {
        let text = text.split('#').next().unwrap_or_default().trim_end();
        let mut line = Self { number, text, read: 0 };
        line.skip(0);
        line
    }

    /// Whether no further word stands on the line.
    pub fn is_empty(&self) -> bool {
        self.read == self.text.len()
    }

    /// The next word, empty at the end of the line.
    pub fn peek(&self) -> &'t str {
        self.text[self.read..].split_whitespace().next().unwrap_or_default()
    }

    /// The next word, which is then read.
    #[cfg(feature = "level-two")]
    pub fn take(&mut self) -> &'t str {
        let word = self.peek();
        self.skip(word.len());
        word
    }

    /// All words of the line, with one blank between them.
    #[cfg(feature = "level-two")]
    pub fn words(&self) -> String {
        self.text.split_whitespace().collect::<Vec<&str>>().join(" ")
    }

    /// Goes on past a word of so many bytes and the blanks after it.
    fn skip(&mut self, bytes: usize) {
        let rest = &self.text[self.read + bytes..];
        self.read = self.text.len() - rest.trim_start().len();
    }

    /// The next word as `read` takes it, else an error that tells what was expected. That is put into words only then.
    pub fn word<T>(
        &mut self,
        expected: impl FnOnce() -> String,
        read: impl FnOnce(&'t str) -> Option<T>,
    ) -> Result<T, ParseError> {
        let word = self.peek();
        let value = read(word).ok_or_else(|| self.error(&expected()))?;
        self.skip(word.len());
        Ok(value)
    }

    /// The next word as a number.
    pub fn number(&mut self, name: &str) -> Result<u32, ParseError> {
        self.word(|| format!("{name}, a number from 0 to {}", u32::MAX), number)
    }

    /// That no further word stands on the line.
    pub fn end(&self) -> Result<(), ParseError> {
        if self.is_empty() { Ok(()) } else { Err(self.error("the end of the line")) }
    }

    /// The error that something else was expected where the line is read now.
    pub fn error(&self, expected: &str) -> ParseError {
        let found = if self.is_empty() { "the end of the line".to_string() } else { quoted(self.peek()) };
        let column = self.text[..self.read].chars().count() + 1;
        ParseError { line: self.number, column, found, expected: expected.to_string() }
    }
}

/// The number of a word of decimal digits, if it is not too large.
pub fn number(word: &str) -> Option<u32> {
    word.parse().ok().filter(|_| word.bytes().all(|byte| byte.is_ascii_digit()))
}

/// The line and column behind the end of a text.
fn end_of(text: &str) -> (usize, usize) {
    let ends = text.matches(['\n', '\r']).count() - text.matches("\r\n").count();
    let last = text.rsplit(['\n', '\r']).next().unwrap_or_default();
    (ends + 1, last.chars().count() + 1)
}

/// The error that the byte at a place, the first such, is no text.
fn not_text(bytes: &[u8], place: usize) -> ParseError {
    let (line, column) = end_of(&String::from_utf8_lossy(&bytes[..place]));
    let hint = match UTF_16_MARKS.iter().any(|mark| bytes.starts_with(mark)) {
        true => "; it seems to be UTF-16, save it as UTF-8",
        false => "",
    };
    let found = format!("the byte {:#04x}", bytes[place]);
    ParseError { line, column, found, expected: format!("UTF-8 text{hint}") }
}
