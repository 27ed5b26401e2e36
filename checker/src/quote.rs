//! Words and names that somebody else chose, made fit to be printed.

/// How many characters of a word are quoted.
const LONGEST: usize = 40;

/// A text without characters that a terminal would obey or hide: they are escaped as in Rust.
pub fn plain(text: &str) -> String {
    let mut shown = String::with_capacity(text.len());
    for character in text.chars() {
        match character {
            '\'' | '"' | '\\' => shown.push(character),
            _ => shown.extend(character.escape_debug()),
        }
    }
    shown
}

/// A word between backquotes; a long one is cut.
pub fn quoted(word: &str) -> String {
    match word.char_indices().nth(LONGEST) {
        Some((end, _)) => format!("`{}..`", plain(&word[..end])),
        None => format!("`{}`", plain(word)),
    }
}

/// Names between backquotes, with a word such as `or` before the last one.
pub fn listed<'n>(names: impl Iterator<Item = &'n str>, word: &str) -> String {
    let mut names: Vec<String> = names.map(quoted).collect();
    let last = names.pop().unwrap_or_default();
    if names.is_empty() { last } else { format!("{} {word} {last}", names.join(", ")) }
}

#[cfg(test)]
mod tests {
    use super::*;

    #[test]
    fn names_are_listed() {
        for (names, list) in [
            (&[][..], ""),
            (&["a"], "`a`"),
            (&["a", "b"], "`a` or `b`"),
            (&["a", "b", "c"], "`a`, `b` or `c`"),
        ] {
            assert_eq!(listed(names.iter().copied(), "or"), list);
        }
    }

    #[test]
    fn a_word_is_quoted_safely() {
        assert_eq!(quoted("it's \"x\\y\" \u{e9}"), "`it's \"x\\y\" \u{e9}`");
        assert_eq!(quoted("\u{1b}[31m\n\0\u{202e}"), r"`\u{1b}[31m\n\0\u{202e}`");
        assert_eq!(quoted(&"7".repeat(40)), format!("`{}`", "7".repeat(40)));
        assert_eq!(quoted(&"\u{e9}".repeat(41)), format!("`{}..`", "\u{e9}".repeat(40)));
    }
}
