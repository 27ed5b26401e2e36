//! Which of several names was meant by a word that is none of them.

/// The name that is written most like a word, capitals aside; none if more than half of the letters are other ones.
pub fn nearest<'n>(word: &str, names: impl Iterator<Item = &'n str>) -> Option<&'n str> {
    let word: Vec<char> = word.to_lowercase().chars().collect();
    let tried = names.map(|name| (changes(&word, name), name));
    let near = tried.filter(|(changes, name)| 2 * changes <= word.len().max(name.len()));
    near.min_by_key(|(changes, _)| *changes).map(|(_, name)| name)
}

/// How many letters must be changed, added or left out to make a name of a word.
fn changes(word: &[char], name: &str) -> usize {
    // The changes that make the first letters of the name, none at first, of so many first letters of the word.
    let mut row: Vec<usize> = (0..=word.len()).collect();
    for letter in name.chars() {
        let mut before = row[0];
        row[0] += 1;
        for (k, &other) in word.iter().enumerate() {
            let changed = before + usize::from(letter != other);
            before = row[k + 1];
            row[k + 1] = changed.min(before + 1).min(row[k] + 1);
        }
    }
    row[word.len()]
}

#[cfg(test)]
mod tests {
    use super::*;

    /// The fewest changes, tried one letter after the other.
    fn by_hand(word: &[char], name: &[char]) -> usize {
        match (word, name) {
            ([], rest) | (rest, []) => rest.len(),
            ([one, word_rest @ ..], [other, name_rest @ ..]) => {
                let changed = by_hand(word_rest, name_rest) + usize::from(one != other);
                changed.min(1 + by_hand(word_rest, name)).min(1 + by_hand(word, name_rest))
            }
        }
    }

    #[test]
    fn the_changes_are_the_fewest() {
        let words: Vec<String> = (0..=4u32)
            .flat_map(|length| (0..3u32.pow(length)).map(move |k| (length, k)))
            .map(|(length, k)| {
                (0..length).map(|place| ['a', 'b', 'c'][(k / 3u32.pow(place) % 3) as usize]).collect()
            })
            .collect();
        for (word, name) in words.iter().flat_map(|word| words.iter().map(move |name| (word, name))) {
            let letters = |text: &str| text.chars().collect::<Vec<char>>();
            assert_eq!(
                changes(&letters(word), name),
                by_hand(&letters(word), &letters(name)),
                "{word} {name}"
            );
        }
    }

    #[test]
    fn the_nearest_name_is_found_if_it_is_near() {
        let near = |word| nearest(word, ["connect", "break_prev", "break_next", "remove"].into_iter());
        for (word, name) in [
            ("conect", "connect"),
            ("connects", "connect"),
            ("Connect", "connect"),
            ("CONNECT", "connect"),
            ("BREAK_NEXT", "break_next"),
            ("cnnotect", "connect"),
            ("disconnect", "connect"),
            ("disconnected__", "connect"),
            ("break", "break_prev"),
            ("break_nxet", "break_next"),
            ("mov", "remove"),
        ] {
            assert_eq!(near(word), Some(name), "{word}");
        }
        for word in ["", "x", "look", "delete", "cn\u{f6}\u{f6}\u{f6}t", "mo", "disconnected___"] {
            assert_eq!(near(word), None, "{word}");
        }
    }
}
