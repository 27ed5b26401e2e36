//! How counts are worded, and how texts from outside stand in a picture or on a page.

/// A number of things with their name.
pub fn counted(count: usize, name: &str) -> String {
    format!("{count} {name}{}", if count == 1 { "" } else { "s" })
}

/// A number with a comma behind each thousand.
pub fn grouped(number: usize) -> String {
    let (thousands, rest) = (number / 1000, number % 1000);
    if thousands == 0 { rest.to_string() } else { format!("{},{rest:03}", grouped(thousands)) }
}

/// How many digits a number has.
pub fn digits(number: u32) -> usize {
    number.checked_ilog10().unwrap_or(0) as usize + 1
}

/// A character so that it can be seen. Those that XML may not hold, that break a line or that turn the direction of the text
/// are replaced.
pub fn visible(character: char) -> char {
    match character {
        '\0'..='\x1f' => char::from_u32(0x2400 + u32::from(character)).unwrap_or(char::REPLACEMENT_CHARACTER),
        '\x7f' => '\u{2421}',
        '\u{80}'..='\u{9f}'
        | '\u{61c}'
        | '\u{200e}'..='\u{200f}'
        | '\u{2028}'..='\u{202e}'
        | '\u{2066}'..='\u{2069}'
        | '\u{feff}'
        | '\u{fffe}'
        | '\u{ffff}' => char::REPLACEMENT_CHARACTER,
        _ => character,
    }
}

/// A text from outside, as text or attribute of a picture or page.
pub fn escaped(text: &str) -> String {
    let mut escaped = String::with_capacity(text.len());
    for character in text.chars().map(visible) {
        match character {
            '&' => escaped += "&amp;",
            '<' => escaped += "&lt;",
            '>' => escaped += "&gt;",
            '"' => escaped += "&quot;",
            '\'' => escaped += "&apos;",
            _ => escaped.push(character),
        }
    }
    escaped
}

#[cfg(test)]
mod tests {
    use super::*;

    #[test]
    fn numbers_are_grouped_and_measured() {
        for (number, told) in
            [(0, "0"), (7, "7"), (999, "999"), (1000, "1,000"), (65_535, "65,535"), (1_048_576, "1,048,576")]
        {
            assert_eq!(
                (grouped(number), digits(number as u32)),
                (told.to_string(), number.to_string().len())
            );
        }
        assert_eq!(grouped(1_000_000_007), "1,000,000,007");
        assert_eq!(digits(u32::MAX), 10);
    }
}
