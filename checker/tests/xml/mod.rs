//! Whether a text is well-formed XML: as much of XML as a picture uses, and nothing else is let through.

/// Refuses a text that is no single XML element without comments, processing instructions and declarations.
pub fn well_formed(text: &str) -> Result<(), String> {
    if let Some(bad) = text.chars().find(|&character| !may_stand(character)) {
        return Err(format!("{bad:?} may not stand in XML"));
    }
    let mut open: Vec<&str> = Vec::new();
    let mut rest = text;
    let mut elements = 0;
    while let Some((before, after)) = rest.split_once('<') {
        contents(before, open.is_empty())?;
        let (tag, after) = tag(after)?;
        rest = after;
        if let Some(name) = tag.strip_prefix('/') {
            let opened = open.pop().ok_or_else(|| format!("</{name}> closes nothing"))?;
            if opened != name.trim_end() {
                return Err(format!("<{opened}> is closed by </{name}>"));
            }
            continue;
        }
        elements += usize::from(open.is_empty());
        let (tag, empty) = tag.strip_suffix('/').map_or((tag, false), |tag| (tag, true));
        let (name, attributes) = tag.split_at(tag.find(char::is_whitespace).unwrap_or(tag.len()));
        is_name(name)?;
        has_attributes(attributes)?;
        if !empty {
            open.push(name);
        }
    }
    contents(rest, true)?;
    match (open.last(), elements) {
        (Some(name), _) => Err(format!("<{name}> is not closed")),
        (None, 1) => Ok(()),
        (None, _) => Err(format!("{elements} outermost elements")),
    }
}

/// Whether a character may stand in XML 1.0.
fn may_stand(character: char) -> bool {
    matches!(character, '\t' | '\n' | '\r' | ' '..='\u{d7ff}' | '\u{e000}'..='\u{fffd}' | '\u{10000}'..)
}

/// What stands before the end of a tag, and what after it. A `>` within quotes does not end it.
fn tag(text: &str) -> Result<(&str, &str), String> {
    let mut quote = None;
    for (place, character) in text.char_indices() {
        match (quote, character) {
            (None, '>') => return Ok((&text[..place], &text[place + 1..])),
            (None, '"' | '\'') => quote = Some(character),
            (Some(opened), _) if opened == character => quote = None,
            (_, '<') => return Err("< within a tag".to_string()),
            _ => {}
        }
    }
    Err("a tag without end".to_string())
}

/// Refuses what may not stand between tags; outside of all elements only blanks may.
fn contents(text: &str, outside: bool) -> Result<(), String> {
    if outside && !text.trim().is_empty() {
        return Err(format!("{text:?} outside of all elements"));
    }
    if text.contains("]]>") {
        return Err("]]> in a text".to_string());
    }
    references(text)
}

/// Refuses a `&` that begins no reference.
fn references(text: &str) -> Result<(), String> {
    for after in text.split('&').skip(1) {
        let name = after.split_once(';').map_or("", |(name, _)| name);
        if !["amp", "lt", "gt", "quot", "apos"].contains(&name) {
            return Err(format!("& before {after:?}"));
        }
    }
    Ok(())
}

/// Refuses what is no name.
fn is_name(text: &str) -> Result<(), String> {
    let good = |character: char| character.is_ascii_alphanumeric() || "-_:".contains(character);
    if text.starts_with(|first: char| first.is_ascii_alphabetic()) && text.chars().all(good) {
        Ok(())
    } else {
        Err(format!("{text:?} is no name"))
    }
}

/// Refuses what is no list of attributes, each with a value in quotes and none twice.
fn has_attributes(text: &str) -> Result<(), String> {
    let mut names = Vec::new();
    let mut rest = text;
    while !rest.trim_start().is_empty() {
        let stripped = rest.trim_start();
        let (name, after) = stripped.split_once('=').ok_or("an attribute without value")?;
        is_name(name)?;
        if names.contains(&name) || stripped.len() == rest.len() {
            return Err(format!("{name} twice, or without a blank before it"));
        }
        names.push(name);
        let quote =
            after.chars().next().filter(|first| "\"'".contains(*first)).ok_or("a value without quotes")?;
        let (value, after) = after[1..].split_once(quote).ok_or("a value without end")?;
        references(value)?;
        rest = after;
    }
    Ok(())
}

#[test]
fn what_is_not_well_formed_is_refused() {
    for good in ["<a/>", "<a b=\"1\" c='>'><b>&lt;</b>x</a>\n"] {
        assert_eq!(well_formed(good), Ok(()), "{good}");
    }
    let bad = [
        "",
        "x",
        "<a>",
        "</a>",
        "<a/><a/>",
        "<a></b>",
        "<a>&</a>",
        "<a>&foo;</a>",
        "<a b/>",
        "<a b=1/>",
        "<a b=\"<\"/>",
        "<a b=\"1\"c=\"2\"/>",
        "<a b=\"1\" b=\"2\"/>",
        "<a>\u{1}</a>",
        "<a>\u{fffe}</a>",
        "<a>]]></a>",
        "<a/>x",
        "<1/>",
        "<a b=\"&\"/>",
    ];
    for bad in bad {
        assert!(well_formed(bad).is_err(), "{bad}");
    }
}
