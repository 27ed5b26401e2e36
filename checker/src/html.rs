//! One page for a browser, with everything in it, so that it loads nothing: all slots of the arenas, to be searched and
//! followed by a click.
//!
//! What needs no script stands in the page as text: titles, verdicts, the header's words, counts and faults. Columns and
//! rows stand in it as data, of which the script in `page/` draws what can be seen.

use std::collections::BTreeMap;

use chain_arena::OwnedArena;

use crate::by_slot::BySlot;
use crate::panel::{Due, Fault, Panel};
use crate::picture::{Kind, Picture, Row};
use crate::wording::{counted, escaped, visible};

/// The page, with the names of what is to be filled in between `@@` and `@@`. What is filled in is not looked at again.
const PAGE: &str = include_str!("page/page.html");
const STYLE: &str = include_str!("page/page.css");
const SCRIPT: &str = concat!(
    include_str!("page/arena.js"),
    "\n",
    include_str!("page/scroller.js"),
    "\n",
    include_str!("page/view.js"),
    "\n",
    include_str!("page/card.js"),
    "\n",
    include_str!("page/search.js")
);

/// How many faults are listed, and how many of them where there is no script. And how many links that are due are listed.
const LISTED_FAULTS: usize = 131_072;
const STATIC_FAULTS: usize = 1000;
const LISTED_DUE: usize = 1000;
/// How many of the header's further words are shown, and how many generations beside the current one.
const LISTED: usize = 8;

/// The page that shows the panels side by side.
pub fn page(panels: &[Panel]) -> String {
    let pages: Vec<PanelPage<'_>> = panels.iter().map(PanelPage::new).collect();
    let titles: Vec<String> = panels.iter().map(|panel| escaped(&panel.title)).collect();
    let titles = titles.join(" | ");
    let sections: String = pages.iter().enumerate().map(|(k, page)| page.section(k + 1)).collect();
    let data: Vec<String> = pages.iter().map(PanelPage::data).collect();
    let data = data.join(",\n");
    let filled = |(k, part)| match (k % 2, part) {
        (0, text) => text,
        (_, "style") => STYLE,
        (_, "script") => SCRIPT,
        (_, "titles") => &titles,
        (_, "sections") => &sections,
        _ => &data,
    };
    PAGE.split("@@").enumerate().map(filled).collect()
}

/// A panel with the rows of its arena.
struct PanelPage<'p> {
    panel: &'p Panel,
    picture: Picture,
}

impl<'p> PanelPage<'p> {
    /// Finds the rows of a panel's arena.
    fn new(panel: &'p Panel) -> Self {
        Self { panel, picture: Picture::of(&panel.arena) }
    }

    /// The part of the page that shows the panel, as far as it needs no script. Panels are counted from 1.
    fn section(&self, number: usize) -> String {
        let title = escaped(&self.panel.title);
        let said = |class: &str, text: &str| format!("<p class=\"verdict {class}\">{}</p>\n", escaped(text));
        let verdict = said(if self.panel.passes { "passes" } else { "refused" }, &self.panel.verdict);
        let told: String = self.panel.told.iter().map(|sentence| said("told", sentence)).collect();
        let words = facts("header", &self.words());
        let counts = facts("counts", &self.counts());
        let generations = self.other_generations(number);
        let due = due_list(number, &self.panel.due, &self.panel.arena);
        let name = self.name_of_faults();
        let faults = static_faults(name, &self.panel.faults);
        format!(
            r#"<section class="panel" id="panel-{number}" aria-labelledby="title-{number}">
<h2 id="title-{number}">{title}</h2>
{verdict}{told}{words}{counts}{generations}{due}{faults}<div class="live" hidden>
<div class="faults" role="listbox" tabindex="0" aria-label="{name} of {title}"></div>
<div class="card" role="group" aria-live="polite" aria-label="Chosen slot of {title}"></div>
<nav aria-label="Parts of {title}"></nav>
<div class="list" role="listbox" tabindex="0" aria-label="Slots of {title}"></div>
</div>
</section>
"#
        )
    }

    /// What the panel's faults are: where the check passes, they come from a comparison.
    fn name_of_faults(&self) -> &'static str {
        if self.panel.passes { "Slots without a partner" } else { "Faults" }
    }

    /// The header's words by name.
    fn words(&self) -> Vec<(&'static str, String)> {
        let further = self.panel.further_words();
        let further = Some(("Further words", listed(further.iter().map(u32::to_string))))
            .filter(|_| !further.is_empty());
        self.panel.header_words().chain(further).collect()
    }

    /// What the arena holds, in numbers.
    fn counts(&self) -> Vec<(&'static str, String)> {
        let arena = &self.panel.arena;
        let links = arena.stack().filter(|&slot| arena.is_link(slot)).count();
        let lone = self.picture.lone_links();
        [
            ("Links", links),
            ("Open chains", self.picture.open_chains() - lone),
            ("Lone links", lone),
            ("Closed chains", self.picture.closed_chains()),
            ("Free slots", arena.stack().count() - links),
            ("Capacity", arena.capacity()),
        ]
        .into_iter()
        .map(|(name, count)| (name, count.to_string()))
        .collect()
    }

    /// The generations of links that differ from the current one, each with how many links have it.
    fn other_generations(&self, number: usize) -> String {
        let arena = &self.panel.arena;
        let mut counts = BTreeMap::new();
        for slot in arena.stack().filter(|&slot| arena.is_link(slot)) {
            *counts.entry(arena.generation(slot)).or_insert(0) += 1;
        }
        counts.remove(&arena.header().generation);
        if counts.is_empty() {
            return String::new();
        }
        let each = counts.iter().map(|(generation, count)| {
            let links = counted(*count, "link");
            format!(r##"<a href="#panel={number}&amp;generation={generation}">{generation}</a> ({links})"##)
        });
        format!("<p class=\"generations\">Other generations: {}</p>\n", listed(each))
    }

    /// The panel as the script reads it.
    fn data(&self) -> String {
        let (panel, rows) = (self.panel, &self.picture.rows);
        let (arena, header) = (&panel.arena, panel.arena.header());
        let (listed, unlisted) = panel.faults.split_at(panel.faults.len().min(LISTED_FAULTS));
        let sentences: Vec<String> = listed.iter().map(|fault| json_string(&fault.sentence)).collect();
        let unlisted = unlisted.chunk_by(|one, other| one.slot == other.slot).map(|faults| faults[0].slot);
        [
            format!(r#"{{"title":{}"#, json_string(&panel.title)),
            format!(r#""stack":{}"#, arena.stack().count()),
            format!(r#""stackLength":{}"#, header.stack_length),
            format!(r#""capacity":{}"#, arena.capacity()),
            format!(r#""root":{}"#, header.root),
            format!(r#""current":{}"#, header.generation),
            format!(r#""follows":{}"#, panel.follows),
            format!(r#""around":{}"#, panel.around.unwrap_or(0)),
            format!(r#""prev":{}"#, column(arena.prev.iter().copied())),
            format!(r#""next":{}"#, column(arena.next.iter().copied())),
            format!(r#""generation":{}"#, column(arena.generation.iter().copied())),
            format!(r#""payload":{}"#, column(arena.payload.iter().copied())),
            format!(r#""whereFrom":{}"#, column(panel.where_from.iter().copied())),
            format!(r#""kinds":{}"#, column(rows.iter().map(kind_and_flags))),
            format!(r#""lengths":{}"#, column(rows.iter().map(|row| row.slots.len() as u32))),
            format!(r#""order":{}"#, column(rows.iter().flat_map(|row| row.slots.iter().copied()))),
            format!(r#""due":{}"#, column(panel.due.iter().map(|due| due.slot))),
            format!(r#""dueLines":{}"#, column(panel.due.iter().map(|due| due.line))),
            format!(r#""duePlaces":{}"#, column(panel.due.iter().map(|due| due.place))),
            format!(r#""faults":{}"#, column(listed.iter().map(|fault| fault.slot))),
            format!(r#""unlisted":{}"#, column(unlisted)),
            format!(r#""sentences":[{}]}}"#, sentences.join(",\n")),
        ]
        .join(",\n")
    }
}

/// A row's kind from 0 to 4, with 8 added for a wrong prev and 16 for a wrong next.
fn kind_and_flags(row: &Row) -> u32 {
    let kind = match row.kind {
        Kind::Open => 0,
        Kind::Lone => 1,
        Kind::Closed => 2,
        Kind::Freelist => 3,
        Kind::Unlisted => 4,
    };
    kind + 8 * u32::from(row.wrong_prev.is_some()) + 16 * u32::from(row.wrong_next.is_some())
}

/// Names with what belongs to them.
fn facts(class: &str, facts: &[(&str, String)]) -> String {
    let each: String =
        facts.iter().map(|(name, fact)| format!("<div><dt>{name}</dt><dd>{fact}</dd></div>\n")).collect();
    format!("<dl class=\"{class}\">\n{each}</dl>\n")
}

/// The first few of some texts, and how many more there are.
fn listed(texts: impl ExactSizeIterator<Item = String>) -> String {
    let more = texts.len().saturating_sub(LISTED);
    let first: Vec<String> = texts.take(LISTED).collect();
    let more = if more == 0 { String::new() } else { format!(" and {more} more") };
    first.join(", ") + &more
}

/// How many faults there are, by this name, and their list for a reader without script.
fn static_faults(name: &str, faults: &[Fault]) -> String {
    if faults.is_empty() {
        return String::new();
    }
    let each: String = faults
        .iter()
        .take(STATIC_FAULTS)
        .map(|fault| format!("<li><b>{}</b> {}</li>\n", fault.slot, escaped(&fault.sentence)))
        .collect();
    let more = match faults.len().saturating_sub(STATIC_FAULTS) {
        0 => String::new(),
        more => format!("<p>and {more} more</p>\n"),
    };
    let count = match faults.len() {
        count if count > LISTED_FAULTS => format!("{count}, of which the first {LISTED_FAULTS} are listed"),
        count => count.to_string(),
    };
    format!("<h3>{name}: {count}</h3>\n<noscript><ul class=\"static\">\n{each}</ul>\n{more}</noscript>\n")
}

/// The links that are due, in the order of the walk, each with a way to its slot; nothing if none is.
fn due_list(number: usize, due: &[Due], arena: &OwnedArena) -> String {
    if due.is_empty() {
        return String::new();
    }
    let item = |&Due { slot, line, place }: &Due| {
        let payload = arena.payload(slot).unwrap_or(0);
        let way = format!(r##"<a href="#panel={number}&amp;slot={slot}">slot {slot}</a>"##);
        format!("<li>{way}: line {line}, place {place}, payload {payload}</li>\n")
    };
    let each: String = due.iter().take(LISTED_DUE).map(item).collect();
    let more = match due.len().saturating_sub(LISTED_DUE) {
        0 => String::new(),
        more => format!("<p>and {more} more</p>\n"),
    };
    let count = due.len();
    format!(
        "<details class=\"due-list\" open>\n<summary><i class=\"sample\" aria-hidden=\"true\"></i>Due, in the order of the walk: {count}</summary>\n<ol>\n{each}</ol>\n{more}</details>\n"
    )
}

/// A text from outside, as a string of the data. No `<` stands in it, so that it cannot end the data.
fn json_string(text: &str) -> String {
    let mut string = String::with_capacity(text.len() + 2);
    string.push('"');
    for character in text.chars().map(visible) {
        match character {
            '"' | '\\' | '<' | '>' | '&' => string += &format!("\\u{:04x}", u32::from(character)),
            _ => string.push(character),
        }
    }
    string.push('"');
    string
}

/// A column as the script reads it: how many bytes each word has, and the words in base64, their low bytes first.
fn column(words: impl Iterator<Item = u32>) -> String {
    let words: Vec<u32> = words.collect();
    let width = match words.iter().max() {
        None | Some(0..=0xff) => 1,
        Some(0..=0xffff) => 2,
        Some(_) => 4,
    };
    let bytes: Vec<u8> = words.iter().flat_map(|word| word.to_le_bytes().into_iter().take(width)).collect();
    format!(r#"[{width},"{}"]"#, base64(&bytes))
}

/// Bytes in base64.
fn base64(bytes: &[u8]) -> String {
    const DIGITS: &[u8; 64] = b"ABCDEFGHIJKLMNOPQRSTUVWXYZabcdefghijklmnopqrstuvwxyz0123456789+/";
    let mut text = String::with_capacity(bytes.len().div_ceil(3) * 4);
    for three in bytes.chunks(3) {
        let byte = |k| three.get(k).copied().map_or(0, u32::from);
        let word = byte(0) << 16 | byte(1) << 8 | byte(2);
        for (k, shift) in [18, 12, 6, 0].into_iter().enumerate() {
            let digit = DIGITS[(word >> shift & 63) as usize];
            text.push(if k <= three.len() { char::from(digit) } else { '=' });
        }
    }
    text
}

#[cfg(test)]
mod tests {
    use super::*;

    /// A panel of an arena, with a title.
    fn panel(title: &str, arena: OwnedArena) -> Panel {
        Panel::new(title.to_string(), arena)
    }

    #[test]
    fn texts_from_outside_stay_texts() {
        let hostile =
            "a\"b'c&d\\</script><script>e</script><!--<img src=x onerror=f>\u{2028}\u{202e}\0\n\x7f\u{85}";
        let mut broken = Panel { passes: false, ..panel(hostile, OwnedArena::empty(3)) };
        broken.verdict = hostile.to_string();
        broken.told = vec![hostile.to_string()];
        broken.faults = vec![Fault { slot: 1, sentence: hostile.to_string() }];
        let tame = page(&[panel("tame", OwnedArena::empty(3)), panel("tame", OwnedArena::empty(3))]);
        let page = page(&[panel("tame", OwnedArena::empty(3)), broken]);
        assert_eq!(page.matches("<script").count(), tame.matches("<script").count());
        assert_eq!(page.matches("</script").count(), tame.matches("</script").count());
        assert!(!page.contains("<!--") && !page.contains("<img"));
        let end = "\u{fffd}\u{fffd}\u{2400}\u{240a}\u{2421}\u{fffd}";
        let text = "a&quot;b&apos;c&amp;d\\&lt;/script&gt;&lt;script&gt;e&lt;/script&gt;&lt;!--&lt;img src=x onerror=f&gt;";
        assert!(page.contains(&format!("<h2 id=\"title-2\">{text}{end}</h2>")));
        assert!(page.contains(&format!("<p class=\"verdict refused\">{text}{end}</p>")));
        assert!(page.contains(&format!("<p class=\"verdict told\">{text}{end}</p>")));
        assert!(page.contains(&format!("<li><b>1</b> {text}{end}</li>")));
        let string =
            r#""a\u0022b'c\u0026d\u005c\u003c/script\u003e\u003cscript\u003ee\u003c/script\u003e\u003c!--"#;
        assert_eq!(page.matches(string).count(), 2);
        assert!(page.chars().all(|character| character == '\n' || character == visible(character)));
    }

    #[test]
    fn the_script_cannot_end_early() {
        for text in [STYLE, SCRIPT] {
            assert!(!text.contains("</") && !text.contains("<!--") && !text.contains("<script"));
        }
    }

    #[test]
    fn the_page_is_written_of_any_arena() {
        let odd = |lengths: [usize; 4], header: Vec<u32>| OwnedArena {
            prev: vec![7; lengths[0]],
            next: vec![2; lengths[1]],
            generation: vec![5; lengths[2]],
            payload: vec![u32::MAX; lengths[3]],
            header,
        };
        assert!(page(&[]).contains("[]\n</script>"));
        let title = "<h2 id=\"title-1\">@@data@@</h2>";
        assert!(page(&[panel("@@data@@", OwnedArena::empty(1))]).contains(title));
        for (arena, words) in [
            (odd([0; 4], vec![]), "<dt>Root</dt><dd>missing</dd>"),
            (odd([3, 2, 1, 0], vec![3]), "<dt>Stack length</dt><dd>3</dd>"),
            (odd([0, 1, 2, 3], vec![9, 9]), "<dt>Link count</dt><dd>9</dd>"),
            (odd([2; 4], (0..20).collect()), "<dd>4, 5, 6, 7, 8, 9, 10, 11 and 8 more</dd>"),
            (odd([70_000; 4], vec![u32::MAX; 4]), "<dt>Capacity</dt><dd>70000</dd>"),
        ] {
            assert!(page(&[panel("odd", arena)]).contains(words), "{words}");
        }
    }

    #[test]
    fn many_faults_are_counted_where_there_is_no_script() {
        let mut broken = panel("broken", OwnedArena::empty(0));
        let fault = |slot| Fault { slot, sentence: format!("slot {slot}: its next is 0") };
        broken.faults = (1..=1_500).map(fault).collect();
        let page = page(&[broken]);
        assert_eq!(page.matches("<li><b>").count(), STATIC_FAULTS);
        assert!(page.contains("<p>and 500 more</p>"));
        assert_eq!(page.matches("\"slot 1500: its next is 0\"").count(), 1);
    }

    #[test]
    fn of_very_many_faults_the_first_are_listed_and_all_slots_are_marked() {
        let mut broken = Panel { passes: false, ..panel("broken", OwnedArena::empty(0)) };
        // two faults at each slot, of which the last one listed is the first of its slot
        let fault = |k| Fault { slot: k / 2, sentence: format!("fault {k}") };
        let last = LISTED_FAULTS as u32 + 2;
        broken.faults = (3..last + 9).map(fault).collect();
        let page = page(&[broken]);
        assert!(page.contains("<h3>Faults: 131080, of which the first 131072 are listed</h3>"));
        assert!(page.contains(&format!("\"fault {last}\"]}}")));
        assert_eq!(page.matches("\"fault ").count(), LISTED_FAULTS);
        assert!(page.contains(&format!("\"unlisted\":{}", column(last / 2..last / 2 + 5))));
    }

    #[test]
    fn base64_is_as_everywhere() {
        for (bytes, text) in
            [("", ""), ("f", "Zg=="), ("fo", "Zm8="), ("foo", "Zm9v"), ("foobar", "Zm9vYmFy")]
        {
            assert_eq!(base64(bytes.as_bytes()), text);
        }
        assert_eq!(base64(&[0xfb, 0xff]), "+/8=");
    }
}
