//! Draws arenas: the header's words, chains as rows of boxes with arrows, free slots and the freelist in grey, broken slots
//! in red, and links that are due in orange, with a second edge and a number.

use crate::by_slot::BySlot;
use crate::panel::Panel;
use crate::picture::{Kind, PACKED, Picture, Row};
use crate::wording::{digits, escaped};

/// How many boxes stand on a line; a longer row goes on below.
const BOXES: usize = PACKED;
/// How many lines of an arena are drawn; of a longer one, those around the first broken slot, else the first.
const LINES: usize = 60;
/// How many lines of a row are drawn where only the chain of a slot is shown; of a longer one, those around the slot.
const LINES_AROUND: usize = 11;
/// How many words of a header are drawn besides those that have a name.
const FURTHER_WORDS: usize = 3;

// Sizes, in the picture's units.
const BOX_WIDTH: usize = 84;
const BOX_HEIGHT: usize = 40;
/// How much higher boxes are where a generation stands in them
const GENERATION_HEIGHT: usize = 15;
const STEP: usize = BOX_WIDTH + 30;
/// How far the boxes of a line are above those of the next one
const GAP: usize = 34;
const LEFT: usize = 140;
/// The width and height of a cell for a word of the header
const CELL: (usize, usize) = (130, 38);
const MARGIN: usize = 20;
const TEXT_HEIGHT: usize = 24;
/// How far below its boxes the arrow runs that leads a row back to the left.
const RETURN: usize = 18;

/// How many digits of a number fit between a row's name and its first box.
const DIGITS: usize = 7;
/// How far the second edge of a box is inside of it.
const INNER: usize = 4;
/// The width and height of a sample box in the legend, and how far its words are to the right of its edge.
const SAMPLE: (usize, usize) = (30, 18);
const BESIDE: usize = 40;

/// What stands below all.
const NOTE: &str = "Each box is a slot: its number, its payload, and its generation (g) where that is not the current one. The \
                    arrows are next.";

const STYLE: &str = "\
text { font: 14px sans-serif; fill: #222 }
.title { font-weight: bold; font-size: 16px }
.note { font-size: 11px; fill: #666 }
.cell rect { fill: #f4f6f8; stroke: #bbb }
.cell text, .slot text { text-anchor: middle }
.slot rect { fill: #fff; stroke: #222; stroke-width: 1.5 }
.slot .number { font-weight: bold }
.free rect { fill: #ddd; stroke: #999 }
.free text { fill: #777 }
.due rect { fill: #ffe3b8; stroke: #8a3f00; stroke-width: 2 }
.slot text.due { fill: #8a3f00; font-size: 12px; font-weight: bold }
.asked rect { stroke: #06c; stroke-width: 4 }
.broken rect { fill: #fdd; stroke: #d00; stroke-width: 3 }
.broken text, text.wrong { fill: #b00 }
text.right { fill: #163 }
text.told { fill: #850 }
.broken.asked rect { stroke: #06c; stroke-width: 4 }
.due rect.inner { fill: none; stroke: #8a3f00; stroke-width: 1.5 }
.sample.asked rect { fill: #fff; stroke-width: 3 }
text.before { text-anchor: end }
path { fill: none; stroke-width: 1.5 }
path.next { stroke: #222 }
path.freelist { stroke: #999 }
path.wrong { stroke: #d00 }
";

/// The kinds of arrows with their colours. An arrow's class is also the name of its tip.
const ARROWS: [(&str, &str); 3] = [("next", "#222"), ("freelist", "#999"), ("wrong", "#d00")];

/// Draws the panels below each other.
pub fn draw(panels: &[Panel]) -> String {
    let mut drawing = Drawing { body: String::new(), y: MARGIN, width: 0, box_height: BOX_HEIGHT };
    for panel in panels {
        drawing.panel(panel);
    }
    drawing.text("note", NOTE);
    let Drawing { body, y: height, width, .. } = drawing;
    let tips = ARROWS.map(|(name, colour)| tip(name, colour)).concat();
    format!(
        r##"<svg xmlns="http://www.w3.org/2000/svg" width="{width}" height="{height}" viewBox="0 0 {width} {height}">
<style>
{STYLE}</style>
<defs>
{tips}</defs>
<rect width="100%" height="100%" fill="#fff"/>
{body}</svg>
"##
    )
}

/// The tip of an arrow.
fn tip(name: &str, colour: &str) -> String {
    format!(
        r#"<marker id="{name}" viewBox="0 0 8 8" refX="8" refY="4" markerWidth="7" markerHeight="7" orient="auto">
<path d="M0 0L8 4L0 8z" style="fill: {colour}"/></marker>
"#
    )
}

/// A line of boxes: part of a row, from a place on.
#[derive(Clone, Copy)]
struct Line<'a> {
    row: &'a Row,
    from: usize,
}

impl<'a> Line<'a> {
    /// The slots on the line.
    fn slots(&self) -> &'a [u32] {
        &self.row.slots[self.from..self.row.slots.len().min(self.from + BOXES)]
    }

    /// Whether the row begins with it.
    fn is_first(&self) -> bool {
        self.from == 0
    }

    /// Whether the row ends with it.
    fn is_last(&self) -> bool {
        self.from + BOXES >= self.row.slots.len()
    }

    /// The class of the arrows between its slots.
    fn arrow(&self) -> &'static str {
        if self.row.kind == Kind::Freelist { "freelist" } else { "next" }
    }

    /// Where its last box ends, or the name of a row without boxes.
    fn right(&self) -> usize {
        match self.slots().len() {
            0 => LEFT - 30,
            boxes => x_of(boxes - 1) + BOX_WIDTH,
        }
    }
}

/// The lines of a row; one without boxes where the row has no slots.
fn lines(row: &Row) -> impl Iterator<Item = Line<'_>> {
    (0..row.slots.len().max(1)).step_by(BOXES).map(move |from| Line { row, from })
}

/// At most so many lines: around the one with a slot, else the first ones.
fn window<'l, 'a>(all: &'l [Line<'a>], most: usize, slot: Option<u32>) -> &'l [Line<'a>] {
    let has_it = |line: &Line<'_>| slot.is_some_and(|slot| line.slots().contains(&slot));
    let middle = all.iter().position(has_it).unwrap_or(0);
    let first = middle.saturating_sub(most / 2).min(all.len().saturating_sub(most));
    &all[first..all.len().min(first + most)]
}

/// The lines that are drawn of a panel's rows.
fn drawn<'a>(panel: &Panel, picture: &'a Picture) -> Vec<Line<'a>> {
    let all: Vec<Line<'_>> = picture.rows.iter().flat_map(lines).collect();
    match (panel.around, picture.rows.first()) {
        (Some(slot), Some(own)) => {
            let rows = all.chunk_by(|one, other| std::ptr::eq(one.row, other.row));
            let lines = rows.flat_map(|row| window(row, LINES_AROUND, focus(own, slot, row[0].row)));
            lines.take(LINES).copied().collect()
        }
        _ => {
            // A root that leads to no free slot has a line without boxes, which is drawn in any case.
            let (bare, boxes): (Vec<_>, Vec<_>) = all.into_iter().partition(|line| line.slots().is_empty());
            let lines = window(&boxes, LINES, panel.faults.first().map(|fault| fault.slot));
            lines.iter().copied().chain(bare).collect()
        }
    }
}

/// The slot of a row that has to do with the chain of a slot: the slot itself, one that a wrong pointer of its row leads to, or
/// the last one, if that leads to its row.
fn focus(own: &Row, slot: u32, row: &Row) -> Option<u32> {
    let from_own = own.wrong().into_iter().flatten();
    let to_own = row.slots.last().filter(|_| row.wrong_next.is_some_and(|next| own.slots.contains(&next)));
    [slot].into_iter().chain(from_own).find(|slot| row.slots.contains(slot)).or(to_own.copied())
}

/// The header's words by name, as many as there are, and the capacity. Of a header that is far too long the first ones.
fn header_cells(panel: &Panel) -> Vec<(String, String)> {
    let mut cells: Vec<_> = panel.header_words().map(|(name, word)| (name.to_string(), word)).collect();
    let further = panel.further_words();
    for word in further.iter().take(FURTHER_WORDS) {
        cells.push((format!("Word {}", cells.len() + 1), word.to_string()));
    }
    if further.len() > FURTHER_WORDS {
        cells.push(("Further words".to_string(), (further.len() - FURTHER_WORDS).to_string()));
    }
    cells.push(("Capacity".to_string(), panel.arena.capacity().to_string()));
    cells
}

/// Whether a slot is a link that has not the current generation.
fn has_other_generation(panel: &Panel, slot: u32) -> bool {
    panel.arena.is_link(slot) && panel.arena.generation(slot) != panel.arena.header().generation
}

/// The left edge of the box at a place of its line.
fn x_of(place: usize) -> usize {
    LEFT + place * STEP
}

/// The picture so far, where the next line stands, how far to the right it goes, and how high the boxes are now.
struct Drawing {
    body: String,
    y: usize,
    width: usize,
    box_height: usize,
}

impl Drawing {
    /// Draws an arena below what is there.
    fn panel(&mut self, panel: &Panel) {
        let picture = panel.picture();
        let lines = drawn(panel, &picture);
        self.text("title", &panel.title);
        self.text(if panel.passes { "right" } else { "wrong" }, &panel.verdict);
        for sentence in &panel.told {
            self.text("told", sentence);
        }
        self.header(panel);
        if !panel.due.is_empty() {
            self.legend(panel);
        }
        if picture.rows.is_empty() {
            self.text("note", "There is no slot in the stack.");
        }
        let slots: usize = lines.iter().map(|line| line.slots().len()).sum();
        let all: usize = picture.rows.iter().map(|row| row.slots.len()).sum();
        if slots < all {
            let whole = if panel.around.is_some() { "" } else { " of the stack" };
            self.text("note", &format!("The picture is cut: {slots} of {all} slots{whole} are drawn."));
        }
        self.box_height = BOX_HEIGHT;
        if lines.iter().flat_map(Line::slots).any(|&slot| has_other_generation(panel, slot)) {
            self.box_height += GENERATION_HEIGHT;
        }
        self.lines(panel, &lines);
    }

    /// Draws the header's words beside each other.
    fn header(&mut self, panel: &Panel) {
        let ((width, height), y) = (CELL, self.y + 4);
        for (k, (name, word)) in header_cells(panel).iter().enumerate() {
            let x = MARGIN + k * width;
            self.body += &format!(
                "<g class=\"cell\"><rect x=\"{x}\" y=\"{y}\" width=\"{width}\" height=\"{height}\"/>\n"
            );
            self.label("note", x + width / 2, y + 14, name);
            self.label("", x + width / 2, y + 31, word);
            self.body += "</g>\n";
            self.width = self.width.max(x + width + MARGIN);
        }
        self.y = y + height;
    }

    /// Tells by sample boxes how links that are due are drawn, and the link that the walk begins with.
    fn legend(&mut self, panel: &Panel) {
        let (width, height) = SAMPLE;
        self.y += 8;
        let order = "Due: orange, with a second edge, and numbered in the order of the walk.";
        let start = "The walk begins here: a blue edge.";
        for (class, words) in [("due", Some(order)), ("asked", panel.around.map(|_| start))] {
            let Some(words) = words else { continue };
            let (x, y) = (MARGIN, self.y + 4);
            self.body += &format!("<g class=\"sample {class}\">");
            self.edge(x, y, width, height);
            if class == "due" {
                self.inner_edge(x, y, width, height);
            }
            self.body += "</g>\n";
            self.label("note", MARGIN + BESIDE, y + 13, words);
            self.width = self.width.max(2 * MARGIN + BESIDE + 7 * words.len());
            self.y += TEXT_HEIGHT;
        }
    }

    /// The edge of a box.
    fn edge(&mut self, x: usize, y: usize, width: usize, height: usize) {
        self.body += &format!("<rect x=\"{x}\" y=\"{y}\" width=\"{width}\" height=\"{height}\" rx=\"4\"/>");
    }

    /// The second edge of a box.
    fn inner_edge(&mut self, x: usize, y: usize, width: usize, height: usize) {
        let (x, y, width, height) = (x + INNER, y + INNER, width - 2 * INNER, height - 2 * INNER);
        self.body += &format!(
            "<rect class=\"inner\" x=\"{x}\" y=\"{y}\" width=\"{width}\" height=\"{height}\" rx=\"2\"/>"
        );
    }

    /// Draws lines below each other.
    fn lines(&mut self, panel: &Panel, lines: &[Line<'_>]) {
        let (top, step) = (self.y + 16, self.box_height + GAP);
        for (k, line) in lines.iter().enumerate() {
            self.y = top + k * step;
            let of_row = |other: &Line<'_>| std::ptr::eq(other.row, line.row);
            let first = lines.iter().position(of_row).unwrap_or(k);
            if first == k {
                self.row_start(line);
            }
            if line.is_last() {
                let row_start = Some(top + first * step).filter(|_| lines[first].is_first());
                self.row_end(line, row_start);
            } else {
                self.row_goes_on(line, lines.get(k + 1).is_some_and(of_row));
            }
            self.boxes(panel, line);
        }
        self.y = top + lines.len() * step + MARGIN;
    }

    /// The height of the arrows on the line at hand.
    fn middle(&self) -> usize {
        self.y + self.box_height / 2
    }

    /// A row's name, and what leads to its first box: the freelist root, or a prev that is wrong. Where the row is cut, the
    /// place at which it goes on.
    fn row_start(&mut self, line: &Line<'_>) {
        let (row, middle) = (line.row, self.middle());
        self.label("", MARGIN, middle + 5, row.kind.name());
        if !line.is_first() {
            self.label("note", MARGIN, middle + 20, &format!("from place {}", line.from + 1));
            return;
        }
        if row.kind == Kind::Freelist && !row.slots.is_empty() {
            self.arrow("freelist", LEFT - 30, "h30");
        }
        if let Some(prev) = row.wrong_prev {
            self.arrow("wrong", LEFT, "h-26");
            // A long number stands above the row's name, and not over it.
            let above = if digits(prev) > DIGITS { TEXT_HEIGHT - 8 } else { 0 };
            self.label("wrong before", LEFT - 30, middle + 5 - above, &prev.to_string());
        }
    }

    /// What leads from the last box of a row: a pointer that is wrong, the way back of a closed chain to where the row
    /// starts, if that is drawn, or the freelist's last slot to itself.
    fn row_end(&mut self, line: &Line<'_>, row_start: Option<usize>) {
        let (right, middle) = (line.right(), self.middle());
        match (line.row.wrong_next, line.row.kind, row_start) {
            (Some(next), ..) => {
                self.arrow("wrong", right, "h22");
                self.beside("wrong", right, middle + 5, &next.to_string());
            }
            (None, Kind::Closed, Some(start)) => {
                let (below, left) = (self.y + self.box_height + RETURN, LEFT - 22);
                let to = start + self.box_height / 2;
                self.arrow("next", right, &format!("h12V{below}H{left}V{to}H{LEFT}"));
            }
            (None, Kind::Closed, None) => {
                self.arrow("next", right, "h22");
                self.beside("note", right, middle + 4, &format!("back to {}", line.row.slots[0]));
            }
            (None, Kind::Freelist, _) => {
                self.arrow("freelist", right, &format!("h12V{}h-26v8", self.y - 8));
            }
            (None, Kind::Open | Kind::Lone | Kind::Unlisted, _) => {}
        }
    }

    /// What leads from the end of a line to the row's next one, if that is drawn.
    fn row_goes_on(&mut self, line: &Line<'_>, drawn: bool) {
        let (below, left) = (self.y + self.box_height + RETURN, LEFT - 12);
        let to = self.middle() + self.box_height + GAP;
        match (line.row.kind.is_linked(), drawn) {
            (false, _) => {}
            (true, true) => {
                self.arrow(line.arrow(), line.right(), &format!("h12V{below}H{left}V{to}H{LEFT}"))
            }
            (true, false) => {
                self.arrow(line.arrow(), line.right(), "h22");
                let next = line.row.slots[line.from + BOXES];
                self.beside("note", line.right(), self.middle() + 4, &format!("on to {next}"));
            }
        }
    }

    /// Draws the boxes of a line with the arrows between them.
    fn boxes(&mut self, panel: &Panel, line: &Line<'_>) {
        for (place, &slot) in line.slots().iter().enumerate() {
            if place > 0 && line.row.kind.is_linked() {
                self.arrow(line.arrow(), x_of(place) - (STEP - BOX_WIDTH), &format!("H{}", x_of(place)));
            }
            self.slot(panel, slot, x_of(place));
        }
    }

    /// Draws a slot: its number, its payload, its generation if that is not the current one, after a compression where the
    /// link came from, and its number among those that are due. What is wrong with it is shown when one points at it.
    fn slot(&mut self, panel: &Panel, slot: u32, x: usize) {
        let (y, height, centre) = (self.y, self.box_height, x + BOX_WIDTH / 2);
        let free = panel.arena.is_free(slot);
        let kind = if free { " free" } else { "" };
        let broken = if panel.is_broken(slot) { " broken" } else { "" };
        let asked = if panel.around == Some(slot) { " asked" } else { "" };
        let number = panel.due_number(slot);
        let due = if number.is_some() { " due" } else { "" };
        self.body += &format!("<g class=\"slot{kind}{broken}{due}{asked}\">");
        let wrong: Vec<&str> = panel.faults_at(slot).iter().map(|fault| fault.sentence.as_str()).collect();
        if !wrong.is_empty() {
            self.body += &format!("<title>{}</title>", escaped(&wrong.join("; ")));
        }
        self.edge(x, y, BOX_WIDTH, height);
        if number.is_some() {
            self.inner_edge(x, y, BOX_WIDTH, height);
        }
        self.label("number", centre, y + 17, &slot.to_string());
        let payload = panel.arena.payload(slot).map_or("missing".to_string(), |payload| payload.to_string());
        let payload = if free { "free".to_string() } else { payload };
        self.label("note", centre, y + 33, &payload);
        if has_other_generation(panel, slot) {
            self.label("note", centre, y + 48, &format!("g {}", panel.arena.generation(slot)));
        }
        if let Some(from) = panel.where_from.get(slot as usize - 1) {
            self.label("note", centre, y + height + 13, &format!("from {from}"));
        }
        if let Some(number) = number {
            self.label("due", centre, y + height + 13, &format!("due {number}"));
        }
        self.body += "</g>\n";
        self.width = self.width.max(x + STEP + 3 * MARGIN);
    }

    /// An arrow from a place of the line at hand.
    fn arrow(&mut self, class: &str, x: usize, way: &str) {
        let middle = self.middle();
        self.body +=
            &format!("<path class=\"{class}\" d=\"M{x} {middle}{way}\" marker-end=\"url(#{class})\"/>\n");
    }

    /// A line of text, below what is there.
    fn text(&mut self, class: &str, text: &str) {
        self.y += TEXT_HEIGHT;
        self.width = self.width.max(2 * MARGIN + 9 * text.chars().count());
        self.label(class, MARGIN, self.y - 10, text);
    }

    /// A text at the tip of an arrow to the right.
    fn beside(&mut self, class: &str, right: usize, y: usize, text: &str) {
        let x = right + 26;
        self.width = self.width.max(x + 8 * text.len() + MARGIN);
        self.label(class, x, y, text);
    }

    /// A text somewhere.
    fn label(&mut self, class: &str, x: usize, y: usize, text: &str) {
        let text = escaped(text);
        self.body += &format!("<text class=\"{class}\" x=\"{x}\" y=\"{y}\">{text}</text>\n");
    }
}
