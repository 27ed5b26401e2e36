//! Which links of a chain are due in a window of the frame, as the proved calls answer it (REFERENCE, Frame clock).

use std::fmt::{Display, Write};

use chain_arena::{Dot, DueEvent, OwnedArena, Refusal, RefusalKind, Window};

use crate::Shown;
use crate::arguments::When;
use crate::by_slot::BySlot;
use crate::judged::Judged;
use crate::panel::{Due, Panel};
use crate::pointer::{stale, written};
use crate::wording::{counted, digits};

/// Tells which links of a chain are due, if the arena passes the check. The status is 0 if it does, the pointer is good and
/// the frame has the window, however many links are due.
pub fn due(judged: &Judged, when: When) -> Shown {
    if judged.refused.is_some() {
        return judged.show();
    }
    match events(&judged.arena, when) {
        Ok((window, events)) => listed(judged, when, window, &events),
        Err(refusal) => {
            let sentence =
                format!("refused with {}: {}", refusal.number(), why(&judged.arena, when, refusal));
            let text = format!("{}: {sentence}\n", judged.name);
            let panel = Panel { told: vec![sentence], ..judged.panel() };
            Shown { text, panels: vec![panel], passes: false }
        }
    }
}

/// What is due. As in the exported call, a stale pointer is refused before ends that make no window.
fn events(arena: &OwnedArena, when: When) -> Result<(Window, Vec<DueEvent>), Refusal> {
    let window = Window::try_from((when.from, when.to));
    let events = arena.due_events(when.p, window.unwrap_or(Window::FRAME))?;
    window.map(|window| (window, events))
}

/// Why a whole arena does not tell what is due.
fn why(arena: &OwnedArena, when: When, refusal: Refusal) -> String {
    let sentence = match refusal.kind() {
        RefusalKind::StalePointer => stale(arena, when.p),
        RefusalKind::OutOfFrame => no_window(when),
        _ => None,
    };
    sentence.unwrap_or_else(|| refusal.kind().to_string())
}

/// Which end makes no window, and how far it may go.
fn no_window(When { from, to, .. }: When) -> Option<String> {
    let (last, end) = (Dot::LAST.get(), Dot::COUNT);
    let over = (from > last).then(|| format!("FROM is {from}, but the last dot of the frame is {last}"));
    over.or_else(|| (to > end).then(|| format!("TO is {to}, but a window ends at {end} at the latest")))
}

/// The list of what is due, with a line for each link, and the chain to draw.
fn listed(judged: &Judged, when: When, window: Window, events: &[DueEvent]) -> Shown {
    let due: Vec<Due> = events.iter().map(|&event| Due::of(event)).collect();
    let told: Vec<String> = [summary(&judged.arena, when, due.len()), in_words(window)]
        .into_iter()
        .chain(never(&judged.arena, when))
        .collect();
    let mut text = format!("{}: {}\n", judged.name, told[0]);
    for sentence in &told[1..] {
        let _ = writeln!(text, "  {sentence}");
    }
    let width = digits(*judged.arena.stack().end()).max(5) + 2;
    if !due.is_empty() {
        text += &line(["slot", "line", "place", "payload"], width);
    }
    for (Due { slot, line: of, place }, event) in due.iter().zip(events) {
        text += &line([*slot, *of, *place, event.dot.get()], width);
    }
    let panel = Panel { told, due, around: Some(when.p.slot), ..judged.panel() };
    Shown { text, panels: vec![panel], passes: true }
}

/// A line of the list: slot, with so much room, line, place in the line, payload.
fn line<T: Display>([slot, line, place, payload]: [T; 4], width: usize) -> String {
    format!("{slot:>width$}{line:>6}{place:>7}{payload:>9}\n")
}

/// How many links a chain has, and how many of them are due.
fn summary(arena: &OwnedArena, when: When, due: usize) -> String {
    let due = match due {
        0 => "none is due".to_string(),
        1 => "1 is due".to_string(),
        _ => format!("{due} are due"),
    };
    let links = counted(payloads(arena, when).count(), "link");
    format!("the chain of {} has {links}, of which {due}", written(when.p))
}

/// The payloads of a chain whose pointer is good.
fn payloads(arena: &OwnedArena, when: When) -> impl Iterator<Item = u32> {
    let chain = arena.checked().and_then(|checked| checked.chain(when.p)).ok();
    chain.into_iter().flatten().map(|(_, link)| link.payload)
}

/// How many links of a chain are never due, if there are any.
fn never(arena: &OwnedArena, when: When) -> Option<String> {
    let last = Dot::LAST;
    match payloads(arena, when).filter(|&payload| Dot::new(payload).is_none()).count() {
        0 => None,
        1 => Some(format!("1 link of it is never due, since its payload is over {last}")),
        count => Some(format!("{count} links of it are never due, since their payloads are over {last}")),
    }
}

/// A window in words.
fn in_words(window: Window) -> String {
    let start = format!("from {}", placed(window.start()));
    match Dot::new(window.end()) {
        None => format!("{start} to the end of the frame"),
        Some(end) if end == window.start() => format!("{start} to the same dot: no dot is in this window"),
        Some(end) if end < window.start() => {
            format!("{start} over the end of the frame to before {}", placed(end))
        }
        Some(end) => format!("{start} to before {}", placed(end)),
    }
}

/// A dot with its line and its place there.
fn placed(dot: Dot) -> String {
    format!("dot {dot} (line {}, place {})", dot.line(), dot.place())
}

#[cfg(test)]
mod tests {
    use super::*;
    use crate::random::Random;
    use chain_arena::Ptr;

    /// Ends of windows, good ones and others.
    const ENDS: [u32; 9] = [0, 1, 340, 341, 700, 89_341, 89_342, 89_343, u32::MAX];

    /// The slots of a chain in the order of a walk, followed by hand.
    fn walked(a: &OwnedArena, start: u32) -> Vec<u32> {
        let follow = |onward: &dyn Fn(u32) -> u32| {
            let step = |&slot: &u32| Some(onward(slot)).filter(|&to| to != 0 && to != start);
            std::iter::successors(Some(start), step).collect::<Vec<u32>>()
        };
        let forth = follow(&|slot| a.next(slot));
        if a.next(forth[forth.len() - 1]) == start {
            return forth;
        }
        [&forth[..], &follow(&|slot| a.prev(slot))[1..]].concat()
    }

    #[test]
    fn what_is_listed_is_due_and_in_the_order_of_the_walk() {
        let mut random = Random::new(21);
        let mut seen = [0; 3];
        for round in 0..300 {
            let mut chains = random.chains(1 + round % 3, 5, 9);
            let some = [0, 1, 339, 340, 341, 699, 700, 89_341, 89_342, u32::MAX];
            chains
                .iter_mut()
                .flat_map(|(_, payloads)| payloads)
                .for_each(|payload| *payload = some[random.below(10)]);
            let arena = random.arena(&chains, round % 3);
            for slot in 0..=arena.capacity() as u32 + 1 {
                for (from, to) in ENDS.into_iter().flat_map(|from| ENDS.map(|to| (from, to))) {
                    let p = Ptr { slot, generation: 5 };
                    let shown = due(&Judged::new("a".to_string(), arena.clone()), When { p, from, to });
                    let said = |number: u32| shown.text.starts_with(&format!("a: refused with {number}: "));
                    if !arena.is_link(slot) {
                        assert!(said(12) && !shown.passes, "{}", shown.text);
                        seen[0] += 1;
                        continue;
                    }
                    if from > 89_341 || to > 89_342 {
                        assert!(said(19) && !shown.passes, "{}", shown.text);
                        seen[1] += 1;
                        continue;
                    }
                    let is_due = |payload: u32| {
                        let (after, before) = (from <= payload, payload < to);
                        payload < 89_342 && if to < from { after || before } else { after && before }
                    };
                    let walk = walked(&arena, slot);
                    let expected: Vec<[u32; 4]> = walk
                        .iter()
                        .map(|&slot| (slot, arena.payload(slot).unwrap()))
                        .filter(|&(_, payload)| is_due(payload))
                        .map(|(slot, payload)| [slot, payload / 341, payload % 341, payload])
                        .collect();
                    let table = shown.text.lines().skip_while(|line| !line.contains("slot  line")).skip(1);
                    let listed: Vec<Vec<u32>> = table
                        .map(|line| line.split_whitespace().map(|word| word.parse().unwrap()).collect())
                        .collect();
                    assert_eq!(listed, expected, "{}", shown.text);
                    let panel = &shown.panels[0];
                    assert!(
                        panel
                            .due
                            .iter()
                            .map(|due| [due.slot, due.line, due.place])
                            .eq(expected.iter().map(|words| [words[0], words[1], words[2]]))
                    );
                    assert_eq!((panel.around, shown.passes), (Some(slot), true));
                    let links = counted(walk.len(), "link");
                    assert!(
                        shown.text.starts_with(&format!("a: the chain of {slot}:5 has {links}, of which "))
                    );
                    seen[2] += 1;
                }
            }
        }
        assert!(seen.iter().all(|&count| count > 10_000), "{seen:?}");
    }
}
