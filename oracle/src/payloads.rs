//! Compression does not look at payloads: what it makes of two arenas that differ in payloads alone.

use crate::compare::Outcome;
use crate::{Arena, Call, Reading, frame};

/// The arena with another payload in every place: dots, and numbers that are none.
pub fn with_other_payloads(a: &Arena) -> Arena {
    const PAYLOADS: [u32; 7] = [0, frame::DOTS - 1, 340, frame::DOTS, 341, u32::MAX, 7];
    let mut other = a.clone();
    for (place, payload) in other.payload.iter_mut().enumerate() {
        let wanted = PAYLOADS[place % PAYLOADS.len()];
        *payload = if *payload == wanted { wanted ^ 1 } else { wanted };
    }
    other
}

/// What a compression of two arenas, which differ in payloads alone, does not keep, if anything: the same answer, the same words
/// but for payloads, and each payload with its link.
pub fn broken(first: (&Arena, &Outcome), second: (&Arena, &Outcome)) -> Option<&'static str> {
    let (one, two) = (first.1, second.1);
    if one.reply != two.reply {
        return Some("both answer the same");
    }
    if one.call.lent() != two.call.lent() {
        return Some("both report the same");
    }
    let others = |a: &Arena| Arena { payload: vec![], ..a.clone() };
    if others(&one.arena) != others(&two.arena) {
        return Some("both leave the same words but for payloads");
    }
    let carried =
        [first, second].into_iter().all(|(before, after)| after.arena.payload == carried(before, after));
    if carried { None } else { Some("each payload goes with its link") }
}

/// The payloads that a compression leaves if each goes where the report or the where-from column says: 0 where slots were
/// popped, and above the stack and after a refusal as they were.
fn carried(before: &Arena, after: &Outcome) -> Vec<u32> {
    let mut payloads = before.payload.clone();
    if !matches!(after.reply.number, 0 | 100) {
        return payloads;
    }
    let old: Vec<usize> = match &after.call {
        Call::CompressWith(_, report) => {
            report.as_chunks::<4>().0.iter().map(|words| words[0] as usize).collect()
        }
        Call::CompressCanonical(_, places) => places.iter().map(|&slot| slot as usize).collect(),
        _ => return payloads,
    };
    payloads[..before.stack()].fill(0);
    for (payload, s) in payloads.iter_mut().zip(old.into_iter().take(before.links())) {
        *payload = before.payload[s - 1];
    }
    payloads
}
