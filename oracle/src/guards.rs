//! Exported calls on buffers with guard words at both ends, which no call may write over.

use crate::compare::{Answer, Outcome};
use crate::{Arena, Call, exports};

/// How many guard words stand at each end of a lent buffer.
pub const GUARD: usize = 8;

/// What stands in a guard word.
const FENCE: u32 = 0xfeed_f00d;

/// The words between guard words.
fn fenced(words: &[u32]) -> Vec<u32> {
    [&[FENCE; GUARD][..], words, &[FENCE; GUARD]].concat()
}

/// Takes the guard words away, and tells whether they were all there.
fn freed(words: &mut Vec<u32>) -> bool {
    let end = words.len() - GUARD;
    let stood = words[..GUARD].iter().chain(&words[end..]).all(|&word| word == FENCE);
    words.truncate(end);
    words.drain(..GUARD);
    stood
}

/// The arena in buffers with guard words.
fn fenced_arena(a: &Arena) -> Arena {
    Arena {
        prev: fenced(&a.prev),
        next: fenced(&a.next),
        generation: fenced(&a.generation),
        payload: fenced(&a.payload),
        header: fenced(&a.header),
    }
}

/// The call with guard words around the slices that it lends.
fn fenced_call(call: &Call) -> Call {
    match call {
        Call::Drain(p, report) => Call::Drain(*p, fenced(report)),
        Call::Run(commands, answers) => Call::Run(fenced(commands), fenced(answers)),
        Call::CompressWith(reset, report) => Call::CompressWith(*reset, fenced(report)),
        Call::CompressCanonical(reset, from) => Call::CompressCanonical(*reset, fenced(from)),
        Call::DueEvents(p, from, to, report) => Call::DueEvents(*p, *from, *to, fenced(report)),
        _ => call.clone(),
    }
}

/// Takes the guard words of a call's slices away, and tells whether they were all there.
fn freed_call(call: &mut Call) -> bool {
    match call {
        Call::Drain(_, words)
        | Call::CompressWith(_, words)
        | Call::CompressCanonical(_, words)
        | Call::DueEvents(.., words) => freed(words),
        Call::Run(commands, answers) => freed(commands) & freed(answers),
        _ => true,
    }
}

/// What the exported call leaves, or which buffer's guard words it wrote over; none if it is not linked.
pub fn outcome(before: &Arena, call: &Call) -> Option<Answer> {
    outcome_by(exports::perform_between, before, call)
}

/// The same of any way to make a call on the words between so many guard words.
fn outcome_by(
    perform: impl Fn(&mut Arena, &mut Call, usize) -> Option<crate::Reply>,
    before: &Arena,
    call: &Call,
) -> Option<Answer> {
    let (mut arena, mut call) = (fenced_arena(before), fenced_call(call));
    let reply = perform(&mut arena, &mut call, GUARD)?;
    let stood = [
        (freed(&mut arena.prev), "prev"),
        (freed(&mut arena.next), "next"),
        (freed(&mut arena.generation), "generation"),
        (freed(&mut arena.payload), "payload"),
        (freed(&mut arena.header), "the header"),
        (freed_call(&mut call), "the lent slice"),
    ];
    Some(match stood.into_iter().find(|(stood, _)| !stood) {
        Some((_, buffer)) => Err(format!("words before or after {buffer} were written over")),
        None => Ok(Outcome { reply, call, arena }),
    })
}

#[cfg(test)]
mod tests {
    use super::*;
    use crate::Reply;

    /// What is said of a compression that changes a fenced arena and its fenced call in one place.
    fn said(change: impl Fn(&mut Arena, &mut Call)) -> Answer {
        said_of(&Call::CompressCanonical(0, vec![4; 2]), change)
    }

    /// The same of any call.
    fn said_of(call: &Call, change: impl Fn(&mut Arena, &mut Call)) -> Answer {
        let perform = |a: &mut Arena, call: &mut Call, _: usize| {
            change(a, call);
            Some(Reply::number(0))
        };
        outcome_by(perform, &Arena::empty(2), call).expect("it answers")
    }

    #[test]
    fn a_word_next_to_a_buffer_is_seen_and_one_in_it_is_not_complained_of() {
        for place in 0..2 * GUARD + 2 {
            let inside = (GUARD..GUARD + 2).contains(&place);
            assert_eq!(said(|a, _| a.prev[place] = 1).is_ok(), inside);
            assert_eq!(said(|a, _| a.next[place] = 1).is_ok(), inside);
            assert_eq!(said(|a, _| a.generation[place] = 1).is_ok(), inside);
            assert_eq!(said(|a, _| a.payload[place] = 1).is_ok(), inside);
            let from = said(|_, call| {
                if let Call::CompressCanonical(_, from) = call {
                    from[place] = 1;
                }
            });
            assert_eq!(from.is_ok(), inside);
        }
        assert!(said(|a, _| a.header[GUARD - 1] = 1).is_err());
        assert!(said(|a, _| a.header[GUARD + 4] = 1).is_err());
    }

    #[test]
    fn a_word_next_to_each_lent_slice_is_seen() {
        let p = crate::Ptr { slot: 1, generation: 5 };
        let calls = [
            Call::Drain(p, vec![4; 2]),
            Call::Run(vec![], vec![4; 2]),
            Call::CompressWith(0, vec![4; 2]),
            Call::CompressCanonical(0, vec![4; 2]),
            Call::DueEvents(p, 0, 1, vec![4; 2]),
        ];
        for (call, place) in calls.iter().flat_map(|call| (0..2 * GUARD + 2).map(move |place| (call, place)))
        {
            let written = said_of(call, |_, call| match call {
                Call::Drain(_, words)
                | Call::Run(_, words)
                | Call::CompressWith(_, words)
                | Call::CompressCanonical(_, words)
                | Call::DueEvents(.., words) => words[place] = 1,
                _ => unreachable!("a call that lends nothing"),
            });
            assert_eq!(written.is_ok(), (GUARD..GUARD + 2).contains(&place), "{call:?}");
        }
    }

    #[test]
    fn without_guard_words_the_words_are_as_they_were() {
        let left = said(|_, _| {}).expect("nothing was written over");
        assert_eq!(left.arena, Arena::empty(2));
        assert_eq!(left.call, Call::CompressCanonical(0, vec![4; 2]));
    }
}
