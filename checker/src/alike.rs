//! Which chain of payloads begins most like another one. An open chain begins with its first link, a closed one wherever it
//! suits.

use std::collections::BTreeMap;

use crate::chains::Chain;

/// A chain that begins like another one: which it is, the places that both are read from, and for how many links they agree.
#[derive(Clone, Copy, Debug, PartialEq, Eq)]
pub struct Alike {
    pub place: usize,
    pub from: usize,
    pub other_from: usize,
    pub shared: usize,
}

/// The one of the other chains that shares the longest beginning with a chain; of several, one of the same kind and length if
/// there is one, else the first. The time is in proportion to the links of all, but for a logarithm.
pub fn most_alike<'a>(chain: &Chain<'_>, others: impl Iterator<Item = (usize, Chain<'a>)>) -> Option<Alike> {
    let reader = Reader::of(chain);
    let fits = |other: &Chain<'_>| other.closed == chain.closed && other.len() == chain.len();
    let alike = others.map(|(place, other)| (Alike { place, ..reader.read(&other) }, fits(&other)));
    let rank = |(alike, fits): &(Alike, bool)| (alike.shared, *fits);
    alike.reduce(|best, next| if rank(&next) > rank(&best) { next } else { best }).map(|(alike, _)| alike)
}

/// What is known of a chain before others are compared with it.
enum Reader<'a> {
    Open(&'a [u32], Vec<usize>),
    Closed(usize, Occurrences),
}

impl<'a> Reader<'a> {
    /// Prepares a chain.
    fn of(chain: &Chain<'a>) -> Self {
        match chain.closed {
            false => Self::Open(chain.payloads, borders(chain.payloads)),
            true => Self::Closed(chain.len(), Occurrences::of(round(chain))),
        }
    }

    /// The longest beginning that another chain shares.
    fn read(&self, other: &Chain<'_>) -> Alike {
        let alike = |from, other_from, shared| Alike { place: 0, from, other_from, shared };
        match self {
            Self::Open(word, borders) => {
                let (from, shared) = match other.closed {
                    false => (0, common_beginning(word, other.payloads)),
                    true => beginning_within(word, borders, other),
                };
                alike(0, from, shared)
            }
            Self::Closed(length, occurrences) => {
                let most = other.len().min(*length);
                let (end, shared, other_end) = match other.closed {
                    false => occurrences.beginning(&other.payloads[..most]),
                    true => occurrences.longest(round(other), most),
                };
                alike((end - shared) % length, (other_end - shared) % other.len(), shared)
            }
        }
    }
}

/// The payloads of a closed chain, as far as a word that begins at any of its places and goes round once.
fn round(chain: &Chain<'_>) -> impl Iterator<Item = u32> {
    chain.payloads.iter().chain(&chain.payloads[..chain.len() - 1]).copied()
}

/// For how many letters two words agree.
fn common_beginning(word: &[u32], other: &[u32]) -> usize {
    word.iter().zip(other).take_while(|(letter, other)| letter == other).count()
}

/// For each beginning of a word, by its length, the longest shorter beginning that is also its end.
fn borders(word: &[u32]) -> Vec<usize> {
    let mut borders = vec![0; word.len() + 1];
    for k in 1..word.len() {
        borders[k + 1] = onward(word, &borders, borders[k], word[k]);
    }
    borders
}

/// The longest beginning of a word that ends a text, after one more letter of the text.
fn onward(word: &[u32], borders: &[usize], mut matched: usize, letter: u32) -> usize {
    while matched > 0 && word.get(matched) != Some(&letter) {
        matched = borders[matched];
    }
    matched + usize::from(word.get(matched) == Some(&letter))
}

/// The longest beginning of a word that a closed chain has: from which place on, and its length.
fn beginning_within(word: &[u32], borders: &[usize], chain: &Chain<'_>) -> (usize, usize) {
    let (mut from, mut shared, mut matched) = (0, 0, 0);
    for (k, letter) in round(chain).enumerate() {
        matched = onward(word, borders, matched, letter);
        // A word that goes round more than once has no more in common with the chain than one that goes round once.
        if matched.min(chain.len()) > shared {
            (from, shared) = ((k + 1 - matched) % chain.len(), matched.min(chain.len()));
        }
    }
    (from, shared)
}

/// All words that occur in a text, as an automaton: the suffix automaton of the text.
struct Occurrences {
    states: Vec<State>,
}

/// Words that end at the same places of the text.
#[derive(Clone, Default)]
struct State {
    /// The length of the longest of them, and the place behind one of their ends
    length: usize,
    end: usize,
    /// The state of the longest word that ends them all and ends elsewhere too; none for the empty word
    shorter: Option<usize>,
    /// The state after one more letter
    onward: Onward,
}

/// States by letters. Of a long text most have one alone, for which a map would be large.
#[derive(Clone, Default)]
enum Onward {
    #[default]
    None,
    One(u32, usize),
    Many(BTreeMap<u32, usize>),
}

impl Onward {
    /// The state of a letter.
    fn get(&self, letter: u32) -> Option<usize> {
        match self {
            Self::None => None,
            Self::One(only, state) => (*only == letter).then_some(*state),
            Self::Many(states) => states.get(&letter).copied(),
        }
    }

    /// Makes a state that of a letter.
    fn insert(&mut self, letter: u32, state: usize) {
        match self {
            Self::None => *self = Self::One(letter, state),
            Self::One(only, _) if *only == letter => *self = Self::One(letter, state),
            Self::One(only, first) => *self = Self::Many([(*only, *first), (letter, state)].into()),
            Self::Many(states) => drop(states.insert(letter, state)),
        }
    }
}

impl Occurrences {
    /// The words that occur in a text.
    fn of(text: impl Iterator<Item = u32>) -> Self {
        let mut occurrences = Self { states: vec![State::default()] };
        text.fold(0, |last, letter| occurrences.add(last, letter));
        occurrences
    }

    /// Adds a letter behind the text, whose state is `last`; answers the new text's state.
    fn add(&mut self, last: usize, letter: u32) -> usize {
        let length = self.states[last].length + 1;
        let new = self.push(State { length, end: length, ..State::default() });
        let mut at = Some(last);
        while let Some(state) = at.filter(|&state| self.states[state].onward.get(letter).is_none()) {
            self.states[state].onward.insert(letter, new);
            at = self.states[state].shorter;
        }
        self.states[new].shorter = Some(at.map_or(0, |state| self.exactly(state, letter)));
        new
    }

    /// The state of the longest word of a state with a letter behind it, and of no longer word.
    fn exactly(&mut self, state: usize, letter: u32) -> usize {
        let State { length, onward, .. } = &self.states[state];
        let (to, length) = (onward.get(letter).unwrap_or(0), length + 1);
        if self.states[to].length == length {
            return to;
        }
        let part = self.push(State { length, ..self.states[to].clone() });
        self.states[to].shorter = Some(part);
        let mut at = Some(state);
        while let Some(state) = at.filter(|&state| self.states[state].onward.get(letter) == Some(to)) {
            self.states[state].onward.insert(letter, part);
            at = self.states[state].shorter;
        }
        part
    }

    /// Adds a state.
    fn push(&mut self, state: State) -> usize {
        self.states.push(state);
        self.states.len() - 1
    }

    /// The longest beginning of a word that occurs: the place behind it in the text, its length, and the place behind it in
    /// the word.
    fn beginning(&self, word: &[u32]) -> (usize, usize, usize) {
        let (mut state, mut length) = (0, 0);
        while let Some(to) = word.get(length).and_then(|&letter| self.states[state].onward.get(letter)) {
            (state, length) = (to, length + 1);
        }
        (self.end(state, length), length, length)
    }

    /// The longest word of at most so many letters that occurs in the text and in another one: the place behind it in the
    /// text, its length, and the place behind it in the other text.
    fn longest(&self, other: impl Iterator<Item = u32>, most: usize) -> (usize, usize, usize) {
        let (mut state, mut length) = (0, 0);
        let mut best = (0, 0, 0);
        for (k, letter) in other.enumerate() {
            (state, length) = self.step(state, length, letter);
            (state, length) = self.cut(state, length.min(most));
            if length > best.1 {
                best = (self.end(state, length), length, k + 1);
            }
        }
        best
    }

    /// The longest word that occurs among the ends of a word with a letter behind it.
    fn step(&self, mut state: usize, mut length: usize, letter: u32) -> (usize, usize) {
        loop {
            if let Some(to) = self.states[state].onward.get(letter) {
                return (to, length + 1);
            }
            match self.states[state].shorter {
                Some(shorter) => (state, length) = (shorter, self.states[shorter].length),
                None => return (0, 0),
            }
        }
    }

    /// The state of the last letters of a word, so many as are left of it.
    fn cut(&self, mut state: usize, length: usize) -> (usize, usize) {
        while let Some(shorter) =
            self.states[state].shorter.filter(|&shorter| self.states[shorter].length >= length)
        {
            state = shorter;
        }
        (state, length)
    }

    /// The place behind a word of a state; of the empty word the beginning.
    fn end(&self, state: usize, length: usize) -> usize {
        if length == 0 { 0 } else { self.states[state].end }
    }
}

#[cfg(test)]
mod tests {
    use super::*;

    /// The places that a chain may be read from.
    fn starts(chain: &Chain<'_>) -> std::ops::Range<usize> {
        0..if chain.closed { chain.len() } else { 1 }
    }

    /// For how many links two chains agree from given places on.
    fn agree(one: &Chain<'_>, from: usize, other: &Chain<'_>, other_from: usize) -> usize {
        let pairs = one.from(from).zip(other.from(other_from));
        pairs.take_while(|(one, other)| one == other).count()
    }

    #[test]
    fn of_equal_beginnings_one_that_fits_is_taken_and_else_the_first() {
        let open = |payloads| Chain { closed: false, first: 1, payloads };
        let place = |others: [&Chain<'_>; 3]| {
            most_alike(&open(&[1, 2, 3]), others.into_iter().copied().enumerate()).unwrap().place
        };
        let (fits, other) = (open(&[1, 2, 4]), open(&[1, 2]));
        let closed = Chain { closed: true, ..fits };
        assert_eq!(place([&other, &closed, &fits]), 2);
        assert_eq!(place([&closed, &fits, &fits]), 1);
        assert_eq!(place([&other, &closed, &other]), 0);
        assert_eq!(place([&fits, &other, &open(&[1, 2, 3, 4])]), 2);
    }

    #[test]
    fn no_beginning_is_longer() {
        let words: Vec<Vec<u32>> = (1..=5u32)
            .flat_map(|length| {
                (0..2u32.pow(length)).map(move |k| (0..length).map(|place| k >> place & 1).collect())
            })
            .collect();
        let chain = |payloads, closed| Chain { closed, first: 1, payloads };
        let all: Vec<Chain<'_>> =
            words.iter().flat_map(|word| [chain(word.as_slice(), false), chain(word, true)]).collect();
        for (one, other) in all.iter().flat_map(|one| all.iter().map(move |other| (one, other))) {
            let alike = most_alike(one, [(7, *other)].into_iter()).unwrap();
            let pairs = starts(one).flat_map(|from| starts(other).map(move |other_from| (from, other_from)));
            let longest = pairs.map(|(from, other_from)| agree(one, from, other, other_from)).max();
            assert_eq!(Some(alike.shared), longest, "{one:?} {other:?}");
            assert!(starts(one).contains(&alike.from) && starts(other).contains(&alike.other_from));
            assert_eq!(agree(one, alike.from, other, alike.other_from), alike.shared, "{one:?} {other:?}");
            assert_eq!(alike.place, 7);
        }
    }
}
