//! What a case is, how it is made smaller, and which answers were seen.

use crate::random::Random;
use std::collections::BTreeMap;
use std::fmt::Debug;

/// What a case came to: a name for the kind of answer, and the difference if there is one.
pub struct Seen {
    pub answer: String,
    pub difference: Option<String>,
}

impl Seen {
    /// Names a refusal by its number.
    pub fn of(refusal: u32, otherwise: &str, difference: Option<String>) -> Seen {
        let answer = if refusal == 0 {
            otherwise.to_string()
        } else {
            format!("refused {refusal}")
        };
        Seen { answer, difference }
    }
}

/// One call with its input.
pub trait Case: Clone + Debug {
    /// The call's name.
    const CALL: &'static str;
    /// Every kind of answer that the cases must have come to.
    const ANSWERS: &'static [&'static str];

    /// Inputs at each limit of docs/RULES.md and one past it.
    fn limits() -> Vec<Self>;
    fn random(random: &mut Random) -> Self;
    /// Runs both programs, with buffers that hold noise.
    fn run(&self, noise: &mut Random) -> Seen;
    /// Inputs with something taken away, the smallest first.
    fn smaller(&self) -> Vec<Self>;
}

/// How often each call came to each kind of answer.
#[derive(Default)]
pub struct Tally {
    counts: BTreeMap<(&'static str, String), u64>,
}

impl Tally {
    pub fn note(&mut self, call: &'static str, answer: String) {
        *self.counts.entry((call, answer)).or_default() += 1;
    }

    pub fn print(&self) {
        for ((call, answer), count) in &self.counts {
            println!("{call:<12} {answer:<18} {count:>9}");
        }
    }

    /// The kinds of answer that a call never came to.
    pub fn missing(&self, call: &'static str, answers: &[&str]) -> Vec<String> {
        let unseen = |answer: &&&str| !self.counts.contains_key(&(call, answer.to_string()));
        let missing = answers.iter().filter(unseen);
        missing.map(|answer| format!("{call}: {answer}")).collect()
    }
}

/// Most inputs that are tried to make one smaller.
const TRIES: usize = 50_000;

/// The smallest input found that still differs, and how. After a success it goes on behind what failed just before, and
/// ends with a whole round without one.
pub fn shrunk<C: Case>(case: &C, noise: impl Fn() -> Random) -> (C, String) {
    let differs = |case: &C| case.run(&mut noise()).difference;
    let mut smallest = case.clone();
    let mut how = differs(case).unwrap_or_default();
    let (mut from, mut tries) = (0, 0);
    while tries < TRIES {
        let candidates = smallest.smaller();
        let rest = candidates.iter().enumerate().skip(from);
        let mut found = rest.filter_map(|(place, one)| {
            tries += 1;
            differs(one).map(|difference| (place, one, difference))
        });
        match found.next() {
            Some((place, one, difference)) => (from, smallest, how) = (place, one.clone(), difference),
            None if from == 0 => break,
            None => from = 0,
        }
    }
    (smallest, how)
}

/// A list without a half, a quarter and so on of it, down to one item.
pub fn shorter<T: Clone>(list: &[T]) -> Vec<Vec<T>> {
    let mut all = Vec::new();
    let mut part = list.len();
    while part > 0 {
        for from in (0..list.len()).step_by(part) {
            let to = (from + part).min(list.len());
            all.push([&list[..from], &list[to..]].concat());
        }
        part /= 2;
    }
    all
}

/// Smaller numbers: none, one, half, one less.
pub fn less(number: u32) -> Vec<u32> {
    let candidates = [0, 1, number / 2, number.saturating_sub(1)];
    candidates.into_iter().filter(|&one| one < number).collect()
}

/// Says where two things that should be equal are not.
pub fn unequal<T: PartialEq + Debug>(what: &str, proved: &T, independent: &T) -> Option<String> {
    (proved != independent).then(|| format!("{what}: proved {proved:?}, independent {independent:?}"))
}

/// The same for long lists: the first place where they differ.
pub fn unequal_lists<T: PartialEq + Debug>(what: &str, proved: &[T], independent: &[T]) -> Option<String> {
    let place = proved.iter().zip(independent).position(|(a, b)| a != b);
    let place = place.or((proved.len() != independent.len()).then_some(proved.len().min(independent.len())))?;
    let (proved, independent) = (proved.get(place), independent.get(place));
    Some(format!(
        "{what} at place {place}: proved {proved:?}, independent {independent:?}"
    ))
}

/// A lent part of a larger buffer, which begins at any byte and has noise before and behind it.
pub struct Lent {
    buffer: Vec<u8>,
    before: Vec<u8>,
    start: usize,
    length: usize,
}

/// Bytes of noise behind a lent part.
const BEHIND: usize = 24;

impl Lent {
    pub fn new(content: &[u8], noise: &mut Random) -> Lent {
        let start = noise.within(0, 17) as usize;
        let length = content.len();
        let mut buffer = noise.noise(start + length + BEHIND);
        buffer[start..start + length].copy_from_slice(content);
        Lent { before: buffer.clone(), buffer, start, length }
    }

    pub fn part(&mut self) -> &mut [u8] {
        &mut self.buffer[self.start..self.start + self.length]
    }

    /// The lent part must be what the independent program left, and all around it what it was.
    pub fn unequal(&mut self, what: &str, independent: &[u8]) -> Option<String> {
        let end = self.start + self.length;
        let around = self.buffer[..self.start] != self.before[..self.start] || self.buffer[end..] != self.before[end..];
        if around {
            return Some(format!("{what}: a byte beside it was changed"));
        }
        unequal_lists(what, self.part(), independent)
    }
}

/// A lent part of a larger list, which has noise before and behind it.
pub struct LentList<T> {
    buffer: Vec<T>,
    before: Vec<T>,
    count: usize,
}

/// Items of noise on each side of a lent list.
const BESIDE: usize = 2;

impl<T: Copy + PartialEq + Debug> LentList<T> {
    pub fn new(items: &[T], mut noise: impl FnMut() -> T) -> LentList<T> {
        let mut guards = || std::array::from_fn::<T, BESIDE, _>(|_| noise());
        let buffer = [&guards()[..], items, &guards()].concat();
        LentList { before: buffer.clone(), buffer, count: items.len() }
    }

    pub fn part(&mut self) -> &mut [T] {
        &mut self.buffer[BESIDE..BESIDE + self.count]
    }

    /// As for bytes.
    pub fn unequal(&mut self, what: &str, independent: &[T]) -> Option<String> {
        let end = BESIDE + self.count;
        if self.buffer[..BESIDE] != self.before[..BESIDE] || self.buffer[end..] != self.before[end..] {
            return Some(format!("{what}: an item beside the list was changed"));
        }
        unequal_lists(what, self.part(), independent)
    }
}
